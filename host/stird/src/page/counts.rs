//! The calls of a day, as tables.
use super::Html;
use crate::today::{Day, SignedBy, Tally, MOST_SIGNERS};
use stir::Rule;
use stir_trust::revocation::moment;

/// How many signers are shown.
const SHOWN: usize = 30;

impl Html {
    /// What came of the calls of a day.
    pub(super) fn day(&mut self, name: &'static str, day: &Day) -> &mut Html {
        let start = moment(day.start);
        let date = start.split_once('T').map_or(&start[..], |(date, _)| date);
        self.markup("<section><h3>").markup(name).markup(", ").text(date).markup("</h3>\n<p>");
        if day.all.all() == 0 {
            return self.markup("No call was judged.</p></section>\n");
        }
        let Tally { valid, refused, replay, unjudged } = day.all;
        self.say(day.all.all()).markup(" judged: <span class=\"good\">").say(valid);
        self.markup(" valid</span>, <span class=\"bad\">").say(refused).markup(" refused</span>, ");
        self.say(replay).markup(" replays, ").say(unjudged).markup(" unjudged</p>\n");
        self.rules(day).signers(day).markup("</section>\n")
    }

    /// Which rules were broken, the most often broken one first.
    fn rules(&mut self, day: &Day) -> &mut Html {
        let mut rules: Vec<(u64, u32)> =
            day.rules.iter().map(|(rule, count)| (*count, *rule)).collect();
        rules.sort_unstable_by_key(|(count, rule)| (std::cmp::Reverse(*count), *rule));
        let Some((most, _)) = rules.first().copied() else { return self };
        self.markup("<table><tr><th class=\"n\">calls</th><th class=\"n\">rule</th>");
        self.markup("<th>what was broken</th><th></th></tr>\n");
        for (count, number) in rules {
            let broken = Rule::of(number).map_or("", |rule| rule.broken);
            self.markup("<tr><td class=\"n\">").say(count).markup("</td><td class=\"n\">");
            self.say(number).markup("</td><td>").text(broken).markup("</td><td class=\"w\">");
            self.markup("<meter min=\"0\" max=\"").say(most).markup("\" value=\"").say(count);
            self.markup("\"></meter></td></tr>\n");
        }
        self.markup("</table>\n")
    }

    /// Who signed, the one with most calls first.
    fn signers(&mut self, day: &Day) -> &mut Html {
        let mut signers: Vec<(&SignedBy, &Tally)> = day.signers.iter().collect();
        signers.sort_unstable_by_key(|(by, tally)| (std::cmp::Reverse(tally.all()), *by));
        self.markup("<table><tr><th>signed by</th><th class=\"n\">valid</th>");
        self.markup("<th class=\"n\">refused</th><th class=\"n\">replays</th>");
        self.markup("<th class=\"n\">unjudged</th></tr>\n");
        for (by, tally) in signers.iter().take(SHOWN) {
            self.markup("<tr><td>").text(&name(by)).markup("</td>");
            for count in [tally.valid, tally.refused, tally.replay, tally.unjudged] {
                self.markup("<td class=\"n\">").say(count).markup("</td>");
            }
            self.markup("</tr>\n");
        }
        self.markup("</table>\n");
        if let Some(more) = signers.len().checked_sub(SHOWN).filter(|more| *more > 0) {
            self.markup("<p class=\"soft\">and ").say(more).markup(" more</p>\n");
        }
        self
    }
}

/// Who signed, for people.
fn name(by: &SignedBy) -> String {
    match by {
        SignedBy::Code(code) => code.to_string(),
        SignedBy::NoCode => "a certificate without a code".into(),
        SignedBy::Other => format!("all others, past the first {MOST_SIGNERS}"),
        SignedBy::Nobody => "no good signature".into(),
    }
}

#[cfg(test)]
mod tests {
    use super::*;
    use std::collections::{BTreeMap, HashMap};

    fn shown(day: &Day) -> String {
        let mut html = Html::default();
        html.day("Today", day);
        html.as_str().into()
    }

    #[test]
    fn a_day_is_told_by_rule_and_by_signer_the_most_first() {
        let tally = |valid, refused| Tally { valid, refused, ..Tally::default() };
        let day = Day {
            start: 1_767_225_600,
            all: tally(5, 4),
            rules: BTreeMap::from([(2, 1), (17, 3)]),
            signers: HashMap::from([
                (SignedBy::Nobody, tally(0, 1)),
                (SignedBy::Code("<b>".into()), tally(5, 3)),
            ]),
        };
        let text = shown(&day);
        for wanted in [
            "<h3>Today, 2026-01-01</h3>",
            "9 judged: <span class=\"good\">5 valid</span>, <span class=\"bad\">4 refused</span>",
            "the certificate doesn&#39;t cover the number",
            "<meter min=\"0\" max=\"3\" value=\"1\">",
            "<td>&lt;b&gt;</td><td class=\"n\">5</td><td class=\"n\">3</td>",
            "<td>no good signature</td>",
        ] {
            assert!(text.contains(wanted), "{wanted}: {text}");
        }
        let at = |word| text.find(word).expect(word);
        assert!(at("the certificate doesn") < at("there is no Identity field"), "{text}");
        assert!(at("&lt;b&gt;") < at("no good signature"), "{text}");
    }

    #[test]
    fn so_many_signers_are_shown() {
        let count = SHOWN + 2;
        let one = Tally { valid: 1, ..Tally::default() };
        let signers = (0..count).map(|n| (SignedBy::Code(n.to_string().into()), one)).collect();
        let all = Tally { valid: count as u64, ..Tally::default() };
        let text = shown(&Day { signers, all, ..Day::default() });
        assert!(text.contains("<p class=\"soft\">and 2 more</p>"), "{text}");
        assert_eq!(text.matches("<tr>").count(), SHOWN + 1, "{text}");
        assert!(shown(&Day::default()).contains("No call was judged."));
    }
}
