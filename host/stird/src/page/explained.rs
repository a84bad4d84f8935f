//! A call that was explained, rule by rule.
use super::mark::Marked;
use super::{place, Html};
use crate::judge::Explained;
use stir::{Refused, Rule, Verdict};
use stir_trust::revocation::moment;

/// What is told of a call.
pub(super) struct Told {
    /// The call.
    pub message: Vec<u8>,
    /// The second at which it came.
    pub moment: u64,
    /// What comes of it, and where that stands in it; nothing if memory ran out.
    pub said: Option<(Explained, Marked)>,
}

impl Html {
    /// Which rules a call meets.
    pub(super) fn told(&mut self, told: &Told) -> &mut Html {
        self.markup("<h2 id=\"explained\">The call, explained</h2>\n<p>");
        let Some((explained, marked)) = &told.said else {
            return self.markup("Nothing is said of it: memory ran out.</p>\n");
        };
        let Explained { judged, explanation } = explained;
        let broken = match &explanation.verdict {
            Verdict::Passes(_) => {
                self.markup("<span class=\"good\">It breaks no rule</span> at ");
                self.moment(told.moment).markup(". Whether it came before isn't looked at.</p>\n");
                None
            }
            Verdict::Refused(refused) => {
                self.refusal(refused, told.moment);
                Some(refused.rule)
            }
        };
        self.rows(&explanation.holds().collect::<Vec<_>>(), broken);
        self.passports(judged).message(&told.message, marked);
        if let Some(value) = &marked.apart {
            self.markup("<p>The value of that Identity field stands in several lines: </p><pre>\n");
            self.text(&String::from_utf8_lossy(value)).markup("</pre>\n");
        }
        self
    }

    /// A row for each rule. The one on replays asks for the tickets that passed, so it isn't tried.
    fn rows(&mut self, hold: &[u32], broken: Option<u32>) -> &mut Html {
        self.markup("<table><tr><th class=\"n\">rule</th><th></th><th>what is asked</th>");
        self.markup("<th>standard</th></tr>\n");
        for rule in Rule::of_one_call().chain(Rule::of(Rule::REPLAY)) {
            let is_broken = broken == Some(rule.number);
            self.markup("<tr><td class=\"n\">").say(rule.number).markup("</td>");
            self.markup(match (is_broken, hold.contains(&rule.number)) {
                (true, _) => "<td class=\"bad s\">broken</td><td class=\"bad\">",
                (false, true) => "<td class=\"good s\">holds</td><td>",
                (false, false) => "<td class=\"soft s\">not tried</td><td class=\"soft\">",
            });
            self.text(if is_broken { rule.broken } else { rule.holds }).markup("</td><td>");
            self.text(rule.standard).markup("</td></tr>\n");
        }
        self.markup("</table>\n")
    }

    /// A moment, with its second.
    fn moment(&mut self, second: u64) -> &mut Html {
        self.text(&moment(second)).markup(" (").say(second).markup(")")
    }

    /// Why a call is refused.
    fn refusal(&mut self, refused: &Refused, second: u64) {
        let Refused { rule, code, field, part } = *refused;
        let broken = Rule::of(rule).map_or("", |rule| rule.broken);
        self.markup("<span class=\"bad\">Refused by rule ").say(rule).markup("</span> at ");
        self.moment(second).markup(": ").text(broken).markup(". Code ").say(code);
        self.markup(" ").text(crate::judge::reason_of(code)).markup(", place ");
        self.say(format_args!("{field}.{part}")).markup(" (").text(&place::words(refused));
        self.markup(").</p>\n");
    }
}

#[cfg(test)]
mod tests {
    use super::*;
    use crate::judge::{Judged, Outcome};
    use stir::{Explanation, Passes};

    fn shown(verdict: Verdict, hold: impl Iterator<Item = u32>) -> String {
        let lines = hold.map(|rule| format!("1 {rule} ok\n")).collect();
        let explanation = Explanation { lines, verdict };
        let judged = Judged::new(0, Outcome::Valid);
        let said = Some((Explained { judged, explanation }, Marked::default()));
        let mut html = Html::default();
        html.told(&Told { message: b"<x>".to_vec(), moment: 7, said });
        html.as_str().into()
    }

    #[test]
    fn rules_hold_up_to_the_first_that_is_broken() {
        for rule in [1, 9, 17] {
            let not_tried = Rule::all().len() - rule as usize;
            let refused = Refused { rule, code: 437, field: 1, part: 0 };
            let text = shown(Verdict::Refused(refused), 1..rule);
            let count = |word: &str| text.matches(&format!(">{word}</td>")).count();
            let found = (count("holds") as u32, count("broken"), count("not tried"));
            assert_eq!(found, (rule - 1, 1, not_tried), "{text}");
            let head = format!("Refused by rule {rule}</span> at 1970-01-01T00:00:07Z (7): ");
            assert!(text.contains(&head) && text.contains("place 1.0 ("), "{text}");
            assert!(text.contains("<pre>\n&lt;x&gt;</pre>"), "{text}");
        }
        let passes = Verdict::Passes(Passes { ticket: [0; 32], last: 67 });
        let text = shown(passes, Rule::of_one_call().map(|rule| rule.number));
        let count = |word: &str| text.matches(&format!(">{word}</td>")).count();
        let found = (count("holds"), count("broken"), count("not tried"));
        assert_eq!(found, (Rule::all().len() - 1, 0, 1), "{text}");
        assert!(text.contains("It breaks no rule</span> at 1970-01-01T00:00:07Z (7)."), "{text}");
    }

    #[test]
    fn why_nothing_is_said_is_told() {
        let mut html = Html::default();
        html.told(&Told { message: vec![], moment: 7, said: None });
        let text = html.as_str();
        assert!(text.contains("Nothing is said of it: memory ran out.</p>"), "{text}");
    }
}
