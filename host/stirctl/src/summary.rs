//! Counts of calls: by rule, by signer, by the certificate that is named if nothing shows who
//! signed, and by hour; as a table.

use crate::outputs::Row;
use crate::verdict::{broken, Answer, Verdict, UNREAD};
use std::collections::BTreeMap;

/// So many signers are counted by themselves, those after them together: whoever calls may name any
/// x5u.
const MOST_NAMES: usize = 10_000;
const OTHERS: &str = "others";

/// How wide the names of a table are.
const WIDTH: usize = 64;

/// How many calls had each answer.
#[derive(Clone, Copy, Debug, Default, PartialEq, Eq)]
pub(crate) struct Counts([u64; 4]);

impl Counts {
    fn add(&mut self, answer: Answer) {
        if let Some(count) = self.0.get_mut(answer as usize) {
            *count += 1;
        }
    }

    /// How many calls had this one.
    pub fn of(&self, answer: Answer) -> u64 {
        self.0.get(answer as usize).copied().unwrap_or_default()
    }

    /// How many there were in all.
    pub fn all(&self) -> u64 {
        self.0.iter().sum()
    }
}

/// Rows of names and their counts, under a title.
#[derive(Debug)]
pub(crate) struct Part {
    pub title: &'static str,
    pub rows: Vec<(String, Counts)>,
}

/// Counts of calls.
#[derive(Debug, Default)]
pub(crate) struct Summary {
    all: Counts,
    rules: BTreeMap<(u32, bool), Counts>,
    signers: BTreeMap<String, Counts>,
    named: BTreeMap<String, Counts>,
    hours: BTreeMap<u64, Counts>,
}

impl Summary {
    /// Counts a call.
    pub fn add(&mut self, row: &Row<'_>, verdict: &Verdict) {
        let answer = verdict.answer();
        self.all.add(answer);
        if let Some(rule) = verdict.rule() {
            self.rules.entry((rule, answer == Answer::Unread)).or_default().add(answer);
        }
        // The certificate of a call whose signatures aren't good may be a forger's choice, so it
        // gets no row among the signers.
        let (names, codes) = match verdict.is_signed() {
            true => (&mut self.signers, row.signer),
            false => (&mut self.named, row.named),
        };
        let name = [codes, row.x5u, "none"].into_iter().find(|name| !name.is_empty());
        let name = name.filter(|name| names.len() < MOST_NAMES || names.contains_key(*name));
        names.entry(name.unwrap_or(OTHERS).to_owned()).or_default().add(answer);
        self.hours.entry(row.moment / 3_600).or_default().add(answer);
    }

    /// All calls.
    pub fn all(&self) -> &Counts {
        &self.all
    }

    /// The first and the last day of the calls.
    pub fn days(&self) -> String {
        let day = |hour: &u64| date(hour * 3_600).0;
        match (self.hours.keys().next().map(day), self.hours.keys().next_back().map(day)) {
            (Some(first), Some(last)) if first == last => first,
            (Some(first), Some(last)) => format!("{first} to {last}"),
            _ => "no day".into(),
        }
    }

    /// The four tables. The signers of most calls come first.
    pub fn parts(&self) -> [Part; 4] {
        let rules = self.rules.iter().map(|((rule, is_unread), counts)| {
            let what = if *is_unread { UNREAD } else { broken(*rule) };
            (format!("{rule} {}", what.split(',').next().unwrap_or(what)), *counts)
        });
        let hours = self.hours.iter().map(|(hour, counts)| {
            let (day, time) = date(hour * 3_600);
            (format!("{day} {}", time.get(..5).unwrap_or_default()), *counts)
        });
        [
            Part { title: "by rule", rows: rules.collect() },
            Part { title: "by signer", rows: by_calls(&self.signers) },
            Part {
                title: "by named certificate, not shown to have signed",
                rows: by_calls(&self.named),
            },
            Part { title: "by hour (UTC)", rows: hours.collect() },
        ]
    }

    /// The counts as lines.
    pub fn table(&self, title: &str) -> String {
        let head = Answer::ALL.map(|answer| format!("{:>9}", answer.word())).concat();
        let calls = format!("calls {}", self.all.all());
        let mut table = format!("{title}, {}\n\n{calls:<WIDTH$}{head}\n", self.days());
        table += &line("all", &self.all);
        for Part { title, rows } in self.parts().iter().filter(|part| !part.rows.is_empty()) {
            table += &format!("\n{title}\n");
            for (name, counts) in rows {
                table += &line(&format!("  {name}"), counts);
            }
        }
        table
    }
}

fn by_calls(names: &BTreeMap<String, Counts>) -> Vec<(String, Counts)> {
    let mut rows: Vec<_> = names.iter().map(|(name, counts)| (name.clone(), *counts)).collect();
    rows.sort_by_key(|(_, counts)| std::cmp::Reverse(counts.all()));
    rows
}

fn line(name: &str, counts: &Counts) -> String {
    let counts = Answer::ALL.map(|answer| format!("{:>9}", counts.of(answer))).concat();
    format!("{name:<WIDTH$}{counts}\n")
}

/// The day and the time of day of a moment (UTC), by the Gregorian calendar: days are counted from
/// March 1 of the year 0, so that a leap day is the last of its year.
pub(crate) fn date(moment: u64) -> (String, String) {
    let (days, second) = (moment / 86_400 + 719_468, moment % 86_400);
    let (era, day) = (days / 146_097, days % 146_097);
    let year = (day - day / 1_460 + day / 36_524 - day / 146_096) / 365;
    let day = day - (365 * year + year / 4 - year / 100);
    let month = (5 * day + 2) / 153;
    let (day, month) =
        (day - (153 * month + 2) / 5 + 1, if month < 10 { month + 3 } else { month - 9 });
    let year = era * 400 + year + u64::from(month < 3);
    let (hour, minute, second) = (second / 3_600, second / 60 % 60, second % 60);
    (format!("{year:04}-{month:02}-{day:02}"), format!("{hour:02}:{minute:02}:{second:02}"))
}

#[cfg(test)]
mod tests {
    use super::*;

    #[test]
    fn moments_are_dates_of_the_calendar() {
        // By `date -u -d @MOMENT '+%F %T'`.
        for (moment, day, time) in [
            (0, "1970-01-01", "00:00:00"),
            (951_782_399, "2000-02-28", "23:59:59"),
            (951_782_400, "2000-02-29", "00:00:00"),
            (951_868_800, "2000-03-01", "00:00:00"),
            (1_443_208_345, "2015-09-25", "19:12:25"),
            (4_107_542_399, "2100-02-28", "23:59:59"),
            (4_107_542_400, "2100-03-01", "00:00:00"),
            (253_402_300_799, "9999-12-31", "23:59:59"),
        ] {
            assert_eq!(date(moment), (day.to_owned(), time.to_owned()), "{moment}");
        }
    }
}
