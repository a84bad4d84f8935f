//! What is told of a certificate, in words.

use super::told::{Claims, Permitted, Profile, Range, Told};
use crate::summary::date;
use std::fmt;

/// The same in words, a line for each thing that is told.
impl fmt::Display for Told {
    fn fmt(&self, to: &mut fmt::Formatter<'_>) -> fmt::Result {
        writeln!(to, "{}: certificate {}", self.file, self.certificate)?;
        let mut line = |name: &str, value: &str| writeln!(to, "    {name:<12}{value}");
        line("subject", &self.subject)?;
        line("issuer", &self.issuer)?;
        line("serial", &self.serial)?;
        line("valid", &format!("{} to {}", day(self.not_before), day(self.not_after)))?;
        for text in self.profile.iter().flat_map(Profile::lines) {
            line(text.0, &text.1)?;
        }
        self.policies.iter().try_for_each(|policy| line("policy", policy))?;
        self.outside.iter().try_for_each(|broken| line("outside", &broken.to_string()))
    }
}

/// A moment for a person.
fn day(moment: Option<i64>) -> String {
    match moment.map(|moment| (moment, u64::try_from(moment))) {
        None => "a time that can't be read".into(),
        Some((_, Ok(moment))) => {
            let (day, time) = date(moment);
            format!("{day} {time} UTC")
        }
        Some((moment, Err(_))) => format!("{} seconds before 1970", moment.unsigned_abs()),
    }
}

impl Profile {
    /// The names and the values of the lines that are told of it.
    fn lines(&self) -> Vec<(&'static str, String)> {
        let mut lines = Vec::new();
        let length = self.path_length.map_or(String::new(), |it| format!(", path length {it}"));
        lines.push(("authority", if self.ca { format!("yes{length}") } else { "no".into() }));
        lines.extend(self.usage.iter().map(|usage| ("usage", usage.join(", "))));
        lines.push(("key", self.key.clone()));
        if !self.has_list {
            lines.push(("list", "none".into()));
        }
        lines.extend(self.codes.iter().map(|code| ("code", code.clone())));
        let range = |it: &Range| ("range", format!("{} numbers from {} on", it.count, it.start));
        lines.extend(self.ranges.iter().map(range));
        lines.extend(self.numbers.iter().map(|number| ("number", number.clone())));
        lines.extend(self.revocation.iter().map(|at| ("revocation", at.clone())));
        if let Some(Claims { wanted, permitted }) = &self.claims {
            let there = |name: &String| ("claim", format!("{name} has to be there"));
            lines.extend(wanted.iter().map(there));
            lines.extend(permitted.iter().map(|Permitted { claim, values }| {
                let values: Vec<String> = values.iter().map(|it| format!("{it:?}")).collect();
                ("claim", format!("{claim} may be {}", values.join(", ")))
            }));
        }
        lines
    }
}
