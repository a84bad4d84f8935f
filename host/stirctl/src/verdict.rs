//! What comes of a call: its line in a report (docs/FORMATS.md, "Report"), and what that means for
//! a carrier (docs/RULES.md, docs/OPERATING.md).

use crate::files::number;
use std::io::Write;
use stir::{Refused, Rule};

/// What comes of a call.
#[derive(Clone, Copy, Debug, PartialEq, Eq)]
pub(crate) enum Verdict {
    Valid,
    Refused(Refused),
    /// It breaks no other rule, and this call is valid with the same last PASSporT.
    Replay(u64),
    /// The file of this field's chain couldn't be read.
    Unread(u32),
}

/// The rule on replay, and that on chains which are there.
const REPLAY: u32 = 18;
pub(crate) const CHAIN: u32 = 10;

impl Verdict {
    /// Writes the line of the call of this number.
    pub fn write(&self, call: u64, out: &mut impl Write) -> std::io::Result<()> {
        match self {
            Verdict::Valid => writeln!(out, "{call} valid - - -"),
            Verdict::Refused(Refused { rule, code, field, part }) => {
                writeln!(out, "{call} refused {code} {rule} {field}.{part}")
            }
            Verdict::Replay(of) => writeln!(out, "{call} replay 438 18 {of}"),
            Verdict::Unread(field) => writeln!(out, "{call} unread - 10 {field}.0"),
        }
    }

    /// The call's number and the verdict of a line, without its LF; nothing if it is another line.
    pub fn read(line: &[u8]) -> Option<(u64, Verdict)> {
        let words: Vec<&[u8]> = line.split(|byte| *byte == b' ').collect();
        let [call, answer, code, rule, place] = words[..] else { return None };
        let call = number(call, u64::MAX).filter(|call| *call > 0)?;
        let small = |word| number(word, u32::MAX.into()).map(|number| number as u32);
        let parts = || {
            let dot = place.iter().position(|byte| *byte == b'.')?;
            Some((small(place.get(..dot)?)?, small(place.get(dot + 1..)?)?))
        };
        let verdict = match (answer, code, rule) {
            (b"valid", b"-", b"-") if place == b"-" => Verdict::Valid,
            (b"replay", b"438", b"18") => Verdict::Replay(number(place, u64::MAX)?),
            (b"unread", b"-", b"10") => Verdict::Unread(parts()?.0),
            (b"refused", ..) => {
                let (field, part) = parts()?;
                Verdict::Refused(Refused { rule: small(rule)?, code: small(code)?, field, part })
            }
            _ => return None,
        };
        Some((call, verdict))
    }

    pub fn answer(&self) -> Answer {
        match self {
            Verdict::Valid => Answer::Valid,
            Verdict::Refused(_) => Answer::Refused,
            Verdict::Replay(_) => Answer::Replay,
            Verdict::Unread(_) => Answer::Unread,
        }
    }

    pub fn rule(&self) -> Option<u32> {
        match self {
            Verdict::Valid => None,
            Verdict::Refused(refused) => Some(refused.rule),
            Verdict::Replay(_) => Some(REPLAY),
            Verdict::Unread(_) => Some(CHAIN),
        }
    }

    /// The response code.
    pub fn response(&self) -> Option<u32> {
        match self {
            Verdict::Refused(refused) => Some(refused.code),
            Verdict::Replay(_) => Some(438),
            Verdict::Valid | Verdict::Unread(_) => None,
        }
    }

    pub fn place(&self) -> Option<String> {
        match self {
            Verdict::Valid => None,
            Verdict::Refused(Refused { field, part, .. }) => Some(format!("{field}.{part}")),
            Verdict::Replay(of) => Some(of.to_string()),
            Verdict::Unread(field) => Some(format!("{field}.0")),
        }
    }

    /// The Identity field that the place names, if it names one.
    pub fn field(&self) -> Option<u32> {
        match self {
            Verdict::Refused(refused) => Some(refused.field),
            Verdict::Unread(field) => Some(*field),
            Verdict::Valid | Verdict::Replay(_) => None,
        }
        .filter(|field| *field > 0)
    }

    /// Whether the PASSporTs' signatures are good, by certificates that lead to a trust anchor:
    /// rules 11 to 16 hold.
    pub fn is_signed(&self) -> bool {
        match self {
            Verdict::Valid | Verdict::Replay(_) => true,
            Verdict::Refused(refused) => refused.is_signed(),
            Verdict::Unread(_) => false,
        }
    }

    /// The reason phrase of the response (RFC 8224, section 6.2.2; RFC 3261, section 21.4.1).
    pub fn phrase(&self) -> &'static str {
        match self.response() {
            Some(400) => "Bad Request",
            Some(403) => "Stale Date",
            Some(428) => "Use Identity Header",
            Some(436) => "Bad Identity Info",
            Some(437) => "Unsupported Credential",
            Some(438) => "Invalid Identity Header",
            _ => "",
        }
    }

    /// The value of the parameter verstat (3GPP TS 24.229, section 7.2A.20). A call of which
    /// nothing was validated has no verdict on its number.
    pub fn verstat(&self) -> &'static str {
        match (self, self.response()) {
            (Verdict::Valid, _) => "TN-Validation-Passed",
            (Verdict::Unread(_), _) | (_, Some(400 | 428 | 436)) => "No-TN-Validation",
            _ => "TN-Validation-Failed",
        }
    }

    /// The value of the Reason header field (RFC 9410), if the response is one of STIR's.
    pub fn reason(&self) -> String {
        match self.response() {
            None | Some(400) => String::new(),
            Some(code) => format!("STIR;cause={code};text=\"{}\"", self.phrase()),
        }
    }

    /// What it means that the call isn't valid.
    pub fn meaning(&self) -> String {
        match self {
            Verdict::Valid => String::new(),
            Verdict::Refused(refused) => broken(refused.rule).into(),
            Verdict::Replay(of) => format!("{}, with call {of}", broken(REPLAY)),
            Verdict::Unread(_) => UNREAD.into(),
        }
    }
}

/// What it means that the file of a chain can't be read.
pub(crate) const UNREAD: &str = "the file of the certificates couldn't be read";

/// What it means that a rule is broken.
pub(crate) fn broken(rule: u32) -> &'static str {
    Rule::of(rule).map_or("", |rule| rule.broken)
}

/// The four answers, in the order in which they are counted.
#[derive(Clone, Copy, Debug, PartialEq, Eq)]
pub(crate) enum Answer {
    Valid,
    Refused,
    Replay,
    Unread,
}

impl Answer {
    pub const ALL: [Answer; 4] = [Answer::Valid, Answer::Refused, Answer::Replay, Answer::Unread];

    pub fn word(self) -> &'static str {
        match self {
            Answer::Valid => "valid",
            Answer::Refused => "refused",
            Answer::Replay => "replay",
            Answer::Unread => "unread",
        }
    }
}

#[cfg(test)]
mod tests {
    use super::*;

    #[test]
    fn a_line_that_is_read_is_written_again() {
        for line in [
            "1 valid - - -",
            "2 refused 403 9 1.0",
            "18446744073709551615 refused 438 6 16.20",
            "3 replay 438 18 1",
            "4 unread - 10 2.0",
        ] {
            let (call, verdict) = Verdict::read(line.as_bytes()).expect(line);
            let mut out = Vec::new();
            verdict.write(call, &mut out).unwrap();
            assert_eq!(out, format!("{line}\n").as_bytes());
        }
        for line in ["", "0 valid - - -", "1 valid - - 0", "1 valid", "past 1", "1 replay 438 18 x"]
        {
            assert_eq!(Verdict::read(line.as_bytes()), None, "{line}");
        }
    }

    #[test]
    fn a_verdict_has_the_words_of_the_standards() {
        for (line, verstat, reason) in [
            ("1 valid - - -", "TN-Validation-Passed", ""),
            ("1 unread - 10 1.0", "No-TN-Validation", ""),
            ("1 refused 400 1 0.0", "No-TN-Validation", ""),
            (
                "1 refused 428 2 0.0",
                "No-TN-Validation",
                "STIR;cause=428;text=\"Use Identity Header\"",
            ),
            (
                "1 replay 438 18 7",
                "TN-Validation-Failed",
                "STIR;cause=438;text=\"Invalid Identity Header\"",
            ),
        ] {
            let (_, verdict) = Verdict::read(line.as_bytes()).expect(line);
            assert_eq!((verdict.verstat(), verdict.reason().as_str()), (verstat, reason), "{line}");
        }
    }
}
