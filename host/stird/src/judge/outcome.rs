//! What comes of a call, in the words of the standards.
use super::Attest;
use stir::Refused;

/// What came of a call.
#[derive(Clone, Copy, Debug, PartialEq, Eq)]
pub enum Outcome {
    /// It breaks no rule, and its ticket passed for the first time.
    Valid,
    /// It breaks this rule first, at this place.
    Refused {
        /// The rule.
        rule: u32,
        /// Its response code.
        code: u32,
        /// The Identity field, counted from 1; 0 if it is none.
        field: u32,
        /// The part of it.
        part: u32,
    },
    /// Its ticket passed before: with the call of this number; 0 if that isn't known.
    Replay {
        /// The number of that call.
        winner: u64,
    },
    /// Nothing is said of it: its ticket can't be told from one that passed, or isn't kept; or
    /// memory ran out.
    Unjudged,
}

/// Which values the `verstat` parameter has.
#[derive(Clone, Copy, Debug, Default, PartialEq, Eq)]
pub enum Verstat {
    /// The three values of ATIS-1000074.
    #[default]
    Plain,
    /// The same with the letter of the attestation if the call is valid (3GPP TS 24.229).
    Letter,
}

impl From<Refused> for Outcome {
    fn from(refused: Refused) -> Outcome {
        let Refused { rule, code, field, part } = refused;
        Outcome::Refused { rule, code, field, part }
    }
}

impl Outcome {
    /// Its name in the answers.
    pub fn name(&self) -> &'static str {
        match self {
            Outcome::Valid => "valid",
            Outcome::Refused { .. } => "refused",
            Outcome::Replay { .. } => "replay",
            Outcome::Unjudged => "unjudged",
        }
    }

    /// The SIP response code; 0 if there is none.
    pub fn code(&self) -> u32 {
        match self {
            Outcome::Refused { code, .. } => *code,
            Outcome::Replay { .. } => 438,
            Outcome::Valid | Outcome::Unjudged => 0,
        }
    }

    /// The rule that is broken; 0 if none is.
    pub fn rule(&self) -> u32 {
        match self {
            Outcome::Refused { rule, .. } => *rule,
            Outcome::Replay { .. } => 18,
            Outcome::Valid | Outcome::Unjudged => 0,
        }
    }

    /// The place at which it is broken, if it has one: `FIELD.PART`.
    pub fn place(&self) -> Option<String> {
        match self {
            Outcome::Refused { field, part, .. } => Some(format!("{field}.{part}")),
            Outcome::Valid | Outcome::Replay { .. } | Outcome::Unjudged => None,
        }
    }

    /// The value of the `verstat` parameter (ATIS-1000074, section 5.3): nothing was validated of a
    /// call that is no INVITE, has no PASSporT of its origin, or whose certificates aren't there;
    /// one that breaks another rule has failed.
    pub fn verstat(&self) -> &'static str {
        match self {
            Outcome::Valid => "TN-Validation-Passed",
            Outcome::Refused { code: 400 | 428 | 436, .. } | Outcome::Unjudged => {
                "No-TN-Validation"
            }
            Outcome::Refused { .. } | Outcome::Replay { .. } => "TN-Validation-Failed",
        }
    }

    /// The same in this form, of a call with this attestation.
    ///
    /// ```
    /// use stir::Attest;
    /// use stird::judge::{Outcome, Verstat};
    ///
    /// let valid = |form| Outcome::Valid.verstat_in(form, Some(Attest::B));
    /// assert_eq!(valid(Verstat::Letter), "TN-Validation-Passed-B");
    /// assert_eq!(valid(Verstat::Plain), "TN-Validation-Passed");
    /// ```
    pub fn verstat_in(&self, form: Verstat, attest: Option<Attest>) -> &'static str {
        match (self, form, attest) {
            (Outcome::Valid, Verstat::Letter, Some(Attest::A)) => "TN-Validation-Passed-A",
            (Outcome::Valid, Verstat::Letter, Some(Attest::B)) => "TN-Validation-Passed-B",
            (Outcome::Valid, Verstat::Letter, Some(Attest::C)) => "TN-Validation-Passed-C",
            _ => self.verstat(),
        }
    }

    /// The reason phrase of the code (RFC 8224, section 6.2.2).
    pub fn reason(&self) -> &'static str {
        reason_of(self.code())
    }
}

/// The reason phrase of a code; empty if it has none.
pub fn reason_of(code: u32) -> &'static str {
    match code {
        400 => "Bad Request",
        403 => "Stale Date",
        428 => "Use Identity Header",
        436 => "Bad Identity Info",
        437 => "Unsupported Credential",
        438 => "Invalid Identity Header",
        _ => "",
    }
}

#[cfg(test)]
mod tests {
    use super::*;

    #[test]
    fn a_call_that_isnt_valid_has_a_reason() {
        let refused = Outcome::Refused { rule: 9, code: 403, field: 1, part: 0 };
        assert_eq!((refused.verstat(), refused.reason()), ("TN-Validation-Failed", "Stale Date"));
        assert_eq!((Outcome::Valid.verstat(), Outcome::Valid.code()), ("TN-Validation-Passed", 0));
        assert_eq!(Outcome::Unjudged.verstat(), "No-TN-Validation");
    }

    #[test]
    fn only_a_valid_call_has_a_letter() {
        let failed = Outcome::Refused { rule: 17, code: 437, field: 1, part: 0 };
        for (outcome, attest, wanted) in [
            (Outcome::Valid, Some(Attest::A), "TN-Validation-Passed-A"),
            (Outcome::Valid, Some(Attest::C), "TN-Validation-Passed-C"),
            (Outcome::Valid, None, "TN-Validation-Passed"),
            (failed, Some(Attest::A), "TN-Validation-Failed"),
            (Outcome::Replay { winner: 1 }, Some(Attest::A), "TN-Validation-Failed"),
            (Outcome::Unjudged, Some(Attest::A), "No-TN-Validation"),
        ] {
            assert_eq!(outcome.verstat_in(Verstat::Letter, attest), wanted, "{outcome:?}");
        }
    }
}
