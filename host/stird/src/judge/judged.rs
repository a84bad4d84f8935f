//! A call with what came of it, and all that is told of it.
use super::{About, Outcome, Passport, Spent, Spoilt};
use crate::fetching::Certificates;
use crate::files::Signer;
use bytes::Bytes;
use stir::Explanation;

/// A call that was judged: its number, counted from 1 over the life of the journal, what came of
/// it, and what is known of it.
///
/// ```
/// use stird::judge::{Judged, Outcome};
///
/// let judged = Judged::new(7, Outcome::Valid);
/// assert_eq!((judged.verstat, judged.signer()), ("TN-Validation-Passed", None));
/// ```
#[derive(Clone, Debug)]
pub struct Judged {
    /// Its number.
    pub call: u64,
    /// What came of it.
    pub outcome: Outcome,
    /// The value of its `verstat` parameter.
    pub verstat: &'static str,
    /// How its certificates came, if they are fetched and it asked for some.
    pub certificates: Option<Certificates>,
    /// Why a signature of a certificate wasn't taken for good, if the call was refused for that.
    pub spoilt: Option<Spoilt>,
    /// What its PASSporTs say, and who signed them.
    pub about: About,
    /// By what it is known again, if it breaks no rule but that on replays, perhaps.
    pub ticket: Option<[u8; 32]>,
    /// How long the work on it took.
    pub spent: Spent,
    /// What is told of it in JSON, with an LF, if it was written for the record.
    pub json: Option<Bytes>,
}

impl Judged {
    /// A call of which nothing is known but what came of it.
    pub fn new(call: u64, outcome: Outcome) -> Judged {
        Judged {
            call,
            outcome,
            verstat: outcome.verstat(),
            certificates: None,
            spoilt: None,
            about: About::default(),
            ticket: None,
            spent: Spent::default(),
            json: None,
        }
    }

    /// The PASSporT of the call's origin, if the call keeps the rules of the call.
    pub fn passport(&self) -> Option<&Passport> {
        self.about.passports.first()
    }

    /// Who signed it, if the signatures are good: nothing else shows who did.
    pub fn signer(&self) -> Option<&Signer> {
        self.passport()?.signer.as_deref()
    }
}

/// A call that was explained: as it would be judged if no ticket had passed, and which rules it
/// meets.
pub struct Explained {
    /// What comes of it; it has no number.
    pub judged: Judged,
    /// Which rules it meets.
    pub explanation: Explanation,
}
