//! What is counted of calls by who signed them.
use super::Maker;
use crate::judge::Outcome;
use crate::today::{SignedBy, MOST_SIGNERS};
use prometheus::{Error, IntCounterVec, Opts};
use std::collections::HashSet;
use std::sync::{Arc, Mutex};
use stir_trust::locks::Held;

/// Calls by who signed them. Past the most signers since the start, the rest are counted as one.
#[derive(Clone)]
pub struct SignerCalls {
    calls: IntCounterVec,
    known: Arc<Mutex<HashSet<SignedBy>>>,
}

impl SignerCalls {
    /// Without a signer, in a registry.
    pub(super) fn new(maker: &Maker) -> Result<SignerCalls, Error> {
        let help = "Calls that were judged, by the code of who signed them and what came of them.";
        let opts = Opts::new("stir_signer_calls_total", help);
        let calls = IntCounterVec::new(opts, &["signer", "outcome"])?;
        maker.0.register(Box::new(calls.clone()))?;
        Ok(SignerCalls { calls, known: Arc::default() })
    }

    /// Counts what came of a call that he signed.
    pub fn count(&self, outcome: &Outcome, signer: &SignedBy) {
        let signer = if self.has_room(signer) { signer } else { &SignedBy::Other };
        self.calls.with_label_values(&[signer.word(), outcome.name()]).inc();
    }

    /// Whether this signer is counted by himself.
    fn has_room(&self, signer: &SignedBy) -> bool {
        let mut known = self.known.lock().held();
        if known.contains(signer) {
            return true;
        }
        let has_room = known.len() < MOST_SIGNERS;
        if has_room {
            known.insert(signer.clone());
        }
        has_room
    }
}
