//! Who says whether a signature is good.

use crate::answers::Answers;
use std::collections::HashSet;
use std::sync::{Mutex, PoisonError};
use stir::Question;
use stir_trust::Verifier;

/// Who says whether a signature is good.
pub(crate) enum Provider {
    /// ES256 by OpenSSL; and what was found good, if that is wanted.
    Es256 { verifier: Verifier, good: Option<Mutex<HashSet<Question>>> },
    /// An answers file.
    Answers(Answers),
}

impl Provider {
    /// Whether the signature of this question is good.
    pub fn confirms(&self, question: &Question) -> bool {
        match self {
            Provider::Es256 { verifier, good } => {
                let is_good = verifier.checks(question);
                if let (true, Some(good)) = (is_good, good) {
                    good.lock().unwrap_or_else(PoisonError::into_inner).insert(*question);
                }
                is_good
            }
            Provider::Answers(answers) => answers.confirms(question),
        }
    }

    /// What was found good, if that is wanted; or all that the answers file says is.
    pub fn confirmed(&self) -> Vec<Question> {
        match self {
            Provider::Es256 { good: Some(good), .. } => {
                good.lock().unwrap_or_else(PoisonError::into_inner).iter().copied().collect()
            }
            Provider::Es256 { good: None, .. } => Vec::new(),
            Provider::Answers(answers) => answers.all().copied().collect(),
        }
    }
}
