//! The commands `divert` and `retarget`.

use crate::crl::now;
use crate::judge::{Judge, Read};
use crate::judging::{judge_by, pool};
use crate::messages::{message, world_of, written, Signer, Written};
use crate::words::{self, Pool};
use crate::{Ended, Fault};
use std::collections::BTreeSet;
use stir::{Diversion, Refused, RetargetError};

/// Signs that a message goes on to another number.
pub(crate) fn divert(words: &words::signing::Divert) -> Ended {
    written(|| {
        let holder = &words.holder;
        let signer = Signer::open(holder, &world_of(&words.by)?)?;
        let message = message(&words.message)?;
        let order = Diversion {
            iat: holder.iat.unwrap_or_else(now),
            earlier: &words.earlier,
            x5u: &holder.x5u,
            message: &message,
        };
        let digest = signer.chain.to_divert(&order);
        signer.write(digest, |signature| signer.chain.diverted(&order, signature))
    })
}

/// Judges a call, and sends one that passes on to another number.
pub(crate) fn retarget(words: &words::signing::Retarget) -> Ended {
    written(|| {
        let mut judge = judge_by(&words.by, false)?;
        let call = message(&words.message)?;
        let moment = words.moment.unwrap_or_else(now);
        judge.get_ready(words, moment, &call)?;
        let signer = Signer::open(&words.holder, &judge.world)?;
        judge.retarget(words, moment, &call, &signer)
    })
}

impl Judge {
    /// Fetches the certificates of this call that the chain map hasn't got, and has codes stand for
    /// every number that the table doesn't name, if that is wanted.
    fn get_ready(
        &mut self,
        words: &words::signing::Retarget,
        moment: u64,
        message: &[u8],
    ) -> Result<(), Fault> {
        let x5us = self.x5us(&[(1, moment, message)])?;
        self.fetch(&x5us)?;
        if words.by.trusts() {
            let there: BTreeSet<_> = x5us.into_iter().filter(|x5u| self.chains.has(x5u)).collect();
            let settings = words.by.rules.settings();
            self.trust_chains(&settings, there, &pool(&Pool { jobs: Some(1) })?)?;
        }
        Ok(())
    }

    /// What comes of a call that is to go on.
    fn retarget(
        &self,
        words: &words::signing::Retarget,
        moment: u64,
        message: &[u8],
        signer: &Signer,
    ) -> Result<Written, Fault> {
        let Read { mut call, found } = self.read(moment, message)?;
        if let Some(field) = self.set_aside(&mut call, &found)? {
            return Ok(Written::Line(format!("unread - 10 {field}.0\n")));
        }
        let holder = &words.holder;
        let onward = stir::Retarget {
            target: &words.target,
            key: &signer.chain,
            x5u: &holder.x5u,
            iat: holder.iat.unwrap_or_else(now),
        };
        let asked = call.questions()?.questions;
        let good: Vec<bool> = asked.iter().map(|it| self.provider.confirms(it)).collect();
        let digest = match call.to_retarget(&good, &onward) {
            Ok(digest) => digest,
            Err(error) => return held(error, signer),
        };
        let signature = signer.sign(&digest)?;
        match call.retargeted(&good, &onward, &signature) {
            Ok(message) => Ok(Written::Message(message)),
            Err(error) => held(error, signer),
        }
    }
}

/// The line of a call that doesn't go on.
fn held(error: RetargetError, signer: &Signer) -> Result<Written, Fault> {
    match error {
        RetargetError::Refused(Refused { rule, code, field, part }) => {
            Ok(Written::Line(format!("refused {code} {rule} {field}.{part}\n")))
        }
        RetargetError::Held(held) => Ok(Written::Line(format!("hop fault {}\n", held.number()))),
        RetargetError::Failed(error) => Err(signer.fault(error)),
    }
}
