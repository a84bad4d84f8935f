//! Signatures of certificates that aren't taken for good, whatever OpenSSL says of them.
use super::{Judge, Unsaid};
use crate::files::{Listed, Revocation, Signer};
use std::fmt::{self, Display, Formatter};
use std::sync::Arc;
use stir::{Call, Refused, Verdict};
use stir_trust::revocation::{moment, Revoked};
use stir_trust::Unanswered;

/// The number of the rule on the signatures of certificates.
const SIGNATURES: u32 = 15;

/// Why a signature of a certificate isn't taken for good. Its text says so.
///
/// ```
/// use stird::judge::Spoilt;
///
/// let ended = Spoilt::Ended(1_780_272_000).to_string();
/// assert_eq!(ended, "a revocation list ended at 2026-06-01T00:00:00Z");
/// ```
#[derive(Clone, Copy, Debug, PartialEq, Eq)]
pub enum Spoilt {
    /// The certificate is revoked.
    Revoked(Revoked),
    /// A revocation list ended at this second, and calls are refused then.
    Ended(u64),
}

impl Display for Spoilt {
    fn fmt(&self, to: &mut Formatter<'_>) -> fmt::Result {
        match self {
            Spoilt::Revoked(revoked) => write!(to, "{revoked}"),
            Spoilt::Ended(second) => write!(to, "a revocation list ended at {}", moment(*second)),
        }
    }
}

/// What was handed in of a call, each with the number of its PASSporT.
#[derive(Default)]
pub(super) struct Handed {
    /// What is spoilt in its chains.
    spoilt: Vec<(usize, Spoilt)>,
    /// Who its chains say that their holders are.
    signers: Vec<(usize, Arc<Signer>)>,
}

impl Handed {
    /// Who the chain of a PASSporT says that its holder is, if it is there.
    pub fn signer(&self, index: usize) -> Option<Arc<Signer>> {
        let found = self.signers.iter().find(|(of, _)| *of == index);
        found.map(|(_, signer)| Arc::clone(signer))
    }
}

impl Judge {
    /// Hands in the chain of a PASSporT, with what is good of its signatures. Revocation is looked
    /// at before the memory of what is good.
    pub(super) fn hand_in(
        &self,
        call: &mut Call,
        index: usize,
        listed: &Listed,
        moment: u64,
        handed: &mut Handed,
    ) -> Result<(), Unsaid> {
        handed.signers.push((index, listed.signer()?));
        let spoilt = &mut handed.spoilt;
        if let Some(revocation) = &self.revocation {
            let revocation = revocation.load();
            if let Some(ended) = revocation.refuses_since(moment) {
                spoilt.push((index, Spoilt::Ended(ended)));
                return Ok(call.set_chain(index, &listed.chain_but(|_| false)?)?);
            }
            let revoked = listed.revoked(&revocation, moment)?;
            if !revoked.is_empty() {
                spoilt.extend(revoked.iter().map(|it| (index, Spoilt::Revoked(*it))));
                return self.hand_in_but(call, index, listed, &revoked);
            }
        }
        let mut unanswered = None;
        let chain = listed.chain(|question| match self.verifier.answer(question) {
            Ok(good) => good,
            Err(error) => {
                unanswered = Some(error);
                false
            }
        })?;
        unanswered.map_or(Ok(()), Err)?;
        Ok(call.set_chain(index, &chain)?)
    }

    /// The same without the signatures of these certificates.
    fn hand_in_but(
        &self,
        call: &mut Call,
        index: usize,
        listed: &Listed,
        revoked: &[Revoked],
    ) -> Result<(), Unsaid> {
        let mut unanswered: Option<Unanswered> = None;
        let chain = listed.chain_but(|question| {
            let is_revoked = revoked.iter().any(|it| it.spoils(question, it.since));
            !is_revoked
                && self.verifier.answer(question).unwrap_or_else(|error| {
                    unanswered = Some(error);
                    false
                })
        })?;
        unanswered.map_or(Ok(()), Err)?;
        Ok(call.set_chain(index, &chain)?)
    }
}

/// Why a call breaks the rule on signatures of certificates, if it does for what is spoilt.
pub(super) fn why(
    call: &mut Call,
    verdict: &Verdict,
    handed: &Handed,
) -> Result<Option<Spoilt>, stir::Error> {
    let Verdict::Refused(Refused { rule: SIGNATURES, field, part, .. }) = verdict else {
        return Ok(None);
    };
    let spoilt = &handed.spoilt;
    if spoilt.is_empty() {
        return Ok(None);
    }
    let fields: Vec<u32> = call.claims()?.iter().map(|claims| claims.field).collect();
    let is_it = |(index, spoilt): &&(usize, Spoilt)| {
        let is_there = match spoilt {
            Spoilt::Revoked(revoked) => revoked.certificate == *part,
            Spoilt::Ended(_) => true,
        };
        is_there && fields.get(*index) == Some(field)
    };
    Ok(spoilt.iter().find(is_it).map(|(_, spoilt)| *spoilt))
}

/// Revocation lists as they were read, which change.
pub type Revocations = arc_swap::ArcSwap<Revocation>;
