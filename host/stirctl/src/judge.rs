//! Calls judged by themselves, any number at once: by the rules of the call and the chains.

use crate::chains::{Chains, Found, Known};
use crate::fetched::Fetching;
use crate::log::Piece;
use crate::provider::Provider;
use crate::revocation::Revocation;
use crate::verdict::CHAIN;
use crate::Fault;
use rayon::prelude::*;
use std::sync::Arc;
use stir::{Call, Passes, Refused, World};
use stir_trust::claims::Claimed;

/// So many calls at least are judged by a thread before another one takes some of its calls.
const FEWEST: usize = 8;

/// What calls are judged by.
pub(crate) struct Judge {
    pub world: World,
    pub chains: Chains,
    pub provider: Provider,
    pub revocation: Revocation,
    /// What fetches certificates that the chain map hasn't got, if something does.
    pub fetching: Option<Fetching>,
    pub files: Files,
    /// Whether it is told who called whom and who signed.
    pub tells: bool,
}

/// The trust anchors and the code table as they were read.
#[derive(Debug, Default)]
pub(crate) struct Files {
    pub anchors: Vec<u8>,
    pub table: Vec<u8>,
}

/// A call's number, moment and message.
pub(crate) type Came<'a> = (u64, u64, &'a [u8]);

/// What comes of a call by itself.
#[derive(Clone, Copy, Debug, PartialEq, Eq)]
pub(crate) enum Outcome {
    /// It breaks no rule but that on replay, perhaps.
    Passes(Passes),
    Refused(Refused),
    /// The file of this field's chain couldn't be read.
    Unread(u32),
}

impl Outcome {
    /// Whether the certificates of an x5u aren't there (rule 10).
    fn lacks_a_chain(&self) -> bool {
        matches!(self, Outcome::Refused(refused) if refused.rule == CHAIN)
    }
}

/// A call that was judged by itself.
#[derive(Debug)]
pub(crate) struct Judged {
    pub number: u64,
    pub moment: u64,
    pub outcome: Outcome,
    pub about: Option<Box<About>>,
}

/// What is told of a call.
#[derive(Debug, Default)]
pub(crate) struct About {
    /// Its Call-ID.
    pub call_id: String,
    /// From and To, if nothing is told of its PASSporTs.
    pub from: String,
    pub to: String,
    /// The claims of the PASSporT that speaks for the caller.
    pub claims: Claims,
    /// The PASSporTs, that one first; none if the call breaks one of the rules of the call.
    pub passports: Vec<Passport>,
}

/// A PASSporT's Identity field, its x5u, and its chain if that is known.
#[derive(Debug)]
pub(crate) struct Passport {
    pub field: u32,
    pub x5u: String,
    pub known: Option<Arc<Known>>,
}

/// What is told of the claims of a PASSporT (RFC 8225, section 5; RFC 8588, sections 4 and 5).
#[derive(Debug, Default)]
pub(crate) struct Claims {
    pub caller: String,
    pub called: String,
    pub attestation: String,
    pub origid: String,
}

impl From<Claimed> for Claims {
    /// What isn't a text is told as none.
    fn from(claimed: Claimed) -> Claims {
        Claims {
            caller: claimed.orig,
            called: claimed.dest.join(" "),
            attestation: claimed.attest.unwrap_or_default(),
            origid: claimed.origid.unwrap_or_default(),
        }
    }
}

/// A call with the chains of its PASSporTs, as far as they are known.
pub(crate) struct Read {
    pub call: Call,
    /// The x5u of each PASSporT, and its chain.
    pub found: Vec<(Vec<u8>, Found)>,
}

impl Judge {
    /// Judges the calls of a piece.
    pub fn piece(&self, piece: &Piece) -> Vec<Result<Judged, Fault>> {
        self.calls(&piece.calls().collect::<Vec<_>>())
    }

    /// Judges calls, on all threads of this pool; the answers stand in their order. Calls whose
    /// certificates are fetched then are judged again.
    pub fn calls(&self, calls: &[Came<'_>]) -> Vec<Result<Judged, Fault>> {
        let judged = |call: &Came<'_>| self.call(call.0, call.1, call.2);
        let mut answers: Vec<_> = calls.par_iter().with_min_len(FEWEST).map(judged).collect();
        if self.fetching.is_none() {
            return answers;
        }
        let (mut places, mut lacking) = (Vec::new(), Vec::new());
        for (place, (call, answer)) in calls.iter().zip(&answers).enumerate() {
            if matches!(answer, Ok(judged) if judged.outcome.lacks_a_chain()) {
                places.push(place);
                lacking.push(*call);
            }
        }
        let again: Vec<_> = match self.fetch_for(&lacking) {
            Ok(true) => lacking.par_iter().with_min_len(FEWEST).map(judged).collect(),
            Ok(false) => Vec::new(),
            Err(fault) => vec![Err(fault)],
        };
        for (place, answer) in places.into_iter().zip(again) {
            if let Some(before) = answers.get_mut(place) {
                *before = answer;
            }
        }
        answers
    }

    /// Fetches the certificates of these calls that the chain map hasn't got, those of an x5u once
    /// a run; of calls alone that break none of the rules of the call. Whether some are there then.
    pub fn fetch_for(&self, calls: &[Came<'_>]) -> Result<bool, Fault> {
        match &self.fetching {
            Some(_) => self.fetch(&self.x5us(calls)?),
            None => Ok(false),
        }
    }

    /// Fetches the certificates of these x5us that the chain map hasn't got. Whether some are there
    /// then.
    pub fn fetch(&self, x5us: &[Vec<u8>]) -> Result<bool, Fault> {
        let Some(fetching) = &self.fetching else { return Ok(false) };
        let unlisted = x5us.iter().filter(|x5u| !self.chains.lists(x5u));
        let unlisted: Vec<&[u8]> = unlisted.map(AsRef::as_ref).collect();
        fetching.fetch(&unlisted, &self.chains)?;
        Ok(unlisted.iter().any(|x5u| self.chains.has(x5u)))
    }

    /// The x5us of these calls, of those alone that break none of the rules of the call.
    pub fn x5us(&self, calls: &[Came<'_>]) -> Result<Vec<Vec<u8>>, Fault> {
        let x5us = |(_, moment, message): &Came<'_>| -> Result<Vec<Vec<u8>>, Fault> {
            let mut call = self.world.call(*moment, message)?;
            (0..call.passports()).map(|index| Ok(call.x5u(index)?)).collect()
        };
        let x5us: Result<Vec<_>, Fault> = calls.par_iter().with_min_len(FEWEST).map(x5us).collect();
        Ok(x5us?.concat())
    }

    /// Judges a call.
    pub fn call(&self, number: u64, moment: u64, message: &[u8]) -> Result<Judged, Fault> {
        let Read { mut call, found } = self.read(moment, message)?;
        let outcome = match self.set_aside(&mut call, &found)? {
            Some(field) => Outcome::Unread(field),
            None => match call.verify(|question| self.provider.confirms(question))? {
                stir::Verdict::Passes(passes) => Outcome::Passes(passes),
                stir::Verdict::Refused(refused) => Outcome::Refused(refused),
            },
        };
        let about = if self.tells { Some(Box::new(about(&mut call, found)?)) } else { None };
        Ok(Judged { number, moment, outcome, about })
    }

    /// The lines of `stir explain` on a call, and whether it breaks no rule.
    pub fn explain(
        &self,
        number: u32,
        moment: u64,
        message: &[u8],
    ) -> Result<(String, bool), Fault> {
        let Read { mut call, found } = self.read(moment, message)?;
        if let Some(field) = self.set_aside(&mut call, &found)? {
            let holds: String = (1..10).map(|rule| format!("{number} {rule} ok\n")).collect();
            return Ok((format!("{holds}{number} 10 unread {field}.0\n"), false));
        }
        let asked = call.questions()?.questions;
        let good: Vec<bool> = asked.iter().map(|it| self.provider.confirms(it)).collect();
        let explained = call.explain(number, &good)?;
        Ok((explained.lines, matches!(explained.verdict, stir::Verdict::Passes(_))))
    }

    /// Reads a call, and hands in its chains.
    pub fn read(&self, moment: u64, message: &[u8]) -> Result<Read, Fault> {
        let mut call = self.world.call(moment, message)?;
        let mut found = Vec::with_capacity(call.passports());
        for index in 0..call.passports() {
            let x5u = call.x5u(index)?;
            let chain = self.chains.get(&x5u, &self.provider, &self.revocation)?;
            if let Found::Known(known) = &chain {
                let Known { chain, good, revoked, .. } = &**known;
                let then = self.revocation.at(moment, chain, good, revoked)?;
                call.set_chain(index, then.as_ref().unwrap_or(chain))?;
            }
            found.push((x5u, chain));
        }
        Ok(Read { call, found })
    }

    /// The field of the first PASSporT whose chain isn't known, if the file of that chain couldn't
    /// be read.
    pub fn set_aside(
        &self,
        call: &mut Call,
        found: &[(Vec<u8>, Found)],
    ) -> Result<Option<u32>, Fault> {
        let first = found.iter().position(|(_, found)| !matches!(found, Found::Known(_)));
        match first {
            Some(index) if matches!(found.get(index), Some((_, Found::Unread))) => {
                Ok(call.claims()?.get(index).map(|claims| claims.field))
            }
            _ => Ok(None),
        }
    }
}

/// What is told of a call.
fn about(call: &mut Call, found: Vec<(Vec<u8>, Found)>) -> Result<About, Fault> {
    let call_id = header(call, "Call-ID")?;
    if found.is_empty() {
        let (from, to) = (header(call, "From")?, header(call, "To")?);
        return Ok(About { call_id, from, to, ..About::default() });
    }
    let told = call.claims()?;
    let payload = told.first().and_then(|claims| claims.payload.as_deref()).unwrap_or_default();
    let claims = Claimed::of(payload).into();
    let passports = told.iter().zip(found).map(|(claims, (x5u, found))| Passport {
        field: claims.field,
        x5u: String::from_utf8(x5u).unwrap_or_default(),
        known: match found {
            Found::Known(known) => Some(known),
            Found::Missing | Found::Unread => None,
        },
    });
    let passports = passports.collect();
    Ok(About { call_id, claims, passports, ..About::default() })
}

/// The first value of the header field of this name, as text.
fn header(call: &mut Call, name: &str) -> Result<String, Fault> {
    let value = call.header(name).next().transpose()?.unwrap_or_default();
    Ok(String::from_utf8(value)
        .unwrap_or_else(|value| String::from_utf8_lossy(value.as_bytes()).into_owned()))
}

impl About {
    /// The x5u of the field that a verdict's place names, or else of the one that speaks for the
    /// caller, and the codes in the leaf to which it leads.
    pub fn signer(&self, field: Option<u32>) -> (&str, &str) {
        let named = self.passports.iter().find(|passport| Some(passport.field) == field);
        match named.or(self.passports.first()) {
            Some(Passport { x5u, known, .. }) => {
                (x5u, known.as_ref().map_or("", |known| known.codes.as_str()))
            }
            None => ("", ""),
        }
    }
}
