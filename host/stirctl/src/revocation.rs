//! Which certificates are revoked, by the lists that the words name; and which of them calls used.

use crate::files::whole;
use crate::words::trust::RevokedBy;
use crate::{say, Fault};
use std::collections::HashSet;
use std::path::Path;
use std::sync::{Mutex, PoisonError};
use stir::{Chain, Question};
use stir_trust::revocation::{moment, List, Lists, Revoked, Signers, Unknown, MOST_BYTES};

/// The most bytes of a file of signers.
const MOST_SIGNERS: u64 = 1 << 20;

/// The lists that calls are judged by, and what came of them.
#[derive(Default)]
pub(crate) struct Revocation {
    lists: Lists,
    /// Each list's file, and the second by which the next one is issued.
    ends: Vec<(String, u64)>,
    uses: Mutex<Uses>,
}

/// The digests of revoked certificates that calls used.
#[derive(Default)]
struct Uses {
    /// At a second since which they are revoked.
    revoked: HashSet<[u8; 32]>,
    /// Before it.
    good: HashSet<[u8; 32]>,
}

/// The signers of a file.
pub(crate) fn signers(name: &str) -> Result<Signers, Fault> {
    let found = Signers::from_pem(&whole(name, MOST_SIGNERS)?);
    found.map_err(|fault| Fault::Input(name.into(), fault.to_string()))
}

/// The signers of all these files.
pub(crate) fn all_signers(names: &[String]) -> Result<Signers, Fault> {
    names.iter().try_fold(Signers::default(), |known, name| Ok(known.and(signers(name)?)))
}

/// The list of a file.
pub(crate) fn list(name: &str, signers: &Signers) -> Result<List, Fault> {
    let bytes = whole(name, MOST_BYTES as u64)?;
    List::read(&bytes, signers).map_err(|fault| Fault::Input(name.into(), fault.to_string()))
}

/// Why it isn't known whether a certificate is revoked: whatever the certificates are, that is want
/// of memory.
pub(crate) fn unknown(unknown: Unknown) -> stir::Error {
    match unknown {
        Unknown::Library(error) => error,
        Unknown::List(_) => stir::Error::OutOfMemory,
    }
}

impl Revocation {
    /// The lists that the words name.
    pub fn read(words: &RevokedBy) -> Result<Revocation, Fault> {
        let signers = all_signers(&words.crl_signer)?;
        let mut revocation = Revocation::default();
        for name in &words.crl {
            let list = list(name, &signers)?;
            revocation.ends.extend(list.ends().map(|ends| (name.clone(), ends)));
            revocation.lists.add(list);
        }
        Ok(revocation)
    }

    /// The certificates of a file's chain that are revoked, each of which is named.
    pub fn of(&self, chain: &Chain, file: &Path) -> Result<Vec<Revoked>, stir::Error> {
        let revoked = self.lists.revoked(chain).map_err(unknown)?;
        revoked.iter().for_each(|revoked| say(&format!("{}: {revoked}", file.display())));
        Ok(revoked)
    }

    /// A chain at the moment of a call: with these questions confirmed, but those of certificates
    /// that are revoked then. Nothing if none is, so that the chain is as it was.
    pub fn at(
        &self,
        moment: u64,
        chain: &Chain,
        good: &[bool],
        revoked: &[Revoked],
    ) -> Result<Option<Chain>, stir::Error> {
        if revoked.is_empty() {
            return Ok(None);
        }
        let mut uses = self.uses.lock().unwrap_or_else(PoisonError::into_inner);
        let Uses { revoked: spoilt, good: used } = &mut *uses;
        for it in revoked {
            if it.since <= moment { &mut *spoilt } else { &mut *used }.insert(it.digest);
        }
        drop(uses);
        if revoked.iter().all(|it| it.since > moment) {
            return Ok(None);
        }
        let questions = chain.questions()?;
        let is_spoilt =
            |question: &Question| revoked.iter().any(|revoked| revoked.spoils(question, moment));
        let good: Vec<bool> =
            questions.iter().zip(good).map(|(it, good)| *good && !is_spoilt(it)).collect();
        chain.confirmed(&good).map(Some)
    }

    /// Since when a certificate in DER is revoked, in words.
    pub fn since_of(&self, der: &[u8]) -> Result<Option<String>, stir::Error> {
        let since = self.lists.since_of(der).map_err(unknown)?;
        Ok(since.map(|since| format!("is revoked since {}", moment(since))))
    }

    /// Whether a question wasn't confirmed in some call, since its certificate was revoked then.
    pub fn spoilt(&self, question: &Question) -> bool {
        let uses = self.uses.lock().unwrap_or_else(PoisonError::into_inner);
        question.digest().try_into().is_ok_and(|digest: [u8; 32]| uses.revoked.contains(&digest))
    }

    /// Whether some certificate was used both before it was revoked and after that.
    pub fn is_between(&self) -> bool {
        let uses = self.uses.lock().unwrap_or_else(PoisonError::into_inner);
        uses.revoked.iter().any(|digest| uses.good.contains(digest))
    }

    /// Names the lists whose next ones should have been there at this moment.
    pub fn say_ended(&self, moment: u64) {
        for (name, _) in self.ends.iter().filter(|(_, ends)| *ends < moment) {
            say(&format!("{name}: the next list should have been there at the last call"));
        }
    }
}
