//! The command `confirm`.
//!
//! A question names no moment, so one about a certificate that is revoked isn't confirmed, whether
//! the certificate is revoked by now or will be.

use crate::answers::question;
use crate::chains::Map;
use crate::files::{lines, prefix, says_nothing, Unread};
use crate::input::{name_of, whole};
use crate::judging::pool;
use crate::revocation::Revocation;
use crate::sink::{Sink, STDOUT};
use crate::words::Confirm;
use crate::{Ended, Fault};
use rayon::prelude::*;
use std::collections::HashSet;
use stir::{Question, Settings, World};
use stir_trust::Verifier;

/// The most bytes of a file of questions, and of a chain.
const MOST_BYTES: u64 = 536_870_912;
const LONGEST_CHAIN: u64 = 49_152;

/// Writes the questions whose signatures are good, in their order.
pub(crate) fn confirm(words: &Confirm) -> Ended {
    let verifier = Verifier::new().map_err(|error| Fault::Words(format!("OpenSSL: {error}")))?;
    let revoked = revoked(words)?;
    let texts: Result<Vec<_>, Fault> =
        words.files.iter().map(|word| Ok((word, whole(word, MOST_BYTES)?))).collect();
    let mut asked = Vec::new();
    for (name, text) in &texts? {
        for (number, line) in lines(text).filter(|(_, line)| !says_nothing(line)) {
            let refused = || Fault::Refused(name_of(name).into(), number);
            asked.push((line.to_vec(), question(line).ok_or_else(refused)?));
        }
    }
    let is_good =
        |question: &Question| verifier.checks(question) && !revoked.contains(question.digest());
    let good: Vec<bool> = pool(&words.pool)?
        .install(|| asked.par_iter().map(|(_, question)| is_good(question)).collect());
    let mut out = Sink::open(STDOUT)?;
    for ((line, _), _) in asked.iter().zip(good).filter(|(_, good)| *good) {
        out.put(|out| {
            out.write_all(line)?;
            out.write_all(b"\n")
        })?;
    }
    out.commit()?;
    Ok(0)
}

/// The digests of the certificates in the files of the chain map that are revoked.
fn revoked(words: &Confirm) -> Result<HashSet<Vec<u8>>, Fault> {
    let Some(chains) = words.chains.as_deref() else {
        return match words.revoked.crl.is_empty() {
            true => Ok(HashSet::new()),
            false => {
                Err(Fault::Words("--crl wants --chains: a question has a digest alone".into()))
            }
        };
    };
    let revocation = Revocation::read(&words.revoked)?;
    let world = World::open(&Settings::default(), b"", b"")?;
    let mut digests = HashSet::new();
    for file in Map::read(chains)?.files() {
        let bytes = match prefix(file, LONGEST_CHAIN + 1) {
            Ok(bytes) => bytes,
            Err(Unread::Missing) => continue,
            Err(Unread::Failed) => return Err(Fault::Read(file.display().to_string())),
        };
        let found = revocation.of(&world.chain(&bytes)?, file)?;
        digests.extend(found.iter().map(|revoked| revoked.digest.to_vec()));
    }
    Ok(digests)
}
