//! The command `roots`: trust anchors of the list of authorities, or of roots, and bridges.

use crate::certificates::{broken, in_order, is_outside};
use crate::crl::{now, taken};
use crate::files::{prefix, whole, Unread};
use crate::revocation::Revocation;
use crate::sink::{Sink, STDOUT};
use crate::words::trust::Roots;
use crate::{say, Ended, Fault};
use openssl::x509::X509;
use serde::{Deserialize, Serialize};
use std::path::Path;
use stir::Settings;
use stir_trust::authorities::{bridge, AuthorityList, Bridge, ListSigner, MOST_BYTES};
use stir_trust::names::text_of;
use stir_trust::roots::{is_anchor, MOST_ANCHORS};

/// The most bytes of a state, of a signer, of a chain, and of a file of anchors.
const MOST_STATE: u64 = 1 << 10;
const MOST_SIGNER: u64 = 1 << 20;
const MOST_CHAIN: u64 = 1 << 20;
const MOST_ANCHORS_BYTES: usize = 2_097_152;

/// What is known of the last list.
#[derive(Deserialize, Serialize)]
#[serde(deny_unknown_fields)]
struct State {
    sequence: u64,
}

/// The anchors that are written, and what isn't.
#[derive(Default)]
struct Anchors {
    kept: Vec<Vec<u8>>,
    /// The roots outside the profile to which no bridge leads yet.
    outside: Vec<X509>,
    /// Whether something is left out.
    is_less: bool,
}

/// Writes the trust anchors. The status is 1 if something was left out.
pub(crate) fn roots(words: &Roots) -> Ended {
    let revocation = Revocation::read(&words.revoked)?;
    let (name, roots, state) = roots_of(words)?;
    let mut anchors = Anchors::default();
    for (number, root) in (1..).zip(roots) {
        let name = format!("{name}: root {number}, {}", text_of(root.subject_name()));
        anchors.root(&name, root, &revocation)?;
    }
    let outside = std::mem::take(&mut anchors.outside);
    let mut ends = Vec::new();
    for chain in &words.bridge {
        ends.extend(anchors.bridge(chain, &outside, &revocation)?);
    }
    for root in &outside {
        anchors.is_less |= !ends.contains(&der_of(root)?);
    }
    anchors.write(words)?;
    if let (Some(to), Some(sequence)) = (&words.state, state) {
        let text = serde_json::to_vec(&State { sequence });
        let text = text.map_err(|error| Fault::Write(to.clone(), error.to_string()))?;
        replace(to, &[&text[..], b"\n"].concat())?;
    }
    Ok(u8::from(anchors.is_less))
}

/// The roots that the words name, what they are called in messages, and the sequence of the list.
fn roots_of(words: &Roots) -> Result<(&str, Vec<X509>, Option<u64>), Fault> {
    let (list, signer, state) = match (&words.roots, &words.list, &words.signer, &words.state) {
        (Some(name), ..) => {
            let roots = in_order(name)?.into_iter().map(|root| root.read).collect();
            return Ok((name, roots, None));
        }
        (None, Some(list), Some(signer), Some(state)) => (list, signer, state),
        _ => return Err(Fault::Words("--list wants --signer and --state".into())),
    };
    let known = ListSigner::from_pem(&whole(signer, MOST_SIGNER)?);
    let known = known.map_err(|fault| Fault::Input(signer.clone(), fault.to_string()))?;
    let before = sequence(state)?;
    let bytes = taken(list, MOST_BYTES, &words.fetch)?;
    let refused = |fault: &dyn ToString| Fault::Input(list.clone(), fault.to_string());
    let read = AuthorityList::read(&bytes, &known, now()).map_err(|fault| refused(&fault))?;
    read.follows(before).map_err(|fault| refused(&fault))?;
    Ok((list, read.roots, Some(read.sequence)))
}

/// The sequence of the last list; 0 if there was none.
fn sequence(state: &str) -> Result<u64, Fault> {
    match prefix(Path::new(state), MOST_STATE) {
        Ok(text) => match serde_json::from_slice(&text) {
            Ok(State { sequence }) if text.starts_with(b"{") => Ok(sequence),
            _ => Err(Fault::Input(state.into(), "no state of a list of authorities".into())),
        },
        Err(Unread::Missing) => Ok(0),
        Err(Unread::Failed) => Err(Fault::Read(state.into())),
    }
}

fn der_of(certificate: &X509) -> Result<Vec<u8>, Fault> {
    certificate.to_der().map_err(|_| Fault::Memory)
}

impl Anchors {
    /// Takes a root, or names why not.
    fn root(&mut self, name: &str, root: X509, revocation: &Revocation) -> Result<(), Fault> {
        let der = der_of(&root)?;
        if let Some(revoked) = revocation.since_of(&der)? {
            say(&format!("{name}, {revoked}; it is left out"));
            self.is_less = true;
        } else if is_anchor(&Settings::default(), &der)? {
            self.put(der);
        } else {
            let why = match is_outside(&der)? {
                true => format!("is outside the profile: {}", broken(&der)?),
                false => "is none of a certificate authority".into(),
            };
            say(&format!("{name}, {why}; it is left out"));
            self.outside.push(root);
        }
        Ok(())
    }

    /// Takes an anchor for the lowest authority of this file, or names why not. The root to which
    /// it leads is returned.
    fn bridge(
        &mut self,
        file: &str,
        outside: &[X509],
        revocation: &Revocation,
    ) -> Result<Option<Vec<u8>>, Fault> {
        let Bridge { anchor, path } = match bridge(&whole(file, MOST_CHAIN)?, outside, now()) {
            Ok(bridge) => bridge,
            Err(fault) => {
                say(&format!("{file}: no bridge: {fault}"));
                self.is_less = true;
                return Ok(None);
            }
        };
        for certificate in &path {
            let der = der_of(certificate)?;
            if let Some(revoked) = revocation.since_of(&der)? {
                let subject = text_of(certificate.subject_name());
                say(&format!("{file}: no bridge: {subject} {revoked}"));
                self.is_less = true;
                return Ok(None);
            }
        }
        self.put(anchor);
        path.last().map(der_of).transpose()
    }

    /// Takes an anchor, once.
    fn put(&mut self, anchor: Vec<u8>) {
        if !self.kept.contains(&anchor) {
            self.kept.push(anchor);
        }
    }

    /// Writes them, if there are some and not too many.
    fn write(&self, words: &Roots) -> Result<(), Fault> {
        let bytes = self.kept.concat();
        match self.kept.len() {
            0 => return Err(Fault::Input(words.to.clone(), "there would be no anchor".into())),
            count if count > MOST_ANCHORS => {
                let why = format!("{count} trust anchors, and a file has at most {MOST_ANCHORS}");
                return Err(Fault::Input(words.to.clone(), why));
            }
            _ if bytes.len() > MOST_ANCHORS_BYTES => return Err(Fault::Long(words.to.clone())),
            _ => {}
        }
        replace(&words.to, &bytes)
    }
}

/// Writes a file, unless it has these bytes.
fn replace(name: &str, bytes: &[u8]) -> Result<(), Fault> {
    let before = prefix(Path::new(name), bytes.len() as u64 + 1);
    if name != STDOUT && before.is_ok_and(|before| before == bytes) {
        return Ok(());
    }
    let mut out = Sink::open(name)?;
    out.put(|out| out.write_all(bytes))?;
    out.commit()
}
