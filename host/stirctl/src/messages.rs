//! Messages that are signed in one run: by whose key, and what is written of them.

use crate::certificates::{broken, is_outside, leaf_first};
use crate::crl::now;
use crate::input::Input;
use crate::signing::{is_key_of, read_key, unsigned};
use crate::sink::{Sink, STDOUT};
use crate::words::certificates::Sign;
use crate::words::signing::{FormOf, Holder, Level, Numbers};
use crate::{world, Ended, Fault};
use std::io::Read;
use stir::{Attest, Chain, Error, Form, Order, SignError, Withheld, World};
use stir_trust::Key;

/// A message that is longer can't be read (docs/RULES.md, rule 1), whatever else stands in it.
const MOST_BYTES: u64 = 65_536;

/// A key with the certificate of its holder.
pub(crate) struct Signer {
    key: Key,
    /// As the words name it.
    name: String,
    /// The certificate by itself.
    pub chain: Chain,
    /// Its file.
    leaf: String,
}

/// What comes of a message.
pub(crate) enum Written {
    /// It was signed.
    Message(Vec<u8>),
    /// It wasn't: the line that says why.
    Line(String),
}

impl Signer {
    /// The key and the certificate of these words. What the certificate covers is read by the code
    /// table of this world.
    pub fn open(holder: &Holder, world: &World) -> Result<Signer, Fault> {
        let Holder { leaf, key: name, password_file, .. } = holder;
        let key = read_key(name, password_file.as_deref())?;
        let certificates = leaf_first(leaf)?;
        let der = certificates.first().map(|first| first.der.as_slice()).unwrap_or_default();
        if is_outside(der)? {
            let why = format!("certificate 1 is outside the profile: {}", broken(der)?);
            return Err(Fault::Input(leaf.clone(), why));
        }
        is_key_of(leaf, &certificates, &key, name)?;
        let (name, leaf) = (name.clone(), leaf.clone());
        Ok(Signer { key, name, chain: world.chain(der)?, leaf })
    }

    /// The signature of a digest.
    pub fn sign(&self, digest: &[u8; 32]) -> Result<[u8; 64], Fault> {
        self.key.sign(digest).map_err(|fault| unsigned(&self.name, fault))
    }

    /// What comes of a message whose digest is to be signed so, and that is written so with the
    /// signature.
    pub fn write(
        &self,
        digest: Result<[u8; 32], SignError>,
        signed: impl FnOnce(&[u8; 64]) -> Result<Vec<u8>, SignError>,
    ) -> Result<Written, Fault> {
        let message = match digest {
            Ok(digest) => signed(&self.sign(&digest)?),
            Err(error) => Err(error),
        };
        match message {
            Ok(message) => Ok(Written::Message(message)),
            Err(error) => self.unsigned(error),
        }
    }

    fn unsigned(&self, error: SignError) -> Result<Written, Fault> {
        match error {
            SignError::Withheld(withheld) => {
                Ok(Written::Line(format!("sign fault {}\n", number_of(withheld))))
            }
            SignError::Failed(error) => Err(self.fault(error)),
        }
    }

    /// What the library's fault means here: its own files and words were looked at before.
    pub fn fault(&self, error: Error) -> Fault {
        match error {
            Error::BadInput(stir::Input::Certificate) => Fault::NoList(self.leaf.clone()),
            Error::BadInput(input) => Fault::Words(input.to_string()),
            other => other.into(),
        }
    }
}

/// The number of a fault (docs/SIGNING.md).
fn number_of(withheld: Withheld) -> u32 {
    match withheld {
        Withheld::Form => 1,
        Withheld::NoNumber => 2,
        Withheld::Authority => 3,
    }
}

/// Signs an INVITE.
pub(crate) fn sign(words: &Sign, name: &str) -> Ended {
    written(|| {
        let of = &words.of;
        // The words aren't taken without these.
        let missing = |word: &str| Fault::Words(format!("--{word} is wanted with --message"));
        let holder = Holder {
            leaf: words.leaf.clone().ok_or_else(|| missing("leaf"))?,
            x5u: of.x5u.clone().ok_or_else(|| missing("x5u"))?,
            iat: of.iat,
            password_file: words.password_file.clone(),
            key: words.key.clone(),
        };
        let form = form_of(words)?;
        let signer = Signer::open(&holder, &world_of(&of.by)?)?;
        let message = message(name)?;
        let iat = holder.iat.unwrap_or_else(now);
        let order = Order { iat, form, x5u: &holder.x5u, message: &message };
        let digest = signer.chain.to_sign(&order);
        signer.write(digest, |signature| signer.chain.signed(&order, signature))
    })
}

fn form_of(words: &Sign) -> Result<Form<'_>, Fault> {
    let of = &words.of;
    match (of.form, of.attest, &of.origid) {
        (Some(FormOf::Shaken), Some(level), Some(origid)) => {
            let attest = match level {
                Level::A => Attest::A,
                Level::B => Attest::B,
                Level::C => Attest::C,
            };
            Ok(Form::Shaken { attest, origid })
        }
        (Some(FormOf::Base), None, None) => Ok(Form::Base),
        (Some(FormOf::Compact), None, None) => Ok(Form::Compact),
        _ => Err(Fault::Words("--attest and --origid belong to the form shaken".into())),
    }
}

/// The world by whose code table a certificate covers numbers.
pub(crate) fn world_of(by: &Numbers) -> Result<World, Fault> {
    let settings = by.settings();
    World::open(&settings, b"", b"").map_err(|error| Fault::Words(error.to_string()))?;
    let table = by.table.as_deref().map(|name| world::table(&settings, name)).transpose()?;
    Ok(World::open(&settings, b"", &table.unwrap_or_default())?)
}

/// The message of this word, as far as one may be read.
pub(crate) fn message(word: &str) -> Result<Vec<u8>, Fault> {
    let Input { name, source, bar, .. } = Input::open(word)?;
    let mut message = Vec::new();
    let read = source.take(MOST_BYTES).read_to_end(&mut message);
    bar.finish_and_clear();
    read.map(|_| message).map_err(|_| Fault::Read(name))
}

/// Writes what comes of a message. The status is 0 if it was signed, and else 1; the line of a
/// fault is written as `stir` does.
pub(crate) fn written(come: impl FnOnce() -> Result<Written, Fault>) -> Ended {
    let mut out = Sink::open(STDOUT)?;
    let (text, status) = match come() {
        Ok(Written::Message(message)) => (message, 0),
        Ok(Written::Line(line)) => (line.into_bytes(), 1),
        Err(fault) if fault.is_of_a_report() => (format!("{fault}\n").into(), fault.status()),
        Err(fault) => return Err(fault),
    };
    out.put(|out| out.write_all(&text))?;
    out.commit()?;
    Ok(status)
}
