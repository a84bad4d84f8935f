//! A block of numbers, and the key that signs for it.
use super::numbers::Numbers;
use super::several::Files;
use super::signing_key::SigningKey;
use super::signing_line::{BlockFault, Line};
use std::collections::BTreeSet;
use std::ops::RangeInclusive;
use std::path::{Path, PathBuf};
use std::sync::Arc;
use stir::{Attest, Chain, Error, Form, Order, Part, SignError};

/// The most bytes of certificates.
const MOST_FILE: usize = 49_152;

/// Within how many seconds before its end a certificate is told of.
const SOON: i64 = 86_400;

/// A key with the certificates that go with it, the seconds at which its own is valid, and their
/// URI.
pub(super) struct Signer {
    pub key: SigningKey,
    pub chain: Chain,
    valid: RangeInclusive<i64>,
    pub x5u: String,
}

/// Numbers that follow each other, with how well their callers are known (RFC 8588, section 4) and
/// the key that signs for them.
pub(super) struct Block {
    numbers: Numbers,
    attest: Attest,
    unasked: Option<Attest>,
    pub signer: Arc<Signer>,
}

/// Why nothing is signed.
#[derive(Clone, Copy, Debug, PartialEq, Eq)]
pub enum Unsigned {
    /// No block has the number, or its certificate doesn't cover it.
    NotOurs,
    /// No attestation is wanted, and the block says of none that it is given then.
    NoAttest,
    /// What the library can't take or won't sign: a number or an identifier is no such thing.
    BadValue,
    /// The certificate isn't valid at that second.
    NotValid,
    /// The key or the memory failed.
    Failed,
}

/// What is to be signed.
pub struct Call<'a> {
    /// Who calls, in digits.
    pub orig: &'a str,
    /// The INVITE.
    pub message: &'a [u8],
    /// The second of signing, in Unix time.
    pub iat: u64,
    /// The identifier of the call, a UUID.
    pub origid: &'a str,
    /// The best attestation that is wanted, if that is said.
    pub attest: Option<Attest>,
    /// The best one that whoever asks may have.
    pub most: Attest,
}

impl Signer {
    /// The key of a line of the signing table, with its certificates. They are read as two of these
    /// files.
    pub(super) fn read(
        line: &Line,
        world: &stir::World,
        files: &mut Files,
    ) -> Result<Signer, BlockFault> {
        let (key_path, path) = (PathBuf::from(line.key), PathBuf::from(line.certificates));
        let unread = |file: &Path, why| BlockFault::File { file: file.into(), why: Box::new(why) };
        let key = SigningKey::read(line.key, files)?;
        let der = files.read(&path, MOST_FILE).map_err(|why| unread(&path, why))?.bytes;
        let no_chain = || BlockFault::NoChain { file: path.clone() };
        let shown = stir::show(&der).map_err(|error| match error {
            Error::BadInput(_) => no_chain(),
            error => error.into(),
        })?;
        let public: String = key.public().iter().map(|byte| format!("{byte:02x}")).collect();
        let said = shown.lines().find_map(|line| line.strip_prefix("key "));
        if said != Some(&public) {
            return Err(BlockFault::OtherKey { key: key_path, certificates: path });
        }
        let chain = world.chain(&der)?;
        let valid = dates(&chain)?.ok_or_else(no_chain)?;
        Ok(Signer { key, chain, valid, x5u: line.x5u.into() })
    }

    /// Whether its certificate is valid at this second, as rule 13 asks of it.
    pub(super) fn is_valid(&self, second: u64) -> bool {
        i64::try_from(second).is_ok_and(|second| self.valid.contains(&second))
    }

    /// The signature of a digest, if the certificate is valid at this second.
    pub(super) fn signature(&self, digest: &[u8; 32], second: u64) -> Result<[u8; 64], Unsigned> {
        if !self.is_valid(second) {
            return Err(Unsigned::NotValid);
        }
        self.key.sign(digest).map_err(|_| Unsigned::Failed)
    }

    /// Whether it is at this second, and ends within a day.
    pub(super) fn ends_soon(&self, second: u64) -> bool {
        let left = i64::try_from(second).map(|second| self.valid.end().saturating_sub(second));
        self.is_valid(second) && left.is_ok_and(|left| left < SOON)
    }
}

impl Block {
    /// The block of a line, if its certificate covers the first number of it and the last.
    pub(super) fn new(line: &Line, signer: Arc<Signer>) -> Result<Block, BlockFault> {
        let Line { numbers, attest, unasked, .. } = *line;
        let block = Block { numbers, attest, unasked, signer };
        block.test()?;
        Ok(block)
    }

    /// Signs nothing, but looks whether the first number and the last could be signed for.
    fn test(&self) -> Result<(), BlockFault> {
        for number in BTreeSet::from([self.numbers.first(), self.numbers.last()]) {
            let orig = number.to_string();
            let call = Call {
                orig: &orig,
                message: &invite(&orig),
                iat: 0,
                origid: "00000000-0000-4000-8000-000000000000",
                attest: Some(self.attest),
                most: self.attest,
            };
            self.signer.chain.to_sign(&self.order(&call, self.attest)).map_err(
                |error| match error {
                    SignError::Failed(Error::OutOfMemory) => Error::OutOfMemory.into(),
                    _ => BlockFault::Uncovered { x5u: self.signer.x5u.clone(), number },
                },
            )?;
        }
        Ok(())
    }

    /// The attestation of a call: what is wanted, but no better than that of the block, or than
    /// whoever asks may have.
    fn attest(&self, call: &Call) -> Option<Attest> {
        // The later letter is the lower attestation.
        let given = call.attest.map(|wanted| wanted.max(self.attest)).or(self.unasked);
        given.map(|given| given.max(call.most))
    }

    fn order<'a>(&'a self, call: &'a Call, attest: Attest) -> Order<'a> {
        Order {
            iat: call.iat,
            form: Form::Shaken { attest, origid: call.origid },
            x5u: &self.signer.x5u,
            message: call.message,
        }
    }

    /// The message of a call with its Identity field.
    pub(super) fn sign(&self, call: &Call) -> Result<Vec<u8>, Unsigned> {
        let attest = self.attest(call).ok_or(Unsigned::NoAttest)?;
        let (order, signer) = (self.order(call, attest), &self.signer);
        let digest = signer.chain.to_sign(&order)?;
        let signature = signer.signature(&digest, call.iat)?;
        signer.chain.signed(&order, &signature).map_err(|_| Unsigned::Failed)
    }
}

/// The seconds, in Unix time, at which the first certificate of a chain is valid: the first and the
/// last. There are none if it is no chain of the profile.
fn dates(chain: &Chain) -> Result<Option<RangeInclusive<i64>>, Error> {
    let (first, last) = (chain.part(1, Part::NotBefore)?, chain.part(1, Part::NotAfter)?);
    let second = |digits: Vec<u8>| std::str::from_utf8(&digits).ok()?.parse::<i64>().ok();
    Ok(first.and_then(second).zip(last.and_then(second)).map(|(first, last)| first..=last))
}

/// An INVITE of this number, to see whether it could be signed for.
fn invite(orig: &str) -> Vec<u8> {
    format!(
        "INVITE sip:+12125551213@stird.invalid;user=phone SIP/2.0\r\n\
         Via: SIP/2.0/TCP stird.invalid;branch=z9hG4bKstird\r\n\
         Max-Forwards: 70\r\n\
         From: <sip:+{orig}@stird.invalid;user=phone>;tag=stird\r\n\
         To: <sip:+12125551213@stird.invalid;user=phone>\r\n\
         Call-ID: stird\r\n\
         CSeq: 1 INVITE\r\n\
         Content-Length: 0\r\n\r\n"
    )
    .into_bytes()
}
