//! Calls that go on to another number: the number that was called before decides by whose key
//! their diversion is signed (RFC 8946, section 4).
use super::signing::Blocks;
use super::signing_block::Unsigned;
use super::World;
use stir::{Call, Diversion, Error, Held, Retarget, RetargetError, SignError};
use stir_trust::claims::Claimed;
use thiserror::Error;

/// A message that goes on.
///
/// ```
/// use stird::files::diverting::Diverted;
/// use stird::files::signing::{Blocks, Unsigned};
///
/// let call = Diverted { earlier: "12155550001", message: b"INVITE ..", iat: 1_767_225_600 };
/// assert_eq!(Blocks::default().divert(&call), Err(Unsigned::NotOurs), "there is no table");
/// ```
#[derive(Clone, Copy, Debug)]
pub struct Diverted<'a> {
    /// The number that was called before, in digits.
    pub earlier: &'a str,
    /// The INVITE to the number that is called now.
    pub message: &'a [u8],
    /// The second of signing, in Unix time.
    pub iat: u64,
}

/// Where a call goes on.
#[derive(Clone, Copy)]
pub struct Target<'a> {
    /// The request URI of the message that goes on.
    pub uri: &'a str,
    /// The second of signing, in Unix time.
    pub iat: u64,
    /// By what the message that goes on is read.
    pub world: &'a World,
    /// Whether whoever asks may have a diversion from this number signed.
    pub may_sign: &'a (dyn Fn(&str) -> bool + Sync),
}

/// Why a call that passes doesn't go on.
#[derive(Clone, Copy, Debug, Error, PartialEq, Eq)]
pub enum Unsent {
    /// It can't go on to this target.
    #[error("{0}")]
    Held(#[from] Held),
    /// Its diversion isn't signed.
    #[error("its diversion isn't signed")]
    Unsigned(Unsigned),
}

/// What the last PASSporT of a call claims, by the proved reading.
fn last_claimed(call: &mut Call) -> Result<Claimed, Error> {
    let claims = call.claims()?;
    let payload = claims.last().and_then(|last| last.payload.as_deref());
    Ok(payload.map(Claimed::of).unwrap_or_default())
}

impl Blocks {
    /// The message with an Identity field that tells of its diversion, signed by the key of the
    /// block that has the earlier number.
    ///
    /// # Errors
    ///
    /// Nothing is signed, as [`Unsigned`] says.
    pub fn divert(&self, call: &Diverted) -> Result<Vec<u8>, Unsigned> {
        let signer = &self.block_of(call.earlier).ok_or(Unsigned::NotOurs)?.signer;
        let Diverted { earlier, message, iat } = *call;
        let order = Diversion { iat, earlier, x5u: &signer.x5u, message };
        let digest = signer.chain.to_divert(&order)?;
        let signature = signer.signature(&digest, iat)?;
        signer.chain.diverted(&order, &signature).map_err(|_| Unsigned::Failed)
    }

    /// The message of a call that passes with another request URI, and with an Identity field that
    /// tells of the diversion, signed by the key of the block that has the number that was called
    /// before. The last PASSporT of the call names it, mostly as its only one: what goes on is read
    /// again, and has to have it. So that a call with many numbers costs one signature at most, it
    /// is looked for among several in a message without one.
    ///
    /// # Errors
    ///
    /// It doesn't go on, as [`Unsent`] says.
    pub fn retarget(
        &self,
        call: &mut Call,
        good: &[bool],
        target: &Target,
    ) -> Result<Vec<u8>, Unsent> {
        let numbers = last_claimed(call)?.dest;
        let is_one = numbers.len() == 1;
        for number in numbers {
            let Target { uri, iat, world, may_sign } = *target;
            let Some(block) = self.block_of(&number).filter(|_| may_sign(&number)) else {
                continue;
            };
            let signer = &block.signer;
            let onward = Retarget { target: uri, key: &signer.chain, x5u: &signer.x5u, iat };
            let digest = match call.to_retarget(good, &onward) {
                Err(RetargetError::Held(Held::Authority)) => continue,
                digest => digest?,
            };
            let is_from_it = |message: &[u8]| -> Result<bool, Error> {
                Ok(last_claimed(&mut world.call(iat, message)?)?.div.as_ref() == Some(&number))
            };
            if !is_one && !is_from_it(&call.retargeted(good, &onward, &[0; 64])?)? {
                continue;
            }
            let signature = signer.signature(&digest, iat).map_err(Unsent::Unsigned)?;
            let message = call.retargeted(good, &onward, &signature)?;
            if is_from_it(&message)? {
                return Ok(message);
            }
        }
        Err(Unsent::Unsigned(Unsigned::NotOurs))
    }
}

impl From<Error> for Unsent {
    fn from(_: Error) -> Unsent {
        Unsent::Unsigned(Unsigned::Failed)
    }
}

impl From<RetargetError> for Unsent {
    fn from(error: RetargetError) -> Unsent {
        match error {
            RetargetError::Held(Held::Authority) => Unsent::Unsigned(Unsigned::NotOurs),
            RetargetError::Held(held) => Unsent::Held(held),
            // What passed before can't be refused now.
            RetargetError::Refused(_) | RetargetError::Failed(_) => {
                Unsent::Unsigned(Unsigned::Failed)
            }
        }
    }
}

impl From<SignError> for Unsigned {
    fn from(error: SignError) -> Unsigned {
        match error {
            SignError::Withheld(stir::Withheld::Authority) => Unsigned::NotOurs,
            SignError::Withheld(_) | SignError::Failed(stir::Error::BadInput(_)) => {
                Unsigned::BadValue
            }
            SignError::Failed(_) => Unsigned::Failed,
        }
    }
}
