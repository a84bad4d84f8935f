//! Calls sent on to another number.

use crate::call::Call;
use crate::chain::Chain;
use crate::question::bytes_of;
use crate::room::{said, written, Written};
use crate::verdict::Refused;
use crate::{Error, RetargetError};
use stir_sys::stir_said;

/// How many bytes a message that goes on mostly has beside the call's.
const FIELD: usize = 2048;

/// Where a call goes on, and by whose key its diversion is signed (RFC 8946, section 4).
///
/// ```
#[doc = include_str!("../tests/given/hidden.md")]
/// use stir::Retarget;
///
/// let key = world.chain(given::DIVERTER)?;
/// let target = "sip:+12125551214@example.net";
/// let onward = Retarget { target, key: &key, x5u: given::DIVERTER_X5U, iat: given::MOMENT };
/// let mut call = world.call(given::MOMENT, given::INVITE)?;
/// call.set_chain(0, &chain)?;
/// assert_eq!(call.to_retarget(&[true], &onward)?.len(), 32);
/// # Ok::<(), stir::RetargetError>(())
/// ```
#[derive(Clone, Copy, Debug)]
pub struct Retarget<'a> {
    /// The request URI of the message that goes on.
    pub target: &'a str,
    /// The chain whose leaf is the certificate of the key that signs.
    pub key: &'a Chain,
    /// The URI of that chain.
    pub x5u: &'a str,
    /// When it is signed, in Unix seconds.
    pub iat: u64,
}

impl Call {
    /// The SHA-256 that is to be signed by ES256 (RFC 7518, section 3.4) so that the call goes on.
    /// It is judged as by [`Call::judge`]; only one that passes goes on. The leaf has to cover the
    /// number that was called before: To's, or the request URI's if the call was diverted. Whether
    /// the key's chain is trusted isn't looked at.
    ///
    /// # Errors
    ///
    /// [`RetargetError::Refused`] if the call breaks a rule; [`RetargetError::Held`] if it passes
    /// and can't go on there; a bad input if the leaf has no authority list, or the x5u or the
    /// second isn't one; or want of memory.
    ///
    /// ```
    #[doc = include_str!("../tests/given/hidden.md")]
    /// use stir::{Held, Retarget, RetargetError};
    ///
    /// let key = world.chain(given::DIVERTER)?;
    /// let (x5u, iat) = (given::DIVERTER_X5U, given::MOMENT);
    /// let back = Retarget { target: "tel:+12125551213", key: &key, x5u, iat };
    /// let mut call = world.call(given::MOMENT, given::INVITE)?;
    /// call.set_chain(0, &chain)?;
    /// assert_eq!(call.to_retarget(&[true], &back), Err(RetargetError::Held(Held::Loop)));
    /// let refused = call.to_retarget(&[false], &back);
    /// assert!(matches!(refused, Err(RetargetError::Refused(refused)) if refused.rule == 16));
    /// # Ok::<(), stir::Error>(())
    /// ```
    pub fn to_retarget(
        &mut self,
        good: &[bool],
        onward: &Retarget<'_>,
    ) -> Result<[u8; 32], RetargetError> {
        let (call, good) = (self.at(), bytes_of(good));
        let Retarget { target, key, x5u, iat } = *onward;
        let told = key.with(|key| {
            // SAFETY: all are lent for the call.
            said(unsafe {
                stir_sys::stir_to_retarget(
                    call,
                    good.as_ptr(),
                    good.len(),
                    key.at(),
                    iat,
                    target.as_ptr(),
                    target.len(),
                    x5u.as_ptr(),
                    x5u.len(),
                )
            })
        })?;
        held(&told)?;
        Ok(told.ticket)
    }

    /// The message that goes on, with the target as its request URI and one more Identity field in
    /// the last line of its head, by the signature of what [`Call::to_retarget`] gave for the same
    /// order. That it is good isn't looked at.
    ///
    /// # Errors
    ///
    /// Those of [`Call::to_retarget`].
    ///
    /// ```
    #[doc = include_str!("../tests/given/hidden.md")]
    /// use stir::Retarget;
    ///
    /// let key = world.chain(given::DIVERTER)?;
    /// let (target, x5u) = ("sip:+12125551214@example.net", given::DIVERTER_X5U);
    /// let onward = Retarget { target, key: &key, x5u, iat: given::MOMENT };
    /// let mut call = world.call(given::MOMENT, given::INVITE)?;
    /// call.set_chain(0, &chain)?;
    /// let signature = given::signature(&call.to_retarget(&[true], &onward)?);
    /// let message = call.retargeted(&[true], &onward, &signature.expect("it has signed this"))?;
    /// assert_eq!(message, given::DIVERTED);
    /// # Ok::<(), stir::RetargetError>(())
    /// ```
    pub fn retargeted(
        &mut self,
        good: &[bool],
        onward: &Retarget<'_>,
        signature: &[u8; 64],
    ) -> Result<Vec<u8>, RetargetError> {
        let first = self.message_size() + FIELD;
        let (call, good) = (self.at(), bytes_of(good));
        let Retarget { target, key, x5u, iat } = *onward;
        let came = key.with(|key| {
            // SAFETY: all are lent for the call.
            unsafe {
                written(first, |at, size| {
                    stir_sys::stir_retargeted(
                        call,
                        good.as_ptr(),
                        good.len(),
                        key.at(),
                        iat,
                        target.as_ptr(),
                        target.len(),
                        x5u.as_ptr(),
                        x5u.len(),
                        signature.as_ptr(),
                        signature.len(),
                        at,
                        size,
                    )
                })
            }
        })?;
        let Written::Said(told, message) = came else {
            return Err(Error::Unexpected(stir_sys::NONE).into());
        };
        held(&told)?;
        Ok(message)
    }
}

/// Why the call doesn't go on, if it doesn't.
fn held(told: &stir_said) -> Result<(), RetargetError> {
    if told.kind != stir_sys::REFUSED {
        return Ok(());
    }
    let stir_said { rule, code, field, part, .. } = *told;
    Err(match crate::Held::of(rule) {
        Some(held) => RetargetError::Held(held),
        None => RetargetError::Refused(Refused { rule, code, field, part }),
    })
}
