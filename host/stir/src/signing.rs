//! Messages signed by the key of a chain.

use crate::chain::Chain;
use crate::order::{Diversion, Order};
use crate::room::{said, written, Written};
use crate::{Error, SignError, Withheld};
use stir_sys::stir_said;

/// How many bytes a signed message mostly has beside the one that was to be signed.
const FIELD: usize = 2048;

impl Chain {
    /// The SHA-256 that is to be signed by ES256 (RFC 7518, section 3.4) so that a message gets an
    /// Identity field. The leaf is the certificate of the key that signs, and what it may vouch for
    /// by rule 17 is signed, and nothing else. Whether the chain is trusted isn't looked at.
    ///
    /// # Errors
    ///
    /// [`SignError::Withheld`] if the message may not be signed; a bad input if the chain isn't one
    /// of the profile, its leaf has no authority list, or the order is none; or want of memory.
    ///
    /// ```
    #[doc = include_str!("../tests/given/hidden.md")]
    /// use stir::{Attest, Form, Order, SignError, Withheld};
    ///
    /// let form = Form::Shaken { attest: Attest::A, origid: given::ORIGID };
    /// let iat = given::MOMENT;
    /// let mut order = Order { iat, form, x5u: given::X5U, message: given::UNSIGNED };
    /// let digest = chain.to_sign(&order)?;
    /// let signature = given::signature(&digest).expect("it has signed this");
    /// assert_eq!(chain.signed(&order, &signature)?, given::INVITE);
    ///
    /// order.message = b"no INVITE";
    /// assert_eq!(chain.to_sign(&order), Err(SignError::Withheld(Withheld::Form)));
    /// # Ok::<(), stir::SignError>(())
    /// ```
    pub fn to_sign(&self, order: &Order<'_>) -> Result<[u8; 32], SignError> {
        let (raw, x5u, message) = (order.raw()?, order.x5u.as_bytes(), order.message);
        let told = self.with(|handle| {
            // SAFETY: all are lent for the call.
            said(unsafe {
                stir_sys::stir_to_sign(
                    handle.at(),
                    &raw,
                    x5u.as_ptr(),
                    x5u.len(),
                    message.as_ptr(),
                    message.len(),
                )
            })
        })?;
        withheld(&told)?;
        Ok(told.ticket)
    }

    /// The message with its Identity field in the last line of its head (RFC 8224, section 4.1), by
    /// the signature of what [`Chain::to_sign`] gave for the same order: r and s, 32 bytes each.
    /// That it is good isn't looked at.
    ///
    /// # Errors
    ///
    /// Those of [`Chain::to_sign`].
    ///
    /// ```
    #[doc = include_str!("../tests/given/hidden.md")]
    /// use stir::{Form, Order};
    ///
    /// let iat = given::MOMENT;
    /// let order = Order { iat, form: Form::Base, x5u: given::X5U, message: given::UNSIGNED };
    /// let signed = chain.signed(&order, &[7; 64])?;
    /// assert!(signed.len() > given::UNSIGNED.len());
    /// # Ok::<(), stir::SignError>(())
    /// ```
    pub fn signed(&self, order: &Order<'_>, signature: &[u8; 64]) -> Result<Vec<u8>, SignError> {
        let (raw, x5u, message) = (order.raw()?, order.x5u.as_bytes(), order.message);
        message_of(self.with(|handle| {
            // SAFETY: all are lent for the call.
            unsafe {
                written(message.len() + FIELD, |at, size| {
                    stir_sys::stir_signed(
                        handle.at(),
                        &raw,
                        x5u.as_ptr(),
                        x5u.len(),
                        message.as_ptr(),
                        message.len(),
                        signature.as_ptr(),
                        signature.len(),
                        at,
                        size,
                    )
                })
            }
        })?)
    }

    /// The SHA-256 that is to be signed so that a message tells of its diversion: the same as
    /// [`Chain::to_sign`], with a PASSporT of the type `div` from the number that was called
    /// before, which the leaf has to cover, to that of the request URI.
    ///
    /// # Errors
    ///
    /// Those of [`Chain::to_sign`].
    ///
    /// ```
    #[doc = include_str!("../tests/given/hidden.md")]
    /// use stir::Diversion;
    ///
    /// let key = world.chain(given::DIVERTER)?;
    /// let order = Diversion {
    ///     iat: given::MOMENT,
    ///     earlier: "12125551213",
    ///     x5u: given::DIVERTER_X5U,
    ///     message: given::GOES_ON,
    /// };
    /// let signature = given::signature(&key.to_divert(&order)?).expect("it has signed this");
    /// assert_eq!(key.diverted(&order, &signature)?, given::DIVERTED);
    /// # Ok::<(), stir::SignError>(())
    /// ```
    pub fn to_divert(&self, order: &Diversion<'_>) -> Result<[u8; 32], SignError> {
        let Diversion { iat, earlier, x5u, message } = *order;
        let told = self.with(|handle| {
            // SAFETY: all are lent for the call.
            said(unsafe {
                stir_sys::stir_to_divert(
                    handle.at(),
                    iat,
                    earlier.as_ptr(),
                    earlier.len(),
                    x5u.as_ptr(),
                    x5u.len(),
                    message.as_ptr(),
                    message.len(),
                )
            })
        })?;
        withheld(&told)?;
        Ok(told.ticket)
    }

    /// The message that tells of its diversion, by the signature of what [`Chain::to_divert`] gave
    /// for the same order. That it is good isn't looked at.
    ///
    /// # Errors
    ///
    /// Those of [`Chain::to_sign`].
    ///
    /// ```
    #[doc = include_str!("../tests/given/hidden.md")]
    /// use stir::Diversion;
    ///
    /// let (iat, x5u, message) = (given::MOMENT, given::DIVERTER_X5U, given::GOES_ON);
    /// let order = Diversion { iat, earlier: "12125551213", x5u, message };
    /// let key = world.chain(given::DIVERTER)?;
    /// assert!(key.diverted(&order, &[7; 64])?.len() > given::GOES_ON.len());
    /// # Ok::<(), stir::SignError>(())
    /// ```
    pub fn diverted(
        &self,
        order: &Diversion<'_>,
        signature: &[u8; 64],
    ) -> Result<Vec<u8>, SignError> {
        let Diversion { iat, earlier, x5u, message } = *order;
        message_of(self.with(|handle| {
            // SAFETY: all are lent for the call.
            unsafe {
                written(message.len() + FIELD, |at, size| {
                    stir_sys::stir_diverted(
                        handle.at(),
                        iat,
                        earlier.as_ptr(),
                        earlier.len(),
                        x5u.as_ptr(),
                        x5u.len(),
                        message.as_ptr(),
                        message.len(),
                        signature.as_ptr(),
                        signature.len(),
                        at,
                        size,
                    )
                })
            }
        })?)
    }
}

/// The message that was written, if it may be signed.
fn message_of(came: Written) -> Result<Vec<u8>, SignError> {
    let Written::Said(told, message) = came else {
        return Err(Error::Unexpected(stir_sys::NONE).into());
    };
    withheld(&told)?;
    Ok(message)
}

/// The reason, if a message may not be signed.
fn withheld(told: &stir_said) -> Result<(), SignError> {
    if told.kind != stir_sys::REFUSED {
        return Ok(());
    }
    Err(Withheld::of(told.rule).map_or(Error::Unexpected(told.kind).into(), SignError::Withheld))
}
