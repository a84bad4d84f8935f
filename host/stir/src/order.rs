//! What is to be signed.

use crate::{Error, Input};
use stir_sys::stir_order;

/// How well a caller is known (RFC 8588, section 4).
///
/// ```
/// assert!(stir::Attest::A < stir::Attest::C, "the later letter is the lower attestation");
/// ```
#[derive(Clone, Copy, Debug, PartialEq, Eq, PartialOrd, Ord)]
pub enum Attest {
    /// In full.
    A,
    /// In part.
    B,
    /// The gateway alone.
    C,
}

/// In which form a message is signed.
///
/// ```
/// use stir::{Attest, Form};
///
/// let origid = "123e4567-e89b-12d3-a456-426655440000";
/// let form = Form::Shaken { attest: Attest::B, origid };
/// assert_ne!(form, Form::Base);
/// ```
#[derive(Clone, Copy, Debug, PartialEq, Eq)]
pub enum Form<'a> {
    /// A PASSporT without a type (RFC 8225).
    Base,
    /// The same in its compact form (RFC 8225, section 7); the message's Date has to be the second
    /// of signing.
    Compact,
    /// `shaken` (RFC 8588).
    Shaken {
        /// How well the caller is known.
        attest: Attest,
        /// The identifier of the call, a UUID in 36 characters.
        origid: &'a str,
    },
}

/// An order to sign a message.
///
/// ```
#[doc = include_str!("../tests/given/hidden.md")]
/// use stir::{Form, Order};
///
/// let iat = given::MOMENT;
/// let order = Order { iat, form: Form::Base, x5u: given::X5U, message: given::UNSIGNED };
/// assert_eq!(chain.to_sign(&order)?.len(), 32);
/// # Ok::<(), stir::SignError>(())
/// ```
#[derive(Clone, Copy, Debug, PartialEq, Eq)]
pub struct Order<'a> {
    /// When it is signed, in Unix seconds.
    pub iat: u64,
    /// In which form.
    pub form: Form<'a>,
    /// The URI of the certificates of the key.
    pub x5u: &'a str,
    /// The INVITE.
    pub message: &'a [u8],
}

/// An order to sign that a message was diverted (RFC 8946, section 4.1).
///
/// ```
#[doc = include_str!("../tests/given/hidden.md")]
/// use stir::Diversion;
///
/// let (iat, x5u, message) = (given::MOMENT, given::DIVERTER_X5U, given::GOES_ON);
/// let order = Diversion { iat, earlier: "12125551213", x5u, message };
/// assert_eq!(world.chain(given::DIVERTER)?.to_divert(&order)?.len(), 32);
/// # Ok::<(), stir::SignError>(())
/// ```
#[derive(Clone, Copy, Debug, PartialEq, Eq)]
pub struct Diversion<'a> {
    /// When it is signed, in Unix seconds.
    pub iat: u64,
    /// The number that was called before: 1 to 15 of `0-9`, `*` and `#`.
    pub earlier: &'a str,
    /// The URI of the certificates of the key.
    pub x5u: &'a str,
    /// The INVITE to the number that is called now.
    pub message: &'a [u8],
}

impl Order<'_> {
    /// The same as the library takes it, but for its texts.
    pub(crate) fn raw(&self) -> Result<stir_order, Error> {
        let (form, origid) = match self.form {
            Form::Base => (0, [0; 36]),
            Form::Compact => (1, [0; 36]),
            Form::Shaken { attest, origid } => {
                (letter(attest), origid.as_bytes().try_into().map_err(|_| Input::Order)?)
            }
        };
        Ok(stir_order { iat: self.iat, form, origid })
    }
}

/// The letter of an attestation.
fn letter(attest: Attest) -> u8 {
    match attest {
        Attest::A => b'A',
        Attest::B => b'B',
        Attest::C => b'C',
    }
}
