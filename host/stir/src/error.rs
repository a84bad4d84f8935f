//! What can't be done, and why.

use crate::Refused;
use thiserror::Error;

/// Why nothing is said.
///
/// ```
/// use stir::{Error, Input, Settings, World};
///
/// let settings = Settings { past: 86_401, ..Settings::default() };
/// let fault = World::open(&settings, b"", b"").err();
/// assert_eq!(fault, Some(Error::BadInput(Input::Settings)));
/// ```
#[derive(Clone, Copy, Debug, Error, PartialEq, Eq)]
pub enum Error {
    /// An input is outside its grammar or its limits.
    #[error("{0}")]
    BadInput(#[from] Input),
    /// Memory ran out in the library.
    #[error("the library had no memory, and said nothing")]
    OutOfMemory,
    /// The chain was opened under another world than the call.
    #[error("the chain was opened under another world than the call")]
    OtherWorld,
    /// The call has no PASSporT of this index.
    #[error("the call has no PASSporT of the index {0}")]
    NoPassport(usize),
    /// The library has another version of its declarations than this crate.
    #[error(
        "the library's declarations are of version {0}, and {wanted} is wanted",
        wanted = stir_sys::ABI
    )]
    OtherVersion(u64),
    /// The library said what its header doesn't have.
    #[error("the library said {0}, which its header doesn't have here")]
    Unexpected(u32),
}

/// An input that is outside its grammar or its limits.
///
/// ```
/// assert!(stir::Input::Anchors.to_string().starts_with("the trust anchors aren't"));
/// ```
#[derive(Clone, Copy, Debug, Error, PartialEq, Eq)]
pub enum Input {
    /// The settings of a world.
    #[error("past or future is more than 86,400 seconds, or there is no such local numbering")]
    Settings,
    /// The trust anchors.
    #[error(
        "the trust anchors aren't certificates of authorities one after another, or more than 256"
    )]
    Anchors,
    /// The code table.
    #[error("the lines are no code table, or more than 16,777,216 bytes")]
    Table,
    /// The certificate of a key, or the certificates that are shown.
    #[error("it is no chain of certificates, or its first one has no authority list")]
    Certificate,
    /// What is to be signed.
    #[error(
        "the x5u is no URI of 1 to 2,048 bytes, the second is past the year 9999, or the \
         identifier isn't a UUID in 36 characters"
    )]
    Order,
}

/// Why a message isn't signed.
///
/// ```
/// use stir::{SignError, Withheld};
///
/// let error = SignError::from(Withheld::Authority);
/// assert_eq!(error.to_string(), "the certificate doesn't cover the calling number");
/// ```
#[derive(Clone, Copy, Debug, Error, PartialEq, Eq)]
pub enum SignError {
    /// The message may not be signed.
    #[error("{0}")]
    Withheld(#[from] Withheld),
    /// Nothing is said.
    #[error("{0}")]
    Failed(#[from] Error),
}

/// Why a message may not be signed.
///
/// ```
#[doc = include_str!("../tests/given/hidden.md")]
/// use stir::{Form, Order, SignError, Withheld};
///
/// let order = Order { iat: 1, form: Form::Base, x5u: given::X5U, message: b"no INVITE" };
/// assert_eq!(chain.to_sign(&order), Err(SignError::Withheld(Withheld::Form)));
/// # Ok::<(), stir::Error>(())
/// ```
#[derive(Clone, Copy, Debug, Error, PartialEq, Eq)]
pub enum Withheld {
    /// The message is no INVITE, has another Date than a compact PASSporT, or would be too long.
    #[error(
        "the message is no INVITE, has another Date than a compact PASSporT, or would have more \
         than 65,535 bytes"
    )]
    Form,
    /// It has no number that calls, or none that is called.
    #[error("the message has no calling number, or To has none")]
    NoNumber,
    /// The certificate doesn't cover the number that calls.
    #[error("the certificate doesn't cover the calling number")]
    Authority,
}

/// Why a call doesn't go on to a target.
///
/// ```
/// use stir::{Held, RetargetError};
///
/// let error = RetargetError::from(Held::Loop);
/// assert_eq!(error.to_string(), "the call has been at the target's number");
/// ```
#[derive(Clone, Copy, Debug, Error, PartialEq, Eq)]
pub enum RetargetError {
    /// It breaks a rule.
    #[error("the call breaks rule {}", .0.rule)]
    Refused(Refused),
    /// It passes, and can't go on there.
    #[error("{0}")]
    Held(#[from] Held),
    /// Nothing is said.
    #[error("{0}")]
    Failed(#[from] Error),
}

/// Why a call that passes can't go on to a target (docs/RULES.md).
///
/// ```
/// use stir::Held;
///
/// assert_eq!(Held::Full.number(), 23);
/// ```
#[derive(Clone, Copy, Debug, Error, PartialEq, Eq)]
pub enum Held {
    /// The target isn't a request URI, or gives no number.
    #[error("the target gives no number")]
    NoTarget,
    /// The call has been at the target's number.
    #[error("the call has been at the target's number")]
    Loop,
    /// The message has 16 Identity fields, or the call 8 diversions.
    #[error("the call was diverted too often")]
    Full,
    /// The message would be too long.
    #[error("the message would have more than 65,535 bytes")]
    TooLong,
    /// The certificate doesn't cover the number that was called before.
    #[error("the certificate doesn't cover the number that was called before")]
    Authority,
}

impl Input {
    /// The input of this number in the header.
    fn of(number: u32) -> Option<Input> {
        match number {
            1 => Some(Input::Settings),
            4 => Some(Input::Anchors),
            5 => Some(Input::Table),
            7 => Some(Input::Certificate),
            8 => Some(Input::Order),
            _ => None,
        }
    }
}

impl Error {
    /// Why a call of the library said no more than this kind and this input.
    pub(crate) fn of(kind: u32, input: u32) -> Error {
        match kind {
            stir_sys::NO_MEMORY => Error::OutOfMemory,
            stir_sys::BAD_INPUT => {
                Input::of(input).map_or(Error::Unexpected(kind), Error::BadInput)
            }
            _ => Error::Unexpected(kind),
        }
    }
}

impl Withheld {
    /// The reason of this number in the header.
    pub(crate) fn of(number: u32) -> Option<Withheld> {
        match number {
            1 => Some(Withheld::Form),
            2 => Some(Withheld::NoNumber),
            3 => Some(Withheld::Authority),
            _ => None,
        }
    }
}

impl Held {
    /// Its number in reports, 21 to 25.
    ///
    /// ```
    /// assert_eq!(stir::Held::NoTarget.number(), 21);
    /// ```
    pub fn number(self) -> u32 {
        match self {
            Held::NoTarget => 21,
            Held::Loop => 22,
            Held::Full => 23,
            Held::TooLong => 24,
            Held::Authority => 25,
        }
    }

    /// The reason of this number in the header.
    pub(crate) fn of(number: u32) -> Option<Held> {
        let all = [Held::NoTarget, Held::Loop, Held::Full, Held::TooLong, Held::Authority];
        all.into_iter().find(|held| held.number() == number)
    }
}
