//! Why a module, a token or a key of it doesn't do what is wanted.
use std::fmt;
use thiserror::Error;

/// What a function of a module returned, if it isn't `CKR_OK` (PKCS #11 2.40, section 5.1).
///
/// ```
/// use stir_hsm::Returned;
///
/// assert_eq!(Returned(0x30).to_string(), "CKR_DEVICE_ERROR");
/// assert_eq!(Returned(0x8000_0001).to_string(), "0x80000001");
/// ```
#[derive(Clone, Copy, Debug, PartialEq, Eq)]
pub struct Returned(pub u64);

/// Why a token of an HSM gives no session, no key or no signature.
///
/// ```
/// use stir_hsm::{HsmFault, Returned};
///
/// let fault = HsmFault::Returned { function: "C_Sign", value: Returned(0x32) };
/// assert_eq!(fault.to_string(), "C_Sign: CKR_DEVICE_REMOVED");
/// ```
#[derive(Clone, Debug, Error, PartialEq, Eq)]
pub enum HsmFault {
    /// The module can't be loaded, or isn't one of PKCS #11.
    #[error("the PKCS #11 module can't be loaded: {0}")]
    Module(String),
    /// The module lacks a function.
    #[error("the PKCS #11 module has no {0}")]
    Lacks(&'static str),
    /// No token is there that the URI names.
    #[error("no token is there that the URI names")]
    NoToken,
    /// Several are.
    #[error("the URI names several tokens")]
    SeveralTokens,
    /// The token doesn't take the PIN, and isn't asked with it again.
    #[error("the token refuses the PIN: {0}")]
    Pin(Returned),
    /// The token has no private key that the URI names, or shows none without a PIN.
    #[error("the token has no private key that the URI names")]
    NoKey,
    /// Several are.
    #[error("the URI names several private keys")]
    SeveralKeys,
    /// It is one of another kind.
    #[error("its private key isn't one of P-256")]
    OtherKind,
    /// The token doesn't say what its public key is.
    #[error("the token has no public key beside the private one, with its identifier")]
    NoPublic,
    /// What was signed isn't good under the public key of the token.
    #[error("a signature of the token isn't good under its public key")]
    BadSignature,
    /// The session is one from before the module was started anew.
    #[error("the session has ended")]
    Ended,
    /// The module was started anew a moment ago, or is being used.
    #[error("the PKCS #11 module can't be started anew now")]
    Busy,
    /// A function returned something else.
    #[error("{function}: {value}")]
    Returned {
        /// Its name.
        function: &'static str,
        /// What it returned.
        value: Returned,
    },
}

/// What a function returns, by its number.
macro_rules! returned {
    ($($name:ident = $value:literal),* $(,)?) => {
        impl Returned {
            $(#[allow(missing_docs)] pub const $name: Returned = Returned($value);)*

            /// Its name in the standard; nothing if it has none that is known here.
            fn name(self) -> Option<&'static str> {
                match self {
                    $(Returned::$name => Some(stringify!($name)),)*
                    _ => None,
                }
            }
        }
    };
}

returned! {
    CKR_OK = 0,
    CKR_HOST_MEMORY = 2,
    CKR_SLOT_ID_INVALID = 3,
    CKR_GENERAL_ERROR = 5,
    CKR_FUNCTION_FAILED = 6,
    CKR_ARGUMENTS_BAD = 7,
    CKR_CANT_LOCK = 0xA,
    CKR_ATTRIBUTE_SENSITIVE = 0x11,
    CKR_ATTRIBUTE_TYPE_INVALID = 0x12,
    CKR_DEVICE_ERROR = 0x30,
    CKR_DEVICE_MEMORY = 0x31,
    CKR_DEVICE_REMOVED = 0x32,
    CKR_FUNCTION_CANCELED = 0x50,
    CKR_FUNCTION_NOT_SUPPORTED = 0x54,
    CKR_KEY_HANDLE_INVALID = 0x60,
    CKR_KEY_FUNCTION_NOT_PERMITTED = 0x68,
    CKR_MECHANISM_INVALID = 0x70,
    CKR_OBJECT_HANDLE_INVALID = 0x82,
    CKR_OPERATION_ACTIVE = 0x90,
    CKR_PIN_INCORRECT = 0xA0,
    CKR_PIN_INVALID = 0xA1,
    CKR_PIN_LEN_RANGE = 0xA2,
    CKR_PIN_EXPIRED = 0xA3,
    CKR_PIN_LOCKED = 0xA4,
    CKR_SESSION_CLOSED = 0xB0,
    CKR_SESSION_COUNT = 0xB1,
    CKR_SESSION_HANDLE_INVALID = 0xB3,
    CKR_TOKEN_NOT_PRESENT = 0xE0,
    CKR_TOKEN_NOT_RECOGNIZED = 0xE1,
    CKR_USER_ALREADY_LOGGED_IN = 0x100,
    CKR_USER_NOT_LOGGED_IN = 0x101,
    CKR_USER_PIN_NOT_INITIALIZED = 0x102,
    CKR_BUFFER_TOO_SMALL = 0x150,
    CKR_CRYPTOKI_NOT_INITIALIZED = 0x190,
    CKR_CRYPTOKI_ALREADY_INITIALIZED = 0x191,
}

impl fmt::Display for Returned {
    fn fmt(&self, to: &mut fmt::Formatter<'_>) -> fmt::Result {
        match self.name() {
            Some(name) => to.write_str(name),
            None => write!(to, "{:#x}", self.0),
        }
    }
}

impl HsmFault {
    /// Whether it is the session or the module that failed, so that another session may do better;
    /// what the URI or the PIN is to blame for stays as it is.
    ///
    /// ```
    /// use stir_hsm::{HsmFault, Returned};
    ///
    /// assert!(HsmFault::NoToken.may_pass());
    /// assert!(!HsmFault::Pin(Returned::CKR_PIN_INCORRECT).may_pass());
    /// ```
    pub fn may_pass(&self) -> bool {
        match self {
            HsmFault::NoToken | HsmFault::NoKey | HsmFault::BadSignature => true,
            HsmFault::Ended | HsmFault::Busy | HsmFault::Returned { .. } => true,
            HsmFault::Module(_) | HsmFault::Lacks(_) | HsmFault::SeveralTokens => false,
            HsmFault::Pin(_) | HsmFault::SeveralKeys | HsmFault::OtherKind => false,
            HsmFault::NoPublic => false,
        }
    }
}
