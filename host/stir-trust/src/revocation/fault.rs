//! Why a revocation list isn't taken.
use openssl::error::ErrorStack;
use thiserror::Error;

/// Why a revocation list isn't taken.
///
/// ```
/// use stir_trust::revocation::{List, ListFault, Signers};
///
/// let fault = List::read(b"<html>", &Signers::default()).unwrap_err();
/// assert!(matches!(fault, ListFault::Form));
/// ```
#[derive(Clone, Debug, Error)]
pub enum ListFault {
    /// It is none.
    #[error("it is no revocation list in PEM or DER (RFC 5280, section 5.1)")]
    Form,
    /// It has more bytes than this.
    #[error("it has more than {0} bytes")]
    Long(usize),
    /// Its issuer's name is that of no signer.
    #[error("it was issued by {0}, which is none of its signers")]
    Stranger(String),
    /// No signer of its issuer's name signed it, by ECDSA or RSA with SHA-256, 384 or 512.
    #[error("it wasn't signed by {0}")]
    Forged(String),
    /// It says what changed since another list.
    #[error("it is a part of a list, which says what changed since another one")]
    Delta,
    /// It is one of some reasons, or of other certificates.
    #[error("it is one of some reasons alone, or of attribute certificates")]
    Scope,
    /// It has a critical extension with this identifier, whose meaning isn't known here.
    #[error("its critical extension {0} isn't known")]
    Critical(String),
    /// An entry names another authority in a list of one authority, or it names none.
    #[error("entry {0} names an authority that it can't have")]
    Authority(usize),
    /// It names more authorities than this.
    #[error("it names more than {0} authorities")]
    Authorities(usize),
    /// OpenSSL failed, as if it had no memory.
    #[error("OpenSSL failed: {0}")]
    OpenSsl(#[from] ErrorStack),
}

/// Why a file isn't taken as signers of revocation lists.
///
/// ```
/// use stir_trust::revocation::{Signers, SignersFault};
///
/// assert_eq!(Signers::from_pem(b"no signer"), Err(SignersFault));
/// ```
#[derive(Clone, Copy, Debug, Error, PartialEq, Eq)]
#[error("it has no certificates in PEM")]
pub struct SignersFault;

/// Why a list doesn't take the place of another one.
///
/// ```
/// use stir_trust::revocation::Older;
///
/// let older = Older { before: "7".into(), now: "6".into() };
/// assert_eq!(older.to_string(), "its number is 6, and 7 was there before");
/// ```
#[derive(Clone, Debug, Error, PartialEq, Eq)]
#[error("its number is {now}, and {before} was there before")]
pub struct Older {
    /// The number of the list that was there before.
    pub before: String,
    /// The number of the one that doesn't take its place.
    pub now: String,
}
