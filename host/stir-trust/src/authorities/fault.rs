//! Why a list of authorities isn't taken, and why no bridge is made.
use crate::fetch::FormFault;
use openssl::error::ErrorStack;
use thiserror::Error;

/// Why a list of authorities isn't taken.
///
/// ```
/// use stir_trust::authorities::{AuthorityList, AuthoritiesFault, ListSigner};
/// # let pem = include_bytes!("../../../../tests/ctl/files/carrier.pem");
///
/// let fault = AuthorityList::read(b"a.b", &ListSigner::from_pem(pem)?, 0).unwrap_err();
/// assert_eq!(fault, AuthoritiesFault::Form);
/// # Ok::<(), Box<dyn std::error::Error>>(())
/// ```
#[derive(Clone, Debug, Error, PartialEq, Eq)]
pub enum AuthoritiesFault {
    /// It has more bytes than this.
    #[error("it has more than {0} bytes")]
    Long(usize),
    /// It isn't three parts in base64url, with dots between them.
    #[error("it is no JWS in its compact form (RFC 7515, section 7.1)")]
    Form,
    /// Its header isn't JSON with the algorithm ES256, or has what has to be understood.
    #[error("its header isn't that of an ES256 signature without further conditions")]
    Header,
    /// The signer didn't sign it.
    #[error("it wasn't signed by its signer")]
    Forged,
    /// Its payload isn't JSON with `sequence`, `exp` and `trustList`.
    #[error("its payload has no `sequence`, `exp` and `trustList`")]
    Payload,
    /// It ended at this second, in Unix time.
    #[error("it ended at second {0}")]
    Ended(u64),
    /// Its sequence is less than this one, which was there before.
    #[error("its sequence is {now}, and {before} was there before")]
    Back {
        /// The sequence that was there before.
        before: u64,
        /// That of this list.
        now: u64,
    },
    /// This authority, counted from 1, isn't one certificate in PEM.
    #[error("authority {0} isn't one certificate in PEM")]
    Certificate(usize),
    /// This authority hasn't signed itself, so it is no root.
    #[error("authority {0} hasn't signed itself")]
    Root(usize),
}

/// Why a file isn't taken as the signer of a list of authorities.
///
/// ```
/// use stir_trust::authorities::{ListSigner, ListSignerFault};
///
/// assert_eq!(ListSigner::from_pem(b"no certificate").err(), Some(ListSignerFault));
/// ```
#[derive(Clone, Copy, Debug, Error, PartialEq, Eq)]
#[error("it isn't one certificate in PEM whose key is one of P-256")]
pub struct ListSignerFault;

/// Why no trust anchor stands for an authority.
///
/// ```
/// use stir_trust::authorities::{bridge, BridgeFault};
///
/// assert!(matches!(bridge(b"<html>", &[], 0), Err(BridgeFault::Certificates(_))));
/// ```
#[derive(Clone, Debug, Error)]
pub enum BridgeFault {
    /// The file isn't certificates.
    #[error("{0}")]
    Certificates(#[from] FormFault),
    /// None of its certificates is an authority's with a key on P-256, in the profile but for who
    /// signed it.
    #[error("none of its certificates is an authority's that could be a trust anchor")]
    NoAuthority,
    /// OpenSSL finds no path from that authority to a root.
    #[error("{subject} leads to none of the roots that were left out: {why}")]
    Path {
        /// The authority.
        subject: String,
        /// OpenSSL's reason.
        why: String,
    },
    /// A certificate of the path has a signature or a key that is too weak.
    #[error("{0} has a signature or a key of less than 112 bits")]
    Weak(String),
    /// The library doesn't say whether it is a trust anchor.
    #[error("{0}")]
    Library(#[from] stir::Error),
    /// OpenSSL failed, as if it had no memory.
    #[error("OpenSSL failed: {0}")]
    OpenSsl(#[from] ErrorStack),
}
