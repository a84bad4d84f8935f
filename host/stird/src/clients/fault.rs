//! Why the file of clients isn't taken.
use crate::files::numbers::NumbersFault;
use crate::files::FileFault;
use std::path::PathBuf;
use thiserror::Error;

/// Why the clients can't be taken.
#[derive(Debug, Error)]
pub enum ClientsError {
    /// The file can't be read.
    #[error("{0}")]
    File(#[from] FileFault),
    /// It isn't UTF-8.
    #[error("{}: it isn't text", .0.display())]
    NoText(PathBuf),
    /// It is no TOML, or has other names or values.
    #[error("{}: {error}", path.display())]
    Toml {
        /// The file.
        path: PathBuf,
        /// Why.
        error: toml::de::Error,
    },
    /// There is no client, or there are too many.
    #[error("{}: one client is wanted, and {most} at most", path.display())]
    Count {
        /// The file.
        path: PathBuf,
        /// How many there may be.
        most: usize,
    },
    /// A client isn't one.
    #[error("{}: {name}: {fault}", path.display())]
    Client {
        /// The file.
        path: PathBuf,
        /// Its name.
        name: String,
        /// Why.
        fault: ClientFault,
    },
}

/// Why a client isn't one.
#[derive(Clone, Debug, Error, PartialEq, Eq)]
pub enum ClientFault {
    /// Its name.
    #[error("a name is 1 to 64 letters and digits of ASCII, points, hyphens and underscores")]
    Name,
    /// It can't be told from others.
    #[error("it has neither a token nor a certificate")]
    Keyless,
    /// A token.
    #[error(
        "token {0} isn't 16 to 512 characters of ASCII without blanks, or sha256: and 64 \
         hexadecimal digits"
    )]
    Token(usize),
    /// A certificate.
    #[error("certificate {0} isn't cn: and a name, or sha256: and 64 hexadecimal digits")]
    Certificate(usize),
    /// Certificates are of no use.
    #[error("it has a certificate, and nobody is asked for one without --tls-clients")]
    Unasked,
    /// Another client has this token, or this certificate.
    #[error("it has a token or a certificate of {0}")]
    Shared(String),
    /// There is no block.
    #[error("it has no block without ! before it; * stands for all numbers of the signing table")]
    NoBlock,
    /// A block.
    #[error("{text}: {fault}")]
    Block {
        /// Its text.
        text: String,
        /// Why.
        fault: NumbersFault,
    },
    /// Two blocks are as special as each other.
    #[error("{0} and {1} have as many numbers, and some in common")]
    Ambiguous(String, String),
    /// The attestation.
    #[error("attest is A, B or C")]
    Attest,
    /// That of requests without one.
    #[error("unasked is A, B or C, and no better than attest")]
    Better,
    /// The identifier.
    #[error("origid is no UUID")]
    Origid,
}
