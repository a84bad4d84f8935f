//! The words of the commands on certificates and keys.

use super::signing::OfMessage;
use super::trust::RevokedBy;
use clap::{ArgGroup, Args};

/// Makes of certificates what `stir` and the other commands read: chains and their map; or, as an
/// option says, trust anchors, the certificate of a key's holder, or a code table. Certificates are
/// in PEM, DER or PKCS #7, in any order.
///
/// Without an option each FILE is a list with a line `X5U FILE` for each chain. A chain is written
/// in DER, the leaf's certificate first, to FILE's name with .der in place of its ending, and the
/// chain map, which names these, to the standard output. Standard error names each certificate
/// that is outside the profile, with the part, and each issuer that is missing. The status is 1 if
/// something was named.
#[derive(Debug, Args)]
#[command(group(ArgGroup::new("what").args(["anchors", "leaf", "table"])))]
pub struct Chain {
    /// Where the chains are written; here if it isn't given. It is made if it isn't there
    #[arg(long, value_name = "FOLDER", conflicts_with = "what")]
    pub to: Option<String>,
    /// A file with the trust anchors of the chains, so that the last issuer is looked for too
    #[arg(long, value_name = "ANCHORS", conflicts_with = "what")]
    pub under: Option<String>,
    /// Writes the trust anchors of the files, one after another in DER. What the library doesn't
    /// take for one is named and left out, and so is one that a list of --crl names
    #[arg(long)]
    pub anchors: bool,
    #[command(flatten)]
    pub revoked: RevokedBy,
    /// With --anchors: writes certificates that are no trust anchors too
    #[arg(long, requires = "anchors")]
    pub all: bool,
    /// Writes the first certificate of a chain: what `stir sign --leaf` reads
    #[arg(long)]
    pub leaf: bool,
    /// Writes a code table: the lines of this file, which has one's own numbers and may be empty,
    /// and `CODE *` for each other code in the chains of the files, which are chain maps
    #[arg(long, value_name = "OWN")]
    pub table: Option<String>,
    /// With --table: a code that isn't to be believed
    #[arg(long, value_name = "CODE", requires = "table")]
    pub without: Vec<String>,
    /// Lists of chains, files of certificates, or chain maps; the standard input if none is named
    #[arg(value_name = "FILE", default_value = "-")]
    pub files: Vec<String>,
}

/// Writes what certificates say: whose they are and by whom, since when and how long, which codes
/// and numbers they cover, and which part is outside the profile, if one is.
///
/// The status is 0, or 1 if a certificate is outside the profile.
#[derive(Debug, Args)]
pub struct Show {
    /// Writes a JSON object a line for each certificate
    #[arg(long)]
    pub json: bool,
    /// Files of certificates in PEM, DER or PKCS #7; the standard input if none is named
    #[arg(value_name = "FILE", default_value = "-")]
    pub files: Vec<String>,
}

/// Reads lines `no signature NAME DIGEST`, as `stir sign` and `stir divert` write them, and writes
/// `sign NAME DIGEST SIGNATURE` for each digest of this name: what an answers file wants.
///
/// The signature is one of ES256 (RFC 7518, section 3.4). A digest that was signed before is left
/// out. Lines of other names are passed over and counted. If a line is none, nothing is written.
///
/// With --message it signs an INVITE in one run: what it writes is what `stir sign` writes with the
/// same signature, and the status is 1 if the message can't be signed.
#[derive(Debug, Args)]
pub struct Sign {
    /// The certificate of the key's holder: if the key isn't its key, nothing is signed
    #[arg(long, value_name = "FILE")]
    pub leaf: Option<String>,
    /// A file whose first line is the password of an encrypted key
    #[arg(long, value_name = "FILE")]
    pub password_file: Option<String>,
    #[command(flatten)]
    pub of: OfMessage,
    /// The private key, of P-256: its file in PEM, or the URI of one in an HSM, `pkcs11:..` (RFC
    /// 7512)
    #[arg(value_name = "KEY")]
    pub key: String,
    /// The name of the key, 1 to 64 visible characters without ; , " < > \
    #[arg(value_name = "NAME", required_unless_present = "message", conflicts_with = "message")]
    pub name: Option<String>,
    /// Files of such lines; the standard input if none is named
    #[arg(value_name = "FILE", default_value = "-")]
    pub files: Vec<String>,
}
