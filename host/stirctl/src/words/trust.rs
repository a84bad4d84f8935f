//! The words on whom to trust.

use super::number;
use clap::{ArgGroup, Args};

/// Which certificates are revoked.
#[derive(Clone, Debug, Default, Args)]
pub struct RevokedBy {
    /// A revocation list, in PEM or DER; may be given several times. A call breaks rule 15 at a
    /// certificate that was revoked at its moment
    #[arg(long, value_name = "FILE", requires = "crl_signer")]
    pub crl: Vec<String>,
    /// The certificate of whoever signs revocation lists, in PEM; may be given several times
    #[arg(long, value_name = "FILE", requires = "crl")]
    pub crl_signer: Vec<String>,
}

/// Fetches a revocation list and writes it in the place of the one before it, if its signer signed
/// it and its number isn't less. The status is 1 if the list that was taken has ended.
#[derive(Debug, Args)]
pub struct Crl {
    /// The certificate of whoever signs the list, in PEM
    #[arg(long, value_name = "FILE")]
    pub signer: String,
    /// The file of the list; a run that is killed leaves it whole
    #[arg(long, value_name = "FILE")]
    pub to: String,
    #[command(flatten)]
    pub fetch: Fetch,
    /// Where the list is: a URL of http or https, or a file
    #[arg(value_name = "URL|FILE")]
    pub from: String,
}

/// How something is fetched.
#[derive(Debug, Args)]
pub struct Fetch {
    /// Hosts with private addresses may be asked too
    #[arg(long)]
    pub private: bool,
    /// The authorities that a server's certificate must come from, in PEM; the system's if it isn't
    /// given
    #[arg(long, value_name = "FILE")]
    pub authorities: Option<String>,
    /// How long the fetching may take, in seconds, at most 600
    #[arg(long, value_name = "SECONDS", default_value = "30", value_parser = wait)]
    pub seconds: u64,
}

fn wait(text: &str) -> Result<u64, String> {
    number(text, 1, 600)
}

/// Writes the trust anchors of the signed list of authorities, or of a file of roots: one after
/// another in DER, what --anchors of the other commands reads.
///
/// A root that the library doesn't take for a trust anchor, and one that a list of --crl names, is
/// named and left out. The status is 1 if something was left out, and 5 if there would be no
/// anchor; what stood in the files stays then.
#[derive(Debug, Args)]
#[command(group(ArgGroup::new("of").required(true).args(["list", "roots"])))]
pub struct Roots {
    /// The list of authorities: a JWS that its signer signed, a URL of http or https, or a file
    #[arg(long, value_name = "FILE|URL", requires_all = ["signer", "state"])]
    pub list: Option<String>,
    /// Roots in PEM, in the place of a list
    #[arg(long, value_name = "FILE")]
    pub roots: Option<String>,
    /// The certificate of whoever signs the list, in PEM
    #[arg(long, value_name = "FILE", requires = "list")]
    pub signer: Option<String>,
    /// The sequence of the last list, which never falls; it is made if it isn't there
    #[arg(long, value_name = "FILE", requires = "list")]
    pub state: Option<String>,
    /// Writes an anchor too with the name and the key of the lowest authority in this file, if a
    /// path leads from it to a root that is left out as outside the profile; may be given several
    /// times. Certificates are in PEM, DER or PKCS #7
    #[arg(long, value_name = "CHAIN")]
    pub bridge: Vec<String>,
    #[command(flatten)]
    pub revoked: RevokedBy,
    /// Where the anchors are written; a run that is killed leaves the file whole
    #[arg(long, value_name = "FILE", default_value = "-")]
    pub to: String,
    #[command(flatten)]
    pub fetch: Fetch,
}
