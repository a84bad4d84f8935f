//! The words by which certificates are fetched.

use super::{jobs, number};
use crate::asking::{JOBS, SECONDS};
use clap::{Args, ValueEnum};

/// Fetches the certificates of x5us by https, from listed hosts alone, into a folder, and writes
/// the chain map of those that are there then. What isn't due stays; what fails stays as it was.
/// The status is 1 if a fetch failed, or if an issuer's certificate is missing.
#[derive(Debug, Args)]
pub struct Fetch {
    /// The hosts that may be asked: lines `HOST`, `HOST:PORT`, `*.DOMAIN`, `*`, or these after `!`
    #[arg(long, value_name = "FILE")]
    pub hosts: String,
    /// The folder in which the chains are kept
    #[arg(long, value_name = "FOLDER", default_value = "chains")]
    pub to: String,
    /// The trust anchors of the chains, in PEM, DER or PKCS #7: whose issuer is missing is named
    #[arg(long, value_name = "FILE")]
    pub under: Option<String>,
    /// Lets private addresses be asked too
    #[arg(long)]
    pub private: bool,
    /// The authorities that https trusts, in PEM; the system's if they aren't given
    #[arg(long, value_name = "FILE")]
    pub authorities: Option<String>,
    /// How long a fetch may take, at most 3600
    #[arg(long, value_name = "COUNT", default_value_t = SECONDS, value_parser = limit)]
    pub seconds: u64,
    /// How many fetches go on at once
    #[arg(long, value_name = "COUNT", default_value_t = JOBS, value_parser = jobs)]
    pub jobs: usize,
    /// Fetches what isn't due too
    #[arg(long)]
    pub all: bool,
    /// Files of x5us, one a line; the standard input if none is named
    #[arg(value_name = "FILE", default_value = "-")]
    pub files: Vec<String>,
}

/// Whom certificates are fetched from that the chain map hasn't got.
#[derive(Clone, Debug, Default, Args)]
pub struct FetchFrom {
    /// The hosts that may be asked for certificates that the chain map hasn't got, as of `stirctl
    /// fetch`; without it nothing is fetched
    #[arg(long, value_name = "FILE")]
    pub fetch_hosts: Option<String>,
    /// The folder in which these certificates are kept; without it they go with the run
    #[arg(long, value_name = "FOLDER", requires = "fetch_hosts")]
    pub fetch: Option<String>,
    /// The authorities that https trusts, in PEM; the system's if they aren't given
    #[arg(long, value_name = "FILE", requires = "fetch_hosts")]
    pub fetch_authorities: Option<String>,
    /// Whether private addresses may be asked too; they aren't if it isn't given
    #[arg(long, value_name = "yes|no", requires = "fetch_hosts")]
    pub fetch_private: Option<YesNo>,
}

/// Yes or no.
#[derive(Clone, Copy, Debug, PartialEq, Eq, ValueEnum)]
pub enum YesNo {
    Yes,
    No,
}

fn limit(text: &str) -> Result<u64, String> {
    number(text, 1, 3_600)
}
