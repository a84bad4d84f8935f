//! The words of the command that asks an authority for a certificate.

use super::number;
use clap::{ArgGroup, Args};

/// Makes a request for a certificate (PKCS #10, RFC 2986) with the codes and numbers that it is to
/// have (a TNAuthList, RFC 8226, section 9), and the key if there is none. With --check it looks at
/// what the authority sent back.
///
/// With --check the status is 1 if something isn't as it should be. That each code and number is
/// one is said by the proved library, which reads a trial certificate with the list.
#[derive(Debug, Args)]
#[command(group(ArgGroup::new("list").args(["code", "range", "number"]).multiple(true)))]
#[command(group(ArgGroup::new("what").args(["list", "check"]).required(true).multiple(true)))]
pub struct Request {
    /// The private key, of P-256: a file in PEM, which is made with mode 600 if it isn't there; or
    /// the URI of one in an HSM, `pkcs11:..` (RFC 7512)
    #[arg(long, value_name = "KEY")]
    pub key: String,
    /// A file whose first line is the password of the key's file
    #[arg(long, value_name = "FILE")]
    pub password_file: Option<String>,
    /// A service provider code; may be given several times
    #[arg(long, value_name = "CODE", conflicts_with = "check")]
    pub code: Vec<String>,
    /// So many numbers from this one on; may be given several times
    #[arg(long, value_name = "FIRST,COUNT", value_parser = range, conflicts_with = "check")]
    pub range: Vec<Range>,
    /// A number; may be given several times
    #[arg(long, value_name = "NUMBER", conflicts_with = "check")]
    pub number: Vec<String>,
    /// A part of the subject's name, by its short name, as C=US or `CN=SHAKEN 709J`; they are taken
    /// in their order
    #[arg(long, value_name = "TYPE=VALUE", conflicts_with = "check")]
    pub subject: Vec<String>,
    /// Where the request is written, in PEM; the standard output if it isn't given
    #[arg(long, value_name = "FILE", default_value = "-")]
    pub to: String,
    /// Writes the identifier of an order by ACME, in JSON: its value is the list in base64url (RFC
    /// 9448, section 3)
    #[arg(long, value_name = "FILE", requires = "list")]
    pub identifier: Option<String>,
    /// Writes what an authority token has to say of the list, in JSON: the claim `atc` (RFC 9448,
    /// section 5.4)
    #[arg(long, value_name = "FILE", requires_all = ["list", "account"])]
    pub token: Option<String>,
    /// The key of the account by ACME for which that token is, in PEM, public or private
    #[arg(long, value_name = "FILE", requires = "token")]
    pub account: Option<String>,
    /// The certificates that came back, in PEM, DER or PKCS #7: the leaf's key has to be the key
    #[arg(long, value_name = "CHAIN")]
    pub check: Option<String>,
    /// The request: the leaf has to have its list
    #[arg(long, value_name = "FILE", requires = "check")]
    pub request: Option<String>,
    /// The trust anchors, in PEM: the chain has to lead to one
    #[arg(long, value_name = "FILE", requires = "check")]
    pub roots: Option<String>,
}

/// So many numbers from one on.
#[derive(Clone, Debug, PartialEq, Eq)]
pub struct Range {
    pub first: String,
    pub count: u64,
}

fn range(text: &str) -> Result<Range, String> {
    let (first, count) = text.split_once(',').ok_or("a number, a comma and a count are wanted")?;
    Ok(Range { first: first.into(), count: number(count, 2, u64::MAX)? })
}
