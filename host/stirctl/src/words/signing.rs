//! The words of the commands that sign messages.

use super::{country, national, number, By};
use clap::{Args, ValueEnum};
use stir::Settings;

/// The last second of the year 9999, in Unix time.
const LAST_SECOND: u64 = 253_402_300_799;

/// Writes a message with one more Identity field, which tells that it goes on to another number:
/// its PASSporT has the type `div` (RFC 8946). It leads from the number of --earlier to the number
/// of the request URI. What is written is what `stir divert` writes with the same signature.
///
/// The status is 0 if the message was written, and 1 if it can't be signed; one line then says why.
#[derive(Debug, Args)]
pub struct Divert {
    /// The number that was called before: 1 to 15 of 0-9 * #
    #[arg(long, value_name = "NUMBER")]
    pub earlier: String,
    #[command(flatten)]
    pub by: Numbers,
    #[command(flatten)]
    pub holder: Holder,
    /// The message, an INVITE to the number that is called now; the standard input if it isn't
    /// named
    #[arg(value_name = "MESSAGE", default_value = "-")]
    pub message: String,
}

/// Judges a call, and sends one that passes on to another number: the message is written with
/// another request URI and one more Identity field, which tells of the diversion (RFC 8946). What
/// is written is what `stir retarget` writes with the same signature. Whether the call is a replay
/// isn't looked at.
///
/// The status is 0 if the message was written, and 1 if the call doesn't go on; one line then says
/// why.
#[derive(Debug, Args)]
pub struct Retarget {
    /// The request URI of the message that goes on
    #[arg(long, value_name = "URI")]
    pub target: String,
    /// When the call came, in Unix seconds; now if it isn't given
    #[arg(long, value_name = "SECONDS", value_parser = second)]
    pub moment: Option<u64>,
    #[command(flatten)]
    pub by: By,
    #[command(flatten)]
    pub holder: Holder,
    /// The message; the standard input if it isn't named
    #[arg(value_name = "MESSAGE", default_value = "-")]
    pub message: String,
}

/// By whose key a message is signed, and when.
#[derive(Clone, Debug, Args)]
pub struct Holder {
    /// The certificate of the key's holder. What it may vouch for is signed, and nothing else
    #[arg(long, value_name = "FILE")]
    pub leaf: String,
    /// The URI under which the key's certificates are found
    #[arg(long, value_name = "URI")]
    pub x5u: String,
    /// When it is signed, in Unix seconds; now if it isn't given
    #[arg(long, value_name = "SECONDS", value_parser = second)]
    pub iat: Option<u64>,
    /// A file whose first line is the password of an encrypted key
    #[arg(long, value_name = "FILE")]
    pub password_file: Option<String>,
    /// The private key, of P-256: its file in PEM, or the URI of one in an HSM, `pkcs11:..` (RFC
    /// 7512)
    #[arg(value_name = "KEY")]
    pub key: String,
}

/// How numbers are read, and which stand for a code.
#[derive(Clone, Debug, Args)]
pub struct Numbers {
    /// The code table: which numbers a service provider code covers
    #[arg(long, value_name = "FILE")]
    pub table: Option<String>,
    /// The country of numbers without +, 1 to 3 digits
    #[arg(long, value_name = "DIGITS", default_value = "1", value_parser = country)]
    pub country: String,
    /// How many digits a national number has, 1 to 14
    #[arg(long, value_name = "COUNT", default_value = "10", value_parser = national)]
    pub national: u8,
}

/// What `sign` is told of a message.
#[derive(Debug, Args)]
pub struct OfMessage {
    /// Signs this INVITE and writes it, as `stir sign` does; `-` is the standard input. --leaf,
    /// --x5u and --form have to be given then, and NAME can't be
    #[arg(long, value_name = "MESSAGE", requires_all = ["leaf", "x5u", "form"])]
    pub message: Option<String>,
    /// The URI under which the key's certificates are found
    #[arg(long, value_name = "URI", requires = "message")]
    pub x5u: Option<String>,
    /// The form of the PASSporT
    #[arg(long, value_name = "FORM", requires = "message")]
    pub form: Option<FormOf>,
    /// How well the caller is known, for the form `shaken`
    #[arg(long, value_name = "A|B|C", requires = "message")]
    pub attest: Option<Level>,
    /// The identifier of the call, a UUID, for the form `shaken`
    #[arg(long, value_name = "UUID", requires = "message")]
    pub origid: Option<String>,
    /// When it is signed, in Unix seconds; now if it isn't given
    #[arg(long, value_name = "SECONDS", requires = "message", value_parser = second)]
    pub iat: Option<u64>,
    #[command(flatten)]
    pub by: Numbers,
}

/// The form of a PASSporT.
#[derive(Clone, Copy, Debug, PartialEq, Eq, ValueEnum)]
pub enum FormOf {
    /// Without a type (RFC 8225)
    Base,
    /// The same in its compact form
    Compact,
    /// RFC 8588
    Shaken,
}

/// How well a caller is known (RFC 8588, section 4).
#[derive(Clone, Copy, Debug, PartialEq, Eq, ValueEnum)]
#[value(rename_all = "UPPER")]
pub enum Level {
    A,
    B,
    C,
}

impl Numbers {
    /// The same as the library takes them.
    pub fn settings(&self) -> Settings {
        let Numbers { country, national, .. } = self;
        Settings { country: country.clone(), national: *national, ..Settings::default() }
    }
}

fn second(text: &str) -> Result<u64, String> {
    number(text, 0, LAST_SECOND)
}
