//! The options, as the command line and the file of settings have them.
use clap::builder::TypedValueParser;
use clap::{value_parser, Parser, ValueEnum};
use clap_complete::Shell;
use std::path::PathBuf;
use std::time::Duration;

/// A STIR/SHAKEN verification and signing service.
///
/// It judges calls over HTTP by trust anchors, chains that are listed or fetched, and a code table,
/// and signs calls if it has a table of keys.
#[derive(Parser)]
#[command(name = "stird", disable_help_subcommand = true)]
pub(super) struct Words {
    /// Read options from this file too (TOML, by the same names); the command line goes before it
    #[arg(long, value_name = "FILE")]
    pub config: Option<PathBuf>,

    /// Write a completion of these words for this shell, and end
    #[arg(long, value_name = "SHELL", exclusive = true, hide = true)]
    pub completion: Option<Shell>,

    /// Where to listen: HOST:PORT, unix:PATH, or systemd for the sockets that it hands over; may be
    /// given several times
    #[arg(long, value_name = "ADDRESS", default_value = "127.0.0.1:8080")]
    pub listen: Vec<Listen>,

    /// The mode of Unix sockets, in octal digits
    #[arg(long, value_name = "MODE", default_value = "600", value_parser = mode)]
    pub socket_mode: u32,

    /// Speak TLS over TCP, by this certificate and those after it (PEM)
    #[arg(long, value_name = "FILE", requires = "tls_key")]
    pub tls_certificate: Option<PathBuf>,

    /// The private key of the certificate (PEM, without a password)
    #[arg(long, value_name = "FILE", requires = "tls_certificate")]
    pub tls_key: Option<PathBuf>,

    /// Ask each client over TLS for a certificate by one of these authorities (PEM)
    #[arg(long, value_name = "FILE", requires = "tls_certificate")]
    pub tls_clients: Option<PathBuf>,

    /// The chain map: which file has the certificates of an x5u
    #[arg(long, value_name = "FILE")]
    pub chains: Option<PathBuf>,

    /// The trust anchors (DER); they or --roots are wanted
    #[arg(long, value_name = "FILE", conflicts_with = "roots")]
    pub anchors: Option<PathBuf>,

    /// The trust anchors (PEM); those that aren't of the profile are named and left out
    #[arg(long, value_name = "FILE")]
    pub roots: Option<PathBuf>,

    /// The code table
    #[arg(long, value_name = "FILE")]
    pub table: Option<PathBuf>,

    /// Which codes stand for numbers: those of the table; or also, for every number, each other
    /// code of a chain that breaks no rule on chains, which is so without a table
    #[arg(long, value_name = "WHICH")]
    pub codes: Option<TrustedCodes>,

    /// Fetch the certificates of x5us that the chain map hasn't from the hosts of this file
    #[arg(long, value_name = "FILE")]
    pub fetch_hosts: Option<PathBuf>,

    /// Keep what was fetched over restarts in this folder
    #[arg(long, value_name = "FOLDER", requires = "fetch_hosts")]
    pub fetch: Option<PathBuf>,

    /// How long a call waits for its certificates at most; 0 never waits
    #[arg(long, value_name = "MILLISECONDS", default_value = "1200",
        value_parser = milliseconds(10_000))]
    pub fetch_wait: Duration,

    /// The authorities of the hosts' certificates (PEM); the system's if it isn't given
    #[arg(long, value_name = "FILE", requires = "fetch_hosts")]
    pub fetch_authorities: Option<PathBuf>,

    /// Fetch from private addresses too
    #[arg(long, value_name = "WHETHER", default_value = "no")]
    pub fetch_private: Choice,

    /// How old a PASSporT may be
    #[arg(long, value_name = "SECONDS", default_value = "60",
        value_parser = value_parser!(u64).range(0..=86_400))]
    pub past: u64,

    /// How far its iat may be ahead
    #[arg(long, value_name = "SECONDS", default_value = "5",
        value_parser = value_parser!(u64).range(0..=86_400))]
    pub future: u64,

    /// The own country's code
    #[arg(long, value_name = "DIGITS", default_value = "1")]
    pub country: String,

    /// How many digits a number in it has
    #[arg(long, value_name = "COUNT", default_value = "10",
        value_parser = value_parser!(u8).range(1..=14))]
    pub national: u8,

    /// A revocation list (PEM or DER); may be given several times. A certificate that one names is
    /// not good
    #[arg(long, value_name = "FILE", requires = "crl_signer")]
    pub crl: Vec<PathBuf>,

    /// The certificate of whoever signs revocation lists (PEM); may be given several times
    #[arg(long, value_name = "FILE", requires = "crl")]
    pub crl_signer: Vec<PathBuf>,

    /// What becomes of calls if the next list isn't there in time: they are judged by the one that
    /// is, or no certificate is good
    #[arg(long, value_name = "HOW", default_value = "go")]
    pub crl_ended: EndedList,

    /// The moment of a call: the clock's, or what X-Moment or time say; or the same of calls that
    /// come in the order of one clock
    #[arg(long, value_name = "WHOSE", default_value = "clock")]
    pub moments: Moments,

    /// Write a list in a P-Asserted-Identity field as one field a value before a call is judged
    #[arg(long, value_name = "WHETHER", default_value = "yes")]
    pub split: Choice,

    /// The values of verstat: the three of ATIS-1000074; or, of a valid call, one that ends with
    /// the letter of its attestation
    #[arg(long, value_name = "FORM", default_value = "plain")]
    pub verstat: VerstatForm,

    /// Keep tickets over restarts in this file
    #[arg(long, value_name = "FILE", conflicts_with = "redis")]
    pub journal: Option<PathBuf>,

    /// Answer after the ticket is on the disk (yes), or in the file (no)
    #[arg(long, value_name = "WHETHER", default_value = "yes")]
    pub sync: Choice,

    /// Keep tickets in a Redis, so that several hosts are one service: HOST:PORT or a URL. May be
    /// given several times: each then has a part of the tickets
    #[arg(long, value_name = "ADDRESS")]
    pub redis: Vec<String>,

    /// How many tickets are held in memory at most
    #[arg(long, value_name = "COUNT", default_value = "2000000",
        value_parser = count(1, 100_000_000))]
    pub tickets: usize,

    /// How many answers are kept for requests that come again with their key
    #[arg(long, value_name = "COUNT", default_value = "200000",
        value_parser = count(0, 10_000_000))]
    pub answers: usize,

    /// How many connections there may be at once
    #[arg(long, value_name = "COUNT", default_value = "256",
        value_parser = count(1, 65_536))]
    pub connections: usize,

    /// How many of them from one address (an IPv6 network of 64 bits counts as one); as many as
    /// there may be if it isn't given
    #[arg(long, value_name = "COUNT", value_parser = count(1, 65_536))]
    pub connections_each: Option<usize>,

    /// How long a request may take to come, and its answer to go
    #[arg(long, value_name = "SECONDS", default_value = "5",
        value_parser = seconds(3600))]
    pub request: Duration,

    /// How long a connection may be without a request
    #[arg(long, value_name = "SECONDS", default_value = "60",
        value_parser = seconds(86_400))]
    pub idle: Duration,

    /// How often the files are looked at
    #[arg(long, value_name = "SECONDS", default_value = "1",
        value_parser = seconds(86_400))]
    pub reload: Duration,

    /// Sign calls of the numbers in this table, with the keys that it names
    #[arg(long, value_name = "FILE")]
    pub signing: Option<PathBuf>,

    /// Sign only for requests that have one of the tokens in the lines of this file
    #[arg(long, value_name = "FILE", requires = "signing")]
    pub signing_tokens: Option<PathBuf>,

    /// Sign for the clients in this file (TOML) by their tokens and certificates, for each the
    /// numbers and the attestation that it says
    #[arg(long, value_name = "FILE", requires = "signing")]
    pub signing_clients: Option<PathBuf>,

    /// Sign for this host over TCP too, if nobody has a token or a certificate
    #[arg(long, value_name = "WHETHER", default_value = "no", requires = "signing",
        conflicts_with_all = ["signing_tokens", "signing_clients"])]
    pub signing_local: Choice,

    /// Record each call that is judged in this file, or on the standard output (-)
    #[arg(long, value_name = "FILE")]
    pub record: Option<PathBuf>,

    /// How numbers stand in the record: whole, without their last four digits, or hashed by the key
    #[arg(long, value_name = "FORM", default_value = "whole")]
    pub record_numbers: NumbersForm,

    /// The key by which they are hashed: the bytes of this file, 16 at least
    #[arg(long, value_name = "FILE", requires = "record")]
    pub record_key: Option<PathBuf>,

    /// Show a page at / of the counts, of certificates that end soon, and of calls explained, to
    /// those who would be signed for
    #[arg(long, value_name = "WHETHER", default_value = "no")]
    pub page: Choice,

    /// The form of what is told
    #[arg(long, value_name = "FORM", default_value = "text")]
    pub log: Form,

    /// Where it is told; standard error if it isn't given
    #[arg(long, value_name = "FILE")]
    pub log_file: Option<PathBuf>,
}

/// An address at which the service listens.
#[derive(Clone, Debug, PartialEq, Eq)]
pub enum Listen {
    /// A host and a port.
    Tcp(String),
    /// A Unix socket.
    Unix(PathBuf),
    /// The sockets that systemd hands over.
    Systemd,
}

impl std::str::FromStr for Listen {
    type Err = String;

    fn from_str(word: &str) -> Result<Listen, String> {
        if word == "systemd" {
            return Ok(Listen::Systemd);
        }
        match word.strip_prefix("unix:") {
            Some("") => Err("unix: is followed by a path".into()),
            Some(path) => Ok(Listen::Unix(path.into())),
            None if word.contains(':') => Ok(Listen::Tcp(word.into())),
            None => Err("it is HOST:PORT, unix:PATH or systemd".into()),
        }
    }
}

/// `yes` or `no`.
#[derive(Clone, Copy, ValueEnum)]
pub(super) enum Choice {
    Yes,
    No,
}

/// Which codes stand for numbers.
#[derive(Clone, Copy, ValueEnum)]
pub(super) enum TrustedCodes {
    Listed,
    Trusted,
}

/// What becomes of calls if a revocation list has ended.
#[derive(Clone, Copy, ValueEnum)]
pub(super) enum EndedList {
    Go,
    Refuse,
}

/// Whose moment is that of a call.
#[derive(Clone, Copy, ValueEnum)]
pub(super) enum Moments {
    Clock,
    Asked,
    Ordered,
}

/// Which values the verstat parameter has.
#[derive(Clone, Copy, ValueEnum)]
pub(super) enum VerstatForm {
    Plain,
    Letter,
}

/// How numbers stand in the record.
#[derive(Clone, Copy, ValueEnum)]
pub(super) enum NumbersForm {
    Whole,
    Short,
    Hashed,
}

/// The form of what is told.
#[derive(Clone, Copy, Debug, PartialEq, Eq, ValueEnum)]
pub enum Form {
    /// A line of text.
    Text,
    /// A line with a JSON object.
    Json,
}

fn mode(word: &str) -> Result<u32, String> {
    u32::from_str_radix(word, 8)
        .ok()
        .filter(|mode| *mode <= 0o777 && word.bytes().all(|byte| byte.is_ascii_digit()))
        .ok_or_else(|| "it is three octal digits at most".into())
}

fn count(least: u64, most: u64) -> impl TypedValueParser<Value = usize> {
    value_parser!(u64).range(least..=most).map(|count| count as usize)
}

fn milliseconds(most: u64) -> impl TypedValueParser<Value = Duration> {
    value_parser!(u64).range(0..=most).map(Duration::from_millis)
}

fn seconds(most: u64) -> impl TypedValueParser<Value = Duration> {
    value_parser!(u64).range(1..=most).map(Duration::from_secs)
}
