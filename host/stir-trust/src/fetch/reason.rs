//! Why nothing was fetched.
use super::form::FormFault;
use std::io;
use std::net::IpAddr;
use thiserror::Error;

/// Why nothing was fetched. Its text is for people, [`Reason::word`] for counts and answers.
///
/// ```
/// use stir_trust::fetch::Reason;
///
/// assert_eq!(Reason::Status(404).to_string(), "the server's answer is 404");
/// assert_eq!(Reason::Status(404).word(), "status");
/// ```
#[derive(Clone, Debug, Error, PartialEq, Eq)]
pub enum Reason {
    /// It is no https URI, it has a user, or it is too long.
    #[error("it is no https URI that may be fetched")]
    Uri,
    /// The host, or this port of it, isn't listed.
    #[error("its host isn't listed")]
    Listed,
    /// The host has no address, or the look-up failed.
    #[error("its host isn't found")]
    Dns,
    /// One of the host's addresses isn't public.
    #[error("its host has the private address {0}")]
    Private(IpAddr),
    /// None of the host's addresses took a connection. The reason is that of the last one.
    #[error("no connection: {0}")]
    Connect(io::ErrorKind),
    /// There is no TLS with it, or its certificate isn't good.
    #[error("no TLS: {0}")]
    Tls(String),
    /// It doesn't answer by HTTP, or its answer is cut short or packed.
    #[error("it gives no whole answer of HTTP")]
    Answer,
    /// It redirects to another host or port, or to what is no URI.
    #[error("it redirects to another host")]
    Elsewhere,
    /// It redirects again and again.
    #[error("it redirects more than {} times", super::MOST_REDIRECTS)]
    Redirects,
    /// The answer isn't 200.
    #[error("the server's answer is {0}")]
    Status(u16),
    /// The head or the body of the answer is longer than may be.
    #[error("its answer is too long")]
    Size,
    /// There was no whole answer at the deadline.
    #[error("there was no whole answer in time")]
    Time,
    /// What was fetched isn't certificates.
    #[error("{0}")]
    Form(#[from] FormFault),
    /// Nobody was asked, since as much is asked as may be.
    #[error("{0}")]
    Limited(Limit),
}

/// The limit by which nobody was asked.
///
/// ```
/// use stir_trust::fetch::Limit;
///
/// assert_eq!(Limit::Host.to_string(), "as much is asked of its host as may be");
/// ```
#[derive(Clone, Copy, Debug, Error, PartialEq, Eq)]
pub enum Limit {
    /// So many fetches go on at once.
    #[error("as many fetches go on as may")]
    Flights,
    /// So many fetches from this host go on at once, or were begun in this minute.
    #[error("as much is asked of its host as may be")]
    Host,
    /// So many new URIs were asked for in this second.
    #[error("as many new URIs are asked for as may be")]
    New,
    /// The host failed several times in a row, and is let alone for a while.
    #[error("its host failed several times in a row")]
    Broken,
}

impl Reason {
    /// All words, in the order of the enum.
    pub const WORDS: [&'static str; 13] = [
        "uri", "listed", "dns", "private", "connect", "tls", "answer", "redirect", "status",
        "size", "time", "form", "limited",
    ];

    /// The reason in one word, for counts and answers.
    ///
    /// ```
    /// use stir_trust::fetch::{Limit, Reason};
    ///
    /// assert_eq!(Reason::Limited(Limit::New).word(), "limited");
    /// assert!(Reason::WORDS.contains(&Reason::Time.word()));
    /// ```
    pub fn word(&self) -> &'static str {
        match self {
            Reason::Uri => "uri",
            Reason::Listed => "listed",
            Reason::Dns => "dns",
            Reason::Private(_) => "private",
            Reason::Connect(_) => "connect",
            Reason::Tls(_) => "tls",
            Reason::Answer => "answer",
            Reason::Elsewhere | Reason::Redirects => "redirect",
            Reason::Status(_) => "status",
            Reason::Size => "size",
            Reason::Time => "time",
            Reason::Form(_) => "form",
            Reason::Limited(_) => "limited",
        }
    }
}
