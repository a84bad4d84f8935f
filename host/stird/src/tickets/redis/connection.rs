//! A connection to a Redis that may be used: it knows who asks, and it evicts nothing.
use super::address::Address;
use super::reply::{self, shown, Reply};
use std::io;
use std::pin::Pin;
use tokio::io::{AsyncRead, AsyncWrite, AsyncWriteExt, BufReader};
use tokio::net::TcpStream;
use tokio_openssl::SslStream;

/// Why a Redis can't be used.
#[derive(Debug, thiserror::Error)]
pub enum Fault {
    #[error("it doesn't answer in time")]
    Late,
    #[error("{0}")]
    Io(#[from] io::Error),
    #[error("no TLS: {0}")]
    Tls(String),
    #[error("{what}: it said \"{}\"", shown(why))]
    Said { what: &'static str, why: Vec<u8> },
    #[error("{0}: it answered something else")]
    Other(&'static str),
    #[error("it forgets keys if its memory is full (maxmemory-policy {})", shown(.0))]
    Evicts(Vec<u8>),
}

/// What goes to and fro.
trait Stream: AsyncRead + AsyncWrite + Unpin + Send {}
impl<T: AsyncRead + AsyncWrite + Unpin + Send> Stream for T {}

pub struct Connection {
    stream: BufReader<Box<dyn Stream>>,
}

impl Connection {
    /// Connects, and says who asks.
    pub async fn open(address: &Address) -> Result<Connection, Fault> {
        // Each address of the host is tried.
        let stream = TcpStream::connect((address.host.as_str(), address.port)).await?;
        stream.set_nodelay(true)?;
        let stream: Box<dyn Stream> = match &address.tls {
            None => Box::new(stream),
            Some(connector) => {
                let tls = |error: &dyn std::fmt::Display| Fault::Tls(error.to_string());
                let session = connector
                    .configure()
                    .and_then(|session| session.into_ssl(&address.host))
                    .map_err(|error| tls(&error))?;
                let mut stream = SslStream::new(session, stream).map_err(|error| tls(&error))?;
                Pin::new(&mut stream).connect().await.map_err(|error| tls(&error))?;
                Box::new(stream)
            }
        };
        let mut connection = Connection { stream: BufReader::new(stream) };
        if let Some((user, password)) = &address.who {
            let mut words = vec![&b"AUTH"[..]];
            words.extend(user.as_ref().map(String::as_bytes));
            words.push(password.as_bytes());
            connection.ask_for_ok("AUTH", &words).await?;
        }
        if let Some(database) = address.database {
            let database = database.to_string();
            connection.ask_for_ok("SELECT", &[b"SELECT", database.as_bytes()]).await?;
        }
        Ok(connection)
    }

    /// Asks something. What the Redis says against it is a fault.
    pub async fn ask(&mut self, what: &'static str, words: &[&[u8]]) -> Result<Reply, Fault> {
        self.stream.write_all(&reply::said(words)).await?;
        self.stream.flush().await?;
        match reply::read(&mut self.stream).await? {
            Reply::Error(why) => Err(Fault::Said { what, why }),
            reply => Ok(reply),
        }
    }

    /// Asks something whose answer is `OK`.
    pub async fn ask_for_ok(&mut self, what: &'static str, words: &[&[u8]]) -> Result<(), Fault> {
        match self.ask(what, words).await? {
            Reply::Word(word) if word == b"OK" => Ok(()),
            _ => Err(Fault::Other(what)),
        }
    }

    /// Looks whether it forgets nothing, and what its clock says, in Unix time.
    pub async fn look(&mut self) -> Result<u64, Fault> {
        let Reply::Text(facts) = self.ask("INFO", &[b"INFO", b"memory"]).await? else {
            return Err(Fault::Other("INFO"));
        };
        match fact(&facts, b"maxmemory_policy:") {
            Some(b"noeviction") => {}
            Some(policy) => return Err(Fault::Evicts(policy.into())),
            None => return Err(Fault::Other("INFO")),
        }
        match self.ask("TIME", &[b"TIME"]).await? {
            Reply::List(items) => match items.first() {
                Some(Reply::Text(seconds)) => std::str::from_utf8(seconds)
                    .ok()
                    .and_then(|seconds| seconds.parse().ok())
                    .ok_or(Fault::Other("TIME")),
                _ => Err(Fault::Other("TIME")),
            },
            _ => Err(Fault::Other("TIME")),
        }
    }

    /// Whether nothing came that wasn't asked for.
    pub fn is_quiet(&self) -> bool {
        self.stream.buffer().is_empty()
    }
}

/// What stands in the line of this name.
fn fact<'a>(facts: &'a [u8], name: &[u8]) -> Option<&'a [u8]> {
    facts
        .split(|byte| *byte == b'\n')
        .find_map(|line| line.strip_prefix(name))
        .map(<[u8]>::trim_ascii)
}
