//! One request: a connection to one of the addresses that were checked, TLS, and an answer.
use super::place::Place;
use super::reason::Reason;
use hyper::body::HttpBody;
use hyper::client::conn;
use hyper::header::{self, HeaderMap, HeaderName};
use hyper::{Request, Response, StatusCode};
use openssl::ssl::SslConnector;
use openssl::x509::X509VerifyResult;
use std::io;
use std::net::IpAddr;
use std::pin::Pin;
use tokio::io::{AsyncRead, AsyncWrite};
use tokio::net::TcpStream;
use tokio::task::JoinHandle;
use tokio::time::Instant;
use tokio_openssl::SslStream;

/// The most bytes of the head of an answer.
const MOST_HEAD: usize = 16_384;

/// What a server answers.
pub(super) enum Answer {
    /// With a body.
    Whole(Body),
    /// With a redirect to there.
    Leads(String),
}

/// What was asked for.
pub(super) struct Body {
    pub(super) bytes: Vec<u8>,
    /// For how many seconds it may be kept, if that is said.
    pub(super) keep: Option<u64>,
}

/// What a place answers, asked at one of these addresses.
pub(super) async fn asked(
    connector: &SslConnector,
    place: &Place,
    addresses: &[IpAddr],
    most: usize,
    until: Instant,
) -> Result<Answer, Reason> {
    let stream = connected(addresses, place.port(), until).await?;
    let stream: Box<dyn Stream> = match place.is_secured() {
        true => Box::new(secured(connector, place, stream).await?),
        false => Box::new(stream),
    };
    let request = Request::get(place.target())
        .header(header::HOST, place.authority())
        .header(header::ACCEPT_ENCODING, "identity")
        .header(header::USER_AGENT, "stir")
        .header(header::CONNECTION, "close")
        .body(hyper::Body::empty())
        .map_err(|_| Reason::Uri)?;
    let mut builder = conn::Builder::new();
    builder.http1_max_buf_size(MOST_HEAD);
    let (mut sender, connection) = builder.handshake(stream).await.map_err(|error| of(&error))?;
    let _driven = Driven(tokio::spawn(async move { drop(connection.await) }));
    taken(sender.send_request(request).await.map_err(|error| of(&error))?, most).await
}

/// A connection over TLS or without it.
trait Stream: AsyncRead + AsyncWrite + Send + Unpin {}

impl<T: AsyncRead + AsyncWrite + Send + Unpin> Stream for T {}

/// A connection that is closed when it isn't needed any more, whatever it waits for.
struct Driven(JoinHandle<()>);

impl Drop for Driven {
    fn drop(&mut self) {
        self.0.abort();
    }
}

/// A connection to the first of these addresses that takes one. Each has its share of the time.
async fn connected(addresses: &[IpAddr], port: u16, until: Instant) -> Result<TcpStream, Reason> {
    let mut failed = io::ErrorKind::TimedOut;
    for (left, address) in (1..=addresses.len() as u32).rev().zip(addresses) {
        let share = until.saturating_duration_since(Instant::now()) / left;
        match tokio::time::timeout(share, TcpStream::connect((*address, port))).await {
            Ok(Ok(stream)) => return Ok(stream),
            Ok(Err(error)) => failed = error.kind(),
            Err(_) => failed = io::ErrorKind::TimedOut,
        }
    }
    Err(Reason::Connect(failed))
}

/// TLS with a server whose certificate is good for the place's host.
async fn secured(
    connector: &SslConnector,
    place: &Place,
    stream: TcpStream,
) -> Result<SslStream<TcpStream>, Reason> {
    let begun = || SslStream::new(connector.configure()?.into_ssl(&place.name())?, stream);
    let mut stream = begun().map_err(|error| Reason::Tls(error.to_string()))?;
    match Pin::new(&mut stream).connect().await {
        Ok(()) => Ok(stream),
        Err(error) => Err(Reason::Tls(match stream.ssl().verify_result() {
            X509VerifyResult::OK => error.to_string(),
            result => format!("its certificate isn't good: {}", result.error_string()),
        })),
    }
}

/// What a response brings, or where it leads.
async fn taken(response: Response<hyper::Body>, most: usize) -> Result<Answer, Reason> {
    let (head, mut body) = response.into_parts();
    let location = head.headers.get(header::LOCATION);
    match (head.status.as_u16(), location) {
        (301 | 302 | 303 | 307 | 308, Some(location)) => {
            let location = location.to_str().map_err(|_| Reason::Elsewhere)?;
            return Ok(Answer::Leads(location.into()));
        }
        _ if head.status == StatusCode::OK => {}
        (status, _) => return Err(Reason::Status(status)),
    }
    let packing = said(&head.headers, header::CONTENT_ENCODING);
    if !packing.iter().all(|packing| packing == "identity") {
        return Err(Reason::Answer);
    }
    if body.size_hint().lower() > most as u64 {
        return Err(Reason::Size);
    }
    let mut bytes = Vec::new();
    while let Some(more) = body.data().await {
        let more = more.map_err(|error| of(&error))?;
        if bytes.len() + more.len() > most {
            return Err(Reason::Size);
        }
        bytes.extend_from_slice(&more);
    }
    Ok(Answer::Whole(Body { bytes, keep: keep_of(&said(&head.headers, header::CACHE_CONTROL)) }))
}

/// The members of the lists in all fields of a name, in lower case (RFC 9110, section 5.6.1).
fn said(headers: &HeaderMap, name: HeaderName) -> Vec<String> {
    let values =
        headers.get_all(name).iter().map(|value| String::from_utf8_lossy(value.as_bytes()));
    let lists = values.map(|value| value.to_ascii_lowercase()).collect::<Vec<_>>().join(",");
    lists.split(',').map(str::trim).filter(|word| !word.is_empty()).map(String::from).collect()
}

/// For how many seconds an answer may be kept (RFC 9111, section 5.2.2), if that is said.
fn keep_of(control: &[String]) -> Option<u64> {
    if control.iter().any(|word| word == "no-store" || word == "no-cache") {
        return Some(0);
    }
    control.iter().find_map(|word| {
        let age = word.strip_prefix("max-age=")?;
        let age = age.strip_prefix('"').and_then(|age| age.strip_suffix('"')).unwrap_or(age);
        age.bytes().all(|byte| byte.is_ascii_digit()).then(|| age.parse().ok())?
    })
}

/// What hyper's error says of an answer.
fn of(error: &hyper::Error) -> Reason {
    if error.is_parse_too_large() {
        Reason::Size
    } else {
        Reason::Answer
    }
}

#[cfg(test)]
mod tests {
    use super::*;

    #[test]
    fn how_long_an_answer_may_be_kept() {
        for (fields, seconds) in [
            (vec![], None),
            (vec!["public"], None),
            (vec!["max-age=60"], Some(60)),
            (vec!["public, Max-Age=\"7\" , x"], Some(7)),
            (vec!["max-age=60, no-store"], Some(0)),
            (vec!["max-age=60", "no-cache"], Some(0)),
            (vec!["max-age=-1"], None),
            (vec!["max-age=+1"], None),
            (vec!["max-age="], None),
            (vec!["max-age=99999999999999999999999"], None),
            (vec!["s-maxage=5"], None),
        ] {
            let mut headers = HeaderMap::new();
            for field in &fields {
                headers.append(header::CACHE_CONTROL, field.parse().expect("a value"));
            }
            assert_eq!(keep_of(&said(&headers, header::CACHE_CONTROL)), seconds, "{fields:?}");
        }
    }
}
