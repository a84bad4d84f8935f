//! A connection: its requests read, answered, and its end.
use crate::answers::Answer;
use crate::clients::Peer;
use crate::routes::{Door, Request};
use crate::server::guard::{Guard, Talk};
use crate::server::places::{Doing, Place, Seat};
use crate::server::stream::Stream;
use crate::server::{Server, MOST_BODY, MOST_HEAD};
use bytes::{Bytes, BytesMut};
use hyper::body::HttpBody;
use hyper::header::{AUTHORIZATION, CONNECTION, CONTENT_LENGTH, HOST, TRANSFER_ENCODING};
use hyper::server::conn::Http;
use hyper::service::service_fn;
use hyper::{Body, HeaderMap, Method, Response, StatusCode, Version};
use std::convert::Infallible;
use std::future::{poll_fn, Future};
use std::pin::Pin;
use std::sync::Arc;
use std::time::Duration;
use tokio::sync::watch;
use tokio::time::sleep;

/// How long a connection without a request stays after the service was told to end.
const LAST: Duration = Duration::from_millis(250);

/// How often it is looked what has come on a connection that has to go, and how long that takes.
const LOOKS: usize = 10;
const LOOK: Duration = Duration::from_millis(1);

type Answered = Pin<Box<dyn Future<Output = Result<Response<Body>, Infallible>> + Send>>;

/// Answers the requests of a connection until one of both has enough of it.
pub async fn serve(stream: Stream, peer: Peer, place: Place, server: Arc<Server>) {
    let talk = Arc::new(Talk::new(Arc::clone(&place.seat)));
    let guard = Guard::new(stream, Arc::clone(&talk), server.times);
    let (heard, answers) = (Arc::clone(&talk), Arc::clone(&server));
    let service = service_fn(move |request: hyper::Request<Body>| -> Answered {
        heard.head_came(request.body().size_hint().exact());
        let (talk, server, peer) = (Arc::clone(&heard), Arc::clone(&answers), peer.clone());
        Box::pin(async move { Ok(answer(request, peer, &talk, &server).await.response()) })
    });
    let mut connection = Http::new()
        .http1_only(true)
        .http1_half_close(true)
        .http1_title_case_headers(true)
        .max_buf_size(MOST_HEAD)
        .serve_connection(guard, service);
    let mut ending = server.ending.clone();
    let mut is_closing = false;
    let done = loop {
        tokio::select! {
            biased;
            done = poll_fn(|context| connection.poll_without_shutdown(context)) => break done,
            () = has_to_go(&place.seat), if !is_closing => {}
            () = ended(&mut ending), if !is_closing => {}
        }
        is_closing = true;
        let has_to_wait = match place.seat.doing() {
            Doing::Nothing => false,
            Doing::Receiving => !place.seat.is_leaving(),
            Doing::Answering => true,
        };
        if !has_to_wait {
            if place.seat.is_leaving() && talk.is_unanswered() {
                let Some(parts) = connection.try_into_parts() else { return };
                parts.io.dismiss(&Answer::no_place()).await;
            }
            return;
        }
        Pin::new(&mut connection).graceful_shutdown();
    };
    let is_bad = done.as_ref().is_err_and(hyper::Error::is_parse);
    let Some(parts) = connection.try_into_parts() else { return };
    let answer = parts.io.last_answer();
    if is_bad || answer.is_some() {
        server.service.judge.metrics.bad_requests.inc();
    }
    parts.io.end(answer).await;
}

/// Waits until a connection has to go, and until what has come on it is read: a request that is
/// there as a whole is answered, also if this thread had no time for it before.
async fn has_to_go(seat: &Seat) {
    seat.leave.notified().await;
    for _ in 0..LOOKS {
        // In that time the system says what has come.
        sleep(LOOK).await;
        if seat.doing() != Doing::Receiving {
            return;
        }
    }
}

/// Waits for the end of the service, and a moment longer: so a request that is on its way then is
/// answered. That answer says that it is the last one.
async fn ended(ending: &mut watch::Receiver<bool>) {
    let _ = ending.changed().await;
    sleep(LAST).await;
}

/// The answer to a request; to one after which the connection ends it says so.
async fn answer(request: hyper::Request<Body>, peer: Peer, talk: &Talk, server: &Server) -> Answer {
    let is_last = !stays(request.headers(), request.version());
    let answer = answer_of(request, peer, talk, server).await;
    if is_last || talk.seat.is_leaving() || *server.ending.borrow() {
        answer.last()
    } else {
        answer
    }
}

/// What a request is answered.
async fn answer_of(
    request: hyper::Request<Body>,
    peer: Peer,
    talk: &Talk,
    server: &Server,
) -> Answer {
    let (head, body) = request.into_parts();
    let refused = |status, last: bool| {
        server.service.judge.metrics.bad_requests.inc();
        let answer = Answer::status(status);
        if last {
            answer.last()
        } else {
            answer
        }
    };
    if head.headers.contains_key(TRANSFER_ENCODING) {
        return refused(StatusCode::LENGTH_REQUIRED, true);
    }
    if body.size_hint().lower() > MOST_BODY {
        return refused(StatusCode::PAYLOAD_TOO_LARGE, true);
    }
    let Ok(moment) = moment(&head.headers) else {
        return refused(StatusCode::BAD_REQUEST, true);
    };
    let path = head.uri.path();
    let wants_length = head.method == Method::POST && Door::at(path).is_some_and(Door::takes_body);
    if wants_length && !head.headers.contains_key(CONTENT_LENGTH) {
        return refused(StatusCode::LENGTH_REQUIRED, false);
    }
    let body = match read(body).await {
        Ok(body) => body,
        Err(_) if talk.is_late() => return refused(StatusCode::REQUEST_TIMEOUT, true),
        Err(_) => return refused(StatusCode::BAD_REQUEST, true),
    };
    // Looked at in a request that came whole: one that doesn't is late, whatever its head has.
    if !has_host(&head.headers, head.version) {
        return refused(StatusCode::BAD_REQUEST, true);
    }
    let field =
        |name: &str| (head.headers.get(name)).map(|value| Bytes::copy_from_slice(value.as_bytes()));
    let request = Request {
        path: path.to_string(),
        query: head.uri.query().map(String::from),
        body,
        moment,
        key: field("idempotency-key").or_else(|| field("x-requestid")),
        authorization: field(AUTHORIZATION.as_str()),
        host: field(HOST.as_str()),
        method: head.method,
        peer,
    };
    Arc::clone(&server.service).answer(request).await
}

/// A body, read whole.
async fn read(mut body: Body) -> hyper::Result<Bytes> {
    let Some(first) = body.data().await.transpose()? else { return Ok(Bytes::new()) };
    let Some(second) = body.data().await.transpose()? else { return Ok(first) };
    let mut whole = BytesMut::from(&first[..]);
    whole.extend_from_slice(&second);
    while let Some(more) = body.data().await.transpose()? {
        whole.extend_from_slice(&more);
    }
    Ok(whole.freeze())
}

/// A value that is no number.
struct NoNumber;

/// The moment that `X-Moment` says, in the last of its fields.
fn moment(fields: &HeaderMap) -> Result<Option<u64>, NoNumber> {
    let mut last = None;
    for value in fields.get_all("x-moment") {
        let text = value.to_str().map_err(|_| NoNumber)?;
        let is_number = text.bytes().all(|byte| byte.is_ascii_digit());
        let number = is_number.then(|| text.parse().ok()).flatten();
        last = Some(number.ok_or(NoNumber)?);
    }
    Ok(last)
}

/// Whether a request names its host once, as one by HTTP/1.1 has to (RFC 9112, section 3.2).
fn has_host(fields: &HeaderMap, version: Version) -> bool {
    let count = fields.get_all(HOST).iter().count();
    count == 1 || count == 0 && version < Version::HTTP_11
}

/// Whether the connection stays after a request (RFC 9112, section 9.3).
fn stays(fields: &HeaderMap, version: Version) -> bool {
    let wishes = |wish: &str| {
        let values = fields.get_all(CONNECTION).iter().filter_map(|value| value.to_str().ok());
        values.flat_map(|value| value.split(',')).any(|word| word.trim().eq_ignore_ascii_case(wish))
    };
    !wishes("close") && (version >= Version::HTTP_11 || wishes("keep-alive"))
}

#[cfg(test)]
mod tests {
    use super::*;
    use hyper::header::{HeaderName, HeaderValue};

    fn fields(lines: &[(&'static str, &'static str)]) -> HeaderMap {
        let lines = lines.iter();
        lines
            .map(|(name, value)| (HeaderName::from_static(name), HeaderValue::from_static(value)))
            .collect()
    }

    #[test]
    fn a_moment_is_a_number() {
        for (lines, wanted) in [
            (&[][..], Some(None)),
            (&[("x-moment", "5")], Some(Some(5))),
            (&[("x-moment", "5"), ("x-moment", "6")], Some(Some(6))),
            (&[("x-moment", "-1")], None),
            (&[("x-moment", "+1")], None),
            (&[("x-moment", "")], None),
            (&[("x-moment", "18446744073709551616")], None),
        ] {
            assert_eq!(moment(&fields(lines)).ok(), wanted, "{lines:?}");
        }
    }

    #[test]
    fn a_host_is_named_once() {
        for (lines, version, wanted) in [
            (&[][..], Version::HTTP_11, false),
            (&[][..], Version::HTTP_10, true),
            (&[("host", "a")][..], Version::HTTP_11, true),
            (&[("host", "a"), ("host", "a")][..], Version::HTTP_11, false),
            (&[("host", "a"), ("host", "b")][..], Version::HTTP_10, false),
        ] {
            assert_eq!(has_host(&fields(lines), version), wanted, "{lines:?} {version:?}");
        }
    }

    #[test]
    fn a_connection_stays_as_its_version_and_its_wish_have_it() {
        for (value, by_1_0, by_1_1) in [
            ("keep-alive", true, true),
            ("TE, Keep-Alive", true, true),
            ("close", false, false),
            ("TE, Close", false, false),
            ("close, keep-alive", false, false),
            ("closed", false, true),
            ("", false, true),
        ] {
            let fields = fields(&[("connection", value)]);
            let stays = [Version::HTTP_10, Version::HTTP_11].map(|version| stays(&fields, version));
            assert_eq!(stays, [by_1_0, by_1_1], "{value}");
        }
        assert!(!stays(&fields(&[]), Version::HTTP_10) && stays(&fields(&[]), Version::HTTP_11));
    }

    #[tokio::test]
    async fn a_body_is_read_however_it_comes() {
        for pieces in [&[][..], &["a"], &["a", "b"], &["a", "b", "c", "d"]] {
            let (mut sender, body) = Body::channel();
            let sent = async move {
                for piece in pieces {
                    sender.send_data(Bytes::from_static(piece.as_bytes())).await.expect("sent");
                }
            };
            let (body, ()) = tokio::join!(read(body), sent);
            assert_eq!(body.expect("whole"), pieces.concat().as_bytes());
        }
    }
}
