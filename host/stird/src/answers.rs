//! Answers, and those that are kept: a request that comes again with its key gets the same one.
use crate::metrics::Metrics;
use crate::page;
use crate::tickets::Clock;
use bytes::Bytes;
use hyper::header::{HeaderValue, ALLOW, CONNECTION, CONTENT_TYPE, WWW_AUTHENTICATE};
use hyper::{Body, Response, StatusCode};
use openssl::sha::Sha256;
use serde::Serialize;
use std::collections::{HashMap, VecDeque};
use std::future::Future;
use std::sync::{Arc, Mutex};
use stir_trust::locks::Held;
use tokio::sync::watch;

/// An answer.
#[derive(Clone, Debug, PartialEq, Eq)]
pub struct Answer {
    /// Its status.
    pub status: StatusCode,
    /// The media type of its body.
    pub kind: &'static str,
    /// Its body.
    pub body: Bytes,
    /// The methods that are allowed, in an answer to another one.
    pub allow: Option<&'static str>,
    /// Whether it is the last one of its connection.
    pub last: bool,
}

const TEXT: &str = "text/plain; charset=utf-8";

/// The media type of JSON.
pub const JSON: &str = "application/json";

/// How many bytes a line of JSON mostly has at most. Blocks of this size a thread keeps for itself.
pub const LINE: usize = 1000;

impl Answer {
    /// An answer of text.
    pub fn text(status: StatusCode, body: impl Into<Bytes>) -> Answer {
        Answer { status, kind: TEXT, body: body.into(), allow: None, last: false }
    }

    /// An answer that is a status alone.
    pub fn status(status: StatusCode) -> Answer {
        Answer::text(status, "")
    }

    /// An answer of JSON.
    ///
    /// ```
    /// use hyper::StatusCode;
    /// use stird::answers::Answer;
    ///
    /// let answer = Answer::json(StatusCode::OK, &["a"]);
    /// assert_eq!((answer.kind, &answer.body[..]), ("application/json", &b"[\"a\"]"[..]));
    /// ```
    pub fn json(status: StatusCode, value: &impl Serialize) -> Answer {
        match serde_json::to_vec(value) {
            Ok(body) => Answer { kind: JSON, ..Answer::text(status, body) },
            Err(error) => Answer::unwritten(&error),
        }
    }

    /// The same with a line end.
    pub(crate) fn with_line_end(self) -> Answer {
        Answer { body: [&self.body[..], b"\n"].concat().into(), ..self }
    }

    /// An answer of JSON on one line, with its LF.
    pub fn json_line(value: &impl Serialize) -> Answer {
        let mut body = Vec::with_capacity(LINE);
        match serde_json::to_writer(&mut body, value) {
            Ok(()) => {
                body.push(b'\n');
                Answer { kind: JSON, ..Answer::text(StatusCode::OK, body) }
            }
            Err(error) => Answer::unwritten(&error),
        }
    }

    fn unwritten(error: &serde_json::Error) -> Answer {
        tracing::error!("an answer can't be written: {error}");
        Answer::status(StatusCode::INTERNAL_SERVER_ERROR)
    }

    /// The answer to who has no place among the connections, or loses it.
    pub fn no_place() -> Answer {
        Answer::text(StatusCode::SERVICE_UNAVAILABLE, "too many connections\n").last()
    }

    /// The same, as the last one of its connection.
    pub fn last(self) -> Answer {
        Answer { last: true, ..self }
    }

    /// As HTTP.
    pub fn response(self) -> Response<Body> {
        let mut response = Response::new(Body::from(self.body));
        *response.status_mut() = self.status;
        let fields = response.headers_mut();
        fields.insert(CONTENT_TYPE, HeaderValue::from_static(self.kind));
        if let Some(methods) = self.allow {
            fields.insert(ALLOW, HeaderValue::from_static(methods));
        }
        if self.status == StatusCode::UNAUTHORIZED {
            fields.insert(WWW_AUTHENTICATE, HeaderValue::from_static("Bearer"));
        }
        if self.kind == page::KIND {
            page::protect(fields, self.status == StatusCode::UNAUTHORIZED);
        }
        if self.last {
            fields.insert(CONNECTION, HeaderValue::from_static("close"));
        }
        response
    }

    /// As bytes, for a connection on which no request could be read. It is the last one.
    pub fn bytes(&self) -> Vec<u8> {
        format!(
            "HTTP/1.1 {} {}\r\nContent-Type: {}\r\nContent-Length: {}\r\nConnection: close\r\n\r\n",
            self.status.as_u16(),
            self.status.canonical_reason().unwrap_or("Error"),
            self.kind,
            self.body.len(),
        )
        .into_bytes()
        .into_iter()
        .chain(self.body.iter().copied())
        .collect()
    }
}

/// For how many seconds an answer is kept: as long as a caller repeats an INVITE (RFC 3261, section
/// 17.1.1.2).
pub const KEPT: u64 = 32;

/// What tells a request again: its path, its key and its body.
type Name = [u8; 32];

/// The name of a request.
///
/// ```
/// use stird::answers::name_of;
///
/// assert_ne!(name_of(&[b"/verify", b"key"]), name_of(&[b"/verifyk", b"ey"]));
/// ```
pub fn name_of(parts: &[&[u8]]) -> Name {
    let mut sum = Sha256::new();
    for part in parts {
        sum.update(&(part.len() as u64).to_be_bytes());
        sum.update(part);
    }
    sum.finish()
}

/// The answers of requests with a key.
pub struct Answers {
    most: usize,
    clock: Arc<dyn Clock>,
    metrics: Arc<Metrics>,
    held: Mutex<Kept>,
}

/// An answer that is there, or will be.
type Awaited = watch::Receiver<Option<Answer>>;

#[derive(Default)]
struct Kept {
    answers: HashMap<Name, Awaited>,
    /// The names in the order in which they came, with the second at which each did.
    order: VecDeque<(u64, Name)>,
}

impl Answers {
    /// At most so many are kept.
    pub fn new(most: usize, clock: Arc<dyn Clock>, metrics: Arc<Metrics>) -> Answers {
        Answers { most, clock, metrics, held: Mutex::default() }
    }

    /// The answer to a request of this name: that of the first such request within the last
    /// seconds, or the one that is `made` now. Whoever asks may go away; it is made all the same,
    /// and once.
    pub async fn of<F>(&self, name: Name, made: F) -> Answer
    where
        F: Future<Output = Answer> + Send + 'static,
    {
        if self.most == 0 {
            return made.await;
        }
        let (mut answer, making) = self.place(name);
        match making {
            Some(sender) => {
                tokio::spawn(async move { sender.send(Some(made.await)) });
            }
            None => self.metrics.repeated.inc(),
        }
        loop {
            if let Some(answer) = answer.borrow_and_update().clone() {
                return answer;
            }
            if answer.changed().await.is_err() {
                return Answer::status(StatusCode::INTERNAL_SERVER_ERROR);
            }
        }
    }

    /// Where the answer to a request of this name will be, and if this is the first, the place to
    /// which it is to be sent.
    fn place(&self, name: Name) -> (Awaited, Option<watch::Sender<Option<Answer>>>) {
        let now = self.clock.monotonic();
        let mut held = self.held.lock().held();
        let Kept { answers, order } = &mut *held;
        while let Some((came, old)) = order.front() {
            let is_old = now.saturating_sub(*came) > KEPT;
            if !is_old && answers.len() < self.most {
                break;
            }
            if !is_old {
                if answers.contains_key(&name) {
                    break;
                }
                self.metrics.dropped.inc();
            }
            answers.remove(old);
            order.pop_front();
        }
        if let Some(answer) = answers.get(&name) {
            return (answer.clone(), None);
        }
        let (sender, answer) = watch::channel(None);
        answers.insert(name, answer.clone());
        order.push_back((now, name));
        self.metrics.answers.set(answers.len() as i64);
        (answer, Some(sender))
    }
}

#[cfg(test)]
mod tests {
    use super::*;
    use std::sync::atomic::{AtomicU64, Ordering::SeqCst};

    #[derive(Default)]
    struct Set(AtomicU64);

    impl Clock for Set {
        fn now(&self) -> u64 {
            self.monotonic()
        }

        fn monotonic(&self) -> u64 {
            self.0.load(SeqCst)
        }
    }

    struct At {
        clock: Arc<Set>,
        metrics: Arc<Metrics>,
        answers: Arc<Answers>,
        made: Arc<AtomicU64>,
    }

    fn at(most: usize) -> At {
        let clock = Arc::new(Set::default());
        let metrics = Arc::new(Metrics::new().expect("names that are good"));
        let answers = Arc::new(Answers::new(most, clock.clone(), metrics.clone()));
        At { clock, metrics, answers, made: Arc::default() }
    }

    impl At {
        /// The body of the answer: the number of those that were made.
        async fn ask(&self, name: &str) -> String {
            let made = self.made.clone();
            let answer = self.answers.of(name_of(&[name.as_bytes()]), async move {
                tokio::time::sleep(std::time::Duration::from_millis(20)).await;
                let text = (made.fetch_add(1, SeqCst) + 1).to_string();
                Answer::text(StatusCode::OK, text)
            });
            String::from_utf8(answer.await.body.to_vec()).expect("text")
        }
    }

    #[tokio::test]
    async fn a_request_that_comes_again_within_32_seconds_gets_the_same_answer() {
        let at = at(9);
        assert_eq!(at.ask("a").await, "1");
        at.clock.0.store(32, SeqCst);
        assert_eq!(at.ask("a").await, "1");
        assert_eq!(at.ask("b").await, "2");
        at.clock.0.store(33, SeqCst);
        assert_eq!(at.ask("a").await, "3");
        assert_eq!((at.metrics.repeated.get(), at.metrics.answers.get()), (1, 2));
    }

    #[tokio::test]
    async fn those_that_come_at_once_are_answered_once_though_the_first_goes_away() {
        let at = at(9);
        let first = tokio::time::timeout(std::time::Duration::from_millis(5), at.ask("a")).await;
        assert!(first.is_err(), "it takes longer");
        let (one, other) = tokio::join!(at.ask("a"), at.ask("a"));
        assert_eq!((one.as_str(), other.as_str(), at.made.load(SeqCst)), ("1", "1", 1));
    }

    #[tokio::test]
    async fn past_the_most_that_are_kept_the_oldest_goes() {
        let at = at(2);
        for (name, wanted) in
            [("a", "1"), ("b", "2"), ("b", "2"), ("c", "3"), ("b", "2"), ("a", "4")]
        {
            assert_eq!(at.ask(name).await, wanted, "{name}");
        }
        assert_eq!((at.metrics.dropped.get(), at.metrics.answers.get()), (2, 2));
        assert!(at.answers.held.lock().held().order.len() <= 2);
    }

    #[tokio::test]
    async fn an_answer_that_failed_is_said_to_all_who_wait() {
        let at = at(9);
        let failed =
            at.answers.of([0; 32], async { std::panic::resume_unwind(Box::new("a fault")) });
        assert_eq!(failed.await.status, StatusCode::INTERNAL_SERVER_ERROR);
    }

    #[test]
    fn names_tell_their_parts_apart() {
        let names = [name_of(&[b"a", b"bc"]), name_of(&[b"ab", b"c"]), name_of(&[b"abc"])];
        assert!(names[0] != names[1] && names[1] != names[2] && names[0] != names[2]);
    }

    #[test]
    fn an_answer_has_its_fields() {
        let answer =
            Answer { allow: Some("GET, HEAD"), ..Answer::status(StatusCode::METHOD_NOT_ALLOWED) };
        let response = answer.clone().last().response();
        let field = |name: &str| response.headers().get(name).and_then(|value| value.to_str().ok());
        assert_eq!((field("allow"), field("connection")), (Some("GET, HEAD"), Some("close")));
        let bytes = String::from_utf8(answer.bytes()).expect("text");
        assert!(bytes.starts_with("HTTP/1.1 405 Method Not Allowed\r\n"), "{bytes}");
        assert!(bytes.ends_with("Content-Length: 0\r\nConnection: close\r\n\r\n"), "{bytes}");
    }
}
