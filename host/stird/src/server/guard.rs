//! A stream as hyper sees it: the bytes of one request at a time, in their time.
//!
//! A head is handed on up to its end and no further, and how many bytes its body has is what hyper
//! read in it. So where requests begin and end is read once.
use crate::answers::Answer;
use crate::server::head::{Found, Head};
use crate::server::places::{Doing, Seat};
use crate::server::stream::Stream;
use crate::server::Times;
use hyper::StatusCode;
use std::future::Future;
use std::io;
use std::pin::Pin;
use std::sync::atomic::{AtomicBool, AtomicU64, Ordering::SeqCst};
use std::sync::Arc;
use std::task::{ready, Context, Poll};
use std::time::Duration;
use tokio::io::{AsyncRead, AsyncReadExt, AsyncWrite, AsyncWriteExt, ReadBuf};
use tokio::time::{sleep, sleep_until, timeout, Instant, Sleep};

/// How many bytes are read at once.
const ROOM: usize = 8192;

/// How long a peer may go on sending after its last answer, so that it sees it.
const LINGER: Duration = Duration::from_secs(2);

/// How long a peer whose place is taken may need to take its last answer: none, but for what the
/// system and TLS do.
const MOMENT: Duration = Duration::from_millis(50);

/// The version that is spoken here, as an answer begins with it.
const OURS: &[u8] = b"HTTP/1.1";

/// What a connection's stream and its requests tell each other.
pub struct Talk {
    /// The connection as others see it.
    pub seat: Arc<Seat>,
    /// One more than the bytes of the body that follows; 0 if no head came.
    body: AtomicU64,
    is_late: AtomicBool,
    has_asked: AtomicBool,
}

impl Talk {
    /// Of a connection with this seat.
    pub fn new(seat: Arc<Seat>) -> Talk {
        let (is_late, has_asked) = (AtomicBool::new(false), AtomicBool::new(false));
        Talk { seat, body: AtomicU64::new(0), is_late, has_asked }
    }

    /// A head came whose body has so many bytes; if that isn't known, what follows is all of it.
    pub fn head_came(&self, size: Option<u64>) {
        if size == Some(0) {
            self.seat.does(Doing::Answering);
        }
        self.has_asked.store(true, SeqCst);
        self.body.store(size.unwrap_or(u64::MAX).saturating_add(1), SeqCst);
    }

    /// Whether the peer waits for an answer, or has had none yet.
    pub fn is_unanswered(&self) -> bool {
        self.seat.doing() != Doing::Nothing || !self.has_asked.load(SeqCst)
    }

    /// Whether the request didn't come in its time.
    pub fn is_late(&self) -> bool {
        self.is_late.load(SeqCst)
    }
}

enum Reading {
    /// A head comes, or will.
    Head(Head),
    /// A head came, and hyper reads it.
    Between,
    /// So many bytes of a body are to come.
    Body(u64),
    /// All of a request came.
    Whole,
}

/// Why a connection ended at the head of a request.
#[derive(Clone, Copy, Debug, PartialEq, Eq)]
enum Fault {
    Idle,
    Late,
    BareEnd,
    Version,
}

/// The stream of a connection.
pub struct Guard {
    stream: Stream,
    talk: Arc<Talk>,
    times: Times,
    room: Box<[u8]>,
    /// Which bytes of the room are still to be handed on.
    left: std::ops::Range<usize>,
    reading: Reading,
    /// Until when what is awaited has to come, and how far the timer is set.
    until: Option<Instant>,
    timer: Pin<Box<Sleep>>,
    /// Runs while the peer takes nothing.
    blocked: Option<Pin<Box<Sleep>>>,
    /// How many bytes of the version are written that the next answer begins with, if it goes to a
    /// request by HTTP/1.0.
    version: Option<usize>,
    fault: Option<Fault>,
    is_over: bool,
}

impl Guard {
    /// Over this stream.
    pub fn new(stream: Stream, talk: Arc<Talk>, times: Times) -> Guard {
        let until = Instant::now() + times.idle;
        talk.seat.does(Doing::Nothing);
        Guard {
            stream,
            talk,
            times,
            room: vec![0; ROOM].into_boxed_slice(),
            left: 0..0,
            reading: Reading::Head(Head::default()),
            until: Some(until),
            timer: Box::pin(sleep_until(until)),
            blocked: None,
            version: None,
            fault: None,
            is_over: false,
        }
    }

    /// What hyper's next read begins with, after what it did meanwhile. It reads no further than a
    /// request until that is answered.
    fn settle(&mut self) {
        if matches!(self.reading, Reading::Between) {
            match self.talk.body.swap(0, SeqCst) {
                0 => {}
                1 => self.reading = Reading::Whole,
                size => self.reading = Reading::Body(size - 1),
            }
        }
        if matches!(self.reading, Reading::Whole) {
            self.reading = Reading::Head(Head::default());
            self.until = Some(Instant::now() + self.times.idle);
            self.talk.seat.does(Doing::Nothing);
        }
    }

    fn came_whole(&mut self) {
        self.reading = Reading::Whole;
        self.until = None;
        self.talk.seat.does(Doing::Answering);
    }

    /// Hands on what was read, up to the end of a head or a body.
    fn hand_on(&mut self, room: &mut ReadBuf<'_>) -> io::Result<()> {
        let bytes = self.room.get(self.left.clone()).unwrap_or_default();
        let bytes = bytes.get(..room.remaining()).unwrap_or(bytes);
        let size = match &mut self.reading {
            Reading::Head(head) => {
                let was_begun = head.is_begun();
                let found = head.read(bytes);
                if !was_begun && head.is_begun() {
                    self.until = Some(Instant::now() + self.times.request);
                    self.talk.seat.does(Doing::Receiving);
                }
                match found {
                    Found::More => bytes.len(),
                    Found::End(size) => {
                        self.version = head.is_older().then_some(0);
                        self.reading = Reading::Between;
                        size
                    }
                    Found::BareEnd => return Err(fail(&mut self.fault, Fault::BareEnd)),
                    Found::Version => return Err(fail(&mut self.fault, Fault::Version)),
                }
            }
            Reading::Body(left) => {
                let size = bytes.len().min(usize::try_from(*left).unwrap_or(usize::MAX));
                *left -= size as u64;
                size
            }
            Reading::Between | Reading::Whole => bytes.len(),
        };
        room.put_slice(bytes.get(..size).unwrap_or_default());
        self.left.start += size;
        if matches!(self.reading, Reading::Body(0)) {
            self.came_whole();
        }
        Ok(())
    }

    /// Nothing comes: waits, if there is still time.
    fn wait(&mut self, context: &mut Context<'_>) -> Poll<io::Result<()>> {
        let Some(until) = self.until else { return Poll::Pending };
        if self.timer.deadline() != until {
            self.timer.as_mut().reset(until);
        }
        if self.timer.as_mut().poll(context).is_pending() {
            return Poll::Pending;
        }
        match &self.reading {
            Reading::Head(head) if !head.is_begun() => {
                self.fault = Some(Fault::Idle);
                Poll::Ready(Ok(()))
            }
            _ => {
                self.talk.is_late.store(true, SeqCst);
                Poll::Ready(Err(fail(&mut self.fault, Fault::Late)))
            }
        }
    }

    /// Writes bytes of an answer. One to a request by HTTP/1.0 names the version that this server
    /// speaks, and not that of the request, as hyper has it (RFC 9110, section 6.2).
    fn write(&mut self, context: &mut Context<'_>, bytes: &[u8]) -> Poll<io::Result<usize>> {
        let stream = Pin::new(&mut self.stream);
        let Some(written) = self.version else { return stream.poll_write(context, bytes) };
        let mut named = bytes.to_vec();
        let rest = OURS.get(written..).unwrap_or_default();
        named.iter_mut().zip(rest).for_each(|(byte, ours)| *byte = *ours);
        let done = ready!(stream.poll_write(context, &named))?;
        self.version = Some(written + done).filter(|written| *written < OURS.len());
        Poll::Ready(Ok(done))
    }

    /// Closes the connection, since another one gets its place: says so, but waits for nothing.
    pub async fn dismiss(mut self, answer: &Answer) {
        if self.blocked.is_none() {
            let last = async {
                self.stream.write_all(&answer.bytes()).await?;
                self.stream.shutdown().await
            };
            let _ = timeout(MOMENT, last).await;
        }
    }

    /// What is to be said to a peer before the end, which hyper didn't say.
    pub fn last_answer(&self) -> Option<Answer> {
        let is_head = matches!(self.reading, Reading::Head(_));
        let status = match self.fault? {
            Fault::Late if is_head => StatusCode::REQUEST_TIMEOUT,
            Fault::BareEnd => StatusCode::BAD_REQUEST,
            Fault::Version => StatusCode::HTTP_VERSION_NOT_SUPPORTED,
            Fault::Idle | Fault::Late => return None,
        };
        Some(Answer::status(status))
    }

    /// Ends the connection, with a last answer if there is one. What still comes is read for a
    /// while, since the peer may lose the answer else.
    pub async fn end(mut self, answer: Option<Answer>) {
        if self.is_over && answer.is_none() || self.fault == Some(Fault::Idle) {
            let _ = timeout(LINGER, self.stream.shutdown()).await;
            return;
        }
        // What hyper wrote before would come behind this.
        let answer = answer.filter(|_| self.blocked.is_none());
        let last = async {
            if let Some(answer) = answer {
                self.stream.write_all(&answer.bytes()).await?;
            }
            self.stream.shutdown().await?;
            while self.stream.read(&mut self.room).await? > 0 {}
            io::Result::Ok(())
        };
        let _ = timeout(LINGER.min(self.times.request), last).await;
    }
}

fn fail(place: &mut Option<Fault>, fault: Fault) -> io::Error {
    *place = Some(fault);
    let kind = match fault {
        Fault::Late | Fault::Idle => io::ErrorKind::TimedOut,
        Fault::BareEnd | Fault::Version => io::ErrorKind::InvalidData,
    };
    kind.into()
}

impl AsyncRead for Guard {
    fn poll_read(
        self: Pin<&mut Self>,
        context: &mut Context<'_>,
        room: &mut ReadBuf<'_>,
    ) -> Poll<io::Result<()>> {
        let guard = self.get_mut();
        guard.settle();
        // The next request is read once the answer to this one is written.
        if guard.blocked.is_some() && matches!(guard.reading, Reading::Head(_)) {
            return Poll::Pending;
        }
        if guard.left.is_empty() {
            let mut read = ReadBuf::new(&mut guard.room);
            match Pin::new(&mut guard.stream).poll_read(context, &mut read) {
                Poll::Ready(Ok(())) => guard.left = 0..read.filled().len(),
                Poll::Ready(Err(error)) => return Poll::Ready(Err(error)),
                Poll::Pending => return guard.wait(context),
            }
            guard.is_over = guard.left.is_empty();
        }
        Poll::Ready(guard.hand_on(room))
    }
}

impl AsyncWrite for Guard {
    fn poll_write(
        self: Pin<&mut Self>,
        context: &mut Context<'_>,
        bytes: &[u8],
    ) -> Poll<io::Result<usize>> {
        let guard = self.get_mut();
        let written = guard.write(context, bytes);
        if written.is_ready() {
            guard.blocked = None;
            return written;
        }
        let request = guard.times.request;
        let timer = guard.blocked.get_or_insert_with(|| Box::pin(sleep(request)));
        match timer.as_mut().poll(context) {
            Poll::Ready(()) => Poll::Ready(Err(io::ErrorKind::TimedOut.into())),
            Poll::Pending => Poll::Pending,
        }
    }

    fn poll_flush(self: Pin<&mut Self>, context: &mut Context<'_>) -> Poll<io::Result<()>> {
        Pin::new(&mut self.get_mut().stream).poll_flush(context)
    }

    fn poll_shutdown(self: Pin<&mut Self>, context: &mut Context<'_>) -> Poll<io::Result<()>> {
        Pin::new(&mut self.get_mut().stream).poll_shutdown(context)
    }
}

#[cfg(test)]
mod tests {
    use super::*;
    use tokio::net::UnixStream;

    /// A guard over bytes that came, and what it and its requests tell each other.
    async fn over(bytes: &[u8]) -> (Guard, Arc<Talk>, UnixStream) {
        let (mut far, near) = UnixStream::pair().expect("a pair");
        far.write_all(bytes).await.expect("they are sent");
        let talk = Arc::new(Talk::new(Arc::new(Seat::new(std::time::Instant::now()))));
        let wait = Duration::from_millis(50);
        let times = Times { request: wait, idle: 2 * wait, drain: wait };
        (Guard::new(Stream::Unix(near), Arc::clone(&talk), times), talk, far)
    }

    /// What one read gives.
    async fn read(guard: &mut Guard) -> io::Result<String> {
        let mut room = [0; 100];
        let size = guard.read(&mut room).await?;
        Ok(String::from_utf8_lossy(&room[..size]).into_owned())
    }

    #[tokio::test]
    async fn each_head_is_looked_at_whatever_stands_before_it() {
        for (before, size) in [("", 0), ("body", 4)] {
            let good = format!("POST / HTTP/1.1\r\nContent-Length: {size}\r\n\r\n");
            let bad = "GET / HTTP/1.1\nA: b\r\n\r\n";
            let sent = [good.as_str(), before, &good, before, bad].concat();
            let (mut guard, talk, _far) = over(sent.as_bytes()).await;
            for _ in 0..2 {
                assert_eq!(read(&mut guard).await.expect("a head"), good);
                talk.head_came(Some(size));
                if size > 0 {
                    assert_eq!(read(&mut guard).await.expect("a body"), before);
                }
                assert_eq!(talk.seat.doing(), Doing::Answering);
            }
            assert!(read(&mut guard).await.is_err(), "a bare LF is taken");
            let answer = guard.last_answer().map(|answer| answer.status.as_u16());
            assert_eq!(answer, Some(400));
        }
    }

    #[tokio::test]
    async fn what_doesnt_come_in_time_is_late_and_silence_is_an_end() {
        let (mut guard, talk, _far) = over(b"GET / HT").await;
        assert_eq!(read(&mut guard).await.expect("its begin"), "GET / HT");
        assert_eq!(talk.seat.doing(), Doing::Receiving);
        assert!(read(&mut guard).await.is_err(), "it isn't late");
        assert_eq!(guard.last_answer().map(|answer| answer.status.as_u16()), Some(408));
        let (mut guard, talk, _far) = over(b"POST / HTTP/1.1\r\n\r\nbo").await;
        read(&mut guard).await.expect("a head");
        talk.head_came(Some(4));
        assert_eq!(read(&mut guard).await.expect("half a body"), "bo");
        assert!(read(&mut guard).await.is_err() && talk.is_late(), "it isn't late");
        assert_eq!(guard.last_answer(), None, "its request is answered by hyper");
        let (mut guard, _, _far) = over(b"").await;
        assert_eq!(read(&mut guard).await.expect("an end"), "");
        assert_eq!(guard.last_answer(), None);
    }

    #[tokio::test]
    async fn an_answer_names_the_version_that_is_spoken_here_however_it_is_written() {
        for size in [1, 3, 8, 9, 40] {
            let (mut guard, talk, mut far) =
                over(b"GET / HTTP/1.0\r\n\r\nGET / HTTP/1.1\r\n\r\n").await;
            for answer in ["HTTP/1.0 200 OK\r\n\r\nHTTP/1.0 ", "HTTP/1.1 200 OK\r\n\r\nHTTP/1.0 "] {
                read(&mut guard).await.expect("a head");
                talk.head_came(Some(0));
                for piece in answer.as_bytes().chunks(size) {
                    guard.write_all(piece).await.expect("it is written");
                }
                let mut room = [0; 28];
                far.read_exact(&mut room).await.expect("an answer");
                let came = String::from_utf8_lossy(&room).into_owned();
                assert_eq!(came, "HTTP/1.1 200 OK\r\n\r\nHTTP/1.0 ", "in pieces of {size}");
            }
        }
    }

    #[tokio::test]
    async fn who_has_had_an_answer_and_asks_nothing_waits_for_none() {
        let (mut guard, talk, _far) = over(b"GET / HTTP/1.1\r\n\r\nG").await;
        assert!(talk.is_unanswered(), "it is new");
        read(&mut guard).await.expect("a head");
        talk.head_came(Some(0));
        assert!(talk.is_unanswered(), "it asks");
        guard.settle();
        assert!(!talk.is_unanswered(), "it is answered");
        read(&mut guard).await.expect("a begin");
        assert!(talk.is_unanswered(), "it asks again");
    }

    #[tokio::test]
    async fn a_body_whose_size_isnt_known_is_all_that_follows() {
        let (mut guard, talk, _far) = over(b"POST / HTTP/1.1\r\n\r\n1\nx\r\n\n").await;
        read(&mut guard).await.expect("a head");
        talk.head_came(None);
        assert_eq!(read(&mut guard).await.expect("all"), "1\nx\r\n\n");
    }
}
