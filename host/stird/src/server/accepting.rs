//! Connections that come in at a socket: each gets a place and a thread, or is told that there is
//! none.
use crate::answers::Answer;
use crate::clients::Peer;
use crate::server::connection::serve;
use crate::server::doors::{Listener, Owner};
use crate::server::places::{Doing, Place};
use crate::server::stream::Stream;
use crate::server::{Acceptor, Server};
use std::io;
use std::net::{IpAddr, SocketAddr};
use std::os::unix::net::UnixStream as Blocking;
use std::sync::Arc;
use std::time::Duration;
use tokio::io::{AsyncReadExt, AsyncWriteExt};
use tokio::net::{TcpStream, UnixStream};
use tokio::sync::{mpsc, Semaphore};
use tokio::time::{sleep, timeout, Instant};

/// How long is waited after a connection that couldn't be accepted.
const PAUSE: Duration = Duration::from_millis(50);

/// How often a fault of that kind is told.
const TOLD: Duration = Duration::from_secs(60);

/// How many of those that are turned away are told so at once, and for how long.
const MOST_TOLD: usize = 64;
const PATIENCE: Duration = Duration::from_secs(1);

/// How many connections are taken at most that wait when the service comes to its end. The system
/// keeps no more for a socket (net.core.somaxconn).
const MOST_LAST: usize = 4096;

/// A connection that came in. It belongs to no runtime yet.
enum Came {
    Tcp(std::net::TcpStream, SocketAddr, Option<Arc<Acceptor>>),
    Unix(Blocking),
}

/// What takes the connections of one socket.
pub(super) struct Accepting {
    listener: Listener,
    owner: Owner,
    server: Arc<Server>,
    /// Held as long as a connection is there.
    alive: mpsc::Sender<()>,
    told: Arc<Semaphore>,
    last_told: Option<Instant>,
}

impl Listener {
    async fn accept(&self) -> io::Result<Came> {
        match self {
            Listener::Tcp(listener, acceptor) => {
                let (stream, peer) = listener.accept().await?;
                Came::tcp(stream.into_std()?, peer, acceptor.as_ref())
            }
            Listener::Unix(listener) => Ok(Came::Unix(listener.accept().await?.0.into_std()?)),
        }
    }

    /// Takes what waits at the socket, waits for no more, and closes it.
    fn close(self, mut take: impl FnMut(Came)) -> io::Result<()> {
        match self {
            Listener::Tcp(listener, acceptor) => {
                let listener = listener.into_std()?;
                each(
                    || listener.accept(),
                    |(stream, peer)| {
                        stream.set_nonblocking(true)?;
                        take(Came::tcp(stream, peer, acceptor.as_ref())?);
                        Ok(())
                    },
                )
            }
            Listener::Unix(listener) => {
                let listener = listener.into_std()?;
                each(
                    || listener.accept(),
                    |(stream, _)| {
                        stream.set_nonblocking(true)?;
                        take(Came::Unix(stream));
                        Ok(())
                    },
                )
            }
        }
    }
}

/// Takes one after another, until there is none. One that went away before is passed over.
fn each<T>(
    accept: impl Fn() -> io::Result<T>,
    mut take: impl FnMut(T) -> io::Result<()>,
) -> io::Result<()> {
    for _ in 0..MOST_LAST {
        match accept().and_then(&mut take) {
            Err(error) if error.kind() == io::ErrorKind::WouldBlock => return Ok(()),
            Err(error) if !is_of_peer(&error) => return Err(error),
            _ => {}
        }
    }
    Ok(())
}

impl Came {
    fn tcp(
        stream: std::net::TcpStream,
        peer: SocketAddr,
        acceptor: Option<&Arc<Acceptor>>,
    ) -> io::Result<Came> {
        // If it can't be set the peer is gone, which is seen when it is read.
        let _ = stream.set_nodelay(true);
        Ok(Came::Tcp(stream, peer, acceptor.cloned()))
    }

    fn address(&self) -> Option<IpAddr> {
        match self {
            Came::Tcp(_, peer, _) => Some(peer.ip()),
            Came::Unix(_) => None,
        }
    }
}

impl Accepting {
    /// For this socket. `alive` is held as long as one of its connections is there.
    pub fn new(
        listener: Listener,
        owner: Owner,
        server: Arc<Server>,
        alive: mpsc::Sender<()>,
    ) -> Accepting {
        let told = Arc::new(Semaphore::new(MOST_TOLD));
        Accepting { listener, owner, server, alive, told, last_told: None }
    }

    /// Takes connections until the service comes to its end. What waits then is still taken, but
    /// for that at a socket of systemd's: it is the next service's.
    pub async fn run(mut self) {
        let mut ending = self.server.ending.clone();
        loop {
            let came = tokio::select! {
                biased;
                _ = ending.changed() => break,
                came = self.listener.accept() => came,
            };
            match came {
                Ok(came) => take(came, &self.server, &self.alive, &self.told),
                // The peer went away before it was accepted.
                Err(error) if is_of_peer(&error) => {}
                Err(error) => {
                    self.fail(&error);
                    sleep(PAUSE).await;
                }
            }
        }
        if self.owner == Owner::Service {
            let Accepting { listener, server, alive, told, .. } = self;
            if let Err(error) = listener.close(|came| take(came, &server, &alive, &told)) {
                tracing::warn!("who waits at the end can't be taken: {error}");
            }
        }
    }

    /// A connection couldn't be accepted.
    fn fail(&mut self, error: &io::Error) {
        if self.last_told.is_none_or(|last| last.elapsed() > TOLD) {
            self.last_told = Some(Instant::now());
            tracing::warn!("a connection can't be accepted: {error}");
        }
        // An idle one has a descriptor, and memory.
        if matches!(error.raw_os_error(), Some(libc::EMFILE | libc::ENFILE)) {
            self.server.places.free();
        }
    }
}

/// Has a connection answered, or told that there is no place.
fn take(came: Came, server: &Arc<Server>, alive: &mpsc::Sender<()>, told: &Arc<Semaphore>) {
    let alive = alive.clone();
    match server.places.take(came.address()) {
        Ok(place) => {
            let serving = Arc::clone(server);
            server.hands.hand(move || async move {
                // One that can't be taken into the runtime is closed.
                let _ = greet(came, place, serving).await;
                drop(alive);
            });
        }
        Err(_) => {
            server.service.judge.metrics.turned_away.inc();
            if let Ok(permit) = Arc::clone(told).try_acquire_owned() {
                tokio::spawn(async move {
                    let _ = timeout(PATIENCE, turn_away(came)).await;
                    drop((permit, alive));
                });
            }
        }
    }
}

/// Whether the fault is one of the connection that came, and not of this host (accept(2)).
fn is_of_peer(error: &io::Error) -> bool {
    use io::ErrorKind::{ConnectionAborted, ConnectionReset, Interrupted};
    matches!(error.kind(), ConnectionAborted | ConnectionReset | Interrupted)
}

/// Serves a connection, by TLS if that is to be spoken.
async fn greet(came: Came, place: Place, server: Arc<Server>) -> io::Result<()> {
    let address = came.address();
    let (stream, certificate) = match came {
        Came::Unix(stream) => (Stream::Unix(UnixStream::from_std(stream)?), None),
        Came::Tcp(stream, _, None) => (Stream::Tcp(TcpStream::from_std(stream)?), None),
        Came::Tcp(stream, _, Some(acceptor)) => {
            place.seat.does(Doing::Receiving);
            let stream = TcpStream::from_std(stream)?;
            let greeted = tokio::select! {
                greeted = timeout(server.times.request, acceptor.accept(stream)) => greeted,
                () = place.seat.leave.notified() => return Ok(()),
            };
            let Ok(Some((stream, certificate))) = greeted else { return Ok(()) };
            (Stream::Tls(Box::new(stream)), certificate.map(Arc::new))
        }
    };
    serve(stream, Peer { address, certificate }, place, server).await;
    Ok(())
}

/// Says that there are too many connections, if that can be said without TLS.
async fn turn_away(came: Came) -> io::Result<()> {
    let mut stream = match came {
        Came::Unix(stream) => Stream::Unix(UnixStream::from_std(stream)?),
        Came::Tcp(stream, _, None) => Stream::Tcp(TcpStream::from_std(stream)?),
        Came::Tcp(_, _, Some(_)) => return Ok(()),
    };
    stream.write_all(&Answer::no_place().bytes()).await?;
    stream.shutdown().await?;
    let mut room = [0; 4096];
    while stream.read(&mut room).await? > 0 {}
    Ok(())
}
