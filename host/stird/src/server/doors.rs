//! Where connections come in: TCP, TLS, and Unix sockets.
use crate::server::accepting::Accepting;
use crate::server::handed::{Handed, Socket};
use crate::server::{Acceptor, Server};
use crate::settings::Listen;
use std::fs::{DirBuilder, Permissions};
use std::io;
use std::net::{SocketAddr, ToSocketAddrs};
use std::os::unix::fs::{DirBuilderExt, FileTypeExt, PermissionsExt};
use std::os::unix::net::{UnixListener as Handled, UnixStream as Blocking};
use std::path::{Path, PathBuf};
use std::sync::Arc;
use tokio::net::{TcpListener, UnixListener};
use tokio::sync::mpsc;
use tokio::time::timeout;

/// Why the service can't listen.
#[derive(Debug, thiserror::Error)]
pub enum DoorsError {
    /// At this address.
    #[error("{address}: {error}")]
    Tcp {
        /// The address.
        address: String,
        /// Why.
        error: io::Error,
    },
    /// At this path.
    #[error("{}: {error}", path.display())]
    Unix {
        /// The file.
        path: PathBuf,
        /// Why.
        error: io::Error,
    },
    /// Another service listens at this path.
    #[error("{}: another service listens there", .0.display())]
    Taken(PathBuf),
    /// There is something else at this path.
    #[error("{}: it is there, and is no socket", .0.display())]
    NoSocket(PathBuf),
    /// systemd handed over nothing.
    #[error("systemd handed over no socket (LISTEN_FDS)")]
    NoneHanded,
    /// What systemd handed over isn't a socket for streams.
    #[error("the socket that systemd handed over as number {number}: {error}")]
    Handed {
        /// The number of the socket, from 1.
        number: usize,
        /// Why.
        error: io::Error,
    },
}

/// A socket at which is listened.
pub(super) enum Listener {
    /// TCP, and what greets its connections by TLS.
    Tcp(TcpListener, Option<Arc<Acceptor>>),
    /// A Unix socket.
    Unix(UnixListener),
}

/// Whose a socket is.
#[derive(Clone, Copy, Debug, PartialEq, Eq)]
pub(super) enum Owner {
    /// This service's: whoever waits there at its end is its own.
    Service,
    /// systemd's: whoever waits there at the end is the next service's.
    Systemd,
}

/// All listeners, and their addresses. At the end the Unix sockets that were made are removed.
pub struct Doors {
    listeners: Vec<(Listener, Owner)>,
    addresses: Vec<String>,
    sockets: Sockets,
}

/// The paths of sockets, which are removed with it.
struct Sockets(Vec<PathBuf>);

impl Drop for Sockets {
    fn drop(&mut self) {
        for path in &self.0 {
            let _ = std::fs::remove_file(path);
        }
    }
}

impl Doors {
    /// Listens at these addresses, and at the sockets that were handed over where these are wanted.
    /// Within a runtime, before it has other work.
    ///
    /// # Errors
    ///
    /// One of them is taken, or can't be had.
    pub fn open(
        wanted: &[Listen],
        mode: u32,
        acceptor: Option<&Arc<Acceptor>>,
        handed: Handed,
    ) -> Result<Doors, DoorsError> {
        let mut doors =
            Doors { listeners: Vec::new(), addresses: Vec::new(), sockets: Sockets(Vec::new()) };
        for listen in wanted.iter().filter(|listen| **listen != Listen::Systemd) {
            doors.make(listen, mode, acceptor)?;
        }
        if wanted.contains(&Listen::Systemd) {
            for (number, socket) in (1..).zip(handed.sockets()?) {
                let taken = doors.take(socket, acceptor);
                taken.map_err(|error| DoorsError::Handed { number, error })?;
            }
        }
        Ok(doors)
    }

    /// Listens at an address of its own.
    fn make(
        &mut self,
        listen: &Listen,
        mode: u32,
        acceptor: Option<&Arc<Acceptor>>,
    ) -> Result<(), DoorsError> {
        let (listener, address) = match listen {
            Listen::Tcp(address) => {
                let (listener, bound) = tcp(address)
                    .map_err(|error| DoorsError::Tcp { address: address.clone(), error })?;
                (Listener::Tcp(listener, acceptor.cloned()), bound.to_string())
            }
            Listen::Unix(path) => {
                let listener = unix(path, mode)?;
                self.sockets.0.push(path.clone());
                (Listener::Unix(listener), format!("unix:{}", path.display()))
            }
            Listen::Systemd => return Ok(()),
        };
        self.listeners.push((listener, Owner::Service));
        self.addresses.push(address);
        Ok(())
    }

    /// Listens at a socket that was handed over.
    fn take(&mut self, socket: Socket, acceptor: Option<&Arc<Acceptor>>) -> io::Result<()> {
        let (listener, address) = match socket {
            Socket::Tcp(listener) => {
                let bound = listener.local_addr()?;
                let listener = TcpListener::from_std(listener)?;
                (Listener::Tcp(listener, acceptor.cloned()), bound.to_string())
            }
            Socket::Unix(listener) => {
                let address = name_of(&listener)?;
                (Listener::Unix(UnixListener::from_std(listener)?), address)
            }
        };
        self.listeners.push((listener, Owner::Systemd));
        self.addresses.push(address);
        Ok(())
    }

    /// Where it listens.
    pub fn addresses(&self) -> &[String] {
        &self.addresses
    }

    /// Answers connections until the service comes to its end, and those that are under way then.
    pub async fn serve(self, server: &Arc<Server>) {
        let (alive, mut ended) = mpsc::channel::<()>(1);
        for (listener, owner) in self.listeners {
            let accepting = Accepting::new(listener, owner, Arc::clone(server), alive.clone());
            tokio::spawn(accepting.run());
        }
        drop(alive);
        let mut ending = server.ending.clone();
        while !*ending.borrow_and_update() && ending.changed().await.is_ok() {}
        drop(self.sockets);
        // Nobody sends anything; this is over when all connections are.
        if timeout(server.times.drain, ended.recv()).await.is_err() {
            let left = server.places.count();
            tracing::warn!("ends with {left} connections, which weren't answered in time");
        }
    }
}

/// The address of a Unix socket: its path, or that it has none.
fn name_of(listener: &Handled) -> io::Result<String> {
    let address = listener.local_addr()?;
    Ok(match address.as_pathname() {
        Some(path) => format!("unix:{}", path.display()),
        None => "unix:without a path".into(),
    })
}

fn tcp(address: &str) -> io::Result<(TcpListener, SocketAddr)> {
    let addresses: Vec<SocketAddr> = address.to_socket_addrs()?.collect();
    let listener = std::net::TcpListener::bind(&addresses[..])?;
    listener.set_nonblocking(true)?;
    let bound = listener.local_addr()?;
    Ok((TcpListener::from_std(listener)?, bound))
}

/// A Unix socket that has its mode before anybody can find it.
fn unix(path: &Path, mode: u32) -> Result<UnixListener, DoorsError> {
    let failed = |error| DoorsError::Unix { path: path.into(), error };
    match std::fs::symlink_metadata(path) {
        Err(error) if error.kind() == io::ErrorKind::NotFound => {}
        Err(error) => return Err(failed(error)),
        Ok(data) if !data.file_type().is_socket() => {
            return Err(DoorsError::NoSocket(path.into()));
        }
        Ok(_) if Blocking::connect(path).is_ok() => return Err(DoorsError::Taken(path.into())),
        Ok(_) => {}
    }
    // A folder that is this user's alone, since a socket that is made has the mode of the process.
    let mut folder = path.as_os_str().to_os_string();
    folder.push(format!(".{}", std::process::id()));
    let folder = PathBuf::from(folder);
    DirBuilder::new().mode(0o700).create(&folder).map_err(failed)?;
    let hidden = folder.join("s");
    let placed = UnixListener::bind(&hidden).and_then(|listener| {
        std::fs::set_permissions(&hidden, Permissions::from_mode(mode))?;
        std::fs::rename(&hidden, path)?;
        Ok(listener)
    });
    let _ = std::fs::remove_file(&hidden);
    let _ = std::fs::remove_dir(&folder);
    placed.map_err(failed)
}
