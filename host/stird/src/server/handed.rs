//! Sockets at which systemd listens, and which it hands over at the start (sd_listen_fds(3)). They
//! stay open after the end of the service: what comes meanwhile waits for the next one.
use crate::server::DoorsError;
use listenfd::ListenFd;
use std::net::TcpListener;
use std::os::unix::net::UnixListener;

/// A socket that was handed over.
#[derive(Debug)]
pub(super) enum Socket {
    /// TCP.
    Tcp(TcpListener),
    /// A Unix socket.
    Unix(UnixListener),
}

/// The sockets that were handed over to this process.
pub struct Handed(ListenFd);

impl Handed {
    /// Those that the environment names (`LISTEN_FDS`, `LISTEN_PID`), which names them no longer
    /// then: so to be called before there is a second thread.
    pub fn take() -> Handed {
        Handed(ListenFd::from_env())
    }

    /// No sockets.
    ///
    /// ```
    /// use stird::server::{Doors, DoorsError, Handed};
    /// use stird::settings::Listen;
    ///
    /// let opened = Doors::open(&[Listen::Systemd], 0o600, None, Handed::none());
    /// assert!(matches!(opened, Err(DoorsError::NoneHanded)));
    /// ```
    pub fn none() -> Handed {
        Handed(ListenFd::empty())
    }

    /// The sockets, in the order in which they were handed over. They block nobody.
    pub(super) fn sockets(mut self) -> Result<Vec<Socket>, DoorsError> {
        if self.0.len() == 0 {
            return Err(DoorsError::NoneHanded);
        }
        (0..self.0.len()).map(|number| self.socket(number)).collect()
    }

    fn socket(&mut self, number: usize) -> Result<Socket, DoorsError> {
        let failed = |error| DoorsError::Handed { number: number + 1, error };
        let unix = self.0.take_unix_listener(number).ok().flatten();
        let socket = match unix {
            Some(listener) => Socket::Unix(listener),
            None => match self.0.take_tcp_listener(number).map_err(failed)? {
                Some(listener) => Socket::Tcp(listener),
                None => return Err(DoorsError::NoneHanded),
            },
        };
        match &socket {
            Socket::Tcp(listener) => listener.set_nonblocking(true),
            Socket::Unix(listener) => listener.set_nonblocking(true),
        }
        .map_err(failed)?;
        Ok(socket)
    }
}
