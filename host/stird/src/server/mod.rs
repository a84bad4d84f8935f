//! HTTP/1.1 by hyper: listeners, connections, and the limits on both.
mod accepting;
mod connection;
mod date;
mod doors;
mod guard;
mod handed;
mod hands;
mod head;
mod places;
mod stream;
mod tls;

pub use doors::{Doors, DoorsError};
pub use handed::Handed;
pub use hands::Hands;
pub use places::{Places, AT_ONCE};
pub use tls::{Acceptor, TlsError};

use crate::routes::Service;
use std::sync::Arc;
use std::time::Duration;
use tokio::sync::watch;

/// The most bytes of a request's head, and of its body.
pub const MOST_HEAD: usize = 16_384;
/// The most bytes of a request's body.
pub const MOST_BODY: u64 = 131_072;

/// How long what takes its time may take.
#[derive(Clone, Copy, Debug)]
pub struct Times {
    /// A request may take so long to come, and its answer to go.
    pub request: Duration,
    /// A connection may be so long without a request.
    pub idle: Duration,
    /// What is under way at the end may take so long.
    pub drain: Duration,
}

/// What each connection needs.
pub struct Server {
    /// What answers.
    pub service: Arc<Service>,
    /// The places for connections.
    pub places: Arc<Places>,
    /// The threads that answer.
    pub hands: Hands,
    /// How long things may take.
    pub times: Times,
    /// Becomes true when the service comes to its end.
    pub ending: watch::Receiver<bool>,
}
