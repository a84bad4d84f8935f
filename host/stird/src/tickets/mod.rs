//! The tickets of the calls that passed. A ticket passes once, and where it is kept decides how
//! long that holds: in [`Memory`], in a file over restarts ([`Sqlite`]), or in a [`Redis`] for
//! several hosts, or in several of them ([`Shards`]).
//!
//! # When a ticket is forgotten
//!
//! A claim has the moment of its call, and the last second at which a call with the ticket is
//! fresh. From then on the ticket has a *bounded time*: the least of the clock, the latest moment
//! of any claim, and the claim's own moment carried on by the monotonic clock. These hold:
//!
//! 1. A ticket that passed is kept until its bounded time is [`SLACK`] seconds past its last
//!    second. So a clock that leaps ahead forgets nothing early, since the monotonic clock doesn't
//!    leap; and one that is set back keeps what it may still need.
//! 2. When a ticket is forgotten, its last second is remembered as a forgotten one. A claim of
//!    such a second is [`Claim::Forgotten`], whatever the clocks say then. So no ticket passes
//!    twice.
//! 3. No second is forgotten in which no ticket was (but for gaps between forgotten seconds, once
//!    they lie in many places). So a clock that was fast and is set right harms no call, save
//!    calls of those very seconds whose tickets were claimed and forgotten while it was fast.
mod clock;
mod error;
mod latest;
mod memory;
mod redis;
mod shards;
mod sqlite;
mod stretches;
mod table;

pub use clock::{Clock, SystemClock};
pub use error::TicketsError;
pub use latest::Latest;
pub use memory::Memory;
pub use redis::{AddressFault, Redis, MOST as CONNECTIONS};
pub use shards::{Shards, MOST as MOST_SHARDS};
pub use sqlite::Sqlite;

/// A digest that two calls share exactly if one is a replay of the other.
pub type Ticket = [u8; 32];

/// So many seconds a ticket is kept after its last second, so that calls which overtake each other
/// are still told from replays.
pub const SLACK: u64 = 10;

/// A call that passed.
#[derive(Clone, Copy, Debug, PartialEq, Eq)]
pub struct Passed {
    /// The last second, in Unix time, at which a call with the ticket is fresh.
    pub last: u64,
    /// The number of the call.
    pub number: u64,
}

/// What came of a claim.
#[derive(Clone, Copy, Debug, PartialEq, Eq)]
pub enum Claim {
    /// The ticket is this call's.
    Won,
    /// Another call has it.
    Lost {
        /// The number of that call; 0 if it isn't known.
        winner: u64,
    },
    /// It can't be told: a ticket of the same last second is forgotten already.
    Forgotten,
    /// It can't be told: there is no room, or where tickets are kept can't be reached.
    Unable,
}

/// Whether tickets can be kept.
#[derive(Clone, Debug, PartialEq, Eq)]
pub enum Health {
    /// They can.
    Well,
    /// They can't: no call passes.
    Ill {
        /// For whoever runs the service, in one line; it has no password.
        why: String,
    },
}

/// Where tickets are kept.
#[async_trait::async_trait]
pub trait Tickets: Send + Sync {
    /// Claims a ticket for a call at this moment (Unix seconds), at which the call is fresh.
    /// [`Claim::Won`] comes only after the ticket is where it is to be kept.
    async fn claim(&self, ticket: Ticket, passed: Passed, moment: u64) -> Claim;

    /// How many are held here; `None` if another host holds them.
    fn count(&self) -> Option<usize>;

    /// Whether tickets can be kept now, and if not, why.
    fn health(&self) -> Health;

    /// Looks whether tickets can be kept, and tries what failed again. To be called at the start,
    /// and then each second or so. It takes some seconds at most.
    async fn look(&self);

    /// The greatest number of a call that had a ticket here at the start; 0 if there was none.
    fn greatest(&self) -> u64;
}
