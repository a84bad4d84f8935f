//! Tickets that are shared out among several Redis servers.
use super::{Claim, Clock, Health, Passed, Redis, Ticket, Tickets, TicketsError};
use std::sync::Arc;
use tokio::task::JoinSet;

/// How many there are at most.
pub const MOST: usize = 64;

/// Several Redis servers, each with a part of the tickets. A ticket is a digest, and its first
/// eight bytes as a number, modulo how many servers there are, say which one has it. So every
/// service has to have the same servers in the same order.
///
/// ```
/// use std::sync::Arc;
/// use stird::tickets::{Health, Shards, SystemClock, Tickets};
///
/// let addresses = ["r0.example.org:6379".to_owned(), "r1.example.org:6379".to_owned()];
/// let tickets = Shards::new(&addresses, &(Arc::new(SystemClock) as _))?;
/// assert_eq!((tickets.place(&[0; 32]), tickets.place(&[1; 32])), (Some(0), Some(1)));
/// // They are asked by the first look, or the first claim.
/// assert!(matches!(tickets.health(), Health::Ill { .. }));
/// # Ok::<(), stird::tickets::TicketsError>(())
/// ```
pub struct Shards {
    all: Vec<Arc<Redis>>,
}

impl Shards {
    /// The servers at these addresses, each as [`Redis::new`] takes it. Without one no ticket can
    /// be kept.
    ///
    /// # Errors
    ///
    /// If one isn't an address, or a file that it names can't be used. The error has no password.
    pub fn new(addresses: &[String], clock: &Arc<dyn Clock>) -> Result<Shards, TicketsError> {
        let one = |address: &String| Ok(Arc::new(Redis::new(address, Arc::clone(clock))?));
        Ok(Shards { all: addresses.iter().map(one).collect::<Result<_, TicketsError>>()? })
    }

    /// Which server has a ticket, counted from 0.
    pub fn place(&self, ticket: &Ticket) -> Option<usize> {
        let number = ticket.iter().take(8).fold(0, |sum, byte| sum << 8 | u64::from(*byte));
        usize::try_from(number.checked_rem(self.all.len() as u64)?).ok()
    }
}

#[async_trait::async_trait]
impl Tickets for Shards {
    async fn claim(&self, ticket: Ticket, passed: Passed, moment: u64) -> Claim {
        match self.place(&ticket).and_then(|place| self.all.get(place)) {
            Some(redis) => redis.claim(ticket, passed, moment).await,
            None => Claim::Unable,
        }
    }

    fn count(&self) -> Option<usize> {
        None
    }

    /// Ill if one is: the calls of its tickets can't be judged.
    fn health(&self) -> Health {
        let ill =
            self.all.iter().map(|redis| redis.health()).find(|health| *health != Health::Well);
        ill.unwrap_or(Health::Well)
    }

    async fn look(&self) {
        let mut looks = JoinSet::new();
        for redis in &self.all {
            let redis = Arc::clone(redis);
            looks.spawn(async move { redis.look().await });
        }
        while looks.join_next().await.is_some() {}
    }

    fn greatest(&self) -> u64 {
        0
    }
}
