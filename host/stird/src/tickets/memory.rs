//! Tickets in memory alone: a restart forgets them.
use super::table::{Claimed, State, Table};
use super::{Claim, Clock, Health, Passed, Ticket, Tickets};
use std::sync::{Arc, Mutex};
use stir_trust::locks::Held;

/// Tickets in memory.
///
/// ```
/// use std::sync::Arc;
/// use stird::tickets::{Claim, Memory, Passed, SystemClock, Tickets};
///
/// # tokio::runtime::Builder::new_current_thread().build().unwrap().block_on(async {
/// let tickets = Memory::new(2_000_000, Arc::new(SystemClock));
/// let passed = Passed { last: 1_443_208_405, number: 1 };
/// assert_eq!(tickets.claim([7; 32], passed, 1_443_208_345).await, Claim::Won);
/// let again = Passed { number: 2, ..passed };
/// assert_eq!(tickets.claim([7; 32], again, 1_443_208_346).await, Claim::Lost { winner: 1 });
/// # });
/// ```
pub struct Memory {
    table: Mutex<Table>,
    clock: Arc<dyn Clock>,
}

impl Memory {
    /// Holds so many tickets at most. If there are as many, no call passes until one is forgotten.
    pub fn new(most: usize, clock: Arc<dyn Clock>) -> Memory {
        Memory { table: Mutex::new(Table::new(most)), clock }
    }
}

#[async_trait::async_trait]
impl Tickets for Memory {
    async fn claim(&self, ticket: Ticket, passed: Passed, moment: u64) -> Claim {
        let (now, monotonic) = (self.clock.now(), self.clock.monotonic());
        let mut table = self.table.lock().held();
        match table.claim(ticket, passed, moment, now, monotonic) {
            Claimed::Free => {
                table.enter(ticket, passed, moment, monotonic, State::Kept);
                Claim::Won
            }
            Claimed::Held { winner, .. } => Claim::Lost { winner },
            Claimed::Forgotten => Claim::Forgotten,
            Claimed::Full => Claim::Unable,
        }
    }

    fn count(&self) -> Option<usize> {
        Some(self.table.lock().held().len())
    }

    fn health(&self) -> Health {
        self.table.lock().held().health()
    }

    async fn look(&self) {
        let (now, monotonic) = (self.clock.now(), self.clock.monotonic());
        while self.table.lock().held().forget(now, monotonic) {
            tokio::task::yield_now().await;
        }
    }

    fn greatest(&self) -> u64 {
        0
    }
}
