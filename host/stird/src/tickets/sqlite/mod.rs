//! Tickets in a file, over restarts.
//!
//! All tickets are held in memory too, and a claim is decided there: a replay costs no disk. The
//! row of a claim that is won is written by one thread, in one transaction with all claims that
//! came meanwhile, and the claim is answered after that. So of a kill at any moment holds: what was
//! answered [`Claim::Won`] is in the file.
//!
//! If a write fails the file is opened again, and it is tried once more. If that fails too no call
//! passes until it can be written: each look tries it, and so does a claim each second. Of a ticket
//! whose write failed it isn't known whether it is in the file, so its calls are
//! [`Claim::Unable`]. Once the file can be written again, the ticket is free if it isn't there.
mod journal;
mod store;
mod writer;

use self::store::Store;
use self::writer::{Order, Writer};
use super::table::{life, State, Table};
use super::{table, Claim, Clock, Health, Passed, Ticket, Tickets, TicketsError};
use std::path::{Path, PathBuf};
use std::sync::{Arc, Mutex};
use std::thread::JoinHandle;
use std::time::{Duration, Instant};
use stir_trust::locks::Held;
use tokio::sync::{mpsc, oneshot};

/// So many orders at most wait for the thread. A claim past that is [`Claim::Unable`].
const WAITING: usize = 8_192;

/// A claim or a look waits so long at most.
const PATIENCE: Duration = Duration::from_secs(2);

/// After a failure a claim tries the file again each time that so long has passed.
const PAUSE: Duration = Duration::from_secs(1);

/// Tickets in a file of SQLite.
///
/// ```
/// use std::sync::Arc;
/// use stird::tickets::{Claim, Passed, Sqlite, SystemClock, Tickets};
///
/// # let file = std::env::temp_dir().join(format!("stird-example-{}", std::process::id()));
/// # tokio::runtime::Builder::new_current_thread().enable_time().build()?.block_on(async {
/// let passed = Passed { last: 1_443_208_405, number: 1 };
/// let tickets = Sqlite::open(&file, true, 2_000_000, Arc::new(SystemClock))?;
/// assert_eq!(tickets.claim([7; 32], passed, 1_443_208_345).await, Claim::Won);
/// drop(tickets);
///
/// let tickets = Sqlite::open(&file, true, 2_000_000, Arc::new(SystemClock))?;
/// let again = Passed { number: tickets.greatest() + 1, ..passed };
/// assert_eq!(tickets.claim([7; 32], again, 1_443_208_346).await, Claim::Lost { winner: 1 });
/// # drop(tickets);
/// # std::fs::remove_file(&file)?;
/// # Ok::<(), Box<dyn std::error::Error>>(())
/// # })?;
/// # Ok::<(), Box<dyn std::error::Error>>(())
/// ```
pub struct Sqlite {
    shared: Arc<Shared>,
    orders: Option<mpsc::Sender<Order>>,
    thread: Option<JoinHandle<()>>,
    greatest: u64,
}

/// What the thread and the callers share. No lock is held over a read or a write of the file.
struct Shared {
    path: PathBuf,
    sync: bool,
    clock: Arc<dyn Clock>,
    table: Mutex<Table>,
    condition: Mutex<Condition>,
}

/// How the file fares.
struct Condition {
    /// Why it can't be written.
    ill: Option<String>,
    /// When that was tried last.
    tried: Instant,
    /// Since when the thread is at a write.
    busy: Option<Instant>,
}

impl Sqlite {
    /// Opens a file of tickets, or makes it. If it is a journal of an earlier release, its tickets
    /// are taken over. `sync` says whether a claim is answered after its ticket is on the disk; or
    /// after it is with the system, which outlives the service but not the machine. So many tickets
    /// at most are held.
    ///
    /// This blocks while the file is read.
    ///
    /// # Errors
    ///
    /// If another service has the file, if it can't be read or written, or isn't a file of tickets.
    pub fn open(
        path: &Path,
        sync: bool,
        most: usize,
        clock: Arc<dyn Clock>,
    ) -> Result<Sqlite, TicketsError> {
        journal::take_over(path, clock.now())?;
        let store = Store::open(path, sync)?;
        let (mut table, monotonic) = (Table::telling(most), clock.monotonic());
        let content =
            store.content(|row| table.restore(row.ticket, row.passed, row.life, monotonic))?;
        table.add_forgotten(&content.forgotten);
        let condition = Condition { ill: None, tried: Instant::now(), busy: None };
        let shared = Arc::new(Shared {
            path: path.into(),
            sync,
            clock,
            table: Mutex::new(table),
            condition: Mutex::new(condition),
        });
        let writer = Writer::new(shared.clone(), store, &content);
        let (orders, receiver) = mpsc::channel(WAITING);
        let thread = std::thread::Builder::new()
            .name("tickets".into())
            .spawn(move || writer.run(receiver))
            .map_err(|source| TicketsError::File { path: path.into(), source })?;
        let greatest = content.greatest;
        Ok(Sqlite { shared, orders: Some(orders), thread: Some(thread), greatest })
    }

    /// Hands an order to the thread, which says so when it is done.
    fn order(
        &self,
        order: impl FnOnce(oneshot::Sender<bool>) -> Order,
    ) -> Option<oneshot::Receiver<bool>> {
        let (answer, answered) = oneshot::channel();
        self.orders.as_ref()?.try_send(order(answer)).ok()?;
        Some(answered)
    }

    /// What a claim comes to at once, or what it has to wait for.
    fn begin(&self, ticket: Ticket, passed: Passed, moment: u64) -> Begun {
        let (now, monotonic) = (self.shared.clock.now(), self.shared.clock.monotonic());
        let mut table = self.shared.table.lock().held();
        match table.claim(ticket, passed, moment, now, monotonic) {
            table::Claimed::Free if self.shared.may_try() => {
                let life = life(passed, moment);
                let claimed = writer::Claimed { ticket, passed, life };
                // Under the lock, so that the rows come in the order of the claims.
                match self.order(|answer| Order::Write(claimed, answer)) {
                    Some(answered) => {
                        table.enter(ticket, passed, moment, monotonic, State::Waiting);
                        Begun::Entered(answered)
                    }
                    None => Begun::Done(Claim::Unable),
                }
            }
            table::Claimed::Held { winner, state: State::Kept } => {
                Begun::Done(Claim::Lost { winner })
            }
            table::Claimed::Held { state: State::Waiting, .. } => {
                self.order(Order::Wait).map_or(Begun::Done(Claim::Unable), Begun::Behind)
            }
            table::Claimed::Forgotten => Begun::Done(Claim::Forgotten),
            table::Claimed::Free | table::Claimed::Full | table::Claimed::Held { .. } => {
                Begun::Done(Claim::Unable)
            }
        }
    }

    async fn decide(&self, ticket: Ticket, passed: Passed, moment: u64) -> Claim {
        loop {
            match self.begin(ticket, passed, moment) {
                Begun::Done(claim) => return claim,
                Begun::Entered(answered) => {
                    return match answered.await {
                        Ok(true) => Claim::Won,
                        Ok(false) | Err(_) => Claim::Unable,
                    }
                }
                Begun::Behind(done) => {
                    if done.await.is_err() {
                        return Claim::Unable;
                    }
                }
            }
        }
    }
}

/// How far a claim has come.
enum Begun {
    /// It is answered.
    Done(Claim),
    /// It is won if its row is kept.
    Entered(oneshot::Receiver<bool>),
    /// Another call has the ticket, if the row of that one is kept.
    Behind(oneshot::Receiver<bool>),
}

impl Shared {
    /// Whether a claim may be written now: if the file fares well, or if it is time to try it.
    fn may_try(&self) -> bool {
        let mut condition = self.condition.lock().held();
        if condition.busy.is_some_and(|since| since.elapsed() > PATIENCE) {
            return false;
        }
        if condition.ill.is_some() {
            if condition.tried.elapsed() < PAUSE {
                return false;
            }
            condition.tried = Instant::now();
        }
        true
    }

    /// The thread is at a write from now on.
    fn begin(&self) {
        self.condition.lock().held().busy = Some(Instant::now());
    }

    /// It is done, or failed for this reason.
    fn end(&self, ill: Option<String>) {
        *self.condition.lock().held() = Condition { ill, tried: Instant::now(), busy: None };
    }

    fn health(&self) -> Health {
        let condition = self.condition.lock().held();
        let slow = condition.busy.map(|since| since.elapsed()).filter(|busy| *busy > PATIENCE);
        if let Some(busy) = slow {
            let (path, seconds) = (self.path.display(), busy.as_secs());
            return Health::Ill { why: format!("{path}: a write takes {seconds} seconds so far") };
        }
        match &condition.ill {
            Some(why) => Health::Ill { why: why.clone() },
            None => Health::Well,
        }
    }
}

#[async_trait::async_trait]
impl Tickets for Sqlite {
    async fn claim(&self, ticket: Ticket, passed: Passed, moment: u64) -> Claim {
        // A claim that isn't waited for stays with the thread, so that its ticket isn't free.
        let decided = tokio::time::timeout(PATIENCE, self.decide(ticket, passed, moment)).await;
        decided.unwrap_or(Claim::Unable)
    }

    fn count(&self) -> Option<usize> {
        Some(self.shared.table.lock().held().len())
    }

    fn health(&self) -> Health {
        if self.orders.as_ref().is_none_or(mpsc::Sender::is_closed) {
            let why =
                format!("{}: the thread that writes it has ended", self.shared.path.display());
            return Health::Ill { why };
        }
        match self.shared.health() {
            Health::Well => self.shared.table.lock().held().health(),
            ill => ill,
        }
    }

    async fn look(&self) {
        let (now, monotonic) = (self.shared.clock.now(), self.shared.clock.monotonic());
        while self.shared.table.lock().held().forget(now, monotonic) {
            tokio::task::yield_now().await;
        }
        if let Some(done) = self.order(Order::Look) {
            let _ = tokio::time::timeout(PATIENCE, done).await;
        }
    }

    fn greatest(&self) -> u64 {
        self.greatest
    }
}

impl Drop for Sqlite {
    /// Waits until all that was ordered is done, and the file is let go of.
    fn drop(&mut self) {
        self.orders = None;
        if let Some(thread) = self.thread.take() {
            let _ = thread.join();
        }
    }
}
