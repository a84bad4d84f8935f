//! The thread that writes tickets to their file: one transaction for all claims that came together.
use super::store::{Change, Content, Row, Store};
use super::Shared;
use crate::tickets::stretches::Stretches;
use crate::tickets::table::{State, Table};
use crate::tickets::{Passed, Ticket, TicketsError};
use std::collections::HashSet;
use std::sync::Arc;
use std::time::{Duration, Instant};
use stir_trust::locks::Held;
use tokio::sync::{mpsc, oneshot};

/// So many claims at most are written together.
const TOGETHER: usize = 4_096;

/// So many rows at most are written in one transaction, if a file is made anew.
const CHUNK: usize = 20_000;

/// If nothing was written for so long, a look writes something.
const QUIET: Duration = Duration::from_secs(10);

/// What is asked of the thread.
pub enum Order {
    /// To write a ticket whose claim was won. It is said whether it is kept.
    Write(Claimed, oneshot::Sender<bool>),
    /// To say when all that was asked before is done.
    Wait(oneshot::Sender<bool>),
    /// To look whether tickets can be kept, and to try it if they can't.
    Look(oneshot::Sender<bool>),
}

/// A claim that was won.
#[derive(Clone, Copy)]
pub struct Claimed {
    pub ticket: Ticket,
    pub passed: Passed,
    pub life: u64,
}

pub struct Writer {
    shared: Arc<Shared>,
    /// The file; none after something failed.
    store: Option<Store>,
    /// The turn of the next row.
    turn: u64,
    /// The greatest number of a call.
    greatest: u64,
    /// The seconds whose rows are to go.
    owed: Vec<u64>,
    written: Instant,
}

/// What failed, and what that leaves in the file.
enum Failed {
    /// The file couldn't be opened, so that no row is in it.
    Before(TicketsError),
    /// The file couldn't be written, or not be made sure of. The rows may be in it.
    Within(TicketsError),
}

impl Failed {
    fn fault(self) -> TicketsError {
        match self {
            Failed::Before(fault) | Failed::Within(fault) => fault,
        }
    }
}

impl Writer {
    /// The thread's part of a file that was just opened, and all that it holds.
    pub fn new(shared: Arc<Shared>, store: Store, content: &Content) -> Writer {
        Writer {
            shared,
            store: Some(store),
            turn: content.turn,
            greatest: content.greatest,
            owed: Vec::new(),
            written: Instant::now(),
        }
    }

    /// Does what is asked until nobody can ask any more.
    pub fn run(mut self, mut orders: mpsc::Receiver<Order>) {
        while let Some(order) = orders.blocking_recv() {
            let mut together = vec![order];
            while together.len() < TOGETHER {
                match orders.try_recv() {
                    Ok(order) => together.push(order),
                    Err(_) => break,
                }
            }
            self.serve(together);
        }
        if let Some(store) = self.store.take() {
            let _ = store.close();
        }
    }

    fn serve(&mut self, orders: Vec<Order>) {
        let (mut rows, mut writing, mut waiting, mut looks) = (vec![], vec![], vec![], false);
        for order in orders {
            match order {
                Order::Write(Claimed { ticket, passed, life }, answer) => {
                    rows.push(Row { ticket, passed, life, turn: 0 });
                    self.greatest = self.greatest.max(passed.number);
                    writing.push(answer);
                }
                Order::Wait(answer) => waiting.push(answer),
                Order::Look(answer) => {
                    looks = true;
                    waiting.push(answer);
                }
            }
        }
        if looks || !rows.is_empty() {
            self.shared.begin();
            let done = self.keep(&mut rows);
            self.settle(&rows, &done);
            let is_kept = done.is_ok();
            self.shared.end(done.err().map(|failed| failed.fault().to_string()));
            for answer in writing {
                // Whoever asked may be gone by now. The ticket stays claimed.
                let _ = answer.send(is_kept);
            }
        }
        for answer in waiting {
            let _ = answer.send(true);
        }
    }

    fn take_turn(&mut self) -> u64 {
        let turn = self.turn;
        self.turn = turn.wrapping_add(1);
        turn
    }

    /// Says in memory where the tickets of these rows stand.
    fn settle(&self, rows: &[Row], done: &Result<(), Failed>) {
        let mut table = self.shared.table.lock().held();
        for row in rows {
            match done {
                Ok(()) => table.settle(&row.ticket, State::Kept),
                Err(Failed::Before(_)) => table.release(&row.ticket),
                Err(Failed::Within(_)) => table.settle(&row.ticket, State::Unsure),
            }
        }
    }

    /// Writes rows, and what was forgotten meanwhile. If that fails the file is opened again, and
    /// it is tried once more.
    fn keep(&mut self, rows: &mut [Row]) -> Result<(), Failed> {
        let forgotten = self.take_gone();
        match self.try_to_keep(rows, forgotten.as_ref()) {
            Err(Failed::Within(_)) => self
                .try_to_keep(rows, forgotten.as_ref())
                .map_err(|failed| Failed::Within(failed.fault())),
            done => done,
        }
    }

    fn try_to_keep(
        &mut self,
        rows: &mut [Row],
        forgotten: Option<&Stretches>,
    ) -> Result<(), Failed> {
        let mut store = match self.store.take() {
            Some(store) => store,
            None => self.open_again().map_err(Failed::Before)?,
        };
        // Each try has turns of its own, since the file may be another one by now. A ticket that
        // stands in two rows is one all the same.
        rows.iter_mut().for_each(|row| row.turn = self.take_turn());
        let written = if !rows.is_empty() || forgotten.is_some() {
            let (gone, greatest) = (&self.owed, self.greatest);
            store.write(&Change { rows, gone, forgotten, greatest })
        } else if self.written.elapsed() > QUIET {
            store.probe()
        } else {
            return self.look_in_place(store);
        };
        match written {
            Ok(()) => {
                self.owed.clear();
                self.written = Instant::now();
                self.store = Some(store);
                Ok(())
            }
            Err(fault) => {
                // Its fault is that of the writing.
                let _ = store.close();
                Err(Failed::Within(fault))
            }
        }
    }

    fn look_in_place(&mut self, store: Store) -> Result<(), Failed> {
        let place = store.in_place();
        if place.is_ok() {
            self.store = Some(store);
        } else {
            let _ = store.close();
        }
        place.map_err(Failed::Within)
    }

    /// All that was forgotten, if rows are to go for that.
    fn take_gone(&mut self) -> Option<Stretches> {
        let mut table = self.shared.table.lock().held();
        let (gone, forgotten) = table.take_gone();
        self.owed.extend(gone);
        (!self.owed.is_empty()).then(|| forgotten.clone())
    }

    /// Opens the file again after something failed, so that it holds what is kept in memory, and
    /// memory what it holds.
    fn open_again(&mut self) -> Result<Store, TicketsError> {
        let mut store = Store::open(&self.shared.path, self.shared.sync)?;
        match self.bring_together(&mut store) {
            Ok(()) => Ok(store),
            Err(fault) => {
                let _ = store.close();
                Err(fault)
            }
        }
    }

    fn bring_together(&mut self, store: &mut Store) -> Result<(), TicketsError> {
        let mut rows = Vec::new();
        let content = store.content(|row| rows.push(row))?;
        self.turn = self.turn.max(content.turn);
        self.greatest = self.greatest.max(content.greatest);
        let owed: HashSet<u64> = self.owed.iter().copied().collect();
        let there: HashSet<Ticket> = rows.iter().map(|row| row.ticket).collect();
        let monotonic = self.shared.clock.monotonic();
        let (missing, forgotten) = {
            let mut table = self.shared.table.lock().held();
            settle_unsure(&mut table, &there, monotonic);
            let mut missing = table.all_in(State::Kept, monotonic);
            missing.retain(|(ticket, _, _)| !there.contains(ticket));
            for row in rows.iter().filter(|row| !owed.contains(&row.passed.last)) {
                table.restore(row.ticket, row.passed, row.life, monotonic);
            }
            table.add_forgotten(&content.forgotten);
            (missing, table.forgotten().clone())
        };
        let rows: Vec<Row> = missing
            .into_iter()
            .map(|(ticket, passed, life)| Row { ticket, passed, life, turn: self.take_turn() })
            .collect();
        for rows in rows.chunks(CHUNK) {
            store.write(&Change { rows, greatest: self.greatest, ..Change::default() })?;
        }
        let (gone, greatest) = (&self.owed, self.greatest);
        store.write(&Change { rows: &[], gone, forgotten: Some(&forgotten), greatest })
    }
}

/// Settles the tickets whose writing failed, by those that are in the file.
fn settle_unsure(table: &mut Table, there: &HashSet<Ticket>, monotonic: u64) {
    for (ticket, _, _) in table.all_in(State::Unsure, monotonic) {
        if there.contains(&ticket) {
            table.settle(&ticket, State::Kept);
        } else {
            table.release(&ticket);
        }
    }
}
