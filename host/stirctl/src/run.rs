//! A log judged: read, judged and written at the same time, with bounded pieces between.

use crate::judge::{Judge, Judged, Outcome};
use crate::log::{End, Log, Piece};
use crate::state::State;
use crate::tickets::Tickets;
use crate::verdict::Verdict;
use crate::Fault;
use rayon::ThreadPool;
use std::io::Read;
use std::sync::mpsc::{sync_channel, Receiver, SyncSender};
use std::thread;

/// How many pieces are under way at once.
const PIECES: usize = 4;

type Answers = Vec<Result<Judged, Fault>>;

/// What a log is judged by, and on what.
pub(crate) struct Run<'a> {
    pub judge: &'a Judge,
    pub pool: &'a ThreadPool,
}

/// What was judged so far, of one log or several.
pub(crate) struct Day {
    /// The number and the moment of the last call.
    pub call: u64,
    pub moment: u64,
    tickets: Tickets,
    /// Whether each call is valid.
    pub are_valid: bool,
}

impl Day {
    /// A day that goes on from a state.
    pub fn after(state: &State) -> Day {
        let tickets = Tickets::of(&state.kept);
        Day { call: state.call, moment: state.moment, tickets, are_valid: true }
    }

    /// What it hands on.
    pub fn state(&self, window: u64) -> State {
        let Day { call, moment, .. } = *self;
        State { window, call, moment, kept: self.tickets.fresh(moment) }
    }

    /// What comes of a call, after all before it.
    pub fn settle(&mut self, judged: &Judged) -> Verdict {
        (self.call, self.moment) = (judged.number, judged.moment);
        let verdict = match &judged.outcome {
            Outcome::Refused(refused) => Verdict::Refused(*refused),
            Outcome::Unread(field) => Verdict::Unread(*field),
            Outcome::Passes(passes) => {
                match self.tickets.winner(passes, judged.number, judged.moment) {
                    winner if winner == judged.number => Verdict::Valid,
                    winner => Verdict::Replay(winner),
                }
            }
        };
        self.are_valid &= verdict == Verdict::Valid;
        verdict
    }
}

impl Run<'_> {
    /// Judges the calls of a log, which goes on after the call of this number and this moment. Each
    /// is handed on in the order of the log; and it is said how the log ends.
    pub fn log(
        &self,
        source: impl Read + Send,
        (number, moment): (u64, u64),
        each: impl FnMut(Judged) -> Result<(), Fault>,
    ) -> Result<End, Fault> {
        let log = Log::after(source, number, moment);
        thread::scope(|threads| {
            let (give, take) = sync_channel(PIECES);
            let reader = threads.spawn(|| self.read(log, give));
            hand_on(take, each)?;
            reader.join().map_err(|_| Fault::Memory)
        })
    }

    /// Reads a log and has its pieces judged, and says how it ends. What is judged is taken in the
    /// order of the log; if nobody takes it any more, nothing more is read.
    fn read(&self, mut log: Log<impl Read>, give: SyncSender<Receiver<Answers>>) -> End {
        self.pool.in_place_scope(|pool| {
            while let Some(piece) = log.piece() {
                let (done, answers) = sync_channel(1);
                if give.send(answers).is_err() {
                    break;
                }
                pool.spawn(move |_| self.judged(&piece, &done));
            }
        });
        log.end().unwrap_or(End::Whole)
    }

    fn judged(&self, piece: &Piece, done: &SyncSender<Answers>) {
        // Nobody takes the answers if the run has ended by a fault.
        let _ = done.send(self.judge.piece(piece));
    }
}

/// Hands on the calls in their order.
fn hand_on(
    take: Receiver<Receiver<Answers>>,
    mut each: impl FnMut(Judged) -> Result<(), Fault>,
) -> Result<(), Fault> {
    for answers in take {
        // A thread that gave none has ended by a panic, which ends the run.
        for judged in answers.recv().map_err(|_| Fault::Memory)? {
            each(judged?)?;
        }
    }
    Ok(())
}
