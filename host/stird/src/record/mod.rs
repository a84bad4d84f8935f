//! The record: a line of JSON for each call that was judged. It is written by a thread of its own,
//! and no call waits for it: what has no room in the queue is lost and counted, and so is what
//! can't be written.
mod line;
mod numbers;
mod queue;
mod sink;

pub use numbers::{Form, Numbers};

use crate::files::FileFault;
use crate::judge::Judged;
use crate::metrics::Metrics;
use bytes::Bytes;
use line::Line;
use queue::Queue;
use sink::Sink;
use std::io;
use std::path::PathBuf;
use std::sync::Arc;

/// Where the record goes.
#[derive(Clone, Debug, PartialEq, Eq)]
pub enum To {
    /// To the standard output.
    Output,
    /// To the end of this file, which is made if there is none.
    File(PathBuf),
}

/// How the record is kept.
#[derive(Clone, Debug, PartialEq, Eq)]
pub struct Order {
    /// Where it goes.
    pub to: To,
    /// How numbers stand in it.
    pub numbers: Form,
}

/// Why there is no record.
#[derive(Debug, thiserror::Error)]
pub enum RecordFault {
    /// It can't be opened.
    #[error("{to}: {error}")]
    Unopened {
        /// Its name.
        to: String,
        /// Why.
        error: io::Error,
    },
    /// There is no thread for it.
    #[error("a thread for the record: {0}")]
    Thread(io::Error),
    /// The key can't be read.
    #[error("{0}")]
    Key(#[from] FileFault),
    /// The key is too short to keep numbers secret.
    #[error("{}: the key of the record has to have 16 bytes at least", .0.display())]
    ShortKey(PathBuf),
    /// OpenSSL doesn't take the key.
    #[error("the key of the record: {0}")]
    BadKey(#[from] openssl::error::ErrorStack),
}

/// Where calls are recorded.
pub struct Record {
    queue: Queue,
    numbers: Numbers,
}

impl Record {
    /// Begins a record. What is there stays.
    ///
    /// # Errors
    ///
    /// It can't be opened, its key isn't one, or there is no thread for it.
    pub fn start(order: &Order, metrics: &Arc<Metrics>) -> Result<Record, RecordFault> {
        let numbers = Numbers::of(&order.numbers)?;
        let sink = Sink::open(&order.to)?;
        let queue = Queue::start(sink, Arc::clone(metrics)).map_err(RecordFault::Thread)?;
        Ok(Record { queue, numbers })
    }

    /// Records a call that came at this moment. If its numbers are whole, what is told of it is
    /// given too, with an LF: it is written once for both.
    pub fn put(&self, judged: &Judged, moment: u64) -> Option<Bytes> {
        let Ok(line) = Line::of(judged, moment, &self.numbers) else {
            self.queue.lose();
            return None;
        };
        self.queue.put(&line.parts());
        match self.numbers {
            Numbers::Whole => Some(line.told.into()),
            Numbers::Short | Numbers::Hashed(_) => None,
        }
    }

    /// Opens the file anew, since it was moved away.
    pub fn reopen(&self) {
        self.queue.reopen();
    }

    /// Waits until what was recorded is written, for a second at most.
    pub fn end(&self) {
        self.queue.end();
    }
}

#[cfg(test)]
mod tests {
    use super::*;
    use crate::judge::Outcome;
    use std::fs;
    use std::path::Path;

    fn order(path: &Path) -> Order {
        Order { to: To::File(path.into()), numbers: Form::Whole }
    }

    fn metrics() -> Arc<Metrics> {
        Arc::new(Metrics::new().expect("names that are good"))
    }

    #[test]
    fn lines_are_in_their_file_and_in_the_next_one_after_it_was_moved() {
        let folder = std::env::temp_dir().join(format!("stird-record-{}", std::process::id()));
        fs::create_dir_all(&folder).expect("a folder");
        let (path, old, metrics) = (folder.join("record"), folder.join("old"), metrics());
        let record = Record::start(&order(&path), &metrics).expect("it opens");
        record.put(&Judged::new(1, Outcome::Valid), 5);
        record.end();
        fs::rename(&path, &old).expect("it is moved");
        record.reopen();
        record.put(&Judged::new(2, Outcome::Unjudged), 6);
        record.end();
        let read = |path: &Path| fs::read_to_string(path).expect("it is there");
        let (first, second) = (read(&old), read(&path));
        assert!(first.starts_with(r#"{"call":1,"code":0,"outcome":"valid","#), "{first}");
        assert!(first.ends_with("\"wait\":0},\"moment\":5}\n"), "{first}");
        assert!(second.starts_with(r#"{"call":2,"#) && second.ends_with("}\n"), "{second}");
        assert_eq!((metrics.records.written.get(), metrics.records.lost.get()), (2, 0));
        fs::remove_dir_all(&folder).expect("it is removed");
    }

    #[test]
    fn what_a_full_disk_has_no_room_for_is_lost_and_counted() {
        let metrics = metrics();
        let record = Record::start(&order("/dev/full".as_ref()), &metrics).expect("it opens");
        for call in 1..=3 {
            record.put(&Judged::new(call, Outcome::Valid), 5);
        }
        record.end();
        assert_eq!((metrics.records.written.get(), metrics.records.lost.get()), (0, 3));
    }

    #[test]
    fn a_record_that_cant_be_opened_is_named() {
        let order = order("/nowhere/at/all".as_ref());
        let fault = Record::start(&order, &metrics()).err().map(|fault| fault.to_string());
        let fault = fault.unwrap_or_default();
        assert!(fault.starts_with("/nowhere/at/all: "), "{fault}");
    }
}
