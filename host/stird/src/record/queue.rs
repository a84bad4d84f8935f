//! Lines on their way to the record. They wait in a room of so many bytes, and are written together
//! by a thread of their own.
use super::sink::{Sink, Written};
use crate::metrics::Metrics;
use std::io;
use std::sync::mpsc::{sync_channel, SyncSender};
use std::sync::{Arc, Condvar, Mutex, MutexGuard};
use std::time::Duration;
use stir_trust::locks::Held;

/// How many bytes of lines wait at most.
const MOST: usize = 16 << 20;

/// From how many bytes on they don't wait for others, and how long they do else.
const MANY: usize = 256 << 10;
const TOGETHER: Duration = Duration::from_millis(100);

/// How long the last lines may take to be written.
const LAST: Duration = Duration::from_secs(1);

/// The end of the queue to which lines come.
pub(super) struct Queue {
    shared: Arc<Shared>,
}

struct Shared {
    room: Mutex<Room>,
    came: Condvar,
    metrics: Arc<Metrics>,
    most: usize,
}

/// What waits.
#[derive(Default)]
struct Room {
    lines: Vec<u8>,
    count: u64,
    /// After how many bytes and lines the file is to be opened anew.
    reopens: Option<(usize, u64)>,
    /// Who waits until they are written.
    ends: Vec<SyncSender<()>>,
    /// Whether nobody puts lines any more.
    is_left: bool,
    /// Whether the thread sleeps until something comes: nothing did for a while.
    is_asleep: bool,
}

impl Room {
    fn is_idle(&self) -> bool {
        self.lines.is_empty() && !self.is_urgent()
    }

    /// Whether there is something that doesn't wait for more lines.
    fn is_urgent(&self) -> bool {
        self.reopens.is_some() || self.is_left || !self.ends.is_empty() || self.lines.len() >= MANY
    }
}

impl Queue {
    /// A queue to this sink.
    pub fn start(sink: Sink, metrics: Arc<Metrics>) -> io::Result<Queue> {
        let shared =
            Arc::new(Shared { room: Mutex::default(), came: Condvar::new(), metrics, most: MOST });
        let writes = Arc::clone(&shared);
        std::thread::Builder::new().name("record".into()).spawn(move || writes.write_all(sink))?;
        Ok(Queue { shared })
    }

    /// Puts a line of these parts, with its LF, if there is room for it.
    pub fn put(&self, line: &[&[u8]]) {
        self.shared.put(line);
    }

    /// A line was lost before it came here.
    pub fn lose(&self) {
        self.shared.metrics.records.lost.inc();
    }

    /// Has the file opened anew, after the lines that came before.
    pub fn reopen(&self) {
        let mut room = self.shared.room.lock().held();
        room.reopens = Some((room.lines.len(), room.count));
        drop(room);
        self.shared.came.notify_one();
    }

    /// Waits until the lines that came are written, for a while at most.
    pub fn end(&self) {
        let (done, ended) = sync_channel(1);
        self.shared.room.lock().held().ends.push(done);
        self.shared.came.notify_one();
        let _ = ended.recv_timeout(LAST);
    }
}

impl Drop for Queue {
    fn drop(&mut self) {
        self.shared.room.lock().held().is_left = true;
        self.shared.came.notify_one();
    }
}

impl Shared {
    fn put(&self, line: &[&[u8]]) {
        let size: usize = line.iter().map(|part| part.len()).sum();
        let mut room = self.room.lock().held();
        let before = room.lines.len();
        if before + size > self.most {
            drop(room);
            self.metrics.records.lost.inc();
            return;
        }
        line.iter().for_each(|part| room.lines.extend_from_slice(part));
        room.count += 1;
        let is_woken = (before == 0 && room.is_asleep) || (before < MANY && before + size >= MANY);
        drop(room);
        if is_woken {
            self.came.notify_one();
        }
    }

    /// What came for a while, or until there is much or something urgent; room for the next lines
    /// is left. If nothing came it sleeps first. As long as lines come, none of them wakes it.
    fn taken(&self, room_left: Vec<u8>) -> Room {
        let mut room = self.gathered(self.room.lock().held());
        if room.is_idle() {
            room.is_asleep = true;
            let mut woken = self.came.wait_while(room, |room| room.is_idle()).held();
            woken.is_asleep = false;
            room = self.gathered(woken);
        }
        let next = Room { lines: room_left, is_left: room.is_left, ..Room::default() };
        std::mem::replace(&mut *room, next)
    }

    fn gathered<'a>(&'a self, room: MutexGuard<'a, Room>) -> MutexGuard<'a, Room> {
        let quiet = |room: &mut Room| !room.is_urgent();
        self.came.wait_timeout_while(room, TOGETHER, quiet).held().0
    }

    fn tell(&self, written: Written) {
        self.metrics.records.written.inc_by(written.whole);
        self.metrics.records.lost.inc_by(written.lost);
    }

    /// Writes what comes, until nobody puts lines any more.
    fn write_all(&self, mut sink: Sink) {
        let mut room_left = Vec::new();
        loop {
            let Room { mut lines, count, reopens, ends, is_left, is_asleep: _ } =
                self.taken(room_left);
            let (before, of_them) = reopens.unwrap_or_default();
            let (old, new) = lines.split_at(before.min(lines.len()));
            self.tell(sink.write(old, of_them));
            if reopens.is_some() {
                sink.reopen();
            }
            self.tell(sink.write(new, count - of_them));
            for end in ends {
                let _ = end.try_send(());
            }
            if is_left {
                return;
            }
            lines.clear();
            room_left = lines;
        }
    }
}

#[cfg(test)]
mod tests {
    use super::*;

    #[test]
    fn lines_for_which_there_is_no_room_are_lost_and_counted() {
        let metrics = Arc::new(Metrics::new().expect("names that are good"));
        let shared = Shared {
            room: Mutex::default(),
            came: Condvar::new(),
            metrics: Arc::clone(&metrics),
            most: 10,
        };
        for line in ["1234\n", "123456\n", "6789\n", "\n"] {
            shared.put(&[line.as_bytes()]);
        }
        let taken = shared.taken(Vec::new());
        assert_eq!((taken.lines.as_slice(), taken.count), (&b"1234\n6789\n"[..], 2));
        assert_eq!(metrics.records.lost.get(), 2);
        shared.put(&[b"ag", b"ain\n"]);
        assert_eq!(shared.taken(Vec::new()).lines, b"again\n");
    }
}
