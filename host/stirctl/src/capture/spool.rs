//! Messages on the disk until all are there, since a log has them in the order of time.

use crate::log::LAST_MOMENT;
use crate::Fault;
use openssl::sha::Sha256;
use std::collections::{HashSet, VecDeque};
use std::fs::{self, File, OpenOptions};
use std::io::{self, BufWriter, Read, Seek, SeekFrom, Write};

pub(crate) const NANOSECONDS: u64 = 1_000_000_000;

/// How long a client sends an INVITE again: 64 times T1, which is half a second (RFC 3261, sections
/// 17.1.1.1 and 17.1.1.2).
const LONGEST_RETRY: u64 = 32 * NANOSECONDS;

/// So many messages are remembered at most: the calls of 32 seconds, at 60,000 a second.
const MOST_KNOWN: usize = 2_000_000;

const BUFFER: usize = 1 << 20;

/// By what a retransmission is known: it has the same source and the same bytes.
pub(crate) type Key = [u8; 16];

/// The key of a message from this source.
pub(crate) fn key_of(source: &[u8], message: &[u8]) -> Key {
    let mut digest = Sha256::new();
    for part in [&(source.len() as u64).to_be_bytes()[..], source, message] {
        digest.update(part);
    }
    let mut key = Key::default();
    key.copy_from_slice(&digest.finish()[..16]);
    key
}

/// A message that was added.
#[derive(Clone, Copy)]
struct Entry {
    time: u64,
    place: u64,
    length: u32,
    key: Key,
}

/// Messages with their times.
pub(super) struct Spool {
    file: BufWriter<File>,
    entries: Vec<Entry>,
    end: u64,
}

/// A file that has no name any more, so that it goes with the process.
fn temporary() -> io::Result<File> {
    let folder = std::env::temp_dir();
    for number in 0.. {
        let path = folder.join(format!("stirctl-{}-{number}", std::process::id()));
        match OpenOptions::new().read(true).write(true).create_new(true).open(&path) {
            Ok(file) => return fs::remove_file(&path).map(|()| file),
            Err(error) if error.kind() == io::ErrorKind::AlreadyExists && number < 1_000 => {}
            Err(error) => return Err(error),
        }
    }
    Err(io::ErrorKind::AlreadyExists.into())
}

fn failed(error: io::Error) -> Fault {
    Fault::write("a temporary file", &error)
}

impl Spool {
    pub fn new() -> Result<Spool, Fault> {
        let file = BufWriter::with_capacity(BUFFER, temporary().map_err(failed)?);
        Ok(Spool { file, entries: Vec::new(), end: 0 })
    }

    /// Adds a message that came at this time, in nanoseconds, from this address and port.
    pub fn add(&mut self, time: u64, source: &[u8], message: &[u8]) -> Result<(), Fault> {
        let key = key_of(source, message);
        self.file.write_all(message).map_err(failed)?;
        let length = message.len() as u32;
        self.entries.push(Entry { time, place: self.end, length, key });
        self.end += u64::from(length);
        Ok(())
    }

    /// A log of the messages that are no retransmissions; how many these are, and how many were
    /// left out.
    pub fn log(self) -> Result<(File, u64, u64), Fault> {
        let Spool { file, mut entries, .. } = self;
        let mut file = file.into_inner().map_err(|error| failed(error.into_error()))?;
        // Those of one time stay in the order in which they were read.
        entries.sort_by_key(|entry| entry.time);
        let all = entries.len();
        let entries = without_retransmissions(entries);
        let mut log = BufWriter::with_capacity(BUFFER, temporary().map_err(failed)?);
        let (mut buffer, mut message) = (Window::default(), Vec::new());
        for entry in &entries {
            buffer
                .read(&mut file, entry.place, entry.length as usize, &mut message)
                .map_err(failed)?;
            let moment = (entry.time / NANOSECONDS).min(LAST_MOMENT);
            writeln!(log, "@{moment} {}", entry.length).map_err(failed)?;
            log.write_all(&message).map_err(failed)?;
        }
        let log = log.into_inner().map_err(|error| failed(error.into_error()))?;
        Ok((log, entries.len() as u64, (all - entries.len()) as u64))
    }
}

/// A stretch of the file that was read ahead.
#[derive(Default)]
struct Window {
    start: u64,
    bytes: Vec<u8>,
}

impl Window {
    /// Reads so many bytes at a place.
    fn read(
        &mut self,
        file: &mut File,
        place: u64,
        length: usize,
        to: &mut Vec<u8>,
    ) -> io::Result<()> {
        let inside = |window: &Window| {
            let at = usize::try_from(place.checked_sub(window.start)?).ok()?;
            window.bytes.get(at..at.checked_add(length)?).map(<[u8]>::to_vec)
        };
        *to = match inside(self) {
            Some(bytes) => bytes,
            None => {
                file.seek(SeekFrom::Start(place))?;
                self.start = place;
                self.bytes.clear();
                let most = BUFFER.max(length) as u64;
                Read::by_ref(file).take(most).read_to_end(&mut self.bytes)?;
                inside(self).ok_or(io::ErrorKind::UnexpectedEof)?
            }
        };
        Ok(())
    }
}

/// Messages in the order of time, without retransmissions.
fn without_retransmissions(entries: Vec<Entry>) -> Vec<Entry> {
    let (mut repeats, mut kept) = (Repeats::default(), entries);
    kept.retain(|entry| repeats.is_first(entry.time, entry.key));
    kept
}

/// What tells retransmissions: they have the source and the bytes of a message that came at most 32
/// seconds before.
#[derive(Default)]
pub(crate) struct Repeats {
    known: HashSet<Key>,
    /// Until when each is remembered, in the order in which they came.
    ends: VecDeque<(u64, Key)>,
}

impl Repeats {
    /// Whether a message that came at this time, in nanoseconds, is none.
    pub fn is_first(&mut self, time: u64, key: Key) -> bool {
        while let Some((end, key)) = self.ends.front() {
            if *end >= time && self.ends.len() < MOST_KNOWN {
                break;
            }
            self.known.remove(key);
            self.ends.pop_front();
        }
        let is_first = self.known.insert(key);
        if is_first {
            self.ends.push_back((time + LONGEST_RETRY, key));
        }
        is_first
    }
}
