//! Call logs (docs/FORMATS.md, "Call log"), read piece by piece.

use crate::files::number;
use std::io::{ErrorKind, Read};
use std::ops::Range;

/// The last second of the year 9999, and the most bytes of a message.
pub(crate) const LAST_MOMENT: u64 = 253_402_300_799;
pub(crate) const LONGEST_MESSAGE: u64 = 131_072;

/// The most bytes of a header: `@`, a moment, a space, a length and LF.
const LONGEST_HEADER: usize = 21;

/// The most calls and, about, the most bytes of a piece.
const MOST_CALLS: usize = 2_048;
const MOST_BYTES: usize = 2 << 20;

/// How many bytes are read at once.
const READ: usize = 256 << 10;

/// Calls that stand one after another in a log.
#[derive(Debug, Default)]
pub(crate) struct Piece {
    /// The number of its first call.
    pub first: u64,
    /// Its moments and messages.
    bytes: Vec<u8>,
    calls: Vec<(u64, Range<usize>)>,
}

impl Piece {
    /// The number, the moment and the message of each call.
    pub fn calls(&self) -> impl Iterator<Item = (u64, u64, &[u8])> + '_ {
        (self.first..).zip(&self.calls).map(|(number, (moment, place))| {
            (number, *moment, self.bytes.get(place.clone()).unwrap_or_default())
        })
    }
}

/// How a log ends.
#[derive(Clone, Copy, Debug, PartialEq, Eq)]
pub(crate) enum End {
    /// With its last call.
    Whole,
    /// It is outside its grammar from this byte on.
    Refused(u64),
    /// It can't be read any further.
    Failed,
}

/// A log that is being read.
#[derive(Debug)]
pub(crate) struct Log<R> {
    source: R,
    /// What was read after the last whole entry.
    left: Vec<u8>,
    /// Where the last whole entry ends, in bytes from the log's first.
    place: u64,
    moment: u64,
    number: u64,
    end: Option<End>,
}

/// What stands at the beginning of some bytes.
enum Entry {
    Whole {
        moment: u64,
        message: Range<usize>,
    },
    /// More bytes are needed to tell.
    Partly,
    None,
}

impl<R: Read> Log<R> {
    /// A log that goes on after the call of this number and this moment. It may have any number of
    /// calls.
    pub fn after(source: R, number: u64, moment: u64) -> Log<R> {
        Log { source, left: Vec::new(), place: 0, moment, number, end: None }
    }

    /// The next calls, or nothing at the end.
    pub fn piece(&mut self) -> Option<Piece> {
        let mut piece =
            Piece { first: self.number + 1, bytes: std::mem::take(&mut self.left), calls: vec![] };
        let mut at = 0;
        while self.end.is_none() {
            match entry(&piece.bytes[at..]) {
                Entry::Whole { moment, message } if moment >= self.moment => {
                    let end = at + message.end;
                    piece.calls.push((moment, at + message.start..end));
                    self.place += (end - at) as u64;
                    (self.number, self.moment, at) = (self.number + 1, moment, end);
                    if piece.calls.len() == MOST_CALLS || at >= MOST_BYTES {
                        break;
                    }
                }
                Entry::Partly if self.could_go_on(&piece.bytes[at..]) => {
                    self.end = self.read(&mut piece.bytes, at);
                }
                _ => self.end = Some(End::Refused(self.place)),
            }
        }
        self.left = piece.bytes.split_off(at);
        (!piece.calls.is_empty()).then_some(piece)
    }

    /// How it ended, once no piece is left.
    pub fn end(&self) -> Option<End> {
        self.end
    }

    /// Whether a log may go on with these bytes, which are no whole entry: not if a moment below
    /// the last one's is told already.
    fn could_go_on(&self, bytes: &[u8]) -> bool {
        let told = header(bytes).and_then(|(moment, _, _)| moment);
        told.is_none_or(|moment| moment >= self.moment)
    }

    /// Reads further, and says how the log ends if it does: `at` is where its last entry ends.
    fn read(&mut self, bytes: &mut Vec<u8>, at: usize) -> Option<End> {
        let length = bytes.len();
        bytes.resize(length + READ, 0);
        let came = loop {
            match self.source.read(&mut bytes[length..]) {
                Err(error) if error.kind() == ErrorKind::Interrupted => {}
                came => break came,
            }
        };
        bytes.truncate(length + came.as_ref().map_or(0, |count| *count));
        match came {
            Err(_) => Some(End::Failed),
            Ok(0) if length == at => Some(End::Whole),
            Ok(0) => Some(End::Refused(self.place)),
            Ok(_) => None,
        }
    }
}

/// The moment, the length and the end of a header at the beginning of these bytes, as far as they
/// are told; nothing if no header goes on so.
fn header(bytes: &[u8]) -> Option<(Option<u64>, Option<u64>, usize)> {
    let Some((b'@', rest)) = bytes.split_first() else {
        return bytes.is_empty().then_some((None, None, 0));
    };
    let (moment, rest) = word(rest, b' ', LAST_MOMENT)?;
    let Some(rest) = rest else { return Some((None, None, 0)) };
    let (length, rest) = word(rest, b'\n', LONGEST_MESSAGE)?;
    let end = rest.map_or(0, |rest| bytes.len() - rest.len());
    Some((moment, length.filter(|_| end > 0), end))
}

/// A number before a byte that ends it, and what comes after that; without both if the bytes end
/// before it. Nothing if no number goes on so.
fn word(bytes: &[u8], end: u8, most: u64) -> Option<(Option<u64>, Option<&[u8]>)> {
    let window = &bytes[..bytes.len().min(LONGEST_HEADER)];
    match window.iter().position(|byte| *byte == end) {
        Some(at) => Some((Some(number(&bytes[..at], most)?), Some(&bytes[at + 1..]))),
        None if window.is_empty() => Some((None, None)),
        None => number(window, most).map(|_| (None, None)),
    }
}

/// The entry at the beginning of these bytes.
fn entry(bytes: &[u8]) -> Entry {
    match header(bytes) {
        Some((Some(moment), Some(length), start)) => {
            let end = start + length as usize;
            if bytes.len() < end {
                Entry::Partly
            } else {
                Entry::Whole { moment, message: start..end }
            }
        }
        Some(_) => Entry::Partly,
        None => Entry::None,
    }
}

#[cfg(test)]
mod tests {
    use super::*;

    /// A source that gives a byte at a time, and then fails if it is to.
    struct Slow<'a>(&'a [u8], bool);

    impl Read for Slow<'_> {
        fn read(&mut self, room: &mut [u8]) -> std::io::Result<usize> {
            match self.0.split_first() {
                Some((byte, rest)) => {
                    room[0] = *byte;
                    self.0 = rest;
                    Ok(1)
                }
                None if self.1 => Err(std::io::Error::from(ErrorKind::Other)),
                None => Ok(0),
            }
        }
    }

    type Call = (u64, u64, Vec<u8>);

    /// The calls of a log and how it ends.
    fn read(source: impl Read) -> (Vec<Call>, Option<End>) {
        let (mut log, mut calls) = (Log::after(source, 0, 0), Vec::new());
        while let Some(piece) = log.piece() {
            calls.extend(piece.calls().map(|(number, moment, it)| (number, moment, it.to_vec())));
        }
        (calls, log.end())
    }

    #[test]
    fn a_log_has_its_calls_and_one_place_where_it_stops() {
        for (log, calls, end) in [
            ("", 0, End::Whole),
            ("@1 0\n", 1, End::Whole),
            ("@1 3\nabc@1 0\n@2 1\n\n", 3, End::Whole),
            ("@2 0\n@1 0\n", 1, End::Refused(5)),
            ("@2 0\n@1 ", 1, End::Refused(5)),
            ("@01 0\n", 0, End::Refused(0)),
            ("@1  0\n", 0, End::Refused(0)),
            ("@1 0", 0, End::Refused(0)),
            ("@1 3\nab", 0, End::Refused(0)),
            ("@1 0\n@1 3\nab", 1, End::Refused(5)),
            ("@1 0\r\n", 0, End::Refused(0)),
            ("@253402300799 0\n", 1, End::Whole),
            ("@253402300800 0\n", 0, End::Refused(0)),
            ("@1 131073\n", 0, End::Refused(0)),
            ("x", 0, End::Refused(0)),
            ("@1 0\nx", 1, End::Refused(5)),
            ("@", 0, End::Refused(0)),
        ] {
            for found in [read(log.as_bytes()), read(Slow(log.as_bytes(), false))] {
                assert_eq!((found.0.len(), found.1), (calls, Some(end)), "{log:?}");
            }
        }
    }

    #[test]
    fn a_bad_header_is_known_before_the_source_fails() {
        for (log, end) in [
            ("@1 0\n", End::Failed),
            ("@1 3\na", End::Failed),
            ("@1", End::Failed),
            ("@01", End::Refused(0)),
            ("@1  ", End::Refused(0)),
            ("@1 0\nx", End::Refused(5)),
            ("@9 0\n@8 ", End::Refused(5)),
        ] {
            assert_eq!(read(Slow(log.as_bytes(), true)).1, Some(end), "{log:?}");
        }
    }

    #[test]
    fn a_long_log_comes_in_pieces_with_numbers_that_go_on() {
        let entry = format!("@7 2000\n{}", "x".repeat(2_000));
        let log = entry.repeat(3 * MOST_CALLS);
        let mut log = Log::after(log.as_bytes(), 5, 7);
        let mut next = 6;
        while let Some(piece) = log.piece() {
            assert!(piece.calls().count() <= MOST_CALLS);
            for (number, moment, message) in piece.calls() {
                assert_eq!((number, moment, message.len()), (next, 7, 2_000));
                next += 1;
            }
        }
        assert_eq!((next, log.end()), (6 + 3 * MOST_CALLS as u64, Some(End::Whole)));
    }
}
