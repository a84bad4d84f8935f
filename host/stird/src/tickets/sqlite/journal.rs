//! The journal of earlier releases, which is taken over once.
//!
//! A line is `TICKET LAST NUMBER`, the ticket in hexadecimal digits, or `forgotten SECOND`: tickets
//! that were fresh up to before that second may be missing. A last line that was cut off belongs to
//! no answer.
use super::store::{log_of, Change, Content, Row, Store};
use crate::tickets::{Passed, Ticket, TicketsError};
use rustix::fs::FlockOperation;
use std::fs::{self, File};
use std::io::{self, Read};
use std::path::{Path, PathBuf};

/// With what a file of SQLite begins.
const HEAD: &[u8] = b"SQLite format 3\0";

/// How long tickets of a journal are kept at least: it doesn't say for how long a call was fresh.
const LIFE: u64 = 600;

/// If the file is a journal, puts a file of its tickets into its place. Should the machine stop
/// within this, the journal is still there.
pub fn take_over(path: &Path, now: u64) -> Result<(), TicketsError> {
    let fault = |source| TicketsError::File { path: path.into(), source };
    if !is_journal(path).map_err(fault)? {
        return Ok(());
    }
    let _lock = lock(path)?;
    // Of a link it is the file to which it leads that is taken over.
    let path = &fs::canonicalize(path).map_err(fault)?;
    let text = fs::read(path).map_err(fault)?;
    let (rows, content) =
        read(&text, now).map_err(|line| TicketsError::Journal { path: path.into(), line })?;
    let new = with(path, "-import");
    remove(&new).and_then(|()| remove(&log_of(&new))).map_err(fault)?;
    let mut store = Store::open(&new, true)?;
    store.write(&Change {
        rows: &rows,
        gone: &[],
        forgotten: Some(&content.forgotten),
        greatest: content.greatest,
    })?;
    store.close()?;
    remove(&log_of(path)).map_err(fault)?;
    fs::rename(&new, path).map_err(fault)?;
    let folder = path.parent().unwrap_or(Path::new("/"));
    File::open(folder).and_then(|folder| folder.sync_all()).map_err(fault)
}

/// Whether there is a file with something in it that isn't of SQLite.
fn is_journal(path: &Path) -> io::Result<bool> {
    let mut head = Vec::new();
    match File::open(path) {
        Ok(file) => file.take(HEAD.len() as u64).read_to_end(&mut head)?,
        Err(error) if error.kind() == io::ErrorKind::NotFound => return Ok(false),
        Err(error) => return Err(error),
    };
    Ok(!head.is_empty() && head != HEAD)
}

/// The lock of a service of an earlier release, if there was one: it must have ended.
fn lock(path: &Path) -> Result<Option<File>, TicketsError> {
    let Ok(lock) = File::open(path.with_extension("lock")) else { return Ok(None) };
    match rustix::fs::flock(&lock, FlockOperation::NonBlockingLockExclusive) {
        Ok(()) => Ok(Some(lock)),
        Err(_) => Err(TicketsError::Taken { path: path.into() }),
    }
}

fn remove(path: &Path) -> io::Result<()> {
    match fs::remove_file(path) {
        Err(error) if error.kind() != io::ErrorKind::NotFound => Err(error),
        _ => Ok(()),
    }
}

fn with(path: &Path, end: &str) -> PathBuf {
    let mut name = path.as_os_str().to_owned();
    name.push(end);
    name.into()
}

/// What the whole lines say, or the number of the first that is none.
fn read(text: &[u8], now: u64) -> Result<(Vec<Row>, Content), usize> {
    let (mut rows, mut content) = (Vec::new(), Content::default());
    let mut lines: Vec<&[u8]> = text.split(|byte| *byte == b'\n').collect();
    // What comes after the last end of a line was cut off.
    lines.pop();
    for (index, line) in lines.into_iter().enumerate() {
        match entry(line).ok_or(index + 1)? {
            Entry::Nothing => {}
            Entry::Ticket(ticket, passed) => {
                let turn = rows.len() as u64;
                rows.push(Row { ticket, passed, life: LIFE, turn });
                content.greatest = content.greatest.max(passed.number);
            }
            // One ahead of the clock was written while the clock was fast.
            Entry::Forgotten(second) => {
                if let Some(last) = second.min(now).checked_sub(1) {
                    content.forgotten.add_all(0, last);
                }
            }
        }
    }
    Ok((rows, content))
}

enum Entry {
    Nothing,
    Ticket(Ticket, Passed),
    Forgotten(u64),
}

fn entry(line: &[u8]) -> Option<Entry> {
    let line = std::str::from_utf8(line).ok()?;
    let words: Vec<&str> = line.split(' ').collect();
    match words[..] {
        [""] => Some(Entry::Nothing),
        ["forgotten", second] => Some(Entry::Forgotten(second.parse().ok()?)),
        [digits, last, number] => {
            let passed = Passed { last: last.parse().ok()?, number: number.parse().ok()? };
            Some(Entry::Ticket(ticket(digits)?, passed))
        }
        _ => None,
    }
}

fn ticket(digits: &str) -> Option<Ticket> {
    let mut ticket = [0; 32];
    let pairs = digits.as_bytes().chunks(2);
    if digits.len() != 64 || !digits.bytes().all(|digit| digit.is_ascii_hexdigit()) {
        return None;
    }
    for (byte, pair) in ticket.iter_mut().zip(pairs) {
        *byte = u8::from_str_radix(std::str::from_utf8(pair).ok()?, 16).ok()?;
    }
    Some(ticket)
}

#[cfg(test)]
mod tests {
    use super::*;

    #[test]
    fn the_lines_of_a_journal_are_read_up_to_one_that_was_cut_off() {
        let first = "00ff".repeat(16);
        let text = format!("forgotten 90\n{first} 500 7\n\n{first} 400 3\n0303");
        let (rows, content) = read(text.as_bytes(), 1000).unwrap();
        let ticket = [0, 255].repeat(16);
        let rows: Vec<_> = rows.iter().map(|row| (row.ticket.to_vec(), row.passed.last)).collect();
        assert_eq!(rows, [(ticket.clone(), 500), (ticket, 400)]);
        assert_eq!(content.greatest, 7);
        assert_eq!(content.forgotten.iter().collect::<Vec<_>>(), [(0, 89)]);
    }

    #[test]
    fn what_was_forgotten_ahead_of_the_clock_is_not_taken_over() {
        let (_, content) = read(b"forgotten 5000\n", 1000).unwrap();
        assert_eq!(content.forgotten.iter().collect::<Vec<_>>(), [(0, 999)]);
        assert_eq!(read(b"forgotten 0\n", 1000).unwrap().1.forgotten.iter().count(), 0);
    }

    #[test]
    fn a_line_that_is_none_is_named() {
        let long = "0".repeat(64);
        for text in [
            "forgotten 1\nx\n".into(),
            "\n00 1 2\n".into(),
            "\nforgotten x\n".into(),
            format!("\n{long} 1\n"),
            format!("\n{long} 1 -2\n"),
            format!("\n{} 1 2\n", "+1".repeat(32)),
            format!("\n{}00 1 2\n", "\u{e9}".repeat(31)),
            "\n\0\0\n".into(),
        ] {
            assert_eq!(read(text.as_bytes(), 9).err(), Some(2), "{text:?}");
        }
        assert_eq!(read(b"\xff\n", 9).err(), Some(1));
    }
}
