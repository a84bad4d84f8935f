//! The lines of a stream: read while others are judged, with a bound on how many wait.

use crate::input::{Input, Source};
use crate::Fault;
use std::io::{self, BufRead, BufReader, Read};
use std::sync::mpsc::{sync_channel, Receiver, SyncSender};
use std::thread;

/// The most bytes of a line.
pub(crate) const LONGEST: usize = 1 << 20;

/// So many lines wait at most, and so many are handed on at once.
const WAITING: usize = 1_024;
const AT_ONCE: usize = 256;

/// How many bytes are read at once.
const READ: usize = 256 << 10;

/// A line without its LF.
#[derive(Debug, PartialEq, Eq)]
pub(crate) enum Line {
    Whole(Vec<u8>),
    /// The first [`LONGEST`] bytes of one that has more.
    Long(Vec<u8>),
}

/// Hands on the lines of the inputs in their order, as soon as they are there: all that wait, up to
/// 256 at once.
pub(crate) fn each_lines(
    words: &[String],
    mut call: impl FnMut(&[Line]) -> Result<(), Fault>,
) -> Result<(), Fault> {
    for word in words {
        let Input { name, source, bar, .. } = Input::open(word)?;
        let (give, take) = sync_channel(WAITING);
        // If nobody takes its lines any more it may wait for the next one still, and isn't waited
        // for.
        let reader = thread::spawn(move || read(source, &give));
        while let Some(lines) = waiting(&take) {
            call(&lines)?;
        }
        // A thread that ended by a panic has read no further.
        if !matches!(reader.join(), Ok(Ok(()))) {
            return Err(Fault::Read(name));
        }
        bar.finish_and_clear();
    }
    Ok(())
}

/// The lines that wait; the next one is waited for if there is none.
fn waiting(take: &Receiver<Line>) -> Option<Vec<Line>> {
    let first = take.recv().ok()?;
    Some(std::iter::once(first).chain(take.try_iter().take(AT_ONCE - 1)).collect())
}

/// Reads lines until the source ends, or nobody takes them any more.
fn read(source: Source, give: &SyncSender<Line>) -> io::Result<()> {
    let mut source = BufReader::with_capacity(READ, source);
    while let Some(line) = line_of(&mut source)? {
        if give.send(line).is_err() {
            break;
        }
    }
    Ok(())
}

/// The next line; the last one may lack its LF.
fn line_of(source: &mut impl BufRead) -> io::Result<Option<Line>> {
    let mut line = Vec::new();
    source.by_ref().take(LONGEST as u64 + 1).read_until(b'\n', &mut line)?;
    if line.last() == Some(&b'\n') {
        line.pop();
        return Ok(Some(Line::Whole(line)));
    }
    if line.len() <= LONGEST {
        return Ok(Some(Line::Whole(line)).filter(|line| *line != Line::Whole(Vec::new())));
    }
    line.truncate(LONGEST);
    pass_over(source)?;
    Ok(Some(Line::Long(line)))
}

/// Reads up to the end of the line.
fn pass_over(source: &mut impl BufRead) -> io::Result<()> {
    loop {
        let bytes = source.fill_buf()?;
        let end = bytes.iter().position(|byte| *byte == b'\n');
        let (is_last, count) = (bytes.is_empty(), end.map_or(bytes.len(), |end| end + 1));
        source.consume(count);
        if is_last || end.is_some() {
            return Ok(());
        }
    }
}

#[cfg(test)]
mod tests {
    use super::*;

    fn lines(text: &[u8]) -> Vec<Line> {
        let mut source = BufReader::with_capacity(7, text);
        std::iter::from_fn(|| line_of(&mut source).unwrap()).collect()
    }

    #[test]
    fn lines_are_read_whole_and_long_ones_are_cut() {
        let whole = |text: &str| Line::Whole(text.into());
        assert_eq!(lines(b""), []);
        assert_eq!(lines(b"a\n\nb"), [whole("a"), whole(""), whole("b")]);
        let most = "x".repeat(LONGEST);
        assert_eq!(lines(format!("{most}\na\n").as_bytes()), [whole(&most), whole("a")]);
        assert_eq!(lines(most.as_bytes()), [whole(&most)]);
        let long = Line::Long(most.clone().into_bytes());
        assert_eq!(lines(format!("{most}yz\na\n").as_bytes()), [long, whole("a")]);
        assert_eq!(lines(format!("{most}yz").as_bytes()).len(), 1);
    }
}
