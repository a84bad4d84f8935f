//! What calls come from: call logs, and captures, which become call logs first; each as it is or
//! packed by gzip.

use crate::capture::{is_capture, Captures, How};
use crate::files::{self, Unread};
use crate::say;
use crate::Fault;
use flate2::read::MultiGzDecoder;
use indicatif::{ProgressBar, ProgressStyle};
use std::fs::File;
use std::io::{stdin, Cursor, ErrorKind, Read};
use std::path::Path;

/// The word for the standard input, and the name that it has in a fault.
const STDIN: &str = "-";
const INPUT: &str = "input";

/// The first bytes of what gzip packed.
const PACKED: &[u8] = b"\x1f\x8b";

/// How many bytes tell what an input is.
const SIGN: u64 = 4;

/// What the input of this word is called in a line about it.
pub(crate) fn name_of(word: &str) -> &str {
    if word == STDIN {
        INPUT
    } else {
        word
    }
}

pub(crate) type Source = Box<dyn Read + Send>;

/// An input that was opened.
pub(crate) struct Input {
    /// Its name in a fault.
    pub name: String,
    /// Its bytes, unpacked.
    pub source: Source,
    /// How far its reading is.
    pub bar: ProgressBar,
    /// Whether it is a capture, and not a log.
    pub is_capture: bool,
}

impl Input {
    /// Opens the input of this word.
    pub fn open(word: &str) -> Result<Input, Fault> {
        let (name, source, size): (String, Source, u64) = if word == STDIN {
            (INPUT.into(), Box::new(stdin()), 0)
        } else {
            let file = opened(word)?;
            let size = file.metadata().map_or(0, |about| about.len());
            (word.into(), Box::new(file), size)
        };
        let bar = bar(size);
        let (sign, source) = peeked(Box::new(bar.wrap_read(source)));
        let (sign, source) = if sign.starts_with(PACKED) {
            peeked(Box::new(MultiGzDecoder::new(source)))
        } else {
            (sign, source)
        };
        Ok(Input { name, source, bar, is_capture: is_capture(&sign) })
    }
}

/// Calls the function on the log of each of these inputs, with the name that it has in a fault.
/// Captures that stand one after another become one log, in the order of time.
pub(crate) fn each_log(
    words: &[String],
    how: How,
    mut call: impl FnMut(String, Source) -> Result<(), Fault>,
) -> Result<(), Fault> {
    let mut captures = Captures::new(how)?;
    for word in words {
        let Input { name, source, bar, is_capture } = Input::open(word)?;
        if is_capture {
            captures.add(&name, source)?;
        } else {
            let before = std::mem::replace(&mut captures, Captures::new(how)?);
            of_captures(before, how, &mut call)?;
            call(name, source)?;
        }
        bar.finish_and_clear();
    }
    of_captures(captures, how, &mut call)
}

fn of_captures(
    captures: Captures,
    how: How,
    call: &mut impl FnMut(String, Source) -> Result<(), Fault>,
) -> Result<(), Fault> {
    if captures.is_empty() {
        return Ok(());
    }
    let (log, name, said) = captures.log()?;
    if !how.is_quiet {
        say(&said);
    }
    let bar = bar(log.metadata().map_or(0, |about| about.len()));
    let called = call(name, Box::new(bar.wrap_read(log)));
    bar.finish_and_clear();
    called
}

/// All bytes of the input of this word, unpacked, if they are no more than so many.
pub(crate) fn whole(word: &str, most: u64) -> Result<Vec<u8>, Fault> {
    let Input { name, source, bar, .. } = Input::open(word)?;
    let mut bytes = Vec::new();
    let read = source.take(most + 1).read_to_end(&mut bytes);
    bar.finish_and_clear();
    match read {
        Err(_) => Err(Fault::Read(name)),
        Ok(_) if bytes.len() as u64 > most => Err(Fault::Long(name)),
        Ok(_) => Ok(bytes),
    }
}

fn opened(name: &str) -> Result<File, Fault> {
    files::open(Path::new(name)).map_err(|unread| match unread {
        Unread::Missing => Fault::Missing(name.into()),
        Unread::Failed => Fault::Read(name.into()),
    })
}

/// A bar on a terminal; elsewhere nothing is drawn.
pub(crate) fn bar(size: u64) -> ProgressBar {
    let bar = if size > 0 { ProgressBar::new(size) } else { ProgressBar::new_spinner() };
    let style = if size > 0 {
        ProgressStyle::with_template("[{bar:30}] {percent}%, {eta} left")
    } else {
        ProgressStyle::with_template("{spinner} {bytes}")
    };
    match style {
        Ok(style) => bar.with_style(style),
        Err(_) => ProgressBar::hidden(),
    }
}

/// The first bytes of a source, and the source with them.
fn peeked(mut source: Source) -> (Vec<u8>, Source) {
    let mut sign = Vec::new();
    // If it fails it does so again for whoever reads on.
    while let Err(error) = source.by_ref().take(SIGN).read_to_end(&mut sign) {
        if error.kind() != ErrorKind::Interrupted {
            break;
        }
    }
    (sign.clone(), Box::new(Cursor::new(sign).chain(source)))
}
