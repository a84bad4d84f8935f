//! Where the lines of the record end: a file, to which they are put at its end, or the standard
//! output.
use super::{RecordFault, To};
use std::fs::{File, OpenOptions};
use std::io::{self, Write};
use std::os::fd::AsFd;
use std::path::{Path, PathBuf};

/// A file or the standard output.
pub(super) struct Sink {
    /// Its name, if it is a file.
    path: Option<PathBuf>,
    file: File,
    /// Whether the last line has no end, since it couldn't be written whole.
    is_torn: bool,
    /// Whether the last lines couldn't be written.
    is_failing: bool,
}

/// What became of lines.
#[derive(Debug, PartialEq, Eq)]
pub(super) struct Written {
    /// How many are there whole.
    pub whole: u64,
    /// How many aren't.
    pub lost: u64,
}

impl Sink {
    /// Opens it.
    pub fn open(to: &To) -> Result<Sink, RecordFault> {
        let (name, path, file) = match to {
            To::Output => {
                let output = io::stdout().as_fd().try_clone_to_owned();
                ("the standard output".into(), None, output.map(File::from))
            }
            To::File(path) => (path.display().to_string(), Some(path.clone()), opened(path)),
        };
        let file = file.map_err(|error| RecordFault::Unopened { to: name, error })?;
        Ok(Sink { path, file, is_torn: false, is_failing: false })
    }

    /// Opens the file of this name anew. If that fails it goes on with the one before.
    pub fn reopen(&mut self) {
        let Some(path) = &self.path else { return };
        match opened(path) {
            Ok(file) => (self.file, self.is_torn) = (file, false),
            Err(error) => tracing::warn!("{}: the record can't be opened: {error}", path.display()),
        }
    }

    /// Writes so many lines. If there is no room for all, those that are there are whole.
    pub fn write(&mut self, lines: &[u8], count: u64) -> Written {
        if lines.is_empty() {
            return Written { whole: 0, lost: 0 };
        }
        let came = self.end_torn().map(|()| self.put(lines));
        let (size, fault) = came.unwrap_or_else(|fault| (0, Some(fault)));
        let is_failing = fault.is_some();
        self.tell(fault);
        if !is_failing {
            return Written { whole: count, lost: 0 };
        }
        let there = lines.get(..size).unwrap_or_default();
        let ends = there.iter().rposition(|byte| *byte == b'\n').map_or(0, |at| at + 1);
        self.cut(size - ends);
        let whole = there.iter().filter(|byte| **byte == b'\n').count() as u64;
        Written { whole, lost: count.saturating_sub(whole) }
    }

    /// Ends a line that isn't whole, so that the next one begins by itself.
    fn end_torn(&mut self) -> io::Result<()> {
        if self.is_torn {
            self.file.write_all(b"\n")?;
            self.is_torn = false;
        }
        Ok(())
    }

    /// Writes bytes: how many are there, and why not all.
    fn put(&mut self, bytes: &[u8]) -> (usize, Option<io::Error>) {
        let mut size = 0;
        while let Some(left) = bytes.get(size..).filter(|left| !left.is_empty()) {
            match self.file.write(left) {
                Ok(0) => return (size, Some(io::ErrorKind::WriteZero.into())),
                Ok(more) => size += more,
                Err(error) if error.kind() == io::ErrorKind::Interrupted => {}
                Err(error) => return (size, Some(error)),
            }
        }
        (size, None)
    }

    /// Takes the last bytes away again, which are the beginning of a line.
    fn cut(&mut self, size: usize) {
        if size == 0 {
            return;
        }
        let cut = self.file.metadata().and_then(|file| {
            let is_cut = file.is_file() && file.len() >= size as u64;
            let size = file.len().saturating_sub(size as u64);
            if is_cut {
                self.file.set_len(size)
            } else {
                Err(io::ErrorKind::Unsupported.into())
            }
        });
        self.is_torn = cut.is_err();
    }

    /// Tells once that lines are lost, and once that they aren't any more.
    fn tell(&mut self, fault: Option<io::Error>) {
        let was_failing = std::mem::replace(&mut self.is_failing, fault.is_some());
        match fault {
            Some(error) if !was_failing => {
                tracing::warn!("the record can't be written, so lines of it are lost: {error}");
            }
            None if was_failing => tracing::info!("the record is written again"),
            _ => {}
        }
    }
}

fn opened(path: &Path) -> io::Result<File> {
    OpenOptions::new().append(true).create(true).open(path)
}
