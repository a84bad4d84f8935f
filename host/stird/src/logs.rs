//! What is told: lines of text or JSON, on standard error or in a file, by a thread of its own. A
//! reader that is gone, is slow, or has no room holds nothing up: lines are lost then, and counted.
use crate::settings::Form;
use std::fs::{File, OpenOptions};
use std::io::{self, Write};
use std::path::{Path, PathBuf};
use std::sync::atomic::{AtomicU64, Ordering::Relaxed};
use std::sync::mpsc::{sync_channel, Receiver, SyncSender};
use std::time::Duration;
use tracing::Event;
use tracing_subscriber::fmt::format::{FormatEvent, FormatFields, Writer};
use tracing_subscriber::fmt::{FmtContext, MakeWriter};
use tracing_subscriber::registry::LookupSpan;

/// How many lines wait at most.
const MOST_WAITING: usize = 1024;

/// How long the last lines may take to be written.
const LAST: Duration = Duration::from_secs(1);

static LOST: AtomicU64 = AtomicU64::new(0);

enum Note {
    Line(Vec<u8>),
    Reopen,
    End(SyncSender<()>),
}

/// Where lines go.
#[derive(Clone)]
pub struct Log {
    notes: SyncSender<Note>,
}

/// How many lines were lost.
pub fn lost() -> u64 {
    LOST.load(Relaxed)
}

impl Log {
    /// Begins to tell what happens, in this form.
    ///
    /// # Errors
    ///
    /// The file can't be opened, or no thread can be made.
    pub fn start(form: Form, path: Option<&Path>) -> io::Result<Log> {
        let file = path.map(opened).transpose()?;
        let (notes, waiting) = sync_channel(MOST_WAITING);
        let path = path.map(Path::to_path_buf);
        std::thread::Builder::new()
            .name("log".into())
            .spawn(move || write_all(&waiting, path, file))?;
        let log = Log { notes };
        let lines =
            tracing_subscriber::fmt().with_max_level(tracing::Level::INFO).with_writer(log.clone());
        // A process has one log, so the second of a test says nothing more.
        let _ = match form {
            Form::Text => {
                tracing::subscriber::set_global_default(lines.event_format(Plain).finish())
            }
            Form::Json => tracing::subscriber::set_global_default(lines.json().finish()),
        };
        Ok(log)
    }

    /// Opens the file anew, since it was moved away.
    pub fn reopen(&self) {
        let _ = self.notes.try_send(Note::Reopen);
    }

    /// Waits until what was told is written, for a second at most.
    pub fn end(&self) {
        let (done, ended) = sync_channel(1);
        if self.notes.try_send(Note::End(done)).is_ok() {
            let _ = ended.recv_timeout(LAST);
        }
    }
}

fn opened(path: &Path) -> io::Result<File> {
    OpenOptions::new().append(true).create(true).open(path)
}

fn write_all(waiting: &Receiver<Note>, path: Option<PathBuf>, mut file: Option<File>) {
    while let Ok(note) = waiting.recv() {
        match note {
            Note::Line(line) => {
                let written = match &mut file {
                    Some(file) => file.write_all(&line),
                    None => io::stderr().write_all(&line),
                };
                if written.is_err() {
                    LOST.fetch_add(1, Relaxed);
                }
            }
            Note::Reopen => {
                if let Some(new) = path.as_deref().and_then(|path| opened(path).ok()) {
                    file = Some(new);
                }
            }
            Note::End(done) => {
                let _ = done.try_send(());
            }
        }
    }
}

/// A line that is being written; at its end it is handed to the thread.
pub struct Line {
    notes: SyncSender<Note>,
    bytes: Vec<u8>,
}

impl Write for Line {
    fn write(&mut self, bytes: &[u8]) -> io::Result<usize> {
        self.bytes.extend_from_slice(bytes);
        Ok(bytes.len())
    }

    fn flush(&mut self) -> io::Result<()> {
        Ok(())
    }
}

impl Drop for Line {
    fn drop(&mut self) {
        let mut line = std::mem::take(&mut self.bytes);
        // What is told may have names from outside, and is one line all the same.
        let size = line.len().saturating_sub(1);
        for byte in line.iter_mut().take(size).filter(|byte| byte.is_ascii_control()) {
            *byte = b'?';
        }
        if self.notes.try_send(Note::Line(line)).is_err() {
            LOST.fetch_add(1, Relaxed);
        }
    }
}

impl<'a> MakeWriter<'a> for Log {
    type Writer = Line;

    fn make_writer(&'a self) -> Line {
        Line { notes: self.notes.clone(), bytes: Vec::with_capacity(128) }
    }
}

/// A line of text: the program, and what it says. Whoever keeps the lines adds the time.
struct Plain;

impl<S, N> FormatEvent<S, N> for Plain
where
    S: tracing::Subscriber + for<'a> LookupSpan<'a>,
    N: for<'a> FormatFields<'a> + 'static,
{
    fn format_event(
        &self,
        context: &FmtContext<'_, S, N>,
        mut writer: Writer<'_>,
        event: &Event<'_>,
    ) -> std::fmt::Result {
        write!(writer, "stird: ")?;
        context.field_format().format_fields(writer.by_ref(), event)?;
        writeln!(writer)
    }
}

#[cfg(test)]
mod tests {
    use super::*;

    #[test]
    fn lines_are_in_their_file_and_in_the_next_one_after_it_was_moved() {
        let folder = std::env::temp_dir().join(format!("stird-log-{}", std::process::id()));
        std::fs::create_dir_all(&folder).expect("a folder");
        let (path, old) = (folder.join("log"), folder.join("old"));
        let log = Log::start(Form::Text, Some(&path)).expect("it opens");
        let say = |text: &str| {
            log.make_writer().write_all(text.as_bytes()).expect("it is taken");
            log.end();
        };
        say("one\nline\n");
        std::fs::rename(&path, &old).expect("it is moved");
        log.reopen();
        say("two\n");
        let read = |path: &Path| std::fs::read_to_string(path).expect("it is there");
        assert_eq!((read(&old).as_str(), read(&path).as_str()), ("one?line\n", "two\n"));
        std::fs::remove_dir_all(&folder).expect("it is removed");
    }

    #[test]
    fn lines_that_nobody_takes_are_lost_and_counted() {
        let (notes, waiting) = sync_channel(1);
        let log = Log { notes };
        let before = lost();
        for _ in 0..3 {
            log.make_writer().write_all(b"line\n").expect("it is taken");
        }
        assert!(lost() >= before + 2, "{before} {}", lost());
        drop(waiting);
    }
}
