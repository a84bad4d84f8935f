//! Outputs: the standard output, or a file that gets its name once it is whole.

use crate::Fault;
use std::fs::{self, File, OpenOptions};
use std::io::{self, stdout, BufWriter, Stdout, Write};
use std::path::{Path, PathBuf};

/// The word for the standard output.
pub(crate) const STDOUT: &str = "-";

const BUFFER: usize = 256 << 10;

/// Where something is written.
#[derive(Debug)]
pub(crate) struct Sink {
    name: String,
    to: To,
}

#[derive(Debug)]
enum To {
    Stdout(BufWriter<Stdout>),
    Beside { file: Option<BufWriter<File>>, beside: PathBuf, at: PathBuf },
}

impl Sink {
    /// The output of this name, `-` being the standard output.
    pub fn open(name: &str) -> Result<Sink, Fault> {
        let to = if name == STDOUT {
            To::Stdout(BufWriter::with_capacity(BUFFER, stdout()))
        } else {
            let at = PathBuf::from(name);
            let file = at.file_name().map(|it| it.to_string_lossy().into_owned());
            let file = file.ok_or_else(|| Fault::Words(format!("{name}: no name of a file")))?;
            let beside = at.with_file_name(format!(".{file}.{}.new", std::process::id()));
            let opened = OpenOptions::new().write(true).create_new(true).open(&beside);
            let opened = opened.map_err(|error| Fault::write(name, &error))?;
            let file = Some(BufWriter::with_capacity(BUFFER, opened));
            To::Beside { file, beside, at }
        };
        Ok(Sink { name: name.into(), to })
    }

    /// Whether what is written is seen before all of it is.
    pub fn is_stdout(&self) -> bool {
        matches!(self.to, To::Stdout(_))
    }

    /// Writes by this, and says whose fault it is if that fails.
    pub fn put(
        &mut self,
        write: impl FnOnce(&mut dyn Write) -> io::Result<()>,
    ) -> Result<(), Fault> {
        let done = match &mut self.to {
            To::Stdout(out) => write(out),
            To::Beside { file: Some(file), .. } => write(file),
            To::Beside { file: None, .. } => Ok(()),
        };
        done.map_err(|error| Fault::write(&self.name, &error))
    }

    /// Ends it: all is written, and a file is brought to the disk and gets its name.
    pub fn commit(mut self) -> Result<(), Fault> {
        let done = match &mut self.to {
            To::Stdout(out) => out.flush(),
            To::Beside { file, beside, at } => file.take().map_or(Ok(()), |file| {
                let file = file.into_inner().map_err(|error| error.into_error())?;
                file.sync_all()?;
                fs::rename(&*beside, &*at)?;
                sync_folder(at)
            }),
        };
        done.map_err(|error| Fault::write(&self.name, &error))
    }
}

/// Brings the name of a file to the disk.
fn sync_folder(path: &Path) -> io::Result<()> {
    let folder = path.parent().filter(|folder| !folder.as_os_str().is_empty());
    File::open(folder.unwrap_or(Path::new(".")))?.sync_all()
}

impl Drop for Sink {
    /// What didn't become whole goes.
    fn drop(&mut self) {
        if let To::Beside { beside, .. } = &self.to {
            // It isn't there any more if it got its name.
            let _ = fs::remove_file(beside);
        }
    }
}

/// Text that is written into a `&mut dyn Write` piece by piece.
impl Write for Sink {
    fn write(&mut self, bytes: &[u8]) -> io::Result<usize> {
        match &mut self.to {
            To::Stdout(out) => out.write(bytes),
            To::Beside { file: Some(file), .. } => file.write(bytes),
            To::Beside { file: None, .. } => Ok(bytes.len()),
        }
    }

    fn flush(&mut self) -> io::Result<()> {
        match &mut self.to {
            To::Stdout(out) => out.flush(),
            To::Beside { file: Some(file), .. } => file.flush(),
            To::Beside { file: None, .. } => Ok(()),
        }
    }
}
