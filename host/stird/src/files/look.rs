//! What the file system says of a file, by which a change is noticed without reading it.
use super::place::place;
use std::fs::{FileType, Metadata};
use std::io::ErrorKind;
use std::os::unix::fs::{FileTypeExt, MetadataExt};
use std::path::Path;
use std::time::{Duration, SystemTime, UNIX_EPOCH};
use thiserror::Error;

/// What a name leads to.
#[derive(Clone, Copy, Debug, Error, PartialEq, Eq)]
pub enum Kind {
    /// A file of bytes.
    #[error("a file")]
    File,
    /// A folder.
    #[error("a folder")]
    Folder,
    /// A FIFO. To open one may wait for ever.
    #[error("a FIFO")]
    Fifo,
    /// A socket.
    #[error("a socket")]
    Socket,
    /// A device, or what has no name here.
    #[error("a device")]
    Device,
}

/// What tells one file from another, and a file from what it was before.
#[derive(Clone, Copy, Debug, PartialEq, Eq)]
pub struct Stamp {
    /// What it is.
    pub kind: Kind,
    /// Who may read and write it: the lowest nine bits are those of chmod(1).
    pub mode: u32,
    /// How many bytes it has.
    pub size: u64,
    device: u64,
    inode: u64,
    /// When it was made, if the file system says so: numbers of inodes are used again.
    made: Option<SystemTime>,
    /// When it was written, and when anything of it was changed: seconds and nanoseconds.
    written: (i64, i64),
    changed: (i64, i64),
}

/// What a look at a name shows.
#[derive(Clone, Copy, Debug, PartialEq, Eq)]
pub enum Look {
    /// It leads to this.
    There(Stamp),
    /// It leads to nothing.
    Missing,
    /// It can't be looked at, by the system's number for the reason.
    Hidden(i32),
}

impl Look {
    /// Looks at a file. It isn't opened.
    ///
    /// ```
    /// use stird::files::look::{Kind, Look};
    ///
    /// let look = Look::at("/".as_ref());
    /// assert!(matches!(look, Look::There(stamp) if stamp.kind == Kind::Folder));
    /// assert_eq!(Look::at("/no/such/file".as_ref()), Look::Missing);
    /// ```
    pub fn at(path: &Path) -> Look {
        match std::fs::metadata(place(path)) {
            Ok(data) => Look::There(Stamp::of(&data)),
            Err(error) if error.kind() == ErrorKind::NotFound => Look::Missing,
            Err(error) => Look::Hidden(error.raw_os_error().unwrap_or(0)),
        }
    }

    /// Whether it is the same file as in an earlier look, but written again since: in its place,
    /// and not put there by a rename.
    pub(super) fn is_rewritten(&self, before: &Look) -> bool {
        match (self, before) {
            (Look::There(now), Look::There(then)) => {
                now.kind == Kind::File
                    && (now.device, now.inode, now.made) == (then.device, then.inode, then.made)
                    && now.written != then.written
            }
            _ => false,
        }
    }

    /// How long ago it was written; nothing if that lies ahead of the clock.
    pub(super) fn age(&self) -> Option<Duration> {
        match self {
            Look::There(stamp) => since(stamp.written),
            _ => None,
        }
    }
}

impl Stamp {
    /// What the file system says of a file.
    pub(super) fn of(data: &Metadata) -> Stamp {
        Stamp {
            kind: Kind::of(data.file_type()),
            mode: data.mode(),
            size: data.size(),
            device: data.dev(),
            inode: data.ino(),
            made: data.created().ok(),
            written: (data.mtime(), data.mtime_nsec()),
            changed: (data.ctime(), data.ctime_nsec()),
        }
    }

    /// Whether it was changed so lately that one more change may leave it as it is: the clock of a
    /// file system has ticks.
    pub(super) fn is_young(&self) -> bool {
        const TICKS: Duration = Duration::from_millis(50);
        since(self.changed.max(self.written)).is_some_and(|age| age < TICKS)
    }
}

impl Kind {
    fn of(kind: FileType) -> Kind {
        if kind.is_file() {
            Kind::File
        } else if kind.is_dir() {
            Kind::Folder
        } else if kind.is_fifo() {
            Kind::Fifo
        } else if kind.is_socket() {
            Kind::Socket
        } else {
            Kind::Device
        }
    }
}

/// How long ago that was, by the clock.
fn since((seconds, nanoseconds): (i64, i64)) -> Option<Duration> {
    let then = Duration::new(seconds.try_into().ok()?, nanoseconds.try_into().ok()?);
    SystemTime::now().duration_since(UNIX_EPOCH.checked_add(then)?).ok()
}
