//! Why tickets can't be kept where they were to be.
use super::AddressFault;
use std::io;
use std::path::PathBuf;

/// Why tickets can't be kept where they were to be.
#[derive(Debug, thiserror::Error)]
#[non_exhaustive]
pub enum TicketsError {
    /// Another service has the file, or another program reads it.
    #[error("{}: another service has this file of tickets", path.display())]
    Taken {
        /// The file.
        path: PathBuf,
    },
    /// The file is a journal of an earlier release, and has a line that is none.
    #[error("{}: line {line} of the journal can't be read", path.display())]
    Journal {
        /// The file.
        path: PathBuf,
        /// The line, counted from 1.
        line: usize,
    },
    /// The file is something else.
    #[error("{}: this isn't a file of tickets", path.display())]
    Foreign {
        /// The file.
        path: PathBuf,
    },
    /// Another file stands under the name of the file since it was opened, or none does.
    #[error("{}: the file of tickets was moved or deleted", path.display())]
    Moved {
        /// The file.
        path: PathBuf,
    },
    /// The file can't be read or written.
    #[error("{}: {source}", path.display())]
    File {
        /// The file.
        path: PathBuf,
        /// What the system says.
        source: io::Error,
    },
    /// SQLite can't read or write the file.
    #[error("{}: {source}", path.display())]
    Sqlite {
        /// The file.
        path: PathBuf,
        /// What SQLite says.
        source: rusqlite::Error,
    },
    /// The address of the Redis can't be taken.
    #[error("the address of the Redis: {0}")]
    Address(#[from] AddressFault),
}
