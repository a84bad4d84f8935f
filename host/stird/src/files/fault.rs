//! Why a file isn't taken.
use super::look::Kind;
use super::signing_line::BlockFault;
use std::fmt::{self, Display, Formatter};
use std::io;
use std::path::{Path, PathBuf};
use stir_trust::chain_map::LineFault;
use stir_trust::fetch::HostsFault;
use stir_trust::revocation::SignersFault;
use stir_trust::roots::RootsFault;
use thiserror::Error;

/// A file that isn't taken, with the line at fault, counted from 1, if it is one.
///
/// ```
/// use stird::files::{FileFault, Why};
///
/// let fault = FileFault { file: Some("chains.txt".into()), line: None, why: Why::Missing };
/// assert_eq!(fault.to_string(), "chains.txt: there is no such file");
/// ```
#[derive(Clone, Debug, Error, PartialEq, Eq)]
pub struct FileFault {
    /// The file; none if it is the settings that aren't taken, or there is no memory.
    pub file: Option<PathBuf>,
    /// The line at fault.
    pub line: Option<usize>,
    /// Why.
    pub why: Why,
}

/// Why it isn't taken.
///
/// ```
/// use stird::files::{look::Kind, Why};
///
/// assert_eq!(Why::NoFile(Kind::Fifo).to_string(), "it is a FIFO, and not a file");
/// ```
#[derive(Clone, Debug, Error, PartialEq, Eq)]
pub enum Why {
    /// There is none.
    #[error("there is no such file")]
    Missing,
    /// It is something else.
    #[error("it is {0}, and not a file")]
    NoFile(Kind),
    /// The system doesn't let it be read, by its number for the reason.
    #[error("{}", io::Error::from_raw_os_error(*.0))]
    Unreadable(i32),
    /// It was changed each time that it was read.
    #[error("it is changed all the time while it is read")]
    Changing,
    /// It has more bytes than this.
    #[error("it has more than {0} bytes")]
    Long(usize),
    /// There is no memory for it.
    #[error("there is no memory for it")]
    NoMemory,
    /// A line of the chain map.
    #[error("{0}")]
    Map(#[from] LineFault),
    /// What the proved library says of trust anchors, a code table, settings or a chain.
    #[error("{0}")]
    Library(#[from] stir::Error),
    /// It has no signers of revocation lists.
    #[error("{0}")]
    Signers(#[from] SignersFault),
    /// It is no revocation list that may take its place, and why.
    #[error("{0}")]
    List(String),
    /// A line of the signing table.
    #[error("{0}")]
    Block(#[from] BlockFault),
    /// Trust anchors in PEM.
    #[error("{0}")]
    Roots(#[from] RootsFault),
    /// A line of the hosts that may be asked.
    #[error("{0}")]
    Hosts(#[from] HostsFault),
    /// The authorities of those hosts.
    #[error("the authorities are no certificates in PEM")]
    Authorities,
    /// OpenSSL failed.
    #[error("OpenSSL failed: {0}")]
    OpenSsl(String),
}

impl Display for FileFault {
    fn fmt(&self, to: &mut Formatter<'_>) -> fmt::Result {
        if let Some(file) = &self.file {
            write!(to, "{}: ", file.display())?;
        }
        if let Some(line) = self.line {
            write!(to, "line {line}: ")?;
        }
        write!(to, "{}", self.why)
    }
}

impl FileFault {
    /// A whole file that isn't taken.
    pub(super) fn of(file: &Path, why: impl Into<Why>) -> FileFault {
        FileFault { file: Some(file.into()), line: None, why: why.into() }
    }

    /// A line of a file, counted from 1.
    pub(super) fn of_line(file: &Path, line: usize, why: impl Into<Why>) -> FileFault {
        FileFault { line: Some(line), ..FileFault::of(file, why) }
    }
}
