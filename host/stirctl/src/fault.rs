//! Why a run ends early: the lines and statuses of docs/COMMANDS.md, "Faults".

use thiserror::Error;

/// Why a run ends early. Its text is the line that the program `stir` writes of it.
///
/// ```
/// use stirctl::Fault;
///
/// let fault = Fault::Refused("table.txt".into(), 3);
/// assert_eq!((fault.to_string().as_str(), fault.status()), ("refused table.txt 3", 5));
/// ```
#[derive(Clone, Debug, Error, PartialEq, Eq)]
pub enum Fault {
    /// Words that don't go together, or inputs that can't be judged by them.
    #[error("{0}")]
    Words(String),
    /// A file or the standard input can't be read.
    #[error("read fault {0}")]
    Read(String),
    /// An output can't be written, and why.
    #[error("{0}: {1}")]
    Write(String, String),
    /// A named file isn't there.
    #[error("missing {0}")]
    Missing(String),
    /// A named file has more bytes than are taken.
    #[error("long {0}")]
    Long(String),
    /// It is outside its grammar from this line or this byte on.
    #[error("refused {0} {1}")]
    Refused(String, u64),
    /// The certificate of a key's holder has no authority list.
    #[error("no list {0}")]
    NoList(String),
    /// A capture, or what was made of certificates, isn't what it has to be; and why.
    #[error("{0}: {1}")]
    Input(String, String),
    /// The report of the program by which a run is checked is another one.
    #[error("{0}")]
    Differs(String),
    /// Memory ran out.
    #[error("want of memory")]
    Memory,
}

impl Fault {
    /// The status with which the program ends.
    ///
    /// ```
    /// assert_eq!(stirctl::Fault::Memory.status(), 6);
    /// ```
    pub fn status(&self) -> u8 {
        match self {
            Fault::Words(_) => 2,
            Fault::Read(_) => 3,
            Fault::Write(..) => 4,
            Fault::Missing(_) | Fault::Long(_) | Fault::Refused(..) => 5,
            Fault::NoList(_) | Fault::Input(..) => 5,
            Fault::Memory => 6,
            Fault::Differs(_) => 7,
        }
    }

    /// Whether the program `stir` has its line too, at the end of a report.
    pub(crate) fn is_of_a_report(&self) -> bool {
        match self {
            Fault::Read(_) | Fault::Missing(_) | Fault::Long(_) | Fault::Refused(..) => true,
            Fault::NoList(_) | Fault::Memory => true,
            Fault::Words(_) | Fault::Write(..) | Fault::Input(..) | Fault::Differs(_) => false,
        }
    }

    /// The fault of an output.
    pub(crate) fn write(name: &str, error: &std::io::Error) -> Fault {
        Fault::Write(name.into(), error.to_string())
    }
}

/// What the library can't do for a call or a chain: whatever its input is, that is want of memory,
/// or a library that isn't the one of these declarations.
impl From<stir::Error> for Fault {
    fn from(error: stir::Error) -> Fault {
        match error {
            stir::Error::OutOfMemory => Fault::Memory,
            other => Fault::Words(format!("the proved library: {other}")),
        }
    }
}
