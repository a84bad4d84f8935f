//! What calls are judged by and signed for, and whom certificates may be fetched from, read from
//! files and read again if one changes.
//!
//! Each file is taken by itself. One that is refused or can't be read stays what it was before, and
//! is named once; all others are taken. At the start the files that stand alone have to be
//! taken, and a chain that can't be read counts as one that is missing. A change is noticed by a
//! file's size, times, inode and device; a file that is changed while it is read is read again, and
//! one that is written in its place is waited for until it rests. Nothing but a file of bytes is
//! opened, so no FIFO, folder or device is waited for.
//!
//! All of this blocks, and is called on a thread that may block. What it gives doesn't change, so
//! that a reader has all of a world or all of the one before.

mod bytes;
pub mod diverting;
mod fault;
mod ground;
mod hosts;
mod listed;
mod lists;
pub mod look;
pub mod number_map;
pub mod numbers;
mod place;
mod reading;
mod several;
mod signer;
pub mod signing;
mod signing_block;
mod signing_key;
pub mod signing_line;
mod single;
mod world;

pub use fault::{FileFault, Why};
pub use ground::{Ground, Proof};
pub use hosts::{HostFiles, MayAsk};
pub use listed::Listed;
pub use lists::{Ended, ListFiles, Revocation};
pub use reading::read;
pub use signer::Signer;
pub use world::World;

use std::path::{Path, PathBuf};

/// Which files are read, and the settings under which calls are judged. Names in the chain map are
/// as they stand there: relative ones from the folder in which the service runs, as of `stir
/// verify`.
///
/// ```
/// use stird::files::{Anchors, Codes, Sources};
///
/// let sources = Sources {
///     rules: stir::Settings::default(),
///     chains: Some("chains.txt".into()),
///     anchors: Anchors::Der("anchors.der".into()),
///     table: Some("table.txt".into()),
///     codes: Codes::Listed,
///     signing: None,
/// };
/// ```
#[derive(Clone, Debug, PartialEq, Eq)]
pub struct Sources {
    /// How calls are judged.
    pub rules: stir::Settings,
    /// The chain map; none has no lines.
    pub chains: Option<PathBuf>,
    /// The trust anchors.
    pub anchors: Anchors,
    /// The code table; none has no lines.
    pub table: Option<PathBuf>,
    /// Which codes stand for numbers.
    pub codes: Codes,
    /// The signing table, if there is one.
    pub signing: Option<PathBuf>,
}

/// The file of the trust anchors.
#[derive(Clone, Debug, PartialEq, Eq)]
pub enum Anchors {
    /// In DER, one after another. If one is none, the file is refused.
    Der(PathBuf),
    /// In PEM. What is no trust anchor of the profile is named and left out.
    Pem(PathBuf),
}

impl Anchors {
    /// Its name.
    pub fn path(&self) -> &Path {
        match self {
            Anchors::Der(path) | Anchors::Pem(path) => path,
        }
    }
}

/// Which service provider codes stand for numbers.
#[derive(Clone, Copy, Debug, PartialEq, Eq)]
pub enum Codes {
    /// Those that the code table names, for what it says.
    Listed,
    /// These, and each other code of a chain that breaks no rule on chains, for every number.
    Trusted,
}

/// The bytes of a file that is taken by itself, at most so many.
///
/// # Errors
///
/// It isn't a file, can't be read, or has more.
///
/// ```
/// use stird::files::{whole, Why};
///
/// let fault = whole("/dev/null".as_ref(), 10).expect_err("it is a device");
/// assert!(matches!(fault.why, Why::NoFile(_)), "{fault}");
/// ```
pub fn whole(path: &Path, most: usize) -> Result<Vec<u8>, FileFault> {
    let bytes = bytes::read(path, most).bytes.and_then(|bytes| bytes::is_within(bytes, most));
    bytes.map_err(|why| FileFault::of(path, why))
}
