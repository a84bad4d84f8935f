//! What is kept, on a disk: a folder with a file a chain, and `fetched.json` that knows of each
//! x5u its file, when it was fetched, when it is due and when its first certificate ends.
//!
//! `stirctl fetch` may make it, and the service and it may write to it by turns.
//! Each file is written beside its place and renamed, so that nobody sees a part of it, and a
//! program that is killed spoils nothing. It is a cache: what is spoilt all the same, as by a
//! machine that lost its power, is passed over and fetched again.
use super::kept::{Entry, Times};
use crate::fetch::{chain_of, ends_of, MOST_BYTES};
use openssl::sha::sha256;
use rustix::fs::{flock, FlockOperation};
use serde::{Deserialize, Serialize};
use serde_json::ser::{PrettyFormatter, Serializer};
use std::collections::{BTreeMap, HashMap};
use std::fs::{self, File};
use std::io::{self, Read};
use std::path::{Path, PathBuf};
use thiserror::Error;

const STATE: &str = "fetched.json";
const LOCK: &str = ".lock";
/// A file that isn't written whole yet has this after its name.
const NEW: &str = ".new";

/// The most bytes of `fetched.json`.
const MOST_STATE: u64 = 64 << 20;

/// A folder of chains.
///
/// ```
/// use stir_trust::{cache::{Entry, Folder}, fetch::Fetched};
///
/// # let path = std::env::temp_dir().join(format!("stir-folder-{}", std::process::id()));
/// let folder = Folder::open(&path, 20_000)?;
/// assert!(folder.load(10_000)?.is_empty());
/// # std::fs::remove_dir_all(&path)?;
/// # Ok::<(), Box<dyn std::error::Error>>(())
/// ```
#[derive(Clone, Debug)]
pub struct Folder {
    path: PathBuf,
    most: usize,
}

/// Why a folder isn't read or written.
///
/// ```
/// use stir_trust::cache::{Folder, FolderFault};
///
/// let fault = Folder::open("/dev/null/chains".as_ref(), 9).unwrap_err();
/// assert!(matches!(fault, FolderFault::System { .. }));
/// ```
#[derive(Debug, Error)]
pub enum FolderFault {
    /// The system doesn't let this file be read or written.
    #[error("{}: {error}", .file.display())]
    System {
        /// The file or folder.
        file: PathBuf,
        /// Why.
        error: io::Error,
    },
    /// Another program writes to the folder now.
    #[error("{}: another program writes there", .0.display())]
    Busy(PathBuf),
}

/// What `fetched.json` says of an x5u.
#[derive(Clone, Debug, Deserialize, Serialize)]
struct Line {
    file: String,
    fetched: u64,
    due: u64,
    ends: u64,
}

type State = BTreeMap<String, Line>;

impl Folder {
    /// The folder of this path, which is made if it isn't there. At most so many chains stay in
    /// it, those that were fetched last.
    ///
    /// # Errors
    ///
    /// It can't be made.
    ///
    /// ```
    /// assert!(stir_trust::cache::Folder::open(&std::env::temp_dir(), 20_000).is_ok());
    /// ```
    pub fn open(path: &Path, most: usize) -> Result<Folder, FolderFault> {
        let folder = Folder { path: path.into(), most };
        fs::create_dir_all(path).map_err(|error| folder.fault("", error))?;
        Ok(folder)
    }

    /// The chains in it and their x5us, in the order in which they were fetched, at this second.
    /// What is spoilt is passed over.
    ///
    /// # Errors
    ///
    /// `fetched.json` is there and can't be read.
    ///
    /// ```
    /// # let path = std::env::temp_dir().join(format!("stir-load-{}", std::process::id()));
    /// let folder = stir_trust::cache::Folder::open(&path, 20_000)?;
    /// std::fs::write(path.join("fetched.json"), "spoilt")?;
    /// assert!(folder.load(10_000)?.is_empty());
    /// # std::fs::remove_dir_all(&path)?;
    /// # Ok::<(), Box<dyn std::error::Error>>(())
    /// ```
    pub fn load(&self, now: u64) -> Result<Vec<(String, Entry)>, FolderFault> {
        let mut lines: Vec<(String, Line)> = self.state()?.into_iter().collect();
        lines.sort_by_key(|(_, line)| line.fetched);
        let extra = lines.len().saturating_sub(self.most);
        let lines = lines.into_iter().skip(extra);
        Ok(lines
            .filter_map(|(x5u, line)| Some((x5u.clone(), self.entry(&x5u, &line, now)?)))
            .collect())
    }

    /// Those of these x5us whose chains are in it at this second, with their times.
    ///
    /// # Errors
    ///
    /// `fetched.json` is there and can't be read.
    ///
    /// ```
    /// let folder = stir_trust::cache::Folder::open(&std::env::temp_dir(), 20_000)?;
    /// assert!(folder.times_of(&["https://cr.example/a.pem"], 10_000)?.is_empty());
    /// # Ok::<(), stir_trust::cache::FolderFault>(())
    /// ```
    pub fn times_of(&self, x5us: &[&str], now: u64) -> Result<HashMap<String, Times>, FolderFault> {
        let state = self.state()?;
        let times = |x5u: &&str| {
            let entry = self.entry(x5u, state.get(*x5u)?, now)?;
            Some(((*x5u).to_owned(), entry.times()))
        };
        Ok(x5us.iter().filter_map(times).collect())
    }

    fn entry(&self, x5u: &str, line: &Line, now: u64) -> Option<Entry> {
        // A file's name is never taken from the state: it may lead out of the folder.
        let name = name_of(x5u);
        let der = self.read(&name, MOST_BYTES as u64).ok().filter(|_| line.file == name)?;
        let chain = chain_of(&der).ok()?;
        let ends = ends_of(&chain).ok()?;
        let fetched = line.fetched.min(now);
        let due = line.due.clamp(fetched, fetched.saturating_add(86_400));
        Some(Entry { der: chain.concat().into(), fetched, due, ends })
    }

    /// The file of an x5u, whether it is there or not.
    ///
    /// ```
    /// let folder = stir_trust::cache::Folder::open(&std::env::temp_dir(), 20_000)?;
    /// let file = folder.file_of("https://cr.example/a.pem");
    /// assert_eq!(file.parent(), Some(&*std::env::temp_dir()));
    /// # Ok::<(), stir_trust::cache::FolderFault>(())
    /// ```
    pub fn file_of(&self, x5u: &str) -> PathBuf {
        self.path.join(name_of(x5u))
    }

    /// Writes these chains. What others wrote stays, if it was fetched later or is another's.
    ///
    /// # Errors
    ///
    /// The system doesn't let a file be written, or another program writes to the folder.
    ///
    /// ```
    /// # use stir_trust::{cache::{Entry, Folder}, fetch::Fetched};
    /// # let path = std::env::temp_dir().join(format!("stir-save-{}", std::process::id()));
    /// let folder = Folder::open(&path, 20_000)?;
    /// let entry = Entry { der: [0x30, 0].into(), fetched: 10_000, due: 20_000, ends: 30_000 };
    /// folder.save(&[("https://cr.example/a", &entry)])?;
    /// assert!(std::fs::read_to_string(path.join("fetched.json"))?.contains("cr.example"));
    /// # std::fs::remove_dir_all(&path)?;
    /// # Ok::<(), Box<dyn std::error::Error>>(())
    /// ```
    pub fn save(&self, entries: &[(&str, &Entry)]) -> Result<(), FolderFault> {
        let _alone = self.alone()?;
        let mut state = self.state()?;
        for (x5u, entry) in entries {
            if state.get(*x5u).is_some_and(|line| line.fetched > entry.fetched) {
                continue;
            }
            let file = name_of(x5u);
            self.write(&file, &entry.der)?;
            let Entry { fetched, due, ends, .. } = **entry;
            state.insert((*x5u).into(), Line { file, fetched, due, ends });
        }
        let left = self.oldest_out(&mut state);
        let mut text = Vec::new();
        let form = PrettyFormatter::with_indent(b" ");
        let written = state.serialize(&mut Serializer::with_formatter(&mut text, form));
        written.map_err(|error| self.fault(STATE, error.into()))?;
        text.push(b'\n');
        self.write(STATE, &text)?;
        // After the state, so that it never names a file that isn't there.
        left.iter().for_each(|name| drop(fs::remove_file(self.path.join(name))));
        Ok(())
    }

    /// Takes the chains that were fetched first out of a state with too many; with their files.
    fn oldest_out(&self, state: &mut State) -> Vec<String> {
        let extra = state.len().saturating_sub(self.most);
        let mut ages: Vec<(u64, String)> =
            state.iter().map(|(x5u, line)| (line.fetched, x5u.clone())).collect();
        ages.sort();
        ages.truncate(extra);
        ages.iter().filter_map(|(_, x5u)| state.remove(x5u).map(|_| name_of(x5u))).collect()
    }

    /// What keeps others out of the folder, and takes away what one that was killed left.
    fn alone(&self) -> Result<Alone, FolderFault> {
        let lock = File::create(self.path.join(LOCK)).map_err(|error| self.fault(LOCK, error))?;
        let lock = Alone(lock);
        flock(&lock.0, FlockOperation::NonBlockingLockExclusive).map_err(|error| {
            match io::Error::from(error) {
                error if error.kind() == io::ErrorKind::WouldBlock => {
                    FolderFault::Busy(self.path.clone())
                }
                error => self.fault(LOCK, error),
            }
        })?;
        let found = fs::read_dir(&self.path).map_err(|error| self.fault("", error))?;
        for file in found.flatten() {
            let name = file.file_name();
            let name = name.to_string_lossy();
            if name.ends_with(".der.new") || name == "fetched.json.new" {
                drop(fs::remove_file(file.path()));
            }
        }
        Ok(lock)
    }

    /// What is known; nothing if that is spoilt, or if there is no file.
    fn state(&self) -> Result<State, FolderFault> {
        match self.read(STATE, MOST_STATE) {
            Ok(text) => Ok(serde_json::from_slice(&text).unwrap_or_default()),
            Err(error) if error.kind() == io::ErrorKind::NotFound => Ok(State::new()),
            Err(error) => Err(self.fault(STATE, error)),
        }
    }

    /// A file of at most so many bytes.
    fn read(&self, name: &str, most: u64) -> io::Result<Vec<u8>> {
        let path = self.path.join(name);
        // What isn't a file might be waited for without an end.
        if !fs::metadata(&path)?.is_file() {
            return Err(io::ErrorKind::InvalidInput.into());
        }
        let mut data = Vec::new();
        File::open(path)?.take(most + 1).read_to_end(&mut data)?;
        if data.len() as u64 > most {
            return Err(io::ErrorKind::InvalidData.into());
        }
        Ok(data)
    }

    fn write(&self, name: &str, data: &[u8]) -> Result<(), FolderFault> {
        let new = self.path.join(format!("{name}{NEW}"));
        let written = fs::write(&new, data).and_then(|()| fs::rename(&new, self.path.join(name)));
        written.map_err(|error| self.fault(name, error))
    }

    fn fault(&self, name: &str, error: io::Error) -> FolderFault {
        let file = if name.is_empty() { self.path.clone() } else { self.path.join(name) };
        FolderFault::System { file, error }
    }
}

/// The lock of a folder. It is given back also if a process that was started meanwhile still has
/// the file open.
struct Alone(File);

impl Drop for Alone {
    fn drop(&mut self) {
        // One that isn't held is none to give back.
        let _ = flock(&self.0, FlockOperation::Unlock);
    }
}

/// The file's name of an x5u: its host, and a part of its SHA-256.
fn name_of(x5u: &str) -> String {
    let rest = x5u.strip_prefix("https://").unwrap_or(x5u);
    let host = rest.split('/').next().unwrap_or_default().chars().take(100);
    let is_plain = |letter: &char| letter.is_ascii_alphanumeric() || matches!(letter, '.' | '-');
    let host: String = host.map(|letter| if is_plain(&letter) { letter } else { '_' }).collect();
    let digits: String =
        sha256(x5u.as_bytes()).iter().take(8).map(|byte| format!("{byte:02x}")).collect();
    format!("{host}-{digits}.der")
}

#[cfg(test)]
mod tests {
    use super::*;

    #[test]
    fn a_file_has_a_name_by_its_host_and_a_digest() {
        // By hashlib of Python 3.11.
        for (x5u, name) in [
            ("https://cr.example/a.pem", "cr.example-67650a2b36c21cc1.der"),
            ("https://cr.example:8443/a?b=../c", "cr.example_8443-0ef18d92b34e5bdd.der"),
            ("https://../../etc/passwd", "..-ea7b67c7c1a00901.der"),
        ] {
            assert_eq!(name_of(x5u), name);
        }
    }
}
