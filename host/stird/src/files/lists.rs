//! Revocation lists, and the certificates of those who sign them.
use super::fault::{FileFault, Why};
use super::reading::single;
use super::single::Single;
use std::path::{Path, PathBuf};
use std::sync::atomic::{AtomicU64, Ordering};
use std::sync::Arc;
use stir::{Chain, Error};
use stir_trust::revocation::{List, Lists, Revoked, Signers, Unknown};

/// The files of revocation lists.
///
/// ```
/// use stird::files::{Ended, ListFiles};
///
/// let files = ListFiles {
///     lists: vec!["agency.crl".into()],
///     signers: vec!["agency.pem".into()],
///     ended: Ended::Go,
/// };
/// ```
#[derive(Clone, Debug, PartialEq, Eq)]
pub struct ListFiles {
    /// The lists, in PEM or DER.
    pub lists: Vec<PathBuf>,
    /// The certificates of their signers, in PEM.
    pub signers: Vec<PathBuf>,
    /// What becomes of calls if a list has ended.
    pub ended: Ended,
}

/// What becomes of calls if the next list isn't there in time.
#[derive(Clone, Copy, Debug, PartialEq, Eq)]
pub enum Ended {
    /// They are judged by the list that is there.
    Go,
    /// No certificate is good.
    Refuse,
}

/// What revocation lists say, as they were read.
pub struct Revocation {
    reading: u64,
    signers: Vec<Single>,
    files: Vec<File>,
    lists: Lists,
    ended: Ended,
}

/// A list's file.
#[derive(Clone)]
struct File {
    path: PathBuf,
    single: Single,
    list: Arc<List>,
}

/// How many readings there were.
static READINGS: AtomicU64 = AtomicU64::new(0);

impl Revocation {
    /// Reads the files. One that isn't taken stays what it was before, and [`Revocation::faults`]
    /// names it: one that can't be read, that no signer of its issuer's name signed, or that is
    /// older than the list before.
    ///
    /// # Errors
    ///
    /// Without one from before: a file can't be read or is refused.
    pub fn read(files: &ListFiles, before: Option<&Revocation>) -> Result<Revocation, FileFault> {
        let (mut signers, mut known) = (Vec::new(), Signers::default());
        for (place, path) in files.signers.iter().enumerate() {
            let was = before.and_then(|before| before.signers.get(place));
            let (single, found) = signers_of(path, was)?;
            known = known.and(found);
            signers.push(single);
        }
        let was = before.map_or(&[][..], |before| &before.signers);
        let is_same = |(one, other): (&Single, &Single)| Arc::ptr_eq(&one.bytes, &other.bytes);
        let are_same = signers.len() == was.len() && signers.iter().zip(was).all(is_same);
        let (mut read, mut lists) = (Vec::new(), Lists::default());
        for (place, path) in files.lists.iter().enumerate() {
            let was = before.and_then(|before| before.files.get(place));
            let file = File::read(path, &known, was, are_same)?;
            lists.add(Arc::clone(&file.list));
            read.push(file);
        }
        let is_same = |(one, other): (&File, &File)| Arc::ptr_eq(&one.list, &other.list);
        let same = before.filter(|before| read.iter().zip(&before.files).all(is_same));
        let reading = match same {
            Some(before) => before.reading,
            None => READINGS.fetch_add(1, Ordering::Relaxed),
        };
        Ok(Revocation { reading, signers, files: read, lists, ended: files.ended })
    }

    /// Which reading of the lists it is: another one may say otherwise.
    pub(super) fn reading(&self) -> u64 {
        self.reading
    }

    /// The certificates of a chain that are revoked, at whatever moment.
    pub(super) fn revoked(&self, chain: &Chain) -> Result<Vec<Revoked>, Error> {
        self.lists.revoked(chain).map_err(|unknown| match unknown {
            Unknown::Library(error) => error,
            // Names that OpenSSL can't compare are want of memory.
            Unknown::List(_) => Error::OutOfMemory,
        })
    }

    /// The second since which no certificate is good at this moment, since a list has ended.
    pub fn refuses_since(&self, moment: u64) -> Option<u64> {
        match self.ended {
            Ended::Go => None,
            Ended::Refuse => self.ended(moment).map(|(_, ends)| ends).min(),
        }
    }

    /// Whether calls are refused if a list has ended.
    pub fn is_hard(&self) -> bool {
        self.ended == Ended::Refuse
    }

    /// The lists whose next ones should be there at this moment, and since when.
    pub fn ended(&self, moment: u64) -> impl Iterator<Item = (&Path, u64)> {
        let ended = self.files.iter().filter(move |file| file.list.has_ended(moment));
        ended.filter_map(|file| Some((file.path.as_path(), file.list.ends()?)))
    }

    /// The second by which the first of the next lists is there.
    pub fn next_end(&self) -> Option<u64> {
        self.lists.iter().filter_map(List::ends).min()
    }

    /// How many certificates they name.
    pub fn count(&self) -> usize {
        self.lists.iter().map(List::len).sum()
    }

    /// Whether a file isn't what it was when it was read.
    pub fn is_stale(&self) -> bool {
        self.singles().any(Single::is_stale)
    }

    /// Which of the files aren't taken, and stay what they were.
    pub fn faults(&self) -> Vec<&FileFault> {
        self.singles().filter_map(|single| single.fault.as_ref()).collect()
    }

    fn singles(&self) -> impl Iterator<Item = &Single> {
        self.signers.iter().chain(self.files.iter().map(|file| &file.single))
    }
}

/// The signers of a file; those from before if it isn't taken.
fn signers_of(path: &Path, was: Option<&Single>) -> Result<(Single, Signers), FileFault> {
    let mut single = single(Some(path), was)?;
    let found = Signers::from_pem(&single.bytes).map_err(Why::Signers);
    match (found, was) {
        (Ok(found), _) => Ok((single, found)),
        (Err(why), None) => Err(FileFault::of(path, why)),
        (Err(why), Some(was)) => {
            single.bytes = Arc::clone(&was.bytes);
            single.fault = Some(FileFault::of(path, why));
            let found = Signers::from_pem(&was.bytes).map_err(Why::Signers);
            Ok((single, found.map_err(|why| FileFault::of(path, why))?))
        }
    }
}

impl File {
    /// Reads a list. If its signers are others, it is read again however it looks.
    fn read(
        path: &Path,
        signers: &Signers,
        was: Option<&File>,
        are_same: bool,
    ) -> Result<File, FileFault> {
        let same = was.filter(|_| are_same);
        let mut single = match (single(Some(path), same.map(|was| &was.single)), was) {
            (Ok(single), _) => single,
            (Err(fault), None) => return Err(fault),
            (Err(fault), Some(was)) => return Ok(was.refusing(fault)),
        };
        if let Some(was) = same.filter(|was| Arc::ptr_eq(&was.single.bytes, &single.bytes)) {
            return Ok(File { path: path.into(), single, list: Arc::clone(&was.list) });
        }
        let list = List::read(&single.bytes, signers).map_err(|why| Why::List(why.to_string()));
        let list = list.and_then(|list| match was.map(|was| list.follows(&was.list)) {
            Some(Err(older)) => Err(Why::List(older.to_string())),
            _ => Ok(Arc::new(list)),
        });
        match (list, was) {
            (Ok(list), _) => Ok(File { path: path.into(), single, list }),
            (Err(why), None) => Err(FileFault::of(path, why)),
            (Err(why), Some(was)) => {
                single.bytes = Arc::clone(&was.single.bytes);
                single.fault = Some(FileFault::of(path, why));
                Ok(File { single, ..was.clone() })
            }
        }
    }

    /// The same, for a file that can't be read now.
    fn refusing(&self, fault: FileFault) -> File {
        let mut file = self.clone();
        file.single.fault = Some(fault);
        file
    }
}
