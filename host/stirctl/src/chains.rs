//! The certificates to which the x5us of a log lead: found by a chain map, read when the first call
//! needs them, judged once, and kept while they are used.

use crate::files::{self, whole, Unread};
use crate::provider::Provider;
use crate::revocation::Revocation;
use crate::Fault;
use std::collections::HashMap;
use std::io::{self, Write};
use std::path::{Path, PathBuf};
use std::sync::{Arc, OnceLock, PoisonError, RwLock};
use stir::{Chain, Part, World};
use stir_trust::chain_map::{ChainMap, MOST_BYTES, MOST_LINES};
use stir_trust::revocation::Revoked;

/// The most bytes of a chain; of a longer one so many and one more are handed to the library.
const LONGEST_CHAIN: u64 = 49_152;

/// How many chains a generation has; two are kept.
const GENERATION: usize = 2_048;

/// The name of the chain map in a folder of chains.
const MAP_IN_FOLDER: &str = "chains.txt";

/// What is known of the chain of an x5u.
#[derive(Clone, Debug)]
pub(crate) enum Found {
    /// It was judged.
    Known(Arc<Known>),
    /// The chain map hasn't got the x5u, or its file isn't there.
    Missing,
    /// Its file can't be read, so nothing is known of it.
    Unread,
}

/// A chain with its good signatures confirmed, and the service provider codes of its leaf.
#[derive(Debug)]
pub(crate) struct Known {
    pub chain: Chain,
    pub codes: String,
    /// Which of its questions are confirmed.
    pub good: Vec<bool>,
    /// Its certificates that are revoked, at whatever second.
    pub revoked: Vec<Revoked>,
}

type Slot = Arc<OnceLock<Result<Found, stir::Error>>>;

/// The chains of a map, and those that were fetched.
pub(crate) struct Chains {
    world: World,
    map: Map,
    fetched: RwLock<HashMap<Vec<u8>, PathBuf>>,
    kept: RwLock<Generations>,
}

/// The chains that were used lately. Those of the old generation that aren't used again go.
#[derive(Default)]
struct Generations {
    young: HashMap<Vec<u8>, Slot>,
    old: HashMap<Vec<u8>, Slot>,
}

/// A chain map, and where the files are that it names.
#[derive(Debug, Default)]
pub(crate) struct Map {
    lines: ChainMap,
    files: Vec<PathBuf>,
}

impl Map {
    /// The chain map of this name, or that of the folder of this name. In the map of a folder a
    /// file's name that isn't found from here is looked for there.
    pub fn read(name: &str) -> Result<Map, Fault> {
        let folder = Path::new(name);
        let in_folder = folder.join(MAP_IN_FOLDER);
        let is_folder = in_folder.is_file();
        let map = if is_folder { in_folder.to_string_lossy().into_owned() } else { name.into() };
        let text = whole(&map, MOST_BYTES as u64)?;
        let lines = match ChainMap::read(&text) {
            Ok(lines) => lines,
            Err((line, _)) => return Err(Fault::Refused(map, line as u64)),
        };
        let file = |name: &PathBuf| match is_folder && !name.exists() {
            true => folder.join(name),
            false => name.clone(),
        };
        let files = lines.names().iter().map(file).collect();
        Ok(Map { lines, files })
    }

    /// The files that it names.
    pub fn files(&self) -> &[PathBuf] {
        &self.files
    }

    /// The file of an x5u.
    fn file(&self, x5u: &[u8]) -> Option<&Path> {
        self.files.get(self.lines.file(x5u)?).map(AsRef::as_ref)
    }

    /// All x5us with their files.
    fn all(&self) -> impl Iterator<Item = (&[u8], &Path)> {
        self.lines.all().filter_map(|(x5u, number)| Some((x5u, self.files.get(number)?.as_path())))
    }
}

impl Chains {
    /// The chains of a map, each to be judged under this world.
    pub fn new(world: World, map: Map) -> Chains {
        Chains { world, map, fetched: RwLock::default(), kept: RwLock::default() }
    }

    /// Adds the files of what was fetched.
    pub fn add(&self, fetched: impl Iterator<Item = (Vec<u8>, PathBuf)>) {
        self.fetched.write().unwrap_or_else(PoisonError::into_inner).extend(fetched);
    }

    /// Whether the map has this x5u.
    pub fn lists(&self, x5u: &[u8]) -> bool {
        self.map.file(x5u).is_some()
    }

    /// Whether the map has this x5u, or it was fetched.
    pub fn has(&self, x5u: &[u8]) -> bool {
        self.file(x5u).is_some()
    }

    /// The file of an x5u.
    fn file(&self, x5u: &[u8]) -> Option<PathBuf> {
        if let Some(file) = self.map.file(x5u) {
            return Some(file.to_owned());
        }
        self.fetched.read().unwrap_or_else(PoisonError::into_inner).get(x5u).cloned()
    }

    /// How many lines and bytes a chain map still has room for beside those of this one.
    pub fn room(&self) -> (usize, usize) {
        let bytes: usize = self.map.all().map(|(x5u, file)| length(x5u, file)).sum();
        (MOST_LINES.saturating_sub(self.map.all().count()), MOST_BYTES.saturating_sub(bytes))
    }

    /// Writes the chain map by which the calls are judged, by rising x5us.
    pub fn write(&self, to: &mut dyn Write) -> io::Result<()> {
        let fetched = self.fetched.read().unwrap_or_else(PoisonError::into_inner);
        let others = fetched.iter().map(|(x5u, file)| (x5u.as_slice(), file.as_path()));
        let mut lines: Vec<(&[u8], &Path)> = self.map.all().chain(others).collect();
        lines.sort_unstable();
        lines.iter().try_for_each(|(x5u, file)| {
            to.write_all(x5u)?;
            writeln!(to, " {}", file.display())
        })
    }

    /// What is known of the chain of an x5u. It is read and judged if nobody needed it lately;
    /// whoever needs it at the same time waits for that.
    pub fn get(
        &self,
        x5u: &[u8],
        provider: &Provider,
        revocation: &Revocation,
    ) -> Result<Found, Fault> {
        let Some(file) = self.file(x5u) else { return Ok(Found::Missing) };
        let slot = self.slot(x5u);
        Ok(slot.get_or_init(|| judged(&self.world, &file, provider, revocation)).clone()?)
    }

    /// The chain of an x5u, opened under this world, if its file can be read. It isn't kept.
    pub fn opened(&self, world: &World, x5u: &[u8]) -> Result<Option<Chain>, Fault> {
        let Some(file) = self.file(x5u) else { return Ok(None) };
        match files::prefix(&file, LONGEST_CHAIN + 1) {
            Ok(bytes) => Ok(Some(world.chain(&bytes)?)),
            Err(Unread::Missing | Unread::Failed) => Ok(None),
        }
    }

    /// Has the chains judged under another world from now on.
    pub fn open_under(&mut self, world: World) {
        (self.world, self.kept) = (world, RwLock::default());
    }

    fn slot(&self, x5u: &[u8]) -> Slot {
        let kept = self.kept.read().unwrap_or_else(PoisonError::into_inner);
        if let Some(slot) = kept.young.get(x5u) {
            return slot.clone();
        }
        drop(kept);
        let mut kept = self.kept.write().unwrap_or_else(PoisonError::into_inner);
        let Generations { young, old } = &mut *kept;
        if young.len() >= GENERATION && !young.contains_key(x5u) {
            std::mem::swap(young, old);
            young.clear();
        }
        let slot = old.remove(x5u).unwrap_or_default();
        young.entry(x5u.to_vec()).or_insert(slot).clone()
    }
}

/// The bytes of a line of a chain map.
pub(crate) fn length(x5u: &[u8], file: &Path) -> usize {
    x5u.len() + file.as_os_str().len() + 2
}

/// The chain of a file, with those of its signatures confirmed that are good: asked for from the
/// leaf's on, up to the first that isn't.
fn judged(
    world: &World,
    file: &Path,
    provider: &Provider,
    revocation: &Revocation,
) -> Result<Found, stir::Error> {
    let bytes = match files::prefix(file, LONGEST_CHAIN + 1) {
        Ok(bytes) => bytes,
        Err(Unread::Missing) => return Ok(Found::Missing),
        Err(Unread::Failed) => return Ok(Found::Unread),
    };
    let chain = world.chain(&bytes)?;
    let questions = chain.questions()?;
    let good: Vec<bool> =
        questions.iter().map(|it| provider.confirms(it)).take_while(|good| *good).collect();
    let chain = if good.is_empty() { chain } else { chain.confirmed(&good)? };
    let codes = chain.part(1, Part::Codes)?.unwrap_or_default();
    let codes = String::from_utf8_lossy(&codes).trim_end().replace('\n', " ");
    let revoked = revocation.of(&chain, file)?;
    Ok(Found::Known(Arc::new(Known { chain, codes, good, revoked })))
}
