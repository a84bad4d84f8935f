//! What calls are judged by, as it was read.
use super::fault::FileFault;
use super::ground::Ground;
use super::listed::{ChainFile, Listed};
use super::reading::Change;
use super::single::Single;
use super::Sources;
use std::collections::{BTreeSet, HashSet};
use std::path::{Path, PathBuf};
use std::sync::atomic::{AtomicUsize, Ordering};
use std::sync::{Arc, Mutex, OnceLock};
use std::time::{Duration, Instant};
use stir::Error;
use stir_trust::cache::Bounds;
use stir_trust::chain_map::ChainMap;
use stir_trust::locks::Held;
use stir_trust::Verifier;

/// How many files are named one by one, where there may be many.
const MOST_NAMED: usize = 16;

/// What calls are judged by: settings, trust anchors, a code table, and the chains of a chain map.
///
/// ```
/// # std::env::set_current_dir(concat!(env!("CARGO_MANIFEST_DIR"), "/../..")).unwrap();
/// use stird::files::{read, Anchors, Codes, Sources};
///
/// let sources = Sources {
///     rules: stir::Settings::default(),
///     chains: Some("examples/files/chains.txt".into()),
///     anchors: Anchors::Der("examples/files/anchors.der".into()),
///     table: Some("examples/files/table.txt".into()),
///     codes: Codes::Listed,
///     signing: None,
/// };
/// let verifier = stir_trust::Verifier::new()?;
/// let world = read(&sources, &verifier, None)?;
/// assert_eq!((world.chains(), world.missing(), world.unreadable_count()), (2, 0, 0));
/// assert_eq!(world.ends(), Some(1_735_689_600));
///
/// let message = std::fs::read("examples/sign/signed.sip")?;
/// let mut call = world.call(1_443_208_345, &message)?;
/// let listed = world.listed(&call.x5u(0)?).expect("it is listed and there");
/// call.set_chain(0, &*listed.chain(|question| verifier.confirms(question))?)?;
///
/// // Each second or so.
/// if world.is_stale() {
///     let world = read(&sources, &verifier, Some(&world))?;
///     assert!(world.faults().is_empty() && world.news().is_empty());
/// }
/// # Ok::<(), Box<dyn std::error::Error>>(())
/// ```
pub struct World {
    parts: Parts,
    totals: Totals,
    news: Vec<String>,
    /// The chain files that the last look found stale, until they are read.
    found: Mutex<Option<Vec<usize>>>,
    /// How many of the files were gone through to confirm their chains.
    gone_through: AtomicUsize,
    confirmed: OnceLock<usize>,
}

/// What a look at the files found.
struct Found {
    is_stale: bool,
    /// The chain files that are stale, by their numbers.
    chains: Vec<usize>,
}

/// What was read.
pub(super) struct Parts {
    pub sources: Sources,
    pub map: Single,
    pub anchors: Single,
    pub table: Single,
    pub trusted: Trusted,
    /// The world of the settings, the trust anchors and the code table, and the chains that calls
    /// brought to it.
    pub ground: Arc<Ground>,
    /// The codes that the table names, if others are trusted too.
    pub names: Arc<HashSet<Box<[u8]>>>,
    pub listed: Arc<ChainMap>,
    /// The files of the map, by their numbers.
    pub files: Vec<Arc<ChainFile>>,
}

/// The trust anchors as the library takes them, and what is said of certificates beside them in
/// their file.
#[derive(Clone, Default)]
pub(super) struct Trusted {
    pub anchors: Arc<[u8]>,
    pub left_out: Arc<[String]>,
}

/// What there is of what.
#[derive(Default)]
struct Totals {
    chains: usize,
    missing: usize,
    unreadable: usize,
    named: Vec<PathBuf>,
    ends: Option<u64>,
}

impl World {
    /// A world of what was read.
    pub(super) fn new(parts: Parts, before: Option<&World>, changes: &[Change]) -> World {
        let totals = Totals::of(&parts);
        let news = news(&parts, &totals, before, changes);
        World {
            parts,
            totals,
            news,
            found: Mutex::default(),
            gone_through: AtomicUsize::new(0),
            confirmed: OnceLock::new(),
        }
    }

    pub(super) fn parts(&self) -> &Parts {
        &self.parts
    }

    /// The chain files that the last look found stale, if there was one since they were read.
    pub(super) fn found(&self) -> Option<Vec<usize>> {
        self.found.lock().held().take()
    }

    /// Looks at the files: whether one isn't what it was when it was read, or couldn't be read.
    /// That takes a microsecond a file, and none is opened.
    pub fn is_stale(&self) -> bool {
        let found = self.look();
        let is_stale = found.as_ref().is_none_or(|found| found.is_stale);
        // What a look found that led to no reading would be old news to the next one.
        *self.found.lock().held() = found.filter(|_| is_stale).map(|found| found.chains);
        is_stale
    }

    /// Looks at the files; not at the chains if the map changed, since all of them are looked at
    /// when it is read.
    fn look(&self) -> Option<Found> {
        let Parts { map, anchors, table, listed, files, .. } = &self.parts;
        if map.is_stale() {
            return None;
        }
        let others = anchors.is_stale() || table.is_stale();
        let files = listed.names().iter().zip(files).enumerate();
        let stale = files.filter(|(_, (name, file))| file.is_stale(name));
        let chains: Vec<usize> = stale.map(|(number, _)| number).collect();
        Some(Found { is_stale: others || !chains.is_empty(), chains })
    }

    /// The world of the library: settings, trust anchors and code table.
    pub fn by(&self) -> &stir::World {
        self.parts.ground.by()
    }

    /// The same with the chains that calls brought to it.
    pub fn ground(&self) -> &Arc<Ground> {
        &self.parts.ground
    }

    /// The chain of an x5u, if it is listed and there.
    pub fn listed(&self, x5u: &[u8]) -> Option<&Listed> {
        self.file(x5u)?.chain().map(AsRef::as_ref)
    }

    /// The same, to be kept, with its bytes.
    pub fn listed_whole(&self, x5u: &[u8]) -> Option<(Arc<Listed>, Arc<[u8]>)> {
        let file = self.file(x5u)?;
        Some((Arc::clone(file.chain()?), Arc::clone(file.der()?)))
    }

    /// Whether the chain map has this x5u, be its file there or not.
    pub fn lists(&self, x5u: &[u8]) -> bool {
        self.parts.listed.file(x5u).is_some()
    }

    fn file(&self, x5u: &[u8]) -> Option<&ChainFile> {
        self.parts.files.get(self.parts.listed.file(x5u)?).map(AsRef::as_ref)
    }

    /// Whether the code table names this code. It is known if codes are trusted that it doesn't.
    pub fn names(&self, code: &[u8]) -> bool {
        self.parts.names.contains(code)
    }

    /// How many codes it names.
    pub fn names_count(&self) -> usize {
        self.parts.names.len()
    }

    /// The same world without chains, in which these codes stand for every number too.
    ///
    /// # Errors
    ///
    /// The table has no room for them, or want of memory.
    pub fn extended(&self, codes: &BTreeSet<Box<[u8]>>) -> Result<Ground, Error> {
        let Parts { sources, table, trusted, files, .. } = &self.parts;
        let mut lines = table.bytes.to_vec();
        if lines.last().is_some_and(|last| *last != b'\n') {
            lines.push(b'\n');
        }
        for code in codes {
            lines.extend_from_slice(code);
            lines.extend_from_slice(b" *\n");
        }
        let by = stir::World::open(&sources.rules, &trusted.anchors, &lines)?;
        Ok(Ground::new(by, Bounds::default().entries + files.len()))
    }

    /// A call that came at this moment, in Unix seconds.
    ///
    /// # Errors
    ///
    /// Want of memory.
    pub fn call(&self, moment: u64, message: &[u8]) -> Result<stir::Call, Error> {
        self.by().call(moment, message)
    }

    /// How many x5us have a chain.
    pub fn chains(&self) -> usize {
        self.totals.chains
    }

    /// How many signatures of certificates were confirmed when this was asked first.
    pub fn confirmed(&self) -> usize {
        *self.confirmed.get_or_init(|| {
            let chains = self.parts.files.iter().filter_map(|file| file.chain());
            let questions = chains.flat_map(|chain| chain.confirmed());
            questions.map(|question| question.bytes()).collect::<HashSet<_>>().len()
        })
    }

    /// Confirms chains that weren't when the files were read, for so long at most: whether all were
    /// tried. It serves a thread that has nothing else to do.
    pub fn confirm(&self, verifier: &Verifier, patience: Duration) -> bool {
        let until = Instant::now() + patience;
        while Instant::now() < until {
            let number = self.gone_through.fetch_add(1, Ordering::Relaxed);
            let Some(file) = self.parts.files.get(number) else {
                self.gone_through.store(self.parts.files.len(), Ordering::Relaxed);
                return true;
            };
            if let Some(chain) = file.chain().filter(|chain| !chain.is_confirmed()) {
                chain.confirm(verifier, None);
            }
        }
        false
    }

    /// How many files of the chain map are missing.
    pub fn missing(&self) -> usize {
        self.totals.missing
    }

    /// How many of them can't be read. Their chains are those from before, if there were some.
    pub fn unreadable_count(&self) -> usize {
        self.totals.unreadable
    }

    /// The first sixteen of those.
    pub fn unreadable(&self) -> &[PathBuf] {
        &self.totals.named
    }

    /// The second after which the first of the chains has a certificate that isn't valid any more,
    /// in Unix time.
    pub fn ends(&self) -> Option<u64> {
        self.totals.ends
    }

    /// Each x5u that has a chain, and the second after which its first certificate isn't valid any
    /// more, but for chains that break a rule at every second.
    pub fn ends_of_each(&self) -> impl Iterator<Item = (&[u8], u64)> + '_ {
        let Parts { listed, files, .. } = &self.parts;
        listed.all().filter_map(|(x5u, number)| Some((x5u, files.get(number)?.chain()?.ends()?)))
    }

    /// Which of the three files aren't taken, and stay what they were.
    pub fn faults(&self) -> Vec<&FileFault> {
        let Parts { map, anchors, table, .. } = &self.parts;
        [map, anchors, table].into_iter().filter_map(|single| single.fault.as_ref()).collect()
    }

    /// What is to be told of this reading, and wasn't of the one before: a line each, at most some
    /// twenty.
    pub fn news(&self) -> &[String] {
        &self.news
    }
}

impl Totals {
    fn of(parts: &Parts) -> Totals {
        let mut totals = Totals::default();
        for (name, file) in parts.listed.names().iter().zip(&parts.files) {
            totals.missing += usize::from(file.is_missing());
            if file.fault().is_some() {
                totals.unreadable += 1;
                if totals.named.len() < MOST_NAMED {
                    totals.named.push(name.clone());
                }
            }
            let ends = file.chain().and_then(|chain| chain.ends());
            totals.ends = match (totals.ends, ends) {
                (Some(one), Some(other)) => Some(one.min(other)),
                (one, other) => one.or(other),
            };
        }
        let is_there =
            |number: &usize| parts.files.get(*number).is_some_and(|file| file.chain().is_some());
        totals.chains = parts.listed.all().filter(|(_, number)| is_there(number)).count();
        totals
    }
}

/// What is new of faults.
fn news(parts: &Parts, totals: &Totals, before: Option<&World>, changes: &[Change]) -> Vec<String> {
    let mut news = Vec::new();
    for single in [&parts.map, &parts.anchors, &parts.table] {
        let fault = single.fault.as_ref();
        let is_new =
            |fault: &&FileFault| !before.is_some_and(|before| before.faults().contains(fault));
        news.extend(fault.filter(is_new).map(|fault| format!("{fault}; it stays what it was")));
    }
    news.extend(left_out(parts, before));
    let told = changes.iter().filter_map(|change| of_chain(parts, change));
    let mut more = 0;
    for line in told {
        if news.len() < MOST_NAMED {
            news.push(line);
        } else {
            more += 1;
        }
    }
    if more > 0 {
        news.push(format!("{more} more files of chains can't be read"));
    }
    let files = parts.files.len();
    let all_are = |totals: &Totals, files: usize| files > 0 && totals.missing == files;
    let all_were = before.is_some_and(|was| all_are(&was.totals, was.parts.files.len()));
    if all_are(totals, files) && !all_were {
        let map = parts.sources.chains.as_deref().unwrap_or(Path::new("the chain map"));
        news.push(format!("all {files} files of {} are missing", map.display()));
    }
    news
}

/// What is new of certificates that are no trust anchors.
fn left_out<'a>(parts: &'a Parts, before: Option<&World>) -> impl Iterator<Item = String> + 'a {
    let Trusted { left_out, .. } = &parts.trusted;
    let is_old = before.is_some_and(|before| before.parts.trusted.left_out == *left_out);
    let path = parts.sources.anchors.path().display();
    let lines = left_out.iter().take(if is_old { 0 } else { MOST_NAMED });
    lines.map(move |line| format!("{path}: {line}"))
}

/// What is new of the file of a chain.
fn of_chain(parts: &Parts, change: &Change) -> Option<String> {
    let file = parts.files.get(change.number)?;
    let name: &Path = parts.listed.names().get(change.number)?;
    let fault = file.fault()?;
    let known = change.before.as_ref().and_then(|before| before.fault());
    let stays = match file.chain() {
        Some(_) => "its chain stays what it was",
        None => "its calls break rule 10",
    };
    (known != Some(fault)).then(|| format!("{}: {fault}; {stays}", name.display()))
}
