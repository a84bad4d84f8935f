//! A reading of the files: what changed is read, and all else is taken from the one before.
use super::bytes::wait_for_rest;
use super::fault::{FileFault, Why};
use super::ground::{names_of, Ground};
use super::listed::ChainFile;
use super::look::Look;
use super::single::Single;
use super::world::{Parts, Trusted, World};
use super::{Anchors, Codes, Sources};
use rayon::prelude::*;
use std::collections::HashMap;
use std::path::Path;
use std::sync::Arc;
use std::time::{Duration, Instant};
use stir::{Error, Input};
use stir_trust::cache::Bounds;
use stir_trust::chain_map::ChainMap;
use stir_trust::roots::{Roots, RootsFault};
use stir_trust::Verifier;

/// How long certificates are confirmed when the files are read. What isn't confirmed by then is
/// when a call asks for it.
const PATIENCE: Duration = Duration::from_secs(1);

/// Reads what calls are judged by: all of it, or what changed since the world from before. Then the
/// signatures of the certificates that are new are confirmed, for a second at most.
///
/// A file that isn't taken stays what it was before, and [`World::faults`] and [`World::news`] tell
/// of it. A chain that can't be read and was nothing before counts as missing.
///
/// # Errors
///
/// Without a world from before: one of the files that stand alone can't be read or is refused. With
/// or without one: there is no memory, or the settings are refused. Then nothing is taken.
///
/// ```
/// use stird::files::{read, Anchors, Codes, Sources};
///
/// let missing = Sources {
///     rules: stir::Settings::default(),
///     chains: Some("no-such-map".into()),
///     anchors: Anchors::Der("anchors.der".into()),
///     table: None,
///     codes: Codes::Listed,
///     signing: None,
/// };
/// let fault = read(&missing, &stir_trust::Verifier::new()?, None).err().expect("it is missing");
/// assert_eq!(fault.to_string(), "no-such-map: there is no such file");
/// # Ok::<(), stir_trust::Unanswered>(())
/// ```
pub fn read(
    sources: &Sources,
    verifier: &Verifier,
    before: Option<&World>,
) -> Result<World, FileFault> {
    // The map is looked at first: whoever changes it last finds all that it names.
    let was = before.map(World::parts);
    let (map, listed) = read_map(sources, was)?;
    let anchors = single(Some(sources.anchors.path()), was.map(|was| &was.anchors))?;
    let table = single(sources.table.as_deref(), was.map(|was| &was.table))?;
    let Opened { anchors, table, trusted, ground, is_same } =
        open(sources, anchors, table, listed.names().len(), was)?;
    let names = match (sources.codes, was.filter(|_| is_same)) {
        (_, Some(was)) => Arc::clone(&was.names),
        (Codes::Trusted, None) => names_of(&table.bytes).into(),
        (Codes::Listed, None) => Arc::default(),
    };
    let (sources, files) = (sources.clone(), Vec::new());
    let mut parts = Parts { sources, map, anchors, table, trusted, ground, names, listed, files };
    let changes = read_chains(&mut parts, is_same, verifier, before);
    Ok(World::new(parts, before, &changes))
}

/// A file that stands alone, after it rests.
pub(super) fn single(path: Option<&Path>, before: Option<&Single>) -> Result<Single, FileFault> {
    if let (Some(path), Some(before)) = (path, before) {
        wait_for_rest(&[(path, before.look())]);
    }
    Single::read(path, before)
}

fn read_map(sources: &Sources, was: Option<&Parts>) -> Result<(Single, Arc<ChainMap>), FileFault> {
    let map = single(sources.chains.as_deref(), was.map(|was| &was.map))?;
    let same = was.filter(|was| Arc::ptr_eq(&was.map.bytes, &map.bytes));
    if let Some(was) = same {
        return Ok((map, Arc::clone(&was.listed)));
    }
    let fault = |(line, why): (usize, _)| FileFault {
        file: sources.chains.clone(),
        line: Some(line),
        why: Why::Map(why),
    };
    match (ChainMap::read(&map.bytes).map_err(fault), was) {
        (Ok(listed), _) => Ok((map, Arc::new(listed))),
        (Err(fault), Some(was)) => {
            Ok((map.refused(fault, Some(&was.map))?, Arc::clone(&was.listed)))
        }
        (Err(fault), None) => Err(fault),
    }
}

/// The world of the library, and whether it is the one from before.
struct Opened {
    anchors: Single,
    table: Single,
    trusted: Trusted,
    ground: Arc<Ground>,
    is_same: bool,
}

/// The world of the library for these anchors and this table. What it refuses is taken as it was
/// before; if all is as it was, the world is the same.
fn open(
    sources: &Sources,
    mut anchors: Single,
    mut table: Single,
    files: usize,
    was: Option<&Parts>,
) -> Result<Opened, FileFault> {
    // At most three times: each refusal puts one of the two back.
    loop {
        let same = was.filter(|was| {
            was.sources.rules == sources.rules
                && Arc::ptr_eq(&was.anchors.bytes, &anchors.bytes)
                && Arc::ptr_eq(&was.table.bytes, &table.bytes)
        });
        if let Some(was) = same {
            let (trusted, ground) = (was.trusted.clone(), Arc::clone(&was.ground));
            return Ok(Opened { anchors, table, trusted, ground, is_same: true });
        }
        let opened = trusted(sources, &anchors, was).and_then(|trusted| {
            let by = stir::World::open(&sources.rules, &trusted.anchors, &table.bytes)?;
            Ok((trusted, by))
        });
        match opened {
            Ok((trusted, by)) => {
                let most = Bounds::default().entries + files;
                let ground = Arc::new(Ground::new(by, most));
                return Ok(Opened { anchors, table, trusted, ground, is_same: false });
            }
            Err(
                why @ (Why::Library(Error::BadInput(Input::Anchors))
                | Why::Roots(RootsFault::Pem | RootsFault::Many(_))),
            ) => {
                let fault = FileFault::of(sources.anchors.path(), why);
                anchors = anchors.refused(fault, was.map(|was| &was.anchors))?;
            }
            Err(why @ Why::Library(Error::BadInput(Input::Table))) => {
                let fault = FileFault { file: sources.table.clone(), line: None, why };
                table = table.refused(fault, was.map(|was| &was.table))?;
            }
            Err(why) => return Err(FileFault { file: None, line: None, why }),
        }
    }
}

/// The trust anchors that a file has.
fn trusted(sources: &Sources, anchors: &Single, was: Option<&Parts>) -> Result<Trusted, Why> {
    let same = was.filter(|was| {
        was.sources.rules == sources.rules && Arc::ptr_eq(&was.anchors.bytes, &anchors.bytes)
    });
    if let Some(was) = same {
        return Ok(was.trusted.clone());
    }
    match &sources.anchors {
        Anchors::Der(_) => {
            Ok(Trusted { anchors: Arc::clone(&anchors.bytes), ..Trusted::default() })
        }
        Anchors::Pem(_) => {
            let roots = Roots::read(&sources.rules, &anchors.bytes)?;
            let left_out = roots.left_out.iter().map(ToString::to_string).collect();
            Ok(Trusted { anchors: roots.anchors.into(), left_out })
        }
    }
}

/// A file of the chain map that was read, by its number, and what it was before.
pub(super) struct Change {
    pub number: usize,
    pub before: Option<Arc<ChainFile>>,
}

/// Reads the chains that changed, and takes the others from before. If the world of the library is
/// another, each chain is opened anew.
fn read_chains(
    parts: &mut Parts,
    is_same: bool,
    verifier: &Verifier,
    before: Option<&World>,
) -> Vec<Change> {
    let earlier = earlier(&parts.listed, before);
    let names = parts.listed.names();
    let found =
        before.filter(|before| is_same && Arc::ptr_eq(&before.parts().listed, &parts.listed));
    let stale: Vec<(usize, bool)> = match found.and_then(World::found) {
        Some(found) => found.into_iter().map(|number| (number, true)).collect(),
        None => looked_at(names.iter().zip(&earlier), is_same),
    };
    let mut rest: Vec<(&Path, &Look)> = Vec::new();
    for (number, is_stale) in &stale {
        if let (true, Some(name), Some(Some(was))) =
            (is_stale, names.get(*number), earlier.get(*number))
        {
            rest.push((name, was.look()));
        }
    }
    wait_for_rest(&rest);
    let by = parts.ground.by();
    let read: Vec<(Change, Arc<ChainFile>)> = stale
        .into_par_iter()
        .filter_map(|(number, is_stale)| {
            let (name, was) = (names.get(number)?, earlier.get(number)?.clone());
            let file = match &was {
                Some(was) if !is_stale => was.reopened(by),
                was => ChainFile::read(name, by, was.as_deref(), is_same),
            };
            Some((Change { number, before: was }, Arc::new(file)))
        })
        .collect();
    confirm(&read, verifier);
    put(parts, earlier, read)
}

/// What each file of the map was before.
fn earlier(listed: &Arc<ChainMap>, before: Option<&World>) -> Vec<Option<Arc<ChainFile>>> {
    let Some(was) = before.map(World::parts) else { return vec![None; listed.names().len()] };
    if Arc::ptr_eq(&was.listed, listed) {
        return was.files.iter().cloned().map(Some).collect();
    }
    let by_name: HashMap<&Path, &Arc<ChainFile>> =
        was.listed.names().iter().map(AsRef::as_ref).zip(&was.files).collect();
    listed
        .names()
        .iter()
        .map(|name| by_name.get(name.as_path()).map(|file| (*file).clone()))
        .collect()
}

/// The files that have to be read, and with another world those that have to be opened anew, which
/// aren't stale.
fn looked_at<'a>(
    files: impl Iterator<Item = (&'a std::path::PathBuf, &'a Option<Arc<ChainFile>>)>,
    is_same: bool,
) -> Vec<(usize, bool)> {
    let stale = files.map(|(name, was)| was.as_ref().is_none_or(|was| was.is_stale(name)));
    stale.enumerate().filter(|(_, is_stale)| *is_stale || !is_same).collect()
}

/// Confirms what was read, as far as the time reaches.
fn confirm(read: &[(Change, Arc<ChainFile>)], verifier: &Verifier) {
    let until = Instant::now() + PATIENCE;
    read.par_iter().for_each(|(change, file)| {
        if let Some(chain) = file.chain().filter(|_| Instant::now() < until) {
            let before = change.before.as_ref().and_then(|before| before.chain());
            chain.confirm(verifier, before.map(AsRef::as_ref));
        }
    });
}

/// Puts what was read to what is taken from before.
fn put(
    parts: &mut Parts,
    mut files: Vec<Option<Arc<ChainFile>>>,
    read: Vec<(Change, Arc<ChainFile>)>,
) -> Vec<Change> {
    let mut changes = Vec::with_capacity(read.len());
    for (change, file) in read {
        if let Some(place) = files.get_mut(change.number) {
            *place = Some(file);
        }
        changes.push(change);
    }
    // Each file that was nothing before was read.
    parts.files = files.into_iter().flatten().collect();
    changes
}
