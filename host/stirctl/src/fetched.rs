//! Certificates that are fetched when calls that are judged need them.

use crate::asking::{folder, runtime, Asking, JOBS, SECONDS};
use crate::chains::{length, Chains};
use crate::summary::date;
use crate::words::{FetchFrom, YesNo};
use crate::{say, Fault};
use std::collections::HashSet;
use std::fs;
use std::path::{Path, PathBuf};
use std::sync::{Arc, Mutex, PoisonError};
use stir_trust::cache::{Run, SystemClock, Told};
use tokio::runtime::Runtime;

/// So many x5us of hosts that may not be asked are named, and no more.
const MOST_NAMED: usize = 1_000;

/// What fetches certificates, each x5u once a run.
pub(crate) struct Fetching {
    run: Run,
    runtime: Runtime,
    asked: Mutex<Asked>,
    /// Goes with the run, if the certificates do.
    _temporary: Option<Temporary>,
}

/// The x5us that were asked for.
struct Asked {
    /// Those of hosts that may be asked.
    of_hosts: HashSet<String>,
    /// The first others.
    others: HashSet<String>,
    /// How many lines and bytes of a chain map are left for what is fetched.
    room: (usize, usize),
    /// Whether it was told that there are more.
    is_full: bool,
    is_other_full: bool,
}

impl Fetching {
    /// What fetches by these words, if they say so, beside these chains.
    pub fn of(from: &FetchFrom, chains: &Chains) -> Result<Option<Fetching>, Fault> {
        let Some(hosts) = &from.fetch_hosts else { return Ok(None) };
        let authorities = from.fetch_authorities.as_deref();
        let is_private = from.fetch_private == Some(YesNo::Yes);
        let asking = Asking { hosts, authorities, is_private, seconds: SECONDS };
        let fetcher = Arc::new(asking.fetcher()?);
        let temporary = match &from.fetch {
            Some(_) => None,
            None => Some(Temporary::new()?),
        };
        let at = from.fetch.as_deref().map(Path::new);
        let at = at.or(temporary.as_ref().map(|it| it.0.as_path())).unwrap_or(Path::new(""));
        let folder = folder(at)?;
        let run = Run { fetcher, folder, clock: Arc::new(SystemClock), is_all: false, jobs: JOBS };
        let asked = Mutex::new(Asked {
            of_hosts: HashSet::new(),
            others: HashSet::new(),
            room: chains.room(),
            is_full: false,
            is_other_full: false,
        });
        Ok(Some(Fetching { run, runtime: runtime()?, asked, _temporary: temporary }))
    }

    /// Fetches those of these x5us that weren't asked for before in this run, and adds the files of
    /// those that are there then to the chains. What fails is named. If another thread fetches,
    /// this waits for it.
    pub fn fetch(&self, x5us: &[&[u8]], chains: &Chains) -> Result<(), Fault> {
        let mut asked = self.asked.lock().unwrap_or_else(PoisonError::into_inner);
        let x5us = x5us.iter().filter_map(|x5u| std::str::from_utf8(x5u).ok());
        let new = x5us.filter(|x5u| self.is_new(&mut asked, x5u));
        let new: Vec<String> = new.map(str::to_owned).collect();
        if !new.is_empty() {
            let there = self.runtime.block_on(self.run.fetch(&new, tell))?;
            chains.add(there.into_iter().map(|(x5u, _)| {
                let file = self.run.folder.file_of(&x5u);
                (x5u.into_bytes(), file)
            }));
        }
        Ok(())
    }

    /// Whether this x5u is to be asked for now; it isn't again.
    fn is_new(&self, asked: &mut Asked, x5u: &str) -> bool {
        if asked.of_hosts.contains(x5u) || asked.others.contains(x5u) {
            return false;
        }
        if let Err(reason) = self.run.fetcher.host_of(x5u) {
            if asked.others.len() < MOST_NAMED {
                asked.others.insert(x5u.to_owned());
                say(&format!("{x5u}: {reason}; its calls break rule 10"));
            } else if !std::mem::replace(&mut asked.is_other_full, true) {
                say("more x5us can't be fetched, and aren't named; their calls break rule 10");
            }
            return false;
        }
        let (lines, bytes) = asked.room;
        let takes = length(x5u.as_bytes(), &self.run.folder.file_of(x5u));
        if lines == 0 || bytes < takes {
            if !std::mem::replace(&mut asked.is_full, true) {
                say("a chain map has no room for more x5us; those after them break rule 10");
            }
            return false;
        }
        asked.room = (lines - 1, bytes - takes);
        asked.of_hosts.insert(x5u.to_owned())
    }
}

/// Names what failed.
fn tell(x5u: &str, what: Told) {
    let Told::Failed { reason, stays } = what else { return };
    let left = match stays {
        Some(times) => format!("the file of {} stays", date(times.fetched).0),
        None => "its calls break rule 10".into(),
    };
    say(&format!("{x5u}: {reason}; {left}"));
}

/// A folder that goes in the end.
struct Temporary(PathBuf);

impl Temporary {
    fn new() -> Result<Temporary, Fault> {
        let path = std::env::temp_dir().join(format!("stirctl-fetch-{}", std::process::id()));
        let made = fs::create_dir(&path);
        made.map_err(|error| Fault::write("a temporary folder", &error))?;
        Ok(Temporary(path))
    }
}

impl Drop for Temporary {
    fn drop(&mut self) {
        // If it can't be removed it lies among the temporary files.
        let _ = fs::remove_dir_all(&self.0);
    }
}
