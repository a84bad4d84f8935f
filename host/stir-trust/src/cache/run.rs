//! A run over x5us, by a program that fetches what is due and ends.
use super::folder::{Folder, FolderFault};
use super::kept::{Entry, Times};
use super::Clock;
use crate::fetch::{Fetcher, Reason};
use std::collections::{HashMap, HashSet};
use std::panic::resume_unwind;
use std::sync::Arc;
use std::time::Duration;
use tokio::task::JoinSet;

/// So many chains are written at once.
const BATCH: usize = 32;

/// If another program writes to the folder, a run tries again so often, after so long each time.
const TRIES: usize = 50;
const PAUSE: Duration = Duration::from_millis(100);

/// What a run tells of an x5u.
///
/// ```
/// use stir_trust::{cache::Told, fetch::Reason};
///
/// let told = Told::Failed { reason: Reason::Dns, stays: None };
/// assert!(matches!(told, Told::Failed { stays: None, .. }));
/// ```
#[derive(Clone, Debug, PartialEq, Eq)]
pub enum Told {
    /// It was fetched, and is written.
    Fetched(Entry),
    /// It wasn't. What was in the folder stays, with these times.
    Failed {
        /// Why.
        reason: Reason,
        /// The times of what stays.
        stays: Option<Times>,
    },
}

/// What a run fetches by, and into.
///
/// ```
/// # use std::sync::Arc;
/// use stir_trust::cache::{Folder, Run, SystemClock, Told};
/// use stir_trust::fetch::{Fetcher, Hosts, Reason, Settings, SystemResolver};
///
/// # let path = std::env::temp_dir().join(format!("stir-run-{}", std::process::id()));
/// # let runtime = tokio::runtime::Builder::new_current_thread().enable_all().build()?;
/// let run = Run {
///     fetcher: Arc::new(Fetcher::new(Settings::new(Hosts::default()), Arc::new(SystemResolver))?),
///     folder: Folder::open(&path, 50_000)?,
///     clock: Arc::new(SystemClock),
///     is_all: false,
///     jobs: 8,
/// };
/// let mut told = Vec::new();
/// let x5us = ["https://cr.example/a.pem".to_string()];
/// let there = runtime.block_on(run.fetch(&x5us, |_, what| told.push(what)))?;
/// assert!(there.is_empty());
/// assert_eq!(told, [Told::Failed { reason: Reason::Listed, stays: None }]);
/// # std::fs::remove_dir_all(&path)?;
/// # Ok::<(), Box<dyn std::error::Error>>(())
/// ```
pub struct Run {
    /// What fetches.
    pub fetcher: Arc<Fetcher>,
    /// Where the chains are kept.
    pub folder: Folder,
    /// What tells the time.
    pub clock: Arc<dyn Clock>,
    /// Whether what isn't due is fetched too.
    pub is_all: bool,
    /// How many are fetched at once.
    pub jobs: usize,
}

impl Run {
    /// Fetches those of these x5us that aren't in the folder or are due, and tells what comes of
    /// each: that it is fetched once it is written, so a run that is killed loses no chain of which
    /// it had told. Returns those of these x5us that are in the folder then, in their order, with
    /// their times.
    ///
    /// # Errors
    ///
    /// The folder can't be read or written, or another program writes to it for seconds.
    ///
    /// [The example](Run) is that of a run.
    pub async fn fetch(
        &self,
        x5us: &[String],
        mut tell: impl FnMut(&str, Told),
    ) -> Result<Vec<(String, Times)>, FolderFault> {
        // Before anybody is asked it is known whether the folder can be written.
        self.save(&[]).await?;
        let now = self.clock.now();
        let mut seen = HashSet::new();
        let x5us: Vec<&str> =
            x5us.iter().map(AsRef::as_ref).filter(|it| seen.insert(*it)).collect();
        let asked: Vec<String> = x5us.iter().map(|x5u| (*x5u).to_owned()).collect();
        let times = move |folder: &Folder| {
            let asked: Vec<&str> = asked.iter().map(AsRef::as_ref).collect();
            folder.times_of(&asked, now)
        };
        let mut there: HashMap<String, Times> = self.in_thread(times).await?;
        let is_due =
            |x5u: &&&str| self.is_all || there.get(**x5u).is_none_or(|times| times.due <= now);
        let due: Vec<String> = x5us.iter().filter(is_due).map(|x5u| (*x5u).to_owned()).collect();
        let (mut due, mut going, mut batch) = (due.into_iter(), JoinSet::new(), Vec::new());
        loop {
            while going.len() < self.jobs.max(1) {
                let Some(x5u) = due.next() else { break };
                let fetcher = Arc::clone(&self.fetcher);
                going.spawn(async move { (fetcher.fetch(&x5u).await, x5u) });
            }
            let Some(landed) = going.join_next().await else { break };
            match landed.unwrap_or_else(|error| resume_unwind(error.into_panic())) {
                (Ok(fetched), x5u) => batch.push((x5u, Entry::of(&fetched, self.clock.now()))),
                (Err(reason), x5u) => {
                    let stays = there.get(&x5u).copied();
                    tell(&x5u, Told::Failed { reason, stays });
                }
            }
            if batch.len() >= BATCH || going.is_empty() {
                self.save(&batch).await?;
                for (x5u, entry) in batch.drain(..) {
                    there.insert(x5u.clone(), entry.times());
                    tell(&x5u, Told::Fetched(entry));
                }
            }
        }
        let of = |x5u: &str| Some((x5u.to_owned(), *there.get(x5u)?));
        Ok(x5us.into_iter().filter_map(of).collect())
    }

    /// Writes these entries, if another program that writes soon ends.
    async fn save(&self, batch: &[(String, Entry)]) -> Result<(), FolderFault> {
        let mut left = TRIES;
        loop {
            let batch = batch.to_vec();
            let write = move |folder: &Folder| {
                let entries: Vec<(&str, &Entry)> =
                    batch.iter().map(|(x5u, entry)| (x5u.as_str(), entry)).collect();
                folder.save(&entries)
            };
            match self.in_thread(write).await {
                Err(FolderFault::Busy(_)) if left > 0 => tokio::time::sleep(PAUSE).await,
                saved => return saved,
            }
            left -= 1;
        }
    }

    /// What is done with the folder by a thread that may wait for the disk.
    async fn in_thread<T: Send + 'static>(
        &self,
        what: impl FnOnce(&Folder) -> T + Send + 'static,
    ) -> T {
        let folder = self.folder.clone();
        let done = tokio::task::spawn_blocking(move || what(&folder)).await;
        done.unwrap_or_else(|error| resume_unwind(error.into_panic()))
    }
}
