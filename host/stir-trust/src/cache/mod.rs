//! Certificates that are fetched when a call needs them, and kept.
//!
//! - All who wait for an x5u wait for one fetch of it.
//! - It is bounded how many fetches go on, in all and a host, and how many *new* x5us are asked for
//!   in a second, since strangers choose them. An x5u that failed isn't asked for again for ten
//!   seconds, doubling to five minutes, and a host that failed five times in a row isn't for 30.
//! - What was fetched is kept as long as the server says, from five minutes to a day, and never
//!   past a certificate's end. It is fetched anew in the background before it is due; if that
//!   fails, the old one stays. At a bound of entries or bytes the least lately asked leaves.
//! - With a [`Folder`] a start needs no network.
//!
//! ```
//! use std::sync::Arc;
//! use std::time::Duration;
//! use stir_trust::cache::{Bounds, Cache, Miss, SystemClock};
//! use stir_trust::fetch::{Fetcher, Hosts, Reason, Settings, SystemResolver};
//!
//! let settings = Settings::new(Hosts::read(b"*.carriers.example\n")?);
//! let fetcher = Fetcher::new(settings, Arc::new(SystemResolver))?;
//! let cache = Cache::new(fetcher, Bounds::default(), Arc::new(SystemClock));
//! let runtime = tokio::runtime::Builder::new_current_thread().enable_all().build()?;
//! let wait = Duration::from_millis(1200);
//! let missed = runtime.block_on(cache.wait("https://elsewhere.example/a.pem", wait));
//! assert_eq!(missed, Err(Miss::Failed(Reason::Listed)));
//! # Ok::<(), Box<dyn std::error::Error>>(())
//! ```
mod bounds;
mod clock;
mod flights;
mod folder;
mod kept;
mod limits;
mod run;
mod seen;
mod witness;

pub use bounds::{Bounds, Counts, Miss};
pub use clock::{Clock, SystemClock};
pub use folder::{Folder, FolderFault};
pub use kept::{Entry, Times};
pub use run::{Run, Told};
pub use witness::Witness;

use crate::fetch::Fetcher;
use crate::locks::Held;
use flights::{Brought, For};
use kept::Kept;
use limits::Limits;
use std::collections::{HashMap, HashSet};
use std::fmt::{self, Debug, Formatter};
use std::sync::{Arc, Mutex, OnceLock};
use std::time::Duration;
use tokio::runtime::Handle;
use tokio::sync::{watch, Semaphore};

/// Chains by their x5us, fetched and kept. A clone is the same cache. It is used within a runtime
/// of tokio.
#[derive(Clone)]
pub struct Cache(Arc<Inner>);

struct Inner {
    bounds: Bounds,
    clock: Arc<dyn Clock>,
    folder: Option<Folder>,
    jobs: Semaphore,
    anew: Semaphore,
    state: Mutex<State>,
    /// The runtime of the flights; that of whoever asks if none is said.
    runtime: OnceLock<Handle>,
    witness: OnceLock<Arc<dyn Witness>>,
}

struct State {
    fetcher: Arc<Fetcher>,
    kept: Kept,
    limits: Limits,
    flights: HashMap<String, watch::Receiver<Brought>>,
    /// What is kept and not in the folder yet.
    unsaved: HashSet<String>,
    counts: Counts,
}

impl Debug for Cache {
    fn fmt(&self, to: &mut Formatter<'_>) -> fmt::Result {
        to.debug_struct("Cache").field("counts", &self.counts()).finish_non_exhaustive()
    }
}

impl Cache {
    /// A cache without a folder.
    ///
    /// ```
    /// # use std::sync::Arc;
    /// # use stir_trust::cache::{Bounds, Cache, SystemClock};
    /// # use stir_trust::fetch::{Fetcher, Hosts, Settings, SystemResolver};
    /// # let fetcher = Fetcher::new(Settings::new(Hosts::default()), Arc::new(SystemResolver))?;
    /// let cache = Cache::new(fetcher, Bounds::default(), Arc::new(SystemClock));
    /// assert_eq!(cache.counts().entries, 0);
    /// # Ok::<(), Box<dyn std::error::Error>>(())
    /// ```
    pub fn new(fetcher: Fetcher, bounds: Bounds, clock: Arc<dyn Clock>) -> Cache {
        Cache::made(fetcher, bounds, clock, None)
    }

    /// A cache with what is in a folder of hosts that may be asked, into which [`Cache::save`]
    /// writes. It reads files, so it is called before the service serves.
    ///
    /// # Errors
    ///
    /// The folder can't be read.
    ///
    /// ```
    /// # use std::sync::Arc;
    /// # use stir_trust::cache::{Bounds, Cache, Folder, SystemClock};
    /// # use stir_trust::fetch::{Fetcher, Hosts, Settings, SystemResolver};
    /// # let fetcher = Fetcher::new(Settings::new(Hosts::default()), Arc::new(SystemResolver))?;
    /// # let path = std::env::temp_dir().join(format!("stir-cache-{}", std::process::id()));
    /// let folder = Folder::open(&path, 20_000)?;
    /// let cache = Cache::open(fetcher, Bounds::default(), Arc::new(SystemClock), folder)?;
    /// assert_eq!(cache.counts().entries, 0);
    /// # std::fs::remove_dir_all(&path)?;
    /// # Ok::<(), Box<dyn std::error::Error>>(())
    /// ```
    pub fn open(
        fetcher: Fetcher,
        bounds: Bounds,
        clock: Arc<dyn Clock>,
        folder: Folder,
    ) -> Result<Cache, FolderFault> {
        let found = folder.load(clock.now())?;
        let cache = Cache::made(fetcher, bounds, clock, Some(folder));
        let state = &mut *cache.0.state.lock().held();
        for (x5u, entry) in found {
            if state.fetcher.host_of(&x5u).is_ok() {
                state.kept.put(&x5u, Arc::new(entry));
            }
        }
        Ok(cache.clone())
    }

    fn made(
        fetcher: Fetcher,
        bounds: Bounds,
        clock: Arc<dyn Clock>,
        folder: Option<Folder>,
    ) -> Cache {
        let state = Mutex::new(State {
            fetcher: Arc::new(fetcher),
            kept: Kept::new(bounds.entries, bounds.bytes),
            limits: Limits::new(bounds),
            flights: HashMap::new(),
            unsaved: HashSet::new(),
            counts: Counts::default(),
        });
        let (jobs, anew) = (Semaphore::new(bounds.jobs), Semaphore::new(bounds.jobs.div_ceil(2)));
        let (runtime, witness) = (OnceLock::new(), OnceLock::new());
        Cache(Arc::new(Inner { bounds, clock, folder, jobs, anew, state, runtime, witness }))
    }

    /// The chain of this x5u, if it is kept. If it is soon due, it is fetched anew meanwhile.
    ///
    /// ```
    /// # use std::sync::Arc;
    /// # use stir_trust::cache::{Bounds, Cache, SystemClock};
    /// # use stir_trust::fetch::{Fetcher, Hosts, Settings, SystemResolver};
    /// # let fetcher = Fetcher::new(Settings::new(Hosts::default()), Arc::new(SystemResolver))?;
    /// let cache = Cache::new(fetcher, Bounds::default(), Arc::new(SystemClock));
    /// assert_eq!(cache.held("https://cr.example/a.pem"), None);
    /// # Ok::<(), Box<dyn std::error::Error>>(())
    /// ```
    pub fn held(&self, x5u: &str) -> Option<Arc<Entry>> {
        self.held_in(&mut self.0.state.lock().held(), x5u)
    }

    fn held_in(&self, state: &mut State, x5u: &str) -> Option<Arc<Entry>> {
        let now = self.0.clock.now();
        let entry = state.kept.asked(x5u, now)?;
        self.renew(state, x5u, now);
        Some(entry)
    }

    /// Begins to fetch anew what is to be. If as much is asked as may be, it is tried later.
    fn renew(&self, state: &mut State, x5u: &str, now: u64) {
        if state.kept.is_wanted(x5u, now)
            && flights::joined(&self.0, state, x5u, For::Anew).is_err()
        {
            state.kept.failed(x5u, now);
        }
    }

    /// The chain of this x5u, for which so long is waited at most; not at all if that is zero.
    /// Whoever waits in vain leaves the fetch on its way.
    ///
    /// # Errors
    ///
    /// It isn't there yet, or its fetch failed.
    ///
    /// ```
    /// # use std::{sync::Arc, time::Duration};
    /// # use stir_trust::cache::{Bounds, Cache, Miss, SystemClock};
    /// # use stir_trust::fetch::{Fetcher, Hosts, Settings, SystemResolver};
    /// # let runtime = tokio::runtime::Builder::new_current_thread().enable_all().build()?;
    /// let settings = Settings::new(Hosts::read(b"*\n")?);
    /// let fetcher = Fetcher::new(settings, Arc::new(SystemResolver))?;
    /// let cache = Cache::new(fetcher, Bounds::default(), Arc::new(SystemClock));
    /// let late = runtime.block_on(cache.wait("https://localhost/a.pem", Duration::ZERO));
    /// assert_eq!(late, Err(Miss::Late));
    /// # Ok::<(), Box<dyn std::error::Error>>(())
    /// ```
    pub async fn wait(&self, x5u: &str, limit: Duration) -> Result<Arc<Entry>, Miss> {
        let mut flight = {
            let state = &mut *self.0.state.lock().held();
            if let Some(entry) = self.held_in(state, x5u) {
                return Ok(entry);
            }
            flights::joined(&self.0, state, x5u, For::First)?
        };
        if limit.is_zero() {
            return Err(Miss::Late);
        }
        let landed = async {
            loop {
                if let Some(brought) = &*flight.borrow_and_update() {
                    return Ok(brought.clone()?);
                }
                // Without a word it ended only if the runtime did.
                flight.changed().await.map_err(|_| Miss::Late)?;
            }
        };
        tokio::time::timeout(limit, landed).await.unwrap_or(Err(Miss::Late))
    }

    /// Drops what is too old, and begins to fetch anew what was asked for and is soon due. The
    /// service calls it every few seconds.
    ///
    /// ```
    /// # use std::sync::Arc;
    /// # use stir_trust::cache::{Bounds, Cache, SystemClock};
    /// # use stir_trust::fetch::{Fetcher, Hosts, Settings, SystemResolver};
    /// # let fetcher = Fetcher::new(Settings::new(Hosts::default()), Arc::new(SystemResolver))?;
    /// let cache = Cache::new(fetcher, Bounds::default(), Arc::new(SystemClock));
    /// cache.tend();
    /// # assert_eq!(cache.counts().flights, 0);
    /// # Ok::<(), Box<dyn std::error::Error>>(())
    /// ```
    pub fn tend(&self) {
        let now = self.0.clock.now();
        let state = &mut *self.0.state.lock().held();
        for x5u in state.kept.drop_old(now) {
            state.unsaved.remove(&x5u);
        }
        for x5u in state.kept.wanted(now) {
            self.renew(state, &x5u, now);
        }
    }

    /// Writes what is new to the folder, by a thread that may wait for the disk. The service calls
    /// it every few seconds.
    ///
    /// # Errors
    ///
    /// It can't be written, or another program writes to the folder. It is tried again with the
    /// next call.
    ///
    /// ```
    /// # use std::sync::Arc;
    /// # use stir_trust::cache::{Bounds, Cache, SystemClock};
    /// # use stir_trust::fetch::{Fetcher, Hosts, Settings, SystemResolver};
    /// # let runtime = tokio::runtime::Builder::new_current_thread().enable_all().build()?;
    /// # let fetcher = Fetcher::new(Settings::new(Hosts::default()), Arc::new(SystemResolver))?;
    /// let cache = Cache::new(fetcher, Bounds::default(), Arc::new(SystemClock));
    /// assert!(runtime.block_on(cache.save()).is_ok(), "without a folder there is nothing to do");
    /// # Ok::<(), Box<dyn std::error::Error>>(())
    /// ```
    pub async fn save(&self) -> Result<(), FolderFault> {
        let Some(folder) = self.0.folder.clone() else { return Ok(()) };
        let entries: Vec<(String, Arc<Entry>)> = {
            let state = &mut *self.0.state.lock().held();
            let unsaved = std::mem::take(&mut state.unsaved);
            let entry = |x5u: String| Some((x5u.clone(), state.kept.entry(&x5u)?));
            unsaved.into_iter().filter_map(entry).collect()
        };
        if entries.is_empty() {
            return Ok(());
        }
        let names: Vec<String> = entries.iter().map(|(x5u, _)| x5u.clone()).collect();
        let write = move || {
            let entries: Vec<(&str, &Entry)> =
                entries.iter().map(|(x5u, entry)| (x5u.as_str(), &**entry)).collect();
            folder.save(&entries)
        };
        // A thread that panicked or a runtime that ends has written nothing that counts.
        let saved = tokio::task::spawn_blocking(write).await.unwrap_or(Ok(()));
        if saved.is_err() {
            self.0.state.lock().held().unsaved.extend(names);
        }
        saved
    }

    /// What it has done and has.
    ///
    /// ```
    /// # use std::sync::Arc;
    /// # use stir_trust::cache::{Bounds, Cache, SystemClock};
    /// # use stir_trust::fetch::{Fetcher, Hosts, Settings, SystemResolver};
    /// # let fetcher = Fetcher::new(Settings::new(Hosts::default()), Arc::new(SystemResolver))?;
    /// let cache = Cache::new(fetcher, Bounds::default(), Arc::new(SystemClock));
    /// assert_eq!(cache.counts(), Default::default());
    /// # Ok::<(), Box<dyn std::error::Error>>(())
    /// ```
    pub fn counts(&self) -> Counts {
        let state = self.0.state.lock().held();
        let (flights, entries) = (state.flights.len(), state.kept.len());
        Counts { flights, entries, bytes: state.kept.bytes(), ..state.counts.clone() }
    }
}
