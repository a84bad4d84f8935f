//! Certificates that are fetched when a call needs them. A call waits for them at most so long, and
//! so many calls at most wait at once; a wait holds no lock and no thread.
mod list;
mod told;
mod wait;

pub use list::Page;
pub use told::Told;
pub use wait::{Came, Certificates};

use crate::metrics::Metrics;
use std::path::PathBuf;
use std::sync::{Arc, Mutex};
use std::time::{Duration, Instant};
use stir_trust::cache::{Bounds, Cache, Folder, FolderFault, SystemClock};
use stir_trust::fetch::Fetcher;
use stir_trust::locks::Held;
use tokio::runtime::Handle;
use tokio::sync::Semaphore;

/// How long the last chains may take to be written, and how long is waited between two tries if
/// another program writes to the folder.
const LAST: Duration = Duration::from_secs(2);
const PAUSE: Duration = Duration::from_millis(100);

/// How certificates are fetched and kept.
#[derive(Clone, Debug, PartialEq, Eq)]
pub struct Order {
    /// The folder in which they are kept over restarts.
    pub folder: Option<PathBuf>,
    /// How long a call waits for them at most.
    pub limit: Duration,
    /// How many calls wait at once at most.
    pub waits: usize,
}

/// What fetches and keeps certificates.
pub struct Fetching {
    /// What was fetched.
    pub cache: Cache,
    limit: Duration,
    waits: Semaphore,
    metrics: Arc<Metrics>,
    told: Arc<Told>,
    /// Why the folder couldn't be written.
    unwritten: Mutex<Option<String>>,
}

impl Fetching {
    /// Fetches by this fetcher, within a runtime that goes on. What the folder has is kept already.
    ///
    /// # Errors
    ///
    /// The folder can't be made or read.
    pub fn start(
        order: &Order,
        fetcher: Fetcher,
        metrics: &Arc<Metrics>,
    ) -> Result<Fetching, FolderFault> {
        let (bounds, clock) = (Bounds::default(), Arc::new(SystemClock));
        let cache = match &order.folder {
            Some(path) => {
                let folder = Folder::open(path, bounds.entries)?;
                Cache::open(fetcher, bounds, clock, folder)?
            }
            None => Cache::new(fetcher, bounds, clock),
        };
        let told = Arc::new(Told::new(Arc::clone(metrics)));
        cache.fetch_in(Handle::current(), Arc::<Told>::clone(&told));
        Ok(Fetching {
            cache,
            limit: order.limit,
            waits: Semaphore::new(order.waits),
            metrics: Arc::clone(metrics),
            told,
            unwritten: Mutex::default(),
        })
    }

    /// Writes what is new to the folder. That it can't be written is told once.
    pub async fn save(&self) {
        let fault = self.cache.save().await.err().map(|fault| fault.to_string());
        let was = std::mem::replace(&mut *self.unwritten.lock().held(), fault.clone());
        if let Some(fault) = fault.filter(|fault| was.as_ref() != Some(fault)) {
            tracing::warn!("{fault}: certificates that were fetched stay in memory alone");
        }
    }

    /// The same at the end of the service, for a while at most.
    pub async fn save_last(&self) {
        let until = Instant::now() + LAST;
        while Instant::now() < until {
            let left = until.saturating_duration_since(Instant::now());
            match tokio::time::timeout(left, self.cache.save()).await {
                Ok(Err(FolderFault::Busy(_))) => tokio::time::sleep(PAUSE).await,
                Ok(Ok(())) => return,
                Ok(Err(fault)) => return tracing::warn!("{fault}"),
                Err(_) => break,
            }
        }
        tracing::warn!("what was fetched last couldn't be written in time");
    }

    /// What is to be looked at, though calls are judged.
    pub fn notes(&self) -> Vec<String> {
        let unwritten = self.unwritten.lock().held().clone();
        let unwritten = unwritten.map(|fault| format!("certificates: {fault}"));
        self.told.note().into_iter().chain(unwritten).collect()
    }

    /// Writes what there is now to the metrics.
    pub fn measure(&self) {
        let (counts, fetches) = (self.cache.counts(), &self.metrics.fetches);
        fetches.going.set(counts.flights as i64);
        fetches.entries.set(counts.entries as i64);
        fetches.bytes.set(counts.bytes as i64);
    }
}
