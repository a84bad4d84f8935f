//! Flights: fetches on their way, one a URI, for all who wait for it.
use super::kept::Entry;
use super::limits::End;
use super::{Inner, State};
use crate::fetch::{Limit, Reason};
use crate::locks::Held;
use std::sync::Arc;
use std::time::{Duration, Instant};
use tokio::sync::{watch, Semaphore};

/// What a flight brings, once it does.
pub(super) type Brought = Option<Result<Arc<Entry>, Reason>>;

/// What a flight is for.
#[derive(Clone, Copy, PartialEq, Eq)]
pub(super) enum For {
    /// Those who wait for what isn't kept.
    First,
    /// What is kept, ahead of its time.
    Anew,
}

/// The flight of a URI: one that is on its way, or a new one.
///
/// It fails if the URI failed lately, its host may not be asked, or as much is asked as may be.
pub(super) fn joined(
    inner: &Arc<Inner>,
    state: &mut State,
    x5u: &str,
    what: For,
) -> Result<watch::Receiver<Brought>, Reason> {
    if let Some(flight) = state.flights.get(x5u) {
        return Ok(flight.clone());
    }
    let now = inner.clock.since_start();
    if let Some(reason) = state.limits.failure(x5u, now) {
        return Err(reason);
    }
    let host = state.fetcher.host_of(x5u)?;
    if state.flights.len() >= inner.bounds.flights {
        return Err(Reason::Limited(Limit::Flights));
    }
    let begun = state.limits.begin(&host, what == For::First, now);
    let turns = begun.map_err(Reason::Limited)?;
    let (tell, flight) = watch::channel(None);
    state.flights.insert(x5u.into(), flight.clone());
    let x5u = x5u.to_owned();
    let landing = Landing { inner: Arc::clone(inner), x5u, host, end: End::Gone };
    let flown = flown(landing, turns, what, tell);
    match inner.runtime.get() {
        Some(runtime) => drop(runtime.spawn(flown)),
        None => drop(tokio::spawn(flown)),
    }
    Ok(flight)
}

/// A flight from its begin to its end.
async fn flown(
    mut landing: Landing,
    turns: Arc<Semaphore>,
    what: For,
    tell: watch::Sender<Brought>,
) {
    let mut took = None;
    let brought = fetched(&landing, &turns, what, &mut took).await;
    landing.end = match &brought {
        Ok(_) => End::Good,
        Err(reason) => End::Failed(reason.clone()),
    };
    if let Ok(entry) = &brought {
        landing.keep(entry);
    }
    let (inner, x5u) = (Arc::clone(&landing.inner), landing.x5u.clone());
    // Those who come after it landed see what is kept or remembered.
    drop(landing);
    if let Some(witness) = inner.witness.get() {
        witness.landed(&x5u, took, brought.as_ref().map(drop));
    }
    tell.send_replace(Some(brought));
}

/// Waits for its turns, at the host and in all, and fetches; how long that took is told, if
/// anybody was asked.
async fn fetched(
    landing: &Landing,
    turns: &Semaphore,
    what: For,
    took: &mut Option<Duration>,
) -> Result<Arc<Entry>, Reason> {
    let Landing { inner, x5u, host, .. } = landing;
    let closed = |_| Reason::Limited(Limit::Flights);
    let _host = turns.acquire().await.map_err(closed)?;
    // What is fetched anew leaves half of the jobs to those who wait.
    let _anew = match what {
        For::First => None,
        For::Anew => Some(inner.anew.acquire().await.map_err(closed)?),
    };
    let _job = inner.jobs.acquire().await.map_err(closed)?;
    let fetcher = {
        let state = inner.state.lock().held();
        if state.limits.is_broken(host, inner.clock.since_start()) {
            return Err(Reason::Limited(Limit::Broken));
        }
        Arc::clone(&state.fetcher)
    };
    let begun = Instant::now();
    let fetched = fetcher.fetch(x5u).await;
    *took = Some(begun.elapsed());
    Ok(Arc::new(Entry::of(&fetched?, inner.clock.now())))
}

/// What a flight leaves when it ends, also if its task is dropped.
struct Landing {
    inner: Arc<Inner>,
    x5u: String,
    host: String,
    end: End,
}

impl Landing {
    fn keep(&self, entry: &Arc<Entry>) {
        let state = &mut *self.inner.state.lock().held();
        // Its host may have left the list since it was asked.
        if state.fetcher.host_of(&self.x5u).is_err() {
            return;
        }
        for left in state.kept.put(&self.x5u, Arc::clone(entry)) {
            state.unsaved.remove(&left);
        }
        if self.inner.folder.is_some() {
            state.unsaved.insert(self.x5u.clone());
        }
    }
}

impl Drop for Landing {
    fn drop(&mut self) {
        let state = &mut *self.inner.state.lock().held();
        state.flights.remove(&self.x5u);
        state.limits.end(&self.x5u, &self.host, &self.end, self.inner.clock.since_start());
        match &self.end {
            End::Good => state.counts.good += 1,
            End::Failed(reason) => {
                *state.counts.failed.entry(reason.word()).or_default() += 1;
                state.kept.failed(&self.x5u, self.inner.clock.now());
            }
            End::Gone => {}
        }
    }
}
