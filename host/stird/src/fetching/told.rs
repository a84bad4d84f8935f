//! How fetches end: counted, and told in the log, of each URI once a minute.
use crate::metrics::Metrics;
use std::collections::HashMap;
use std::sync::{Arc, Mutex};
use std::time::{Duration, Instant};
use stir_trust::cache::Witness;
use stir_trust::fetch::Reason;
use stir_trust::locks::Held;

/// How long nothing more is told of a URI.
const MINUTE: Duration = Duration::from_secs(60);

/// Of how many URIs is told in a minute. Strangers choose them.
const MOST: usize = 100;

/// After so many failures in a row, fetching fails for all.
const FAILURES: u64 = 5;

/// Who is told how fetches end.
pub struct Told {
    metrics: Arc<Metrics>,
    lines: Mutex<Lines>,
    streak: Mutex<Streak>,
}

/// Of which URIs was told in the last minute, and of how many more it wasn't.
#[derive(Default)]
struct Lines {
    told: HashMap<Box<str>, Instant>,
    more: u64,
}

/// The failures since the last fetch that brought certificates.
#[derive(Default)]
struct Streak {
    count: u64,
    last: String,
}

impl Told {
    pub(super) fn new(metrics: Arc<Metrics>) -> Told {
        Told { metrics, lines: Mutex::default(), streak: Mutex::default() }
    }

    /// Tells that nothing comes of a URI, if that wasn't told lately.
    pub(super) fn say(&self, x5u: &str, reason: &Reason) {
        let (is_new, more) = self.lines.lock().held().is_new(x5u, Instant::now());
        if more > 0 {
            tracing::warn!("{more} more x5us couldn't be fetched in the last minute");
        }
        if is_new {
            tracing::warn!("{x5u:?} can't be fetched: {reason}");
        }
    }

    /// That fetching fails for all, if it does.
    pub(super) fn note(&self) -> Option<String> {
        let Streak { count, last } = &*self.streak.lock().held();
        (*count >= FAILURES)
            .then(|| format!("certificates: the last {count} fetches failed: {last}"))
    }
}

impl Witness for Told {
    fn landed(&self, x5u: &str, took: Option<Duration>, came: Result<(), &Reason>) {
        self.metrics.fetches.count(came);
        if let Some(took) = took {
            self.metrics.fetches.seconds.observe(took.as_secs_f64());
        }
        let mut streak = self.streak.lock().held();
        match came {
            Ok(()) => *streak = Streak::default(),
            Err(reason) => {
                let last = format!("{x5u:?}: {reason}");
                *streak = Streak { count: streak.count.saturating_add(1), last };
                drop(streak);
                self.say(x5u, reason);
            }
        }
    }
}

impl Lines {
    /// Whether to tell of a URI now; and of how many it wasn't told, once that can be said.
    fn is_new(&mut self, x5u: &str, now: Instant) -> (bool, u64) {
        let is_over = |then: &Instant| now.saturating_duration_since(*then) >= MINUTE;
        if self.told.len() >= MOST {
            self.told.retain(|_, then| !is_over(then));
        }
        if self.told.get(x5u).is_some_and(|then| !is_over(then)) {
            return (false, 0);
        }
        if self.told.len() >= MOST {
            self.more += 1;
            return (false, 0);
        }
        self.told.insert(x5u.into(), now);
        (true, std::mem::take(&mut self.more))
    }
}

#[cfg(test)]
mod tests {
    use super::*;

    #[test]
    fn of_a_uri_is_told_once_a_minute_and_of_a_hundred_at_most() {
        let (mut lines, start) = (Lines::default(), Instant::now());
        let mut new = |x5u: &str, seconds| lines.is_new(x5u, start + Duration::from_secs(seconds));
        assert_eq!((new("a", 0), new("a", 59), new("b", 59)), ((true, 0), (false, 0), (true, 0)));
        assert_eq!(new("a", 60), (true, 0));
        let told = (0..1_000).filter(|number| new(&format!("x {number}"), 61).0).count();
        assert_eq!(told, MOST - 2);
        assert_eq!(new("y", 118), (false, 0), "a hundred were told of in the last minute");
        assert_eq!(new("y", 119), (true, 903), "that of b is a minute old");
        assert!(lines.told.len() <= MOST);
    }

    #[test]
    fn that_all_fetches_fail_is_noted_until_one_succeeds() {
        let told = Told::new(Arc::new(Metrics::new().expect("names that are good")));
        let failure = Err(&Reason::Dns);
        for number in 1..=6 {
            told.landed("https://cr.example/\n", None, failure);
            assert_eq!(told.note().is_some(), number >= FAILURES, "{number}");
        }
        let note = told.note().unwrap_or_default();
        assert!(
            note.ends_with("6 fetches failed: \"https://cr.example/\\n\": its host isn't found")
        );
        told.landed("https://cr.example/", Some(MINUTE), Ok(()));
        assert_eq!(told.note(), None);
        assert_eq!(told.metrics.fetches.seconds.get_sample_count(), 1);
    }
}
