//! The moments of calls that come in the order of one clock.
use super::SLACK;
use std::sync::atomic::{AtomicU64, Ordering::SeqCst};

/// The latest moment of any call that passed the rules. Calls come in the order of their moments,
/// as those of a log do: so one that lies too far behind it came before, or is late, and its ticket
/// may be forgotten, here or by whoever shares the tickets.
///
/// ```
/// use stird::tickets::Latest;
///
/// let latest = Latest::default();
/// assert!(!latest.leaves_behind(1_000, 1_060));
/// assert!(!latest.leaves_behind(1_070, 1_130) && !latest.leaves_behind(1_000, 1_060));
/// assert!(!latest.leaves_behind(1_071, 1_131) && latest.leaves_behind(1_000, 1_060));
/// ```
#[derive(Debug, Default)]
pub struct Latest(AtomicU64);

impl Latest {
    /// Whether a call of this moment, whose ticket is fresh up to the second `last`, lies so far
    /// behind that its ticket may be forgotten.
    pub fn leaves_behind(&self, moment: u64, last: u64) -> bool {
        let latest = self.0.fetch_max(moment, SeqCst).max(moment);
        last.saturating_add(SLACK) < latest
    }
}
