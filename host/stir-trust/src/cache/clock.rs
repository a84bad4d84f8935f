//! The clocks by which certificates are kept.
use std::sync::OnceLock;
use std::time::{Duration, Instant, SystemTime, UNIX_EPOCH};

/// What tells the time. Tests have one that they move.
pub trait Clock: Send + Sync {
    /// The second, in Unix time. It may leap, also back.
    fn now(&self) -> u64;

    /// The time since some start. It never goes back, and never leaps.
    fn since_start(&self) -> Duration;
}

/// The clocks of the machine.
///
/// ```
/// use stir_trust::cache::{Clock, SystemClock};
///
/// let start = SystemClock.since_start();
/// assert!(SystemClock.now() > 1_700_000_000 && SystemClock.since_start() >= start);
/// ```
#[derive(Clone, Copy, Debug, Default)]
pub struct SystemClock;

impl Clock for SystemClock {
    fn now(&self) -> u64 {
        SystemTime::now().duration_since(UNIX_EPOCH).map_or(0, |since| since.as_secs())
    }

    fn since_start(&self) -> Duration {
        static START: OnceLock<Instant> = OnceLock::new();
        START.get_or_init(Instant::now).elapsed()
    }
}
