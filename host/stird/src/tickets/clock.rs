//! The two clocks by which tickets are forgotten.
use std::sync::OnceLock;
use std::time::{Instant, SystemTime, UNIX_EPOCH};

/// What tells the time. Tests have one that they move.
pub trait Clock: Send + Sync {
    /// The second, in Unix time. It may leap, also back.
    fn now(&self) -> u64;

    /// The seconds since some start. They never go back, and never leap.
    fn monotonic(&self) -> u64;
}

/// The clocks of the machine. The monotonic one counts from the first reading in this process.
///
/// ```
/// use stird::tickets::{Clock, SystemClock};
///
/// let start = SystemClock.monotonic();
/// assert!(SystemClock.now() > 1_700_000_000 && SystemClock.monotonic() - start < 60);
/// ```
#[derive(Clone, Copy, Debug, Default)]
pub struct SystemClock;

impl Clock for SystemClock {
    fn now(&self) -> u64 {
        SystemTime::now().duration_since(UNIX_EPOCH).map_or(0, |since| since.as_secs())
    }

    fn monotonic(&self) -> u64 {
        static START: OnceLock<Instant> = OnceLock::new();
        START.get_or_init(Instant::now).elapsed().as_secs()
    }
}
