//! How much is fetched at once and kept, and what comes of it.
use crate::fetch::Reason;
use std::collections::BTreeMap;
use thiserror::Error;

/// How much is fetched at once and kept.
///
/// ```
/// let bounds = stir_trust::cache::Bounds::default();
/// assert_eq!((bounds.new_a_second, bounds.entries), (20, 20_000));
/// ```
#[derive(Clone, Copy, Debug, PartialEq, Eq)]
pub struct Bounds {
    /// The most flights: fetches that go on or wait for their turn.
    pub flights: usize,
    /// The most fetches that go on at once.
    pub jobs: usize,
    /// The most fetches that go on at once from a host.
    pub host_flights: usize,
    /// The most flights to a host.
    pub host_waiting: usize,
    /// The most new x5us in any second.
    pub new_a_second: usize,
    /// The most new x5us of a host in any minute.
    pub host_new_a_minute: usize,
    /// The most chains that are kept.
    pub entries: usize,
    /// The most bytes of them.
    pub bytes: usize,
    /// The most x5us, and the most hosts, of which it is remembered that they failed.
    pub remembered: usize,
}

impl Default for Bounds {
    fn default() -> Bounds {
        Bounds {
            flights: 256,
            jobs: 8,
            host_flights: 2,
            host_waiting: 16,
            new_a_second: 20,
            host_new_a_minute: 30,
            entries: 20_000,
            bytes: 128 << 20,
            remembered: 20_000,
        }
    }
}

/// Why there is no chain of an x5u.
///
/// ```
/// assert_eq!(stir_trust::cache::Miss::Late.to_string(), "it isn't fetched yet");
/// ```
#[derive(Clone, Debug, Error, PartialEq, Eq)]
pub enum Miss {
    /// Its fetch goes on, for the next who asks.
    #[error("it isn't fetched yet")]
    Late,
    /// Its fetch failed, lately or now, or none was begun.
    #[error("{0}")]
    Failed(#[from] Reason),
}

/// What a cache has done and has.
///
/// ```
/// assert_eq!(stir_trust::cache::Counts::default().good, 0);
/// ```
#[derive(Clone, Debug, Default, PartialEq, Eq)]
pub struct Counts {
    /// The fetches that brought certificates.
    pub good: u64,
    /// Those that failed, by [`Reason::word`].
    pub failed: BTreeMap<&'static str, u64>,
    /// The fetches that go on or wait for their turn.
    pub flights: usize,
    /// The chains that are kept.
    pub entries: usize,
    /// What they take, in bytes.
    pub bytes: usize,
}
