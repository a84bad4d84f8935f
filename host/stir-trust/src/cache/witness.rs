//! Who is told how fetches end.
use crate::fetch::Reason;
use std::time::Duration;

/// Who is told how each fetch ended, as for counts and a log. It is told before those who wait.
///
/// ```
/// use std::sync::atomic::{AtomicUsize, Ordering};
/// use std::time::Duration;
/// use stir_trust::cache::Witness;
/// use stir_trust::fetch::Reason;
///
/// struct Failures(AtomicUsize);
///
/// impl Witness for Failures {
///     fn landed(&self, _x5u: &str, _took: Option<Duration>, came: Result<(), &Reason>) {
///         self.0.fetch_add(usize::from(came.is_err()), Ordering::Relaxed);
///     }
/// }
/// ```
pub trait Witness: Send + Sync {
    /// The fetch of this x5u ended so; after so long, if its host was asked.
    fn landed(&self, x5u: &str, took: Option<Duration>, came: Result<(), &Reason>);
}
