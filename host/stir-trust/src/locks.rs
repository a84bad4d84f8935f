//! Locks that serve on after a thread panicked with one in hand.
//!
//! What such a thread was about to say is said to nobody. Each value behind a lock is whole between
//! any two steps, so the other threads go on with it.
use std::sync::{LockResult, PoisonError};

/// What is behind a lock, whoever had it before.
///
/// ```
/// use std::sync::Mutex;
/// use stir_trust::locks::Held;
///
/// assert_eq!(*Mutex::new(1).lock().held(), 1);
/// ```
pub trait Held<T> {
    /// The value, also if a thread panicked while it had it.
    fn held(self) -> T;
}

impl<T> Held<T> for LockResult<T> {
    fn held(self) -> T {
        self.unwrap_or_else(PoisonError::into_inner)
    }
}

#[cfg(test)]
mod tests {
    use super::*;
    use std::sync::Mutex;

    #[test]
    fn a_lock_serves_on_after_a_thread_that_panicked() {
        let count = Mutex::new(1);
        let panicked = std::thread::scope(|threads| {
            let thread = threads.spawn(|| {
                let _count = count.lock().held();
                std::panic::resume_unwind(Box::new("a fault"));
            });
            thread.join().is_err()
        });
        assert!(panicked && count.is_poisoned());
        assert_eq!(*count.lock().held(), 1);
    }
}
