//! Whether a Redis is asked at all. One that failed a few times in a row isn't, for a moment: a
//! call that waits for it in vain holds a place, and is unjudged all the same.
use super::connection::Fault;
use std::time::{Duration, Instant};

/// So many failures in a row are enough.
const FAILURES: u32 = 3;

/// After each pause of this length one claim tries it again.
const PAUSE: Duration = Duration::from_millis(250);

pub struct Breaker {
    failures: u32,
    until: Instant,
    why: Option<String>,
}

impl Breaker {
    /// One for a Redis that wasn't asked yet.
    pub fn new(now: Instant) -> Breaker {
        Breaker { failures: 0, until: now, why: Some("it wasn't asked yet".into()) }
    }

    /// Whether the Redis is asked for a claim now.
    pub fn lets_through(&mut self, now: Instant) -> bool {
        if self.failures < FAILURES {
            return true;
        }
        let tries = now >= self.until;
        if tries {
            self.until = now + PAUSE;
        }
        tries
    }

    /// It answered.
    pub fn succeeded(&mut self) {
        self.failures = 0;
        self.why = None;
    }

    /// A claim failed.
    pub fn failed(&mut self, fault: &Fault, now: Instant) {
        self.failures = self.failures.saturating_add(1);
        self.until = now + PAUSE;
        self.why = Some(fault.to_string());
    }

    /// A look failed: no claim needs to try what it tried.
    pub fn opened(&mut self, fault: &Fault, now: Instant) {
        self.failed(fault, now);
        self.failures = self.failures.max(FAILURES);
    }

    /// Why it can't be used.
    pub fn why(&self) -> Option<&str> {
        self.why.as_deref()
    }
}

#[cfg(test)]
mod tests {
    use super::*;

    #[test]
    fn after_three_failures_in_a_row_one_claim_in_a_pause_is_let_through() {
        let start = Instant::now();
        let mut breaker = Breaker::new(start);
        for _ in 0..2 {
            breaker.failed(&Fault::Late, start);
        }
        breaker.succeeded();
        for _ in 0..3 {
            assert!(breaker.lets_through(start));
            breaker.failed(&Fault::Late, start);
        }
        let tries: Vec<u64> = (0..1_000)
            .filter(|ms| breaker.lets_through(start + Duration::from_millis(*ms)))
            .collect();
        assert_eq!(tries, [250, 500, 750]);
        breaker.succeeded();
        assert!(breaker.lets_through(start) && breaker.why().is_none());
    }

    #[test]
    fn one_look_that_failed_is_enough() {
        let start = Instant::now();
        let mut breaker = Breaker::new(start);
        breaker.opened(&Fault::Late, start);
        assert!(!breaker.lets_through(start));
        assert_eq!(breaker.why(), Some("it doesn't answer in time"));
    }
}
