//! When the keys that this service set are gone from the Redis, and so for how long it can tell a
//! ticket of theirs.
use crate::tickets::stretches::Stretches;
use crate::tickets::{Passed, SLACK};
use std::collections::BTreeSet;

/// A moment that lies further from the clock is one of an older call that is judged again.
const NEAR: u64 = SLACK;

/// How long such a ticket is kept at least.
const LONG: u64 = 3_600;

/// A call's ticket may be claimed so long after its moment: certificates are waited for ten seconds
/// at most, codes one, and a claim takes half a second.
const WAITED: u64 = 12;

/// The Redis is believed to be late by so much at most.
const DAY: u64 = 86_400;

/// How many seconds a key has to stay in the Redis, whose clock shows `theirs`: by that clock, too,
/// the ticket's last second and the slack must be over, also for a call that waits meanwhile.
pub fn life(passed: Passed, moment: u64, now: u64, theirs: u64) -> u64 {
    let fresh = passed.last.saturating_sub(moment);
    let late = moment.saturating_sub(theirs).min(DAY);
    let life = fresh.saturating_add(late).saturating_add(SLACK + 1 + WAITED);
    if moment.abs_diff(now) > NEAR {
        life.max(LONG)
    } else {
        life
    }
}

/// The last seconds of the tickets that this service has keys of.
#[derive(Default)]
pub struct Expiry {
    /// The monotonic second from which a key may be gone, and the ticket's last second.
    due: BTreeSet<(u64, u64)>,
    gone: Stretches,
}

impl Expiry {
    /// A key of this last second was set, and stays so long from this monotonic second on.
    pub fn add(&mut self, last: u64, life: u64, monotonic: u64) {
        self.due.insert((monotonic.saturating_add(life), last));
    }

    /// Whether a key of this last second may be gone.
    pub fn has(&mut self, last: u64, monotonic: u64) -> bool {
        while let Some((_, last)) = self.due.first().filter(|(due, _)| *due <= monotonic).copied() {
            self.due.pop_first();
            self.gone.add(last);
        }
        self.gone.has(last)
    }

    /// The clock of the Redis leapt ahead by so much, and keys went early.
    pub fn leap(&mut self, seconds: u64, monotonic: u64) {
        self.has(0, monotonic.saturating_add(seconds));
    }
}

#[cfg(test)]
mod tests {
    use super::*;

    const T: u64 = 1_800_000_000;

    #[test]
    fn a_key_stays_until_its_last_second_the_slack_and_the_wait_are_over_by_both_clocks() {
        let passed = Passed { last: T + 60, number: 1 };
        for (moment, now, theirs, seconds, text) in [
            (T, T, T, 83, "the clocks agree"),
            (T, T, T + 5, 83, "the Redis is early"),
            (T, T, T - 5, 88, "the Redis is late"),
            (T + 60, T + 60, T + 60, 23, "at the last second"),
            (T, T, T - 3_600, 3_683, "this clock is fast"),
            (T, T, 0, DAY + 83, "the Redis has no clock"),
            (T, T + 10, T + 10, 83, "the caller is late"),
            (T, T + 11, T + 11, LONG, "an older call"),
        ] {
            assert_eq!(life(passed, moment, now, theirs), seconds, "{text}");
        }
    }

    #[test]
    fn what_may_be_gone_is_known_by_its_last_second() {
        let mut expiry = Expiry::default();
        expiry.add(T, 71, 0);
        expiry.add(T, 75, 9);
        expiry.add(T + 8, 80, 0);
        assert!(!expiry.has(T, 70) && expiry.has(T, 71) && !expiry.has(T + 8, 79));
        expiry.leap(10, 70);
        assert!(expiry.has(T + 8, 70) && !expiry.has(T + 4, 70));
    }
}
