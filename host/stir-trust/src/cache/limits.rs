//! How much is asked of whom, and which failures are remembered.
//!
//! A stranger chooses the x5us, so each table has a bound, and what a stranger can make a host say
//! (as 404 of a path that isn't there) isn't held against the host.
use super::Bounds;
use crate::fetch::{Limit, Reason};
use std::collections::{HashMap, VecDeque};
use std::sync::Arc;
use std::time::Duration;
use tokio::sync::Semaphore;

/// For how long a URI that failed isn't asked for again, at first and at most.
const FIRST_WAIT: Duration = Duration::from_secs(10);
const LONGEST_WAIT: Duration = Duration::from_secs(300);

/// After so many failures in a row a host is let alone for so long, and then asked once.
const FAILURES: u32 = 5;
const ALONE: Duration = Duration::from_secs(30);

const SECOND: Duration = Duration::from_secs(1);
const MINUTE: Duration = Duration::from_secs(60);

/// What may be begun now, by the time since some start.
pub(super) struct Limits {
    bounds: Bounds,
    new: Recent,
    hosts: HashMap<String, Host>,
    failures: HashMap<String, Failure>,
}

struct Host {
    /// How many flights are on the way to it or wait for their turn.
    going: usize,
    turns: Arc<Semaphore>,
    new: Recent,
    failed: u32,
    /// Until when it is let alone, if it failed often enough.
    until: Duration,
}

struct Failure {
    reason: Reason,
    until: Duration,
    wait: Duration,
}

impl Limits {
    pub(super) fn new(bounds: Bounds) -> Limits {
        let new = Recent::default();
        Limits { bounds, new, hosts: HashMap::new(), failures: HashMap::new() }
    }

    /// Why this URI isn't asked for, if it failed lately.
    pub(super) fn failure(&self, x5u: &str, now: Duration) -> Option<Reason> {
        let failure = self.failures.get(x5u).filter(|failure| now < failure.until);
        failure.map(|failure| failure.reason.clone())
    }

    /// Counts a flight to this host, of a URI that is new or of one that is fetched anew; with the
    /// turns of the host.
    pub(super) fn begin(
        &mut self,
        host: &str,
        is_new: bool,
        now: Duration,
    ) -> Result<Arc<Semaphore>, Limit> {
        let Bounds { new_a_second, host_new_a_minute, host_flights, .. } = self.bounds;
        if is_new && !self.new.has_room(new_a_second, SECOND, now) {
            return Err(Limit::New);
        }
        self.forget(now);
        if self.failures.len() >= self.bounds.remembered {
            return Err(Limit::New);
        }
        if !self.hosts.contains_key(host) && self.hosts.len() >= self.bounds.remembered {
            return Err(Limit::New);
        }
        let host = self.hosts.entry(host.into()).or_insert_with(|| Host {
            going: 0,
            turns: Arc::new(Semaphore::new(host_flights)),
            new: Recent::default(),
            failed: 0,
            until: Duration::ZERO,
        });
        if host.failed >= FAILURES && (now < host.until || host.going > 0) {
            return Err(Limit::Broken);
        }
        let has_room = !is_new || host.new.has_room(host_new_a_minute, MINUTE, now);
        if host.going >= self.bounds.host_waiting || !has_room {
            return Err(Limit::Host);
        }
        if is_new {
            self.new.add(now);
            host.new.add(now);
        }
        host.going += 1;
        Ok(Arc::clone(&host.turns))
    }

    /// Whether a host is let alone now, also by flights that waited for their turn.
    pub(super) fn is_broken(&self, host: &str, now: Duration) -> bool {
        self.hosts.get(host).is_some_and(|host| host.failed >= FAILURES && now < host.until)
    }

    /// Counts a flight's end, and what it says of the URI and of the host.
    pub(super) fn end(&mut self, x5u: &str, host: &str, end: &End, now: Duration) {
        let Some(host) = self.hosts.get_mut(host) else { return };
        host.going = host.going.saturating_sub(1);
        match end {
            End::Good => {
                host.failed = 0;
                self.failures.remove(x5u);
            }
            End::Failed(Reason::Limited(_)) | End::Gone => {}
            End::Failed(reason) => {
                if is_the_hosts(reason) {
                    host.failed = host.failed.saturating_add(1);
                    host.until = now + ALONE;
                } else {
                    host.failed = 0;
                }
                let before = self.failures.get(x5u).map(|failure| failure.wait);
                let wait = before.map_or(FIRST_WAIT, |wait| (wait * 2).min(LONGEST_WAIT));
                let failure = Failure { reason: reason.clone(), until: now + wait, wait };
                self.failures.insert(x5u.into(), failure);
            }
        }
    }

    /// Forgets all failures.
    pub(super) fn forgive(&mut self) {
        self.failures.clear();
        self.hosts.values_mut().for_each(|host| host.failed = 0);
    }

    /// Forgets, once a table is full, what says nothing any more. A failure is known for twice its
    /// time, so that the next one waits longer.
    fn forget(&mut self, now: Duration) {
        if self.failures.len() >= self.bounds.remembered {
            self.failures.retain(|_, failure| now < failure.until + failure.wait);
        }
        if self.hosts.len() >= self.bounds.remembered {
            self.hosts.retain(|_, host| {
                let is_failed = host.failed > 0 && now < host.until;
                host.going > 0 || is_failed || host.new.last(now) < MINUTE
            });
        }
    }
}

/// How a flight ended.
pub(super) enum End {
    Good,
    Failed(Reason),
    /// Without an end, since its task was.
    Gone,
}

/// Whether a failure says something of the host, and not of the URI alone.
fn is_the_hosts(reason: &Reason) -> bool {
    match reason {
        Reason::Dns | Reason::Private(_) | Reason::Connect(_) | Reason::Tls(_) | Reason::Time => {
            true
        }
        Reason::Status(status) => *status >= 500,
        _ => false,
    }
}

/// The moments of the last begins.
#[derive(Default)]
struct Recent(VecDeque<Duration>);

impl Recent {
    /// Whether there were fewer than so many within this time.
    fn has_room(&mut self, most: usize, within: Duration, now: Duration) -> bool {
        while self.0.front().is_some_and(|first| *first + within <= now) {
            self.0.pop_front();
        }
        self.0.len() < most
    }

    fn add(&mut self, now: Duration) {
        self.0.push_back(now);
    }

    /// How long ago the last one was.
    fn last(&self, now: Duration) -> Duration {
        self.0.back().map_or(Duration::MAX, |last| now.saturating_sub(*last))
    }
}

#[cfg(test)]
mod tests {
    use super::*;

    const DEAD: Reason = Reason::Time;

    fn seconds(count: u64) -> Duration {
        Duration::from_secs(count)
    }

    fn limits() -> Limits {
        Limits::new(Bounds { remembered: 100, ..Bounds::default() })
    }

    fn begin(limits: &mut Limits, host: &str, now: Duration) -> Option<Limit> {
        limits.begin(host, true, now).err()
    }

    fn fail(limits: &mut Limits, x5u: &str, reason: Reason, now: Duration) {
        assert_eq!(begin(limits, "host", now), None, "{x5u}");
        limits.end(x5u, "host", &End::Failed(reason), now);
    }

    #[test]
    fn at_most_twenty_new_uris_are_begun_in_any_second() {
        let mut limits = limits();
        let mut begun = Vec::new();
        for at in (0..5_000).map(Duration::from_millis) {
            if begin(&mut limits, &format!("host {}", at.as_millis() % 60), at).is_none() {
                limits.end("x5u", &format!("host {}", at.as_millis() % 60), &End::Good, at);
                begun.push(at);
            }
        }
        assert_eq!(begun.len(), 100);
        assert!(begun.windows(21).all(|some| some[20] - some[0] >= seconds(1)), "{begun:?}");
        assert_eq!(limits.begin("host 1", true, begun[99]).err(), Some(Limit::New));
        assert!(limits.begin("host 1", false, begun[99]).is_ok(), "what is known is no new one");
    }

    #[test]
    fn at_most_thirty_new_uris_of_a_host_are_begun_in_any_minute() {
        let mut limits = limits();
        let begun = (0..240).filter(|half| {
            let now = Duration::from_millis(half * 500);
            let is_begun = begin(&mut limits, "host", now).is_none();
            if is_begun {
                limits.end("x5u", "host", &End::Good, now);
            }
            is_begun
        });
        assert_eq!(begun.count(), 60, "in two minutes");
    }

    #[test]
    fn so_many_flights_to_a_host_wait_for_their_turn() {
        let mut limits = limits();
        let most = Bounds::default().host_waiting;
        for number in 0..most {
            assert_eq!(begin(&mut limits, "host", seconds(number as u64)), None, "{number}");
        }
        assert_eq!(begin(&mut limits, "host", seconds(60)), Some(Limit::Host));
        assert_eq!(begin(&mut limits, "other", seconds(60)), None);
        limits.end("x5u", "host", &End::Gone, seconds(60));
        assert_eq!(begin(&mut limits, "host", seconds(61)), None);
    }

    #[test]
    fn a_failure_is_remembered_for_ten_seconds_doubling_to_five_minutes() {
        let mut limits = limits();
        let mut now = seconds(0);
        for wait in [10, 20, 40, 80, 160, 300, 300] {
            fail(&mut limits, "x5u", Reason::Status(404), now);
            let last = now + seconds(wait) - Duration::from_millis(1);
            assert_eq!(limits.failure("x5u", last), Some(Reason::Status(404)), "{wait}");
            now += seconds(wait);
            assert_eq!(limits.failure("x5u", now), None, "{wait}");
        }
        assert_eq!(begin(&mut limits, "host", now), None);
        limits.end("x5u", "host", &End::Good, now);
        fail(&mut limits, "x5u", Reason::Size, now);
        assert_eq!(limits.failure("x5u", now + seconds(10)), None, "it begins anew");
    }

    #[test]
    fn a_host_that_failed_five_times_is_let_alone_and_then_asked_once() {
        let mut limits = limits();
        for number in 0..5 {
            assert!(!limits.is_broken("host", seconds(number)));
            fail(&mut limits, &format!("x5u {number}"), DEAD, seconds(number));
        }
        assert!(limits.is_broken("host", seconds(33)) && !limits.is_broken("host", seconds(34)));
        assert_eq!(begin(&mut limits, "host", seconds(33)), Some(Limit::Broken));
        assert_eq!(limits.begin("host", false, seconds(33)).err(), Some(Limit::Broken));
        assert_eq!(begin(&mut limits, "other", seconds(33)), None);
        assert_eq!(begin(&mut limits, "host", seconds(34)), None, "one flight tries");
        assert_eq!(begin(&mut limits, "host", seconds(35)), Some(Limit::Broken), "and no second");
        limits.end("a", "host", &End::Failed(DEAD), seconds(37));
        assert_eq!(begin(&mut limits, "host", seconds(66)), Some(Limit::Broken));
        assert_eq!(begin(&mut limits, "host", seconds(67)), None);
        limits.end("a", "host", &End::Good, seconds(67));
        assert_eq!(begin(&mut limits, "host", seconds(68)), None);
        assert_eq!(begin(&mut limits, "host", seconds(68)), None);
    }

    #[test]
    fn failures_are_forgotten_at_once_if_that_is_told() {
        let mut limits = limits();
        for number in 0..5 {
            fail(&mut limits, &format!("x5u {number}"), DEAD, seconds(number));
        }
        limits.forgive();
        assert_eq!(limits.failure("x5u 4", seconds(5)), None);
        assert!(!limits.is_broken("host", seconds(5)));
        assert_eq!(begin(&mut limits, "host", seconds(5)), None);
    }

    #[test]
    fn what_a_stranger_can_make_a_host_say_doesnt_break_it() {
        let mut limits = limits();
        let reasons = [Reason::Status(404), Reason::Size, Reason::Elsewhere, Reason::Redirects];
        for (number, reason) in reasons.iter().cycle().take(20).enumerate() {
            let x5u = format!("x5u {number}");
            fail(&mut limits, &x5u, reason.clone(), seconds(number as u64));
        }
        assert_eq!(begin(&mut limits, "host", seconds(21)), None);
    }

    #[test]
    fn tables_have_a_bound_and_forget_what_is_over() {
        let mut limits = limits();
        for number in 0..1_000 {
            let now = seconds(number);
            let host = format!("host {number}");
            if begin(&mut limits, &host, now).is_none() {
                limits.end(&format!("x5u {number}"), &host, &End::Failed(DEAD), now);
            }
            assert!(limits.hosts.len() <= 100 && limits.failures.len() <= 100, "{number}");
        }
        assert!(limits.failures.contains_key("x5u 999"), "there is room again");
    }
}
