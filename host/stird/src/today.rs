//! What came of the calls of today and of yesterday, by rule and by who signed, for people to look
//! at; and the same by who signed for Prometheus. A day is one of UTC. It is kept in memory alone.
use crate::judge::Outcome;
use crate::metrics::SignerCalls;
use crate::tickets::Clock;
use std::collections::{BTreeMap, HashMap};
use std::sync::{Arc, Mutex};
use stir::Rule;
use stir_trust::locks::Held;

/// How many seconds a day has.
const DAY: u64 = 86_400;

/// How many signers are counted by themselves: of a day, and since the start.
pub const MOST_SIGNERS: usize = 1_000;

/// Who signed a call. A code has no blank, so it is none of the words of the others.
#[derive(Clone, Debug, PartialEq, Eq, PartialOrd, Ord, Hash)]
pub enum SignedBy {
    /// The first service provider code of the certificate by which it was signed.
    Code(Box<str>),
    /// That certificate has no code, but numbers.
    NoCode,
    /// One past the most that are counted by themselves.
    Other,
    /// Nobody for whom a good signature stands.
    Nobody,
}

impl SignedBy {
    /// Who signed, by the codes of the certificate; by nobody if no good signature stands for one.
    pub fn of<C: AsRef<str>>(codes: Option<&[C]>) -> SignedBy {
        match codes.map(|codes| codes.first()) {
            Some(Some(code)) => SignedBy::Code(code.as_ref().into()),
            Some(None) => SignedBy::NoCode,
            None => SignedBy::Nobody,
        }
    }

    /// As a label of a metric, and as a text.
    ///
    /// ```
    /// use stird::today::SignedBy;
    ///
    /// assert_eq!(SignedBy::of(Some(&["709J", "710J"])).word(), "709J");
    /// assert_eq!(SignedBy::of::<&str>(Some(&[])).word(), "no code");
    /// assert_eq!(SignedBy::of::<&str>(None).word(), "");
    /// ```
    pub fn word(&self) -> &str {
        match self {
            SignedBy::Code(code) => code,
            SignedBy::NoCode => "no code",
            SignedBy::Other => "other signers",
            SignedBy::Nobody => "",
        }
    }
}

/// How many calls came to what.
#[derive(Clone, Copy, Debug, Default, PartialEq, Eq)]
pub struct Tally {
    /// Those that break no rule.
    pub valid: u64,
    /// Those that break a rule.
    pub refused: u64,
    /// Those whose ticket passed before.
    pub replay: u64,
    /// Those of which nothing is said.
    pub unjudged: u64,
}

impl Tally {
    fn count(&mut self, outcome: &Outcome) {
        let count = match outcome {
            Outcome::Valid => &mut self.valid,
            Outcome::Refused { .. } => &mut self.refused,
            Outcome::Replay { .. } => &mut self.replay,
            Outcome::Unjudged => &mut self.unjudged,
        };
        *count = count.saturating_add(1);
    }

    /// How many there are.
    pub fn all(&self) -> u64 {
        [self.refused, self.replay, self.unjudged].into_iter().fold(self.valid, u64::saturating_add)
    }
}

/// The calls of a day.
#[derive(Clone, Debug, Default, PartialEq, Eq)]
pub struct Day {
    /// Its first second, in Unix time.
    pub start: u64,
    /// All of them.
    pub all: Tally,
    /// How many broke a rule, by its number. Replays break rule 18.
    pub rules: BTreeMap<u32, u64>,
    /// All of them by who signed.
    pub signers: HashMap<SignedBy, Tally>,
}

impl Day {
    fn at(number: u64) -> Day {
        Day { start: number.saturating_mul(DAY), ..Day::default() }
    }

    fn count(&mut self, outcome: &Outcome, signer: &SignedBy) {
        self.all.count(outcome);
        let rule = outcome.rule();
        if Rule::of(rule).is_some() {
            let count = self.rules.entry(rule).or_default();
            *count = count.saturating_add(1);
        }
        let has_room = self.signers.len() < MOST_SIGNERS || self.signers.contains_key(signer);
        let signer = if has_room { signer } else { &SignedBy::Other };
        match self.signers.get_mut(signer) {
            Some(tally) => tally.count(outcome),
            None => self.signers.entry(signer.clone()).or_default().count(outcome),
        }
    }
}

/// The calls of today and of the day before.
#[derive(Clone, Debug, Default, PartialEq, Eq)]
pub struct Days {
    /// Those of today, by the clock.
    pub today: Day,
    /// Those of the day before.
    pub yesterday: Day,
}

impl Days {
    /// Goes on to the day of this second. A clock that goes back over midnight finds the day that
    /// it left, and one that leaps further finds new ones.
    fn turn(&mut self, now: u64) {
        let (number, current) = (now / DAY, self.today.start / DAY);
        if number == current {
            return;
        }
        let before = Day::at(number.saturating_sub(1));
        *self = match (std::mem::take(&mut self.today), std::mem::take(&mut self.yesterday)) {
            (today, _) if number == current + 1 => {
                Days { today: Day::at(number), yesterday: today }
            }
            (_, yesterday) if number + 1 == current => Days { today: yesterday, yesterday: before },
            _ => Days { today: Day::at(number), yesterday: before },
        };
    }
}

/// What is counted of today and of yesterday.
///
/// ```
/// use std::sync::Arc;
/// use stird::judge::Outcome;
/// use stird::metrics::Metrics;
/// use stird::tickets::SystemClock;
/// use stird::today::{SignedBy, Today};
///
/// let today = Today::new(Arc::new(SystemClock), Metrics::new()?.signers);
/// today.count(&Outcome::Valid, &SignedBy::of(Some(&["709J"])));
/// assert_eq!(today.days().today.all.valid, 1);
/// # Ok::<(), prometheus::Error>(())
/// ```
pub struct Today {
    clock: Arc<dyn Clock>,
    metric: SignerCalls,
    days: Mutex<Days>,
}

impl Today {
    /// Without a call.
    pub fn new(clock: Arc<dyn Clock>, metric: SignerCalls) -> Today {
        let now = clock.now();
        let days =
            Days { today: Day::at(now / DAY), yesterday: Day::at((now / DAY).saturating_sub(1)) };
        Today { clock, metric, days: Mutex::new(days) }
    }

    /// Counts what came of a call that he signed.
    pub fn count(&self, outcome: &Outcome, signer: &SignedBy) {
        self.metric.count(outcome, signer);
        let now = self.clock.now();
        let mut days = self.days.lock().held();
        days.turn(now);
        days.today.count(outcome, signer);
    }

    /// The calls so far.
    pub fn days(&self) -> Days {
        let now = self.clock.now();
        let mut days = self.days.lock().held();
        days.turn(now);
        days.clone()
    }
}

#[cfg(test)]
mod tests {
    use super::*;
    use crate::metrics::Metrics;
    use std::sync::atomic::{AtomicU64, Ordering::SeqCst};

    /// A clock that is moved.
    #[derive(Default)]
    struct Set(AtomicU64);

    impl Clock for Set {
        fn now(&self) -> u64 {
            self.0.load(SeqCst)
        }

        fn monotonic(&self) -> u64 {
            self.now()
        }
    }

    struct At {
        clock: Arc<Set>,
        metrics: Metrics,
        today: Today,
    }

    fn at(now: u64) -> At {
        let clock = Arc::new(Set(now.into()));
        let metrics = Metrics::new().expect("names that are good");
        let today = Today::new(clock.clone(), metrics.signers.clone());
        At { clock, metrics, today }
    }

    fn code(code: &str) -> SignedBy {
        SignedBy::of(Some(&[code]))
    }

    fn refused(rule: u32) -> Outcome {
        Outcome::Refused { rule, code: 403, field: 1, part: 0 }
    }

    #[test]
    fn calls_are_counted_by_rule_and_by_signer() {
        let At { today, .. } = at(5 * DAY + 7);
        for (outcome, signer) in [
            (Outcome::Valid, code("709J")),
            (refused(17), code("709J")),
            (refused(2), SignedBy::Nobody),
            (refused(2), SignedBy::Nobody),
            (Outcome::Replay { winner: 1 }, code("710J")),
            (Outcome::Unjudged, SignedBy::NoCode),
        ] {
            today.count(&outcome, &signer);
        }
        let Days { today, yesterday } = today.days();
        assert_eq!((today.start, yesterday), (5 * DAY, Day::at(4)));
        assert_eq!(today.all, Tally { valid: 1, refused: 3, replay: 1, unjudged: 1 });
        assert_eq!(today.all.all(), 6);
        assert_eq!(today.rules, BTreeMap::from([(2, 2), (17, 1), (18, 1)]));
        let one = Tally { valid: 1, refused: 1, ..Tally::default() };
        let two = Tally { replay: 1, ..Tally::default() };
        let none = Tally { refused: 2, ..Tally::default() };
        let numbers = Tally { unjudged: 1, ..Tally::default() };
        let signers = [
            (code("709J"), one),
            (code("710J"), two),
            (SignedBy::Nobody, none),
            (SignedBy::NoCode, numbers),
        ];
        assert_eq!(today.signers, HashMap::from(signers));
    }

    #[test]
    fn a_day_becomes_yesterday_and_a_clock_that_leaps_finds_new_ones() {
        for (now, today_has, yesterday_has) in [
            (5 * DAY + DAY - 1, 2, 1),
            (6 * DAY, 0, 2),
            (7 * DAY, 0, 0),
            (5 * DAY - 1, 1, 0),
            (3 * DAY, 0, 0),
            (u64::MAX, 0, 0),
            (0, 0, 0),
        ] {
            let At { clock, today, .. } = at(4 * DAY);
            today.count(&Outcome::Valid, &SignedBy::Nobody);
            clock.0.store(5 * DAY, SeqCst);
            today.count(&Outcome::Valid, &SignedBy::Nobody);
            today.count(&Outcome::Valid, &SignedBy::Nobody);
            clock.0.store(now, SeqCst);
            let days = today.days();
            let found = (days.today.all.valid, days.yesterday.all.valid);
            assert_eq!(found, (today_has, yesterday_has), "{now}");
            assert_eq!(days.today.start, now / DAY * DAY, "{now}");
        }
    }

    #[test]
    fn past_the_most_signers_the_rest_are_one() {
        let At { metrics, today, .. } = at(0);
        let more = 5;
        for number in 0..MOST_SIGNERS + more {
            today.count(&Outcome::Valid, &code(&number.to_string()));
        }
        today.count(&Outcome::Valid, &code("0"));
        let days = today.days().today;
        assert_eq!(days.signers.len(), MOST_SIGNERS + 1);
        assert_eq!(days.signers.get(&SignedBy::Other).map(Tally::all), Some(more as u64));
        assert_eq!(days.signers.get(&code("0")).map(Tally::all), Some(2));
        let text = String::from_utf8(metrics.text()).expect("text");
        let lines = text.lines().filter(|line| {
            line.starts_with("stir_signer_calls_total{") && line.contains("\"valid\"")
        });
        assert_eq!(lines.count(), MOST_SIGNERS + 1);
        let others = "stir_signer_calls_total{outcome=\"valid\",signer=\"other signers\"} 5\n";
        assert!(text.contains(others), "{text}");
    }
}
