//! The tickets that are held in memory, and when they are forgotten. The invariant stands in the
//! documentation of the module above.
use super::stretches::Stretches;
use super::{Health, Passed, Ticket, SLACK};
use std::collections::{BTreeMap, HashMap};

/// So many tickets at most are forgotten by one claim, so that none waits long for it.
const PORTION: usize = 5_000;

/// Where the ticket of a call stands.
#[derive(Clone, Copy, Debug, PartialEq, Eq)]
pub enum State {
    /// It is being written.
    Waiting,
    /// It is where it is to be kept: the call passed.
    Kept,
    /// It couldn't be written, and it isn't known whether it was: the call didn't pass.
    Unsure,
}

/// What is known of a ticket that a call claims.
#[derive(Clone, Copy, Debug, PartialEq, Eq)]
pub enum Claimed {
    /// Nobody has it, and there is room.
    Free,
    /// The call of this number has it.
    Held { winner: u64, state: State },
    /// It may have been forgotten.
    Forgotten,
    /// There is no room.
    Full,
}

struct Held {
    passed: Passed,
    state: State,
}

/// The tickets of one last second.
#[derive(Default)]
struct Bucket {
    /// The monotonic second from which the bounded time of each is past its last second and the
    /// slack.
    due: u64,
    tickets: Vec<Ticket>,
}

pub struct Table {
    most: usize,
    held: HashMap<Ticket, Held>,
    /// By last second.
    buckets: BTreeMap<u64, Bucket>,
    forgotten: Stretches,
    /// The latest moment of a claim.
    latest: u64,
    /// The monotonic second at which all that was due was forgotten.
    swept: Option<u64>,
    /// The seconds that no bucket has any more, if somebody takes them.
    gone: Option<Vec<u64>>,
}

impl Table {
    pub fn new(most: usize) -> Table {
        Table {
            most,
            held: HashMap::new(),
            buckets: BTreeMap::new(),
            forgotten: Stretches::default(),
            latest: 0,
            swept: None,
            gone: None,
        }
    }

    /// One that tells which seconds it forgets.
    pub fn telling(most: usize) -> Table {
        Table { gone: Some(Vec::new()), ..Table::new(most) }
    }

    /// What is known of a ticket that a call claims. Nothing is entered.
    pub fn claim(
        &mut self,
        ticket: Ticket,
        passed: Passed,
        moment: u64,
        now: u64,
        monotonic: u64,
    ) -> Claimed {
        self.latest = self.latest.max(moment);
        self.sweep(now, monotonic, PORTION);
        if let Some(held) = self.held.get(&ticket) {
            return Claimed::Held { winner: held.passed.number, state: held.state };
        }
        if self.forgotten.has(passed.last) {
            return Claimed::Forgotten;
        }
        if self.held.len() >= self.most {
            return Claimed::Full;
        }
        Claimed::Free
    }

    /// Enters a ticket that was free, for a call of this moment.
    pub fn enter(
        &mut self,
        ticket: Ticket,
        passed: Passed,
        moment: u64,
        monotonic: u64,
        state: State,
    ) {
        self.keep(ticket, passed, life(passed, moment), monotonic, state);
    }

    /// Enters a ticket that was kept before, as one that is claimed now and lives so many seconds.
    pub fn restore(&mut self, ticket: Ticket, passed: Passed, life: u64, monotonic: u64) {
        if !self.held.contains_key(&ticket) {
            self.keep(ticket, passed, life, monotonic, State::Kept);
        }
    }

    fn keep(&mut self, ticket: Ticket, passed: Passed, life: u64, monotonic: u64, state: State) {
        self.held.insert(ticket, Held { passed, state });
        let bucket = self.buckets.entry(passed.last).or_default();
        bucket.due = bucket.due.max(monotonic.saturating_add(life));
        bucket.tickets.push(ticket);
    }

    /// Says where a ticket stands that is still held.
    pub fn settle(&mut self, ticket: &Ticket, state: State) {
        if let Some(held) = self.held.get_mut(ticket) {
            held.state = state;
        }
    }

    /// Takes out a ticket whose call didn't pass, so that it is free again.
    pub fn release(&mut self, ticket: &Ticket) {
        if let Some(held) = self.held.remove(ticket) {
            if let Some(bucket) = self.buckets.get_mut(&held.passed.last) {
                bucket.tickets.retain(|other| other != ticket);
            }
        }
    }

    /// Forgets what is due, a portion of it. Whether there is more.
    pub fn forget(&mut self, now: u64, monotonic: u64) -> bool {
        self.swept = None;
        self.sweep(now, monotonic, 4 * PORTION);
        self.swept.is_none()
    }

    /// Forgets what is due, if it wasn't looked for at this second: so many tickets at most.
    fn sweep(&mut self, now: u64, monotonic: u64, mut portion: usize) {
        if self.swept == Some(monotonic) {
            return;
        }
        let before = now.min(self.latest).saturating_sub(SLACK);
        let due: Vec<u64> = (self.buckets.range(..before))
            .filter(|(_, bucket)| bucket.due <= monotonic)
            .map(|(last, _)| *last)
            .collect();
        for last in due {
            let Some(bucket) = self.buckets.get_mut(&last) else { continue };
            self.forgotten.add(last);
            let stays = bucket.tickets.len().saturating_sub(portion);
            portion -= bucket.tickets.len() - stays;
            for ticket in bucket.tickets.drain(stays..) {
                self.held.remove(&ticket);
            }
            if stays > 0 {
                return;
            }
            self.buckets.remove(&last);
            if let Some(gone) = &mut self.gone {
                gone.push(last);
            }
        }
        self.swept = Some(monotonic);
    }

    pub fn len(&self) -> usize {
        self.held.len()
    }

    /// Whether there is room.
    pub fn health(&self) -> Health {
        if self.held.len() < self.most {
            return Health::Well;
        }
        Health::Ill { why: format!("{} tickets are held, and no more may be", self.held.len()) }
    }

    /// The tickets in this state, with the seconds that each is to be kept from this monotonic
    /// second on.
    pub fn all_in(&self, state: State, monotonic: u64) -> Vec<(Ticket, Passed, u64)> {
        let rest = |last| self.buckets.get(&last).map_or(0, |held: &Bucket| held.due);
        (self.held.iter())
            .filter(|(_, held)| held.state == state)
            .map(|(ticket, held)| {
                (*ticket, held.passed, rest(held.passed.last).saturating_sub(monotonic))
            })
            .collect()
    }

    /// The seconds of which all tickets were forgotten since this was asked last, and all that was
    /// ever forgotten.
    pub fn take_gone(&mut self) -> (Vec<u64>, &Stretches) {
        (self.gone.as_mut().map(std::mem::take).unwrap_or_default(), &self.forgotten)
    }

    /// All that was ever forgotten.
    pub fn forgotten(&self) -> &Stretches {
        &self.forgotten
    }

    /// Takes over what was forgotten elsewhere.
    pub fn add_forgotten(&mut self, stretches: &Stretches) {
        stretches.iter().for_each(|(first, last)| self.forgotten.add_all(first, last));
    }
}

/// How many seconds a ticket is kept at least, by the monotonic clock, from its claim on.
pub fn life(passed: Passed, moment: u64) -> u64 {
    passed.last.saturating_sub(moment).saturating_add(SLACK + 1)
}

#[cfg(test)]
mod tests {
    use super::*;
    use std::collections::HashSet;

    /// A table with its clocks, which run together unless a test sets the first.
    struct Trial {
        table: Table,
        now: u64,
        monotonic: u64,
        number: u64,
    }

    impl Trial {
        fn at(now: u64) -> Trial {
            Trial { table: Table::new(1_000_000), now, monotonic: 0, number: 0 }
        }

        fn wait(&mut self, seconds: u64) {
            self.now += seconds;
            self.monotonic += seconds;
        }

        /// A call of this ticket, fresh for a minute from `since` on, at the clock's second.
        fn call(&mut self, ticket: u64, since: u64) -> Claimed {
            let (now, monotonic) = (self.now, self.monotonic);
            self.call_at(now, ticket, since, monotonic)
        }

        fn call_at(&mut self, moment: u64, ticket: u64, since: u64, monotonic: u64) -> Claimed {
            self.number += 1;
            let mut key = [0; 32];
            key[..8].copy_from_slice(&ticket.to_be_bytes());
            let passed = Passed { last: since + 60, number: self.number };
            let claimed = self.table.claim(key, passed, moment, self.now, monotonic);
            if claimed == Claimed::Free {
                self.table.enter(key, passed, moment, monotonic, State::Kept);
            }
            claimed
        }
    }

    fn held(winner: u64) -> Claimed {
        Claimed::Held { winner, state: State::Kept }
    }

    #[test]
    fn a_ticket_passes_once() {
        let mut trial = Trial::at(100);
        let answers = [1, 1, 2, 1].map(|ticket| trial.call(ticket, 100));
        assert_eq!(answers, [Claimed::Free, held(1), Claimed::Free, held(1)]);
    }

    #[test]
    fn a_ticket_is_held_for_its_last_second_and_the_slack() {
        let mut trial = Trial::at(1000);
        trial.call(1, 1000);
        trial.wait(70);
        trial.call(2, 1070);
        assert_eq!(trial.call(1, 1000), held(1));
        trial.wait(1);
        trial.call(3, 1071);
        assert_eq!((trial.table.len(), trial.call(1, 1000)), (2, Claimed::Forgotten));
    }

    #[test]
    fn a_forgotten_ticket_doesnt_pass_again_though_the_clock_goes_back() {
        let mut trial = Trial::at(1000);
        trial.call(1, 1000);
        trial.wait(400);
        trial.call(2, 1400);
        trial.now = 1000;
        assert_eq!(trial.call(1, 1000), Claimed::Forgotten);
    }

    #[test]
    fn a_clock_that_is_fast_for_a_while_harms_no_call_once_it_is_set_right() {
        for fast in [1, 5, 60, 600] {
            let mut trial = Trial::at(1_000_000);
            trial.call(1, 1_000_000);
            trial.now += 3600;
            for second in 0..fast {
                assert_eq!(trial.call(100 + second, trial.now), Claimed::Free);
                trial.wait(1);
            }
            trial.now -= 3600;
            for second in 0..4000 {
                let claimed = trial.call(10_000 + second, trial.now);
                // An hour later come the seconds that were forgotten while the clock was fast.
                let again = (3600 - fast..3600 + 60).contains(&second);
                assert!(claimed == Claimed::Free || again, "{fast} {second} {claimed:?}");
                trial.wait(1);
            }
        }
    }

    #[test]
    fn a_clock_that_is_fast_at_the_start_harms_no_call_once_it_is_set_right() {
        let mut trial = Trial::at(1_003_600);
        for second in 0..300 {
            assert_eq!(trial.call(second, trial.now), Claimed::Free);
            trial.wait(1);
        }
        trial.now -= 3600;
        for second in 0..200 {
            assert_eq!(trial.call(1000 + second, trial.now), Claimed::Free, "{second}");
            trial.wait(1);
        }
        assert_eq!(trial.call(299, 1_003_899), held(300));
        assert_eq!(trial.call(0, 1_003_600), Claimed::Forgotten);
    }

    #[test]
    fn what_is_fresh_by_the_monotonic_clock_is_kept_while_the_clock_is_fast() {
        let mut trial = Trial::at(1_000_000);
        trial.call(1, 1_000_000);
        trial.now += 3600;
        trial.wait(20);
        trial.call(2, trial.now);
        trial.now -= 3600;
        assert_eq!(trial.call(1, 1_000_000), held(1));
    }

    #[test]
    fn a_ticket_is_forgotten_no_second_before_its_bounded_time_is_over() {
        let mut trial = Trial::at(1_000_000);
        trial.call(1, 999_980);
        trial.now += 3600;
        for (wait, answer) in [(0, held(1)), (50, held(1)), (1, Claimed::Forgotten)] {
            trial.wait(wait);
            trial.call(100 + wait, trial.now);
            assert_eq!(trial.call(1, 999_980), answer, "{wait}");
        }
    }

    #[test]
    fn a_ticket_that_was_claimed_while_the_clock_was_fast_is_kept_until_its_time_comes() {
        let mut trial = Trial::at(1_003_600);
        trial.call(1, 1_003_600);
        trial.now = 1_007_200;
        trial.call(2, 1_007_200);
        trial.now = 1_000_000;
        trial.wait(200);
        trial.call(3, 1_000_200);
        assert_eq!((trial.call(1, 1_003_600), trial.call(2, 1_007_200)), (held(1), held(2)));
    }

    #[test]
    fn an_older_call_that_is_judged_again_is_told_as_long_as_its_moment_stays() {
        let mut trial = Trial::at(1_000_000);
        for wait in [0, 10, 600, 6_000] {
            trial.wait(wait);
            let monotonic = trial.monotonic;
            let answer = if wait == 0 { Claimed::Free } else { held(1) };
            assert_eq!(trial.call_at(5_000, 1, 5_000, monotonic), answer, "{wait}");
        }
    }

    #[test]
    fn callers_whose_clocks_differ_harm_each_other_not() {
        let mut trial = Trial::at(1_000_000);
        for second in 0..600 {
            for (caller, moment) in [(1, trial.now), (2, trial.now - 30), (3, 5_000 + second)] {
                let monotonic = trial.monotonic;
                let claimed = trial.call_at(moment, caller * 10_000 + second, moment, monotonic);
                assert_eq!(claimed, Claimed::Free, "{caller} {second}");
            }
            trial.wait(1);
        }
    }

    #[test]
    fn where_there_is_no_room_nothing_passes_until_a_ticket_is_forgotten() {
        let mut trial = Trial { table: Table::new(2), ..Trial::at(1000) };
        trial.call(1, 1000);
        trial.call(2, 1000);
        assert_eq!((trial.call(3, 1000), trial.call(1, 1000)), (Claimed::Full, held(1)));
        assert!(matches!(trial.table.health(), Health::Ill { .. }));
        trial.wait(71);
        assert_eq!((trial.call(3, 1071), trial.table.health()), (Claimed::Free, Health::Well));
    }

    #[test]
    fn what_is_due_is_forgotten_in_portions() {
        let mut trial = Trial::at(1000);
        let many = 3 * PORTION as u64;
        for ticket in 0..many {
            trial.call(ticket, 1000);
        }
        trial.wait(100);
        for (call, left) in [(1, 2 * PORTION), (2, PORTION), (3, 0)] {
            trial.call(many + call, 1100);
            assert_eq!(trial.table.len(), left + call as usize);
        }
        assert_eq!(trial.call(0, 1000), Claimed::Forgotten);
    }

    #[test]
    fn a_released_ticket_is_free_again() {
        let mut trial = Trial::at(1000);
        trial.call(1, 1000);
        let mut key = [0; 32];
        key[..8].copy_from_slice(&1_u64.to_be_bytes());
        trial.table.release(&key);
        assert_eq!((trial.table.len(), trial.call(1, 1000)), (0, Claimed::Free));
    }

    /// Clocks that leap both ways, callers that repeat themselves, and no ticket that passes twice.
    #[test]
    fn no_ticket_passes_twice_however_the_clock_leaps() {
        for start in 1..=20_u64 {
            let mut seed = start.wrapping_mul(0x9e37_79b9_7f4a_7c15);
            let mut random = |bound: u64| {
                seed = seed.wrapping_mul(6_364_136_223_846_793_005).wrapping_add(1);
                (seed >> 33) % bound
            };
            let (mut trial, mut won) = (Trial::at(1_000_000), HashSet::new());
            for step in 0..20_000 {
                match random(200) {
                    0 => trial.now += random(4000),
                    1 => trial.now -= random(4000).min(trial.now - 900_000),
                    2..=40 => trial.wait(random(4)),
                    _ => {}
                }
                // A ticket's seconds follow from it, since it is a digest of its PASSporT.
                let since = trial.now + random(66) - 60;
                let ticket = since * 4 + random(4);
                if trial.call(ticket, since) == Claimed::Free {
                    assert!(won.insert(ticket), "seed {start}, step {step}, ticket {ticket}");
                }
            }
        }
    }
}
