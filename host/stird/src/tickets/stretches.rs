//! A set of seconds, kept as stretches of them.

/// So many stretches at most are kept. Past that the two that lie nearest become one, with the gap
/// between them.
const MOST: usize = 64;

/// The seconds of which tickets were forgotten. Each second that was added is in it; one that
/// wasn't is in it only if it lies in the gap between two stretches that became one.
#[derive(Clone, Debug, Default, PartialEq, Eq)]
pub struct Stretches {
    /// The first and the last second of each, in order, with a gap between any two.
    all: Vec<(u64, u64)>,
}

impl Stretches {
    /// Whether a second is in the set.
    pub fn has(&self, second: u64) -> bool {
        let after = self.all.partition_point(|(first, _)| *first <= second);
        after
            .checked_sub(1)
            .and_then(|at| self.all.get(at))
            .is_some_and(|(_, last)| second <= *last)
    }

    /// Adds a second.
    pub fn add(&mut self, second: u64) {
        self.add_all(second, second);
    }

    /// Adds the seconds from `first` to `last`; none if `last` is the lesser.
    pub fn add_all(&mut self, first: u64, last: u64) {
        if first > last {
            return;
        }
        let from = self.all.partition_point(|(_, end)| end.saturating_add(1) < first);
        let to = self.all.partition_point(|(start, _)| *start <= last.saturating_add(1));
        let joined = self.all.get(from..to).unwrap_or_default().iter();
        let whole = joined
            .fold((first, last), |(first, last), (start, end)| (first.min(*start), last.max(*end)));
        self.all.splice(from..to, [whole]);
        if self.all.len() > MOST {
            self.close_a_gap();
        }
    }

    /// The first and the last second of each stretch, in order.
    pub fn iter(&self) -> impl Iterator<Item = (u64, u64)> + '_ {
        self.all.iter().copied()
    }

    fn close_a_gap(&mut self) {
        let gap = |pair: &[(u64, u64)]| match pair {
            [(_, end), (start, _)] => start.saturating_sub(*end),
            _ => u64::MAX,
        };
        let narrowest =
            self.all.windows(2).enumerate().min_by_key(|(_, pair)| gap(pair)).map(|(at, _)| at);
        if let Some(at) = narrowest.filter(|at| at + 1 < self.all.len()) {
            let (_, end) = self.all.remove(at + 1);
            if let Some(stretch) = self.all.get_mut(at) {
                stretch.1 = end;
            }
        }
    }
}

#[cfg(test)]
mod tests {
    use super::*;
    use std::collections::BTreeSet;

    fn of(seconds: &[u64]) -> Stretches {
        let mut stretches = Stretches::default();
        seconds.iter().for_each(|second| stretches.add(*second));
        stretches
    }

    #[test]
    fn seconds_that_touch_become_one_stretch() {
        for (seconds, whole) in [
            (vec![5, 6, 7], vec![(5, 7)]),
            (vec![7, 5, 6], vec![(5, 7)]),
            (vec![5, 9], vec![(5, 5), (9, 9)]),
            (vec![9, 5, 9, 5], vec![(5, 5), (9, 9)]),
            (vec![0, u64::MAX], vec![(0, 0), (u64::MAX, u64::MAX)]),
            (vec![u64::MAX, u64::MAX - 1], vec![(u64::MAX - 1, u64::MAX)]),
        ] {
            assert_eq!(of(&seconds).iter().collect::<Vec<_>>(), whole, "{seconds:?}");
        }
    }

    #[test]
    fn a_range_takes_in_what_it_touches() {
        let mut stretches = of(&[1, 5, 9, 20]);
        stretches.add_all(6, 10);
        assert_eq!(stretches.iter().collect::<Vec<_>>(), [(1, 1), (5, 10), (20, 20)]);
        stretches.add_all(8, 7);
        assert_eq!(stretches.iter().count(), 3);
    }

    #[test]
    fn it_has_what_was_added_and_nothing_else_while_there_are_few_stretches() {
        let mut seed = 0x2545_f491_4f6c_dd1d_u64;
        let (mut stretches, mut plain) = (Stretches::default(), BTreeSet::new());
        for _ in 0..40 {
            seed = seed.wrapping_mul(6_364_136_223_846_793_005).wrapping_add(1);
            let second = (seed >> 33) % 90;
            stretches.add(second);
            plain.insert(second);
            for second in 0..100 {
                assert_eq!(stretches.has(second), plain.contains(&second), "{second} {plain:?}");
            }
        }
    }

    #[test]
    fn past_the_most_the_narrowest_gap_is_closed() {
        let mut stretches = Stretches::default();
        for number in 0..MOST as u64 {
            stretches.add(number * 100);
        }
        stretches.add(1_000_000);
        assert_eq!(stretches.iter().count(), MOST);
        stretches.add(1_000_050);
        assert_eq!(stretches.iter().count(), MOST);
        assert!(stretches.has(1_000_025) && !stretches.has(900_000));
        assert!((0..MOST as u64).all(|number| stretches.has(number * 100)));
    }
}
