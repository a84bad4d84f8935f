//! Replays, settled in the order of the log: of the calls with one ticket the first is valid.

use crate::state::Kept;
use std::collections::hash_map::{Entry, HashMap};
use stir::Passes;

/// How many tickets there are before those whose time is up are forgotten.
const FEW: usize = 4_096;

/// The calls that passed, by their tickets. A call whose PASSporT isn't fresh any more breaks rule
/// 9 by itself, so its ticket isn't asked for again.
#[derive(Debug)]
pub(crate) struct Tickets {
    kept: HashMap<[u8; 32], (u64, u64)>,
    most: usize,
}

impl Tickets {
    /// The calls that passed before.
    pub fn of(kept: &[Kept]) -> Tickets {
        let kept: HashMap<_, _> = kept.iter().map(|it| (it.ticket, (it.call, it.last))).collect();
        Tickets { most: FEW.max(2 * kept.len()), kept }
    }

    /// The call that is valid with the ticket of this one: itself, if none is yet.
    pub fn winner(&mut self, passes: &Passes, call: u64, moment: u64) -> u64 {
        if self.kept.len() >= self.most {
            self.kept.retain(|_, (_, last)| *last >= moment);
            self.most = FEW.max(2 * self.kept.len());
        }
        match self.kept.entry(passes.ticket) {
            Entry::Occupied(entry) => entry.get().0,
            Entry::Vacant(entry) => entry.insert((call, passes.last)).0,
        }
    }

    /// Those that are fresh at this moment, by rising tickets.
    pub fn fresh(&self, moment: u64) -> Vec<Kept> {
        let fresh = self.kept.iter().filter(|(_, (_, last))| *last >= moment);
        let mut kept: Vec<Kept> = fresh
            .map(|(ticket, (call, last))| Kept { ticket: *ticket, call: *call, last: *last })
            .collect();
        kept.sort_unstable_by_key(|kept| kept.ticket);
        kept
    }
}

#[cfg(test)]
mod tests {
    use super::*;

    fn passes(number: u64, last: u64) -> Passes {
        let mut ticket = [0; 32];
        ticket[..8].copy_from_slice(&number.to_be_bytes());
        Passes { ticket, last }
    }

    #[test]
    fn the_first_call_of_a_ticket_wins_and_is_kept_while_it_is_fresh() {
        let mut tickets = Tickets::of(&[Kept { ticket: passes(9, 0).ticket, call: 3, last: 60 }]);
        assert_eq!(tickets.winner(&passes(9, 60), 4, 50), 3);
        assert_eq!(tickets.winner(&passes(1, 70), 5, 51), 5);
        assert_eq!(tickets.winner(&passes(1, 70), 6, 52), 5);
        assert_eq!(tickets.fresh(60).len(), 2);
        assert_eq!(tickets.fresh(61), [Kept { ticket: passes(1, 0).ticket, call: 5, last: 70 }]);
        assert!(tickets.fresh(71).is_empty());
    }

    #[test]
    fn memory_grows_with_what_is_fresh_and_not_with_the_log() {
        let mut tickets = Tickets::of(&[]);
        for number in 0..100_000 {
            assert_eq!(tickets.winner(&passes(number, number + 60), number, number), number);
            assert!(tickets.kept.len() <= FEW);
        }
        assert_eq!(tickets.fresh(99_999).len(), 61);
    }
}
