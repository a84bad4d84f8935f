//! What is kept: a bounded number of entries and bytes, of which the least lately asked leaves.
use crate::fetch::Fetched;
use std::collections::{BTreeMap, BinaryHeap, HashMap};
use std::sync::Arc;

/// For how long an entry is good by the server's word, at least and at most, in seconds.
const SHORTEST: u64 = 300;
const LONGEST: u64 = 86_400;

/// After so many seconds without a good fetch an entry is dropped.
const OLDEST: u64 = 7 * 86_400;

/// After a fetch that failed, the next one waits so many seconds, at first and at most.
const FIRST_WAIT: u64 = 60;
const LONGEST_WAIT: u64 = 3_600;

/// What an entry takes beside its bytes and its URI.
const OVERHEAD: usize = 256;

/// A chain that was fetched. All times are seconds of Unix time.
///
/// ```
/// use stir_trust::{cache::Entry, fetch::Fetched};
///
/// let fetched = Fetched { chain: vec![vec![1]], keep: Some(600), ends: 20_000 };
/// let entry = Entry::of(&fetched, 10_000);
/// assert_eq!((entry.fetched, entry.due, entry.ends), (10_000, 10_600, 20_000));
/// ```
#[derive(Clone, Debug, PartialEq, Eq)]
pub struct Entry {
    /// Its certificates in DER, one after another, the leaf's first.
    pub der: Arc<[u8]>,
    /// When it was fetched.
    pub fetched: u64,
    /// When it is to be fetched anew.
    pub due: u64,
    /// The last second at which all of its certificates are valid.
    pub ends: u64,
}

/// The times of a chain that was fetched, in seconds of Unix time.
///
/// ```
/// use stir_trust::cache::{Entry, Times};
///
/// let entry = Entry { der: [0x30, 0].into(), fetched: 10_000, due: 20_000, ends: 30_000 };
/// assert_eq!(entry.times(), Times { fetched: 10_000, due: 20_000, ends: 30_000 });
/// ```
#[derive(Clone, Copy, Debug, PartialEq, Eq)]
pub struct Times {
    /// When it was fetched.
    pub fetched: u64,
    /// When it is to be fetched anew.
    pub due: u64,
    /// The last second at which all of its certificates are valid.
    pub ends: u64,
}

impl Entry {
    /// Its times.
    ///
    /// [The example](Times) has them all.
    pub fn times(&self) -> Times {
        Times { fetched: self.fetched, due: self.due, ends: self.ends }
    }

    /// The entry of what was fetched at this second. It is due after the time that the server gave,
    /// from five minutes to a day, and before a certificate ends.
    ///
    /// ```
    /// # use stir_trust::{cache::Entry, fetch::Fetched};
    /// let fetched = Fetched { chain: vec![vec![1]], keep: None, ends: 20_000 };
    /// assert_eq!(Entry::of(&fetched, 10_000).due, 20_000);
    /// ```
    pub fn of(fetched: &Fetched, now: u64) -> Entry {
        let due = now + fetched.keep.unwrap_or(LONGEST).clamp(SHORTEST, LONGEST);
        let due = if fetched.ends > now { due.min(fetched.ends) } else { due };
        Entry { der: fetched.der().into(), fetched: now, due, ends: fetched.ends }
    }

    /// The last second at which it is handed out. One that had ended when it was fetched is for the
    /// judge to refuse, until it is due.
    pub(super) fn last(&self) -> u64 {
        let last = if self.ends > self.fetched { self.ends } else { self.due };
        last.min(self.fetched.saturating_add(OLDEST))
    }

    fn size(&self, x5u: &str) -> usize {
        self.der.len() + x5u.len() + OVERHEAD
    }
}

struct Slot {
    entry: Arc<Entry>,
    /// Its place in the order of asking.
    order: u64,
    /// Whether it was asked for since it was fetched.
    is_asked: bool,
    /// When the next fetch may begin, and how long the one after it waits if it fails.
    next: u64,
    wait: u64,
}

pub(super) struct Kept {
    slots: HashMap<String, Slot>,
    order: BTreeMap<u64, String>,
    count: u64,
    bytes: usize,
    most: usize,
    most_bytes: usize,
}

impl Kept {
    pub(super) fn new(most: usize, most_bytes: usize) -> Kept {
        let (slots, order) = (HashMap::new(), BTreeMap::new());
        Kept { slots, order, count: 0, bytes: 0, most, most_bytes }
    }

    pub(super) fn len(&self) -> usize {
        self.slots.len()
    }

    pub(super) fn bytes(&self) -> usize {
        self.bytes
    }

    /// The entry of this URI, which is then the one that was asked last.
    pub(super) fn asked(&mut self, x5u: &str, now: u64) -> Option<Arc<Entry>> {
        let slot = self.slots.get_mut(x5u).filter(|slot| now <= slot.entry.last())?;
        if let Some(name) = self.order.remove(&slot.order) {
            self.count += 1;
            slot.order = self.count;
            self.order.insert(self.count, name);
        }
        slot.is_asked = true;
        Some(Arc::clone(&slot.entry))
    }

    /// The entry of this URI, of whatever age, without being asked for.
    pub(super) fn entry(&self, x5u: &str) -> Option<Arc<Entry>> {
        self.slots.get(x5u).map(|slot| Arc::clone(&slot.entry))
    }

    /// Keeps an entry; with those that leave for it.
    pub(super) fn put(&mut self, x5u: &str, entry: Arc<Entry>) -> Vec<String> {
        self.remove(x5u);
        self.count += 1;
        self.bytes += entry.size(x5u);
        self.order.insert(self.count, x5u.into());
        let next = ahead(x5u, &entry);
        let slot = Slot { entry, order: self.count, is_asked: false, next, wait: FIRST_WAIT };
        self.slots.insert(x5u.into(), slot);
        let mut left = Vec::new();
        while self.slots.len() > self.most || self.bytes > self.most_bytes {
            let Some(first) = self.order.values().next().cloned() else { break };
            self.remove(&first);
            left.push(first);
        }
        left
    }

    fn remove(&mut self, x5u: &str) {
        if let Some(slot) = self.slots.remove(x5u) {
            self.order.remove(&slot.order);
            self.bytes -= slot.entry.size(x5u);
        }
    }

    /// Whether this URI is to be fetched anew, ahead of its time.
    pub(super) fn is_wanted(&self, x5u: &str, now: u64) -> bool {
        self.slots.get(x5u).is_some_and(|slot| slot.is_asked && now >= slot.next)
    }

    /// All that are.
    pub(super) fn wanted(&self, now: u64) -> Vec<String> {
        self.slots.keys().filter(|x5u| self.is_wanted(x5u, now)).cloned().collect()
    }

    /// A fetch of this URI failed: what is kept stays, and the next fetch waits longer.
    pub(super) fn failed(&mut self, x5u: &str, now: u64) {
        if let Some(slot) = self.slots.get_mut(x5u) {
            slot.next = now + slot.wait;
            slot.wait = (slot.wait * 2).min(LONGEST_WAIT);
        }
    }

    /// Drops what isn't handed out any more; with the URIs of that.
    pub(super) fn drop_old(&mut self, now: u64) -> Vec<String> {
        let old = self.slots.iter().filter(|(_, slot)| now > slot.entry.last());
        let old: Vec<String> = old.map(|(x5u, _)| x5u.clone()).collect();
        old.iter().for_each(|x5u| self.remove(x5u));
        old
    }

    /// Drops those of which this holds; with their URIs.
    pub(super) fn drop_those(&mut self, is_gone: impl Fn(&str) -> bool) -> Vec<String> {
        let gone: Vec<String> = self.slots.keys().filter(|x5u| is_gone(x5u)).cloned().collect();
        gone.iter().for_each(|x5u| self.remove(x5u));
        gone
    }

    /// The first of the URIs after this one, so many at most, with their entries.
    pub(super) fn list(&self, after: Option<&str>, most: usize) -> Vec<(String, Arc<Entry>)> {
        let mut first: BinaryHeap<&str> = BinaryHeap::with_capacity(most.min(self.len()) + 1);
        for x5u in self.slots.keys().map(String::as_str) {
            let is_later = after.is_none_or(|after| x5u > after);
            let is_first = first.len() < most || first.peek().is_some_and(|last| x5u < *last);
            if is_later && is_first {
                first.push(x5u);
                if first.len() > most {
                    first.pop();
                }
            }
        }
        let entry = |x5u: &str| Some((x5u.to_owned(), self.entry(x5u)?));
        first.into_sorted_vec().into_iter().filter_map(entry).collect()
    }

    /// The first end of those that hadn't ended when they were fetched.
    pub(super) fn ends(&self) -> Option<u64> {
        let entries = self.slots.values().map(|slot| &slot.entry);
        entries.filter(|entry| entry.ends > entry.fetched).map(|entry| entry.ends).min()
    }
}

/// When an entry is fetched anew if it is asked for: after 75 to 85 hundredths of its time, by its
/// URI, so that not all that were fetched at once are fetched at once again.
fn ahead(x5u: &str, entry: &Entry) -> u64 {
    let of_uri = x5u.bytes().fold(0u64, |sum, byte| sum.wrapping_mul(31) + u64::from(byte)) % 11;
    entry.fetched + entry.due.saturating_sub(entry.fetched) * (75 + of_uri) / 100
}

#[cfg(test)]
mod tests {
    use super::*;

    fn entry(keep: Option<u64>, ends: u64, now: u64) -> Entry {
        Entry::of(&Fetched { chain: vec![vec![0; 100]], keep, ends }, now)
    }

    #[test]
    fn an_entry_is_due_from_five_minutes_to_a_day_and_before_a_certificate_ends() {
        let far = 10_000_000;
        for (keep, ends, due) in [
            (None, far, 1_000 + 86_400),
            (Some(0), far, 1_300),
            (Some(299), far, 1_300),
            (Some(301), far, 1_301),
            (Some(86_400), far, 1_000 + 86_400),
            (Some(u64::MAX), far, 1_000 + 86_400),
            (Some(600), 1_500, 1_500),
            (Some(0), 1_001, 1_001),
            (Some(600), 1_000, 1_600),
            (Some(600), 0, 1_600),
        ] {
            assert_eq!(entry(keep, ends, 1_000).due, due, "{keep:?} {ends}");
        }
    }

    #[test]
    fn nothing_is_handed_out_past_a_certificates_end_or_a_week() {
        let mut kept = Kept::new(9, 9_999);
        for (x5u, ends, last) in [
            ("ends", 5_000, 5_000),
            ("week", 10_000_000, 1_000 + 7 * 86_400),
            ("had ended", 900, 1_600),
        ] {
            kept.put(x5u, Arc::new(entry(Some(600), ends, 1_000)));
            assert!(kept.asked(x5u, last).is_some(), "{x5u}");
            assert!(kept.asked(x5u, last + 1).is_none(), "{x5u}");
        }
        assert_eq!(kept.drop_old(5_000), ["had ended"]);
        assert_eq!(kept.drop_old(5_001), ["ends"]);
        assert_eq!(kept.len(), 1);
    }

    #[test]
    fn the_least_lately_asked_leaves_at_the_bound_of_entries_and_of_bytes() {
        let each = 100 + 1 + OVERHEAD;
        for mut kept in [Kept::new(3, usize::MAX), Kept::new(usize::MAX, 3 * each)] {
            let entry = Arc::new(entry(None, 10_000_000, 0));
            for x5u in ["a", "b", "c"] {
                assert!(kept.put(x5u, Arc::clone(&entry)).is_empty());
            }
            assert!(kept.asked("a", 1).is_some());
            assert_eq!(kept.put("d", Arc::clone(&entry)), ["b"]);
            assert_eq!(kept.put("c", Arc::clone(&entry)), [""; 0], "it takes its own place");
            assert_eq!(kept.put("e", Arc::clone(&entry)), ["a"]);
            assert_eq!((kept.len(), kept.bytes(), kept.order.len()), (3, 3 * each, 3));
        }
    }

    #[test]
    fn a_list_is_in_the_order_of_uris_and_goes_on_after_one() {
        let mut kept = Kept::new(99, 99_999);
        for x5u in ["d", "b", "e", "a", "c"] {
            kept.put(x5u, Arc::new(entry(None, 10_000_000, 0)));
        }
        let list = |after, most| {
            kept.list(after, most).into_iter().map(|(x5u, _)| x5u).collect::<Vec<_>>().concat()
        };
        assert_eq!(
            (list(None, 2), list(None, 9), list(None, 0)),
            ("ab".into(), "abcde".into(), "".into())
        );
        assert_eq!((list(Some("b"), 2), list(Some("bb"), 9)), ("cd".into(), "cde".into()));
        assert_eq!((list(Some("e"), 9), list(Some(""), 1)), ("".into(), "a".into()));
    }

    #[test]
    fn the_first_end_is_that_of_what_hadnt_ended_before() {
        let mut kept = Kept::new(99, 99_999);
        assert_eq!(kept.ends(), None);
        kept.put("ended", Arc::new(entry(None, 900, 1_000)));
        assert_eq!(kept.ends(), None);
        for (x5u, ends) in [("late", 9_000), ("soon", 5_000)] {
            kept.put(x5u, Arc::new(entry(None, ends, 1_000)));
        }
        assert_eq!(kept.ends(), Some(5_000));
        assert_eq!(kept.drop_those(|x5u| x5u == "soon"), ["soon"]);
        assert_eq!((kept.ends(), kept.len(), kept.order.len()), (Some(9_000), 2, 2));
    }

    #[test]
    fn what_was_asked_for_is_fetched_ahead_of_its_time_and_less_often_if_that_fails() {
        let mut kept = Kept::new(9, 9_999);
        kept.put("a", Arc::new(entry(Some(1_000), 10_000_000, 0)));
        assert!(kept.wanted(900).is_empty(), "nobody asked for it");
        assert!(kept.asked("a", 1).is_some());
        assert!(!kept.is_wanted("a", 749) && kept.is_wanted("a", 850));
        assert_eq!(kept.wanted(850), ["a"]);
        let mut now = 850;
        for wait in [60, 120, 240, 480, 960, 1_920, 3_600, 3_600] {
            kept.failed("a", now);
            assert!(!kept.is_wanted("a", now + wait - 1), "{wait}");
            now += wait;
            assert!(kept.is_wanted("a", now), "{wait}");
            assert!(kept.asked("a", now).is_some(), "the old one stays");
        }
    }
}
