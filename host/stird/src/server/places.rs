//! The places for connections: so many at once, and so many from one address. If all are taken, one
//! of those goes that say nothing or are slow, so that they keep nobody out. One that has just
//! come, or has just had an answer, goes last of these: its request may be on its way.
use crate::metrics::Metrics;
use std::collections::{HashMap, VecDeque};
use std::net::{IpAddr, Ipv6Addr};
use std::sync::atomic::{AtomicBool, AtomicU64, Ordering::SeqCst};
use std::sync::{Arc, Mutex};
use std::time::{Duration, Instant};
use stir_trust::locks::Held;
use tokio::sync::Notify;

/// A request that comes for so long counts as slow, and a connection that is so long without one as
/// idle.
const SLOW: Duration = Duration::from_secs(1);

/// How many connections more than there may be can be on their way out, so that as many as come at
/// once have a place.
pub const AT_ONCE: usize = 64;

/// How many connections are looked up at once that may go, and how long that look-up counts.
const CANDIDATES: usize = 256;
const KEPT: Duration = Duration::from_millis(100);

/// What a connection does.
#[derive(Clone, Copy, Debug, PartialEq, Eq, PartialOrd, Ord)]
pub enum Doing {
    /// It waits for a request.
    Nothing,
    /// A request comes.
    Receiving,
    /// A request is answered.
    Answering,
}

/// A connection as others see it.
pub struct Seat {
    start: Instant,
    /// What it does, and since when: milliseconds after the start, times four, and the number of
    /// what it does.
    doing: AtomicU64,
    is_leaving: AtomicBool,
    /// Told if the connection has to go.
    pub leave: Notify,
}

impl Seat {
    /// One that does nothing yet.
    pub fn new(start: Instant) -> Seat {
        let seat = Seat {
            start,
            doing: AtomicU64::new(0),
            is_leaving: false.into(),
            leave: Notify::new(),
        };
        seat.does(Doing::Nothing);
        seat
    }

    /// From now on it does this.
    pub fn does(&self, what: Doing) {
        let since = self.start.elapsed().as_millis() as u64;
        self.doing.store((since << 2) | what as u64, SeqCst);
    }

    /// What it does.
    pub fn doing(&self) -> Doing {
        what(self.doing.load(SeqCst))
    }

    /// Whether it has to go.
    pub fn is_leaving(&self) -> bool {
        self.is_leaving.load(SeqCst)
    }
}

/// What a connection does by its seat.
fn what(doing: u64) -> Doing {
    match doing & 3 {
        0 => Doing::Nothing,
        1 => Doing::Receiving,
        _ => Doing::Answering,
    }
}

/// Since which millisecond after the start.
fn since(doing: u64) -> u64 {
    doing >> 2
}

/// Why it may go so long after the start, if it may.
fn cause(doing: u64, now: Duration) -> Option<Cause> {
    let is_long = now.saturating_sub(Duration::from_millis(since(doing))) >= SLOW;
    match what(doing) {
        Doing::Nothing if is_long => Some(Cause::Idle),
        Doing::Nothing => Some(Cause::Quiet),
        Doing::Receiving => is_long.then_some(Cause::Slow),
        Doing::Answering => None,
    }
}

/// The places.
pub struct Places {
    most: usize,
    each: usize,
    start: Instant,
    metrics: Arc<Metrics>,
    held: Mutex<Taken>,
}

#[derive(Default)]
struct Taken {
    next: u64,
    seats: HashMap<u64, Taker>,
    each: HashMap<IpAddr, usize>,
    /// How many have to go, and are still there.
    leaving: usize,
    /// Those that may go, with what each did when they were looked up, and when that was.
    candidates: VecDeque<(u64, u64)>,
    looked_up: Duration,
}

/// Who has a place.
struct Taker {
    address: Option<IpAddr>,
    seat: Arc<Seat>,
}

/// Why a connection may go. Those of the first kind go first.
#[derive(Clone, Copy, Debug, PartialEq, Eq, PartialOrd, Ord)]
enum Cause {
    /// It is without a request for long.
    Idle,
    /// Its request comes for long.
    Slow,
    /// It has no request yet, or no further one.
    Quiet,
}

/// Why there is no place.
#[derive(Clone, Copy, Debug, PartialEq, Eq)]
pub enum Full {
    /// All are taken, by those who are busy.
    All,
    /// The address has as many as one may have.
    Address,
}

/// A place that is taken. It is given back when it is dropped, by a panic too.
pub struct Place {
    places: Arc<Places>,
    number: u64,
    address: Option<IpAddr>,
    /// The connection as others see it.
    pub seat: Arc<Seat>,
}

/// The address by which connections are counted: of IPv6 the network of 64 bits.
fn counted(address: IpAddr) -> IpAddr {
    match address.to_canonical() {
        IpAddr::V6(address) => {
            let network = u128::from(address) >> 64 << 64;
            IpAddr::V6(Ipv6Addr::from(network))
        }
        address => address,
    }
}

impl Places {
    /// So many places, and so many for one address.
    pub fn new(most: usize, each: usize, metrics: Arc<Metrics>) -> Arc<Places> {
        let start = Instant::now();
        Arc::new(Places { most, each, start, metrics, held: Mutex::default() })
    }

    /// A place for a connection from this address.
    ///
    /// # Errors
    ///
    /// Why there is none.
    pub fn take(self: &Arc<Places>, address: Option<IpAddr>) -> Result<Place, Full> {
        let address = address.map(counted);
        let mut taken = self.held.lock().held();
        if address.is_some_and(|address| !self.has_room(&mut taken, address)) {
            return Err(Full::Address);
        }
        let stay = taken.seats.len().saturating_sub(taken.leaving);
        let has_room = stay < self.most || self.free_one(&mut taken);
        if !has_room || taken.leaving > self.most + AT_ONCE {
            return Err(Full::All);
        }
        let number = taken.next;
        taken.next += 1;
        let seat = Arc::new(Seat::new(self.start));
        taken.seats.insert(number, Taker { address, seat: Arc::clone(&seat) });
        if let Some(address) = address {
            *taken.each.entry(address).or_default() += 1;
        }
        self.metrics.connections.set(taken.seats.len() as i64);
        drop(taken);
        Ok(Place { places: Arc::clone(self), number, address, seat })
    }

    /// Whether one more of this address has a place, if need be that of another one.
    fn has_room(&self, taken: &mut Taken, address: IpAddr) -> bool {
        let all = taken.each.get(&address).copied().unwrap_or(0);
        if all < self.each {
            return true;
        }
        let is_of = |taker: &&Taker| taker.address == Some(address);
        let leaving = taken.seats.values().filter(is_of).filter(|taker| taker.seat.is_leaving());
        if all - leaving.count().min(all) < self.each {
            return true;
        }
        let mut candidates = self.candidates(taken, Some(address));
        self.free_first(taken, &mut candidates)
    }

    /// Has the connection go that is without a request for longest, if it is idle; or else the one
    /// whose request comes for longest, if it is slow; or else the one that is without a request
    /// for longest. Whether there is one.
    pub fn free(&self) -> bool {
        self.free_one(&mut self.held.lock().held())
    }

    fn free_one(&self, taken: &mut Taken) -> bool {
        let mut candidates = std::mem::take(&mut taken.candidates);
        let now = self.start.elapsed();
        let is_recent = now.saturating_sub(taken.looked_up) < KEPT;
        let mut is_found = is_recent && self.free_first(taken, &mut candidates);
        if !is_found {
            candidates = self.candidates(taken, None);
            taken.looked_up = now;
            is_found = self.free_first(taken, &mut candidates);
        }
        taken.candidates = candidates;
        is_found
    }

    /// Has the first of these go that does what it did then. Whether there is one.
    fn free_first(&self, taken: &mut Taken, candidates: &mut VecDeque<(u64, u64)>) -> bool {
        while let Some((number, doing)) = candidates.pop_front() {
            let seat = taken.seats.get(&number).map(|taker| &taker.seat);
            let found = seat.filter(|seat| {
                seat.doing.load(SeqCst) == doing && !seat.is_leaving.swap(true, SeqCst)
            });
            if let Some(seat) = found {
                seat.leave.notify_one();
                taken.leaving += 1;
                self.metrics.closed.inc();
                return true;
            }
        }
        false
    }

    /// Those that may go, the first one first: of this address, or of all.
    fn candidates(&self, taken: &Taken, of: Option<IpAddr>) -> VecDeque<(u64, u64)> {
        let now = self.start.elapsed();
        let mut found: Vec<_> = (taken.seats.iter())
            .filter(|(_, taker)| of.is_none() || taker.address == of)
            .map(|(number, taker)| (number, &taker.seat))
            .filter(|(_, seat)| !seat.is_leaving())
            .filter_map(|(number, seat)| {
                let doing = seat.doing.load(SeqCst);
                Some((cause(doing, now)?, since(doing), *number, doing))
            })
            .collect();
        found.sort_unstable();
        found.into_iter().take(CANDIDATES).map(|(.., number, doing)| (number, doing)).collect()
    }

    /// How many are taken.
    pub fn count(&self) -> usize {
        self.held.lock().held().seats.len()
    }
}

impl Drop for Place {
    fn drop(&mut self) {
        let mut taken = self.places.held.lock().held();
        taken.seats.remove(&self.number);
        if self.seat.is_leaving() {
            taken.leaving = taken.leaving.saturating_sub(1);
        }
        if let Some(address) = self.address {
            if let Some(count) = taken.each.get_mut(&address) {
                *count -= 1;
                if *count == 0 {
                    taken.each.remove(&address);
                }
            }
        }
        self.places.metrics.connections.set(taken.seats.len() as i64);
    }
}

#[cfg(test)]
mod tests {
    use super::*;

    fn places(most: usize, each: usize) -> Arc<Places> {
        Places::new(most, each, Arc::new(Metrics::new().expect("names that are good")))
    }

    fn from(places: &Arc<Places>, address: &str) -> Result<Place, Full> {
        places.take(Some(address.parse().expect("an address")))
    }

    #[test]
    fn a_connection_that_panics_gives_its_place_back() {
        let places = places(1, 1);
        let place = places.take(None).expect("one is free");
        place.seat.does(Doing::Answering);
        assert_eq!(places.take(None).err(), Some(Full::All));
        let thread = std::thread::spawn(move || {
            let _place = place;
            std::panic::resume_unwind(Box::new("a fault"));
        });
        assert!(thread.join().is_err());
        assert!(places.take(None).is_ok(), "its place is free again");
    }

    #[test]
    fn if_all_are_taken_the_one_goes_that_is_idle_for_longest() {
        let places = places(3, 9);
        let held: Vec<Place> = (0..3).map(|_| places.take(None).expect("one")).collect();
        for (at, place) in held.iter().enumerate() {
            std::thread::sleep(Duration::from_millis(3));
            place.seat.does(if at == 1 { Doing::Answering } else { Doing::Nothing });
        }
        std::thread::sleep(Duration::from_millis(3));
        held[0].seat.does(Doing::Nothing);
        let more: Vec<Place> = (0..2).map(|_| places.take(None).expect("one")).collect();
        let leaving = |places: &[Place]| -> Vec<bool> {
            places.iter().map(|place| place.seat.is_leaving()).collect()
        };
        assert_eq!(leaving(&held), [true, false, true]);
        more.iter().for_each(|place| place.seat.does(Doing::Answering));
        assert_eq!(places.take(None).err(), Some(Full::All), "all are busy");
        assert_eq!((leaving(&more), places.count()), (vec![false; 2], 5));
        drop(held);
        assert!(places.take(None).is_ok(), "one is free again");
    }

    #[test]
    fn a_slow_request_goes_if_none_is_idle_and_one_that_is_new_doesnt() {
        let places = places(2, 2);
        let slow = places.take(None).expect("one is free");
        slow.seat.does(Doing::Receiving);
        std::thread::sleep(SLOW + Duration::from_millis(20));
        let new = places.take(None).expect("one is free");
        new.seat.does(Doing::Receiving);
        let third = places.take(None).expect("the slow one goes");
        third.seat.does(Doing::Receiving);
        assert_eq!((slow.seat.is_leaving(), new.seat.is_leaving()), (true, false));
        assert_eq!(places.take(None).err(), Some(Full::All));
    }

    #[test]
    fn one_whose_request_may_be_on_its_way_goes_last() {
        let places = places(4, 4);
        let held: Vec<Place> = (0..3).map(|_| places.take(None).expect("one")).collect();
        held[0].seat.does(Doing::Receiving);
        held[2].seat.does(Doing::Answering);
        std::thread::sleep(SLOW + Duration::from_millis(20));
        // It has had its answer just now.
        held[2].seat.does(Doing::Nothing);
        let new = places.take(None).expect("one is free");
        let all = [&held[0], &held[1], &held[2], &new];
        // The idle one goes first, then the slow one, then those that are quiet for a moment.
        for (more, gone) in [1, 0, 2, 3].into_iter().enumerate() {
            assert!(!all.map(|place| place.seat.is_leaving())[gone], "{more}");
            let _other = places.take(None).map(std::mem::forget);
            assert!(all.map(|place| place.seat.is_leaving())[gone], "{more}");
        }
    }

    #[test]
    fn an_address_has_so_many_places() {
        let places = places(9, 2);
        let busy = |address| {
            let place = from(&places, address)?;
            place.seat.does(Doing::Answering);
            Ok::<Place, Full>(place)
        };
        let one = busy("192.0.2.1").expect("one is free");
        let _other = busy("::ffff:192.0.2.1").expect("one is free");
        assert_eq!(from(&places, "192.0.2.1").err(), Some(Full::Address));
        assert!(from(&places, "192.0.2.2").is_ok() && places.take(None).is_ok());
        drop(one);
        let _again = busy("192.0.2.1").expect("one is free again");
        let _six = [busy("2001:db8::1"), busy("2001:db8::2")];
        assert_eq!(from(&places, "2001:db8::3").err(), Some(Full::Address));
        assert!(from(&places, "2001:db8:0:1::1").is_ok(), "another network");
    }

    #[test]
    fn silent_connections_of_an_address_make_place_for_its_others() {
        let places = places(9, 2);
        let other = from(&places, "192.0.2.2").expect("one is free");
        let silent = [from(&places, "192.0.2.1"), from(&places, "192.0.2.1")];
        let more: Vec<_> = (0..2).map(|_| from(&places, "192.0.2.1").expect("one goes")).collect();
        for place in silent.into_iter().map(|place| place.expect("it was free")) {
            assert!(place.seat.is_leaving());
        }
        assert!(!other.seat.is_leaving() && more.iter().all(|place| !place.seat.is_leaving()));
    }
}
