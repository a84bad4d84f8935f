//! The threads that answer. Each has a runtime of its own, and a connection stays with the one that
//! it was handed to: what it asks wakes no other thread.
use crate::server::date::make_date;
use std::future::{pending, Future};
use std::io;
use std::num::NonZeroUsize;
use std::pin::Pin;
use std::sync::atomic::{AtomicUsize, Ordering::Relaxed};
use std::sync::Arc;
use tokio::runtime::{Builder, Runtime};
use tokio::sync::mpsc::{unbounded_channel, UnboundedReceiver, UnboundedSender};

/// How many there are for each processor. A call takes a processor for a while, and what else its
/// thread has waits for that; with more threads than processors others go on meanwhile.
const FOR_EACH: usize = 8;

/// How much stack such a thread has: the library needs 256 kilobytes of it.
const STACK: usize = 4 << 20;

type Work = Pin<Box<dyn Future<Output = ()> + Send>>;

/// What makes the work of a connection, on the thread that does it.
type Job = Box<dyn FnOnce() -> Work + Send>;

/// All of them.
pub struct Hands {
    all: Vec<Hand>,
    next: AtomicUsize,
}

struct Hand {
    /// As many jobs wait at most as there are places for connections.
    jobs: UnboundedSender<Job>,
    /// How many connections it has.
    count: Arc<AtomicUsize>,
}

/// A connection that a thread has.
struct Held(Arc<AtomicUsize>);

impl Drop for Held {
    fn drop(&mut self) {
        self.0.fetch_sub(1, Relaxed);
    }
}

impl Hands {
    /// Some for each processor.
    ///
    /// # Errors
    ///
    /// A thread or its runtime can't be made.
    pub fn start() -> io::Result<Hands> {
        let processors = std::thread::available_parallelism().map_or(1, NonZeroUsize::get);
        let all = (0..FOR_EACH * processors).map(|_| Hand::start()).collect::<io::Result<_>>()?;
        Ok(Hands { all, next: AtomicUsize::new(0) })
    }

    /// Has the thread that has fewest connections do this; of several the one whose turn it is.
    pub fn hand<F>(&self, work: impl FnOnce() -> F + Send + 'static)
    where
        F: Future<Output = ()> + Send + 'static,
    {
        let turn = self.next.fetch_add(1, Relaxed) % self.all.len().max(1);
        let (before, after) = self.all.split_at(turn);
        let hands = after.iter().chain(before);
        let Some(hand) = hands.min_by_key(|hand| hand.count.load(Relaxed)) else { return };
        hand.count.fetch_add(1, Relaxed);
        let held = Held(Arc::clone(&hand.count));
        let job: Job = Box::new(move || {
            let work = work();
            Box::pin(async move {
                work.await;
                drop(held);
            })
        });
        // A thread ends with the process alone.
        let _ = hand.jobs.send(job);
    }
}

impl Hand {
    fn start() -> io::Result<Hand> {
        let (jobs, waiting) = unbounded_channel();
        let runtime = Builder::new_current_thread().enable_all().build()?;
        std::thread::Builder::new()
            .name("answers".into())
            .stack_size(STACK)
            .spawn(move || work(&runtime, waiting))?;
        Ok(Hand { jobs, count: Arc::default() })
    }
}

fn work(runtime: &Runtime, mut waiting: UnboundedReceiver<Job>) {
    make_date();
    runtime.block_on(async move {
        while let Some(job) = waiting.recv().await {
            tokio::spawn(job());
        }
        // What is under way goes on though nobody hands over more.
        pending::<()>().await;
    });
}

#[cfg(test)]
mod tests {
    use super::*;
    use std::collections::HashMap;
    use std::sync::mpsc::channel;

    #[test]
    fn connections_are_handed_out_evenly_and_one_that_panics_gives_its_place_back() {
        let hands = Hands::start().expect("threads");
        let (sender, told) = channel();
        for number in 0..4 * hands.all.len() {
            let sender = sender.clone();
            hands.hand(move || async move {
                let _ = sender.send(std::thread::current().id());
                if number == 0 {
                    std::panic::resume_unwind(Box::new("a fault"));
                }
                pending::<()>().await;
            });
        }
        drop(sender);
        let mut counts = HashMap::new();
        for thread in told.iter().take(4 * hands.all.len()) {
            *counts.entry(thread).or_insert(0) += 1;
        }
        assert_eq!(counts.len(), hands.all.len());
        assert!(counts.values().all(|count| (3..=5).contains(count)), "{counts:?}");
        let held = || hands.all.iter().map(|hand| hand.count.load(Relaxed)).sum::<usize>();
        for _ in 0..100 {
            if held() == 4 * hands.all.len() - 1 {
                return;
            }
            std::thread::sleep(std::time::Duration::from_millis(10));
        }
        panic!("{} are held", held());
    }
}
