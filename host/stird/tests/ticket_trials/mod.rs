//! What the tests of tickets share: a clock that they move, folders, and small file systems.
#![allow(dead_code)]
use std::path::{Path, PathBuf};
use std::process::Command;
use std::sync::atomic::{AtomicU64, Ordering};
use std::sync::Arc;
use std::time::{Duration, Instant};
use stird::tickets::{Claim, Clock, Health, Passed, Ticket, Tickets};

/// A second at which the tests begin.
pub const START: u64 = 1_800_000_000;

/// A clock that stands still until a test moves it.
pub struct Moved {
    now: AtomicU64,
    monotonic: AtomicU64,
}

impl Moved {
    pub fn at(now: u64) -> Arc<Moved> {
        Arc::new(Moved { now: now.into(), monotonic: 0.into() })
    }

    /// Time goes by.
    pub fn wait(&self, seconds: u64) {
        self.now.fetch_add(seconds, Ordering::SeqCst);
        self.monotonic.fetch_add(seconds, Ordering::SeqCst);
    }

    /// The clock is set.
    pub fn set(&self, now: u64) {
        self.now.store(now, Ordering::SeqCst);
    }
}

impl Clock for Moved {
    fn now(&self) -> u64 {
        self.now.load(Ordering::SeqCst)
    }

    fn monotonic(&self) -> u64 {
        self.monotonic.load(Ordering::SeqCst)
    }
}

/// The ticket of this number.
pub fn ticket(number: u64) -> Ticket {
    let mut ticket = [0x5a; 32];
    ticket[..8].copy_from_slice(&number.to_be_bytes());
    ticket
}

/// Claims the ticket of a number for a call of that number, fresh for a minute from the clock's
/// second on.
pub async fn call(tickets: &dyn Tickets, clock: &dyn Clock, number: u64) -> Claim {
    call_since(tickets, clock, number, clock.now()).await
}

/// The same for a call that is fresh for a minute from some second on.
pub async fn call_since(
    tickets: &dyn Tickets,
    clock: &dyn Clock,
    number: u64,
    since: u64,
) -> Claim {
    let passed = Passed { last: since + 60, number };
    tickets.claim(ticket(number), passed, clock.now()).await
}

/// Why tickets can't be kept.
pub fn why(tickets: &dyn Tickets) -> String {
    match tickets.health() {
        Health::Well => panic!("tickets can be kept"),
        Health::Ill { why } => why,
    }
}

/// Looks until tickets can be kept, for so long at most.
pub async fn well_within(tickets: &dyn Tickets, limit: Duration) {
    let start = Instant::now();
    loop {
        tickets.look().await;
        match tickets.health() {
            Health::Well => return,
            Health::Ill { why } => assert!(start.elapsed() < limit, "still ill: {why}"),
        }
        tokio::time::sleep(Duration::from_millis(50)).await;
    }
}

/// A folder of a test, which is empty at first and goes with it.
pub struct Folder(PathBuf);

impl Folder {
    pub fn new(name: &str) -> Folder {
        let folder = std::env::temp_dir().join(format!("tickets-{}-{name}", std::process::id()));
        let _ = std::fs::remove_dir_all(&folder);
        std::fs::create_dir_all(&folder).unwrap();
        Folder(folder)
    }

    pub fn path(&self) -> &Path {
        &self.0
    }

    pub fn file(&self, name: &str) -> PathBuf {
        self.0.join(name)
    }

    /// Has a file system in memory of this size in it; false if this machine allows none.
    pub fn mount(&self, size: &str) -> bool {
        let options = format!("size={size}");
        let mounted = run("mount", &["-t", "tmpfs", "-o", &options, "tmpfs", &self.name()]);
        if !mounted {
            eprintln!("left out: no file system can be mounted here");
        }
        mounted
    }

    pub fn name(&self) -> String {
        self.0.display().to_string()
    }
}

impl Drop for Folder {
    fn drop(&mut self) {
        for mounted in [self.file("disk").display().to_string(), self.name()] {
            if run("mountpoint", &["-q", &mounted]) {
                run("umount", &[&mounted]);
            }
        }
        let _ = std::fs::remove_dir_all(&self.0);
    }
}

/// Whether a command ran and succeeded.
pub fn run(command: &str, words: &[&str]) -> bool {
    Command::new(command).args(words).output().is_ok_and(|output| output.status.success())
}
