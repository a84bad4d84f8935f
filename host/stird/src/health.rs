//! How the service stands: whether calls are judged as they should be, and if not, why.
use crate::answers::Answer;
use crate::routes::Service;
use crate::tickets::Health;
use hyper::StatusCode;
use serde::Serialize;
use std::sync::atomic::{AtomicBool, AtomicU64, Ordering::Relaxed};
use std::sync::Mutex;
use stir_trust::locks::Held;
use stir_trust::revocation::moment;

/// After how many seconds without a look at the files they count as not looked at any more, beside
/// ten times that between two looks.
const LATE: u64 = 60;

/// How the service stands.
#[derive(Default)]
pub struct Standing {
    is_ending: AtomicBool,
    /// The monotonic second of the last look at the files, and how many may go by until the next.
    looked: AtomicU64,
    patience: AtomicU64,
    /// Why changes of the files weren't taken at that look.
    faults: Mutex<Vec<String>>,
}

/// What `/readyz` says.
#[derive(Serialize)]
pub struct Ready {
    /// Whether calls are judged as they should be.
    pub ready: bool,
    /// Why they aren't.
    pub why: Vec<String>,
    /// What is to be looked at, though they are.
    pub notes: Vec<String>,
}

impl Standing {
    /// Files are looked at each so many seconds.
    pub fn new(reload: u64) -> Standing {
        let patience = AtomicU64::new(LATE.max(reload.saturating_mul(10)));
        Standing { patience, ..Standing::default() }
    }

    /// The service comes to its end.
    pub fn end(&self) {
        self.is_ending.store(true, Relaxed);
    }

    /// The files were looked at in this second, with these faults of what changed.
    pub fn look(&self, second: u64, faults: Vec<String>) {
        self.looked.store(second, Relaxed);
        *self.faults.lock().held() = faults;
    }

    /// The answer of `/readyz`.
    pub fn answer(&self, service: &Service) -> Answer {
        let says = self.says(service);
        let status = match says.ready {
            true => StatusCode::OK,
            false => StatusCode::SERVICE_UNAVAILABLE,
        };
        Answer::json(status, &says)
    }

    /// How the service stands now.
    pub fn says(&self, service: &Service) -> Ready {
        let mut why = Vec::new();
        if self.is_ending.load(Relaxed) {
            why.push("the service comes to its end".into());
        }
        if let Health::Ill { why: ill } = service.judge.tickets.health() {
            why.push(format!("tickets: {ill}"));
        }
        let world = service.judge.world.load();
        let (missing, unreadable) = (world.missing(), world.unreadable_count());
        if world.chains() == 0 && missing + unreadable > 0 {
            why.push("chains: none of those that are listed is there".into());
        }
        let since = service.clock.monotonic().saturating_sub(self.looked.load(Relaxed));
        if since > self.patience.load(Relaxed) {
            why.push(format!("files: not looked at for {since} seconds"));
        }
        let mut notes = self.faults.lock().held().clone();
        if missing > 0 {
            notes.push(format!("chains: {missing} listed files are missing"));
        }
        if let Some(revocation) = &service.judge.revocation {
            let revocation = revocation.load();
            let told = if revocation.is_hard() { &mut why } else { &mut notes };
            for (file, since) in revocation.ended(service.clock.now()) {
                let (file, since) = (file.display(), moment(since));
                told.push(format!("{file}: the next list should be there since {since}"));
            }
        }
        notes.extend(service.judge.fetching.iter().flat_map(|fetching| fetching.notes()));
        if let Some(blocks) = &service.blocks {
            notes.extend(blocks.load().notes(service.clock.now()));
        }
        Ready { ready: why.is_empty(), why, notes }
    }
}
