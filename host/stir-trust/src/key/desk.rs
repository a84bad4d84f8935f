//! The desk before a token of an HSM: who wants something signed waits there, in one queue that has
//! a bound, and a few threads of the token's own sign, each by a session of its own. So an HSM that
//! is slow, or never answers, holds up nobody who wants something else.
use super::worker::Worker;
use super::SignFault;
use crate::locks::Held;
use std::sync::atomic::{AtomicU64, AtomicUsize, Ordering::Relaxed};
use std::sync::mpsc::{sync_channel, Receiver, RecvTimeoutError, SyncSender, TrySendError};
use std::sync::{Arc, Mutex, OnceLock, Weak};
use std::thread::JoinHandle;
use std::time::{Duration, Instant};
use stir_hsm::{HsmFault, KeyUri, Module};

/// How many sessions a token has, and how many may wait for them.
const SESSIONS: usize = 4;
const MOST_WAITING: usize = 64;

/// How long is waited for its threads at the end.
const CLOSING: Duration = Duration::from_secs(1);

/// The desks that there are, so that a token has one.
static DESKS: Mutex<Vec<Weak<Desk>>> = Mutex::new(Vec::new());

static FAILED: AtomicU64 = AtomicU64::new(0);
static LATE: AtomicU64 = AtomicU64::new(0);
static FULL: AtomicU64 = AtomicU64::new(0);
static OPENED_ANEW: AtomicU64 = AtomicU64::new(0);
static WAITING: AtomicUsize = AtomicUsize::new(0);

/// What there is of HSMs, and was since the process began.
///
/// ```
/// assert_eq!(stir_trust::hsm_counts().waiting, 0);
/// ```
#[derive(Clone, Copy, Debug, PartialEq, Eq)]
pub struct HsmCounts {
    /// How many signatures an HSM failed at, also by a session that was opened anew.
    pub failed: u64,
    /// How many weren't there in time.
    pub late: u64,
    /// How many weren't asked for, since too many were waited for.
    pub full: u64,
    /// How often a session that a token dropped was opened anew.
    pub opened_anew: u64,
    /// How many signatures are waited for now.
    pub waiting: usize,
}

/// What there is of HSMs now.
pub fn hsm_counts() -> HsmCounts {
    HsmCounts {
        failed: FAILED.load(Relaxed),
        late: LATE.load(Relaxed),
        full: FULL.load(Relaxed),
        opened_anew: OPENED_ANEW.load(Relaxed),
        waiting: WAITING.load(Relaxed),
    }
}

/// A session is opened anew.
pub(super) fn count_anew() {
    OPENED_ANEW.fetch_add(1, Relaxed);
}

/// A signature that was made, and the public key under which it is good.
pub(super) struct Made {
    pub signature: [u8; 64],
    pub public: [u8; 65],
}

/// What came of signing.
type Came = Result<Made, SignFault>;

/// Something to be signed.
pub(super) struct Job {
    /// By which key.
    pub uri: Arc<KeyUri>,
    /// The public key that it has to have, if that is known.
    pub public: Option<[u8; 65]>,
    /// What.
    pub digest: [u8; 32],
    /// After this nobody waits for it.
    pub until: Instant,
    reply: SyncSender<Came>,
}

/// A token: how its sessions are opened.
pub(super) struct Token {
    pub module: Arc<Module>,
    pub uri: KeyUri,
    pub pin: Option<Vec<u8>>,
    /// Why the token refused the PIN: it isn't asked with it again, since it may lock itself.
    pub refused: OnceLock<HsmFault>,
}

/// The desk before a token. Its threads end when it is dropped.
pub(super) struct Desk {
    token: Arc<Token>,
    queue: Option<SyncSender<Job>>,
    threads: Mutex<Threads>,
}

/// The threads of a desk.
struct Threads {
    all: Vec<JoinHandle<()>>,
    /// Nothing comes of it; it is closed once each of them has closed its session.
    closed: Receiver<()>,
}

impl Desk {
    /// The desk before the token of a URI, which is opened by this PIN. One that is there already
    /// serves, but for one whose PIN was refused.
    pub(super) fn before(uri: &KeyUri, pin: Option<&[u8]>) -> Result<Arc<Desk>, HsmFault> {
        let module = Module::load(uri.module())?;
        let mut desks = DESKS.lock().held();
        desks.retain(|desk| desk.strong_count() > 0);
        let found = desks.iter().filter_map(Weak::upgrade).find(|desk| {
            let Token { uri: own, pin: own_pin, refused, .. } = &*desk.token;
            own.is_on_token_of(uri) && own_pin.as_deref() == pin && refused.get().is_none()
        });
        if let Some(desk) = found {
            return Ok(desk);
        }
        let (uri, pin, refused) = (uri.clone(), pin.map(<[u8]>::to_vec), OnceLock::new());
        let desk = Arc::new(Desk::open(Arc::new(Token { module, uri, pin, refused }))?);
        desks.push(Arc::downgrade(&desk));
        Ok(desk)
    }

    fn open(token: Arc<Token>) -> Result<Desk, HsmFault> {
        let (queue, jobs) = sync_channel(MOST_WAITING);
        let (open, closed) = sync_channel(0);
        let (jobs, mut all) = (Arc::new(Mutex::new(jobs)), Vec::with_capacity(SESSIONS));
        for _ in 0..SESSIONS {
            let (token, jobs, open) = (Arc::clone(&token), Arc::clone(&jobs), open.clone());
            let thread = std::thread::Builder::new().name("hsm".into());
            let started = thread.spawn(move || {
                work(Worker::new(token), &jobs);
                drop(open);
            });
            all.push(started.map_err(|error| HsmFault::Module(error.to_string()))?);
        }
        Ok(Desk { token, queue: Some(queue), threads: Mutex::new(Threads { all, closed }) })
    }

    /// A signature by the key of a URI, which has this public key, if that is known. If too many
    /// wait already it isn't asked for. What isn't there in this time isn't waited for any more.
    pub(super) fn wait_for(
        &self,
        uri: &Arc<KeyUri>,
        public: Option<&[u8; 65]>,
        digest: &[u8; 32],
        within: Duration,
    ) -> Came {
        let (reply, came) = sync_channel(1);
        let until = Instant::now() + within;
        let (uri, public) = (Arc::clone(uri), public.copied());
        let job = Job { uri, public, digest: *digest, until, reply };
        let asked = match &self.queue {
            Some(queue) => queue.try_send(job),
            None => Err(TrySendError::Disconnected(job)),
        };
        let made = match asked {
            Ok(()) => {
                WAITING.fetch_add(1, Relaxed);
                let made = came.recv_timeout(within).unwrap_or(Err(SignFault::Late));
                WAITING.fetch_sub(1, Relaxed);
                made
            }
            Err(TrySendError::Full(_)) => Err(SignFault::Full),
            Err(TrySendError::Disconnected(_)) => Err(SignFault::Late),
        };
        if let (Err(fault), Some(_)) = (&made, public) {
            count(fault);
        }
        made
    }
}

/// Its threads close their sessions before the process may take the module away from them. Those
/// that a hung HSM holds aren't waited for.
impl Drop for Desk {
    fn drop(&mut self) {
        drop(self.queue.take());
        let Threads { all, closed } = &mut *self.threads.lock().held();
        if closed.recv_timeout(CLOSING) == Err(RecvTimeoutError::Disconnected) {
            // What a thread panicked of was told then.
            all.drain(..).for_each(|thread| drop(thread.join()));
        }
    }
}

/// A signature isn't made.
fn count(fault: &SignFault) {
    match fault {
        SignFault::OpenSsl(_) | SignFault::Hsm(_) => &FAILED,
        SignFault::Late => &LATE,
        SignFault::Full => &FULL,
    }
    .fetch_add(1, Relaxed);
}

/// Signs what comes, until the desk is gone.
fn work(mut worker: Worker, jobs: &Mutex<Receiver<Job>>) {
    loop {
        let next = jobs.lock().held().recv();
        let Ok(job) = next else { return };
        let came = match Instant::now() < job.until {
            true => worker.sign(&job).map_err(SignFault::from),
            false => Err(SignFault::Late),
        };
        // Who doesn't wait any more has no use for it.
        drop(job.reply.try_send(came));
    }
}
