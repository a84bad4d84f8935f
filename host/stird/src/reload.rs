//! Files that change: they are looked at from time to time, aside from what answers, and taken if
//! they can be read; else what was read before stays.
use crate::clients::Clients;
use crate::files::{
    self, look::Look, signing::Blocks, FileFault, HostFiles, ListFiles, MayAsk, Revocation, Sources,
};
use crate::logs::Log;
use crate::record::Record;
use crate::routes::Service;
use crate::server::Acceptor;
use crate::tokens::Tokens;
use std::path::PathBuf;
use std::sync::{Arc, Mutex};
use std::time::Duration;
use stir_trust::locks::Held;
use tokio::signal::unix::Signal;
use tokio::task::spawn_blocking;

/// The files, and what is read of them.
pub struct Reload {
    shared: Arc<Shared>,
    log: Log,
    every: Duration,
}

/// The files that are looked at, with what was read of them at the start.
pub struct Watched {
    /// What calls are judged by and signed for.
    pub sources: Sources,
    /// The file of tokens, and how it looked before it was read.
    pub tokens: Option<(Look, PathBuf)>,
    /// The file of clients, and how it looked before it was read.
    pub clients: Option<(Look, ClientFile)>,
    /// Whom certificates may be fetched from.
    pub hosts: Option<(HostFiles, MayAsk)>,
    /// Which certificates are revoked.
    pub lists: Option<ListFiles>,
    /// What speaks TLS.
    pub acceptor: Option<Arc<Acceptor>>,
}

/// The file of clients.
pub struct ClientFile {
    /// Its name.
    pub path: PathBuf,
    /// Whether clients are asked for certificates.
    pub asks: bool,
}

struct Shared {
    sources: Sources,
    tokens: Option<PathBuf>,
    clients: Option<ClientFile>,
    hosts: Option<HostFiles>,
    lists: Option<ListFiles>,
    service: Arc<Service>,
    acceptor: Option<Arc<Acceptor>>,
    last: Mutex<Last>,
    patience: Duration,
}

/// What the last look found, so that nothing is told twice.
#[derive(Default)]
struct Last {
    blocks: Option<FileFault>,
    /// What was told of the blocks that hold.
    warnings: Vec<String>,
    tokens: Option<String>,
    clients: Option<String>,
    tls: Option<String>,
    may_ask: Option<MayAsk>,
    /// How their files looked when they were read.
    token_file: Option<Look>,
    client_file: Option<Look>,
}

impl Reload {
    /// Of this service, which has read them once; they are looked at so often.
    pub fn new(watched: Watched, service: Arc<Service>, log: Log, every: Duration) -> Reload {
        let Watched { sources, tokens, clients, hosts, lists, acceptor } = watched;
        let (token_file, tokens) = tokens.unzip();
        let (client_file, clients) = clients.unzip();
        let (hosts, may_ask) = hosts.unzip();
        let warnings = tell_of_blocks(&service, &[]);
        let last = Last { token_file, client_file, may_ask, warnings, ..Last::default() }.into();
        let patience = every / 4;
        let shared =
            Shared { sources, tokens, clients, hosts, lists, service, acceptor, last, patience };
        Reload { shared: Arc::new(shared), log, every }
    }

    /// Looks at them from time to time, and at once for each signal.
    pub async fn run(self, mut hangs_up: Signal) {
        let Reload { shared, log, every } = self;
        loop {
            let is_told = tokio::select! {
                () = tokio::time::sleep(every) => false,
                told = hangs_up.recv() => told.is_some(),
            };
            let service = &shared.service;
            if is_told {
                log.reopen();
                service.judge.record.iter().for_each(Record::reopen);
            }
            service.judge.tickets.look().await;
            let looking = Arc::clone(&shared);
            // A round that panics isn't the last one.
            match spawn_blocking(move || looking.look(is_told)).await {
                Ok(faults) => service.standing.look(service.clock.monotonic(), faults),
                Err(error) => tracing::error!("the files couldn't be looked at: {error}"),
            }
        }
    }
}

impl Shared {
    /// Takes what changed, and what is at fault now. What is counted as taken is in force by then.
    fn look(&self, is_told: bool) -> Vec<String> {
        let mut faults = self.world(is_told);
        let last = &mut *self.last.lock().held();
        self.blocks(is_told, last);
        self.tokens(is_told, last);
        self.clients(is_told, last);
        self.may_ask(is_told, last);
        faults.extend(self.revocation(is_told));
        if is_told {
            self.acceptor(last);
        }
        faults.extend(last.blocks.as_ref().map(FileFault::to_string));
        faults.extend(last.tokens.clone());
        faults.extend(last.clients.clone());
        faults.extend(last.tls.clone());
        faults.extend(last.may_ask.iter().flat_map(MayAsk::faults).map(FileFault::to_string));
        faults
    }

    /// Whom certificates may be fetched from.
    fn may_ask(&self, is_told: bool, last: &mut Last) {
        let (Some(files), Some(before)) = (&self.hosts, &last.may_ask) else { return };
        let judge = &self.service.judge;
        let Some(fetching) = judge.fetching.as_ref().filter(|_| is_told || before.is_stale())
        else {
            return;
        };
        match MayAsk::read(files, Some(before)) {
            Ok((now, fetcher)) => {
                let old = before.faults();
                for fault in now.faults().into_iter().filter(|fault| !old.contains(fault)) {
                    tracing::warn!("{fault}; it stays what it was");
                }
                if !now.is_as(before) {
                    fetching.cache.fetch_by(fetcher);
                }
                judge.metrics.reload(now.faults().is_empty());
                last.may_ask = Some(now);
            }
            Err(fault) => {
                tracing::warn!("{fault}: what was read before stays");
                judge.metrics.reload(false);
            }
        }
    }

    /// Which certificates are revoked; and what is at fault.
    fn revocation(&self, is_told: bool) -> Vec<String> {
        let judge = &self.service.judge;
        let (Some(files), Some(held)) = (&self.lists, &judge.revocation) else { return Vec::new() };
        let before = held.load_full();
        let text = |faults: Vec<&FileFault>| faults.iter().map(ToString::to_string).collect();
        if !is_told && !before.is_stale() {
            return text(before.faults());
        }
        match Revocation::read(files, Some(&before)) {
            Ok(now) => {
                let old = before.faults();
                for fault in now.faults().into_iter().filter(|fault| !old.contains(fault)) {
                    tracing::warn!("{fault}; it stays what it was");
                }
                let faults = text(now.faults());
                held.store(Arc::new(now));
                judge.metrics.reload(faults.is_empty());
                faults
            }
            Err(fault) => {
                tracing::warn!("{fault}: what was read before stays");
                judge.metrics.reload(false);
                vec![fault.to_string()]
            }
        }
    }

    fn world(&self, is_told: bool) -> Vec<String> {
        let judge = &self.service.judge;
        let before = judge.world.load_full();
        if is_told || before.is_stale() {
            match files::read(&self.sources, &judge.verifier, Some(&before)) {
                Ok(new) => {
                    new.news().iter().for_each(|line| tracing::warn!("{line}"));
                    let is_whole = new.faults().is_empty();
                    judge.world.store(Arc::new(new));
                    judge.metrics.reload(is_whole);
                    judge.metrics.last_reload.set(self.service.clock.now() as i64);
                }
                Err(fault) => {
                    tracing::warn!("{fault}: what was read before stays");
                    judge.metrics.reload(false);
                    return vec![fault.to_string()];
                }
            }
        }
        let world = judge.world.load();
        world.confirm(&judge.verifier, self.patience);
        let unreadable = world.unreadable().iter();
        let unreadable = unreadable.map(|path| format!("{}: it can't be read", path.display()));
        world.faults().into_iter().map(FileFault::to_string).chain(unreadable).collect()
    }

    fn blocks(&self, is_told: bool, last: &mut Last) {
        let Some(blocks) = &self.service.blocks else { return };
        let before = blocks.load_full();
        if !is_told && !before.is_stale() {
            // A certificate may have come near its end.
            last.warnings = tell_of_blocks(&self.service, &last.warnings);
            return;
        }
        let fault = match Blocks::read(&self.sources, Some(&before)) {
            Ok(new) => {
                blocks.store(Arc::new(new));
                last.warnings = tell_of_blocks(&self.service, &[]);
                None
            }
            Err(fault) => Some(fault),
        };
        self.service.judge.metrics.reload(fault.is_none());
        if let Some(fault) = fault.as_ref().filter(|fault| last.blocks.as_ref() != Some(fault)) {
            tracing::warn!("{fault}: what was read before stays");
        }
        last.blocks = fault;
    }

    fn tokens(&self, is_told: bool, last: &mut Last) {
        let Some(path) = self.tokens.as_deref() else { return };
        let now = Some(Look::at(path));
        if !is_told && now == last.token_file {
            return;
        }
        last.token_file = now;
        let read = Tokens::read(Some(path));
        let taken = read.map(|tokens| self.service.tokens.store(Arc::new(tokens)));
        self.service.judge.metrics.reload(taken.is_ok());
        last.tokens = told_fault(taken);
    }

    fn clients(&self, is_told: bool, last: &mut Last) {
        let Some(ClientFile { path, asks }) = &self.clients else { return };
        let now = Some(Look::at(path));
        if !is_told && now == last.client_file {
            return;
        }
        last.client_file = now;
        let taken = Clients::read(Some(path), *asks).map(|clients| {
            self.service.judge.metrics.clients.know(clients.names());
            self.service.clients.store(Arc::new(clients));
        });
        self.service.judge.metrics.reload(taken.is_ok());
        last.clients = told_fault(taken);
    }

    fn acceptor(&self, last: &mut Last) {
        if let Some(acceptor) = &self.acceptor {
            last.tls = told_fault(acceptor.read_again());
        }
    }
}

/// The fault of what couldn't be taken, which is told.
fn told_fault(read: Result<(), impl std::fmt::Display>) -> Option<String> {
    let fault = read.err()?.to_string();
    tracing::warn!("{fault}: what was read before stays");
    Some(fault)
}

/// Says of which blocks of numbers nothing is signed, or soon, and which keys are open to others;
/// not what was told before.
fn tell_of_blocks(service: &Service, before: &[String]) -> Vec<String> {
    let Some(blocks) = &service.blocks else { return Vec::new() };
    let warnings = blocks.load().warnings(service.clock.now());
    for line in warnings.iter().filter(|line| !before.contains(line)) {
        tracing::warn!("{line}");
    }
    warnings
}
