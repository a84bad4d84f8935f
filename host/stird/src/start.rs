//! The service from its start to its end.
use crate::answers::Answers;
use crate::clients::Clients;
use crate::codes::{self, adopt_all};
use crate::fetching::Fetching;
use crate::files::{self, look::Look, signing::Blocks, MayAsk, Revocation, Sources};
use crate::health::Standing;
use crate::judge::Judge;
use crate::logs::Log;
use crate::metrics::Metrics;
use crate::record::Record;
use crate::reload::{ClientFile, Reload, Watched};
use crate::routes::Service;
use crate::server::{Acceptor, Doors, Handed, Hands, Places, Server, Times, AT_ONCE};
use crate::settings::Settings;
use crate::tending::tend;
use crate::tickets::{
    Clock, Latest, Memory, Redis, Shards, Sqlite, SystemClock, Tickets, CONNECTIONS,
};
use crate::today::Today;
use crate::tokens::Tokens;
use anyhow::{bail, Context, Result};
use arc_swap::ArcSwap;
use rustix::process::{getrlimit, setrlimit, Resource};
use sd_notify::NotifyState;
use std::sync::Arc;
use std::time::Duration;
use stir_trust::Verifier;
use tokio::signal::unix::{signal, SignalKind};
use tokio::sync::{mpsc, watch};
use tokio::task::spawn_blocking;

/// How many descriptors there are beside those of connections: files, tickets, the runtime.
const OTHERS: u64 = 128;

/// How long what comes after the last answer may take: files are written and closed.
const AFTER: Duration = Duration::from_secs(10);

/// Reads the files, answers requests, and ends when it is told to.
///
/// # Errors
///
/// What keeps it from starting.
pub async fn run(settings: Settings, log: Log, handed: Handed) -> Result<()> {
    let mut ends = [signal(SignalKind::terminate())?, signal(SignalKind::interrupt())?];
    let hangs_up = signal(SignalKind::hangup())?;
    allow_descriptors(settings.connections, settings.redis.len())?;
    let metrics = Arc::new(Metrics::new()?);
    let clock: Arc<dyn Clock> = Arc::new(SystemClock);
    let acceptor = settings.tls.clone().map(Acceptor::read).transpose()?.map(Arc::new);
    let sources = settings.sources();
    // Looked at before it is read, so that a change in between isn't missed.
    let tokens = settings.signing_tokens.clone().map(|path| (Look::at(&path), path));
    let asks = settings.asks_for_certificates();
    let clients = settings.signing_clients.clone();
    let clients = clients.map(|path| (Look::at(&path), ClientFile { path, asks }));
    let Made { service, may_ask, requests } = service(&settings, &sources, &metrics, &clock)?;
    service.judge.tickets.look().await;
    let doors = Doors::open(&settings.listen, settings.socket_mode, acceptor.as_ref(), handed)?;
    tell_start(&service, &doors);
    if settings.signs_for_nobody() {
        tracing::warn!("nobody may have calls signed: see --signing-clients, or --signing-local");
    }
    let (end, ending) = watch::channel(false);
    let server = Arc::new(Server {
        places: Places::new(settings.connections, settings.connections_each, metrics),
        hands: Hands::start().context("threads that answer")?,
        times: Times { request: settings.request, idle: settings.idle, drain: settings.drain() },
        service: Arc::clone(&service),
        ending,
    });
    let hosts = settings.fetch.map(|fetch| fetch.files).zip(may_ask);
    let lists = settings.revocation;
    let watched = Watched { sources, tokens, clients, hosts, lists, acceptor };
    let reload = Reload::new(watched, Arc::clone(&service), log, settings.reload);
    let mut aside = vec![
        tokio::spawn(reload.run(hangs_up)),
        tokio::spawn(keep_watchdog()),
        tokio::spawn(tend(Arc::clone(&service))),
    ];
    let adopting = requests.map(|requests| adopt_all(Arc::clone(&service), requests));
    aside.extend(adopting.map(tokio::spawn));
    let serving = {
        let server = Arc::clone(&server);
        tokio::spawn(async move { doors.serve(&server).await })
    };
    notify(NotifyState::Ready);
    let [terminate, interrupt] = &mut ends;
    tokio::select! {
        _ = terminate.recv() => {}
        _ = interrupt.recv() => {}
    }
    tracing::info!("ends when what is under way is answered");
    notify_end(server.times.drain);
    service.standing.end();
    let _ = end.send(true);
    tokio::select! {
        _ = serving => {}
        _ = terminate.recv() => {}
        _ = interrupt.recv() => {}
    }
    for task in aside {
        task.abort();
        let _ = task.await;
    }
    if let Some(fetching) = &service.judge.fetching {
        fetching.save_last().await;
    }
    let ends = Arc::clone(&service);
    let _ = spawn_blocking(move || ends.judge.record.as_ref().map(Record::end)).await;
    // The store of the tickets is closed with the last of those who hold it.
    drop((server, service));
    Ok(())
}

/// What answers, whom certificates may be fetched from, and where codes are asked for.
struct Made {
    service: Arc<Service>,
    may_ask: Option<MayAsk>,
    requests: Option<mpsc::Receiver<codes::Request>>,
}

/// What answers, by the files that are there.
fn service(
    settings: &Settings,
    sources: &Sources,
    metrics: &Arc<Metrics>,
    clock: &Arc<dyn Clock>,
) -> Result<Made> {
    let verifier = Verifier::new()?;
    let world = files::read(sources, &verifier, None)?;
    world.news().iter().for_each(|line| tracing::warn!("{line}"));
    let blocks = match &settings.signing {
        Some(_) => Some(ArcSwap::from_pointee(Blocks::read(sources, None)?)),
        None => None,
    };
    let tokens = Tokens::read(settings.signing_tokens.as_deref())?;
    let asks = settings.asks_for_certificates();
    let clients = Clients::read(settings.signing_clients.as_deref(), asks)?;
    metrics.clients.know(clients.names());
    let tickets = tickets(settings, clock)?;
    let (may_ask, fetching) = fetching(settings, metrics)?.unzip();
    let revocation = settings.revocation.as_ref();
    let revocation = revocation.map(|files| Revocation::read(files, None)).transpose()?;
    let codes = (sources.codes == files::Codes::Trusted)
        .then(|| codes::Codes::new(settings.connections.div_ceil(4)));
    let (codes, requests) = codes.unzip();
    metrics.last_reload.set(clock.now() as i64);
    let service = Arc::new(Service {
        judge: Judge {
            world: ArcSwap::from_pointee(world),
            verifier,
            numbers: tickets.greatest().into(),
            tickets,
            latest: settings.ordered_moments.then(Latest::default),
            metrics: Arc::clone(metrics),
            split: settings.split,
            fetching,
            codes,
            revocation: revocation.map(ArcSwap::from_pointee),
            verstat: settings.verstat,
            record: settings.record.as_ref().map(|it| Record::start(it, metrics)).transpose()?,
            today: Today::new(Arc::clone(clock), metrics.signers.clone()),
        },
        blocks,
        tokens: ArcSwap::from_pointee(tokens),
        clients: ArcSwap::from_pointee(clients),
        signs_locally: settings.signs_locally,
        answers: Answers::new(settings.answers, Arc::clone(clock), Arc::clone(metrics)),
        standing: Standing::new(settings.reload.as_secs()),
        clock: Arc::clone(clock),
        asked_moments: settings.asked_moments,
        has_page: settings.page,
    });
    Ok(Made { service, may_ask, requests })
}

/// What fetches certificates, and by which files, if they are fetched.
fn fetching(settings: &Settings, metrics: &Arc<Metrics>) -> Result<Option<(MayAsk, Fetching)>> {
    let Some(fetch) = &settings.fetch else { return Ok(None) };
    let (may_ask, fetcher) = MayAsk::read(&fetch.files, None)?;
    let fetching = Fetching::start(&fetch.order, fetcher, metrics)?;
    Ok(Some((may_ask, fetching)))
}

/// Where tickets are kept.
fn tickets(settings: &Settings, clock: &Arc<dyn Clock>) -> Result<Arc<dyn Tickets>> {
    let clock = Arc::clone(clock);
    Ok(match (&settings.redis[..], &settings.journal) {
        ([address], _) => Arc::new(Redis::new(address, clock)?),
        ([], Some(path)) => Arc::new(Sqlite::open(path, settings.sync, settings.tickets, clock)?),
        ([], None) => Arc::new(Memory::new(settings.tickets, clock)),
        (addresses, _) => Arc::new(Shards::new(addresses, &clock)?),
    })
}

/// Has the system allow a descriptor for each connection, and for each that is on its way out, and
/// for those to all Redis servers. Those to one are among the others.
fn allow_descriptors(connections: usize, servers: usize) -> Result<()> {
    let to_servers = servers.saturating_sub(1) * CONNECTIONS;
    let wanted = (2 * connections + AT_ONCE + to_servers) as u64 + OTHERS;
    let mut limit = getrlimit(Resource::Nofile);
    if limit.current.is_none_or(|current| current >= wanted) {
        return Ok(());
    }
    if limit.maximum.is_some_and(|most| most < wanted) {
        bail!("{connections} connections take {wanted} descriptors, and fewer are allowed");
    }
    limit.current = Some(wanted);
    setrlimit(Resource::Nofile, limit).context("the limit of descriptors can't be raised")
}

fn tell_start(service: &Service, doors: &Doors) {
    let blocks = service.blocks.as_ref().map_or(0, |blocks| blocks.load().count());
    tracing::info!(
        "listens at {}, with {} chains, {} tickets and {blocks} blocks of numbers to sign for",
        doors.addresses().join(", "),
        service.judge.world.load().chains(),
        service.judge.tickets.count().unwrap_or(0),
    );
}

/// Tells systemd how the service stands, if it asked for that.
fn notify(state: NotifyState) {
    let _ = sd_notify::notify(false, &[state]);
}

/// Tells systemd that the service comes to its end, and how long that may take.
fn notify_end(drain: Duration) {
    let whole = u32::try_from((drain + AFTER).as_micros()).unwrap_or(u32::MAX);
    let _ =
        sd_notify::notify(false, &[NotifyState::Stopping, NotifyState::ExtendTimeoutUsec(whole)]);
}

/// Tells systemd that the runtime still runs what it has to, if it asked for that.
async fn keep_watchdog() {
    let mut microseconds = 0;
    if !sd_notify::watchdog_enabled(false, &mut microseconds) {
        return;
    }
    loop {
        notify(NotifyState::Watchdog);
        tokio::time::sleep(Duration::from_micros(microseconds / 2)).await;
    }
}
