//! A cache over a server of https on 127.0.0.1, by a clock that the tests move.
mod server;

use async_trait::async_trait;
use rustix::fs::{flock, FlockOperation};
use server::certificates::{now, Identity};
use server::{answer, good, here, identities, Does, Server, Table};
use std::collections::BTreeMap;
use std::fs::{self, File};
use std::io;
use std::net::IpAddr;
use std::path::{Path, PathBuf};
use std::process::{Command, Stdio};
use std::sync::atomic::{AtomicU64, AtomicUsize, Ordering};
use std::sync::{Arc, Mutex};
use std::time::{Duration, Instant, SystemTime};
use stir_trust::cache::{Bounds, Cache, Clock, Entry, Folder, FolderFault, Miss, Witness};
use stir_trust::fetch::{Fetcher, Hosts, Limit, Reason, Resolver, Settings};

const LONG: Duration = Duration::from_secs(20);

/// A clock that stands still until it is moved.
struct Moved {
    start: u64,
    milliseconds: AtomicU64,
}

impl Moved {
    fn new() -> Arc<Moved> {
        Arc::new(Moved { start: now(), milliseconds: AtomicU64::new(0) })
    }

    fn forward(&self, time: Duration) {
        self.milliseconds.fetch_add(time.as_millis() as u64, Ordering::SeqCst);
    }
}

impl Clock for Moved {
    fn now(&self) -> u64 {
        self.start + self.milliseconds.load(Ordering::SeqCst) / 1_000
    }

    fn since_start(&self) -> Duration {
        Duration::from_millis(self.milliseconds.load(Ordering::SeqCst))
    }
}

/// A resolver for which each name is here.
struct Everywhere;

#[async_trait]
impl Resolver for Everywhere {
    async fn addresses(&self, _: &str) -> io::Result<Vec<IpAddr>> {
        Ok(vec![here()])
    }
}

/// A folder of a test's own, which goes with it.
struct Own(PathBuf);

impl Own {
    fn new(name: &str) -> Own {
        let path = std::env::temp_dir().join(format!("stir-{name}-{}", std::process::id()));
        drop(fs::remove_dir_all(&path));
        Own(path)
    }

    fn folder(&self) -> Folder {
        Folder::open(&self.0, 20_000).expect("a folder")
    }
}

impl Drop for Own {
    fn drop(&mut self) {
        drop(fs::remove_dir_all(&self.0));
    }
}

/// A chain of one certificate, valid for ten days.
fn chain(name: &str) -> Vec<u8> {
    Identity::root(name, now() + 864_000).der()
}

async fn until(what: &str, is: impl Fn() -> bool) {
    let start = Instant::now();
    while !is() {
        assert!(start.elapsed() < LONG, "{what}");
        tokio::time::sleep(Duration::from_millis(5)).await;
    }
}

#[tokio::test]
async fn a_thousand_waiters_of_one_uri_make_one_fetch() {
    let (authority, identity) = identities();
    let der = chain("a");
    let Does::Says(whole) = good("", &der) else { panic!("no answer") };
    let does = Does::Waits(Duration::from_millis(300), whole);
    let server = Server::start(&identity, move |_| does.clone()).await;
    let fetcher = server.fetcher(&authority, Table::here());
    let cache = Cache::new(fetcher, Bounds::default(), Moved::new());
    let waiting: Vec<_> = (0..1_000)
        .map(|_| {
            let (cache, x5u) = (cache.clone(), server.x5u("/a"));
            tokio::spawn(async move { cache.wait(&x5u, LONG).await })
        })
        .collect();
    for waiter in waiting {
        let entry = waiter.await.expect("a task").expect("certificates");
        assert_eq!(*entry.der, *der);
    }
    assert_eq!(server.targets(), ["/a"]);
    assert_eq!(cache.counts().good, 1);
}

#[tokio::test]
async fn ten_thousand_uris_make_twenty_new_fetches_a_second() {
    let authority = Identity::root("Test authority", now() + 86_400);
    let identity = authority.issue("cr", &["*.cr.example"], now() + 86_400);
    let der = chain("a");
    let server = Server::start(&identity, move |_| good("", &der)).await;
    let fetcher = Fetcher::new(server.settings(&authority), Arc::new(Everywhere));
    let clock = Moved::new();
    let cache = Cache::new(fetcher.expect("a fetcher"), Bounds::default(), clock.clone());
    let x5u = |number| format!("https://h{number}.cr.example:{}/{number}", server.port);
    let mut begun = 0;
    for second in 1..=3 {
        for number in 0..10_000 {
            match cache.wait(&x5u(number), Duration::ZERO).await {
                Ok(_) | Err(Miss::Late) => {}
                Err(miss) => assert_eq!(miss, Miss::Failed(Reason::Limited(Limit::New))),
            }
        }
        until("the flights land", || cache.counts().flights == 0).await;
        begun = server.targets().len();
        assert_eq!(begun, 20 * second);
        clock.forward(Duration::from_millis(999));
        let miss = cache.wait(&x5u(9_999), Duration::ZERO).await;
        assert_eq!(miss, Err(Miss::Failed(Reason::Limited(Limit::New))));
        clock.forward(Duration::from_millis(1));
    }
    assert_eq!((cache.counts().good, cache.counts().entries), (begun as u64, begun));
}

#[tokio::test]
async fn fetches_wait_for_their_turn_at_the_host_and_in_all() {
    let authority = Identity::root("Test authority", now() + 86_400);
    let identity = authority.issue("cr", &["*.cr.example"], now() + 86_400);
    let Does::Says(whole) = good("", &chain("a")) else { panic!("no answer") };
    let does = Does::Waits(Duration::from_millis(300), whole);
    for (hosts, most) in [(1, 2), (20, 8)] {
        let does = does.clone();
        let server = Server::start(&identity, move |_| does.clone()).await;
        let fetcher = Fetcher::new(server.settings(&authority), Arc::new(Everywhere));
        let cache = Cache::new(fetcher.expect("a fetcher"), Bounds::default(), Moved::new());
        let waiting: Vec<_> = (0..16)
            .map(|number| {
                let host = number % hosts;
                let x5u = format!("https://h{host}.cr.example:{}/{number}", server.port);
                let cache = cache.clone();
                tokio::spawn(async move { cache.wait(&x5u, LONG).await })
            })
            .collect();
        for waiter in waiting {
            assert!(waiter.await.expect("a task").is_ok());
        }
        let found = server.most_at_once();
        assert!((2..=most).contains(&found), "{hosts} hosts: {found}");
    }
}

#[tokio::test]
async fn a_failure_is_remembered_and_then_forgotten() {
    let (authority, identity) = identities();
    let server = Server::start(&identity, |_| answer("404 Not Found", "")).await;
    let clock = Moved::new();
    let fetcher = server.fetcher(&authority, Table::here());
    let cache = Cache::new(fetcher, Bounds::default(), clock.clone());
    let x5u = server.x5u("/a");
    for (seconds, fetches) in [(0, 1), (9, 1), (1, 2), (19, 2), (1, 3), (39, 3), (1, 4)] {
        clock.forward(Duration::from_secs(seconds));
        assert_eq!(cache.wait(&x5u, LONG).await, Err(Miss::Failed(Reason::Status(404))));
        assert_eq!(server.targets().len(), fetches);
    }
    assert_eq!(cache.counts().failed, BTreeMap::from([("status", 4)]));
}

#[tokio::test]
async fn who_waits_in_vain_leaves_the_fetch_to_the_next() {
    let (authority, identity) = identities();
    let Does::Says(whole) = good("", &chain("a")) else { panic!("no answer") };
    let does = Does::Waits(Duration::from_millis(200), whole);
    let server = Server::start(&identity, move |_| does.clone()).await;
    let fetcher = server.fetcher(&authority, Table::here());
    let cache = Cache::new(fetcher, Bounds::default(), Moved::new());
    let x5u = server.x5u("/a");
    assert_eq!(cache.wait(&x5u, Duration::from_millis(1)).await, Err(Miss::Late));
    until("it lands", || cache.held(&x5u).is_some()).await;
    assert_eq!(server.targets().len(), 1);
}

#[tokio::test]
async fn what_is_asked_for_is_fetched_anew_ahead_and_a_failure_keeps_the_old_one() {
    let (authority, identity) = identities();
    let (first, second) = (chain("first"), chain("second"));
    let number = Arc::new(AtomicUsize::new(0));
    let bodies = (first.clone(), second.clone());
    let server = Server::start(&identity, move |_| match number.fetch_add(1, Ordering::SeqCst) {
        0 => good("Cache-Control: max-age=1000\r\n", &bodies.0),
        1 => answer("503 Service Unavailable", ""),
        _ => good("", &bodies.1),
    })
    .await;
    let clock = Moved::new();
    let fetcher = server.fetcher(&authority, Table::here());
    let cache = Cache::new(fetcher, Bounds::default(), clock.clone());
    let x5u = server.x5u("/a");
    let entry = cache.wait(&x5u, LONG).await.expect("certificates");
    assert_eq!(entry.due, entry.fetched + 1_000);
    clock.forward(Duration::from_secs(740));
    assert_eq!(*cache.held(&x5u).expect("kept").der, *first);
    cache.tend();
    assert_eq!((cache.counts().flights, server.targets().len()), (0, 1), "it isn't time yet");

    // The service looks through it, or somebody asks: both begin one fetch.
    clock.forward(Duration::from_secs(110));
    cache.tend();
    assert_eq!(*cache.held(&x5u).expect("kept").der, *first, "no call waits");
    until("it fails", || cache.counts().failed.contains_key("status")).await;
    assert_eq!(*cache.held(&x5u).expect("the old one stays").der, *first);
    assert_eq!((cache.counts().flights, server.targets().len()), (0, 2));

    clock.forward(Duration::from_secs(60));
    assert_eq!(*cache.held(&x5u).expect("kept").der, *first);
    until("it is fetched", || cache.counts().good == 2).await;
    assert_eq!(*cache.held(&x5u).expect("kept").der, *second);
    assert_eq!(server.targets().len(), 3);
}

/// A witness that keeps what it is told.
#[derive(Default)]
struct Notes(Mutex<Vec<(String, bool, Option<Reason>)>>);

impl Witness for Notes {
    fn landed(&self, x5u: &str, took: Option<Duration>, came: Result<(), &Reason>) {
        let note = (x5u.to_owned(), took.is_some(), came.err().cloned());
        self.0.lock().expect("notes").push(note);
    }
}

#[test]
fn flights_go_on_in_the_runtime_that_was_named_and_their_end_is_told_before_it_is_seen() {
    let others = tokio::runtime::Runtime::new().expect("a runtime");
    let (authority, identity) = identities();
    let der = chain("a");
    let server = others.block_on(Server::start(&identity, move |target| match target {
        "/gone" => answer("404 Not Found", ""),
        _ => good("", &der),
    }));
    let fetcher = server.fetcher(&authority, Table::here());
    let cache = Cache::new(fetcher, Bounds::default(), Moved::new());
    let notes = Arc::new(Notes::default());
    cache.fetch_in(others.handle().clone(), notes.clone());
    // One that asks and ends at once leaves the flight to those who come.
    let own = || tokio::runtime::Builder::new_current_thread().enable_all().build().expect("one");
    let late = own().block_on(cache.wait(&server.x5u("/a"), Duration::ZERO));
    assert_eq!(late, Err(Miss::Late));
    assert!(own().block_on(cache.wait(&server.x5u("/a"), LONG)).is_ok());
    let gone = own().block_on(cache.wait(&server.x5u("/gone"), LONG));
    assert_eq!(gone, Err(Miss::Failed(Reason::Status(404))));
    let told = notes.0.lock().expect("notes");
    let wanted = [("/a", None), ("/gone", Some(Reason::Status(404)))];
    assert_eq!(*told, wanted.map(|(target, came)| (server.x5u(target), true, came)));
    assert_eq!(server.targets(), ["/a", "/gone"]);
}

#[tokio::test]
async fn another_fetcher_forgives_failures_and_drops_what_it_may_not_ask() {
    let authority = Identity::root("Test authority", now() + 86_400);
    let identity = authority.issue("cr", &["*.cr.example"], now() + 86_400);
    let der = chain("a");
    let server = Server::start(&identity, move |_| good("", &der)).await;
    let x5u = |host: &str| format!("https://{host}.cr.example:{}/a", server.port);
    let fetcher = |hosts: String, by: &Identity| {
        let hosts = Hosts::read(hosts.as_bytes()).expect("hosts");
        let settings = Settings { hosts, ..server.settings(by) };
        Fetcher::new(settings, Arc::new(Everywhere)).expect("a fetcher")
    };
    let (all, stranger) = (format!("*:{}\n", server.port), Identity::root("x", now() + 86_400));
    let cache = Cache::new(fetcher(all.clone(), &stranger), Bounds::default(), Moved::new());
    let failed = cache.wait(&x5u("a"), LONG).await;
    assert!(matches!(failed, Err(Miss::Failed(Reason::Tls(_)))), "{failed:?}");
    cache.fetch_by(fetcher(all.clone(), &authority));
    for host in ["a", "b"] {
        assert!(cache.wait(&x5u(host), LONG).await.is_ok(), "{host}");
    }
    let list = |cache: &Cache| cache.list(None, 9).into_iter().map(|(x5u, _)| x5u).collect();
    let both: Vec<String> = list(&cache);
    assert_eq!((both, cache.counts().entries), (vec![x5u("a"), x5u("b")], 2));
    cache.fetch_by(fetcher(format!("{all}!a.cr.example\n"), &authority));
    let rest: Vec<String> = list(&cache);
    assert_eq!((rest, cache.held(&x5u("a"))), (vec![x5u("b")], None));
    assert_eq!(cache.wait(&x5u("a"), LONG).await, Err(Miss::Failed(Reason::Listed)));
    assert!(cache.kept(&x5u("b")).is_some() && cache.ends().is_some());
}

#[tokio::test]
async fn what_a_folder_has_of_hosts_that_arent_listed_isnt_kept() {
    let own = Own::new("unlisted");
    let (a, b) = ("https://a.example/", "https://b.example/");
    let entry = entry(&chain("a"), now());
    own.folder().save(&[(a, &entry), (b, &entry)]).expect("it is written");
    let settings = Settings::new(Hosts::read(b"b.example\n").expect("hosts"));
    let fetcher = Fetcher::new(settings, Arc::new(Everywhere)).expect("a fetcher");
    let cache = Cache::open(fetcher, Bounds::default(), Moved::new(), own.folder());
    let cache = cache.expect("a folder");
    assert_eq!((cache.held(a), cache.held(b).is_some()), (None, true));
}

#[tokio::test]
async fn a_start_needs_no_network() {
    let own = Own::new("start");
    let (authority, identity) = identities();
    let der = chain("a");
    let body = der.clone();
    let server = Server::start(&identity, move |_| good("", &body)).await;
    let open = |resolver: Arc<Table>| {
        let fetcher = server.fetcher(&authority, resolver);
        Cache::open(fetcher, Bounds::default(), Moved::new(), own.folder()).expect("a cache")
    };
    let cache = open(Table::here());
    let x5u = server.x5u("/a");
    let fetched = cache.wait(&x5u, LONG).await.expect("certificates");
    cache.save().await.expect("saved");

    let table = Table::of(&[]);
    let cache = open(table.clone());
    let held = cache.held(&x5u).expect("from the folder");
    assert_eq!((&*held.der, held.due, held.ends), (&*der, fetched.due, fetched.ends));
    assert_eq!(cache.wait(&x5u, Duration::ZERO).await, Ok(held));
    assert_eq!((table.asked.load(Ordering::SeqCst), server.targets().len()), (0, 1));
}

#[tokio::test]
async fn what_couldnt_be_saved_is_saved_with_the_next_call() {
    let own = Own::new("busy");
    let (authority, identity) = identities();
    let der = chain("a");
    let server = Server::start(&identity, move |_| good("", &der)).await;
    let fetcher = server.fetcher(&authority, Table::here());
    let cache = Cache::open(fetcher, Bounds::default(), Moved::new(), own.folder());
    let cache = cache.expect("a cache");
    cache.wait(&server.x5u("/a"), LONG).await.expect("certificates");
    let lock = File::create(own.0.join(".lock")).expect("a lock");
    flock(&lock, FlockOperation::LockExclusive).expect("locked, as another program does");
    assert!(matches!(cache.save().await, Err(FolderFault::Busy(_))));
    assert!(own.folder().load(now()).expect("read").is_empty());
    flock(&lock, FlockOperation::Unlock).expect("given back");
    cache.save().await.expect("saved");
    assert_eq!(own.folder().load(now()).expect("read").len(), 1);
}

/// An entry of this chain that was fetched at this second.
fn entry(der: &[u8], fetched: u64) -> Entry {
    Entry { der: der.into(), fetched, due: fetched + 600, ends: now() + 864_000 }
}

#[test]
fn what_is_spoilt_in_a_folder_is_passed_over() {
    let own = Own::new("spoilt");
    let der = chain("a");
    let x5us: Vec<String> = (0..6).map(|at| format!("https://cr.example/{at}")).collect();
    let kept = entry(&der, 1_000);
    let entries: Vec<(&str, &Entry)> = x5us.iter().map(|x5u| (x5u.as_str(), &kept)).collect();
    own.folder().save(&entries).expect("saved");
    let state = own.0.join("fetched.json");
    let text = fs::read_to_string(&state).expect("a state");
    let names: Vec<&str> = text.split('"').filter(|word| word.ends_with(".der")).collect();
    let [cut, other, gone, _, leads, folder] = names[..] else { panic!("{text}") };
    let path = |name: &str| own.0.join(name);
    fs::write(path(cut), &der[..der.len() - 1]).expect("written");
    fs::write(path(other), "<html>").expect("written");
    fs::remove_file(path(gone)).expect("removed");
    fs::remove_file(path(folder)).expect("removed");
    fs::create_dir(path(folder)).expect("a folder");
    fs::write(own.0.with_extension("der"), &der).expect("written");
    let outside = format!("../{}.der", own.0.file_name().expect("a name").to_string_lossy());
    fs::write(&state, text.replace(leads, &outside)).expect("written");
    let found = own.folder().load(2_000).expect("read");
    fs::remove_file(own.0.with_extension("der")).expect("removed");
    assert_eq!(found.len(), 1, "{found:?}");
    assert_eq!(found[0].0, x5us[3]);
    for spoilt in ["", "{", "[]", "{\"https://cr.example/3\": {}}", "\u{0}\u{0}"] {
        fs::write(&state, spoilt).expect("written");
        assert!(own.folder().load(2_000).expect("read").is_empty(), "{spoilt}");
    }
    own.folder().save(&entries[..1]).expect("a spoilt state is written anew");
    assert_eq!(own.folder().load(2_000).expect("read").len(), 1);
}

#[test]
fn a_folder_has_a_bound_and_keeps_what_was_fetched_last() {
    let own = Own::new("bound");
    let folder = Folder::open(&own.0, 3).expect("a folder");
    let der = chain("a");
    for number in [4, 1, 3, 0, 2] {
        let x5u = format!("https://cr.example/{number}");
        folder.save(&[(&x5u, &entry(&der, 1_000 + number))]).expect("saved");
    }
    let found = folder.load(2_000).expect("read");
    let times: Vec<u64> = found.iter().map(|(_, entry)| entry.fetched).collect();
    assert_eq!(times, [1_002, 1_003, 1_004]);
    assert_eq!(files(&own.0, ".der"), 3);
    folder.save(&[("https://cr.example/4", &entry(&der, 900))]).expect("saved");
    let found = folder.load(2_000).expect("read");
    assert_eq!(found[2].1.fetched, 1_004, "what was fetched later stays");
}

/// How many files of a folder end so.
fn files(folder: &Path, end: &str) -> usize {
    let found = fs::read_dir(folder).expect("a folder").flatten();
    found.filter(|file| file.file_name().to_string_lossy().ends_with(end)).count()
}

/// When the state of a folder was written.
fn changed(folder: &Path) -> Option<SystemTime> {
    fs::metadata(folder.join("fetched.json")).and_then(|found| found.modified()).ok()
}

#[test]
fn a_kill_while_the_folder_is_written_spoils_nothing() {
    const NAME: &str = "STIR_TRUST_KILLED";
    let x5u = |number: usize| format!("https://cr.example/{number}");
    if let Some(path) = std::env::var_os(NAME) {
        // The one that is killed writes two chains by turns, for ever.
        let folder = Folder::open(path.as_ref(), 20_000).expect("a folder");
        let chains = ["a", "b"].map(|name| fs::read(Path::new(&path).join(name)).expect("a chain"));
        let before = folder.load(1 << 40).expect("read");
        let first = before.last().map_or(1_000, |(_, entry)| entry.fetched + 1);
        for (turn, der) in (first..).zip(chains.iter().cycle()) {
            let kept = entry(der, turn);
            let names: Vec<String> = (0..30).map(x5u).collect();
            let entries: Vec<(&str, &Entry)> =
                names.iter().map(|name| (name.as_str(), &kept)).collect();
            folder.save(&entries).expect("saved");
        }
    }
    let own = Own::new("killed");
    let folder = own.folder();
    let chains = [chain("a"), [chain("b"), chain("c"), chain("d")].concat()];
    fs::write(own.0.join("a"), &chains[0]).expect("written");
    fs::write(own.0.join("b"), &chains[1]).expect("written");
    let mut written = None;
    for pause in 1..=12 {
        let mut child = Command::new(std::env::current_exe().expect("this program"))
            .args(["--exact", "a_kill_while_the_folder_is_written_spoils_nothing"])
            .env(NAME, &own.0)
            .stdout(Stdio::null())
            .spawn()
            .expect("a child");
        let start = Instant::now();
        while changed(&own.0) == written {
            assert!(start.elapsed() < LONG, "the child writes nothing");
            std::thread::sleep(Duration::from_micros(200));
        }
        std::thread::sleep(Duration::from_micros(700 * pause));
        child.kill().expect("killed");
        child.wait().expect("its end");
        written = changed(&own.0);
        let found = folder.load(1 << 40).expect("read");
        assert_eq!(found.len(), 30, "after {pause}");
        for (x5u, entry) in &found {
            assert!(chains.iter().any(|chain| **chain == *entry.der), "{x5u} after {pause}");
        }
    }

    // What a killed one may leave goes with the next that writes.
    fs::write(own.0.join("cr.example-0.der.new"), &chains[0][..9]).expect("written");
    fs::write(own.0.join("fetched.json.new"), "{").expect("written");
    assert_eq!(folder.load(1 << 40).expect("read").len(), 30);
    let kept = entry(&chains[0], u64::MAX >> 1);
    folder.save(&[(&x5u(0), &kept)]).expect("nobody has the lock");
    assert_eq!((files(&own.0, ".new"), files(&own.0, ".der")), (0, 30));
}
