//! Tickets in a Redis: real ones, that are stopped, hang, refuse or forget, behind passwords and
//! TLS; and peers that are none.
#[path = "ticket_trials/redis.rs"]
mod peers;
mod ticket_trials;

use peers::{free_port, parrot, way, Server};
use std::sync::atomic::{AtomicUsize, Ordering};
use std::sync::Arc;
use std::time::{Duration, Instant};
use stird::tickets::{Claim, Clock, Health, Redis, SystemClock, Tickets};
use ticket_trials::*;

fn redis(address: &str) -> (Redis, Arc<Moved>) {
    let clock = Moved::at(SystemClock.now());
    (Redis::new(address, clock.clone()).unwrap(), clock)
}

fn lost(winner: u64) -> Claim {
    Claim::Lost { winner }
}

/// So long a claim may take on a busy machine; by itself it takes half a second at most.
const LIMIT: Duration = Duration::from_millis(900);

/// A claim that takes so long was one for which the Redis was asked.
const ASKED: Duration = Duration::from_millis(250);

#[tokio::test(flavor = "multi_thread", worker_threads = 4)]
async fn of_calls_at_several_services_with_one_ticket_one_passes() {
    let server = Server::new("several", &[]);
    let services: Vec<_> = (0..3).map(|_| Arc::new(redis(&server.address()))).collect();
    let calls: Vec<_> = (0..96_u64)
        .map(|task| {
            let service = services[task as usize % 3].clone();
            tokio::spawn(async move {
                let (tickets, clock) = &*service;
                let mut won = Vec::new();
                for number in 0..20 {
                    match call(tickets, &**clock, (number + task) % 20 + 1).await {
                        Claim::Won => won.push((number + task) % 20 + 1),
                        claim => assert_eq!(claim, lost((number + task) % 20 + 1)),
                    }
                }
                won
            })
        })
        .collect();
    let mut won = Vec::new();
    for call in calls {
        won.extend(call.await.unwrap());
    }
    won.sort_unstable();
    assert_eq!(won, (1..=20).collect::<Vec<_>>());
    assert_eq!((services[0].0.health(), services[0].0.count()), (Health::Well, None));
    assert!(server.connections() <= 3 * 64, "{}", server.connections());
}

#[tokio::test]
async fn one_that_is_down_at_the_start_is_used_once_it_comes() {
    let mut server = Server::new("down", &[]);
    server.stop();
    let (tickets, clock) = redis(&server.address());
    tickets.look().await;
    let why = why(&tickets);
    assert!(why.starts_with(&server.address()) && why.contains("refused"), "{why}");
    assert_eq!(call(&tickets, &*clock, 1).await, Claim::Unable);
    server.start();
    tickets.look().await;
    assert_eq!(tickets.health(), Health::Well);
    assert_eq!(call(&tickets, &*clock, 1).await, Claim::Won);
}

#[tokio::test(flavor = "multi_thread", worker_threads = 4)]
async fn no_call_is_lost_to_connections_that_a_restart_ended() {
    let mut server = Server::new("restart", &[]);
    let service = Arc::new(redis(&server.address()));
    let many = |first: u64| {
        let service = service.clone();
        async move {
            let calls: Vec<_> = (first..first + 64)
                .map(|number| {
                    let service = service.clone();
                    tokio::spawn(async move { call(&service.0, &*service.1, number).await })
                })
                .collect();
            for call in calls {
                assert_eq!(call.await.unwrap(), Claim::Won);
            }
        }
    };
    many(1).await;
    server.stop();
    server.start();
    many(100).await;
    for number in 200..260 {
        assert_eq!(call(&service.0, &*service.1, number).await, Claim::Won, "{number}");
    }
}

#[tokio::test]
async fn no_call_is_lost_to_connections_that_were_idle_too_long() {
    let server = Server::new("idle", &["--timeout", "1"]);
    let (tickets, clock) = redis(&server.address());
    for number in [1, 100] {
        let calls = (number..number + 20).map(|number| call(&tickets, &*clock, number));
        for claim in futures_util::future::join_all(calls).await {
            assert_eq!(claim, Claim::Won);
        }
        tokio::time::sleep(Duration::from_millis(2_500)).await;
    }
}

#[tokio::test]
async fn a_call_passes_again_soon_after_an_outage_without_a_look() {
    let mut server = Server::new("outage", &[]);
    let (tickets, clock) = redis(&server.address());
    well_within(&tickets, 10 * LIMIT).await;
    server.stop();
    for number in 2..50 {
        assert_eq!(call(&tickets, &*clock, number).await, Claim::Unable);
    }
    why(&tickets);
    server.start();
    // What it takes to ask it doesn't count: on a busy machine a claim may be too late once more.
    // It may be kept all the same, so the next one is another.
    let (start, mut since) = (Instant::now(), Instant::now());
    for number in 100.. {
        let begun = Instant::now();
        match call(&tickets, &*clock, number).await {
            Claim::Won => break,
            claim => assert_eq!(claim, Claim::Unable),
        }
        if begun.elapsed() > ASKED {
            since = Instant::now();
        }
        let is_soon = since.elapsed() < LIMIT && start.elapsed() < 10 * LIMIT;
        assert!(is_soon, "{number}: {:?}: {}", start.elapsed(), why(&tickets));
        tokio::time::sleep(Duration::from_millis(10)).await;
    }
    assert_eq!(tickets.health(), Health::Well);
}

#[tokio::test]
async fn one_that_hangs_holds_no_call_for_long() {
    let server = Server::new("hangs", &[]);
    let (tickets, clock) = redis(&server.address());
    tickets.look().await;
    server.signal("-STOP");
    let start = Instant::now();
    let calls = (0..400).map(|number| call(&tickets, &*clock, number));
    for claim in futures_util::future::join_all(calls).await {
        assert_eq!(claim, Claim::Unable);
    }
    assert!(start.elapsed() < LIMIT, "{:?}", start.elapsed());
    // From now on it is left alone but for one claim in a quarter of a second.
    let start = Instant::now();
    for number in 0..1_000 {
        assert_eq!(call(&tickets, &*clock, number).await, Claim::Unable);
        assert!(start.elapsed() < 2 * LIMIT, "{number}: {:?}", start.elapsed());
    }
    tickets.look().await;
    assert!(why(&tickets).contains("doesn't answer in time"), "{}", why(&tickets));
    server.signal("-CONT");
    well_within(&tickets, Duration::from_secs(2)).await;
    assert_eq!(call(&tickets, &*clock, 5_000).await, Claim::Won);
}

#[tokio::test]
async fn one_that_answers_byte_by_byte_holds_no_call_for_long() {
    let server = Server::new("slow", &[]);
    let port = way(server.port, |_, _, bytes| (Duration::from_millis(300), Some(bytes))).await;
    let (tickets, clock) = redis(&format!("127.0.0.1:{port}"));
    for number in 0..3 {
        let start = Instant::now();
        assert_eq!(call(&tickets, &*clock, number).await, Claim::Unable);
        assert!(start.elapsed() < LIMIT, "{:?}", start.elapsed());
    }
    assert!(why(&tickets).contains("doesn't answer in time"), "{}", why(&tickets));
}

#[tokio::test]
async fn of_connections_that_fell_silent_one_costs_time() {
    let server = Server::new("silent", &[]);
    let silent = Arc::new(AtomicUsize::new(0));
    let before = silent.clone();
    let port = way(server.port, move |connection, _, bytes| {
        let silent = connection < before.load(Ordering::SeqCst);
        (if silent { Duration::from_secs(60) } else { Duration::ZERO }, Some(bytes))
    })
    .await;
    let (tickets, clock) = redis(&format!("127.0.0.1:{port}"));
    let calls = (0..20).map(|number| call(&tickets, &*clock, number));
    futures_util::future::join_all(calls).await;
    silent.store(20, Ordering::SeqCst);
    let start = Instant::now();
    for number in 100..120 {
        assert_eq!(call(&tickets, &*clock, number).await, Claim::Won, "{number}");
    }
    assert!(start.elapsed() < 2 * LIMIT, "{:?}", start.elapsed());
    // The others were closed with the first.
    while server.connections() > 1 {
        assert!(start.elapsed() < 4 * LIMIT, "{} are open", server.connections());
        tokio::time::sleep(Duration::from_millis(20)).await;
    }
}

#[tokio::test]
async fn a_claim_whose_answer_was_lost_is_still_won() {
    let server = Server::new("lost", &[]);
    // The answers of a connection are those to INFO, TIME, and then SET.
    for (number, lost_answer) in [(10, 2), (20, 3)] {
        let (cut, count) = (Arc::new(AtomicUsize::new(0)), Arc::new(AtomicUsize::new(0)));
        let (cuts, counts) = (cut.clone(), count.clone());
        let port = way(server.port, move |_, _, bytes| {
            let cuts_now = counts.fetch_add(1, Ordering::SeqCst) == lost_answer;
            cuts.fetch_add(usize::from(cuts_now), Ordering::SeqCst);
            (Duration::ZERO, Some(bytes).filter(|_| !cuts_now))
        })
        .await;
        let (tickets, clock) = redis(&format!("127.0.0.1:{port}"));
        assert_eq!(call(&tickets, &*clock, number).await, Claim::Won);
        assert_eq!(call(&tickets, &*clock, number + 1).await, Claim::Won);
        assert_eq!(cut.load(Ordering::SeqCst), 1, "{lost_answer}");
        assert_eq!(call(&tickets, &*clock, number + 1).await, lost(number + 1));
    }
}

#[tokio::test]
async fn one_that_refuses_to_write_is_seen_without_a_call() {
    let main = Server::new("main", &[]);
    let main_port = main.port.to_string();
    let replica = Server::new("replica", &["--replicaof", "127.0.0.1", &main_port]);
    let alone = Server::new("alone", &["--min-replicas-to-write", "1"]);
    let full = Server::new("memory", &["--maxmemory", "1", "--maxmemory-policy", "noeviction"]);
    for (server, said) in [(&replica, "READONLY"), (&alone, "NOREPLICAS"), (&full, "OOM")] {
        let (tickets, clock) = redis(&server.address());
        tickets.look().await;
        let why = why(&tickets);
        assert!(why.contains("SET: it said") && why.contains(said), "{said}: {why}");
        assert_eq!(call(&tickets, &*clock, 1).await, Claim::Unable, "{said}");
    }
    let (tickets, clock) = redis(&alone.address());
    assert_eq!(call(&tickets, &*clock, 1).await, Claim::Unable);
    alone.ask(&["CONFIG", "SET", "min-replicas-to-write", "0"]);
    tickets.look().await;
    assert_eq!(tickets.health(), Health::Well);
    assert_eq!(call(&tickets, &*clock, 1).await, Claim::Won);
}

#[tokio::test]
async fn one_that_forgets_keys_is_refused() {
    for policy in ["allkeys-lru", "volatile-ttl", "allkeys-random"] {
        let server = Server::new(policy, &["--maxmemory", "4mb", "--maxmemory-policy", policy]);
        let (tickets, clock) = redis(&server.address());
        assert_eq!(call(&tickets, &*clock, 1).await, Claim::Unable, "{policy}");
        tickets.look().await;
        assert!(why(&tickets).contains(policy), "{policy}: {}", why(&tickets));
        server.ask(&["CONFIG", "SET", "maxmemory-policy", "noeviction"]);
        tickets.look().await;
        assert_eq!(call(&tickets, &*clock, 1).await, Claim::Won, "{policy}");
        server.ask(&["CONFIG", "SET", "maxmemory-policy", policy]);
        tickets.look().await;
        assert!(why(&tickets).contains(policy), "{policy}: {}", why(&tickets));
        for number in 2..10 {
            assert_eq!(call(&tickets, &*clock, number).await, Claim::Unable, "{policy}");
            tokio::time::sleep(Duration::from_millis(60)).await;
        }
    }
}

#[tokio::test]
async fn a_peer_that_is_no_redis_ends_no_service() {
    let answers: [&[u8]; 10] = [
        b"",
        b"\r\n",
        b"\xc3\xa9\r\n",
        b"\xff\xff\xff\xff",
        b"HTTP/1.1 400 Bad Request\r\nConnection: close\r\n\r\n",
        b"$65000\r\nabc",
        b"*16\r\n*16\r\n",
        b"+OK\r\n+OK\r\n+OK\r\n+OK\r\n",
        b"$-1\r\n$-1\r\n$-1\r\n$-1\r\n",
        b"$33\r\n# Memory\r\nmaxmemory_policy:allkeys\r\n*1\r\n$3\r\nabc\r\n",
    ];
    for answer in answers {
        let port = parrot(answer).await;
        let (tickets, clock) = redis(&format!("127.0.0.1:{port}"));
        let start = Instant::now();
        assert_eq!(call(&tickets, &*clock, 1).await, Claim::Unable, "{answer:?}");
        tickets.look().await;
        assert!(start.elapsed() < 2 * LIMIT, "{answer:?}: {:?}", start.elapsed());
        assert!(why(&tickets).is_ascii(), "{answer:?}");
    }
}

#[tokio::test]
async fn a_password_is_given_and_never_told() {
    let server = Server::new("password", &["--requirepass", "open sesame"]);
    let user =
        ["ACL", "SETUSER", "stir", "on", ">s:t", "~stir:*", "+set", "+get", "+info", "+time"];
    let asked = [&["-a", "open sesame", "--no-auth-warning"][..], &user].concat();
    assert_eq!(server.ask(&asked), "OK");
    for (who, said) in [
        ("", Some("NOAUTH")),
        (":wrong@", Some("WRONGPASS")),
        ("stir:wrong@", Some("WRONGPASS")),
        (":open%20sesame@", None),
        ("default:open%20sesame@", None),
        ("stir:s%3at@", None),
    ] {
        let (tickets, clock) = redis(&format!("redis://{who}127.0.0.1:{}", server.port));
        tickets.look().await;
        match said {
            None => assert_eq!(tickets.health(), Health::Well, "{who}"),
            Some(said) => {
                let why = why(&tickets);
                assert!(why.contains(said) && !why.contains("wrong"), "{who}: {why}");
            }
        }
        let passes = call(&tickets, &*clock, who.len() as u64).await == Claim::Won;
        assert_eq!(passes, said.is_none(), "{who}");
    }
    let database = format!("redis://:open%20sesame@127.0.0.1:{}/3", server.port);
    let (tickets, clock) = redis(&database);
    assert_eq!(call(&tickets, &*clock, 1).await, Claim::Won);
    let words = ["-a", "open sesame", "--no-auth-warning", "-n", "3", "DBSIZE"];
    assert_eq!(server.ask(&words), "1");
}

#[tokio::test]
async fn tls_goes_by_whom_is_trusted_and_shows_a_certificate() {
    let folder = Folder::new("tls");
    let file = |name: &str| folder.file(name).display().to_string();
    let make = |name: &str, by: &[&str]| {
        let (key, certificate, subject) =
            (file(&format!("{name}.key")), file(&format!("{name}.pem")), format!("/CN={name}"));
        let mut words = vec!["req", "-x509", "-newkey", "ec", "-pkeyopt"];
        words.extend(["ec_paramgen_curve:P-256", "-nodes", "-days", "2", "-subj", &subject]);
        words.extend(["-keyout", &key, "-out", &certificate]);
        words.extend(by);
        assert!(run("openssl", &words), "{words:?}");
    };
    make("ca", &[]);
    let (ca, ca_key) = (file("ca.pem"), file("ca.key"));
    let by = ["-CA", &ca, "-CAkey", &ca_key, "-addext", "basicConstraints=CA:FALSE", "-addext"];
    make("server", &[&by[..], &["subjectAltName=DNS:localhost"]].concat());
    make("client", &[&by[..], &["subjectAltName=DNS:client"]].concat());
    let (certificate, key) = (file("server.pem"), file("server.key"));
    let words = ["--port", "0", "--tls-port", "PORT", "--tls-cert-file", &certificate];
    let more = ["--tls-key-file", &key, "--tls-ca-cert-file", &ca, "--tls-auth-clients", "yes"];
    let server = Server::new("tls-server", &[&words[..], &more].concat());
    let port = server.port;
    let client = format!("certificate={}&key={}", file("client.pem"), file("client.key"));
    for (address, passes) in [
        (format!("rediss://localhost:{port}?ca={ca}&{client}"), true),
        (format!("rediss://localhost:{port}?{client}"), false),
        (format!("rediss://localhost:{port}?ca={ca}"), false),
        (format!("rediss://127.0.0.1:{port}?ca={ca}&{client}"), false),
        (format!("redis://localhost:{port}"), false),
    ] {
        let (tickets, clock) = redis(&address);
        let start = Instant::now();
        tickets.look().await;
        assert_eq!(tickets.health() == Health::Well, passes, "{address}: {:?}", tickets.health());
        let claim = call(&tickets, &*clock, 1).await;
        assert_eq!(claim, if passes { Claim::Won } else { Claim::Unable }, "{address}");
        assert!(start.elapsed() < 2 * LIMIT, "{address}");
    }
}

#[tokio::test]
async fn a_clock_that_was_fast_harms_no_call_and_lets_none_pass_twice() {
    let server = Server::new("fast", &[]);
    let (tickets, clock) = redis(&server.address());
    let other = redis(&server.address());
    let start = clock.now();
    assert_eq!(call(&tickets, &*clock, 1).await, Claim::Won);
    clock.set(start + 3_600);
    assert_eq!(call(&tickets, &*clock, 2).await, Claim::Won);
    clock.wait(20);
    assert_eq!(call(&tickets, &*clock, 3).await, Claim::Won);
    clock.set(start + 20);
    assert_eq!(call(&tickets, &*clock, 4).await, Claim::Won);
    assert_eq!(call_since(&tickets, &*clock, 1, start).await, lost(1));
    // An hour later, by the clock of the Redis, the key is still there for all hosts.
    for (number, fast) in [(1, 0), (2, 3_600)] {
        let key = ticket(number).iter().map(|byte| format!("{byte:02x}")).collect::<String>();
        let seconds: i64 = server.ask(&["TTL", &format!("stir:{key}")]).parse().unwrap();
        assert!((fast + 77..=fast + 86).contains(&seconds), "{number}: {seconds}");
    }
    other.1.set(start + 3_600);
    assert_eq!(call(&other.0, &*other.1, 2).await, lost(2));
}

#[tokio::test]
async fn a_ticket_whose_key_ended_doesnt_pass_again_though_the_clock_goes_back() {
    let server = Server::new("back", &[]);
    let (tickets, clock) = redis(&server.address());
    let start = clock.now();
    assert_eq!(call(&tickets, &*clock, 1).await, Claim::Won);
    clock.wait(70);
    assert_eq!(call_since(&tickets, &*clock, 1, start).await, lost(1));
    clock.wait(22);
    server.ask(&["FLUSHALL"]);
    clock.set(start);
    assert_eq!(call_since(&tickets, &*clock, 1, start).await, Claim::Forgotten);
    assert_eq!(call_since(&tickets, &*clock, 2, start + 1).await, Claim::Won);
}

#[tokio::test]
async fn keys_that_may_have_ended_as_the_clock_of_the_redis_leapt_are_forgotten() {
    let server = Server::new("leap", &[]);
    let ahead = Arc::new(AtomicUsize::new(0));
    let seconds = ahead.clone();
    let port = way(server.port, move |_, _, bytes| {
        let text = String::from_utf8(bytes).unwrap();
        // The answer to TIME is the second, in ten digits, and the part of a second.
        let bytes = match text.strip_prefix("*2\r\n$10\r\n") {
            Some(time) => {
                let second: usize = time[..10].parse().unwrap();
                let second = second + seconds.load(Ordering::SeqCst);
                format!("*2\r\n$10\r\n{second}{}", &time[10..]).into_bytes()
            }
            None => text.into_bytes(),
        };
        (Duration::ZERO, Some(bytes))
    })
    .await;
    let (tickets, clock) = redis(&format!("127.0.0.1:{port}"));
    let start = clock.now();
    assert_eq!(call(&tickets, &*clock, 1).await, Claim::Won);
    tickets.look().await;
    assert_eq!(call_since(&tickets, &*clock, 1, start).await, lost(1));
    ahead.store(3_600, Ordering::SeqCst);
    tickets.look().await;
    assert_eq!(tickets.health(), Health::Well);
    server.ask(&["FLUSHALL"]);
    assert_eq!(call_since(&tickets, &*clock, 1, start).await, Claim::Forgotten);
    assert_eq!(call_since(&tickets, &*clock, 2, start + 1).await, Claim::Won);
}

#[tokio::test]
async fn older_calls_that_are_judged_again_keep_their_tickets() {
    let server = Server::new("older", &[]);
    let clock = Moved::at(SystemClock.now());
    let tickets = Redis::new(&server.address(), clock.clone()).unwrap();
    let passed = stird::tickets::Passed { last: 1_443_208_405, number: 1 };
    assert_eq!(tickets.claim(ticket(1), passed, 1_443_208_345).await, Claim::Won);
    clock.wait(600);
    assert_eq!(tickets.claim(ticket(1), passed, 1_443_208_345).await, lost(1));
    assert_eq!(tickets.claim(ticket(2), passed, 1_443_208_345).await, Claim::Won);
}

#[tokio::test]
async fn nobody_there_is_told_at_once() {
    let (tickets, clock) = redis(&format!("127.0.0.1:{}", free_port()));
    let start = Instant::now();
    assert_eq!(call(&tickets, &*clock, 1).await, Claim::Unable);
    assert!(start.elapsed() < LIMIT && why(&tickets).contains("refused"), "{}", why(&tickets));
}
