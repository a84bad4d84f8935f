//! Fetches from a server of https on 127.0.0.1, which does what a stranger's may.
mod server;

use openssl::pkcs7::{Pkcs7, Pkcs7Flags};
use openssl::ssl::SslVersion;
use openssl::stack::Stack;
use server::certificates::{now, Identity};
use server::{answer, good, identities, Does, Server, Table};
use std::sync::atomic::Ordering;
use std::time::{Duration, Instant};
use stir_trust::fetch::{Fetched, Fetcher, FormFault, Hosts, Reach, Reason, Settings};

/// A leaf's certificate, its authority's and the root's, and the second at which the first ends.
fn path() -> (Vec<Identity>, u64) {
    let ends = now() + 5_000;
    let root = Identity::root("Root", ends + 2);
    let middle = root.issue("Authority", &[], ends);
    let leaf = middle.issue("SHAKEN 1234", &["leaf.example"], ends + 1);
    (vec![leaf, middle, root], ends)
}

/// A message of PKCS #7 with these certificates.
fn message(chain: &[Identity]) -> Pkcs7 {
    let [signer, others @ ..] = chain else { panic!("no certificates") };
    let mut stack = Stack::new().expect("a stack");
    others.iter().for_each(|other| stack.push(other.certificate.clone()).expect("room"));
    let flags = Pkcs7Flags::BINARY;
    Pkcs7::sign(&signer.certificate, &signer.key, &stack, b"", flags).expect("a message")
}

async fn fetched(does: Does, limit: Duration) -> Result<Fetched, Reason> {
    let (authority, identity) = identities();
    let server = Server::start(&identity, move |_| does.clone()).await;
    let settings = Settings { limit, ..server.settings(&authority) };
    let fetcher = Fetcher::new(settings, Table::here()).expect("a fetcher");
    fetcher.fetch(&server.x5u("/chain")).await
}

#[tokio::test]
async fn certificates_come_in_each_form_and_order_with_the_leaf_first() {
    let (path, ends) = path();
    let wanted: Vec<Vec<u8>> = path.iter().map(Identity::der).collect();
    let pem =
        |numbers: &[usize]| numbers.iter().flat_map(|at| path[*at].pem()).collect::<Vec<u8>>();
    let der =
        |numbers: &[usize]| numbers.iter().flat_map(|at| path[*at].der()).collect::<Vec<u8>>();
    let key = path[0].key.private_key_to_pem_pkcs8().expect("PEM");
    let bodies = [
        ("PEM", pem(&[0, 1, 2])),
        ("PEM, the root first", pem(&[2, 1, 0])),
        ("PEM, mixed", pem(&[1, 0, 2])),
        ("PEM with text and a key", [b"Leaf:\r\n".as_slice(), &key, &pem(&[2, 0, 1])].concat()),
        ("DER", der(&[0, 1, 2])),
        ("DER, the root first", der(&[2, 1, 0])),
        ("PKCS #7 in DER", message(&path).to_der().expect("DER")),
        ("PKCS #7 in PEM", message(&path).to_pem().expect("PEM")),
        ("PEM and PKCS #7", [pem(&[2]), message(&path[..2]).to_pem().expect("PEM")].concat()),
    ];
    for (form, body) in bodies {
        let fetched = fetched(good("Cache-Control: max-age=70\r\n", &body), LONG).await;
        let wanted = Fetched { chain: wanted.clone(), keep: Some(70), ends };
        assert_eq!(fetched, Ok(wanted), "{form}");
    }
}

#[tokio::test]
async fn what_is_no_path_keeps_its_order() {
    let (path, _) = path();
    let other = Identity::root("Other", now() + 9_000);
    let chain = [&path[2], &other, &path[0]].map(Identity::der);
    let fetched = fetched(good("", &chain.concat()), LONG).await.expect("certificates");
    assert_eq!(fetched.chain, chain);
    assert_eq!(fetched.keep, None);
}

const LONG: Duration = Duration::from_secs(10);

#[tokio::test]
async fn what_isnt_certificates_is_refused() {
    let (path, _) = path();
    let (pem, der) = (path[0].pem(), path[0].der());
    let cut = pem.len() - 10;
    for (body, fault) in [
        (b"".to_vec(), FormFault::None),
        (b"<html>not here</html>".to_vec(), FormFault::None),
        (b"-----BEGIN X-----\nAAAA\n-----END X-----\n".to_vec(), FormFault::None),
        (pem[..cut].to_vec(), FormFault::Pem),
        ([pem.clone(), pem[..cut].to_vec()].concat(), FormFault::Pem),
        (b"-----BEGIN CERTIFICATE-----\n&\n-----END CERTIFICATE-----\n".to_vec(), FormFault::Pem),
        (der[..der.len() - 1].to_vec(), FormFault::None),
        ([der.clone(), vec![0]].concat(), FormFault::None),
        ([der.clone(), vec![0x30, 0]].concat(), FormFault::Certificate(2)),
        (vec![0x30, 3, 2, 1, 1], FormFault::Certificate(1)),
        (vec![0x30, 0x84, 0xff, 0xff, 0xff, 0xff], FormFault::None),
    ] {
        let shown = String::from_utf8_lossy(&body).into_owned();
        assert_eq!(fetched(good("", &body), LONG).await, Err(Reason::Form(fault)), "{shown}");
    }
}

#[tokio::test]
async fn answers_that_are_none_are_refused() {
    let chunked = b"HTTP/1.1 200 OK\r\nTransfer-Encoding: chunked\r\n\r\n".to_vec();
    let text = |text: &str| Does::Says(text.into());
    for (what, does, reason) in [
        ("404", answer("404 Not Found", ""), Reason::Status(404)),
        ("204", text("HTTP/1.1 204 No Content\r\n\r\n"), Reason::Status(204)),
        ("206", answer("206 Partial Content", ""), Reason::Status(206)),
        ("302 to nowhere", answer("302 Found", ""), Reason::Status(302)),
        ("nothing", text(""), Reason::Answer),
        ("no HTTP", text("SSH-2.0-x\r\n\r\n"), Reason::Answer),
        ("half a head", text("HTTP/1.1 200 OK\r\nA: b"), Reason::Answer),
        ("half a body", text("HTTP/1.1 200 OK\r\nContent-Length: 9\r\n\r\nab"), Reason::Answer),
        ("half a chunk", Does::Says([&chunked[..], b"9\r\nab"].concat()), Reason::Answer),
        ("a packed one", good("Content-Encoding: gzip\r\n", b"a"), Reason::Answer),
        ("a long body", good("", &[b'a'; 49_153]), Reason::Size),
        ("the longest body", good("", &[b'a'; 49_152]), Reason::Form(FormFault::None)),
        (
            "a long body of which the length alone comes",
            text("HTTP/1.1 200 OK\r\nContent-Length: 9999999999\r\n\r\n"),
            Reason::Size,
        ),
        (
            "endless chunks",
            Does::Repeats(
                chunked.clone(),
                b"400\r\n".iter().chain(&[b'a'; 0x400]).chain(b"\r\n").copied().collect(),
            ),
            Reason::Size,
        ),
        (
            "an endless body",
            Does::Repeats(b"HTTP/1.1 200 OK\r\n\r\n".to_vec(), vec![b'a'; 4_096]),
            Reason::Size,
        ),
        (
            "endless head lines",
            Does::Repeats(b"HTTP/1.1 200 OK\r\n".to_vec(), b"A: b\r\n".repeat(100)),
            Reason::Size,
        ),
        (
            "an endless head line",
            Does::Repeats(b"HTTP/1.1 200 OK\r\nA: ".to_vec(), vec![b'a'; 4_096]),
            Reason::Size,
        ),
    ] {
        assert_eq!(fetched(does, LONG).await, Err(reason), "{what}");
    }
}

#[tokio::test]
async fn one_deadline_ends_all_of_it() {
    let (path, _) = path();
    let Does::Says(whole) = good("", &path[0].der()) else { panic!("no answer") };
    let limit = Duration::from_secs(1);
    for (what, does) in [
        ("a byte a second", Does::Drips(whole.clone(), Duration::from_secs(1))),
        ("a byte in 20 ms", Does::Drips(whole.clone(), Duration::from_millis(20))),
        ("silence", Does::Waits(Duration::from_secs(60), whole)),
        ("100 and 100", Does::Repeats(vec![], b"HTTP/1.1 100 Continue\r\n\r\n".repeat(9))),
    ] {
        let start = Instant::now();
        assert_eq!(fetched(does, limit).await, Err(Reason::Time), "{what}");
        let took = start.elapsed();
        assert!((limit..limit * 9).contains(&took), "{what}: {took:?}");
    }
}

#[tokio::test]
async fn redirects_stay_at_the_host_and_are_counted() {
    let (authority, identity) = identities();
    let (path, _) = path();
    let der = path[0].der();
    let server = Server::start(&identity, move |target| match target {
        "/3" => answer("301 Moved", "Location: /2\r\n"),
        "/2" => answer("307 Temporary Redirect", "Location: ./1?x\r\n"),
        "/1?x" => answer("302 Found", "Location: 0\r\n"),
        "/0" => good("", &der),
        "/4" => answer("308 Permanent Redirect", "Location: /3\r\n"),
        "/self" => answer("302 Found", "Location: /self\r\n"),
        "/port" => answer("302 Found", "Location: https://cr.example/0\r\n"),
        "/other" => answer("302 Found", "Location: https://other.example/0\r\n"),
        "/plain" => answer("302 Found", "Location: http://cr.example/0\r\n"),
        "/file" => answer("302 Found", "Location: file:///etc/passwd\r\n"),
        _ => answer("404 Not Found", ""),
    })
    .await;
    let fetcher = server.fetcher(&authority, Table::here());
    let fetched = fetcher.fetch(&server.x5u("/3")).await.expect("three redirects");
    assert_eq!(fetched.chain, [path[0].der()]);
    for (target, reason) in [
        ("/4", Reason::Redirects),
        ("/self", Reason::Redirects),
        ("/port", Reason::Elsewhere),
        ("/other", Reason::Elsewhere),
        ("/plain", Reason::Elsewhere),
        ("/file", Reason::Elsewhere),
    ] {
        assert_eq!(fetcher.fetch(&server.x5u(target)).await, Err(reason), "{target}");
    }
    assert_eq!(server.targets()[..5], ["/3", "/2", "/1?x", "/0", "/4"]);
    assert_eq!(server.connections(), 4 + 4 + 4 + 4, "no request after the last of each");
}

#[tokio::test]
async fn a_host_with_a_private_address_isnt_asked() {
    let (authority, identity) = identities();
    let server = Server::start(&identity, |_| answer("200 OK", "")).await;
    let both = Table::of(&[("cr.example", &[&["8.8.8.8", "10.0.0.1"]])]);
    let private = Reason::Private("10.0.0.1".parse().expect("an address"));
    let fetcher = server.fetcher(&authority, both);
    assert_eq!(fetcher.fetch(&server.x5u("/")).await, Err(private));

    // Without the test's exception 127.0.0.1 is private too.
    let settings = Settings { reach: Reach::Public, ..server.settings(&authority) };
    let fetcher = Fetcher::new(settings, Table::here()).expect("a fetcher");
    assert_eq!(fetcher.fetch(&server.x5u("/")).await, Err(Reason::Private(server::here())));
    assert_eq!(server.connections(), 0);
}

#[tokio::test]
async fn literal_addresses_that_are_private_arent_asked_though_they_are_listed() {
    for (host, address) in [
        ("169.254.169.254", "169.254.169.254"),
        ("0.0.0.0", "0.0.0.0"),
        ("127.0.0.1", "127.0.0.1"),
        ("[::1]", "::1"),
        ("[::]", "::"),
        ("[::ffff:10.0.0.1]", "::ffff:10.0.0.1"),
        ("[64:ff9b::a00:1]", "64:ff9b::10.0.0.1"),
        ("[fe80::1]", "fe80::1"),
    ] {
        let uri = format!("https://{host}/a");
        let reasons = [
            (format!("{host}\n"), Reason::Private(address.parse().expect(address))),
            ("*\n".into(), Reason::Listed),
        ];
        for (hosts, reason) in reasons {
            let settings = Settings::new(Hosts::read(hosts.as_bytes()).expect("hosts"));
            let table = Table::of(&[]);
            let fetcher = Fetcher::new(settings, table.clone()).expect("a fetcher");
            assert_eq!(fetcher.fetch(&uri).await, Err(reason), "{uri}");
            assert_eq!(table.asked.load(Ordering::SeqCst), 0, "{uri}");
        }
    }
}

#[tokio::test]
async fn a_listed_public_literal_is_asked_and_its_certificate_is_for_it() {
    let (authority, _) = identities();
    for (names, is_good) in [("127.0.0.1", true), ("127.0.0.2", false)] {
        let identity = authority.issue("address", &[names], now() + 86_400);
        let (path, _) = path();
        let der = path[0].der();
        let server = Server::start(&identity, move |_| good("", &der)).await;
        let fetcher = server.fetcher(&authority, Table::of(&[]));
        let uri = format!("https://127.0.0.1:{}/a", server.port);
        assert_eq!(fetcher.fetch(&uri).await.is_ok(), is_good, "{names}");
    }
}

#[tokio::test]
async fn what_was_looked_up_is_what_is_asked() {
    let (authority, identity) = identities();
    let (path, _) = path();
    let der = path[0].der();
    let server = Server::start(&identity, move |target| match target {
        "/again" => answer("302 Found", "Location: /chain\r\n"),
        _ => good("", &der),
    })
    .await;
    // The name changes after its first look-up, to an address that is private.
    let rebound = || Table::of(&[("cr.example", &[&["127.0.0.1"], &["10.0.0.1"]])]);
    let table = rebound();
    let fetched = server.fetcher(&authority, table.clone()).fetch(&server.x5u("/chain")).await;
    assert!(fetched.is_ok(), "{fetched:?}");
    assert_eq!(table.asked.load(Ordering::SeqCst), 1, "there is no second look-up");

    // A redirect looks it up again, and sees that.
    let fetched = server.fetcher(&authority, rebound()).fetch(&server.x5u("/again")).await;
    assert_eq!(fetched, Err(Reason::Private("10.0.0.1".parse().expect("an address"))));
    assert_eq!(server.targets(), ["/chain", "/again"]);
}

#[tokio::test]
async fn the_next_address_is_asked_if_one_takes_no_connection() {
    let (authority, identity) = identities();
    let (path, _) = path();
    let der = path[0].der();
    let server = Server::start(&identity, move |_| good("", &der)).await;
    let reach = ["127.0.0.1", "127.0.0.2"].map(|text| text.parse().expect(text)).to_vec();
    for (addresses, is_good) in [(["127.0.0.2", "127.0.0.1"], true), (["127.0.0.2"; 2], false)] {
        let reach = Reach::PublicAnd(reach.clone());
        let settings = Settings { reach, ..server.settings(&authority) };
        let table = Table::of(&[("cr.example", &[&addresses])]);
        let fetched = Fetcher::new(settings, table).expect("a fetcher");
        let fetched = fetched.fetch(&server.x5u("/chain")).await;
        match is_good {
            true => assert!(fetched.is_ok(), "{fetched:?}"),
            false => {
                let refused = std::io::ErrorKind::ConnectionRefused;
                assert_eq!(fetched, Err(Reason::Connect(refused)));
            }
        }
    }
}

#[tokio::test]
async fn a_name_that_isnt_found_is_said() {
    let (authority, identity) = identities();
    let server = Server::start(&identity, |_| answer("200 OK", "")).await;
    for table in [Table::of(&[]), Table::of(&[("cr.example", &[&[]])])] {
        let fetched = server.fetcher(&authority, table).fetch(&server.x5u("/")).await;
        assert_eq!(fetched, Err(Reason::Dns));
    }
}

#[tokio::test]
async fn a_server_whose_certificate_isnt_good_is_asked_for_nothing() {
    let (authority, good) = identities();
    let stranger = Identity::root("Stranger", now() + 86_400);
    let both = SslVersion::TLS1_3;
    for (what, identity, version, words) in [
        ("expired", authority.issue("a", &["cr.example"], now() - 9), both, "expired"),
        ("another host's", authority.issue("a", &["other.example"], now() + 99), both, "mismatch"),
        ("all hosts'", authority.issue("a", &["*.example", "*"], now() + 99), both, "mismatch"),
        ("a stranger's", stranger.issue("a", &["cr.example"], now() + 99), both, "unable to get"),
        ("its own", Identity::root("cr.example", now() + 99), both, "self"),
        ("good, by TLS 1.1", good.clone(), SslVersion::TLS1_1, ""),
    ] {
        let server = Server::start_with(&identity, version, |_| answer("404 None", "")).await;
        assert!(server::takes(server.port, version).await, "{what}");
        let fetched = server.fetcher(&authority, Table::here()).fetch(&server.x5u("/")).await;
        match fetched {
            Err(Reason::Tls(said)) => assert!(said.contains(words), "{what}: {said}"),
            other => panic!("{what}: {other:?}"),
        }
        assert!(server.targets().is_empty(), "{what}");
    }
    for version in [SslVersion::TLS1_2, SslVersion::TLS1_3] {
        let server = Server::start_with(&good, version, |_| answer("404 None", "")).await;
        let fetched = server.fetcher(&authority, Table::here()).fetch(&server.x5u("/")).await;
        assert_eq!(fetched, Err(Reason::Status(404)), "{version:?}");
    }
}

#[test]
fn no_proxy_of_the_environment_is_asked() {
    let dead = "http://127.0.0.1:9";
    let mut test = std::process::Command::new(std::env::current_exe().expect("this program"));
    for name in ["https_proxy", "HTTPS_PROXY", "http_proxy", "HTTP_PROXY", "ALL_PROXY"] {
        test.env(name, dead);
    }
    let test = test.args(["--exact", "what_was_looked_up_is_what_is_asked"]).output();
    let said = test.expect("it runs");
    assert!(said.status.success(), "{said:?}");
    assert!(String::from_utf8_lossy(&said.stdout).contains("1 passed"), "{said:?}");
}

#[tokio::test]
async fn a_document_that_the_operator_names_has_the_same_bounds() {
    let (authority, identity) = identities();
    let server = Server::start(&identity, move |target| match target {
        "/most" => good("", &[7; 1000]),
        "/more" => good("", &[7; 1001]),
        "/slow" => Does::Drips(b"HTTP/1.1 200 OK\r\n".repeat(100), Duration::from_millis(100)),
        "/moved" => answer("302 Found", "Location: /most\r\n"),
        _ => answer("302 Found", "Location: https://elsewhere.example/\r\n"),
    })
    .await;
    let settings = |reach| Settings {
        hosts: Hosts::default(),
        limit: Duration::from_secs(2),
        most: 1000,
        reach,
        ..server.settings(&authority)
    };
    let fetcher = Fetcher::new(settings(Reach::All), Table::here()).expect("a fetcher");
    let begun = Instant::now();
    for (target, wanted) in [
        ("/most", Ok(vec![7; 1000])),
        ("/moved", Ok(vec![7; 1000])),
        ("/more", Err(Reason::Size)),
        ("/slow", Err(Reason::Time)),
        ("/elsewhere", Err(Reason::Elsewhere)),
    ] {
        assert_eq!(fetcher.document(&server.x5u(target)).await, wanted, "{target}");
    }
    assert!(begun.elapsed() < LONG, "{:?}", begun.elapsed());
    // An x5u is asked of listed hosts alone all the same.
    assert_eq!(fetcher.fetch(&server.x5u("/most")).await, Err(Reason::Listed));
    let fetcher = Fetcher::new(settings(Reach::Public), Table::here()).expect("a fetcher");
    let private = fetcher.document(&server.x5u("/most")).await;
    assert_eq!(private, Err(Reason::Private(server::here())));
}
