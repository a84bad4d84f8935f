//! Who may have calls signed, and which: the file of clients, and who is let in.
mod support;

use std::net::IpAddr;
use std::sync::Arc;
use stir::Attest;
use stird::clients::{Admission, Allowed, ClientFault, Clients, ClientsError, Denied};
use stird::clients::{Peer, Sender, Shown};
use stird::files::numbers::NumbersFault;
use stird::files::signing::Unsigned;
use stird::tokens::Tokens;
use support::Folder;

const TOKEN: &str = "0123456789abcdef";
/// A token, and its SHA-256 as `sha256sum` says it.
const OTHER: &str = "fedcba9876543210";
const OTHER_SUM: &str = "3465f6e6975baa864ca957f0914ecda9bf7eb601ac31ac20a5dc3d329279a843";

fn read(text: &str) -> Result<Clients, ClientsError> {
    let folder = Folder::new();
    Clients::read(Some(&folder.put("clients.toml", text)), true)
}

/// A client with one token and these lines.
fn client(name: &str, token: &str, lines: &str) -> String {
    format!("[{name}]\ntokens = [\"{token}\"]\n{lines}\n")
}

/// Why a client of this text isn't one.
fn fault(text: &str) -> (String, ClientFault) {
    match read(text) {
        Err(ClientsError::Client { name, fault, .. }) => (name, fault),
        other => panic!("{text}: {other:?}"),
    }
}

/// The client with this token, as a sender.
fn sender(clients: &Clients, token: &str) -> Sender {
    Sender::Client(Arc::clone(clients.by_token(token.as_bytes()).expect(token)))
}

#[test]
fn a_client_has_its_own_numbers() {
    let blocks = r#"attest = "A"
        blocks = ["1215555xxxx", "!121555501xx", "12155550107", "13105550000-13105550019"]"#;
    let clients = read(&client("switch-1", TOKEN, blocks)).expect("clients");
    let sender = sender(&clients, TOKEN);
    for (number, is_its) in [
        ("12155550000", true),
        ("12155559999", true),
        ("12155550100", false),
        ("12155550107", true),
        ("13105550019", true),
        ("13105550020", false),
        ("12155560000", false),
        ("1215555000", false),
        ("121555500000", false),
        ("012155550000", false),
        ("+12155550000", false),
        ("", false),
    ] {
        let may = sender.may_sign(number, Some(Attest::A));
        let allowed = Allowed { attest: Some(Attest::A), most: Attest::A };
        assert_eq!(may, if is_its { Ok(allowed) } else { Err(Unsigned::NotOurs) }, "{number}");
    }
    let all = r#"attest = "A"
        blocks = ["*", "!1215555xxxx"]"#;
    let clients = read(&client("switch-1", TOKEN, all)).expect("clients");
    let sender = self::sender(&clients, TOKEN);
    assert!(sender.may_sign("12155560000", None).is_ok());
    assert_eq!(sender.may_sign("12155550000", None), Err(Unsigned::NotOurs));
}

#[test]
fn a_client_gets_no_higher_attestation_than_its_own() {
    use Attest::{A, B, C};
    for (lines, wanted, attest, is_lowered) in [
        (r#"attest = "A""#, Some(A), Some(A), false),
        (r#"attest = "A""#, None, None, false),
        (r#"attest = "B""#, Some(A), Some(A), true),
        (r#"attest = "B""#, Some(B), Some(B), false),
        (r#"attest = "B""#, Some(C), Some(C), false),
        ("attest = \"B\"\nunasked = \"C\"", None, Some(C), false),
        ("attest = \"B\"\nunasked = \"B\"", None, Some(B), false),
        ("attest = \"B\"\nunasked = \"C\"", Some(A), Some(A), true),
    ] {
        let text = client("a", TOKEN, &format!("blocks = [\"*\"]\n{lines}"));
        let clients = read(&text).expect("clients");
        let allowed = sender(&clients, TOKEN).may_sign("1", wanted).expect("all numbers");
        let most = if lines.contains("\"A\"") { A } else { B };
        assert_eq!(allowed, Allowed { attest, most }, "{text}");
        assert_eq!(allowed.is_lowered(), is_lowered, "{text}");
    }
}

#[test]
fn a_client_is_told_by_a_token_or_its_sum_and_by_a_certificate_or_its_name() {
    let sum = "AB".repeat(32);
    let text = format!(
        "[one]\ntokens = [\"{TOKEN}\", \"sha256:{OTHER_SUM}\"]\nblocks = [\"1\"]\nattest = \"A\"\n\
         [two]\ncertificates = [\"sha256:{sum}\", \"cn:switch 2\"]\nblocks = [\"2\"]\n\
         attest = \"A\"\norigid = \"123E4567-e89b-12d3-a456-426655440000\"\n\
         [\"three.example\"]\ncertificates = [\"cn:sha256:3\"]\nblocks = [\"3\"]\nattest = \"C\"\n"
    );
    let clients = read(&text).expect("clients");
    assert_eq!(clients.names(), ["one", "three.example", "two"]);
    let name = |client: Option<&Arc<_>>| client.map(|client| Sender::Client(Arc::clone(client)));
    let name = |client| name(client).and_then(|sender| sender.name().map(String::from));
    assert_eq!(name(clients.by_token(TOKEN.as_bytes())).as_deref(), Some("one"));
    let by_sum = name(clients.by_token(OTHER.as_bytes()));
    assert_eq!(by_sum.as_deref(), Some("one"), "{OTHER_SUM}");
    for no in ["", "0123456789abcde", OTHER_SUM, &format!("sha256:{OTHER_SUM}")] {
        assert_eq!(name(clients.by_token(no.as_bytes())), None, "{no}");
    }
    for (sum, subject, wanted) in [
        ([0xab; 32], None, Some("two")),
        ([0xab; 32], Some("sha256:3"), Some("two")),
        ([0; 32], Some("switch 2"), Some("two")),
        ([0; 32], Some("sha256:3"), Some("three.example")),
        ([0; 32], Some("switch"), None),
        ([0; 32], Some("SWITCH 2"), None),
        ([0; 32], None, None),
    ] {
        let shown = Shown { sum, name: subject.map(String::from) };
        assert_eq!(name(clients.by_certificate(&shown)).as_deref(), wanted, "{shown:?}");
    }
    let shown = Shown { sum: [0xab; 32], name: None };
    let two = Sender::Client(Arc::clone(clients.by_certificate(&shown).expect("two")));
    assert_eq!(two.origid(), Some("123e4567-e89b-12d3-a456-426655440000"));
    assert_eq!((Sender::Known.origid(), sender(&clients, TOKEN).origid()), (None, None));
}

#[test]
fn a_client_that_is_none_is_named_with_its_cause() {
    use ClientFault as Fault;
    let rest = "blocks = [\"1x\"]\nattest = \"B\"\n";
    let form = |text: &str, fault| Fault::Block { text: text.into(), fault };
    for (text, wanted) in [
        (format!("[a]\n{rest}"), Fault::Keyless),
        (format!("[\"a b\"]\ntokens = [\"{TOKEN}\"]\n{rest}"), Fault::Name),
        (format!("[\"\"]\ntokens = [\"{TOKEN}\"]\n{rest}"), Fault::Name),
        (format!("[{}]\ntokens = [\"{TOKEN}\"]\n{rest}", "a".repeat(65)), Fault::Name),
        (client("a", "0123456789abcde", rest), Fault::Token(1)),
        (client("a", "0123456789 abcdef", rest), Fault::Token(1)),
        (client("a", &format!("{TOKEN}\", \"sha256:{TOKEN}"), rest), Fault::Token(2)),
        (client("a", &format!("sha256:{}", "g".repeat(64)), rest), Fault::Token(1)),
        (client("a", &format!("{TOKEN}\", \"{TOKEN}"), rest), Fault::Shared("a".into())),
        (format!("[a]\ncertificates = [\"switch-1\"]\n{rest}"), Fault::Certificate(1)),
        (format!("[a]\ncertificates = [\"cn:\"]\n{rest}"), Fault::Certificate(1)),
        (format!("[a]\ncertificates = [\"sha256:ab\"]\n{rest}"), Fault::Certificate(1)),
        (client("a", TOKEN, "blocks = []\nattest = \"A\""), Fault::NoBlock),
        (client("a", TOKEN, "blocks = [\"!1x\"]\nattest = \"A\""), Fault::NoBlock),
        (client("a", TOKEN, "blocks = [\"01x\"]\nattest = \"A\""), form("01x", NumbersFault::Form)),
        (
            client("a", TOKEN, "blocks = [\"1\", \"!9-10\"]\nattest = \"A\""),
            form("!9-10", NumbersFault::Ends),
        ),
        (
            client("a", TOKEN, "blocks = [\"1x\", \"!10-19\"]\nattest = \"A\""),
            Fault::Ambiguous("1x".into(), "!10-19".into()),
        ),
        (client("a", TOKEN, "blocks = [\"1\"]\nattest = \"a\""), Fault::Attest),
        (client("a", TOKEN, &format!("{rest}unasked = \"A\"")), Fault::Better),
        (client("a", TOKEN, &format!("{rest}unasked = \"D\"")), Fault::Better),
        (client("a", TOKEN, &format!("{rest}origid = \"x\"")), Fault::Origid),
        (
            client("a", TOKEN, &format!("{rest}origid = \"123e4567e89b12d3a456426655440000\"")),
            Fault::Origid,
        ),
    ] {
        let (_, found) = fault(&text);
        assert_eq!(found, wanted, "{text}");
    }
    let two = client("a", TOKEN, rest) + &client("b", TOKEN, rest);
    assert_eq!(fault(&two), ("b".into(), Fault::Shared("a".into())));
    let certified = format!("[a]\ncertificates = [\"cn:a\"]\n{rest}");
    let folder = Folder::new();
    let unasked = Clients::read(Some(&folder.put("clients.toml", certified)), false);
    let unasked = unasked.expect_err("nobody is asked for certificates").to_string();
    assert!(unasked.contains("a: it has a certificate") && unasked.contains("--tls-clients"));
}

#[test]
fn a_file_that_is_none_is_refused_with_its_cause() {
    let rest = "blocks = [\"1x\"]\nattest = \"B\"\n";
    let many = |count: usize| -> String {
        (0..count).map(|at| client(&format!("c{at}"), &format!("{at:016}"), rest)).collect()
    };
    for (text, told) in [
        (String::new(), "one client is wanted, and 1000 at most"),
        ("; a comment".into(), "line 1"),
        ("a = 1".into(), "expected"),
        (client("a", TOKEN, "attest = \"A\""), "blocks"),
        (client("a", TOKEN, "blocks = [\"1\"]"), "attest"),
        (client("a", TOKEN, &format!("{rest}block = \"1\"")), "block"),
        (client("a", TOKEN, rest) + &client("a", OTHER, rest), "a"),
        (many(1001), "1000 at most"),
    ] {
        let fault = read(&text).expect_err(&text).to_string();
        assert!(fault.contains("clients.toml: ") && fault.contains(told), "{text}: {fault}");
    }
    assert_eq!(read(&many(1000)).expect("so many may be").names().len(), 1000);
    let folder = Folder::new();
    let fault = Clients::read(Some(&folder.path("none")), true).expect_err("there is no file");
    assert!(fault.to_string().contains("there is no such file"), "{fault}");
    let bytes = Clients::read(Some(&folder.put("clients.toml", [0xff])), true);
    assert!(matches!(bytes, Err(ClientsError::NoText(_))), "{bytes:?}");
}

/// Somebody who asks: over a Unix socket, or from an address, and with this certificate.
fn peer(address: &str, subject: Option<&str>) -> Peer {
    let certificate =
        subject.map(|name| Arc::new(Shown { sum: [7; 32], name: Some(name.to_owned()) }));
    let address: Option<IpAddr> = address.parse().ok();
    Peer { address, certificate }
}

/// Who somebody is, in a word.
fn told(sender: Result<Sender, Denied>) -> String {
    match sender {
        Ok(sender) => sender.name().unwrap_or("known").into(),
        Err(Denied::NoToken) => "no token".into(),
        Err(Denied::Unknown) => "unknown".into(),
    }
}

#[test]
fn without_lists_unix_sockets_and_certificates_are_let_in_and_this_host_if_that_is_said() {
    let (tokens, clients) = (Tokens::default(), Clients::default());
    let token = format!("Bearer {TOKEN}");
    for (address, subject, by_default, locally) in [
        ("socket", None, "known", "known"),
        ("127.0.0.1", None, "unknown", "known"),
        ("::1", None, "unknown", "known"),
        ("::ffff:127.0.0.1", None, "unknown", "known"),
        ("192.0.2.1", None, "unknown", "unknown"),
        ("2001:db8::1", None, "unknown", "unknown"),
        ("::ffff:192.0.2.1", None, "unknown", "unknown"),
        ("192.0.2.1", Some("switch-1"), "known", "known"),
    ] {
        let peer = peer(address, subject);
        for (is_local, wanted) in [(false, by_default), (true, locally)] {
            let admission = Admission { tokens: &tokens, clients: &clients, is_local };
            for field in [None, Some(token.as_bytes())] {
                assert_eq!(told(admission.sender(field, &peer)), wanted, "{peer:?} {is_local}");
            }
            let looks = admission.may_look(None, &peer).is_ok();
            assert_eq!(looks, locally == "known", "{peer:?} {is_local}");
        }
    }
}

#[test]
fn with_lists_a_token_or_a_clients_certificate_is_needed_wherever_one_comes_from() {
    let folder = Folder::new();
    let tokens = Tokens::read(Some(&folder.put("tokens", OTHER))).expect("tokens");
    let lines = "certificates = [\"cn:switch-1\"]\nblocks = [\"*\"]\nattest = \"A\"";
    let clients = read(&client("switch", TOKEN, lines)).expect("clients");
    let (none, nobody) = (Tokens::default(), Clients::default());
    // By a file of tokens alone, of clients alone, and by both.
    for (field, subject, by_tokens, by_clients, by_both) in [
        (None, None, "no token", "no token", "no token"),
        (None, Some("switch-1"), "no token", "switch", "switch"),
        (None, Some("switch-2"), "no token", "unknown", "unknown"),
        (Some("Bearer 0123456789abcdef"), None, "no token", "switch", "switch"),
        (Some("bearer  0123456789abcdef "), Some("switch-2"), "no token", "switch", "switch"),
        (Some("Bearer fedcba9876543210"), None, "known", "no token", "known"),
        (Some("Bearer fedcba9876543210"), Some("switch-1"), "known", "no token", "known"),
        (Some("Bearer 0123456789abcde"), Some("switch-1"), "no token", "no token", "no token"),
        (Some("Bearer "), None, "no token", "no token", "no token"),
        (Some("Bearer"), None, "no token", "no token", "no token"),
        (Some("Basic 0123456789abcdef"), None, "no token", "no token", "no token"),
        (Some("Bearer0123456789abcdef"), None, "no token", "no token", "no token"),
    ] {
        for address in ["socket", "127.0.0.1", "192.0.2.1"] {
            for (tokens, clients, wanted) in [
                (&tokens, &nobody, by_tokens),
                (&none, &clients, by_clients),
                (&tokens, &clients, by_both),
            ] {
                for is_local in [false, true] {
                    let admission = Admission { tokens, clients, is_local };
                    let came = admission.sender(field.map(str::as_bytes), &peer(address, subject));
                    assert_eq!(told(came), wanted, "{field:?} {subject:?} {address}");
                }
            }
        }
    }
}
