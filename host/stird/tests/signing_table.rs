//! The signing table: which calls are signed, with which keys, and what is refused of it.
mod support;

use openssl::pkey::PKey;
use openssl::symm::Cipher;
use std::os::unix::fs::PermissionsExt;
use std::path::Path;
use std::time::{Duration, Instant};
use stir::Attest;
use stir_trust::KeyFault;
use stird::files::look::Kind;
use stird::files::signing::{identity, Blocks, Call, Unsigned};
use stird::files::signing_line::BlockFault;
use stird::files::{Anchors, Codes, FileFault, Sources, Why};
use support::{as_another_user, fifo, Authority, Certificate, Folder, NOW, VALID};

const ORIGID: &str = "123e4567-e89b-12d3-a456-426655440000";

/// A signing table over two leaves: `code`, whose code has the numbers from 12000010000 on, and
/// `range`, which has 1,000 from 12000020000 on itself.
struct Signing {
    folder: Folder,
    middle: Certificate,
}

impl Signing {
    fn new() -> Signing {
        let folder = Folder::new();
        let middle = Certificate::authority("middle", None);
        folder.put("table.txt", "709J 12000010000 10000\n");
        let signing = Signing { folder, middle };
        signing.put("code", VALID, &Authority::Code("709J"));
        signing.put("range", VALID, &Authority::Numbers("12000020000", 1000));
        signing
    }

    /// Puts a leaf and its key in place.
    fn put(&self, name: &str, valid: (i64, i64), authority: &Authority) -> Certificate {
        let leaf = self.middle.leaf(name, valid, authority);
        self.folder.put(&format!("{name}.der"), [leaf.der(), self.middle.der()].concat());
        let path = self.folder.put(&format!("{name}.pem"), leaf.pem());
        chmod(&path, 0o600);
        leaf
    }

    fn line(&self, first: &str, count: u64, attest: &str, name: &str) -> String {
        let path = |end| self.folder.path(&format!("{name}.{end}")).display().to_string();
        let (key, chain) = (path("pem"), path("der"));
        format!("{first} {count} {attest} {key} {chain} {}\n", x5u(name))
    }

    fn sources(&self) -> Sources {
        Sources {
            rules: stir::Settings::default(),
            chains: Some("no-map".into()),
            anchors: Anchors::Der("no-anchors".into()),
            table: Some(self.folder.path("table.txt")),
            codes: Codes::Listed,
            signing: Some(self.folder.path("blocks.txt")),
        }
    }

    /// The blocks of these lines.
    fn read(&self, lines: &str) -> Result<Blocks, FileFault> {
        self.folder.put("blocks.txt", lines);
        Blocks::read(&self.sources(), None)
    }

    /// Why these lines are refused, at which line.
    fn refused(&self, lines: &str) -> (Option<usize>, Why) {
        let fault = self.read(lines).err().expect("they are refused");
        assert_eq!(fault.file, Some(self.folder.path("blocks.txt")), "{fault}");
        (fault.line, fault.why)
    }

    /// Why a line of the leaf `code` is refused.
    fn block_fault(&self) -> BlockFault {
        match self.refused(&self.line("12000010000", 10, "A", "code")) {
            (Some(1), Why::Block(fault)) => fault,
            other => panic!("{other:?}"),
        }
    }
}

fn x5u(name: &str) -> String {
    format!("https://certificates.example.org/{name}.cer")
}

fn chmod(path: &Path, mode: u32) {
    std::fs::set_permissions(path, std::fs::Permissions::from_mode(mode)).expect("changed");
}

fn second(time: i64) -> u64 {
    u64::try_from(time).expect("after 1970")
}

fn invite(orig: &str) -> Vec<u8> {
    format!(
        "INVITE sip:+13105550100@a.example;user=phone SIP/2.0\r\nVia: SIP/2.0/TCP a.example\r\n\
         Max-Forwards: 70\r\nFrom: <sip:+{orig}@a.example;user=phone>;tag=a\r\n\
         To: <sip:+13105550100@a.example;user=phone>\r\nCall-ID: a\r\nCSeq: 1 INVITE\r\n\
         Content-Length: 0\r\n\r\n"
    )
    .into_bytes()
}

fn sign(
    blocks: &Blocks,
    orig: &str,
    attest: impl Into<Option<Attest>>,
    iat: i64,
) -> Result<Vec<u8>, Unsigned> {
    let (message, attest, most) = (invite(orig), attest.into(), Attest::A);
    blocks.sign(&Call { orig, message: &message, iat: second(iat), origid: ORIGID, attest, most })
}

/// The attestation in the payload of a PASSporT.
fn attested(message: &[u8]) -> String {
    let field = identity(message).expect("an Identity field");
    let payload = field.split('.').nth(1).expect("a payload").to_owned();
    let padded = payload.replace('-', "+").replace('_', "/");
    let padded = format!("{padded}{}", "=".repeat((4 - padded.len() % 4) % 4));
    let json = openssl::base64::decode_block(&padded).expect("base64");
    let text = String::from_utf8(json).expect("text");
    let (_, rest) = text.split_once("\"attest\":\"").expect("an attestation");
    rest.chars().take(1).collect()
}

#[test]
fn the_first_block_of_a_number_signs_for_it_and_nothing_else_does() {
    let signing = Signing::new();
    let lines = [
        "; first count attest key certificates x5u\n\n".to_owned(),
        signing.line("12000010000", 10, "A", "code"),
        signing.line("12000010005", 10, "B", "code"),
        signing.line("12000020000", 1000, "C", "range"),
    ];
    let blocks = signing.read(&lines.concat()).expect("a table");
    assert_eq!(blocks.count(), 3);
    for (orig, asked, given) in [
        ("12000010000", Attest::A, "A"),
        ("12000010009", Attest::A, "A"),
        ("12000010009", Attest::B, "B"),
        ("12000010010", Attest::A, "B"),
        ("12000010014", Attest::C, "C"),
        ("12000020999", Attest::A, "C"),
    ] {
        let signed = sign(&blocks, orig, asked, NOW).expect(orig);
        assert_eq!(attested(&signed), given, "{orig}");
    }
    for orig in ["12000009999", "12000010015", "12000019999", "12000021000", "", "x"] {
        assert_eq!(sign(&blocks, orig, Attest::C, NOW), Err(Unsigned::NotOurs), "{orig:?}");
    }
}

/// A line with a block of numbers.
fn of_block(signing: &Signing, block: &str, attest: &str, name: &str) -> String {
    signing.line(block, 1, attest, name).replacen(" 1 ", " ", 1)
}

#[test]
fn of_blocks_by_text_the_most_special_decides_and_exceptions_are_of_them() {
    let signing = Signing::new();
    let lines = [
        of_block(&signing, "1200001xxxx", "A", "code"),
        signing.line("12000010000", 10000, "C", "code"),
        "!12000010007\n".to_owned(),
        of_block(&signing, "1200001000x", "B", "code"),
        "!120000102xx\n".to_owned(),
        of_block(&signing, "12000010250", "B", "code"),
        signing.line("12000020000", 10, "C", "range"),
        signing.line("12000020000", 10, "A", "range"),
        "!12000020001-12000020002\n".to_owned(),
    ];
    for turn in [0, 4, 6] {
        let mut turned = lines.clone();
        turned[..6].rotate_left(turn % 6);
        let blocks = signing.read(&turned.concat()).expect("a table");
        assert_eq!(blocks.count(), 6, "exceptions are no blocks");
        for (orig, given) in [
            ("12000010000", Some("B")),
            ("12000010007", None),
            ("12000010009", Some("B")),
            ("12000010010", Some("A")),
            ("12000010200", None),
            ("12000010250", Some("B")),
            ("12000010299", None),
            ("12000019999", Some("A")),
            ("12000020000", Some("C")),
            ("12000020001", None),
            ("12000020003", Some("C")),
            ("12000020010", None),
            ("120000100000", None),
            ("1200001000", None),
        ] {
            let signed = sign(&blocks, orig, Attest::A, NOW).map(|message| attested(&message));
            assert_eq!(signed, given.map(String::from).ok_or(Unsigned::NotOurs), "{orig}, {turn}");
        }
    }
    let twice = of_block(&signing, "1200001000x", "B", "code");
    let fault = signing.refused(&format!("; blocks\n{twice}\n{twice}"));
    assert_eq!(fault, (Some(4), Why::Block(BlockFault::Ambiguous(2))));
    let uncovered = of_block(&signing, "120000210xx", "A", "range");
    let fault = BlockFault::Uncovered { x5u: x5u("range"), number: 12_000_021_000 };
    assert_eq!(signing.refused(&uncovered), (Some(1), Why::Block(fault)));
}

#[test]
fn who_may_have_no_higher_attestation_gets_none() {
    let signing = Signing::new();
    let said = |line: String| line.replace('\n', " A\n");
    let blocks = [
        said(signing.line("12000010000", 10, "A", "code")),
        signing.line("12000010010", 10, "B", "code"),
    ];
    let blocks = signing.read(&blocks.concat()).expect("a table");
    for (orig, attest, most, given) in [
        ("12000010000", Some(Attest::A), Attest::A, Ok("A")),
        ("12000010000", Some(Attest::A), Attest::B, Ok("B")),
        ("12000010000", Some(Attest::C), Attest::B, Ok("C")),
        ("12000010000", None, Attest::C, Ok("C")),
        ("12000010010", Some(Attest::A), Attest::A, Ok("B")),
        ("12000010010", Some(Attest::A), Attest::C, Ok("C")),
        ("12000010010", None, Attest::C, Err(Unsigned::NoAttest)),
    ] {
        let message = invite(orig);
        let iat = second(NOW);
        let call = Call { orig, message: &message, iat, origid: ORIGID, attest, most };
        let signed = blocks.sign(&call).map(|message| attested(&message));
        assert_eq!(signed, given.map(String::from), "{orig} {attest:?} {most:?}");
    }
}

#[test]
fn without_a_word_on_it_a_request_gets_what_the_block_says_for_that_or_nothing() {
    let signing = Signing::new();
    let said = |line: String, unasked| line.replace('\n', &format!(" {unasked}\n"));
    let lines = [
        signing.line("12000010000", 10, "A", "code"),
        said(signing.line("12000010010", 10, "A", "code"), "C"),
        said(signing.line("12000010020", 10, "A", "code"), "A"),
        said(signing.line("12000010030", 10, "B", "code"), "B"),
    ];
    let blocks = signing.read(&lines.concat()).expect("a table");
    for (orig, asked, given) in [
        ("12000010000", None, Err(Unsigned::NoAttest)),
        ("12000010000", Some(Attest::A), Ok("A")),
        ("12000010010", None, Ok("C")),
        ("12000010010", Some(Attest::A), Ok("A")),
        ("12000010020", None, Ok("A")),
        ("12000010020", Some(Attest::C), Ok("C")),
        ("12000010030", None, Ok("B")),
        ("12000010030", Some(Attest::A), Ok("B")),
        ("12000010040", None, Err(Unsigned::NotOurs)),
    ] {
        let signed = sign(&blocks, orig, asked, NOW).map(|message| attested(&message));
        assert_eq!(signed, given.map(String::from), "{orig} {asked:?}");
    }
    let better = said(signing.line("12000010000", 10, "B", "code"), "A");
    assert_eq!(signing.refused(&better), (Some(1), Why::Block(BlockFault::NoUnasked)));
}

#[test]
fn a_certificate_is_named_in_its_last_day_and_signs_until_its_last_second() {
    let signing = Signing::new();
    let blocks = signing.read(&signing.line("12000010000", 10, "A", "code")).expect("a table");
    const DAY: i64 = 86_400;
    for (before, is_told) in [(DAY + 1, false), (DAY, false), (DAY - 1, true), (1, true), (0, true)]
    {
        let time = VALID.1 - before;
        let told = blocks.warnings(second(time));
        let line = format!("{}: its certificate ends within a day", x5u("code"));
        assert_eq!(told.contains(&line), is_told, "{before}: {told:?}");
        let note = format!("signing: the certificate of {} ends in a day", x5u("code"));
        assert_eq!(blocks.notes(second(time)).contains(&note), is_told, "{before}");
        assert!(sign(&blocks, "12000010000", Attest::A, time).is_ok(), "{before}");
    }
    let told = blocks.notes(second(VALID.1 + 1));
    assert_eq!(told, [format!("signing: {} isn't valid now", x5u("code"))]);
}

#[test]
fn an_encrypted_key_is_opened_by_the_first_line_of_the_file_beside_it() {
    let signing = Signing::new();
    let line = signing.line("12000010000", 10, "A", "code");
    let own = PKey::private_key_from_pem(&std::fs::read(signing.folder.path("code.pem")).unwrap());
    let locked =
        own.expect("a key").private_key_to_pem_pkcs8_passphrase(Cipher::aes_256_cbc(), b"word");
    chmod(&signing.folder.put("code.pem", locked.expect("PEM")), 0o600);
    for (password, is_taken) in [
        (&b"word"[..], true),
        (b"word\n", true),
        (b"word\r\nmore", true),
        (b"", false),
        (b"\nword", false),
        (b"words", false),
    ] {
        chmod(&signing.folder.put("code.pem.password", password), 0o600);
        let came = signing.read(&line).map(|blocks| blocks.warnings(second(NOW)));
        match came {
            Ok(told) => assert!(is_taken && told.is_empty(), "{password:?}: {told:?}"),
            Err(fault) => {
                let Why::Block(BlockFault::Key { fault, .. }) = fault.why else {
                    panic!("{fault}")
                };
                assert_eq!((is_taken, fault), (false, KeyFault::OtherPassphrase), "{password:?}");
            }
        }
    }
}

#[test]
fn a_number_is_found_by_its_text_and_not_by_its_value() {
    let signing = Signing::new();
    for attest in ["A", "B", "C"] {
        let blocks = signing.read(&signing.line("12000010000", 100, attest, "code")).expect("one");
        for orig in ["0012000010005", "012000010005", "00000000012000010005"] {
            for asked in [Attest::A, Attest::B, Attest::C] {
                assert_eq!(sign(&blocks, orig, asked, NOW), Err(Unsigned::NotOurs), "{orig}");
            }
        }
        assert!(sign(&blocks, "12000010005", Attest::C, NOW).is_ok());
    }
}

#[test]
fn a_certificate_signs_from_its_first_second_to_its_last_and_is_named_before_and_after() {
    let signing = Signing::new();
    let blocks = signing.read(&signing.line("12000010000", 10, "A", "code")).expect("a table");
    let at = |time| sign(&blocks, "12000010000", Attest::A, time).map(|_| ());
    let named = |time| blocks.not_valid(second(time)).into_iter().map(String::from).collect();
    let none: Vec<String> = Vec::new();
    for (time, came, told) in [
        (VALID.0 - 1, Err(Unsigned::NotValid), vec![x5u("code")]),
        (VALID.0, Ok(()), none.clone()),
        (VALID.1, Ok(()), none.clone()),
        (VALID.1 + 1, Err(Unsigned::NotValid), vec![x5u("code")]),
    ] {
        assert_eq!((at(time), named(time)), (came, told), "{}", time - VALID.0);
    }
    let told = blocks.warnings(second(VALID.1 + 1));
    assert_eq!(told.len(), 1, "{told:?}");
    assert!(told[0].starts_with(&format!("{}: not valid now", x5u("code"))), "{told:?}");
    assert_eq!(blocks.warnings(second(NOW)), none);
    // One that had ended before the start is taken, named and doesn't sign; a reload too.
    signing.put("code", (NOW - 200 * 86_400, NOW - 100 * 86_400), &Authority::Code("709J"));
    assert!(blocks.is_stale());
    let blocks = Blocks::read(&signing.sources(), Some(&blocks)).expect("a table");
    assert_eq!(blocks.warnings(second(NOW)).len(), 1);
    assert_eq!(sign(&blocks, "12000010000", Attest::A, NOW), Err(Unsigned::NotValid));
}

#[test]
fn a_key_that_others_may_read_is_warned_of() {
    let signing = Signing::new();
    let lines = signing.line("12000010000", 10, "A", "code");
    let path = signing.folder.path("code.pem");
    for (mode, is_open) in [
        (0o600, false),
        (0o400, false),
        (0o440, false),
        (0o644, true),
        (0o604, true),
        (0o602, true),
        (0o620, true),
        (0o666, true),
    ] {
        chmod(&path, mode);
        let told = signing.read(&lines).expect("a table").warnings(second(NOW));
        let is_told = told.iter().any(|line| line.starts_with(&path.display().to_string()));
        assert_eq!((told.len(), is_told), (usize::from(is_open), is_open), "{mode:o}: {told:?}");
    }
}

#[test]
fn a_key_that_isnt_taken_is_refused_by_its_cause() {
    let signing = Signing::new();
    let (key, chain) = (signing.folder.path("code.pem"), signing.folder.path("code.der"));
    let good = std::fs::read(&key).expect("a key");
    let of_key = |fault| BlockFault::Key { file: key.clone(), fault };
    // An encrypted one is refused, and nobody is asked for a passphrase.
    let own = PKey::private_key_from_pem(&good).expect("a key");
    let locked = own.private_key_to_pem_pkcs8_passphrase(Cipher::aes_256_cbc(), b"word");
    signing.folder.put("code.pem", locked.expect("PEM"));
    assert_eq!(signing.block_fault(), of_key(KeyFault::Encrypted));
    let locked = own.ec_key().expect("a key");
    let locked = locked.private_key_to_pem_passphrase(Cipher::aes_256_cbc(), b"word");
    signing.folder.put("code.pem", locked.expect("PEM"));
    assert_eq!(signing.block_fault(), of_key(KeyFault::Encrypted));
    for bytes in [&b""[..], b"no key", &good[..60], &signing.middle.der()] {
        signing.folder.put("code.pem", bytes);
        assert_eq!(signing.block_fault(), of_key(KeyFault::NoKey));
    }
    signing.folder.put("code.pem", signing.middle.pem());
    let other = BlockFault::OtherKey { key: key.clone(), certificates: chain.clone() };
    assert_eq!(signing.block_fault(), other);
    signing.folder.put("code.pem", &good);
    signing.folder.put("code.der", "no certificates");
    assert_eq!(signing.block_fault(), BlockFault::NoChain { file: chain });
}

#[test]
fn a_block_that_its_certificate_doesnt_cover_is_refused_with_its_line() {
    let signing = Signing::new();
    let code = signing.line("12000010000", 10, "A", "code");
    for (line, number) in [
        (signing.line("12000020000", 1001, "A", "range"), 12_000_021_000),
        (signing.line("12000019999", 2, "A", "range"), 12_000_019_999),
        (signing.line("12000019999", 2, "A", "code"), 12_000_020_000),
        (signing.line("13105550100", 1, "A", "code"), 13_105_550_100),
    ] {
        let x5u = x5u(if line.contains("code.pem") { "code" } else { "range" });
        let fault = Why::Block(BlockFault::Uncovered { x5u, number });
        assert_eq!(signing.refused(&format!("; blocks\n{code}\n{line}")), (Some(4), fault));
    }
    let words = Why::Block(BlockFault::Words);
    assert_eq!(signing.refused(&format!("{code}one two\n")), (Some(2), words));
}

#[test]
fn what_is_no_file_holds_nobody_up() {
    let signing = Signing::new();
    let line = signing.line("12000010000", 10, "A", "code");
    let begin = Instant::now();
    for name in ["code.pem", "code.der", "table.txt", "blocks.txt"] {
        signing.folder.put("blocks.txt", &line);
        let (path, kept) = (signing.folder.path(name), signing.folder.path("kept"));
        std::fs::rename(&path, &kept).expect("moved");
        let told = |wanted: &str| {
            let fault = Blocks::read(&signing.sources(), None).err().expect("it is refused");
            let text = fault.to_string();
            assert!(text.contains(name) && text.contains(wanted), "{text}");
        };
        told(&Why::Missing.to_string());
        fifo(&path);
        told(&Why::NoFile(Kind::Fifo).to_string());
        std::fs::remove_file(&path).expect("removed");
        std::fs::create_dir(&path).expect("a folder");
        told(&Why::NoFile(Kind::Folder).to_string());
        std::fs::remove_dir(&path).expect("removed");
        std::fs::rename(&kept, &path).expect("moved back");
    }
    assert!(Blocks::read(&signing.sources(), None).is_ok());
    assert!(begin.elapsed() < Duration::from_secs(10), "{:?}", begin.elapsed());
}

#[test]
fn a_key_without_permission_is_named() {
    if as_another_user("a_key_without_permission_is_named") {
        return;
    }
    let signing = Signing::new();
    chmod(&signing.folder.path("code.pem"), 0);
    let fault = signing.block_fault();
    assert!(fault.to_string().contains("code.pem: Permission denied"), "{fault}");
}

#[test]
fn a_table_that_is_refused_at_a_reload_isnt_read_again_until_something_changes() {
    let signing = Signing::new();
    let good = signing.line("12000010000", 10, "A", "code");
    let mut blocks = signing.read(&good).expect("a table");
    let rest = || std::thread::sleep(Duration::from_millis(60));
    rest();
    blocks = Blocks::read(&signing.sources(), Some(&blocks)).expect("a table");
    assert!(!blocks.is_stale());
    signing.folder.put("blocks.txt", format!("{good}one two\n"));
    rest();
    assert!(blocks.is_stale());
    assert!(Blocks::read(&signing.sources(), Some(&blocks)).is_err());
    assert!(!blocks.is_stale(), "it is told once");
    assert!(sign(&blocks, "12000010000", Attest::A, NOW).is_ok(), "what was stays");
    signing.folder.put("blocks.txt", format!("{good}{good}"));
    rest();
    assert!(blocks.is_stale());
    blocks = Blocks::read(&signing.sources(), Some(&blocks)).expect("a table");
    assert_eq!((blocks.count(), blocks.is_stale()), (2, false));
    // A file that can't be read is tried again each time.
    std::fs::remove_file(signing.folder.path("code.pem")).expect("removed");
    assert!(Blocks::read(&signing.sources(), Some(&blocks)).is_err());
    assert!(blocks.is_stale());
}

#[test]
fn without_a_table_nothing_is_signed() {
    let signing = Signing::new();
    let sources = Sources { signing: None, ..signing.sources() };
    let blocks = Blocks::read(&sources, None).expect("no table");
    assert_eq!((blocks.count(), blocks.is_stale()), (0, false));
    assert_eq!(sign(&blocks, "12000010000", Attest::C, NOW), Err(Unsigned::NotOurs));
}

#[test]
fn a_thousand_spoilt_tables_keys_and_certificates_end_nothing() {
    let signing = Signing::new();
    let line = signing.line("12000010000", 10, "A", "code");
    signing.folder.put("blocks.txt", &line);
    let names = ["blocks.txt", "code.pem", "code.der", "table.txt"];
    let good = names.map(|name| std::fs::read(signing.folder.path(name)).expect("it is there"));
    let seed = 20_261_202;
    println!("the seed is {seed}");
    let mut dice = support::Dice(seed);
    let blocks = Blocks::read(&signing.sources(), None).expect("a table");
    let mut refused = [0; 4];
    for round in 0..1000 {
        let kind = round % 4;
        signing.folder.put(names[kind], dice.spoilt(&good[kind]));
        let before = (round % 8 < 4).then_some(&blocks);
        refused[kind] += usize::from(Blocks::read(&signing.sources(), before).is_err());
        signing.folder.put(names[kind], &good[kind]);
    }
    assert!(refused.iter().all(|count| *count > 20), "{refused:?}");
    let blocks = Blocks::read(&signing.sources(), Some(&blocks)).expect("a table");
    assert!(sign(&blocks, "12000010000", Attest::A, NOW).is_ok());
}
