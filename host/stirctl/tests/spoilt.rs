//! Inputs that are spoilt at random end with a status, and never with a panic. The seed and the
//! count are printed; STIRCTL_SEED and STIRCTL_COUNT set them.

use clap::Parser;
use std::fs;
use std::panic::catch_unwind;
use std::path::{Path, PathBuf};
use stirctl::words::Words;

const FILES: [&str; 6] =
    ["chains.txt", "anchors.der", "table.txt", "answers.txt", "passport.der", "div.der"];

/// Numbers by a linear congruence (Knuth's MMIX), the high bits of each.
struct Random(u64);

impl Random {
    fn below(&mut self, end: usize) -> usize {
        self.0 =
            self.0.wrapping_mul(6_364_136_223_846_793_005).wrapping_add(1_442_695_040_888_963_407);
        (self.0 >> 33) as usize % end.max(1)
    }

    /// Spoils some bytes once to three times.
    fn spoil(&mut self, bytes: &mut Vec<u8>) {
        for _ in 0..=self.below(3) {
            let (at, size) = (self.below(bytes.len() + 1), self.below(64));
            let end = (at + size).min(bytes.len());
            match self.below(6) {
                0 => bytes.truncate(at),
                1 => drop(bytes.drain(at..end)),
                2 => {
                    let part = bytes[at..end].to_vec();
                    bytes.splice(at..at, part);
                }
                3 => {
                    let texts: [&[u8]; 8] = [
                        b"\n",
                        b"@",
                        b" ",
                        b"99999999999999999999",
                        b"\xff\xff\xff\xff",
                        b"\0\0\0\0",
                        b"past 1\n",
                        b"confirm 04",
                    ];
                    bytes.splice(at..end.min(at + 4), texts[self.below(8)].iter().copied());
                }
                _ if at < bytes.len() => bytes[at] ^= 1 << self.below(8),
                _ => bytes.push(self.below(256) as u8),
            }
        }
    }
}

/// A capture of these messages over UDP and IPv4, raw, as classic pcap or as pcapng.
fn capture(messages: &[Vec<u8>], is_next: bool) -> Vec<u8> {
    let mut capture = Vec::new();
    if is_next {
        capture.extend(b"\x0a\x0d\x0d\x0a\x1c\0\0\0\x4d\x3c\x2b\x1a\x01\0\0\0");
        capture.extend([0xff; 8]);
        capture.extend(b"\x1c\0\0\0");
        capture.extend(b"\x01\0\0\0\x14\0\0\0\x65\0\0\0\0\0\0\0\x14\0\0\0");
    } else {
        capture.extend(b"\xd4\xc3\xb2\xa1\x02\0\x04\0\0\0\0\0\0\0\0\0\xff\xff\0\0\x65\0\0\0");
    }
    for message in messages {
        let length = message.len() as u16 + 28;
        let mut packet = b"\x45\0\0\0\0\0\0\0\x40\x11\0\0\xc0\0\x02\x01\xc0\0\x02\x02".to_vec();
        packet[2..4].copy_from_slice(&length.to_be_bytes());
        packet.extend(b"\x13\xc4\x13\xc4");
        packet.extend((length - 20).to_be_bytes());
        packet.extend(b"\0\0");
        packet.extend(message);
        let size = (packet.len() as u32).to_le_bytes();
        let moment = 1_443_208_345_u64;
        if is_next {
            let filled = packet.len().div_ceil(4) * 4;
            let block = (filled as u32 + 32).to_le_bytes();
            let stamp = moment * 1_000_000;
            capture.extend(b"\x06\0\0\0");
            capture.extend(block);
            capture.extend(b"\0\0\0\0");
            capture.extend(((stamp >> 32) as u32).to_le_bytes());
            capture.extend((stamp as u32).to_le_bytes());
            capture.extend([size, size].concat());
            packet.resize(filled, 0);
            capture.extend(packet);
            capture.extend(block);
        } else {
            capture.extend((moment as u32).to_le_bytes());
            capture.extend(b"\0\0\0\0");
            capture.extend([size, size].concat());
            capture.extend(packet);
        }
    }
    capture
}

/// The messages of a log that is whole.
fn messages(log: &[u8]) -> Vec<Vec<u8>> {
    let (mut messages, mut rest) = (Vec::new(), log);
    while let Some(end) = rest.iter().position(|byte| *byte == b'\n') {
        let head = std::str::from_utf8(&rest[..end]).expect("a header");
        let size: usize = head.split(' ').nth(1).expect("a length").parse().expect("digits");
        messages.push(rest[end + 1..end + 1 + size].to_vec());
        rest = &rest[end + 1 + size..];
    }
    messages
}

fn examples() -> PathBuf {
    Path::new(env!("CARGO_MANIFEST_DIR")).join("../../examples")
}

/// The inputs that are spoilt: logs, and captures of their calls.
fn inputs() -> Vec<Vec<u8>> {
    let log = fs::read(examples().join("first-call/calls.log")).expect("the example");
    let calls = messages(&log);
    let state = b"past 1\nwindow 60\ncall 1\nmoment 1443208345\nend 0\n".to_vec();
    vec![capture(&calls, false), capture(&calls, true), state, log]
}

/// The words of a case in this folder.
fn words(folder: &Path, random: &mut Random) -> Vec<String> {
    let at = |name: &str| folder.join(name).display().to_string();
    let by = ["chains", "anchors", "table", "answers"].map(|name| {
        let end = if name == "anchors" { "der" } else { "txt" };
        format!("--{name}={}", at(&format!("{name}.{end}")))
    });
    let mut words = vec!["stirctl".to_owned(), "judge".to_owned(), "--jobs=1".to_owned()];
    words.extend(by);
    words.push(format!("--report={}", at("report")));
    match random.below(3) {
        0 => words.push(format!("--json={}", at("json"))),
        1 => words.push(format!("--svg={}", at("svg"))),
        _ => words.push(format!("--state={}", at("state"))),
    }
    words.push(at("input"));
    words
}

#[test]
fn spoilt_inputs_end_with_a_status() {
    let number = |name: &str, usual: u64| {
        std::env::var(name).map_or(usual, |it| it.parse().expect("a number"))
    };
    let (seed, count) = (number("STIRCTL_SEED", 1), number("STIRCTL_COUNT", 1_000));
    println!("seed {seed}, {count} cases");
    let folder = std::env::temp_dir().join(format!("stirctl-spoilt-{}", std::process::id()));
    fs::create_dir(&folder).expect("a folder");
    let inputs = inputs();
    let sources: Vec<_> = FILES
        .iter()
        .map(|name| fs::read(examples().join("files").join(name)).expect("an example"))
        .collect();
    let mut counts = [0_u64; 8];
    for case in 0..count {
        let mut random = Random(seed.wrapping_mul(1_000_003).wrapping_add(case));
        random.below(2);
        let spoilt = random.below(2 * FILES.len());
        for (number, (name, source)) in FILES.iter().zip(&sources).enumerate() {
            let mut bytes = source.clone();
            if number == spoilt {
                random.spoil(&mut bytes);
            }
            // The map's files lie in the folder.
            if *name == "chains.txt" {
                let text = String::from_utf8_lossy(&bytes)
                    .replace("examples/files", &folder.display().to_string());
                bytes = if number == spoilt { bytes } else { text.into_bytes() };
            }
            fs::write(folder.join(name), bytes).expect("a file");
        }
        let mut state = inputs[2].clone();
        if spoilt == FILES.len() {
            random.spoil(&mut state);
        }
        fs::write(folder.join("state"), state).expect("a file");
        let mut input = inputs[[0, 1, 3, 3][random.below(4)]].clone();
        if spoilt > FILES.len() {
            random.spoil(&mut input);
        }
        fs::write(folder.join("input"), input).expect("a file");
        let words = Words::parse_from(words(&folder, &mut random));
        let status = catch_unwind(|| stirctl::main(words));
        let status = status.unwrap_or_else(|_| panic!("case {case} of seed {seed} panicked"));
        assert!(matches!(status, 0 | 1 | 3 | 5), "case {case} of seed {seed}: status {status}");
        counts[usize::from(status)] += 1;
        // A report has its name exactly if it is whole.
        let report = folder.join("report");
        assert_eq!(report.exists(), status < 2, "case {case} of seed {seed}: status {status}");
        let _ = fs::remove_file(report);
    }
    println!("statuses {counts:?}");
    assert!(counts[1] > 0 && counts[5] > 0, "both kinds of cases are met: {counts:?}");
    fs::remove_dir_all(folder).expect("the folder goes");
}
