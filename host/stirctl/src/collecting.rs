//! The command `collect`: the calls that agents of capture send by HEP3, as they come.

use crate::capture::{key_of, How, Repeats, Sieve, NANOSECONDS};
use crate::collector::{self, Event, Lost};
use crate::hep::{self, Captured};
use crate::log::{LAST_MOMENT, LONGEST_MESSAGE};
use crate::sink::{Sink, STDOUT};
use crate::words::Collect;
use crate::{say, Ended, Fault};
use openssl::memcmp;
use serde::Serialize;
use std::time::{Duration, Instant};

/// It is told at most so often that packets are left out.
const TOLD: Duration = Duration::from_secs(60);

/// Writes the calls that come, until it is told to end. The status is 0 then.
pub(crate) fn collect(words: &Collect) -> Ended {
    let password = words.password.as_deref().map(read_password).transpose()?;
    let how = How { initial: words.initial, as_is: words.as_is, is_quiet: false };
    let out = Sink::open(STDOUT)?;
    let mut kept = Kept {
        sieve: Sieve::new(how)?,
        repeats: Repeats::default(),
        is_log: words.log,
        password,
        out,
        calls: 0,
        latest: 0,
        repeated: 0,
        spoilt: 0,
        strangers: 0,
    };
    let (take, lost) = collector::start(&words.hep)?;
    let mut told = Instant::now();
    while let Ok(Event::Packet(packet)) = take.recv() {
        kept.take(&packet)?;
        for event in take.try_iter() {
            match event {
                Event::Packet(packet) => kept.take(&packet)?,
                Event::End => return kept.end(&lost),
            }
        }
        kept.out.put(|out| out.flush())?;
        if told.elapsed() >= TOLD {
            told = Instant::now();
            say(&kept.said(&lost));
        }
    }
    kept.end(&lost)
}

fn read_password(name: &str) -> Result<Vec<u8>, Fault> {
    let mut password = crate::files::whole(name, 1_024)?;
    if password.last() == Some(&b'\n') {
        password.pop();
    }
    Ok(password)
}

/// A call as a line.
#[derive(Serialize)]
struct Call<'a> {
    moment: u64,
    #[serde(skip_serializing_if = "Option::is_none")]
    source: Option<String>,
    #[serde(skip_serializing_if = "Option::is_none")]
    message: Option<&'a str>,
    #[serde(skip_serializing_if = "Option::is_none")]
    message_base64: Option<String>,
}

/// What is known of the packets that came.
struct Kept {
    sieve: Sieve,
    repeats: Repeats,
    /// Whether a call log is written, and not lines.
    is_log: bool,
    /// What packets have to have.
    password: Option<Vec<u8>>,
    out: Sink,
    calls: u64,
    /// The moment of the last call of a log.
    latest: u64,
    repeated: u64,
    spoilt: u64,
    strangers: u64,
}

impl Kept {
    fn take(&mut self, packet: &[u8]) -> Result<(), Fault> {
        match hep::read(packet) {
            Err(_) => self.spoilt += 1,
            Ok(None) => self.sieve.counts.others += 1,
            Ok(Some(captured)) if !self.is_known(&captured) => self.strangers += 1,
            Ok(Some(captured)) => self.call(&captured)?,
        }
        Ok(())
    }

    /// Whether its agent is one that may send.
    fn is_known(&self, captured: &Captured) -> bool {
        match (&self.password, &captured.password) {
            (None, _) => true,
            (Some(wanted), Some(given)) => wanted.len() == given.len() && memcmp::eq(wanted, given),
            (Some(_), None) => false,
        }
    }

    fn call(&mut self, captured: &Captured) -> Result<(), Fault> {
        let moment = captured.moment.min(LAST_MOMENT);
        let Some(call) = self.sieve.call(moment, &captured.message)? else { return Ok(()) };
        if call.len() as u64 > LONGEST_MESSAGE {
            self.spoilt += 1;
            return Ok(());
        }
        let source = captured.source.map(|source| source.to_string());
        let key = key_of(source.as_deref().unwrap_or_default().as_bytes(), &call);
        if !self.repeats.is_first(moment * NANOSECONDS, key) {
            self.repeated += 1;
            return Ok(());
        }
        self.calls += 1;
        if self.is_log {
            // A log's moments never fall, and two agents may tell of their calls by turns.
            self.latest = self.latest.max(moment);
            let latest = self.latest;
            return self.out.put(|out| {
                writeln!(out, "@{latest} {}", call.len())?;
                out.write_all(&call)
            });
        }
        let message = std::str::from_utf8(&call).ok();
        let encoded = message.is_none().then(|| openssl::base64::encode_block(&call));
        let line = Call { moment, source, message, message_base64: encoded };
        self.out.put(|out| {
            serde_json::to_writer(&mut *out, &line)?;
            out.write_all(b"\n")
        })
    }

    fn said(&self, lost: &Lost) -> String {
        let others = [
            ("packets that are none of HEP3", self.spoilt),
            ("packets without the password", self.strangers),
            ("packets that had no place", lost.count()),
        ];
        self.sieve.said(self.calls, self.repeated, &others)
    }

    fn end(self, lost: &Lost) -> Ended {
        say(&self.said(lost));
        self.out.commit()?;
        Ok(0)
    }
}
