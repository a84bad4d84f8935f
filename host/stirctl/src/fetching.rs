//! The command `fetch`.

use crate::asking::{folder, runtime, Asking};
use crate::files::{lines, says_nothing, whole as whole_file};
use crate::input::{bar, whole};
use crate::sink::{Sink, STDOUT};
use crate::summary::date;
use crate::words::Fetch;
use crate::{say, Ended, Fault};
use indicatif::ProgressBar;
use std::collections::HashSet;
use std::path::Path;
use std::sync::Arc;
use stir_trust::cache::{Entry, Run, SystemClock, Times, Told};
use stir_trust::chain_map::{is_x5u, MOST_LINES};
use stir_trust::fetch::chain_of;
use stir_trust::issuers::missing;

/// The most bytes of a file of x5us, and of one of anchors.
const MOST_BYTES: u64 = 128 << 20;
const MOST_ANCHORS_BYTES: u64 = 8 << 20;

/// A certificate that ends within so many seconds is told.
const SOON: u64 = 14 * 86_400;

/// Fetches the certificates of x5us, and writes the chain map of those that are there then. The
/// status is 0 if none failed and no issuer is missing.
pub(crate) fn fetch(words: &Fetch) -> Ended {
    let Fetch { hosts, authorities, private, seconds, .. } = words;
    let (authorities, is_private, seconds) = (authorities.as_deref(), *private, *seconds);
    let asking = Asking { hosts, authorities, is_private, seconds };
    let run = Run {
        fetcher: Arc::new(asking.fetcher()?),
        folder: folder(Path::new(&words.to))?,
        clock: Arc::new(SystemClock),
        is_all: words.all,
        jobs: words.jobs,
    };
    let x5us = x5us(&words.files)?;
    let under = words.under.as_deref().map(anchors).transpose()?;
    let mut teller =
        Teller { under, told: HashSet::new(), is_good: true, bar: bar(x5us.len() as u64) };
    let there = runtime()?.block_on(run.fetch(&x5us, |x5u, what| teller.tell(x5u, what)))?;
    teller.ends(&there, run.clock.now());
    teller.bar.finish_and_clear();
    let mut out = Sink::open(STDOUT)?;
    for (x5u, _) in &there {
        out.put(|out| writeln!(out, "{x5u} {}", run.folder.file_of(x5u).display()))?;
    }
    out.commit()?;
    Ok(u8::from(!teller.is_good))
}

/// The x5us of these files, one a line.
fn x5us(files: &[String]) -> Result<Vec<String>, Fault> {
    let (mut x5us, mut seen) = (Vec::new(), HashSet::new());
    for word in files {
        let text = whole(word, MOST_BYTES)?;
        for (number, line) in lines(&text).filter(|(_, line)| !says_nothing(line)) {
            let name = if word == STDOUT { "input" } else { word };
            let x5u = std::str::from_utf8(line).ok().filter(|_| is_x5u(line));
            let x5u = x5u.ok_or_else(|| Fault::Refused(name.into(), number))?;
            if seen.insert(x5u.to_owned()) {
                x5us.push(x5u.to_owned());
            }
        }
    }
    let count = x5us.len();
    if count > MOST_LINES {
        let why = format!("{count} x5us, and a chain map has at most {MOST_LINES}");
        return Err(Fault::Words(why));
    }
    Ok(x5us)
}

/// The certificates of a file of trust anchors, in any form.
fn anchors(name: &str) -> Result<Vec<Vec<u8>>, Fault> {
    let fault = |fault: stir_trust::fetch::FormFault| Fault::Input(name.into(), fault.to_string());
    chain_of(&whole_file(name, MOST_ANCHORS_BYTES)?).map_err(fault)
}

/// Who tells what comes of each x5u.
struct Teller {
    /// The trust anchors, if they are named.
    under: Option<Vec<Vec<u8>>>,
    /// The x5us of which it was told.
    told: HashSet<String>,
    /// Whether none failed, and no issuer is missing.
    is_good: bool,
    bar: ProgressBar,
}

impl Teller {
    fn tell(&mut self, x5u: &str, what: Told) {
        self.told.insert(x5u.to_owned());
        self.bar.inc(1);
        match what {
            Told::Fetched(entry) => self.fetched(x5u, &entry),
            Told::Failed { reason, stays } => {
                self.is_good = false;
                let left = match stays {
                    Some(times) => format!("the file of {} stays", date(times.fetched).0),
                    None => "there is no file of it".into(),
                };
                self.say(&format!("{x5u}: {reason}; {left}"));
            }
        }
    }

    /// Tells whose issuers are missing, and when the first certificate ends.
    fn fetched(&mut self, x5u: &str, entry: &Entry) {
        let chain = chain_of(&entry.der).unwrap_or_default();
        match missing(&chain, self.under.as_deref()) {
            Ok(missing) => {
                self.is_good &= missing.is_empty();
                missing.iter().for_each(|issuer| self.say(&format!("{x5u}: {issuer}")));
            }
            Err(fault) => {
                self.is_good = false;
                self.say(&format!("{x5u}: {fault}"));
            }
        }
        let ends = date(entry.ends).0;
        self.say(&format!("{x5u}: fetched; the first certificate to end does so on {ends}"));
    }

    /// Tells of what wasn't fetched now that a certificate has ended, or soon ends.
    fn ends(&self, there: &[(String, Times)], now: u64) {
        let rest = there.iter().filter(|(x5u, _)| !self.told.contains(x5u));
        for (x5u, times) in rest.filter(|(_, times)| times.ends < now.saturating_add(SOON)) {
            let ends = if times.ends < now { "ended" } else { "ends" };
            self.say(&format!("{x5u}: a certificate {ends} on {}", date(times.ends).0));
        }
    }

    /// Says something beside the bar.
    fn say(&self, text: &str) {
        self.bar.suspend(|| say(text));
    }
}
