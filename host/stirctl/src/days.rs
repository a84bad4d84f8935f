//! The command `day`: the logs of a folder judged one after another, each with the state of the one
//! before, so that together they are judged as one.

use crate::judging::judge;
use crate::state::BEGINS;
use crate::verdict::Verdict;
use crate::words::trust::RevokedBy;
use crate::words::{self, By, Day, To};
use crate::{say, Ended, Fault};
use rustix::fs::{flock, FlockOperation};
use std::fs::{self, File};
use std::io::{BufRead, BufReader};
use std::path::{Path, PathBuf};

/// The endings of a log's name and of its report's.
const LOG: &str = "log";
const REPORT: &str = "report";

/// The longest line of a report.
const LONGEST_LINE: usize = 1_024;

/// The file whose lock a run holds, and the state before the first log, which is empty.
const LOCK: &str = ".lock";
const FIRST: &str = ".first";

/// What stands in place of a log's name, without its ending, in the names of files.
const NAME: &str = "{}";

/// Judges the logs that have no report yet. The status is 0 if all calls of all are valid.
pub(crate) fn day(words: &Day) -> Ended {
    let to = Path::new(&words.to);
    let logs = logs_in(Path::new(&words.logs))?;
    fs::create_dir_all(to).map_err(|error| failed(to, &error))?;
    let _held = lock(to)?;
    let reports: Vec<PathBuf> = logs.iter().map(|log| report_of(log, to)).collect();
    let done = done_of(&logs, &reports)?;
    remove_left(to, &reports)?;
    let mut state = to.join(FIRST);
    File::create(&state).map_err(|error| failed(&state, &error))?;
    for (number, (log, report)) in logs.iter().zip(&reports).enumerate() {
        if number >= done {
            judge(&words_for(words, log, &state, report))?;
            say(&format!("{}: judged", last_name(log)));
        }
        state.clone_from(report);
    }
    for report in &reports {
        if has_refused(report)? {
            return Ok(1);
        }
    }
    Ok(0)
}

/// The logs of a folder, in the order of their names.
fn logs_in(folder: &Path) -> Result<Vec<PathBuf>, Fault> {
    let name = || folder.display().to_string();
    let found = fs::read_dir(folder).map_err(|error| match error.kind() {
        std::io::ErrorKind::NotFound => Fault::Missing(name()),
        _ => Fault::Read(name()),
    })?;
    let mut logs = Vec::new();
    for entry in found {
        let path = entry.map_err(|_| Fault::Read(name()))?.path();
        if path.extension().is_some_and(|ending| ending == LOG) {
            if path.to_str().is_none() {
                return Err(Fault::Words(format!("{}: a name that isn't UTF-8", path.display())));
            }
            logs.push(path);
        }
    }
    logs.sort();
    if logs.is_empty() {
        return Err(Fault::Words(format!("{}: no file ends with .{LOG}", name())));
    }
    Ok(logs)
}

fn report_of(log: &Path, to: &Path) -> PathBuf {
    to.join(format!("{}.{REPORT}", stem(log)))
}

/// A log's name without its ending.
fn stem(log: &Path) -> String {
    log.file_stem().unwrap_or_default().to_string_lossy().into_owned()
}

fn last_name(path: &Path) -> String {
    path.file_name().unwrap_or_default().to_string_lossy().into_owned()
}

/// Holds the lock of a folder of reports: two runs would write one state twice.
fn lock(to: &Path) -> Result<File, Fault> {
    let path = to.join(LOCK);
    let file = File::create(&path).map_err(|error| failed(&path, &error))?;
    match flock(&file, FlockOperation::NonBlockingLockExclusive) {
        Ok(()) => Ok(file),
        Err(_) => {
            Err(Fault::Words(format!("{}: another run writes its reports there", to.display())))
        }
    }
}

/// How many of the logs, from the first on, have a report. No later one may have one.
fn done_of(logs: &[PathBuf], reports: &[PathBuf]) -> Result<usize, Fault> {
    let done = reports.iter().take_while(|report| report.exists()).count();
    match (reports.iter().skip(done).find(|report| report.exists()), logs.get(done)) {
        (Some(later), Some(log)) => Err(Fault::Words(format!(
            "{}: there is no report of the log before, {}",
            later.display(),
            last_name(log)
        ))),
        _ => Ok(done),
    }
}

/// Takes away what runs that were killed have left half written.
fn remove_left(to: &Path, reports: &[PathBuf]) -> Result<(), Fault> {
    let names: Vec<String> = reports.iter().map(|report| last_name(report)).collect();
    for entry in fs::read_dir(to).map_err(|error| failed(to, &error))? {
        let path = entry.map_err(|error| failed(to, &error))?.path();
        let name = last_name(&path);
        if unfinished(&name).is_some_and(|of| names.iter().any(|report| report == of)) {
            fs::remove_file(&path).map_err(|error| failed(&path, &error))?;
        }
    }
    Ok(())
}

/// The report of which a file is the unfinished one: `.NAME.report.PROCESS.new` is written beside
/// it until it is whole. The program `stir-day` of before wrote to `NAME.report.new`.
fn unfinished(name: &str) -> Option<&str> {
    let name = name.strip_suffix(".new")?;
    match name.strip_prefix('.') {
        Some(hidden) => hidden.rsplit_once('.').map(|(report, _)| report),
        None => Some(name),
    }
}

/// The words by which a log is judged after a state.
fn words_for(words: &Day, log: &Path, state: &Path, report: &Path) -> words::Judge {
    let text = |path: &Path| path.to_string_lossy().into_owned();
    let to = To { report: Some(text(report)), ..To::default() };
    words::Judge {
        stream: false,
        by: by_for(&words.by, &stem(log)),
        to,
        pool: words.pool.clone(),
        state: Some(text(state)),
        checked_by: words.checked_by.clone(),
        chains_out: None,
        table_out: None,
        initial: false,
        as_is: false,
        inputs: vec![text(log)],
    }
}

/// What the calls of the log of this name are judged by.
fn by_for(by: &By, name: &str) -> By {
    let named = |file: &Option<String>| file.as_ref().map(|file| file.replace(NAME, name));
    let all = |files: &[String]| files.iter().map(|file| file.replace(NAME, name)).collect();
    By {
        roots: named(&by.roots),
        anchors: named(&by.anchors),
        chains: named(&by.chains),
        table: named(&by.table),
        answers: named(&by.answers),
        revoked: RevokedBy { crl: all(&by.revoked.crl), crl_signer: all(&by.revoked.crl_signer) },
        ..by.clone()
    }
}

/// Whether some call of a report isn't valid. The report ends where its state begins.
fn has_refused(report: &Path) -> Result<bool, Fault> {
    let name = || report.display().to_string();
    let mut lines = BufReader::new(File::open(report).map_err(|_| Fault::Read(name()))?);
    let mut line = Vec::new();
    loop {
        line.clear();
        let bounded = &mut std::io::Read::take(&mut lines, LONGEST_LINE as u64);
        bounded.read_until(b'\n', &mut line).map_err(|_| Fault::Read(name()))?;
        let text = line.strip_suffix(b"\n");
        match text.and_then(Verdict::read) {
            Some((_, Verdict::Valid)) => {}
            Some(_) => return Ok(true),
            None if text == Some(BEGINS) => return Ok(false),
            None => return Err(Fault::Input(name(), "no report with a state".into())),
        }
    }
}

fn failed(path: &Path, error: &std::io::Error) -> Fault {
    Fault::write(&path.display().to_string(), error)
}

#[cfg(test)]
mod tests {
    use super::unfinished;

    #[test]
    fn unfinished_reports_are_known_by_their_names() {
        for (name, report) in [
            (".05.report.4711.new", Some("05.report")),
            (".a.b.report.1.new", Some("a.b.report")),
            ("05.report.new", Some("05.report")),
            ("05.report", None),
            (".lock", None),
            (".new", Some("")),
        ] {
            assert_eq!(unfinished(name), report, "{name}");
        }
    }
}
