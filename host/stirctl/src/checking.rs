//! A run checked by the proved program: it judges the same log by the same files and by the answers
//! that were made, and its report has to have the same bytes.

use crate::files::push_hex;
use crate::input::Source;
use crate::judge::Judge;
use crate::outputs::Outputs;
use crate::sink::Sink;
use crate::words::By;
use crate::Fault;
use std::fs::{self, File, OpenOptions};
use std::io::{self, BufWriter, Read, Write};
use std::path::{Path, PathBuf};
use std::process::{Command, Stdio};

/// What the program is given and what it writes, in a folder that goes in the end.
#[derive(Debug)]
pub(crate) struct Check {
    program: String,
    folder: PathBuf,
}

/// Why a run can't be checked: an answers file holds for the whole log.
const BETWEEN: &str = "it can't be checked: a certificate was revoked between two calls that \
                       name it; cut the log there";

/// The names of the files in the folder.
const LOG: &str = "log";
const OURS: &str = "report";
const THEIRS: &str = "checked";

impl Check {
    /// A check by this program.
    pub fn new(program: &str) -> Result<Check, Fault> {
        let name = format!("stirctl-check-{}", std::process::id());
        let folder = std::env::temp_dir().join(name);
        fs::create_dir(&folder).map_err(failed)?;
        let check = Check { program: program.into(), folder };
        File::create(check.at(LOG)).map_err(failed)?;
        Ok(check)
    }

    fn at(&self, name: &str) -> PathBuf {
        self.folder.join(name)
    }

    /// Where a second report is written.
    pub fn report(&self) -> Result<Sink, Fault> {
        Sink::open(&self.at(OURS).to_string_lossy())
    }

    /// The same source, of which all that is read goes on to the log of the check.
    pub fn seen(&self, source: Source) -> Result<Source, Fault> {
        let log = OpenOptions::new().append(true).open(self.at(LOG)).map_err(failed)?;
        Ok(Box::new(Seen { source, log }))
    }

    /// Has the program judge, and says a fault if its report or its status is another one.
    pub fn holds(
        &self,
        by: &By,
        state: Option<&str>,
        judge: &Judge,
        are_valid: bool,
        outputs: &mut Outputs,
    ) -> Result<(), Fault> {
        if let Some(copy) = outputs.copy.take() {
            copy.commit()?;
        }
        self.write("anchors", |to| to.write_all(&judge.files.anchors))?;
        self.write("table", |to| to.write_all(&judge.files.table))?;
        self.write("chains", |to| judge.chains.write(to))?;
        if judge.revocation.is_between() {
            return Err(Fault::Differs(BETWEEN.into()));
        }
        let answers = match &by.answers {
            Some(name) if by.revoked.crl.is_empty() => PathBuf::from(name),
            _ => {
                self.write("answers", |to| write_answers(judge, to))?;
                self.at("answers")
            }
        };
        let ended = self.run(by, state, &answers)?;
        let theirs = fs::read(self.at(THEIRS)).map_err(failed)?;
        if theirs != fs::read(self.at(OURS)).map_err(failed)? {
            return Err(Fault::Differs(self.difference(&theirs)));
        }
        if ended != Some(i32::from(!are_valid)) {
            return Err(Fault::Differs(format!("{} ended with another status", self.program)));
        }
        Ok(())
    }

    fn write(
        &self,
        name: &str,
        write: impl FnOnce(&mut dyn Write) -> io::Result<()>,
    ) -> Result<(), Fault> {
        let done = File::create(self.at(name)).and_then(|file| {
            let mut file = BufWriter::new(file);
            write(&mut file)?;
            file.flush()
        });
        done.map_err(failed)
    }

    fn run(&self, by: &By, state: Option<&str>, answers: &Path) -> Result<Option<i32>, Fault> {
        let input = File::open(self.at(LOG)).map_err(failed)?;
        let output = File::create(self.at(THEIRS)).map_err(failed)?;
        let option = |name: &str, value: &Path| format!("--{name}={}", value.to_string_lossy());
        let rules = &by.rules;
        let mut command = Command::new(&self.program);
        command.arg("verify");
        command.args(["chains", "anchors", "table"].map(|name| option(name, &self.at(name))));
        command.arg(option("answers", answers));
        command.args(state.map(|name| option("state", Path::new(name))));
        command.arg(format!("--past={}", rules.past)).arg(format!("--future={}", rules.future));
        command.arg(format!("--country={}", rules.country));
        command.arg(format!("--national={}", rules.national));
        let ended = command.stdin(input).stdout(output).stderr(Stdio::null()).status();
        let failed = |error| Fault::Differs(format!("{}: {error}", self.program));
        Ok(ended.map_err(failed)?.code())
    }

    /// What is said of a report of the program that isn't ours.
    fn difference(&self, theirs: &[u8]) -> String {
        let last =
            theirs.strip_suffix(b"\n").unwrap_or(theirs).rsplit(|byte| *byte == b'\n').next();
        let last = String::from_utf8_lossy(last.unwrap_or_default()).into_owned();
        format!("the report of {} is another one; it ends with {last}", self.program)
    }
}

impl Drop for Check {
    fn drop(&mut self) {
        // If it can't be removed it lies among the temporary files.
        let _ = fs::remove_dir_all(&self.folder);
    }
}

fn failed(error: io::Error) -> Fault {
    Fault::write("a temporary file", &error)
}

/// Writes an answers file of all that was confirmed, but for certificates that were revoked.
fn write_answers(judge: &Judge, to: &mut dyn Write) -> io::Result<()> {
    let mut line = Vec::new();
    let confirmed = judge.provider.confirmed();
    for question in confirmed.iter().filter(|question| !judge.revocation.spoilt(question)) {
        line.clear();
        line.extend_from_slice(b"confirm");
        for part in [question.key(), question.digest(), question.signature()] {
            line.push(b' ');
            push_hex(&mut line, part);
        }
        line.push(b'\n');
        to.write_all(&line)?;
    }
    Ok(())
}

/// A source, and a file to which goes what is read of it.
struct Seen {
    source: Source,
    log: File,
}

impl Read for Seen {
    fn read(&mut self, room: &mut [u8]) -> io::Result<usize> {
        let count = self.source.read(room)?;
        self.log.write_all(room.get(..count).unwrap_or_default())?;
        Ok(count)
    }
}
