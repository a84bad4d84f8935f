//! The command `report`.

use crate::answers::Answers;
use crate::chains::{Chains, Map};
use crate::files::lines;
use crate::input::{name_of, whole, Input};
use crate::judge::{Files, Judge};
use crate::judging::{outputs, pool, title};
use crate::log::End;
use crate::outputs::Outputs;
use crate::provider::Provider;
use crate::revocation::Revocation;
use crate::run::Run;
use crate::sink::{Sink, STDOUT};
use crate::state::BEGINS;
use crate::verdict::Verdict;
use crate::words::{Report, To};
use crate::{say, Ended, Fault};
use stir::World;

/// The most bytes of a report.
const MOST_BYTES: u64 = 1 << 30;

/// The status if the report ends before the log does.
const CUT: u8 = 1;

/// Tells of the calls of a log by the verdicts of a report.
pub(crate) fn report(words: &Report) -> Ended {
    if words.back {
        return back(words);
    }
    let text = whole(&words.of, MOST_BYTES)?;
    let (verdicts, fault) = verdicts(&text);
    let mut outputs = outputs(&told(&words.to), None, None)?;
    let last = joined(words, &verdicts, &mut outputs)?;
    match fault {
        // Of a log whose report isn't whole no file is made.
        Some(cut) => Err(cut.fault(&words.of)),
        None => {
            outputs.commit(&title(std::slice::from_ref(&words.log)))?;
            last.map_or(Ok(0), |call| {
                say(&format!("the report ends with call {call}, and the log has more"));
                Ok(CUT)
            })
        }
    }
}

/// The outputs that are wanted: words, if none is named.
fn told(to: &To) -> To {
    let To { report, json, csv, words, summary, svg } = to;
    let is_none = [report, json, csv, words, summary, svg].iter().all(|name| name.is_none());
    let words = if is_none { Some(STDOUT.to_owned()) } else { words.clone() };
    let (report, json, csv) = (report.clone(), json.clone(), csv.clone());
    To { report, json, csv, words, summary: summary.clone(), svg: svg.clone() }
}

/// How a report that isn't whole ends.
enum Cut {
    /// With this line, which has this number and is none of a report.
    Line(usize, String),
    /// Within its state.
    State,
}

impl Cut {
    fn fault(self, name: &str) -> Fault {
        let name = name_of(name);
        match self {
            Cut::Line(number, line) => {
                Fault::Input(format!("{name}:{number}"), format!("no line of a report: {line}"))
            }
            Cut::State => {
                Fault::Input(name.into(), "the state after the report is cut short".into())
            }
        }
    }
}

/// The verdicts of a report, up to its state; and how it ends if it isn't whole.
fn verdicts(text: &[u8]) -> (Vec<(u64, Verdict)>, Option<Cut>) {
    let (mut verdicts, mut part) = (Vec::new(), Part::Report);
    for (number, line) in (1..).zip(text.split_inclusive(|byte| *byte == b'\n')) {
        let whole = line.strip_suffix(b"\n");
        part = match (part, whole, whole.and_then(Verdict::read)) {
            (Part::Report, _, Some(verdict)) => {
                verdicts.push(verdict);
                Part::Report
            }
            (Part::Report, Some(BEGINS), _) => Part::State,
            (Part::State, Some(line), _) if is_of_state(line) => Part::State,
            (Part::State, Some(line), _) if line.starts_with(b"end ") => Part::End,
            (Part::State, None, _) => break,
            _ => {
                let line = String::from_utf8_lossy(whole.unwrap_or(line)).into_owned();
                return (verdicts, Some(Cut::Line(number, line)));
            }
        };
    }
    (verdicts, (part == Part::State).then_some(Cut::State))
}

/// What the next line of a report belongs to.
#[derive(Clone, Copy, PartialEq, Eq)]
enum Part {
    Report,
    State,
    End,
}

/// Whether a line is one of a state, between its first and its last.
fn is_of_state(line: &[u8]) -> bool {
    let words: [&[u8]; 4] = [b"window ", b"call ", b"moment ", b"kept "];
    words.iter().any(|word| line.starts_with(word))
}

/// Tells of the calls of a log that have a verdict, and gives the last of these if the log goes on.
fn joined(
    words: &Report,
    verdicts: &[(u64, Verdict)],
    outputs: &mut Outputs,
) -> Result<Option<u64>, Fault> {
    let judge = judge(words)?;
    let run = Run { judge: &judge, pool: &pool(&words.pool)? };
    let Input { name, source, bar, .. } = Input::open(&words.log)?;
    // The first call has the number that the run before left to it.
    let first = verdicts.first().map_or(1, |(call, _)| *call);
    let (mut left, mut is_cut) = (verdicts.iter(), false);
    let end = run.log(source, (first - 1, 0), |judged| {
        let Some((call, verdict)) = left.next() else {
            is_cut = true;
            return Ok(());
        };
        if *call != judged.number {
            return Err(not_of_this(words, *call));
        }
        outputs.call(*call, judged.moment, judged.about.as_deref(), verdict)
    });
    bar.finish_and_clear();
    match end? {
        End::Failed => Err(Fault::Read(name)),
        End::Refused(place) => Err(Fault::Refused(name, place)),
        End::Whole => match left.next() {
            Some((call, _)) => Err(not_of_this(words, *call)),
            None => Ok(verdicts.last().map(|(call, _)| *call).filter(|_| is_cut)),
        },
    }
}

fn not_of_this(words: &Report, call: u64) -> Fault {
    Fault::Input(
        name_of(&words.of).into(),
        format!("it isn't the report of this log: see call {call}"),
    )
}

/// What reads the calls. Rules on certificates and signatures aren't asked.
fn judge(words: &Report) -> Result<Judge, Fault> {
    let settings = words.rules.settings();
    let world =
        World::open(&settings, b"", b"").map_err(|error| Fault::Words(error.to_string()))?;
    let map = words.chains.as_deref().map_or(Ok(Map::default()), Map::read)?;
    let chains = Chains::new(world.clone(), map);
    let provider = Provider::Answers(Answers::default());
    let (files, revocation) = (Files::default(), Revocation::default());
    Ok(Judge { world, chains, provider, revocation, fetching: None, files, tells: true })
}

/// Writes the report of which a text is the JSON.
fn back(words: &Report) -> Ended {
    let text = whole(&words.log, MOST_BYTES)?;
    let mut out = Sink::open(words.to.report.as_deref().unwrap_or(STDOUT))?;
    for (number, line) in lines(&text) {
        let line = line_of(line).ok_or_else(|| Fault::Refused(words.log.clone(), number))?;
        out.put(|out| writeln!(out, "{line}"))?;
    }
    out.commit()?;
    Ok(0)
}

/// The line of a report that an object is told of.
fn line_of(object: &[u8]) -> Option<String> {
    let object: serde_json::Value = serde_json::from_slice(object).ok()?;
    if let Some(line) = object.get("line") {
        return line.as_str().map(str::to_owned);
    }
    let word = |name| match object.get(name)? {
        serde_json::Value::Null => Some("-".to_owned()),
        serde_json::Value::String(text) => Some(text.clone()),
        serde_json::Value::Number(number) => Some(number.to_string()),
        _ => None,
    };
    let line = ["call", "answer", "response", "rule", "place"].map(word);
    let line = line.into_iter().collect::<Option<Vec<_>>>()?.join(" ");
    Verdict::read(line.as_bytes()).map(|_| line)
}
