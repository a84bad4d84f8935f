//! The command `judge`.

use crate::answers::Answers;
use crate::capture::How;
use crate::chains::{Chains, Map};
use crate::checking::Check;
use crate::fetched::Fetching;
use crate::input::each_log;
use crate::judge::{Files, Judge};
use crate::log::End;
use crate::outputs::Outputs;
use crate::provider::Provider;
use crate::revocation::Revocation;
use crate::run::{Day, Run};
use crate::sink::{Sink, STDOUT};
use crate::state::State;
use crate::words::{self, By, Pool, To};
use crate::{streaming, world, Ended, Fault};
use rayon::{ThreadPool, ThreadPoolBuilder};
use std::collections::HashSet;
use std::sync::Mutex;
use stir::World;
use stir_trust::Verifier;

/// Judges the calls of the inputs, and writes what came of them. The status is 0 if each is valid.
pub(crate) fn judge(words: &words::Judge) -> Ended {
    if words.stream {
        return streaming::stream(words);
    }
    let mut outputs = outputs(&words.to, words.chains_out.as_deref(), words.table_out.as_deref())?;
    let ended = judged(words, &mut outputs).and_then(|are_valid| {
        std::mem::take(&mut outputs).commit(&title(&words.inputs))?;
        Ok(u8::from(!are_valid))
    });
    ended.or_else(|fault| match outputs.fail(&fault)? {
        true => Ok(fault.status()),
        false => Err(fault),
    })
}

/// The outputs that the words name, and a chain map and a code table beside them.
pub(crate) fn outputs(
    to: &To,
    chains: Option<&str>,
    table: Option<&str>,
) -> Result<Outputs, Fault> {
    let To { report, json, csv, words, summary, svg } = to;
    let named = [report, json, csv, words, summary, svg];
    let named: Vec<&str> = named.into_iter().flatten().map(AsRef::as_ref).collect();
    let all: Vec<&str> = named.iter().copied().chain(chains).chain(table).collect();
    if all.iter().collect::<HashSet<_>>().len() < all.len() {
        return Err(Fault::Words("two outputs can't have one name".into()));
    }
    let open = |name: &Option<String>| name.as_deref().map(Sink::open).transpose();
    Ok(Outputs {
        report: if named.is_empty() { Some(Sink::open(STDOUT)?) } else { open(report)? },
        json: open(json)?,
        csv: open(csv)?.map(csv::Writer::from_writer),
        words: open(words)?,
        counts: open(summary)?,
        picture: open(svg)?,
        chains: chains.map(Sink::open).transpose()?,
        table: table.map(Sink::open).transpose()?,
        ..Outputs::default()
    })
}

/// Judges the calls, and says whether each is valid.
fn judged(words: &words::Judge, outputs: &mut Outputs) -> Result<bool, Fault> {
    let check = words.checked_by.as_deref().map(Check::new).transpose()?;
    outputs.copy = check.as_ref().map(Check::report).transpose()?;
    let mut judge = judge_by(&words.by, check.is_some())?;
    judge.tells = outputs.tells();
    let pool = pool(&words.pool)?;
    let how = How { initial: words.initial, as_is: words.as_is, is_quiet: false };
    if words.by.trusts() {
        judge.trust(&words.by.rules.settings(), &words.inputs, how, &pool)?;
    }
    let window = words.by.rules.past;
    let state = words.state.as_deref().map(|name| State::read(name, window)).transpose()?;
    let mut day = Day::after(&state.clone().unwrap_or_default());
    let run = Run { judge: &judge, pool: &pool };
    let ended = each_log(&words.inputs, how, |name, source| {
        let source = match &check {
            Some(check) => check.seen(source)?,
            None => source,
        };
        let end = run.log(source, (day.call, day.moment), |judged| {
            let verdict = day.settle(&judged);
            outputs.call(judged.number, judged.moment, judged.about.as_deref(), &verdict)
        });
        match end? {
            End::Whole => Ok(()),
            End::Failed => Err(Fault::Read(name)),
            End::Refused(place) => Err(Fault::Refused(name, place)),
        }
    });
    if state.is_some() && ended != Err(Fault::Memory) {
        outputs.put_in_report(&day.state(window).text())?;
    }
    ended?;
    judge.revocation.say_ended(day.moment);
    if let Some(check) = check {
        check.holds(&words.by, words.state.as_deref(), &judge, day.are_valid, outputs)?;
    }
    if let Some(chains) = &mut outputs.chains {
        chains.put(|to| judge.chains.write(to))?;
    }
    if let Some(table) = &mut outputs.table {
        table.put(|to| to.write_all(&judge.files.table))?;
    }
    Ok(day.are_valid)
}

/// What calls are judged by: the files in the order in which `stir verify` reads them. What OpenSSL
/// confirms is kept if that is wanted.
pub(crate) fn judge_by(by: &By, keeps_answers: bool) -> Result<Judge, Fault> {
    let settings = by.rules.settings();
    World::open(&settings, b"", b"").map_err(|error| Fault::Words(error.to_string()))?;
    let map = by.chains.as_deref().map_or(Ok(Map::default()), Map::read)?;
    let anchors = match (&by.anchors, &by.roots) {
        (Some(name), _) => world::anchors(&settings, name)?,
        (None, Some(name)) => world::roots(&settings, name)?,
        (None, None) => Vec::new(),
    };
    let table = by.table.as_deref().map(|name| world::table(&settings, name)).transpose()?;
    let table = table.unwrap_or_default();
    let provider = match &by.answers {
        Some(name) => Provider::Answers(Answers::read(name)?),
        None => {
            let verifier =
                Verifier::new().map_err(|error| Fault::Words(format!("OpenSSL: {error}")))?;
            Provider::Es256 { verifier, good: keeps_answers.then(Mutex::default) }
        }
    };
    let revocation = Revocation::read(&by.revoked)?;
    let world = World::open(&settings, &anchors, &table)?;
    let chains = Chains::new(world.clone(), map);
    let fetching = Fetching::of(&by.from, &chains)?;
    let files = Files { anchors, table };
    Ok(Judge { world, chains, provider, revocation, fetching, files, tells: false })
}

/// The threads that judge.
pub(crate) fn pool(words: &Pool) -> Result<ThreadPool, Fault> {
    let jobs = words.jobs.unwrap_or(0);
    ThreadPoolBuilder::new().num_threads(jobs).build().map_err(|_| Fault::Memory)
}

/// What a table or a picture of these inputs is called.
pub(crate) fn title(inputs: &[String]) -> String {
    match inputs {
        [one] if one == STDOUT => "Calls".into(),
        [one] => format!("Calls of {one}"),
        [one, .., other] => format!("Calls of {one} to {other}"),
        [] => "Calls".into(),
    }
}
