//! The command `judge --stream`: lines of calls, each answered with a line as soon as it is judged,
//! in their order.

use crate::judge::{Came, Judge};
use crate::judging::{judge_by, pool};
use crate::sink::{Sink, STDOUT};
use crate::stream_input::{each_lines, Line, LONGEST};
use crate::stream_line::{without_members, LineFault, Members, Told};
use crate::{words, Ended, Fault};
use rayon::prelude::*;

/// Answers the lines of the inputs. The status is 0 once all are answered, whatever comes of them.
pub(crate) fn stream(words: &words::Judge) -> Ended {
    if words.by.trusts() {
        let why = "a stream isn't read twice: say --codes listed, or name the --table of a run";
        return Err(Fault::Words(why.into()));
    }
    let mut judge = judge_by(&words.by, false)?;
    judge.tells = true;
    let pool = pool(&words.pool)?;
    let mut out = Sink::open(STDOUT)?;
    let (mut number, mut latest) = (0, 0);
    each_lines(&words.inputs, |lines| {
        let asked: Vec<Asked<'_>> = pool.install(|| lines.par_iter().map(Asked::of).collect());
        latest = asked.iter().filter_map(Asked::moment).fold(latest, u64::max);
        let answers = pool.install(|| answers(&judge, number, &asked));
        number += lines.len() as u64;
        out.put(|out| answers.iter().try_for_each(|line| out.write_all(line)))?;
        out.put(|out| out.flush())
    })?;
    judge.revocation.say_ended(latest);
    out.commit()?;
    Ok(0)
}

/// What a line asks.
enum Asked<'a> {
    Call(Members<'a>, u64, Vec<u8>),
    /// It has members, and no call that can be judged.
    Spoilt(Members<'a>, LineFault),
    /// It is none.
    None(&'a [u8], LineFault),
}

impl<'a> Asked<'a> {
    fn of(line: &'a Line) -> Asked<'a> {
        let text = match line {
            Line::Long(text) => return Asked::None(text, LineFault::Long(LONGEST)),
            Line::Whole(text) => text,
        };
        let members = match Members::of(text) {
            Ok(members) => members,
            Err(fault) => return Asked::None(text, fault),
        };
        match members.moment().and_then(|moment| Ok((moment, members.message()?))) {
            Ok((moment, message)) => Asked::Call(members, moment, message),
            Err(fault) => Asked::Spoilt(members, fault),
        }
    }

    fn moment(&self) -> Option<u64> {
        match self {
            Asked::Call(_, moment, _) => Some(*moment),
            Asked::Spoilt(..) | Asked::None(..) => None,
        }
    }
}

/// The lines with what is answered to these, of which so many came before.
fn answers(judge: &Judge, before: u64, asked: &[Asked<'_>]) -> Vec<Vec<u8>> {
    let calls: Vec<Came<'_>> = (before + 1..)
        .zip(asked)
        .filter_map(|(number, asked)| match asked {
            Asked::Call(_, moment, message) => Some((number, *moment, message.as_slice())),
            Asked::Spoilt(..) | Asked::None(..) => None,
        })
        .collect();
    let mut judged = judge.calls(&calls).into_iter();
    let lines = asked.iter().map(|asked| match asked {
        Asked::None(line, fault) => without_members(line, fault),
        Asked::Spoilt(members, fault) => members.answered(&Told::of_fault(fault), true),
        Asked::Call(members, ..) => match judged.next().unwrap_or(Err(Fault::Memory)) {
            Ok(judged) => members.answered(&Told::of(&judged), false),
            Err(fault) => members.answered(&Told::of_fault(&fault.into()), true),
        },
    });
    lines.collect()
}
