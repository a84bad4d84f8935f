//! The command `explain`.

use crate::capture::How;
use crate::input::Input;
use crate::judge::Came;
use crate::judging::{judge_by, pool};
use crate::log::{End, Log};
use crate::sink::{Sink, STDOUT};
use crate::words::{Explain, Pool};
use crate::{Ended, Fault};

/// Writes which rules the calls meet. The status is 0 if each meets all.
pub(crate) fn explain(words: &Explain) -> Ended {
    let mut out = Sink::open(STDOUT)?;
    match explained(words, &mut out) {
        Ok(are_valid) => {
            out.commit()?;
            Ok(u8::from(!are_valid))
        }
        Err(fault) if !fault.is_of_a_report() => Err(fault),
        Err(fault) => {
            out.put(|out| writeln!(out, "{fault}"))?;
            out.commit()?;
            Ok(fault.status())
        }
    }
}

fn explained(words: &Explain, out: &mut Sink) -> Result<bool, Fault> {
    let mut judge = judge_by(&words.by, false)?;
    if words.by.trusts() {
        let how = How { initial: false, as_is: true, is_quiet: true };
        let inputs = std::slice::from_ref(&words.input);
        judge.trust(&words.by.rules.settings(), inputs, how, &pool(&Pool { jobs: None })?)?;
    }
    let Input { name, source, bar, .. } = Input::open(&words.input)?;
    let (mut log, mut are_valid) = (Log::after(source, 0, 0), true);
    while let Some(piece) = log.piece() {
        let is_wanted =
            |(number, ..): &Came<'_>| words.call.is_none_or(|call| u64::from(call) == *number);
        let calls: Vec<Came<'_>> = piece.calls().filter(is_wanted).collect();
        judge.fetch_for(&calls)?;
        for (number, moment, message) in calls {
            let number = number.try_into().unwrap_or(u32::MAX);
            let (lines, is_valid) = judge.explain(number, moment, message)?;
            out.put(|out| out.write_all(lines.as_bytes()))?;
            are_valid &= is_valid;
        }
    }
    bar.finish_and_clear();
    match log.end() {
        Some(End::Failed) => Err(Fault::Read(name)),
        Some(End::Refused(place)) => Err(Fault::Refused(name, place)),
        Some(End::Whole) | None => Ok(are_valid),
    }
}
