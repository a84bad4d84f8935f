//! The command `settle`: of the calls of a stream that pass with one ticket the first is valid, and
//! each other one a replay of it.

use crate::files::hex;
use crate::sink::{Sink, STDOUT};
use crate::stream_input::{each_lines, Line, LONGEST};
use crate::stream_line::{without_members, LineFault, Members, Told, ANSWER};
use crate::verdict::Verdict;
use crate::words::Settle;
use crate::Ended;
use serde_json::{Map, Value};
use std::collections::HashMap;

/// How many tickets there are before those whose time is up are forgotten.
const FEW: usize = 4_096;

/// Settles the lines of the inputs. The status is 0 once all are settled, whatever comes of them.
pub(crate) fn settle(words: &Settle) -> Ended {
    let mut out = Sink::open(STDOUT)?;
    let mut held = Held::new(words);
    let mut number = 0;
    each_lines(&words.files, |lines| {
        out.put(|out| {
            for line in lines {
                number += 1;
                out.write_all(&settled(&mut held, &words.id, number, line))?;
            }
            out.flush()
        })
    })?;
    out.commit()?;
    Ok(0)
}

/// The line with what it says settled.
fn settled(held: &mut Held, id: &str, number: u64, line: &Line) -> Vec<u8> {
    let line = match line {
        Line::Long(line) => return without_members(line, &LineFault::Long(LONGEST)),
        Line::Whole(line) => line,
    };
    let members = match Members::of(line) {
        Ok(members) => members,
        Err(fault) => return without_members(line, &fault),
    };
    match of_members(held, id, number, &members) {
        Ok(answer) => members.answered(&answer, true),
        Err(fault) => members.answered(&Told::of_fault(&fault), true),
    }
}

/// What is answered to a line of these members.
fn of_members(
    held: &mut Held,
    id: &str,
    line: u64,
    members: &Members<'_>,
) -> Result<Map<String, Value>, LineFault> {
    let answer = members.get(ANSWER)?.ok_or(LineFault::Answer)?;
    let mut answer: Map<String, Value> =
        serde_json::from_str(answer.get()).map_err(|_| LineFault::Answer)?;
    if answer.get("answer").and_then(Value::as_str) != Some("passes") {
        return Ok(answer);
    }
    let (ticket, last) = ticket_of(&answer).ok_or(LineFault::Answer)?;
    let moment = members.moment()?;
    let name = match members.first(id) {
        Some(name) => serde_json::from_str(name.get()).map_err(|_| LineFault::Form)?,
        None => Value::from(line),
    };
    let winner = held.winner(ticket, last, moment, name).ok_or(LineFault::Late)?;
    let verdict = if winner.is_some() { Verdict::Replay(0) } else { Verdict::Valid };
    answer.insert("answer".into(), verdict.answer().word().into());
    answer.insert("verstat".into(), verdict.verstat().into());
    if let Some(winner) = winner {
        answer.insert("of".into(), winner);
        answer.insert("phrase".into(), verdict.phrase().into());
        answer.insert("reason".into(), verdict.reason().into());
        answer.insert("response".into(), verdict.response().into());
        answer.insert("rule".into(), verdict.rule().into());
    }
    Ok(answer)
}

/// The ticket of a call that passes, and the last second at which its PASSporT is fresh.
fn ticket_of(answer: &Map<String, Value>) -> Option<([u8; 32], u64)> {
    let mut ticket = [0; 32];
    hex(answer.get("ticket")?.as_str()?.as_bytes(), &mut ticket)?;
    Some((ticket, answer.get("last")?.as_u64()?))
}

/// The calls that are valid, by their tickets.
struct Held {
    /// How many seconds a call may come after a later one.
    late: u64,
    /// Whether a valid call may come again.
    again: bool,
    /// The latest moment that came.
    latest: u64,
    tickets: HashMap<[u8; 32], (Value, u64)>,
    most: usize,
}

impl Held {
    fn new(words: &Settle) -> Held {
        let (late, again) = (words.late, words.again);
        Held { late, again, latest: 0, tickets: HashMap::new(), most: FEW }
    }

    /// The name of the call that is valid with this ticket, if it is another one; nothing at all if
    /// the ticket may be forgotten.
    fn winner(
        &mut self,
        ticket: [u8; 32],
        last: u64,
        moment: u64,
        name: Value,
    ) -> Option<Option<Value>> {
        self.latest = self.latest.max(moment);
        let (late, latest) = (self.late, self.latest);
        let is_known = |last: u64| last.saturating_add(late) >= latest;
        if !is_known(last) {
            return None;
        }
        if self.tickets.len() >= self.most {
            self.tickets.retain(|_, (_, last)| is_known(*last));
            self.most = FEW.max(2 * self.tickets.len());
        }
        if let Some((winner, _)) = self.tickets.get(&ticket) {
            let is_same = self.again && *winner == name;
            return Some((!is_same).then(|| winner.clone()));
        }
        self.tickets.insert(ticket, (name, last));
        Some(None)
    }
}
