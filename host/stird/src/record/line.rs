//! A line of the record.
use super::Numbers;
use crate::answers::LINE;
use crate::judge::{Judged, Spent};
use crate::told::Told;
use serde::Serialize;
use std::borrow::Cow;
use std::time::Duration;

/// How many bytes the rest of a line mostly has at most.
const MORE: usize = 256;

/// What a line has beside what is told of the call.
#[derive(Serialize)]
struct More<'a> {
    #[serde(skip_serializing_if = "Option::is_none")]
    call_id: Option<Cow<'a, str>>,
    microseconds: Microseconds,
    moment: u64,
}

/// How long the parts of the work took.
#[derive(Serialize)]
struct Microseconds {
    ask: u64,
    claim: u64,
    confirm: u64,
    judge: u64,
    wait: u64,
}

impl Microseconds {
    fn of(spent: &Spent) -> Microseconds {
        let of = |time: Duration| u64::try_from(time.as_micros()).unwrap_or(u64::MAX);
        Microseconds {
            ask: of(spent.ask),
            claim: of(spent.claim),
            confirm: of(spent.confirm),
            judge: of(spent.judge),
            wait: of(spent.wait),
        }
    }
}

/// A line in two parts, so that nothing is copied of what an answer says too.
pub(super) struct Line {
    /// What is told of the call, as an answer has it: an object, and an LF.
    pub told: Vec<u8>,
    /// An object with the rest, and an LF.
    more: Vec<u8>,
}

impl Line {
    /// The line of a call that came at this moment.
    pub fn of(judged: &Judged, moment: u64, numbers: &Numbers) -> serde_json::Result<Line> {
        let call_id = judged.about.call_id.as_deref().map(String::from_utf8_lossy);
        let microseconds = Microseconds::of(&judged.spent);
        Ok(Line {
            told: written(&Told::of(judged, numbers), LINE)?,
            more: written(&More { call_id, microseconds, moment }, MORE)?,
        })
    }

    /// Its bytes: the second object goes on where the first one ends.
    pub fn parts(&self) -> [&[u8]; 3] {
        let told = self.told.strip_suffix(b"}\n").unwrap_or_default();
        [told, b",", self.more.get(1..).unwrap_or_default()]
    }
}

/// A value in JSON, with an LF, in a room that is mostly enough.
fn written(value: &impl Serialize, room: usize) -> serde_json::Result<Vec<u8>> {
    let mut bytes = Vec::with_capacity(room);
    serde_json::to_writer(&mut bytes, value)?;
    bytes.push(b'\n');
    Ok(bytes)
}

#[cfg(test)]
mod tests {
    use super::*;
    use crate::judge::{About, Outcome};

    #[test]
    fn a_line_is_what_is_told_and_then_the_rest() {
        let spent = Spent { confirm: Duration::from_nanos(1_999), ..Spent::default() };
        let about = About { call_id: Some(b"a\"b".to_vec()), ..About::default() };
        let judged = Judged { spent, about, ..Judged::new(7, Outcome::Valid) };
        let line = Line::of(&judged, 5, &Numbers::Whole).expect("it is written");
        let told = std::str::from_utf8(&line.told).expect("text").trim_end().trim_end_matches('}');
        let more = r#","call_id":"a\"b","microseconds":{"ask":0,"claim":0,"confirm":1,"#;
        let wanted = format!("{told}{more}\"judge\":0,\"wait\":0}},\"moment\":5}}\n");
        assert_eq!(String::from_utf8_lossy(&line.parts().concat()), wanted);
        assert!(told.starts_with(r#"{"call":7,"code":0,"#), "{told}");
    }
}
