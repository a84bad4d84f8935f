//! A call explained, rule by rule, in JSON.
use crate::answers::Answer;
use crate::judge::{Explained, Outcome};
use crate::told::{Told, Whole};
use hyper::StatusCode;
use serde::Serialize;
use stir::Rule;

/// A rule that was tried, with its members in the order of their names.
#[derive(Debug, PartialEq, Eq, Serialize)]
pub(crate) struct Line {
    #[serde(skip_serializing_if = "Option::is_none")]
    code: Option<u32>,
    holds: bool,
    meaning: &'static str,
    #[serde(skip_serializing_if = "Option::is_none")]
    place: Option<String>,
    rule: u32,
    section: &'static str,
}

/// The lines of an explanation.
fn lines(explained: &Explained) -> Vec<Line> {
    let Explained { judged, explanation } = explained;
    let line = |rule: &'static Rule| Line {
        code: None,
        holds: true,
        meaning: rule.holds,
        place: None,
        rule: rule.number,
        section: rule.standard,
    };
    let mut lines: Vec<Line> = explanation.holds().filter_map(Rule::of).map(line).collect();
    if let Outcome::Refused { rule, code, .. } = judged.outcome {
        let (code, place) = (Some(code), judged.outcome.place());
        lines.extend(Rule::of(rule).map(|rule| Line {
            code,
            holds: false,
            meaning: rule.broken,
            place,
            ..line(rule)
        }));
    }
    lines
}

/// The answer that says so; nothing can be said if memory ran out.
pub fn answer(explained: Option<&Explained>) -> Answer {
    match explained {
        Some(explained) => {
            let told = Told::of(&explained.judged, &Whole).explained(lines(explained));
            Answer::json_line(&told)
        }
        None => Answer::status(StatusCode::INTERNAL_SERVER_ERROR),
    }
}
