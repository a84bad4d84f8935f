//! A call and its verdict in words.

use crate::outputs::Row;
use crate::summary::date;
use crate::verdict::Verdict;

/// What is told of a call under the line of its report, each line with four spaces before it.
pub(crate) fn in_words(row: &Row<'_>, verdict: &Verdict) -> String {
    let (day, time) = date(row.moment);
    let vouched = [("attestation", row.attestation), ("origid", row.origid)];
    let vouched = vouched.iter().filter(|(_, value)| !value.is_empty());
    let vouched: String = vouched.map(|(name, value)| format!(", {name} {value}")).collect();
    let caller = someone([row.caller, row.from]);
    let called = someone([row.called, row.to]);
    let meaning = match (verdict.phrase(), verdict.meaning()) {
        (_, meaning) if meaning.is_empty() => None,
        ("", meaning) => Some(meaning),
        (phrase, meaning) => Some(format!("{phrase}: {meaning}")),
    };
    let reason = Some(verdict.reason()).filter(|reason| !reason.is_empty());
    let reason = reason.map_or(String::new(), |reason| format!(", Reason: {reason}"));
    let lines = [
        Some(format!("{day} {time} UTC, Call-ID {}", or(row.call_id, "none"))),
        Some(format!("{caller} calls {called}{vouched}")),
        Some(signed(row, verdict)),
        meaning,
        Some(format!("verstat={}{reason}", verdict.verstat())),
    ];
    lines.into_iter().flatten().map(|line| format!("    {}\n", printable(&line))).collect()
}

/// A number, or else the header field in which it stands.
fn someone([number, field]: [&str; 2]) -> &str {
    or(number, or(field, "somebody"))
}

/// A text, or another one if it is empty.
fn or<'a>(text: &'a str, other: &'a str) -> &'a str {
    if text.is_empty() {
        other
    } else {
        text
    }
}

/// Who signed a call, or whose certificate it names: a good signature alone tells the first.
fn signed(row: &Row<'_>, verdict: &Verdict) -> String {
    let Row { x5u, signer, named, .. } = row;
    match (x5u.is_empty(), verdict.is_signed()) {
        (true, _) => "names no certificate".into(),
        (_, true) if signer.is_empty() => format!("signed by {x5u}"),
        (_, true) => format!("signed by {signer}, {x5u}"),
        (_, false) if named.is_empty() => format!("names the certificate at {x5u}"),
        (_, false) => format!("names the certificate of {named}, {x5u}"),
    }
}

/// A text without what a terminal would obey.
pub(crate) fn printable(text: &str) -> String {
    text.chars().map(|letter| if letter.is_control() { '?' } else { letter }).collect()
}
