//! What is told of a call that was judged: in JSON, which the answers and the record share, and in
//! a line for proxies.
use crate::answers::{Answer, JSON};
use crate::explain::Line;
use crate::judge::{Attest, Judged, Outcome, Passport, Ppt};
use hyper::StatusCode;
use serde::Serialize;
use std::borrow::Cow;
use stir::Rule;

/// How a number is told.
pub trait Tells {
    /// The number, or what stands for it.
    fn number<'a>(&self, number: &'a str) -> Cow<'a, str>;
}

/// Numbers are told as they are.
pub struct Whole;

impl Tells for Whole {
    fn number<'a>(&self, number: &'a str) -> Cow<'a, str> {
        number.into()
    }
}

/// A call, with its members in the order of their names. What it doesn't have isn't there.
///
/// ```
/// use stird::judge::{Judged, Outcome};
/// use stird::told::{Told, Whole};
///
/// let judged = Judged::new(7, Outcome::Refused { rule: 2, code: 428, field: 0, part: 0 });
/// let told = serde_json::to_value(Told::of(&judged, &Whole))?;
/// assert_eq!(told["meaning"], "there is no Identity field");
/// assert_eq!(told["section"], "RFC 8224, section 6.2");
/// # Ok::<(), serde_json::Error>(())
/// ```
#[derive(Serialize)]
pub struct Told<'a> {
    #[serde(skip_serializing_if = "Option::is_none")]
    attest: Option<&'a str>,
    #[serde(skip_serializing_if = "Option::is_none")]
    call: Option<u64>,
    #[serde(skip_serializing_if = "Option::is_none")]
    certificates: Option<String>,
    code: u32,
    #[serde(skip_serializing_if = "Option::is_none")]
    dest: Option<Vec<Cow<'a, str>>>,
    #[serde(skip_serializing_if = "Vec::is_empty")]
    diversions: Vec<Diversion<'a>>,
    #[serde(skip_serializing_if = "Vec::is_empty")]
    fields: Vec<u32>,
    #[serde(skip_serializing_if = "Option::is_none")]
    iat: Option<u64>,
    #[serde(skip_serializing_if = "Option::is_none")]
    meaning: Option<&'static str>,
    #[serde(skip_serializing_if = "Option::is_none")]
    orig: Option<Cow<'a, str>>,
    #[serde(skip_serializing_if = "Option::is_none")]
    origid: Option<&'a str>,
    outcome: &'static str,
    #[serde(skip_serializing_if = "Option::is_none")]
    place: Option<String>,
    #[serde(skip_serializing_if = "Option::is_none")]
    ppt: Option<&'static str>,
    reason: &'static str,
    #[serde(skip_serializing_if = "Option::is_none")]
    revocation: Option<String>,
    rule: u32,
    #[serde(skip_serializing_if = "Vec::is_empty")]
    rules: Vec<Line>,
    #[serde(skip_serializing_if = "Option::is_none")]
    section: Option<&'static str>,
    #[serde(skip_serializing_if = "Option::is_none")]
    signer: Option<Signer<'a>>,
    #[serde(skip_serializing_if = "Option::is_none")]
    ticket: Option<String>,
    verstat: &'static str,
    #[serde(skip_serializing_if = "Option::is_none")]
    winner: Option<u64>,
    #[serde(skip_serializing_if = "Option::is_none")]
    x5u: Option<&'a str>,
}

/// A PASSporT of a call that was diverted.
#[derive(Serialize)]
struct Diversion<'a> {
    dest: Vec<Cow<'a, str>>,
    #[serde(skip_serializing_if = "Option::is_none")]
    div: Option<Cow<'a, str>>,
    field: u32,
    #[serde(skip_serializing_if = "Option::is_none")]
    iat: Option<u64>,
    #[serde(skip_serializing_if = "Option::is_none")]
    signer: Option<Signer<'a>>,
    x5u: &'a str,
}

/// Who signed.
#[derive(Serialize)]
struct Signer<'a> {
    codes: &'a [String],
    subject: &'a str,
}

impl<'a> Told<'a> {
    /// A call as it is told, with its numbers told so.
    pub fn of(judged: &'a Judged, numbers: &dyn Tells) -> Told<'a> {
        let outcome = &judged.outcome;
        let rule = Rule::of(outcome.rule());
        let winner = match outcome {
            Outcome::Replay { winner } => Some(*winner),
            Outcome::Valid | Outcome::Refused { .. } | Outcome::Unjudged => None,
        };
        let passport = judged.passport();
        let claimed = passport.map(|passport| &passport.claimed);
        let all = &judged.about.passports;
        Told {
            attest: passport.and_then(Passport::attest).map(letter),
            call: Some(judged.call),
            certificates: judged.certificates.map(|certificates| certificates.to_string()),
            code: outcome.code(),
            dest: claimed.map(|claimed| all_told(&claimed.dest, numbers)),
            diversions: all.iter().skip(1).map(|it| Diversion::of(it, numbers)).collect(),
            fields: all.iter().map(|passport| passport.field).collect(),
            iat: claimed.and_then(|claimed| claimed.iat),
            meaning: rule.map(|rule| rule.broken),
            orig: claimed.map(|claimed| numbers.number(&claimed.orig)),
            origid: claimed.and_then(|claimed| claimed.origid.as_deref()),
            outcome: outcome.name(),
            place: outcome.place(),
            ppt: passport.and_then(|passport| passport.ppt).map(Ppt::name),
            reason: outcome.reason(),
            revocation: judged.spoilt.map(|spoilt| spoilt.to_string()),
            rule: outcome.rule(),
            rules: Vec::new(),
            section: rule.map(|rule| rule.standard),
            signer: passport.and_then(Signer::of),
            ticket: judged.ticket.as_ref().map(|ticket| hex(ticket)),
            verstat: judged.verstat,
            winner,
            x5u: passport.map(|passport| passport.x5u.as_str()),
        }
    }

    /// The same of a call that was explained by these lines. It has no number, and a replay isn't
    /// told from a call that passes.
    pub(crate) fn explained(self, rules: Vec<Line>) -> Told<'a> {
        let outcome = if self.outcome == Outcome::Valid.name() { "passes" } else { self.outcome };
        Told { call: None, outcome, rules, ..self }
    }
}

impl<'a> Diversion<'a> {
    fn of(passport: &'a Passport, numbers: &dyn Tells) -> Diversion<'a> {
        let Passport { field, x5u, claimed, .. } = passport;
        Diversion {
            dest: all_told(&claimed.dest, numbers),
            div: claimed.div.as_deref().map(|div| numbers.number(div)),
            field: *field,
            iat: claimed.iat,
            signer: Signer::of(passport),
            x5u,
        }
    }
}

impl<'a> Signer<'a> {
    fn of(passport: &'a Passport) -> Option<Signer<'a>> {
        let signer = passport.signer.as_ref()?;
        Some(Signer { codes: &signer.codes, subject: &signer.subject })
    }
}

fn all_told<'a>(all: &'a [String], numbers: &dyn Tells) -> Vec<Cow<'a, str>> {
    all.iter().map(|number| numbers.number(number)).collect()
}

/// The letter of an attestation.
fn letter(attest: Attest) -> &'static str {
    match attest {
        Attest::A => "A",
        Attest::B => "B",
        Attest::C => "C",
    }
}

/// Bytes in hex digits.
pub(crate) fn hex(bytes: &[u8]) -> String {
    let mut text = String::with_capacity(2 * bytes.len());
    for byte in bytes {
        for half in [byte >> 4, byte & 15] {
            text.push(char::from(if half < 10 { b'0' + half } else { b'a' + half - 10 }));
        }
    }
    text
}

/// What came of a call, as JSON and an LF: as it was written for the record, if it was.
pub fn json(judged: &Judged) -> Answer {
    let body = match &judged.json {
        Some(json) => json.clone(),
        None => return Answer::json_line(&Told::of(judged, &Whole)),
    };
    Answer { kind: JSON, ..Answer::text(StatusCode::OK, body) }
}

/// What came of a call, on one line for a proxy without JSON: the code (0 if there is none), the
/// verstat and the reason phrase. If the attestation is asked for, it stands before the phrase:
/// that of a call whose signatures are good, and `-` of another one.
pub fn line(judged: &Judged, has_attest: bool) -> Answer {
    let outcome = &judged.outcome;
    let mut words = vec![Cow::from(outcome.code().to_string()), judged.verstat.into()];
    if has_attest {
        let signed = judged.passport().filter(|passport| passport.signer.is_some());
        words.push(signed.and_then(Passport::attest).map_or("-", letter).into());
    }
    words.push(outcome.reason().into());
    Answer::text(StatusCode::OK, words.join(" "))
}

#[cfg(test)]
mod tests {
    use super::*;
    use crate::fetching::Certificates;
    use crate::judge::{About, Verstat};
    use serde_json::json;
    use std::sync::Arc;
    use stir_trust::claims::Claimed;

    fn body(answer: &Answer) -> &str {
        std::str::from_utf8(&answer.body).expect("text")
    }

    const STALE: Outcome = Outcome::Refused { rule: 9, code: 403, field: 1, part: 0 };

    /// A call that was signed with this attestation and diverted once.
    fn diverted(outcome: Outcome, is_signed: bool) -> Judged {
        let claims = |text: &str| Claimed::of(text);
        let holder = |code: &str| crate::files::Signer {
            codes: vec![code.into()],
            subject: format!("CN=SHAKEN {code}"),
        };
        let signer = |code| is_signed.then(|| Arc::new(holder(code)));
        let first = Passport {
            field: 2,
            ppt: Some(Ppt::Shaken),
            x5u: "https://cr.example/1".into(),
            claimed: claims(
                r#"{"attest":"B","dest":{"tn":["2"]},"iat":7,"orig":{"tn":"1"},"origid":"x"}"#,
            ),
            signer: signer("1111"),
        };
        let link = Passport {
            field: 1,
            ppt: Some(Ppt::Div),
            x5u: "https://cr.example/2".into(),
            claimed: claims(r#"{"dest":{"tn":["3"]},"div":{"tn":"2"},"iat":8,"orig":{"tn":"1"}}"#),
            signer: signer("2222"),
        };
        let about = About { passports: vec![first, link], ..About::default() };
        let ticket = is_signed.then_some([0xa5; 32]);
        Judged { about, ticket, ..Judged::new(7, outcome) }
    }

    #[test]
    fn what_came_of_a_call_is_json() {
        for (outcome, wanted) in [
            (
                STALE,
                json!({ "call": 7, "code": 403, "meaning":
                    "it was signed too long before or after, or by a clock that is wrong",
                    "outcome": "refused", "place": "1.0", "reason": "Stale Date", "rule": 9,
                    "section": "RFC 8224, section 6.2; both bounds are our own",
                    "verstat": "TN-Validation-Failed" }),
            ),
            (
                Outcome::Replay { winner: 3 },
                json!({ "call": 7, "code": 438, "meaning": "the PASSporT passed before",
                    "outcome": "replay", "reason": "Invalid Identity Header", "rule": 18,
                    "section": "our own rule", "verstat": "TN-Validation-Failed", "winner": 3 }),
            ),
            (
                Outcome::Valid,
                json!({ "call": 7, "code": 0, "outcome": "valid", "reason": "", "rule": 0,
                    "verstat": "TN-Validation-Passed" }),
            ),
        ] {
            assert_eq!(body(&json(&Judged::new(7, outcome))), format!("{wanted}\n"));
        }
        let certificates = Some(Certificates::Failed("dns"));
        let judged = Judged { certificates, ..Judged::new(7, STALE) };
        let wanted = r#"{"call":7,"certificates":"failed dns","code":403,"meaning":"#;
        assert!(body(&json(&judged)).starts_with(wanted), "{}", body(&json(&judged)));
    }

    #[test]
    fn what_was_claimed_is_told_and_who_signed_if_the_signatures_are_good() {
        let holder = |code| json!({ "codes": [code], "subject": format!("CN=SHAKEN {code}") });
        let wanted = json!({ "attest": "B", "call": 7, "code": 0, "dest": ["2"], "diversions": [
                { "dest": ["3"], "div": "2", "field": 1, "iat": 8, "signer": holder("2222"),
                  "x5u": "https://cr.example/2" }],
            "fields": [2, 1], "iat": 7, "orig": "1", "origid": "x", "outcome": "valid",
            "ppt": "shaken", "reason": "", "rule": 0, "signer": holder("1111"),
            "ticket": "a5".repeat(32), "verstat": "TN-Validation-Passed",
            "x5u": "https://cr.example/1" });
        assert_eq!(body(&json(&diverted(Outcome::Valid, true))), format!("{wanted}\n"));
        let forged = Outcome::Refused { rule: 16, code: 438, field: 2, part: 0 };
        let answer = json(&diverted(forged, false));
        assert!(body(&answer).contains(r#""attest":"B""#), "{answer:?}");
        assert!(!body(&answer).contains("signer"), "{answer:?}");
    }

    #[test]
    fn a_line_has_the_attestation_before_its_phrase_if_that_is_asked_for() {
        let forged = Outcome::Refused { rule: 16, code: 438, field: 2, part: 0 };
        let uncovered = Outcome::Refused { rule: 17, code: 437, field: 2, part: 0 };
        for (outcome, is_signed, plain, with) in [
            (Outcome::Valid, true, "0 TN-Validation-Passed ", "0 TN-Validation-Passed B "),
            (
                forged,
                false,
                "438 TN-Validation-Failed Invalid Identity Header",
                "438 TN-Validation-Failed - Invalid Identity Header",
            ),
            (
                uncovered,
                true,
                "437 TN-Validation-Failed Unsupported Credential",
                "437 TN-Validation-Failed B Unsupported Credential",
            ),
        ] {
            let judged = diverted(outcome, is_signed);
            assert_eq!(body(&line(&judged, false)), plain);
            assert_eq!(body(&line(&judged, true)), with);
        }
        assert_eq!(body(&line(&Judged::new(1, Outcome::Unjudged), true)), "0 No-TN-Validation - ");
        let verstat = Outcome::Valid.verstat_in(Verstat::Letter, Some(Attest::B));
        let judged = Judged { verstat, ..diverted(Outcome::Valid, true) };
        assert_eq!(body(&line(&judged, false)), "0 TN-Validation-Passed-B ");
    }

    #[test]
    fn bytes_are_hex_digits() {
        assert_eq!(hex(&[0, 0x1f, 0xa0, 0xff]), "001fa0ff");
    }
}
