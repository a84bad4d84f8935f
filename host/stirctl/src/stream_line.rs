//! Lines of a stream (docs/FORMATS.md, "Stream"): the calls that come, and what is answered.

use crate::judge::{Judged, Outcome};
use crate::log::{LAST_MOMENT, LONGEST_MESSAGE};
use crate::outputs::Row;
use crate::verdict::Verdict;
use openssl::base64;
use serde::de::{MapAccess, Visitor};
use serde::ser::SerializeMap;
use serde::{Deserialize, Deserializer, Serialize, Serializer};
use serde_json::value::RawValue;
use std::fmt;
use thiserror::Error;

/// The members of a line that the judge reads, and the one with what it answers.
const MOMENT: &str = "moment";
const MESSAGE: &str = "message";
const ENCODED: &str = "message_base64";
pub(crate) const ANSWER: &str = "stir";
/// The member with a line that is no JSON object.
const LINE: &str = "line";

/// Why a line isn't answered with a verdict.
#[derive(Clone, Debug, Error, PartialEq, Eq)]
pub(crate) enum LineFault {
    #[error("it is no JSON object")]
    Form,
    #[error("it has more than {0} bytes")]
    Long(usize),
    #[error("{0} stands there twice")]
    Twice(&'static str),
    #[error("moment has to be a whole second from 1970 to 9999")]
    Moment,
    #[error("one of message and message_base64 has to be there, a text")]
    Message,
    #[error("message_base64 is not base64 (RFC 4648, section 4)")]
    Base64,
    #[error("the message has more than {LONGEST_MESSAGE} bytes")]
    LongMessage,
    #[error("stir has to be what judge --stream wrote")]
    Answer,
    #[error("it came too late: its ticket may be forgotten")]
    Late,
    #[error("{0}")]
    Judge(#[from] crate::Fault),
}

/// The members of an object, each with its value as it stands.
#[derive(Debug, Default)]
pub(crate) struct Members<'a>(Vec<(String, &'a RawValue)>);

impl<'a> Members<'a> {
    pub fn of(line: &'a [u8]) -> Result<Members<'a>, LineFault> {
        serde_json::from_slice(line).map_err(|_| LineFault::Form)
    }

    /// The value of the member of this name, which may stand there once.
    pub fn get(&self, name: &'static str) -> Result<Option<&'a RawValue>, LineFault> {
        let mut values = self.0.iter().filter(|(member, _)| member == name).map(|(_, raw)| *raw);
        match (values.next(), values.next()) {
            (_, Some(_)) => Err(LineFault::Twice(name)),
            (value, None) => Ok(value),
        }
    }

    /// The value of the first member of this name.
    pub fn first(&self, name: &str) -> Option<&'a RawValue> {
        self.0.iter().find(|(member, _)| member == name).map(|(_, raw)| *raw)
    }

    /// The moment of the call, in Unix seconds.
    pub fn moment(&self) -> Result<u64, LineFault> {
        let moment = self.get(MOMENT)?.and_then(|raw| raw.get().parse().ok());
        moment.filter(|moment| *moment <= LAST_MOMENT).ok_or(LineFault::Moment)
    }

    /// The message.
    pub fn message(&self) -> Result<Vec<u8>, LineFault> {
        let text = |raw: &RawValue| {
            serde_json::from_str::<String>(raw.get()).map_err(|_| LineFault::Message)
        };
        let message = match (self.get(MESSAGE)?, self.get(ENCODED)?) {
            (Some(raw), None) => text(raw)?.into_bytes(),
            (None, Some(raw)) => {
                base64::decode_block(&text(raw)?).map_err(|_| LineFault::Base64)?
            }
            _ => return Err(LineFault::Message),
        };
        if message.len() as u64 > LONGEST_MESSAGE {
            return Err(LineFault::LongMessage);
        }
        Ok(message)
    }

    /// The line of these members, with what is answered. The message is left out of a call that
    /// was judged.
    pub fn answered(&self, answer: &impl Serialize, keeps_message: bool) -> Vec<u8> {
        let members = self.0.iter().filter(|(name, _)| {
            name != ANSWER && (keeps_message || (name != MESSAGE && name != ENCODED))
        });
        line_of(members.map(|(name, raw)| (name.as_str(), *raw)), answer)
    }
}

/// The line of a text that has no members.
pub(crate) fn without_members(line: &[u8], fault: &LineFault) -> Vec<u8> {
    let text = String::from_utf8_lossy(line);
    line_of([(LINE, text)].into_iter(), &Told::of_fault(fault))
}

fn line_of<'a>(
    members: impl Iterator<Item = (&'a str, impl Serialize)>,
    answer: &impl Serialize,
) -> Vec<u8> {
    let mut line = Vec::new();
    let write = |to: &mut Vec<u8>| {
        let mut writer = serde_json::Serializer::new(to);
        let mut map = writer.serialize_map(None)?;
        for (name, value) in members {
            map.serialize_entry(name, &value)?;
        }
        map.serialize_entry(ANSWER, answer)?;
        SerializeMap::end(map)
    };
    // Members that were read are written, and so are texts and numbers, to memory.
    let _: Result<(), serde_json::Error> = write(&mut line);
    line.push(b'\n');
    line
}

impl<'de> Deserialize<'de> for Members<'de> {
    fn deserialize<D: Deserializer<'de>>(from: D) -> Result<Members<'de>, D::Error> {
        from.deserialize_map(EachMember)
    }
}

struct EachMember;

impl<'de> Visitor<'de> for EachMember {
    type Value = Members<'de>;

    fn expecting(&self, to: &mut fmt::Formatter<'_>) -> fmt::Result {
        to.write_str("an object")
    }

    fn visit_map<A: MapAccess<'de>>(self, mut map: A) -> Result<Members<'de>, A::Error> {
        let mut members = Members::default();
        while let Some(member) = map.next_entry::<String, &'de RawValue>()? {
            members.0.push(member);
        }
        Ok(members)
    }
}

/// What is told of a call by itself, its members in the order of their names. Of a call that passes
/// there is no verstat yet.
#[derive(Debug, Default, Serialize)]
pub(crate) struct Told<'a> {
    answer: &'a str,
    #[serde(skip_serializing_if = "Option::is_none")]
    attestation: Option<&'a str>,
    #[serde(skip_serializing_if = "Option::is_none")]
    call_id: Option<&'a str>,
    #[serde(skip_serializing_if = "Option::is_none")]
    called: Option<&'a str>,
    #[serde(skip_serializing_if = "Option::is_none")]
    caller: Option<&'a str>,
    #[serde(skip_serializing_if = "Option::is_none")]
    fault: Option<String>,
    #[serde(skip_serializing_if = "Option::is_none")]
    last: Option<u64>,
    #[serde(skip_serializing_if = "Option::is_none")]
    named: Option<&'a str>,
    #[serde(skip_serializing_if = "Option::is_none")]
    origid: Option<&'a str>,
    #[serde(skip_serializing_if = "Option::is_none")]
    phrase: Option<&'a str>,
    #[serde(skip_serializing_if = "Option::is_none")]
    place: Option<String>,
    #[serde(skip_serializing_if = "Option::is_none")]
    reason: Option<String>,
    #[serde(skip_serializing_if = "Option::is_none")]
    response: Option<u32>,
    #[serde(skip_serializing_if = "Option::is_none")]
    rule: Option<u32>,
    #[serde(skip_serializing_if = "Option::is_none")]
    signer: Option<&'a str>,
    #[serde(skip_serializing_if = "Option::is_none")]
    ticket: Option<Hex>,
    #[serde(skip_serializing_if = "Option::is_none")]
    verstat: Option<&'a str>,
    #[serde(skip_serializing_if = "Option::is_none")]
    x5u: Option<&'a str>,
}

/// A ticket, in hexadecimal digits of lower case.
#[derive(Debug)]
struct Hex([u8; 32]);

impl Serialize for Hex {
    fn serialize<S: Serializer>(&self, to: S) -> Result<S::Ok, S::Error> {
        let mut text = Vec::with_capacity(64);
        crate::files::push_hex(&mut text, &self.0);
        to.serialize_str(&String::from_utf8_lossy(&text))
    }
}

impl<'a> Told<'a> {
    /// What is told of a call that was judged by itself.
    pub fn of(judged: &'a Judged) -> Told<'a> {
        let (verdict, passes) = match &judged.outcome {
            Outcome::Passes(passes) => (Verdict::Valid, Some(passes)),
            Outcome::Refused(refused) => (Verdict::Refused(*refused), None),
            Outcome::Unread(field) => (Verdict::Unread(*field), None),
        };
        let row = judged.about.as_deref();
        let row = row.map(|about| Row::of(judged.number, judged.moment, about, &verdict));
        let text = |of: fn(&Row<'a>) -> &'a str| row.as_ref().map(of).filter(|it| !it.is_empty());
        let is_judged = passes.is_none();
        Told {
            answer: if is_judged { verdict.answer().word() } else { "passes" },
            attestation: text(|row| row.attestation),
            call_id: text(|row| row.call_id),
            called: text(|row| if row.called.is_empty() { row.to } else { row.called }),
            caller: text(|row| if row.caller.is_empty() { row.from } else { row.caller }),
            fault: None,
            last: passes.map(|passes| passes.last),
            named: text(|row| row.named),
            origid: text(|row| row.origid),
            phrase: Some(verdict.phrase()).filter(|it| !it.is_empty()),
            place: verdict.place(),
            reason: Some(verdict.reason()).filter(|it| !it.is_empty()),
            response: verdict.response(),
            rule: verdict.rule(),
            signer: text(|row| row.signer),
            ticket: passes.map(|passes| Hex(passes.ticket)),
            verstat: is_judged.then(|| verdict.verstat()),
            x5u: text(|row| row.x5u),
        }
    }

    /// What is told of a line that has no verdict.
    pub fn of_fault(fault: &LineFault) -> Told<'static> {
        Told { answer: "fault", fault: Some(fault.to_string()), ..Told::default() }
    }
}
