//! Calls that go on to another number (RFC 8946): their diversion signed, from numbers in JSON or
//! of a whole message.
use crate::answers::Answer;
use crate::atis::{self, Given, Number, Refusal};
use crate::clients::Sender;
use crate::files::diverting::{Diverted, Target, Unsent};
use crate::files::signing::{self, Unsigned};
use crate::judge::Onward;
use crate::routes::{Request, Service};
use crate::told;
use hyper::StatusCode;
use percent_encoding::percent_decode_str;
use serde::de::IgnoredAny;
use serde::{Deserialize, Serialize};
use stir::{Call, Held};

/// The media type of a message (RFC 3261, section 27.5).
const SIP: &str = "message/sip";

/// The answer that is a message.
fn sip(message: Vec<u8>) -> Answer {
    Answer { kind: SIP, ..Answer::text(StatusCode::OK, message) }
}

/// What a request to sign a diversion says.
///
/// ```
/// use stird::diverting::Diversion;
///
/// let body = br#"{"signingRequest":{"orig":{"tn":"12155551212"},"dest":{"tn":["12125551214"]},
///     "div":{"tn":"+12125551213"}}}"#;
/// let diversion = Diversion::read(body).expect("a request").expect("one of a diversion");
/// assert_eq!(diversion.earlier, "12125551213");
/// assert!(diversion.message.starts_with(b"INVITE sip:+12125551214@"));
/// ```
#[derive(Debug, PartialEq, Eq)]
pub struct Diversion {
    /// The number that was called before.
    pub earlier: String,
    /// An INVITE from the number that calls to the one that is called now.
    pub message: Vec<u8>,
    /// The second of the PASSporT, if it is said.
    pub time: Option<u64>,
}

/// The body of such a request.
#[derive(Deserialize)]
struct Body {
    #[serde(rename = "signingRequest")]
    request: Wanted,
}

#[derive(Deserialize)]
struct Wanted {
    orig: Number,
    dest: Number,
    div: Number,
    #[serde(default)]
    iat: Given<u64>,
    #[serde(default)]
    attest: Given<IgnoredAny>,
    #[serde(default)]
    origid: Given<IgnoredAny>,
}

/// The member by which a request is known as one of a diversion.
#[derive(Deserialize)]
struct Known {
    #[serde(rename = "signingRequest")]
    request: KnownRequest,
}

#[derive(Deserialize)]
struct KnownRequest {
    #[serde(default)]
    div: Given<IgnoredAny>,
}

impl Diversion {
    /// What a body says that has a `div`; nothing if it has none.
    ///
    /// # Errors
    ///
    /// A member is missing, or a value is none; `attest` and `origid` are claims of another type of
    /// PASSporT.
    pub fn read(body: &[u8]) -> Result<Option<Diversion>, Refusal> {
        let is_one = serde_json::from_slice(body).is_ok_and(|it: Known| it.request.div.0.is_some());
        if !is_one {
            return Ok(None);
        }
        let Body { request: Wanted { orig, dest, div, iat, attest, origid } } = atis::read(body)?;
        if attest.0.is_some() || origid.0.is_some() {
            return Err(atis::BAD_VALUE);
        }
        let message = atis::invite(&orig.text()?, &dest.text()?, &[]);
        Ok(Some(Diversion { earlier: div.text()?, message, time: iat.0 }))
    }
}

/// A call that passes but for its ticket and can't go on, as JSON.
#[derive(Serialize)]
struct Stays {
    code: u32,
    outcome: &'static str,
    reason: String,
    rule: u32,
    verstat: &'static str,
}

fn stays(held: Held) -> Answer {
    let stays = Stays {
        code: 0,
        outcome: "held",
        reason: held.to_string(),
        rule: held.number(),
        verstat: "No-TN-Validation",
    };
    Answer::json(StatusCode::OK, &stays).with_line_end()
}

/// The value of a query that has this member alone, each byte as it is or by `%`.
fn value_of(query: Option<&str>, name: &str) -> Result<String, Refusal> {
    let mut members = query.unwrap_or_default().split('&').filter(|member| !member.is_empty());
    let value = match (members.next().map(|member| member.split_once('=')), members.next()) {
        (None, _) => return Err(atis::MISSING),
        (Some(Some((found, value))), None) if found == name => value,
        _ => return Err(atis::BAD_VALUE),
    };
    let value = percent_decode_str(value).decode_utf8().map_err(|_| atis::BAD_VALUE)?;
    Ok(value.into_owned())
}

impl Service {
    /// The answer to a request to sign the diversion of some numbers.
    pub(crate) fn sign_diversion(
        &self,
        diversion: Result<Diversion, Refusal>,
        sender: &Sender,
    ) -> Answer {
        let made = diversion.and_then(|Diversion { earlier, message, time }| {
            self.diverted(&earlier, &message, self.moment(time), sender)
        });
        let made = made.and_then(|message| signing::identity(&message).ok_or(atis::FAILED));
        self.made(sender, made, |identity| atis::signed(&identity))
    }

    /// The answer to a message that goes on from the number that the query names.
    pub(crate) fn divert(&self, request: &Request, sender: &Sender) -> Answer {
        let earlier = value_of(request.query.as_deref(), "div");
        let made = earlier.and_then(|text| atis::number(&text)).and_then(|earlier| {
            self.diverted(&earlier, &request.body, self.moment(request.moment), sender)
        });
        self.made(sender, made, sip)
    }

    /// The answer of what was made for a sender, which is counted.
    fn made<T>(
        &self,
        sender: &Sender,
        made: Result<T, Refusal>,
        answer: impl FnOnce(T) -> Answer,
    ) -> Answer {
        self.count(sender, made.as_ref().map(|_| false));
        made.map_or_else(|refusal| self.refuse(&refusal), answer)
    }

    /// The message that goes on from a number, with one more Identity field.
    fn diverted(
        &self,
        earlier: &str,
        message: &[u8],
        iat: u64,
        sender: &Sender,
    ) -> Result<Vec<u8>, Refusal> {
        let made = sender.may_sign(earlier, None).and_then(|_| {
            let blocks = self.blocks.as_ref().ok_or(Unsigned::NotOurs)?.load();
            blocks.divert(&Diverted { earlier, message, iat })
        });
        self.judge.metrics.sign(made.is_ok());
        Ok(made?)
    }

    /// The answer to a call that is to go on to the target that the query names: the message that
    /// goes on, or what came of the call.
    pub(crate) async fn retarget(&self, request: &Request, sender: &Sender) -> Answer {
        let (target, blocks) = match (value_of(request.query.as_deref(), "to"), &self.blocks) {
            (Ok(target), Some(blocks)) => (target, blocks.load_full()),
            (Err(refusal), _) => return self.refuse(&refusal),
            (_, None) => return self.refuse(&atis::NOT_OURS),
        };
        let moment = self.moment(request.moment);
        let world = self.judge.world.load_full();
        let may_sign = |number: &str| sender.may_sign(number, None).is_ok();
        let target = Target { uri: &target, iat: moment, world: &world, may_sign: &may_sign };
        let made = |call: &mut Call, good: &[bool]| blocks.retarget(call, good, &target);
        match self.judge.onward(&request.body, moment, made).await {
            Onward::Goes(message) => {
                self.judge.metrics.sign(true);
                self.made(sender, Ok(message), sip)
            }
            Onward::Judged(judged) => told::json(&judged),
            Onward::Stays(Unsent::Held(held)) => {
                self.judge.metrics.held.inc();
                stays(held)
            }
            Onward::Stays(Unsent::Unsigned(why)) => {
                self.judge.metrics.sign(false);
                self.made(sender, Err(why.into()), sip)
            }
        }
    }
}

#[cfg(test)]
mod tests {
    use super::*;

    #[test]
    fn a_request_is_one_of_a_diversion_if_it_has_a_div() {
        let with = |members: &str| {
            format!(
                r#"{{"signingRequest":{{"orig":{{"tn":"1"}},"dest":{{"tn":["2"]}}{members}}}}}"#
            )
        };
        for (members, wanted) in [
            ("", Ok(None)),
            (r#","attest":"A","origid":"u""#, Ok(None)),
            (r#","div":{"tn":"3"}"#, Ok(Some(("3", None)))),
            (r#","div":{"tn":["+3"]},"iat":7"#, Ok(Some(("3", Some(7))))),
            (r#","div":null"#, Err(atis::MISSING)),
            (r#","div":"3""#, Err(atis::MISSING)),
            (r#","div":{"tn":"3"},"iat":null"#, Err(atis::MISSING)),
            (r#","div":{"tn":"3x"}"#, Err(atis::BAD_VALUE)),
            (r#","div":{"tn":"3"},"attest":"A""#, Err(atis::BAD_VALUE)),
            (r#","div":{"tn":"3"},"attest":null"#, Err(atis::BAD_VALUE)),
            (r#","div":{"tn":"3"},"origid":"u""#, Err(atis::BAD_VALUE)),
        ] {
            let read = Diversion::read(with(members).as_bytes());
            let told = read.as_ref().map(|read| read.as_ref().map(|it| (&*it.earlier, it.time)));
            assert_eq!(told, wanted.as_ref().map(|it| it.as_ref().copied()), "{members}");
        }
        for body in ["", "{", "[]", r#"{"signingRequest":[]}"#, r#"{"div":{"tn":"3"}}"#] {
            assert_eq!(Diversion::read(body.as_bytes()), Ok(None), "{body}");
        }
    }

    #[test]
    fn a_query_has_one_member_alone() {
        for (query, wanted) in [
            ("div=12125551213", Ok("12125551213")),
            ("div=%2B1%232*", Ok("+1#2*")),
            ("div=+1&", Ok("+1")),
            ("div=", Ok("")),
            ("div=a=b", Ok("a=b")),
            ("", Err(atis::MISSING)),
            ("&", Err(atis::MISSING)),
            ("div", Err(atis::BAD_VALUE)),
            ("Div=1", Err(atis::BAD_VALUE)),
            ("div=1&div=1", Err(atis::BAD_VALUE)),
            ("div=1&x=2", Err(atis::BAD_VALUE)),
            ("x=2&div=1", Err(atis::BAD_VALUE)),
            ("div=%ff", Err(atis::BAD_VALUE)),
        ] {
            let value = value_of(Some(query), "div");
            assert_eq!(value.as_deref(), wanted.as_ref().copied(), "{query}");
        }
        assert_eq!(value_of(None, "div"), Err(atis::MISSING));
    }
}
