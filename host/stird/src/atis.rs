//! Requests in the manner of ATIS-1000082: JSON that says of a call what an INVITE says, and JSON
//! back.
use crate::answers::Answer;
use crate::files::signing::{attest_of, Unsigned};
use crate::judge::{reason_of, Judged, Outcome};
use hyper::StatusCode;
use serde::de::DeserializeOwned;
use serde::{Deserialize, Deserializer, Serialize};
use serde_json::Value;
use stir::{Attest, Rule};

/// Why a request is refused, as an exception of its document: an identifier and a text.
#[derive(Debug, PartialEq, Eq)]
pub struct Refusal {
    /// The status of the answer.
    pub status: StatusCode,
    /// The identifier.
    pub id: &'static str,
    /// The text.
    pub text: &'static str,
}

const fn refusal(status: StatusCode, id: &'static str, text: &'static str) -> Refusal {
    Refusal { status, id, text }
}

/// There is no body.
pub const NO_BODY: Refusal =
    refusal(StatusCode::BAD_REQUEST, "SVC4000", "Error: Missing request body.");
/// The body is no JSON.
pub const BAD_JSON: Refusal = refusal(StatusCode::BAD_REQUEST, "SVC4003", "Error: Invalid JSON.");
/// A member is missing, or of another type.
pub const MISSING: Refusal = refusal(
    StatusCode::BAD_REQUEST,
    "SVC4001",
    "Error: Missing mandatory parameter or wrong type.",
);
/// A value is none.
pub const BAD_VALUE: Refusal =
    refusal(StatusCode::BAD_REQUEST, "SVC4005", "Error: Invalid parameter value.");
/// No block has the number. This one and those after it aren't in the document.
pub const NOT_OURS: Refusal =
    refusal(StatusCode::FORBIDDEN, "POL4030", "Error: This number isn't signed for.");
/// The caller may not have calls signed.
pub const NOT_ALLOWED: Refusal =
    refusal(StatusCode::FORBIDDEN, "POL4031", "Error: Calls aren't signed for this sender.");
/// The caller has no token.
pub const NO_TOKEN: Refusal =
    refusal(StatusCode::UNAUTHORIZED, "POL4010", "Error: A token is wanted.");
/// The certificate isn't valid at the second of signing.
pub const NOT_VALID: Refusal = refusal(
    StatusCode::INTERNAL_SERVER_ERROR,
    "SVC5001",
    "Error: The certificate of this number isn't valid now.",
);
/// The key or the memory failed.
pub const FAILED: Refusal =
    refusal(StatusCode::INTERNAL_SERVER_ERROR, "SVC5000", "Error: The call can't be signed now.");

#[derive(Serialize)]
#[serde(rename_all = "camelCase")]
struct Exception {
    message_id: &'static str,
    text: &'static str,
}

#[derive(Serialize)]
#[serde(rename_all = "camelCase")]
enum Exceptions {
    PolicyException(Exception),
    ServiceException(Exception),
}

#[derive(Serialize)]
#[serde(rename_all = "camelCase")]
struct RequestError {
    request_error: Exceptions,
}

/// What is answered if nothing is signed.
impl From<Unsigned> for Refusal {
    fn from(why: Unsigned) -> Refusal {
        match why {
            Unsigned::NotOurs => NOT_OURS,
            Unsigned::NoAttest => MISSING,
            Unsigned::BadValue => BAD_VALUE,
            Unsigned::NotValid => NOT_VALID,
            Unsigned::Failed => FAILED,
        }
    }
}

impl Refusal {
    /// The answer that says so.
    pub fn answer(&self) -> Answer {
        let exception = Exception { message_id: self.id, text: self.text };
        let request_error = match self.id.starts_with("POL") {
            true => Exceptions::PolicyException(exception),
            false => Exceptions::ServiceException(exception),
        };
        Answer::json(self.status, &RequestError { request_error })
    }
}

/// What a request to verify a call says.
#[derive(Debug, PartialEq, Eq)]
pub struct Verification {
    /// The INVITE.
    pub message: Vec<u8>,
    /// The moment of the call, if it is said.
    pub time: Option<u64>,
}

/// What a request to sign a call says: who calls, the INVITE, the second in Unix time, the
/// identifier of the call, and the best attestation that is wanted.
#[derive(Debug, PartialEq, Eq)]
pub struct Signing {
    /// The number that calls.
    pub orig: String,
    /// The INVITE.
    pub message: Vec<u8>,
    /// The second of the PASSporT, if it is said.
    pub time: Option<u64>,
    /// The identifier, if it is said.
    pub origid: Option<String>,
    /// The best attestation, if it is said.
    pub attest: Option<Attest>,
}

/// The body of a request to verify.
#[derive(Deserialize)]
struct VerificationBody {
    #[serde(rename = "verificationRequest")]
    request: VerificationRequest,
}

#[derive(Deserialize)]
struct VerificationRequest {
    from: Number,
    to: Number,
    #[serde(default, deserialize_with = "given")]
    time: Option<u64>,
    #[serde(default, deserialize_with = "given")]
    identity: Option<String>,
    #[serde(default, deserialize_with = "given")]
    identities: Option<Vec<String>>,
}

/// The body of a request to sign.
#[derive(Deserialize)]
struct SigningBody {
    #[serde(rename = "signingRequest")]
    request: SigningRequest,
}

#[derive(Deserialize)]
struct SigningRequest {
    orig: Number,
    dest: Number,
    #[serde(default, deserialize_with = "given")]
    iat: Option<u64>,
    #[serde(default, deserialize_with = "given")]
    origid: Option<String>,
    #[serde(default, deserialize_with = "given")]
    attest: Option<String>,
}

#[derive(Deserialize)]
pub(crate) struct Number {
    tn: Numbers,
}

#[derive(Deserialize)]
#[serde(untagged)]
enum Numbers {
    One(String),
    Several(Vec<String>),
}

/// A member that may be missing, but isn't `null`.
fn given<'de, D, T>(value: D) -> Result<Option<T>, D::Error>
where
    D: Deserializer<'de>,
    T: Deserialize<'de>,
{
    T::deserialize(value).map(Some)
}

/// The same as a type.
#[derive(Deserialize)]
#[serde(bound = "T: Deserialize<'de>")]
pub(crate) struct Given<T>(#[serde(deserialize_with = "given")] pub Option<T>);

impl<T> Default for Given<T> {
    fn default() -> Given<T> {
        Given(None)
    }
}

/// The value of a body: first it has to be JSON, and then of this form.
pub(crate) fn read<T: DeserializeOwned>(body: &[u8]) -> Result<T, Refusal> {
    if body.is_empty() {
        return Err(NO_BODY);
    }
    let value: Value = serde_json::from_slice(body).map_err(|_| BAD_JSON)?;
    serde_json::from_value(value).map_err(|_| MISSING)
}

impl Number {
    /// The number, or the first of those in a list.
    pub(crate) fn text(self) -> Result<String, Refusal> {
        number(&match self.tn {
            Numbers::One(text) => text,
            Numbers::Several(texts) => texts.into_iter().next().ok_or(MISSING)?,
        })
    }
}

/// A number: 1 to 15 digits, perhaps behind a `+`.
pub(crate) fn number(text: &str) -> Result<String, Refusal> {
    let digits = text.strip_prefix('+').unwrap_or(text);
    let good = (1..=15).contains(&digits.len())
        && digits.bytes().all(|byte| byte.is_ascii_digit() || b"*#".contains(&byte));
    good.then(|| digits.into()).ok_or(BAD_VALUE)
}

/// The Identity values: one, or a list. None may have a line end in it, or it would be more than a
/// value.
fn identities(one: Option<String>, list: Option<Vec<String>>) -> Result<Vec<String>, Refusal> {
    let values = match (one, list) {
        (Some(one), None) => vec![one],
        (None, Some(list)) => list,
        _ => return Err(MISSING),
    };
    match values.iter().any(|value| value.contains(['\r', '\n', '\0'])) {
        true => Err(BAD_VALUE),
        false => Ok(values),
    }
}

/// The INVITE that a call from one number to another is, with these fields beside the needed ones.
pub fn invite(orig: &str, dest: &str, fields: &[(&str, &str)]) -> Vec<u8> {
    let mut message = format!(
        "INVITE sip:{0}@stird.invalid;user=phone SIP/2.0\r\n\
         Via: SIP/2.0/TCP stird.invalid;branch=z9hG4bKstird\r\n\
         Max-Forwards: 70\r\n\
         From: <sip:{1}@stird.invalid;user=phone>;tag=stird\r\n\
         To: <sip:{0}@stird.invalid;user=phone>\r\n\
         Call-ID: stird\r\n\
         CSeq: 1 INVITE\r\n",
        address(dest),
        address(orig)
    );
    for (name, value) in fields {
        message += &format!("{name}: {value}\r\n");
    }
    message += "Content-Length: 0\r\n\r\n";
    message.into_bytes()
}

/// A number as the user of a URI: `#` is written by its code (RFC 3261, section 25.1). Digits alone
/// are an international number.
fn address(number: &str) -> String {
    if number.bytes().all(|byte| byte.is_ascii_digit()) {
        format!("+{number}")
    } else {
        number.replace('#', "%23")
    }
}

/// A request to `/stir/v1/verification`.
///
/// # Errors
///
/// The body is no such request.
///
/// ```
/// use stird::atis::{verification, NO_BODY};
///
/// let body = br#"{"verificationRequest":{"from":{"tn":"12155551212"},"to":{"tn":"12355550124"},
///     "identity":"a.b.c;info=<https://d>"}}"#;
/// let message = verification(body).expect("a request").message;
/// assert!(message.starts_with(b"INVITE sip:+12355550124@"));
/// assert_eq!(verification(b"").err(), Some(NO_BODY));
/// ```
pub fn verification(body: &[u8]) -> Result<Verification, Refusal> {
    let VerificationBody { request } = read(body)?;
    let (from, to) = (request.from.text()?, request.to.text()?);
    let values = identities(request.identity, request.identities)?;
    let fields: Vec<(&str, &str)> =
        values.iter().map(|value| ("Identity", value.as_str())).collect();
    Ok(Verification { message: invite(&from, &to, &fields), time: request.time })
}

/// A request to `/stir/v1/signing`.
///
/// # Errors
///
/// The body is no such request.
pub fn signing(body: &[u8]) -> Result<Signing, Refusal> {
    let SigningBody { request } = read(body)?;
    let (from, to) = (request.orig.text()?, request.dest.text()?);
    let attest = request.attest.as_deref().map(|letter| attest_of(letter).ok_or(BAD_VALUE));
    Ok(Signing {
        message: invite(&from, &to, &[]),
        orig: from,
        time: request.iat,
        origid: request.origid,
        attest: attest.transpose()?,
    })
}

#[derive(Serialize)]
struct SigningResponse<'a> {
    identity: &'a str,
}

#[derive(Serialize)]
#[serde(rename_all = "camelCase")]
struct Signed<'a> {
    signing_response: SigningResponse<'a>,
}

/// The answer to it.
pub fn signed(identity: &str) -> Answer {
    let signing_response = SigningResponse { identity };
    Answer::json(StatusCode::OK, &Signed { signing_response })
}

#[derive(Serialize)]
struct VerificationResponse {
    #[serde(skip_serializing_if = "Option::is_none")]
    reasoncode: Option<String>,
    #[serde(skip_serializing_if = "Option::is_none")]
    reasondesc: Option<String>,
    #[serde(skip_serializing_if = "Option::is_none")]
    reasontext: Option<&'static str>,
    verstat: &'static str,
}

#[derive(Serialize)]
#[serde(rename_all = "camelCase")]
struct Verified {
    verification_response: VerificationResponse,
}

/// The number of the rule on chains that aren't there.
const NO_CHAIN: u32 = 10;

/// The answer to a request to verify a call. Why it isn't valid is said by the rule, the place and
/// the rule in words, with its section.
pub fn verified(judged: &Judged) -> Answer {
    let outcome = &judged.outcome;
    let reason = match outcome {
        Outcome::Replay { winner } => {
            Some(format!("rule 18, the ticket passed with call {winner}"))
        }
        Outcome::Refused { rule, field, part, .. } => {
            let certificates = judged.certificates.filter(|_| *rule == NO_CHAIN);
            let certificates = certificates.map(|words| format!(", certificates {words}"));
            let certificates = certificates.unwrap_or_default();
            let spoilt = judged.spoilt.map(|spoilt| format!(", {spoilt}")).unwrap_or_default();
            Some(format!("rule {rule} at {field}.{part}{certificates}{spoilt}"))
        }
        Outcome::Valid | Outcome::Unjudged => None,
    };
    let in_words = Rule::of(outcome.rule());
    let in_words = in_words.map(|rule| format!(": {} ({})", rule.broken, rule.standard));
    let verification_response = VerificationResponse {
        reasoncode: reason.is_some().then(|| outcome.code().to_string()),
        reasontext: reason.is_some().then(|| reason_of(outcome.code())),
        reasondesc: reason.map(|reason| reason + &in_words.unwrap_or_default()),
        verstat: judged.verstat,
    };
    Answer::json(StatusCode::OK, &Verified { verification_response })
}

#[cfg(test)]
mod tests {
    use super::*;
    use crate::fetching::Certificates;

    #[test]
    fn a_verification_request_becomes_an_invite() {
        let body = br#"{"verificationRequest":{"from":{"tn":"12155551212"},
            "to":{"tn":["+12355550124"]},
            "time":1504282247,"identity":"a..b;info=<https://c>"}}"#;
        let request = verification(body).unwrap();
        let text = String::from_utf8(request.message).unwrap();
        assert!(
            text.starts_with("INVITE sip:+12355550124@")
                && text.contains("\r\nIdentity: a..b;info=<https://c>\r\n")
                && text.ends_with("\r\n\r\n")
        );
        assert!(text.contains("From: <sip:+12155551212@"));
        assert_eq!(request.time, Some(1_504_282_247));
    }

    #[test]
    fn a_signing_request_becomes_an_invite_without_a_field() {
        let body = br#"{"signingRequest":{"attest":"B","orig":{"tn":"12155551212"},
            "dest":{"tn":["12355550124"]},"iat":1443208345,
            "origid":"123e4567-e89b-12d3-a456-426655440000"}}"#;
        let request = signing(body).unwrap();
        let text = String::from_utf8(request.message).unwrap();
        assert!(text.starts_with("INVITE sip:+12355550124@") && !text.contains("Identity"));
        assert_eq!(
            (request.orig.as_str(), request.time, request.attest),
            ("12155551212", Some(1_443_208_345), Some(Attest::B))
        );
        let silent = br#"{"signingRequest":{"orig":{"tn":"1"},"dest":{"tn":"2"},"origid":"u"}}"#;
        assert_eq!(signing(silent).map(|request| request.attest), Ok(None));
        let unnamed = br#"{"signingRequest":{"orig":{"tn":"1"},"dest":{"tn":"2"},"attest":"A"}}"#;
        assert_eq!(signing(unnamed).map(|request| request.origid), Ok(None));
        for body in [
            r#"{"signingRequest":{"orig":{"tn":"1"},"dest":{"tn":"2"},"origid":null,
                "attest":"A"}}"#,
            r#"{"signingRequest":{"orig":{"tn":"1"},"dest":{"tn":"2"},"origid":1,"attest":"A"}}"#,
            r#"{"signingRequest":{"orig":{"tn":"1"},"dest":{"tn":"2"},"origid":"u",
                "attest":null}}"#,
            r#"{"signingRequest":{"orig":{"tn":[]},"dest":{"tn":"2"},"origid":"u","attest":"A"}}"#,
            r#"{"signingRequest":{"orig":{"tn":"1"},"dest":{"tn":"2"},"origid":"u","attest":1}}"#,
        ] {
            assert_eq!(signing(body.as_bytes()), Err(MISSING), "{body}");
        }
        let unknown = br#"{"signingRequest":{"orig":{"tn":"1"},"dest":{"tn":"2"},"origid":"u",
            "attest":"D"}}"#;
        assert_eq!(signing(unknown), Err(BAD_VALUE));
    }

    #[test]
    fn what_cant_be_a_request_is_refused() {
        for (body, refusal) in [
            ("", NO_BODY),
            ("{", BAD_JSON),
            ("[]", MISSING),
            (
                r#"{"verificationRequest":{"from":{"tn":"1"},"to":{"tn":"2"},"identity":"a",
                    "time":null}}"#,
                MISSING,
            ),
            (
                r#"{"verificationRequest":{"from":{"tn":"1"},"to":{"tn":"2"},"identity":"a",
                    "identities":[]}}"#,
                MISSING,
            ),
            (r#"{"verificationRequest":[]}"#, MISSING),
            (r#"{"verificationRequest":{"from":{"tn":"1"},"to":{"tn":"2"}}}"#, MISSING),
            (
                r#"{"verificationRequest":{"from":{"tn":"1x"},"to":{"tn":"2"},"identity":"a"}}"#,
                BAD_VALUE,
            ),
            (
                r#"{"verificationRequest":{"from":{"tn":"1"},"to":{"tn":"2"},
                    "identity":"a\r\nFrom: x"}}"#,
                BAD_VALUE,
            ),
        ] {
            assert_eq!(verification(body.as_bytes()), Err(refusal), "{body}");
        }
    }

    /// The body of an answer.
    fn body(answer: &Answer) -> &str {
        std::str::from_utf8(&answer.body).expect("text")
    }

    #[test]
    fn a_refusal_says_whose_exception_it_is() {
        assert_eq!(
            body(&MISSING.answer()),
            concat!(
                r#"{"requestError":{"serviceException":{"messageId":"SVC4001","#,
                r#""text":"Error: Missing mandatory parameter or wrong type."}}}"#
            )
        );
        let answer = NO_TOKEN.answer();
        assert!(body(&answer).starts_with(r#"{"requestError":{"policyException":{"messageId":"#));
        assert_eq!((answer.status.as_u16(), answer.kind), (401, "application/json"));
    }

    #[test]
    fn an_answer_has_reasons_if_the_call_isnt_valid() {
        for (outcome, wanted) in [
            (Outcome::Valid, r#"{"verificationResponse":{"verstat":"TN-Validation-Passed"}}"#),
            (
                Outcome::Refused { rule: 6, code: 438, field: 1, part: 14 },
                concat!(
                    r#"{"verificationResponse":{"reasoncode":"438","reasondesc":"rule 6 at 1.14: "#,
                    r#"the PASSporT can't be read (RFC 8225, sections 3 to 5)","#,
                    r#""reasontext":"Invalid Identity Header","verstat":"TN-Validation-Failed"}}"#
                ),
            ),
            (
                Outcome::Replay { winner: 7 },
                concat!(
                    r#"{"verificationResponse":{"reasoncode":"438","#,
                    r#""reasondesc":"rule 18, the ticket passed with call 7: "#,
                    r#"the PASSporT passed before (our own rule)","#,
                    r#""reasontext":"Invalid Identity Header","verstat":"TN-Validation-Failed"}}"#
                ),
            ),
            (Outcome::Unjudged, r#"{"verificationResponse":{"verstat":"No-TN-Validation"}}"#),
        ] {
            let judged = Judged::new(1, outcome);
            assert_eq!(body(&verified(&judged)), wanted);
        }
    }

    #[test]
    fn of_certificates_that_arent_there_it_is_said_why() {
        let wanted = |rule, text: &str| {
            let outcome = Outcome::Refused { rule, code: 436, field: 1, part: 0 };
            let certificates = Some(Certificates::Failed("tls"));
            let answer = verified(&Judged { certificates, ..Judged::new(1, outcome) });
            assert!(body(&answer).contains(&format!("\"reasondesc\":\"{text}\"")), "{answer:?}");
        };
        let ten = "the certificates of this x5u aren't there (RFC 8224, section 6.2.2)";
        wanted(10, &format!("rule 10 at 1.0, certificates failed tls: {ten}"));
        let twelve = "the certificates lead to no trust anchor (RFC 5280, section 6.1)";
        wanted(12, &format!("rule 12 at 1.0: {twelve}"));
    }
}
