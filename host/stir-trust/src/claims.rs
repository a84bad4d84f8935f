//! What a PASSporT claims (RFC 8225, section 5; RFC 8588, sections 4 and 5; RFC 8946, section 4),
//! of its payload as the proved library writes it. Whoever sent the call claimed it.
use serde::Deserialize;
use serde_json::Value;

/// The claims of a PASSporT that are told.
///
/// ```
/// use stir_trust::claims::Claimed;
///
/// let payload = r#"{"attest":"A","dest":{"tn":["2"]},"iat":7,"orig":{"tn":"1"},"origid":"x"}"#;
/// let claimed = Claimed::of(payload);
/// assert_eq!((claimed.orig.as_str(), claimed.iat), ("1", Some(7)));
/// assert_eq!(claimed.attest.as_deref(), Some("A"));
/// ```
#[derive(Clone, Debug, Default, PartialEq, Eq)]
pub struct Claimed {
    /// How well the caller is known, if that is a text.
    pub attest: Option<String>,
    /// The numbers that are called.
    pub dest: Vec<String>,
    /// The number that was called before, of a call that was diverted.
    pub div: Option<String>,
    /// When it was signed, in Unix seconds.
    pub iat: Option<u64>,
    /// The number that calls.
    pub orig: String,
    /// The identifier of the call or of its origin, if that is a text.
    pub origid: Option<String>,
}

/// A payload whose rules 6 and 7 hold. A PASSporT without a type may have any value in the place of
/// a claim that it needn't have.
#[derive(Default, Deserialize)]
#[serde(default)]
struct Payload {
    attest: Value,
    dest: Dest,
    div: Value,
    iat: Option<u64>,
    orig: Orig,
    origid: Value,
}

#[derive(Default, Deserialize)]
#[serde(default)]
struct Orig {
    tn: String,
}

#[derive(Default, Deserialize)]
#[serde(default)]
struct Dest {
    tn: Vec<String>,
}

/// A text; nothing if it is another value.
fn text(value: Value) -> Option<String> {
    match value {
        Value::String(text) => Some(text),
        _ => None,
    }
}

impl Claimed {
    /// The claims of a payload; none if it can't be read.
    pub fn of(payload: &str) -> Claimed {
        let payload: Payload = serde_json::from_str(payload).unwrap_or_default();
        let Payload { attest, dest, mut div, iat, orig, origid } = payload;
        Claimed {
            attest: text(attest),
            dest: dest.tn,
            div: div.get_mut("tn").map(Value::take).and_then(text),
            iat,
            orig: orig.tn,
            origid: text(origid),
        }
    }
}

#[cfg(test)]
mod tests {
    use super::*;

    #[test]
    fn claims_are_told_whatever_else_stands_in_a_payload() {
        for (payload, told) in [
            (
                r#"{"attest":"A","dest":{"tn":["1","2"]},"iat":1,"orig":{"tn":"3"},"origid":"x"}"#,
                "3 1,2 A x - 1",
            ),
            (
                r#"{"attest":[1,{"a":null}],"dest":{"tn":["1"]},"orig":{"tn":"3"},"z":7}"#,
                "3 1 - - - -",
            ),
            (
                r#"{"attest":"\"\u00e9","dest":{"tn":["1"]},"orig":{"tn":"*#"}}"#,
                "*# 1 \"\u{e9} - - -",
            ),
            (r#"{"attest":true,"dest":{"tn":["1"]},"orig":{"tn":"3"},"origid":-7}"#, "3 1 - - - -"),
            (r#"{"dest":{"tn":["1"]},"div":{"tn":"2"},"iat":9,"orig":{"tn":"3"}}"#, "3 1 - - 2 9"),
            (r#"{"dest":{"tn":["1"]},"div":[{}],"iat":9,"orig":{"tn":"3"}}"#, "3 1 - - - 9"),
            ("", "  - - - -"),
        ] {
            let it = Claimed::of(payload);
            let or = |text: Option<String>| text.unwrap_or_else(|| "-".into());
            let iat = or(it.iat.map(|iat| iat.to_string()));
            let (attest, origid, div) = (or(it.attest), or(it.origid), or(it.div));
            let all = [it.orig, it.dest.join(","), attest, origid, div, iat].join(" ");
            assert_eq!(all, told, "{payload}");
        }
    }
}
