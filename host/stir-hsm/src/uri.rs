//! URIs of keys on tokens (RFC 7512).
use percent_encoding::percent_decode_str;
use std::collections::BTreeSet;
use std::ffi::{c_ulong, OsString};
use std::fmt;
use std::os::unix::ffi::OsStringExt;
use std::path::{Path, PathBuf};
use std::str::FromStr;
use thiserror::Error;

/// The most letters of a URI.
const MOST_LETTERS: usize = 4096;

/// Which key of which token is meant, and where its PIN is found: a URI of RFC 7512. The PIN itself
/// never stands in it.
///
/// ```
/// use stir_hsm::KeyUri;
///
/// let uri: KeyUri = "pkcs11:token=My%20token;object=k1?pin-source=file:/etc/pin".parse()?;
/// assert_eq!(uri.pin_source(), Some("/etc/pin".as_ref()));
/// assert_eq!(uri.module(), None);
/// # Ok::<(), stir_hsm::UriFault>(())
/// ```
#[derive(Clone, Debug, Hash, PartialEq, Eq)]
pub struct KeyUri {
    text: String,
    pub(crate) token: Option<Vec<u8>>,
    pub(crate) manufacturer: Option<Vec<u8>>,
    pub(crate) model: Option<Vec<u8>>,
    pub(crate) serial: Option<Vec<u8>>,
    pub(crate) slot: Option<c_ulong>,
    pub(crate) object: Option<Vec<u8>>,
    pub(crate) id: Option<Vec<u8>>,
    pin_source: Option<PathBuf>,
    module: Option<PathBuf>,
}

/// Why a text isn't taken as the URI of a key.
///
/// ```
/// use stir_hsm::{KeyUri, UriFault};
///
/// let fault = "pkcs11:object=k1?pin-value=4321".parse::<KeyUri>();
/// assert_eq!(fault, Err(UriFault::PinValue));
/// ```
#[derive(Clone, Debug, Error, PartialEq, Eq)]
pub enum UriFault {
    /// It doesn't begin so.
    #[error("it doesn't begin with pkcs11:")]
    Scheme,
    /// It is too long.
    #[error("it has more than {MOST_LETTERS} letters")]
    Long,
    /// A part is no attribute with a value.
    #[error("'{0}' is no attribute with a value")]
    Attribute(String),
    /// An attribute that isn't known here would say which key is meant.
    #[error("the attribute '{0}' isn't known here")]
    Unknown(String),
    /// An attribute stands there twice.
    #[error("the attribute '{0}' stands there twice")]
    Twice(String),
    /// A value isn't one of its attribute.
    #[error("the value of '{0}' is none")]
    Value(String),
    /// Another kind of object is meant.
    #[error("the type of its object isn't private")]
    Type,
    /// It has no name of a key.
    #[error("it has neither object nor id")]
    NoKey,
    /// A PIN stands in it, where others read it.
    #[error("a PIN isn't taken from a URI: write it to a file, and pin-source=file:FILE")]
    PinValue,
}

impl KeyUri {
    /// Whether a text is meant as such a URI.
    ///
    /// ```
    /// assert!(stir_hsm::KeyUri::is_one("pkcs11:object=k1"));
    /// assert!(!stir_hsm::KeyUri::is_one("/etc/stird/key.pem"));
    /// ```
    pub fn is_one(text: &str) -> bool {
        text.get(..7).is_some_and(|scheme| scheme.eq_ignore_ascii_case("pkcs11:"))
    }

    /// The file that has the PIN in its first line, if one is named.
    pub fn pin_source(&self) -> Option<&Path> {
        self.pin_source.as_deref()
    }

    /// The file of the module, if one is named.
    pub fn module(&self) -> Option<&Path> {
        self.module.as_deref()
    }

    /// Whether the keys of both are on the same token, as their words go.
    ///
    /// ```
    /// let uri = |text: &str| text.parse::<stir_hsm::KeyUri>().unwrap();
    /// assert!(uri("pkcs11:token=a;object=1").is_on_token_of(&uri("pkcs11:token=a;object=2")));
    /// assert!(!uri("pkcs11:token=a;object=1").is_on_token_of(&uri("pkcs11:token=b;object=1")));
    /// ```
    pub fn is_on_token_of(&self, other: &KeyUri) -> bool {
        let of = |uri: &KeyUri| KeyUri {
            text: String::new(),
            object: None,
            id: None,
            pin_source: None,
            ..uri.clone()
        };
        of(self) == of(other)
    }

    /// Takes an attribute of the path.
    fn take(&mut self, name: &str, value: &str) -> Result<(), UriFault> {
        let bytes = || Some(percent_decode_str(value).collect::<Vec<u8>>());
        match name {
            "token" => self.token = bytes(),
            "manufacturer" => self.manufacturer = bytes(),
            "model" => self.model = bytes(),
            "serial" => self.serial = bytes(),
            "object" => self.object = bytes(),
            "id" => self.id = bytes(),
            "slot-id" => {
                let slot = value.parse().map_err(|_| UriFault::Value(name.into()))?;
                self.slot = Some(slot);
            }
            "type" if value == "private" => {}
            "type" => return Err(UriFault::Type),
            other => return Err(UriFault::Unknown(other.into())),
        }
        Ok(())
    }

    /// Takes an attribute of the query.
    fn ask(&mut self, name: &str, value: &str) -> Result<(), UriFault> {
        let path = |value: &str| {
            let bytes: Vec<u8> = percent_decode_str(value).collect();
            let path = PathBuf::from(OsString::from_vec(bytes));
            let is_one = path.is_absolute();
            is_one.then_some(path).ok_or_else(|| UriFault::Value(name.into()))
        };
        match name {
            "pin-source" => {
                let file = value.strip_prefix("file:").unwrap_or(value);
                // With an authority, which is empty (RFC 8089, section 2), or without one.
                self.pin_source = Some(path(file.strip_prefix("//").unwrap_or(file))?);
            }
            "module-path" => self.module = Some(path(value)?),
            "pin-value" => return Err(UriFault::PinValue),
            other => return Err(UriFault::Unknown(other.into())),
        }
        Ok(())
    }
}

impl FromStr for KeyUri {
    type Err = UriFault;

    fn from_str(text: &str) -> Result<KeyUri, UriFault> {
        if !KeyUri::is_one(text) {
            return Err(UriFault::Scheme);
        }
        if text.len() > MOST_LETTERS {
            return Err(UriFault::Long);
        }
        let (path, query) = text[7..].split_once('?').unwrap_or((&text[7..], ""));
        let mut uri = KeyUri {
            text: text.into(),
            token: None,
            manufacturer: None,
            model: None,
            serial: None,
            slot: None,
            object: None,
            id: None,
            pin_source: None,
            module: None,
        };
        let mut before = BTreeSet::new();
        let parts = path.split(';').map(|part| (part, true));
        let parts = parts.chain(query.split('&').map(|part| (part, false)));
        for (part, is_of_path) in parts.filter(|(part, _)| !part.is_empty()) {
            let (name, value) = (part.split_once('=').filter(|(_, value)| is_plain(value)))
                .ok_or_else(|| UriFault::Attribute(part.into()))?;
            if !before.insert(name) {
                return Err(UriFault::Twice(name.into()));
            }
            if is_of_path { uri.take(name, value) } else { uri.ask(name, value) }?;
        }
        if uri.object.is_none() && uri.id.is_none() {
            return Err(UriFault::NoKey);
        }
        Ok(uri)
    }
}

/// Whether each letter of a value is one of a URI (RFC 3986, section 2), and each `%` begins two
/// hex digits.
fn is_plain(value: &str) -> bool {
    let mut parts = value.split('%');
    let is_letter = |it: u8| it.is_ascii_graphic() && !b"\"<>\\^`{|}#".contains(&it);
    let first = parts.next().is_some_and(|part| part.bytes().all(is_letter));
    first
        && parts.all(|part| {
            part.bytes().take(2).filter(u8::is_ascii_hexdigit).count() == 2
                && part.bytes().all(is_letter)
        })
}

/// The URI as it was read. It has no PIN.
impl fmt::Display for KeyUri {
    fn fmt(&self, to: &mut fmt::Formatter<'_>) -> fmt::Result {
        to.write_str(&self.text)
    }
}

#[cfg(test)]
mod tests {
    use super::*;

    #[test]
    fn a_uri_says_token_key_pin_and_module() {
        // The examples of RFC 7512, section 3, as far as they name a private key.
        let uri: KeyUri = "pkcs11:token=The%20Software%20PKCS%2311%20Softtoken;\
                           manufacturer=Snake%20Oil,%20Inc.;model=1.0;serial=;object=my-key;\
                           type=private;id=%69%95%3E%5C%F4%BD%EC%91;slot-id=327\
                           ?pin-source=file:/etc/token_pin&module-path=/mnt/libmypkcs11.so.1"
            .parse()
            .expect("a URI");
        assert_eq!(uri.token.as_deref(), Some(&b"The Software PKCS#11 Softtoken"[..]));
        assert_eq!(uri.manufacturer.as_deref(), Some(&b"Snake Oil, Inc."[..]));
        assert_eq!(uri.id.as_deref(), Some(&b"\x69\x95\x3e\x5c\xf4\xbd\xec\x91"[..]));
        assert_eq!((uri.slot, uri.serial.as_deref()), (Some(327), Some(&b""[..])));
        assert_eq!(uri.pin_source(), Some("/etc/token_pin".as_ref()));
        assert_eq!(uri.module(), Some("/mnt/libmypkcs11.so.1".as_ref()));
        for source in ["/etc/token_pin", "file:///etc/token_pin", "file:/etc/token%5Fpin"] {
            let uri: KeyUri = format!("pkcs11:object=k?pin-source={source}").parse().expect(source);
            assert_eq!(uri.pin_source(), Some("/etc/token_pin".as_ref()), "{source}");
        }
    }

    #[test]
    fn what_isnt_taken_says_why() {
        use UriFault::{Attribute, Long, NoKey, PinValue, Scheme, Twice, Type, Unknown, Value};
        for (text, fault) in [
            ("/etc/key.pem", Scheme),
            ("pkcs11", Scheme),
            ("pkcs11:", NoKey),
            ("pkcs11:token=a", NoKey),
            ("pkcs11:object", Attribute("object".into())),
            ("pkcs11:object=%4", Attribute("object=%4".into())),
            ("pkcs11:object=%4g", Attribute("object=%4g".into())),
            ("pkcs11:object=a b", Attribute("object=a b".into())),
            ("pkcs11:object=a;object=b", Twice("object".into())),
            ("pkcs11:object=a;type=cert", Type),
            ("pkcs11:object=a;x-vendor=1", Unknown("x-vendor".into())),
            ("pkcs11:object=a;slot-id=x", Value("slot-id".into())),
            ("pkcs11:object=a?pin-value=1", PinValue),
            ("pkcs11:object=a?pin-source=|/bin/pin", Attribute("pin-source=|/bin/pin".into())),
            ("pkcs11:object=a?pin-source=pin", Value("pin-source".into())),
            ("pkcs11:object=a?pin-source=https://a/pin", Value("pin-source".into())),
            ("pkcs11:object=a?module-name=m", Unknown("module-name".into())),
            (&format!("pkcs11:object={}", "a".repeat(4096)), Long),
        ] {
            assert_eq!(text.parse::<KeyUri>(), Err(fault), "{text}");
        }
    }
}
