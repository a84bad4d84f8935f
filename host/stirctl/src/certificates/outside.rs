//! Whether a certificate is outside the profile, and which of its parts is: the proved library is
//! asked of each. A certificate that it takes gets the parts of the other one, one after another;
//! the first with which it is refused is the broken part.

use super::parts::{Part, Parts};
use crate::Fault;
use asn1::{Explicit, SequenceOfWriter, SequenceWriter, Tlv, WriteResult, Writer};
use serde::Serialize;
use std::fmt;
use stir::{Error, Input};

/// The most bytes of a certificate (docs/FORMATS.md, "Certificate").
const LONGEST: usize = 8_192;

/// Which part of a certificate is outside the profile.
#[derive(Clone, Debug, PartialEq, Eq, Serialize)]
#[serde(into = "Place")]
pub(crate) enum Broken {
    /// It has more bytes than are taken.
    Long,
    /// Its elements can't be told apart.
    Unread,
    /// This one, which begins at this byte.
    Part { part: String, place: usize },
}

/// The same in JSON.
#[derive(Serialize)]
struct Place {
    part: String,
    place: Option<usize>,
}

impl From<Broken> for Place {
    fn from(broken: Broken) -> Place {
        match broken {
            Broken::Part { part, place } => Place { part, place: Some(place) },
            other => Place { part: other.to_string(), place: None },
        }
    }
}

impl fmt::Display for Broken {
    fn fmt(&self, to: &mut fmt::Formatter<'_>) -> fmt::Result {
        match self {
            Broken::Long => write!(to, "more than {LONGEST} bytes"),
            Broken::Unread => to.write_str("it cannot be read"),
            Broken::Part { part, place } => write!(to, "{part}, at byte {place}"),
        }
    }
}

/// Whether the library takes none of these bytes for a certificate of the profile.
pub(crate) fn is_outside(der: &[u8]) -> Result<bool, Fault> {
    match stir::show(der) {
        Ok(_) => Ok(false),
        Err(Error::BadInput(Input::Certificate)) => Ok(true),
        Err(error) => Err(error.into()),
    }
}

/// The names of a certificate's parts (RFC 5280, section 4.1), in their order.
const SIGNED: [&str; 8] =
    ["version", "serial number", "algorithm", "issuer", "validity", "subject", "key", "extensions"];
const AFTER: [&str; 2] = ["algorithm after the signed part", "signature"];

/// The parts of a certificate that the library takes: empty names, ten years, a key and a signature
/// of ones. Nobody looks whether they are genuine.
const GOOD: [&[u8]; 7] = [
    b"\xa0\x03\x02\x01\x02",
    b"\x02\x01\x01",
    ALGORITHM,
    b"\x30\x00",
    b"\x30\x1e\x17\x0d200101000000Z\x17\x0d300101000000Z",
    b"\x30\x00",
    b"\x30\x59\x30\x13\x06\x07\x2a\x86\x48\xce\x3d\x02\x01\x06\x08\x2a\x86\x48\xce\x3d\x03\x01\x07\
      \x03\x42\x00\x04\
      11111111111111111111111111111111\
      11111111111111111111111111111111",
];
const ALGORITHM: &[u8] = b"\x30\x0a\x06\x08\x2a\x86\x48\xce\x3d\x04\x03\x02";
const GOOD_AFTER: [&[u8]; 2] = [ALGORITHM, b"\x03\x09\x00\x30\x06\x02\x01\x01\x02\x01\x01"];

/// The first part of a certificate outside the profile with which the library refuses it.
pub(crate) fn broken(der: &[u8]) -> Result<Broken, Fault> {
    if der.len() > LONGEST {
        return Ok(Broken::Long);
    }
    match (Parts::of(der), Trial::good()) {
        (Some(parts), Some(trial)) => Ok(first_broken(&parts, trial)?.unwrap_or(Broken::Unread)),
        _ => Ok(Broken::Unread),
    }
}

fn first_broken<'a>(parts: &Parts<'a>, mut trial: Trial<'a>) -> Result<Option<Broken>, Fault> {
    for (at, part) in parts.signed.iter().enumerate() {
        if at + 1 == SIGNED.len() {
            for extension in parts.extensions().unwrap_or_default() {
                trial.extensions.push(extension.element);
                if !trial.is_taken()? {
                    return Ok(Some(named(&extension, &name_of(&extension))));
                }
            }
            trial.extensions.clear();
        }
        put(&mut trial.signed, at, part);
        if !trial.is_taken()? {
            return Ok(Some(named(part, SIGNED.get(at).unwrap_or(&"signed part"))));
        }
    }
    for (at, part) in parts.after.iter().enumerate() {
        put(&mut trial.after, at, part);
        if !trial.is_taken()? {
            return Ok(Some(named(part, AFTER.get(at).unwrap_or(&"certificate"))));
        }
    }
    Ok(None)
}

fn named(part: &Part<'_>, name: &str) -> Broken {
    Broken::Part { part: name.into(), place: part.place }
}

fn name_of(extension: &Part<'_>) -> String {
    extension.identifier().map_or("extension".into(), |it| format!("extension {it}"))
}

fn put<'a>(parts: &mut Vec<Tlv<'a>>, at: usize, part: &Part<'a>) {
    match parts.get_mut(at) {
        Some(place) => *place = part.element,
        None => parts.push(part.element),
    }
}

/// A certificate that is put together of parts.
struct Trial<'a> {
    signed: Vec<Tlv<'a>>,
    /// Its extensions, if they aren't among these yet.
    extensions: Vec<Tlv<'a>>,
    after: Vec<Tlv<'a>>,
}

impl<'a> Trial<'a> {
    fn good() -> Option<Trial<'a>> {
        let parts = |all: &[&'static [u8]]| -> Option<Vec<Tlv<'a>>> {
            all.iter().map(|part| asn1::parse_single(part).ok()).collect()
        };
        Some(Trial { signed: parts(&GOOD)?, extensions: Vec::new(), after: parts(&GOOD_AFTER)? })
    }

    /// Whether the library takes it.
    fn is_taken(&self) -> Result<bool, Fault> {
        let whole = |to: &mut Writer<'_>| self.write(to);
        let der = asn1::write_single(&SequenceWriter::new(&whole)).map_err(|_| Fault::Memory)?;
        Ok(!is_outside(&der)?)
    }

    fn write(&self, to: &mut Writer<'_>) -> WriteResult {
        to.write_element(&SequenceWriter::new(&|to| {
            self.signed.iter().try_for_each(|part| to.write_element(part))?;
            if self.extensions.is_empty() {
                return Ok(());
            }
            let extensions = SequenceOfWriter::new(&self.extensions[..]);
            to.write_element(&Explicit::<_, 3>::new(extensions))
        }))?;
        self.after.iter().try_for_each(|part| to.write_element(part))
    }
}

#[cfg(test)]
mod tests {
    use super::*;

    fn example(name: &str) -> Vec<u8> {
        std::fs::read(format!("{}/../../examples/files/{name}", env!("CARGO_MANIFEST_DIR")))
            .expect("an example")
    }

    #[test]
    fn the_good_parts_are_those_of_a_certificate() {
        assert!(Trial::good().expect("parts").is_taken().expect("the library"));
    }

    #[test]
    fn the_part_that_was_spoilt_is_named() {
        let chain = example("passport.der");
        let whole = asn1::parse(&chain, |parser| {
            let first: Tlv<'_> = parser.read_element()?;
            while !parser.is_empty() {
                parser.read_element::<Tlv<'_>>()?;
            }
            Ok::<_, asn1::ParseError>(first.full_data().to_vec())
        });
        let der = whole.expect("a certificate");
        assert!(!is_outside(&der).expect("the library"));
        let parts = Parts::of(&der).expect("parts");
        let names = SIGNED.iter().zip(&parts.signed).chain(AFTER.iter().zip(&parts.after));
        for (name, part) in names {
            // Another tag of the same length is a fault of each part, and of the extensions'.
            let mut spoilt = der.clone();
            spoilt[part.place] ^= 0x08;
            assert!(is_outside(&spoilt).expect("the library"), "{name}");
            let told = Broken::Part { part: (*name).into(), place: part.place };
            assert_eq!(broken(&spoilt).expect("the library"), told);
        }
        for extension in parts.extensions().expect("extensions") {
            let mut spoilt = der.clone();
            spoilt[extension.place] ^= 0x08;
            let told = broken(&spoilt).expect("the library").to_string();
            let identifier = extension.identifier().expect("an identifier");
            assert_eq!(told, format!("extension {identifier}, at byte {}", extension.place));
        }
        assert_eq!(broken(&[0x30; LONGEST + 1]).expect("the library"), Broken::Long);
        assert_eq!(broken(b"\x30\x80\x00\x00").expect("the library"), Broken::Unread);
    }
}
