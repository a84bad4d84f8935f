//! The parts of a certificate (RFC 5280, section 4.1), each with the place where it begins. They
//! are elements of DER, which the crate `asn1` reads.

use asn1::{ObjectIdentifier, ParseError, Tlv};

/// A part of a certificate: an element, and where it begins.
#[derive(Clone, Copy, Debug)]
pub(crate) struct Part<'a> {
    pub place: usize,
    pub element: Tlv<'a>,
}

/// The parts of a certificate.
#[derive(Debug)]
pub(crate) struct Parts<'a> {
    /// Those of the signed part.
    pub signed: Vec<Part<'a>>,
    /// Those after it.
    pub after: Vec<Part<'a>>,
}

impl<'a> Parts<'a> {
    /// The parts of a certificate; nothing if its elements can't be read.
    pub fn of(der: &'a [u8]) -> Option<Parts<'a>> {
        let [whole] = elements(0, der)?[..] else { return None };
        let outer = whole.inside()?;
        let (signed, after) = outer.split_first()?;
        Some(Parts { signed: signed.inside()?, after: after.to_vec() })
    }

    /// Its extensions; nothing if it has none, or they aren't in their form.
    pub fn extensions(&self) -> Option<Vec<Part<'a>>> {
        /// The tag of `[3] EXPLICIT`.
        const EXTENSIONS: u8 = 0xA3;
        let is_it = |part: &&Part<'a>| part.element.tag().as_u8() == Some(EXTENSIONS);
        match self.signed.iter().find(is_it)?.inside()?[..] {
            [list] => list.inside(),
            _ => None,
        }
    }
}

impl<'a> Part<'a> {
    /// The elements inside of it.
    pub fn inside(&self) -> Option<Vec<Part<'a>>> {
        let content = self.element.data();
        elements(self.place + self.element.full_data().len() - content.len(), content)
    }

    /// The identifier with which it begins, if it is an extension.
    pub fn identifier(&self) -> Option<ObjectIdentifier> {
        self.inside()?.first()?.element.parse().ok()
    }

    /// The content of its last element, if it is an extension: what the extension says.
    pub fn content(&self) -> Option<&'a [u8]> {
        self.inside()?.last()?.element.parse().ok()
    }
}

/// The elements that stand one after another in these bytes, of which the first is at this place.
fn elements(start: usize, bytes: &[u8]) -> Option<Vec<Part<'_>>> {
    let found = asn1::parse(bytes, |parser| {
        let (mut found, mut place) = (Vec::new(), start);
        while !parser.is_empty() {
            let element: Tlv<'_> = parser.read_element()?;
            found.push(Part { place, element });
            place += element.full_data().len();
        }
        Ok::<_, ParseError>(found)
    });
    found.ok()
}
