//! Certificates in PEM (RFC 7468), DER, and PKCS #7 in either (RFC 5652, section 5.1).
//!
//! A certificate is what OpenSSL reads as one, to its last byte; it is kept as it stands. What it
//! says is the judge's to read, but for names, by which the leaf comes first, and its last second.
use asn1::{Asn1Read, ObjectIdentifier, ParseResult, SequenceOf, Tlv};
use openssl::asn1::{Asn1Time, Asn1TimeRef};
use openssl::base64;
use openssl::error::ErrorStack;
use openssl::x509::X509;
use std::cmp::Ordering;
use thiserror::Error;

/// So many certificates are put in order; more are no chain that a judge takes.
const MOST_ORDERED: usize = 32;

/// Why what was fetched isn't certificates.
///
/// ```
/// use stir_trust::fetch::{chain_of, FormFault};
///
/// assert_eq!(chain_of(b"<html>"), Err(FormFault::None));
/// ```
#[derive(Clone, Copy, Debug, Error, PartialEq, Eq)]
pub enum FormFault {
    /// There are none, in PEM, DER or PKCS #7.
    #[error("it has no certificates in PEM, DER or PKCS #7")]
    None,
    /// One in PEM isn't closed, or isn't base64.
    #[error("a certificate in PEM is spoilt")]
    Pem,
    /// This one, counted from 1, isn't a certificate.
    #[error("certificate {0} can't be read")]
    Certificate(usize),
}

/// The certificates of these bytes, in DER, the leaf's first and each before its issuer's; in the
/// order in which they stand if they are no such path.
///
/// # Errors
///
/// They aren't certificates.
///
/// ```
/// use stir_trust::fetch::{chain_of, FormFault};
///
/// let spoilt = b"-----BEGIN CERTIFICATE-----\nAAAA\n-----END CERTIFICATE-----\n";
/// assert_eq!(chain_of(spoilt), Err(FormFault::Certificate(1)));
/// ```
pub fn chain_of(bytes: &[u8]) -> Result<Vec<Vec<u8>>, FormFault> {
    let (found, read) = read(bytes)?;
    let order = leaf_first(&read).unwrap_or_else(|| (0..found.len()).collect());
    Ok(order.into_iter().filter_map(|number| found.get(number).cloned()).collect())
}

/// The certificates of these bytes, in DER and in the order in which they stand.
///
/// # Errors
///
/// They aren't certificates.
///
/// ```
/// use stir_trust::fetch::{certificates_of, FormFault};
///
/// assert_eq!(certificates_of(b"-----BEGIN CERTIFICATE-----\n"), Err(FormFault::Pem));
/// ```
pub fn certificates_of(bytes: &[u8]) -> Result<Vec<Vec<u8>>, FormFault> {
    Ok(read(bytes)?.0)
}

/// The certificates of these bytes, in DER and as OpenSSL reads them.
fn read(bytes: &[u8]) -> Result<(Vec<Vec<u8>>, Vec<X509>), FormFault> {
    let found = match blocks_of(bytes)? {
        None => of_der(bytes)?,
        Some(blocks) => {
            let mut found = Vec::new();
            for Block { kind, content } in blocks {
                match kind {
                    Kind::Certificate => found.push(content),
                    Kind::Message => found.extend(of_der(&content)?),
                }
            }
            found
        }
    };
    if found.is_empty() {
        return Err(FormFault::None);
    }
    let mut read = Vec::with_capacity(found.len());
    for (number, der) in found.iter().enumerate() {
        let is_whole = asn1::parse_single::<Tlv<'_>>(der).is_ok();
        let certificate = X509::from_der(der).ok().filter(|_| is_whole);
        read.push(certificate.ok_or(FormFault::Certificate(number + 1))?);
    }
    Ok((found, read))
}

/// The last second, in Unix time, at which all of these certificates in DER are valid; 0 if that
/// is before 1970.
///
/// # Errors
///
/// One can't be read.
///
/// ```
/// use stir_trust::fetch::{ends_of, FormFault};
///
/// assert_eq!(ends_of(&[vec![0x30, 0]]), Err(FormFault::Certificate(1)));
/// ```
pub fn ends_of(chain: &[Vec<u8>]) -> Result<u64, FormFault> {
    let mut ends = u64::MAX;
    for (number, der) in chain.iter().enumerate() {
        let end = X509::from_der(der).and_then(|read| second_of(read.not_after()));
        ends = ends.min(end.map_err(|_| FormFault::Certificate(number + 1))?);
    }
    Ok(ends)
}

fn second_of(time: &Asn1TimeRef) -> Result<u64, ErrorStack> {
    let since = Asn1Time::from_unix(0)?.diff(time)?;
    let seconds = i64::from(since.days) * 86_400 + i64::from(since.secs);
    Ok(u64::try_from(seconds).unwrap_or(0))
}

/// A block of PEM, decoded.
struct Block {
    kind: Kind,
    content: Vec<u8>,
}

/// What a block of PEM holds.
#[derive(Clone, Copy)]
enum Kind {
    Certificate,
    Message,
}

const LABELS: [(&[u8], Kind); 3] =
    [(b"CERTIFICATE", Kind::Certificate), (b"PKCS7", Kind::Message), (b"CMS", Kind::Message)];

/// The blocks of certificates and messages in a text of PEM; nothing if it has no block at all.
fn blocks_of(text: &[u8]) -> Result<Option<Vec<Block>>, FormFault> {
    const BEGIN: &[u8] = b"-----BEGIN ";
    let Some(mut at) = place_of(text, BEGIN) else { return Ok(None) };
    let mut blocks = Vec::new();
    loop {
        let rest = text.get(at + BEGIN.len()..).ok_or(FormFault::Pem)?;
        let labelled = LABELS.iter().find_map(|(label, kind)| {
            let rest = rest.strip_prefix(*label)?.strip_prefix(b"-----")?;
            Some((*label, *kind, rest))
        });
        // Blocks of another kind, such as keys, are passed over.
        let mut rest = rest;
        if let Some((label, kind, inside)) = labelled {
            let end = [b"-----END ", label, b"-----"].concat();
            let length = place_of(inside, &end).ok_or(FormFault::Pem)?;
            let content = decoded(inside.get(..length).unwrap_or_default())?;
            blocks.push(Block { kind, content });
            rest = inside.get(length..).unwrap_or_default();
        }
        let passed = text.len() - rest.len();
        match place_of(rest, BEGIN) {
            Some(next) => at = passed + next,
            None => return Ok(Some(blocks)),
        }
    }
}

/// The content of the first block with this label in a text of PEM; nothing if it has none.
pub(crate) fn block_of(text: &[u8], label: &[u8]) -> Result<Option<Vec<u8>>, FormFault> {
    let [begin, end] =
        [&b"-----BEGIN "[..], b"-----END "].map(|edge| [edge, label, b"-----"].concat());
    let Some(at) = place_of(text, &begin) else { return Ok(None) };
    let inside = text.get(at + begin.len()..).unwrap_or_default();
    let length = place_of(inside, &end).ok_or(FormFault::Pem)?;
    decoded(inside.get(..length).unwrap_or_default()).map(Some)
}

fn place_of(text: &[u8], what: &[u8]) -> Option<usize> {
    text.windows(what.len()).position(|part| part == what)
}

/// The bytes of a text in base64 (RFC 4648, section 4) with blanks and line ends.
fn decoded(text: &[u8]) -> Result<Vec<u8>, FormFault> {
    let text: Vec<u8> = text.iter().copied().filter(|byte| !byte.is_ascii_whitespace()).collect();
    let text = String::from_utf8(text).map_err(|_| FormFault::Pem)?;
    base64::decode_block(&text).map_err(|_| FormFault::Pem)
}

/// The certificates of a PKCS #7 message, or those that stand one after another.
fn of_der(bytes: &[u8]) -> Result<Vec<Vec<u8>>, FormFault> {
    match of_message(bytes) {
        Some(certificates) => Ok(certificates),
        None => elements(bytes).map_err(|_| FormFault::None),
    }
}

/// `ContentInfo` (RFC 5652, section 3) of a message that is signed.
#[derive(Asn1Read)]
struct ContentInfo<'a> {
    kind: ObjectIdentifier,
    #[explicit(0)]
    content: Option<SignedData<'a>>,
}

/// `SignedData` (section 5.1).
#[derive(Asn1Read)]
struct SignedData<'a> {
    _version: u8,
    _digests: Tlv<'a>,
    _content: Tlv<'a>,
    // Written in any order, and so no SET OF as DER has it.
    #[implicit(0)]
    certificates: Option<SequenceOf<'a, Tlv<'a>>>,
    #[implicit(1)]
    _lists: Option<SequenceOf<'a, Tlv<'a>>>,
    _signers: Tlv<'a>,
}

const SIGNED_DATA: ObjectIdentifier = asn1::oid!(1, 2, 840, 113549, 1, 7, 2);

/// The certificates in a SignedData; nothing if these bytes are no such message.
fn of_message(bytes: &[u8]) -> Option<Vec<Vec<u8>>> {
    let message = asn1::parse_single::<ContentInfo<'_>>(bytes).ok()?;
    let certificates = message.content.filter(|_| message.kind == SIGNED_DATA)?.certificates?;
    Some(certificates.map(|one| one.full_data().to_vec()).collect())
}

/// The elements that these bytes are, one after another.
fn elements(bytes: &[u8]) -> ParseResult<Vec<Vec<u8>>> {
    asn1::parse(bytes, |parser| {
        let mut found = Vec::new();
        while !parser.is_empty() {
            found.push(parser.read_element::<Tlv<'_>>()?.full_data().to_vec());
        }
        Ok(found)
    })
}

/// The numbers of the certificates from the leaf's on, each before its issuer's (RFC 5280, section
/// 6.1), if they are such a path.
fn leaf_first(chain: &[X509]) -> Option<Vec<usize>> {
    if chain.len() > MOST_ORDERED {
        return None;
    }
    let is_issued = |number: usize, by: usize| -> Option<bool> {
        let (issued, by) = (chain.get(number)?, chain.get(by)?);
        Some(issued.issuer_name().try_cmp(by.subject_name()).ok()? == Ordering::Equal)
    };
    let mut leaves = Vec::new();
    for leaf in 0..chain.len() {
        let mut is_leaf = true;
        for other in (0..chain.len()).filter(|other| *other != leaf) {
            is_leaf &= !is_issued(other, leaf)? || is_issued(other, other)?;
        }
        if is_leaf {
            leaves.push(leaf);
        }
    }
    let [leaf] = leaves[..] else { return None };
    let (mut order, mut last) = (vec![leaf], leaf);
    while order.len() < chain.len() {
        let mut after = Vec::new();
        for number in (0..chain.len()).filter(|number| !order.contains(number)) {
            if is_issued(last, number)? {
                after.push(number);
            }
        }
        let [next] = after[..] else { return None };
        order.push(next);
        last = next;
    }
    Some(order)
}
