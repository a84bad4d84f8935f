//! A list of codes and numbers: a TNAuthList (RFC 8226, section 9). It is written here, and read by
//! the proved library, so that none goes out that a judge wouldn't take.

use crate::words::request::Request;
use crate::Fault;
use asn1::{IA5String, SequenceWriter, WriteError, WriteResult, Writer};
use openssl::asn1::Asn1Time;
use openssl::ec::{EcGroup, EcKey};
use openssl::error::ErrorStack;
use openssl::hash::MessageDigest;
use openssl::nid::Nid;
use openssl::pkey::PKey;
use openssl::x509::extension::KeyUsage;
use openssl::x509::{X509Extension, X509NameBuilder, X509};

/// The identifier of the extension (RFC 8226, section 9), as OpenSSL takes it.
const EXTENSION: &str = "1.3.6.1.5.5.7.1.26";

/// The list that the words ask for, in DER: the codes first, then the ranges and the numbers.
pub(super) fn of(words: &Request) -> Result<Vec<u8>, Fault> {
    let refused = |text: &str| {
        let why = "no code and no number of a list (RFC 8226, section 9)";
        Fault::Words(format!("{text:?}: {why}"))
    };
    let ranges = words.range.iter().map(|range| &range.first);
    for text in words.code.iter().chain(ranges).chain(&words.number) {
        if text.is_empty() || IA5String::new(text).is_none() {
            return Err(refused(text));
        }
    }
    let list = written(words).map_err(|_| Fault::Memory)?;
    let read = read_back(&list)?;
    for (wanted, text) in wanted(words) {
        if !read.lines().any(|line| line == wanted) {
            return Err(refused(text));
        }
    }
    Ok(list)
}

/// The lines of `show` that a list has to give, each with the text that it is of.
fn wanted(words: &Request) -> Vec<(String, &str)> {
    let code = |code| (format!("code {code}"), code);
    let number = |number| (format!("number {number}"), number);
    let mut wanted: Vec<(String, &str)> = words.code.iter().map(|it| code(it.as_str())).collect();
    for range in &words.range {
        wanted.push((format!("range {} {}", range.first, range.count), &range.first));
    }
    wanted.extend(words.number.iter().map(|it| number(it.as_str())));
    wanted
}

fn written(words: &Request) -> WriteResult<Vec<u8>> {
    asn1::write(|to| {
        to.write_element(&SequenceWriter::new(&|to: &mut Writer<'_>| {
            for code in &words.code {
                to.write_explicit_element(&text(code)?, 0)?;
            }
            for range in &words.range {
                let range = |to: &mut Writer<'_>| {
                    to.write_element(&text(&range.first)?)?;
                    to.write_element(&range.count)
                };
                to.write_explicit_element(&SequenceWriter::new(&range), 1)?;
            }
            for number in &words.number {
                to.write_explicit_element(&text(number)?, 2)?;
            }
            Ok(())
        }))
    })
}

/// A text of ASCII. Each was looked at before.
fn text(text: &str) -> WriteResult<IA5String<'_>> {
    IA5String::new(text).ok_or(WriteError::AllocationError)
}

/// What the proved library says of a certificate with this list; nothing if it takes none.
fn read_back(list: &[u8]) -> Result<String, Fault> {
    let trial = trial(list).map_err(|_| Fault::Memory)?;
    match stir::show(&trial) {
        Ok(lines) => Ok(lines),
        Err(stir::Error::BadInput(_)) => Ok(String::new()),
        Err(error) => Err(error.into()),
    }
}

/// A certificate with a list, of a key that nobody keeps.
fn trial(list: &[u8]) -> Result<Vec<u8>, ErrorStack> {
    let curve = EcGroup::from_curve_name(Nid::X9_62_PRIME256V1)?;
    let key = PKey::from_ec_key(EcKey::generate(&curve)?)?;
    let mut name = X509NameBuilder::new()?;
    name.append_entry_by_text("CN", "trial")?;
    let name = name.build();
    let digits: String = list.iter().map(|byte| format!("{byte:02x}")).collect();
    let mut made = X509::builder()?;
    made.set_version(2)?;
    made.set_serial_number(&*openssl::bn::BigNum::from_u32(1)?.to_asn1_integer()?)?;
    made.set_subject_name(&name)?;
    made.set_issuer_name(&name)?;
    made.set_not_before(&*Asn1Time::from_unix(0)?)?;
    made.set_not_after(&*Asn1Time::from_unix(1)?)?;
    made.set_pubkey(&key)?;
    made.append_extension(KeyUsage::new().critical().digital_signature().build()?)?;
    made.append_extension(X509Extension::new(None, None, EXTENSION, &format!("DER:{digits}"))?)?;
    made.sign(&key, MessageDigest::sha256())?;
    made.build().to_der()
}
