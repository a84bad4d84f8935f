//! Requests for certificates: PKCS #10 (RFC 2986), with the list in the request for extensions (RFC
//! 2985, section 5.4.2). They are signed by a key that may be in an HSM.

use super::public_of;
use crate::signing::unsigned;
use crate::Fault;
use asn1::{
    Asn1Read, BitString, ObjectIdentifier, ParseResult, SequenceOf, SequenceWriter, SetOf,
    SetOfWriter, Tlv, WriteError, WriteResult, Writer,
};
use openssl::bn::BigNum;
use openssl::ecdsa::EcdsaSig;
use openssl::error::ErrorStack;
use openssl::sha::sha256;
use openssl::x509::{X509NameBuilder, X509Req};
use stir_trust::Key;

/// TNAuthList (RFC 8226, section 9), extensionRequest, and ecdsa-with-SHA256 (RFC 5758, section
/// 3.2).
pub(super) const LIST: ObjectIdentifier = asn1::oid!(1, 3, 6, 1, 5, 5, 7, 1, 26);
const REQUEST: ObjectIdentifier = asn1::oid!(1, 2, 840, 113_549, 1, 9, 14);
const ES256: ObjectIdentifier = asn1::oid!(1, 2, 840, 10_045, 4, 3, 2);

/// A request by a key, with this name and this list, in PEM.
pub(super) fn request(key: &Key, subject: &[String], list: &[u8]) -> Result<Vec<u8>, Fault> {
    let name = name(subject)?;
    let public = public_of(key).map_err(|_| Fault::Memory)?;
    let info = info(&name, &public, list).map_err(|_| Fault::Memory)?;
    let signature = key.sign(&sha256(&info)).map_err(|fault| unsigned("the key", fault))?;
    let der = signature_in_der(&signature).map_err(|_| Fault::Memory)?;
    let der = signed(&info, &der).map_err(|_| Fault::Memory)?;
    X509Req::from_der(&der).and_then(|request| request.to_pem()).map_err(|_| Fault::Memory)
}

/// A name of parts `TYPE=VALUE`, in DER.
fn name(parts: &[String]) -> Result<Vec<u8>, Fault> {
    let mut name = X509NameBuilder::new().map_err(|_| Fault::Memory)?;
    for part in parts {
        let taken = part.split_once('=').filter(|(_, value)| !value.is_empty());
        let taken = taken.and_then(|(kind, value)| name.append_entry_by_text(kind, value).ok());
        taken.ok_or_else(|| Fault::Words(format!("{part:?}: no part of a name, as C=US")))?;
    }
    name.build().to_der().map_err(|_| Fault::Memory)
}

/// A signature as it stands in a request (RFC 3279, section 2.2.3).
fn signature_in_der(signature: &[u8; 64]) -> Result<Vec<u8>, ErrorStack> {
    let (r, s) = signature.split_at(32);
    EcdsaSig::from_private_components(BigNum::from_slice(r)?, BigNum::from_slice(s)?)?.to_der()
}

/// What is signed.
fn info(name: &[u8], public: &[u8], list: &[u8]) -> WriteResult<Vec<u8>> {
    let extension = sequence(&|to| {
        to.write_element(&LIST)?;
        to.write_element(&list)
    })?;
    let extensions = sequence(&|to| to.write_element(&element(&extension)?))?;
    let attribute = sequence(&|to| {
        to.write_element(&REQUEST)?;
        to.write_element(&SetOfWriter::new([element(&extensions)?]))
    })?;
    sequence(&|to| {
        to.write_element(&0u8)?;
        to.write_element(&element(name)?)?;
        to.write_element(&element(public)?)?;
        to.write_implicit_element(&SetOfWriter::new([element(&attribute)?]), 0)
    })
}

fn signed(info: &[u8], signature: &[u8]) -> WriteResult<Vec<u8>> {
    sequence(&|to| {
        to.write_element(&element(info)?)?;
        to.write_element(&SequenceWriter::new(&|to| to.write_element(&ES256)))?;
        to.write_element(&BitString::new(signature, 0).ok_or(WriteError::AllocationError)?)
    })
}

fn sequence(what: &dyn Fn(&mut Writer<'_>) -> WriteResult) -> WriteResult<Vec<u8>> {
    asn1::write_single(&SequenceWriter::new(what))
}

/// An element that was written before.
fn element(der: &[u8]) -> WriteResult<Tlv<'_>> {
    asn1::parse_single(der).map_err(|_| WriteError::AllocationError)
}

#[derive(Asn1Read)]
struct Request<'a> {
    info: Info<'a>,
    _algorithm: Tlv<'a>,
    _signature: Tlv<'a>,
}

#[derive(Asn1Read)]
struct Info<'a> {
    _version: u8,
    _name: Tlv<'a>,
    _key: Tlv<'a>,
    #[implicit(0)]
    attributes: Option<SetOf<'a, Attribute<'a>>>,
}

#[derive(Asn1Read)]
struct Attribute<'a> {
    kind: ObjectIdentifier,
    values: SetOf<'a, Tlv<'a>>,
}

#[derive(Asn1Read)]
struct Extension<'a> {
    kind: ObjectIdentifier,
    #[default(false)]
    _critical: bool,
    content: &'a [u8],
}

/// The list of a request in DER; none if it asks for none.
pub(super) fn list_of(der: &[u8]) -> ParseResult<Option<Vec<u8>>> {
    let request: Request<'_> = asn1::parse_single(der)?;
    for attribute in request.info.attributes.into_iter().flatten() {
        for value in attribute.values.filter(|_| attribute.kind == REQUEST) {
            let extensions: SequenceOf<'_, Extension<'_>> = value.parse()?;
            if let Some(list) = extensions.into_iter().find(|it| it.kind == LIST) {
                return Ok(Some(list.content.to_vec()));
            }
        }
    }
    Ok(None)
}
