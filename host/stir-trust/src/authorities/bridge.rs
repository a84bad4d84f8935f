//! A bridge: a trust anchor with the name and the key of an authority that a root outside the
//! profile issued.
use super::fault::BridgeFault;
use crate::fetch::chain_of;
use crate::names::text_of;
use crate::roots::is_anchor;
use asn1::{Asn1Read, Asn1Write};
use openssl::error::ErrorStack;
use openssl::nid::Nid;
use openssl::stack::Stack;
use openssl::x509::store::X509StoreBuilder;
use openssl::x509::verify::X509VerifyParam;
use openssl::x509::{X509Ref, X509StoreContext, X509};
use stir::Settings;

/// The fewest bits of security of a key (NIST SP 800-57, part 1, section 5.6.1).
const FEWEST_BITS: u32 = 112;

/// A trust anchor that stands for an authority.
///
/// ```
/// use stir_trust::authorities::{bridge, Bridge};
///
/// # fn of(chain: &[u8], root: openssl::x509::X509) -> Result<(), Box<dyn std::error::Error>> {
/// let Bridge { anchor, path } = bridge(chain, &[root], 1_800_000_000)?;
/// println!("an anchor of {} bytes, by {} certificates", anchor.len(), path.len());
/// # Ok(())
/// # }
/// ```
#[derive(Clone, Debug)]
pub struct Bridge {
    /// The anchor, in DER.
    pub anchor: Vec<u8>,
    /// The authority's certificate and those above it, up to the root.
    pub path: Vec<X509>,
}

/// `Certificate` (RFC 5280, section 4.1).
#[derive(Asn1Read, Asn1Write)]
struct Certificate<'a> {
    signed: SignedCertificate<'a>,
    algorithm: asn1::Tlv<'a>,
    signature: asn1::BitString<'a>,
}

/// `TBSCertificate`.
#[derive(Asn1Read, Asn1Write)]
struct SignedCertificate<'a> {
    #[explicit(0)]
    version: Option<asn1::Tlv<'a>>,
    serial: asn1::BigInt<'a>,
    algorithm: asn1::Tlv<'a>,
    issuer: asn1::Tlv<'a>,
    validity: asn1::Tlv<'a>,
    subject: asn1::Tlv<'a>,
    key: asn1::Tlv<'a>,
    #[implicit(1)]
    issuer_identifier: Option<asn1::BitString<'a>>,
    #[implicit(2)]
    subject_identifier: Option<asn1::BitString<'a>>,
    #[explicit(3)]
    extensions: Option<asn1::Tlv<'a>>,
}

/// The algorithm ecdsa-with-SHA256 (RFC 5758, section 3.2), and a signature with r and s of 1.
const ES256: &[u8] = &[0x30, 0x0a, 6, 8, 0x2a, 0x86, 0x48, 0xce, 0x3d, 4, 3, 2];
const NO_SIGNATURE: &[u8] = &[0x30, 6, 2, 1, 1, 2, 1, 1];

/// A trust anchor for the lowest authority of these certificates (PEM, DER or PKCS #7), if OpenSSL
/// finds a path from it to one of these roots at this second, in Unix time.
///
/// A trust anchor is a name and a key (RFC 5280, section 6.1.1). The anchor has those of the
/// authority, and its serial number, dates and extensions, so its limits stay. The signature in it
/// is none: nobody is asked for an anchor's. So what the path says, its dates and whether it is
/// revoked, holds for the moment at which the anchor was made.
///
/// # Errors
///
/// No anchor is made, and why.
///
/// ```
/// use stir_trust::authorities::{bridge, BridgeFault};
///
/// // The authority has to be one that could be a trust anchor.
/// # let leaf = include_bytes!("../../../../tests/ctl/files/carrier.der");
/// assert!(matches!(bridge(leaf, &[], 1_800_000_000), Err(BridgeFault::NoAuthority)));
/// ```
pub fn bridge(chain: &[u8], roots: &[X509], now: u64) -> Result<Bridge, BridgeFault> {
    let chain: Vec<X509> =
        chain_of(chain)?.iter().map(|der| X509::from_der(der)).collect::<Result<_, _>>()?;
    for authority in &chain {
        let der = authority.to_der()?;
        let Some(anchor) = anchor_of(&der) else { continue };
        if is_anchor(&Settings::default(), &anchor)? && is_same(authority, &anchor)? {
            let path = path(authority, &chain, roots, now)?;
            return Ok(Bridge { anchor, path });
        }
    }
    Err(BridgeFault::NoAuthority)
}

/// A certificate with the name, the key, the dates and the extensions of another one, which says
/// of itself that it issued itself.
fn anchor_of(der: &[u8]) -> Option<Vec<u8>> {
    let mut certificate: Certificate<'_> = asn1::parse_single(der).ok()?;
    let es256 = asn1::parse_single(ES256).ok()?;
    certificate.signed.issuer = certificate.signed.subject;
    certificate.signed.algorithm = es256;
    certificate.algorithm = es256;
    certificate.signature = asn1::BitString::new(NO_SIGNATURE, 0)?;
    asn1::write_single(&certificate).ok()
}

/// Whether OpenSSL reads the same name and key in an anchor as in its authority.
fn is_same(authority: &X509Ref, anchor: &[u8]) -> Result<bool, ErrorStack> {
    let anchor = X509::from_der(anchor)?;
    let subject = authority.subject_name().to_der()?;
    let is_named = anchor.subject_name().to_der()? == subject;
    let is_own = anchor.issuer_name().to_der()? == subject;
    Ok(is_named && is_own && anchor.public_key()?.public_eq(&*authority.public_key()?))
}

/// The path from an authority to one of these roots, by OpenSSL.
fn path(
    authority: &X509,
    chain: &[X509],
    roots: &[X509],
    now: u64,
) -> Result<Vec<X509>, BridgeFault> {
    let mut store = X509StoreBuilder::new()?;
    for root in roots {
        store.add_cert(root.clone())?;
    }
    let mut moment = X509VerifyParam::new()?;
    moment.set_time(now.try_into().unwrap_or(i64::MAX));
    store.set_param(&moment)?;
    let mut others = Stack::new()?;
    for other in chain {
        others.push(other.clone())?;
    }
    let mut context = X509StoreContext::new()?;
    let found = context.init(&store.build(), authority, &others, |context| {
        let is_good = context.verify_cert()?;
        let path = context.chain().map(|path| path.iter().map(ToOwned::to_owned).collect());
        Ok((is_good, context.error(), path.unwrap_or_else(Vec::new)))
    });
    drop(ErrorStack::get());
    let (is_good, why, path) = found?;
    if !is_good {
        let subject = text_of(authority.subject_name());
        return Err(BridgeFault::Path { subject, why: why.error_string().into() });
    }
    for certificate in &path {
        if !is_strong(certificate)? {
            return Err(BridgeFault::Weak(text_of(certificate.subject_name())));
        }
    }
    Ok(path)
}

/// Whether a certificate's key has so many bits of security as ES256 leans on, or not far fewer,
/// and whether it was signed over SHA-256, 384 or 512. OpenSSL itself takes any.
fn is_strong(certificate: &X509Ref) -> Result<bool, ErrorStack> {
    let algorithm = certificate.signature_algorithm().object().nid().signature_algorithms();
    let digests = [Nid::SHA256, Nid::SHA384, Nid::SHA512];
    let is_signed = algorithm.is_some_and(|algorithms| digests.contains(&algorithms.digest));
    Ok(is_signed && certificate.public_key()?.security_bits() >= FEWEST_BITS)
}

/// A certificate's issuer, a whole element in DER, and the content of its serial number: what a
/// revocation list tells certificates apart by. It is for certificates outside the profile; what
/// others say comes from the proved library.
pub(crate) fn issuer_and_serial(der: &[u8]) -> Option<(Vec<u8>, Vec<u8>)> {
    let certificate: Certificate<'_> = asn1::parse_single(der).ok()?;
    let SignedCertificate { issuer, serial, .. } = certificate.signed;
    Some((issuer.full_data().into(), serial.as_bytes().into()))
}
