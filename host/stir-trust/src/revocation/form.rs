//! The parts of a revocation list in DER (RFC 5280, section 5.1), by the crate `asn1`, which takes
//! nothing but DER.
use asn1::{Asn1Read, ObjectIdentifier};

/// `CertificateList`.
#[derive(Asn1Read)]
pub(super) struct CertificateList<'a> {
    /// `TBSCertList`, as it was signed.
    pub signed: asn1::Tlv<'a>,
    pub algorithm: Algorithm<'a>,
    pub signature: asn1::BitString<'a>,
}

/// `AlgorithmIdentifier` (section 4.1.1.2).
#[derive(Asn1Read, PartialEq)]
pub(super) struct Algorithm<'a> {
    pub oid: ObjectIdentifier,
    pub parameters: Option<asn1::Tlv<'a>>,
}

/// `TBSCertList`.
#[derive(Asn1Read)]
pub(super) struct SignedList<'a> {
    pub version: Option<u8>,
    pub algorithm: Algorithm<'a>,
    pub issuer: asn1::Tlv<'a>,
    pub this_update: Time,
    pub next_update: Option<Time>,
    pub revoked: Option<asn1::SequenceOf<'a, Entry<'a>>>,
    #[explicit(0)]
    pub extensions: Option<asn1::SequenceOf<'a, Extension<'a>>>,
}

/// An entry of `revokedCertificates`.
#[derive(Asn1Read)]
pub(super) struct Entry<'a> {
    pub serial: asn1::BigInt<'a>,
    pub since: Time,
    pub extensions: Option<asn1::SequenceOf<'a, Extension<'a>>>,
}

/// `Time` (section 4.1.2.5).
#[derive(Asn1Read)]
pub(super) enum Time {
    Utc(asn1::UtcTime),
    Generalized(asn1::GeneralizedTime),
}

/// `Extension` (section 4.1).
#[derive(Asn1Read)]
pub(super) struct Extension<'a> {
    pub oid: ObjectIdentifier,
    #[default(false)]
    pub critical: bool,
    pub value: &'a [u8],
}

/// `IssuingDistributionPoint` (section 5.2.5).
#[derive(Asn1Read)]
pub(super) struct DistributionPoint<'a> {
    #[explicit(0)]
    pub _point: Option<asn1::Tlv<'a>>,
    #[implicit(1)]
    #[default(false)]
    pub _only_users: bool,
    #[implicit(2)]
    #[default(false)]
    pub _only_authorities: bool,
    #[implicit(3)]
    pub only_some_reasons: Option<asn1::BitString<'a>>,
    #[implicit(4)]
    #[default(false)]
    pub is_indirect: bool,
    #[implicit(5)]
    #[default(false)]
    pub only_attributes: bool,
}

/// The extensions of a list and of its entries.
pub(super) const NUMBER: ObjectIdentifier = asn1::oid!(2, 5, 29, 20);
pub(super) const REASON: ObjectIdentifier = asn1::oid!(2, 5, 29, 21);
pub(super) const DELTA: ObjectIdentifier = asn1::oid!(2, 5, 29, 27);
pub(super) const POINT: ObjectIdentifier = asn1::oid!(2, 5, 29, 28);
pub(super) const ISSUER: ObjectIdentifier = asn1::oid!(2, 5, 29, 29);

/// The reason of an entry that takes a certificate out of the lists before it (section 5.3.1).
pub(super) const REMOVED: u32 = 8;

impl Time {
    /// The second in Unix time; 0 if it lies before 1970.
    pub fn second(&self) -> u64 {
        let time = match self {
            Time::Utc(time) => time.as_chrono(),
            Time::Generalized(time) => time.as_chrono(),
        };
        u64::try_from(time.timestamp()).unwrap_or(0)
    }
}

/// The names of directories within `GeneralNames` (section 4.2.1.6), each a whole element.
pub(super) fn directory_names(value: &[u8]) -> asn1::ParseResult<Vec<&[u8]>> {
    /// `[4] EXPLICIT Name`.
    const DIRECTORY: u8 = 0xA4;
    let names = asn1::parse_single::<asn1::SequenceOf<'_, asn1::Tlv<'_>>>(value)?;
    let directories = names.filter(|name| name.tag().as_u8() == Some(DIRECTORY));
    Ok(directories.map(|name| name.data()).collect())
}
