//! Revocation lists and certificates that the tests make: written in DER here, signed by OpenSSL.
use openssl::asn1::Asn1Time;
use openssl::bn::BigNum;
use openssl::ec::{EcGroup, EcKey};
use openssl::hash::MessageDigest;
use openssl::nid::Nid;
use openssl::pkey::{PKey, Private};
use openssl::rsa::Rsa;
use openssl::sign::Signer;
use openssl::x509::extension::BasicConstraints;
use openssl::x509::{X509Builder, X509};

/// An element in DER (X.690, sections 8.1 and 10.1).
pub fn element(tag: u8, parts: &[&[u8]]) -> Vec<u8> {
    let content = parts.concat();
    let digits = content.len().to_be_bytes();
    let digits: Vec<u8> = digits.into_iter().skip_while(|digit| *digit == 0).collect();
    let mut head = vec![tag];
    if content.len() < 128 {
        head.push(content.len() as u8);
    } else {
        head.push(0x80 | digits.len() as u8);
        head.extend(digits);
    }
    [head, content].concat()
}

pub fn sequence(parts: &[&[u8]]) -> Vec<u8> {
    element(0x30, parts)
}

/// An object identifier by the content of its element.
pub fn oid(content: &[u8]) -> Vec<u8> {
    element(0x06, &[content])
}

/// An extension below 2.5.29, or any other by its whole identifier.
pub fn extension(identifier: &[u8], critical: bool, value: &[u8]) -> Vec<u8> {
    let critical: &[u8] = if critical { &[0x01, 0x01, 0xff] } else { &[] };
    sequence(&[&oid(identifier), critical, &element(0x04, &[value])])
}

/// The tags of strings.
pub const UTF8: u8 = 0x0c;
pub const PRINTABLE: u8 = 0x13;

/// A name of an organization and a common name, in strings of this tag.
pub fn name(organization: &str, common: &str, string: u8) -> Vec<u8> {
    let part = |kind: u8, text: &str| {
        let pair = sequence(&[&oid(&[0x55, 0x04, kind]), &element(string, &[text.as_bytes()])]);
        element(0x31, &[&pair])
    };
    sequence(&[&part(10, organization), &part(3, common)])
}

/// A key and its algorithm of signatures.
#[derive(Clone)]
pub struct Key {
    pub key: PKey<Private>,
    algorithm: Vec<u8>,
    digest: MessageDigest,
}

impl Key {
    pub fn p256() -> Key {
        Key::ecdsa(Nid::X9_62_PRIME256V1, 2, MessageDigest::sha256())
    }

    /// A key on this curve that signs by ECDSA with the digest of this number (RFC 5758, section
    /// 3.2).
    pub fn ecdsa(curve: Nid, number: u8, digest: MessageDigest) -> Key {
        let curve = EcGroup::from_curve_name(curve).expect("the curve");
        let key = PKey::from_ec_key(EcKey::generate(&curve).expect("a key")).expect("a key");
        let kind = oid(&[0x2a, 0x86, 0x48, 0xce, 0x3d, 0x04, 0x03, number]);
        Key { key, algorithm: sequence(&[&kind]), digest }
    }

    /// A key that signs by RSA with the digest of this number (RFC 4055, section 5).
    pub fn rsa(number: u8, digest: MessageDigest) -> Key {
        let key = PKey::from_rsa(Rsa::generate(2048).expect("a key")).expect("a key");
        let kind = oid(&[0x2a, 0x86, 0x48, 0x86, 0xf7, 0x0d, 0x01, 0x01, number]);
        Key { key, algorithm: sequence(&[&kind, &[0x05, 0x00]]), digest }
    }

    /// The same key with this algorithm's name over its signatures.
    pub fn called(&self, other: &Key) -> Key {
        Key { algorithm: other.algorithm.clone(), ..self.clone() }
    }

    pub fn sign(&self, bytes: &[u8]) -> Vec<u8> {
        let mut signer = Signer::new(self.digest, &self.key).expect("a signer");
        signer.sign_oneshot_to_vec(bytes).expect("a signature")
    }
}

/// A certificate with these names and this serial number, by this key.
pub fn certificate(subject: &[u8], issuer: &[u8], serial: &[u8], own: &Key, by: &Key) -> X509 {
    let named = |der: &[u8]| openssl::x509::X509Name::from_der(der).expect("a name");
    let mut builder = X509Builder::new().expect("a builder");
    let mut build = || {
        builder.set_version(2)?;
        let serial = BigNum::from_slice(serial)?.to_asn1_integer()?;
        builder.set_serial_number(&serial)?;
        builder.set_subject_name(&named(subject))?;
        builder.set_issuer_name(&named(issuer))?;
        builder.set_pubkey(&own.key)?;
        builder.set_not_before(&*Asn1Time::from_unix(1_600_000_000)?)?;
        builder.set_not_after(&*Asn1Time::from_unix(2_000_000_000)?)?;
        builder.append_extension(BasicConstraints::new().critical().ca().build()?)?;
        builder.sign(&by.key, by.digest)
    };
    build().expect("a certificate");
    builder.build()
}

/// A second of the year 2026, as UTCTime.
pub fn time(month: u8, day: u8) -> Vec<u8> {
    element(0x17, &[format!("26{month:02}{day:02}000000Z").as_bytes()])
}

/// An entry: a certificate of this serial number, revoked at a time.
pub fn entry(serial: &[u8], time: &[u8], extensions: &[Vec<u8>]) -> Vec<u8> {
    let extensions = match extensions {
        [] => Vec::new(),
        some => sequence(&[&some.concat()]),
    };
    sequence(&[&element(0x02, &[serial]), time, &extensions])
}

/// The extension that names the authority of an entry (RFC 5280, section 5.3.3).
pub fn issuer(name: &[u8]) -> Vec<u8> {
    extension(&[0x55, 0x1d, 29], true, &sequence(&[&element(0xa4, &[name])]))
}

/// The extension that gives a reason (section 5.3.1).
pub fn reason(number: u8) -> Vec<u8> {
    extension(&[0x55, 0x1d, 21], false, &element(0x0a, &[&[number]]))
}

/// The extension that says of what a list is one (section 5.2.5).
pub fn point(content: &[&[u8]]) -> Vec<u8> {
    extension(&[0x55, 0x1d, 28], true, &sequence(content))
}

/// The one of a list for several authorities.
pub fn indirect() -> Vec<u8> {
    point(&[&element(0x84, &[&[0xff]])])
}

/// The extension that numbers a list (section 5.2.3).
pub fn number(digits: &[u8]) -> Vec<u8> {
    extension(&[0x55, 0x1d, 20], false, &element(0x02, &[digits]))
}

/// A list to be signed.
#[derive(Clone)]
pub struct Made {
    pub version: Vec<u8>,
    pub issuer: Vec<u8>,
    pub begins: Vec<u8>,
    pub ends: Vec<u8>,
    pub entries: Vec<Vec<u8>>,
    pub extensions: Vec<Vec<u8>>,
}

impl Made {
    /// A list of this issuer and with these entries, for several authorities.
    pub fn new(issuer: &[u8], entries: &[Vec<u8>]) -> Made {
        Made {
            version: vec![0x02, 0x01, 0x01],
            issuer: issuer.into(),
            begins: time(6, 1),
            ends: time(7, 1),
            entries: entries.into(),
            extensions: vec![number(&[7]), indirect()],
        }
    }

    /// The list in DER, signed by this key.
    pub fn signed(&self, key: &Key) -> Vec<u8> {
        self.signed_as(key, key)
    }

    /// The same, with the name of another key's algorithm within what is signed.
    pub fn signed_as(&self, key: &Key, within: &Key) -> Vec<u8> {
        let Made { version, issuer, begins, ends, entries, extensions } = self;
        let entries = if entries.is_empty() { Vec::new() } else { sequence(&[&entries.concat()]) };
        let extensions = match &extensions[..] {
            [] => Vec::new(),
            some => element(0xa0, &[&sequence(&[&some.concat()])]),
        };
        let parts: [&[u8]; 7] =
            [version, &within.algorithm, issuer, begins, ends, &entries, &extensions];
        let body = sequence(&parts);
        let signature = element(0x03, &[&[0], &key.sign(&body)]);
        sequence(&[&body, &key.algorithm, &signature])
    }
}
