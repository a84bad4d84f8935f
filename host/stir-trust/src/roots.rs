//! Trust anchors in PEM, as authorities hand them out, and which of them the proved library takes.
//!
//! ```
//! use openssl::x509::X509;
//! use stir_trust::roots::Roots;
//!
//! # std::env::set_current_dir(concat!(env!("CARGO_MANIFEST_DIR"), "/../.."))?;
//! let anchors = std::fs::read("examples/files/anchors.der")?;
//! let leaf = std::fs::read("examples/files/passport.der")?;
//! let mut pem = X509::from_der(&leaf)?.to_pem()?;
//! pem.extend(X509::from_der(&anchors)?.to_pem()?);
//!
//! let roots = Roots::read(&stir::Settings::default(), &pem)?;
//! assert_eq!(roots.anchors, anchors);
//! let [left] = &roots.left_out[..] else { panic!("{roots:?}") };
//! let said = "certificate 1, CN=L, is no trust anchor of the profile, and is left out";
//! assert_eq!(left.to_string(), said);
//! # Ok::<(), Box<dyn std::error::Error>>(())
//! ```
use crate::names::text_of;
use openssl::x509::X509;
use stir::{Input, Settings, World};
use thiserror::Error;

/// The most bytes of a file of roots.
///
/// ```
/// assert_eq!(stir_trust::roots::MOST_BYTES, 8 << 20);
/// ```
pub const MOST_BYTES: usize = 8 << 20;

/// The most trust anchors.
///
/// ```
/// assert_eq!(stir_trust::roots::MOST_ANCHORS, 256);
/// ```
pub const MOST_ANCHORS: usize = 256;

/// What a file of certificates in PEM has. [The example](self) shows both parts.
///
/// ```
/// assert!(stir_trust::roots::Roots::default().anchors.is_empty());
/// ```
#[derive(Clone, Debug, Default, PartialEq, Eq)]
pub struct Roots {
    /// Those that the library takes for trust anchors, one after another in DER.
    pub anchors: Vec<u8>,
    /// The others, which are left out.
    pub left_out: Vec<LeftOut>,
}

/// A certificate that the library doesn't take for a trust anchor. Its text says so.
///
/// ```
/// let left = stir_trust::roots::LeftOut { number: 2, subject: "CN=Old".into() };
/// assert!(left.to_string().starts_with("certificate 2, CN=Old, is no trust anchor"));
/// ```
#[derive(Clone, Debug, Error, PartialEq, Eq)]
#[error("certificate {number}, {subject}, is no trust anchor of the profile, and is left out")]
pub struct LeftOut {
    /// Its number in the file, counted from 1.
    pub number: usize,
    /// The name of its subject.
    pub subject: String,
}

/// Why a file of roots isn't taken.
///
/// ```
/// use stir_trust::roots::{Roots, RootsFault};
///
/// let fault = Roots::read(&stir::Settings::default(), b"no certificate").err();
/// assert_eq!(fault, Some(RootsFault::Pem));
/// ```
#[derive(Clone, Copy, Debug, Error, PartialEq, Eq)]
pub enum RootsFault {
    /// It isn't certificates in PEM, or there is none.
    #[error("no certificates in PEM")]
    Pem,
    /// So many are trust anchors.
    #[error("{0} trust anchors, and {MOST_ANCHORS} are taken")]
    Many(usize),
    /// The library has no memory, or takes no such settings.
    #[error("{0}")]
    Library(#[from] stir::Error),
}

impl Roots {
    /// The certificates of a file. The library is asked of each.
    ///
    /// # Errors
    ///
    /// The file has none, or too many.
    ///
    /// [The example](self) reads one that is taken and one that isn't.
    pub fn read(settings: &Settings, pem: &[u8]) -> Result<Roots, RootsFault> {
        let found = X509::stack_from_pem(pem).map_err(|_| RootsFault::Pem)?;
        if found.is_empty() {
            return Err(RootsFault::Pem);
        }
        let (mut roots, mut count) = (Roots::default(), 0);
        for (number, root) in (1..).zip(&found) {
            let der = root.to_der().map_err(|_| RootsFault::Pem)?;
            if is_anchor(settings, &der)? {
                roots.anchors.extend_from_slice(&der);
                count += 1;
            } else {
                roots.left_out.push(LeftOut { number, subject: text_of(root.subject_name()) });
            }
        }
        match count {
            0..=MOST_ANCHORS => Ok(roots),
            _ => Err(RootsFault::Many(count)),
        }
    }
}

/// Whether the library takes these bytes for trust anchors, one after another in DER.
///
/// # Errors
///
/// The library has no memory, or takes no such settings.
///
/// ```
/// # std::env::set_current_dir(concat!(env!("CARGO_MANIFEST_DIR"), "/../.."))?;
/// use stir_trust::roots::is_anchor;
///
/// let settings = stir::Settings::default();
/// let [anchors, leaf] = ["anchors", "passport"]
///     .map(|name| std::fs::read(format!("examples/files/{name}.der")).expect(name));
/// assert!(is_anchor(&settings, &anchors)? && !is_anchor(&settings, &leaf)?);
/// # Ok::<(), Box<dyn std::error::Error>>(())
/// ```
pub fn is_anchor(settings: &Settings, der: &[u8]) -> Result<bool, stir::Error> {
    match World::open(settings, der, b"") {
        Ok(_) => Ok(true),
        Err(stir::Error::BadInput(Input::Anchors)) => Ok(false),
        Err(error) => Err(error),
    }
}

#[cfg(test)]
mod tests {
    use super::*;
    use openssl::asn1::Asn1Time;
    use openssl::bn::BigNum;
    use openssl::ec::{EcGroup, EcKey};
    use openssl::error::ErrorStack;
    use openssl::hash::MessageDigest;
    use openssl::nid::Nid;
    use openssl::pkey::PKey;
    use openssl::x509::extension::{BasicConstraints, KeyUsage, SubjectKeyIdentifier};
    use openssl::x509::X509Name;

    /// A certificate in PEM that signs itself, as an authority's or as none.
    fn certificate(name: &str, is_authority: bool) -> Result<Vec<u8>, ErrorStack> {
        let group = EcGroup::from_curve_name(Nid::X9_62_PRIME256V1)?;
        let key = PKey::from_ec_key(EcKey::generate(&group)?)?;
        let mut subject = X509Name::builder()?;
        subject.append_entry_by_text("C", "US")?;
        subject.append_entry_by_text("CN", name)?;
        let subject = subject.build();
        let mut builder = X509::builder()?;
        builder.set_version(2)?;
        builder.set_serial_number(&*BigNum::from_u32(1)?.to_asn1_integer()?)?;
        builder.set_subject_name(&subject)?;
        builder.set_issuer_name(&subject)?;
        builder.set_not_before(&*Asn1Time::from_unix(1_400_000_000)?)?;
        builder.set_not_after(&*Asn1Time::from_unix(1_900_000_000)?)?;
        builder.set_pubkey(&key)?;
        if is_authority {
            builder.append_extension(BasicConstraints::new().critical().ca().build()?)?;
            builder.append_extension(KeyUsage::new().critical().key_cert_sign().build()?)?;
        }
        let identifier = SubjectKeyIdentifier::new().build(&builder.x509v3_context(None, None))?;
        builder.append_extension(identifier)?;
        builder.sign(&key, MessageDigest::sha256())?;
        builder.build().to_pem()
    }

    #[test]
    fn what_is_no_authoritys_is_named_with_its_place_and_left_out() {
        let pem = |name, is_authority| certificate(name, is_authority).expect(name);
        let (one, other) = (pem("One", true), pem("Other", true));
        let leaf = pem("Leaf\u{1b}", false);
        let text = [&b"# One\n"[..], &one, &leaf, b"text between\n", &other, &leaf].concat();
        let roots = Roots::read(&Settings::default(), &text).expect("roots");
        let der = |pem: &[u8]| X509::from_pem(pem).and_then(|it| it.to_der()).expect("PEM");
        assert_eq!(roots.anchors, [der(&one), der(&other)].concat());
        let left: Vec<(usize, &str)> =
            roots.left_out.iter().map(|left| (left.number, left.subject.as_str())).collect();
        assert_eq!(left, [(2, r"CN=Leaf\1b,C=US"), (4, r"CN=Leaf\1b,C=US")]);
    }

    #[test]
    fn as_many_anchors_are_taken_as_may_be_and_no_more() {
        let (root, leaf) = (certificate("R", true), certificate("L", false));
        let (root, leaf) = (root.expect("a root"), leaf.expect("a leaf"));
        let most = [root.repeat(MOST_ANCHORS), leaf].concat();
        let settings = Settings::default();
        let roots = Roots::read(&settings, &most).expect("roots");
        assert!(is_anchor(&settings, &roots.anchors).expect("the library"));
        let more = Roots::read(&settings, &[most, root].concat());
        assert_eq!(more, Err(RootsFault::Many(MOST_ANCHORS + 1)));
    }

    #[test]
    fn a_file_without_certificates_or_with_a_broken_one_isnt_taken() {
        let root = certificate("R", true).expect("a root");
        let cut = &root[..root.len() / 2];
        for text in [&b""[..], b"\n", b"0\x82\x01\x00", cut, &[&root, cut].concat()] {
            let found = Roots::read(&Settings::default(), text);
            assert_eq!(found, Err(RootsFault::Pem), "{}", String::from_utf8_lossy(text));
        }
    }

    #[test]
    fn settings_that_the_library_refuses_are_told() {
        let root = certificate("R", true).expect("a root");
        let settings = Settings { past: 86_401, ..Settings::default() };
        let fault = RootsFault::Library(Input::Settings.into());
        assert_eq!(Roots::read(&settings, &root), Err(fault));
    }
}
