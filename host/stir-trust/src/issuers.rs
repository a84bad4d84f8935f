//! The issuers that a chain lacks, told to whoever has to get them.
//!
//! ```
//! # std::env::set_current_dir(concat!(env!("CARGO_MANIFEST_DIR"), "/../.."))?;
//! use stir_trust::fetch::chain_of;
//! use stir_trust::issuers::missing;
//!
//! let chain = chain_of(&std::fs::read("examples/files/passport.der")?)?;
//! let anchors = chain_of(&std::fs::read("examples/files/anchors.der")?)?;
//! assert!(missing(&chain, Some(&anchors))?.is_empty());
//! # Ok::<(), Box<dyn std::error::Error>>(())
//! ```
use crate::fetch::FormFault;
use crate::names::text_of;
use openssl::error::ErrorStack;
use openssl::x509::{X509NameRef, X509};
use std::cmp::Ordering;
use thiserror::Error;

/// An issuer whose certificate is missing. Its text says so.
///
/// ```
/// let issuer = stir_trust::issuers::Missing {
///     number: 1,
///     issuer: "CN=SHAKEN CA".into(),
///     are_anchors_named: false,
/// };
/// let said = "the certificate of CN=SHAKEN CA, which issued certificate 1, isn't in this file";
/// assert_eq!(issuer.to_string(), said);
/// ```
#[derive(Clone, Debug, Error, PartialEq, Eq)]
#[error(
    "the certificate of {issuer}, which issued certificate {number}, isn't in this file{}",
    if *.are_anchors_named { " or among the anchors" } else { "" }
)]
pub struct Missing {
    /// Which certificate it issued, counted from 1.
    pub number: usize,
    /// Its name.
    pub issuer: String,
    /// Whether it is known which anchors there are.
    pub are_anchors_named: bool,
}

/// The issuers of these certificates in DER that are neither among them nor among the anchors.
/// If nobody names the anchors, they may have the issuer of the last certificate.
///
/// # Errors
///
/// The first that isn't a certificate.
///
/// [The example](self) has a chain that lacks none.
pub fn missing(chain: &[Vec<u8>], anchors: Option<&[Vec<u8>]>) -> Result<Vec<Missing>, FormFault> {
    let read = |certificates: &[Vec<u8>]| {
        let read = |(number, der): (usize, &Vec<u8>)| {
            X509::from_der(der).map_err(|_| FormFault::Certificate(number))
        };
        (1..).zip(certificates).map(read).collect::<Result<Vec<X509>, FormFault>>()
    };
    let (there, above) = (read(chain)?, read(anchors.unwrap_or_default())?);
    let (mut missing, mut has_root) = (Vec::new(), false);
    for (number, certificate) in (1..).zip(&there) {
        let fault = |_| FormFault::Certificate(number);
        let issuer = certificate.issuer_name();
        has_root |= is_same(issuer, certificate.subject_name()).map_err(fault)?;
        let mut is_there = false;
        for other in there.iter().chain(&above) {
            is_there |= is_same(issuer, other.subject_name()).map_err(fault)?;
        }
        let der = chain.get(number - 1);
        let is_anchor = der.is_some_and(|der| anchors.unwrap_or_default().contains(der));
        if !is_there && !is_anchor {
            let (issuer, are_anchors_named) = (text_of(issuer), anchors.is_some());
            missing.push(Missing { number, issuer, are_anchors_named });
        }
    }
    if anchors.is_none() && missing.len() == 1 && !has_root {
        missing.clear();
    }
    Ok(missing)
}

/// Whether two names are the same (RFC 5280, section 7.1).
fn is_same(one: &X509NameRef, other: &X509NameRef) -> Result<bool, ErrorStack> {
    Ok(one.try_cmp(other)? == Ordering::Equal)
}

#[cfg(test)]
mod tests {
    use super::*;
    use openssl::asn1::Asn1Time;
    use openssl::bn::BigNum;
    use openssl::ec::{EcGroup, EcKey};
    use openssl::hash::MessageDigest;
    use openssl::nid::Nid;
    use openssl::pkey::PKey;
    use openssl::x509::{X509Name, X509NameBuilder};

    fn name(text: &str) -> Result<X509Name, ErrorStack> {
        let mut name: X509NameBuilder = X509Name::builder()?;
        name.append_entry_by_text("CN", text)?;
        Ok(name.build())
    }

    /// A certificate for one by another; who signed it isn't looked at.
    fn issued(subject: &str, issuer: &str) -> Result<Vec<u8>, ErrorStack> {
        let group = EcGroup::from_curve_name(Nid::X9_62_PRIME256V1)?;
        let key = PKey::from_ec_key(EcKey::generate(&group)?)?;
        let mut builder = X509::builder()?;
        builder.set_serial_number(&*BigNum::from_u32(1)?.to_asn1_integer()?)?;
        builder.set_subject_name(&*name(subject)?)?;
        builder.set_issuer_name(&*name(issuer)?)?;
        builder.set_not_before(&*Asn1Time::from_unix(1_400_000_000)?)?;
        builder.set_not_after(&*Asn1Time::from_unix(1_900_000_000)?)?;
        builder.set_pubkey(&key)?;
        builder.sign(&key, MessageDigest::sha256())?;
        builder.build().to_der()
    }

    /// A chain, the anchors if they are named, and which issuers are missing.
    type Case<'a> = (&'a [&'a Vec<u8>], Option<&'a [&'a Vec<u8>]>, &'a [(usize, &'a str)]);

    #[test]
    fn each_issuer_that_is_nowhere_is_told() {
        let der = |subject, issuer| issued(subject, issuer).expect(subject);
        let (leaf, middle, root) =
            (der("leaf", "middle"), der("middle", "root"), der("root", "root"));
        let other = der("other", "other");
        let cases: [Case<'_>; 9] = [
            (&[&leaf, &middle], Some(&[&root]), &[]),
            (&[&leaf], Some(&[&middle]), &[]),
            (&[&leaf], Some(&[&root]), &[(1, "CN=middle")]),
            (&[&leaf, &middle], Some(&[&other]), &[(2, "CN=root")]),
            (&[&leaf, &middle], Some(&[&middle]), &[]),
            (&[&leaf, &root], None, &[(1, "CN=middle")]),
            (&[&leaf, &middle], None, &[]),
            (&[&leaf, &middle, &root], None, &[]),
            (&[&leaf, &other], Some(&[]), &[(1, "CN=middle")]),
        ];
        for (number, (chain, anchors, wanted)) in cases.into_iter().enumerate() {
            let owned = |list: &[&Vec<u8>]| list.iter().map(|it| (*it).clone()).collect::<Vec<_>>();
            let anchors = anchors.map(owned);
            let found = missing(&owned(chain), anchors.as_deref()).expect("certificates");
            let told: Vec<_> = found.iter().map(|it| (it.number, it.issuer.as_str())).collect();
            assert_eq!(told, wanted, "case {number}");
        }
        assert_eq!(missing(&[leaf, vec![0x30, 0]], None), Err(FormFault::Certificate(2)));
    }
}
