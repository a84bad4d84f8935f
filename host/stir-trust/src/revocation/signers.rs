//! Who signs revocation lists: certificates that the operator gives.
use super::fault::{ListFault, SignersFault};
use super::form::CertificateList;
use crate::names::text_of;
use openssl::asn1::Asn1Object;
use openssl::error::ErrorStack;
use openssl::hash::MessageDigest;
use openssl::nid::Nid;
use openssl::pkey::{PKeyRef, Public};
use openssl::sign::Verifier;
use openssl::x509::{X509Name, X509NameRef, X509};
use std::cmp::Ordering;

/// The signers of revocation lists: a certificate each, of an authority or of whoever signs lists
/// for several. They are trusted as they are. Nobody has to have issued them, and neither their
/// dates nor their extensions are looked at.
///
/// ```
/// use stir_trust::revocation::Signers;
///
/// assert!(Signers::from_pem(b"").is_err() && Signers::default() != Signers::from_pem(PEM)?);
/// # const PEM: &[u8] = include_bytes!("../../../../tests/ctl/files/carrier.pem");
/// # Ok::<(), stir_trust::revocation::SignersFault>(())
/// ```
#[derive(Clone, Debug, Default)]
pub struct Signers(Vec<X509>);

impl PartialEq for Signers {
    /// Whether they are the same certificates in the same order.
    fn eq(&self, other: &Signers) -> bool {
        let der =
            |signers: &Signers| signers.0.iter().map(|it| it.to_der().ok()).collect::<Vec<_>>();
        der(self) == der(other)
    }
}

impl Signers {
    /// The certificates of a text in PEM.
    ///
    /// # Errors
    ///
    /// There is none.
    ///
    /// ```
    /// # use stir_trust::revocation::{Signers, SignersFault};
    /// assert_eq!(Signers::from_pem(b"-----BEGIN CERTIFICATE-----\n"), Err(SignersFault));
    /// ```
    pub fn from_pem(pem: &[u8]) -> Result<Signers, SignersFault> {
        drop(ErrorStack::get());
        match X509::stack_from_pem(pem) {
            Ok(found) if !found.is_empty() => Ok(Signers(found)),
            _ => Err(SignersFault),
        }
    }

    /// The same signers and these.
    ///
    /// ```
    /// # use stir_trust::revocation::Signers;
    /// let both = Signers::default().and(Signers::default());
    /// assert_eq!(both, Signers::default());
    /// ```
    pub fn and(mut self, others: Signers) -> Signers {
        self.0.extend(others.0);
        self
    }

    /// Fails unless one of them has this list's issuer's name and signed it.
    pub(super) fn confirm(
        &self,
        list: &CertificateList<'_>,
        issuer: &X509NameRef,
    ) -> Result<(), ListFault> {
        let mut is_known = false;
        for signer in &self.0 {
            if signer.subject_name().try_cmp(issuer)? == Ordering::Equal {
                is_known = true;
                if is_signed(list, &*signer.public_key()?)? {
                    return Ok(());
                }
            }
        }
        let name = text_of(issuer);
        Err(if is_known { ListFault::Forged(name) } else { ListFault::Stranger(name) })
    }
}

/// Whether a list's signature is good under a key: ECDSA or RSA (PKCS #1) with SHA-256, SHA-384 or
/// SHA-512.
fn is_signed(list: &CertificateList<'_>, key: &PKeyRef<Public>) -> Result<bool, ErrorStack> {
    let algorithm = Asn1Object::from_str(&list.algorithm.oid.to_string())?.nid();
    let Some(algorithms) = algorithm.signature_algorithms() else { return Ok(false) };
    let digest = match algorithms.digest {
        Nid::SHA256 => MessageDigest::sha256(),
        Nid::SHA384 => MessageDigest::sha384(),
        Nid::SHA512 => MessageDigest::sha512(),
        _ => return Ok(false),
    };
    let is_of_key = algorithms.pkey.as_raw() == key.id().as_raw();
    if !is_of_key || list.signature.padding_bits() != 0 {
        return Ok(false);
    }
    let mut verifier = Verifier::new(digest, key)?;
    let good = verifier.verify_oneshot(list.signature.as_bytes(), list.signed.full_data());
    // A signature outside its form is one that isn't good.
    let good = good.unwrap_or(false);
    drop(ErrorStack::get());
    Ok(good)
}

/// A name's element in DER as OpenSSL has it; nothing if it is none, or is empty.
pub(super) fn name_of(der: &[u8]) -> Option<X509Name> {
    let name = X509Name::from_der(der).ok();
    drop(ErrorStack::get());
    name.filter(|name| name.entries().next().is_some())
}
