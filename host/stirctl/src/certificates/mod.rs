//! Certificates in named files, and what is told of them.

mod outside;
mod parts;
mod told;
mod words;

pub(crate) use outside::{broken, is_outside, Broken};
pub(crate) use parts::Parts;
pub(crate) use told::Told;

use crate::input::{name_of, whole};
use crate::Fault;
use openssl::x509::X509;
use stir_trust::fetch::{certificates_of, chain_of, FormFault};

/// The most bytes of a file of certificates.
const MOST_BYTES: u64 = 8 << 20;

/// A certificate of a file: its bytes, and as OpenSSL reads them.
#[derive(Clone, Debug)]
pub(crate) struct Certificate {
    pub der: Vec<u8>,
    pub read: X509,
}

/// The certificates of a file in PEM, DER or PKCS #7, in the order in which they stand.
pub(crate) fn in_order(word: &str) -> Result<Vec<Certificate>, Fault> {
    read(word, certificates_of)
}

/// The same with the leaf's first and each before its issuer's, if they are such a path.
pub(crate) fn leaf_first(word: &str) -> Result<Vec<Certificate>, Fault> {
    read(word, chain_of)
}

fn read(
    word: &str,
    of: impl FnOnce(&[u8]) -> Result<Vec<Vec<u8>>, FormFault>,
) -> Result<Vec<Certificate>, Fault> {
    let found = of(&whole(word, MOST_BYTES)?);
    let failed = |error: &dyn ToString| Fault::Input(name_of(word).into(), error.to_string());
    let certificate = |der: Vec<u8>| match X509::from_der(&der) {
        Ok(read) => Ok(Certificate { der, read }),
        Err(error) => Err(failed(&error)),
    };
    found.map_err(|fault| failed(&fault))?.into_iter().map(certificate).collect()
}
