//! Who a chain says that its holder is.
use openssl::x509::X509Name;
use stir::{Chain, Error, Part};
use stir_trust::names::text_of;

/// The holder of the certificate with which a PASSporT is signed: what the leaf of its chain says.
#[derive(Clone, Debug, Default, PartialEq, Eq)]
pub struct Signer {
    /// The service provider codes in its authority list (RFC 8226, section 9).
    pub codes: Vec<String>,
    /// Its subject in text (RFC 4514).
    pub subject: String,
}

impl Signer {
    /// What the leaf of a chain says; nothing if it can't be read.
    pub(super) fn of(chain: &Chain) -> Result<Signer, Error> {
        const LEAF: u32 = 1;
        let subject = chain.part(LEAF, Part::Subject)?.unwrap_or_default();
        let subject =
            X509Name::from_der(&subject).map_or_else(|_| String::new(), |it| text_of(&it));
        let codes = chain.part(LEAF, Part::Codes)?.unwrap_or_default();
        let codes = String::from_utf8_lossy(&codes).lines().map(String::from).collect();
        Ok(Signer { codes, subject })
    }
}
