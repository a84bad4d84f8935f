//! Who sent a request, as its connection tells.
use openssl::nid::Nid;
use openssl::sha::sha256;
use openssl::x509::X509Ref;
use std::net::IpAddr;
use std::sync::Arc;

/// Who sent a request.
#[derive(Clone, Debug, PartialEq, Eq)]
pub struct Peer {
    /// From which address; none over a Unix socket.
    pub address: Option<IpAddr>,
    /// The certificate to which it has shown the key, by an authority that is trusted.
    pub certificate: Option<Arc<Shown>>,
}

impl Peer {
    /// Whether it is a process of this host, or has shown a certificate.
    pub(super) fn is_known(&self) -> bool {
        let is_here = |address: IpAddr| address.to_canonical().is_loopback();
        self.certificate.is_some() || self.address.is_none_or(is_here)
    }

    /// Whether it came over a Unix socket.
    pub(super) fn is_at_socket(&self) -> bool {
        self.address.is_none()
    }
}

/// What is looked at of a client's certificate.
#[derive(Debug, PartialEq, Eq)]
pub struct Shown {
    /// Its SHA-256.
    pub sum: [u8; 32],
    /// The common name of its subject, if it has one and no other.
    pub name: Option<String>,
}

impl Shown {
    /// Of a certificate, if it has an encoding.
    pub fn of(certificate: &X509Ref) -> Option<Shown> {
        let sum = sha256(&certificate.to_der().ok()?);
        let mut names = certificate.subject_name().entries_by_nid(Nid::COMMONNAME);
        let name = match (names.next(), names.next()) {
            (Some(name), None) => Some(name.data()),
            _ => None,
        };
        // What is behind a NUL would be passed over.
        let name = name.filter(|name| !name.as_slice().contains(&0));
        let name = name.and_then(|name| Some(name.as_utf8().ok()?.to_string()));
        Some(Shown { sum, name })
    }
}

#[cfg(test)]
mod tests {
    use super::*;
    use openssl::asn1::Asn1Time;
    use openssl::ec::{EcGroup, EcKey};
    use openssl::hash::MessageDigest;
    use openssl::pkey::PKey;
    use openssl::x509::{X509Builder, X509Name, X509};

    fn certificate(names: &[&str]) -> X509 {
        let group = EcGroup::from_curve_name(Nid::X9_62_PRIME256V1).expect("P-256");
        let key = EcKey::generate(&group).and_then(PKey::from_ec_key).expect("a key");
        let mut subject = X509Name::builder().expect("a name");
        subject.append_entry_by_nid(Nid::ORGANIZATIONNAME, "switch-9").expect("added");
        for name in names {
            subject.append_entry_by_nid(Nid::COMMONNAME, name).expect("added");
        }
        let mut made = X509Builder::new().expect("a builder");
        made.set_subject_name(&subject.build()).expect("set");
        made.set_pubkey(&key).expect("set");
        made.set_not_before(&Asn1Time::days_from_now(0).expect("a day")).expect("set");
        made.set_not_after(&Asn1Time::days_from_now(1).expect("a day")).expect("set");
        made.sign(&key, MessageDigest::sha256()).expect("signed");
        made.build()
    }

    #[test]
    fn of_a_certificate_its_sum_and_its_one_common_name_are_looked_at() {
        for (names, wanted) in [
            (&["switch-1"][..], Some("switch-1")),
            (&["Zürich"], Some("Zürich")),
            (&[], None),
            (&["switch-1", "switch-2"], None),
            (&["switch-1\0.evil.example"], None),
        ] {
            let certificate = certificate(names);
            let shown = Shown::of(&certificate).expect("it has an encoding");
            assert_eq!(shown.name.as_deref(), wanted, "{names:?}");
            let sum = certificate.digest(MessageDigest::sha256()).expect("a digest");
            assert_eq!(shown.sum[..], sum[..], "{names:?}");
        }
    }
}
