//! Certificates that the tests make.
use openssl::asn1::Asn1Time;
use openssl::bn::BigNum;
use openssl::ec::{EcGroup, EcKey};
use openssl::hash::MessageDigest;
use openssl::nid::Nid;
use openssl::pkey::{PKey, Private};
use openssl::x509::extension::{BasicConstraints, SubjectAlternativeName};
use openssl::x509::{X509Builder, X509Name, X509NameBuilder, X509};
use std::time::{SystemTime, UNIX_EPOCH};

/// The second, in Unix time.
pub fn now() -> u64 {
    SystemTime::now().duration_since(UNIX_EPOCH).expect("after 1970").as_secs()
}

/// A certificate and its key.
#[derive(Clone)]
pub struct Identity {
    pub certificate: X509,
    pub key: PKey<Private>,
}

impl Identity {
    /// A root of this name, valid until this second.
    pub fn root(name: &str, ends: u64) -> Identity {
        made(name, &[], ends, None)
    }

    /// One of this name that this one issues, for these hosts, valid until this second.
    pub fn issue(&self, name: &str, hosts: &[&str], ends: u64) -> Identity {
        made(name, hosts, ends, Some(self))
    }

    pub fn der(&self) -> Vec<u8> {
        self.certificate.to_der().expect("DER")
    }

    pub fn pem(&self) -> Vec<u8> {
        self.certificate.to_pem().expect("PEM")
    }
}

fn named(name: &str) -> X509Name {
    let mut builder = X509NameBuilder::new().expect("a name");
    builder.append_entry_by_nid(Nid::COMMONNAME, name).expect("a name");
    builder.build()
}

fn made(name: &str, hosts: &[&str], ends: u64, by: Option<&Identity>) -> Identity {
    let curve = EcGroup::from_curve_name(Nid::X9_62_PRIME256V1).expect("the curve");
    let key = PKey::from_ec_key(EcKey::generate(&curve).expect("a key")).expect("a key");
    let mut builder = X509Builder::new().expect("a builder");
    let mut build = || {
        let mut serial = BigNum::new()?;
        serial.rand(64, openssl::bn::MsbOption::MAYBE_ZERO, false)?;
        builder.set_version(2)?;
        builder.set_serial_number(&*serial.to_asn1_integer()?)?;
        builder.set_subject_name(&named(name))?;
        let issuer = named(name);
        builder.set_issuer_name(by.map_or(&issuer, |by| by.certificate.subject_name()))?;
        builder.set_pubkey(&key)?;
        builder.set_not_before(&*Asn1Time::from_unix(1_600_000_000)?)?;
        builder.set_not_after(&*Asn1Time::from_unix(ends as i64)?)?;
        if hosts.is_empty() {
            builder.append_extension(BasicConstraints::new().critical().ca().build()?)?;
        } else {
            let mut names = SubjectAlternativeName::new();
            for host in hosts {
                if host.parse::<std::net::IpAddr>().is_ok() {
                    names.ip(host);
                } else {
                    names.dns(host);
                }
            }
            let names = names.build(&builder.x509v3_context(None, None))?;
            builder.append_extension(names)?;
        }
        builder.sign(by.map_or(&key, |by| &by.key), MessageDigest::sha256())
    };
    build().expect("a certificate");
    Identity { certificate: builder.build(), key }
}
