//! What is told of a certificate. What the profile has of it is read by the proved library (the
//! lines of `show`, docs/FORMATS.md), but for claim constraints, of which it tells nothing; names
//! and what the profile passes over, by OpenSSL and `asn1`.

use super::parts::Parts;
use super::{broken, is_outside, Broken, Certificate};
use crate::files::number;
use crate::Fault;
use asn1::{Asn1Read, IA5String, ObjectIdentifier, SequenceOf, Tlv, Utf8String};
use openssl::asn1::{Asn1Time, Asn1TimeRef};
use openssl::error::ErrorStack;
use serde::Serialize;
use stir::{Part, World};
use stir_trust::names::text_of;

/// What is told of a certificate, in the order in which it stands in JSON.
#[derive(Debug, Serialize)]
pub(crate) struct Told {
    pub file: String,
    pub certificate: usize,
    pub subject: String,
    pub issuer: String,
    /// The content of the serial number, in hex.
    pub serial: String,
    /// The first and the last second at which it is valid, in Unix time, if that can be read.
    pub not_before: Option<i64>,
    pub not_after: Option<i64>,
    /// Its certificate policies (RFC 5280, section 4.2.1.4), which the profile passes over.
    pub policies: Vec<String>,
    /// What the profile has of it, if it isn't outside.
    #[serde(flatten)]
    pub profile: Option<Profile>,
    pub outside: Option<Broken>,
}

/// What the profile has of a certificate.
#[derive(Debug, Default, Serialize)]
pub(crate) struct Profile {
    pub ca: bool,
    pub path_length: Option<u64>,
    /// Its key usages (RFC 5280, section 4.2.1.3), if it names any.
    pub usage: Option<Vec<String>>,
    pub key: String,
    /// Whether it has an authority list.
    pub has_list: bool,
    pub codes: Vec<String>,
    pub ranges: Vec<Range>,
    pub numbers: Vec<String>,
    /// Where it says whether it is revoked.
    pub revocation: Vec<String>,
    pub claims: Option<Claims>,
}

/// So many numbers from this one on.
#[derive(Debug, Serialize)]
pub(crate) struct Range {
    pub start: String,
    pub count: String,
}

/// Its constraints on claims (RFC 8226, section 8).
#[derive(Debug, Serialize)]
pub(crate) struct Claims {
    /// The claims that have to be there.
    pub wanted: Vec<String>,
    /// The values that a claim may have.
    pub permitted: Vec<Permitted>,
}

#[derive(Debug, Serialize)]
pub(crate) struct Permitted {
    pub claim: String,
    pub values: Vec<String>,
}

/// The names of the key usages, by their bits.
const USAGES: [&str; 9] = [
    "digitalSignature",
    "contentCommitment",
    "keyEncipherment",
    "dataEncipherment",
    "keyAgreement",
    "keyCertSign",
    "cRLSign",
    "encipherOnly",
    "decipherOnly",
];

impl Told {
    /// What is told of this certificate, the one of this number in a file.
    pub fn of(
        world: &World,
        file: &str,
        number: usize,
        certificate: &Certificate,
    ) -> Result<Told, Fault> {
        let Certificate { der, read } = certificate;
        let parts = Parts::of(der);
        let mut told = Told {
            file: file.into(),
            certificate: number,
            subject: text_of(read.subject_name()),
            issuer: text_of(read.issuer_name()),
            serial: String::new(),
            not_before: second_of(read.not_before()).ok(),
            not_after: second_of(read.not_after()).ok(),
            policies: parts.as_ref().map(policies).unwrap_or_default(),
            profile: None,
            outside: None,
        };
        if is_outside(der)? {
            let serial = read.serial_number().to_bn().and_then(|it| it.to_hex_str());
            told.serial = serial.map_or(String::new(), |digits| digits.to_lowercase());
            told.outside = Some(broken(der)?);
            return Ok(told);
        }
        let chain = world.chain(der)?;
        told.serial = hex(&chain.part(1, Part::Serial)?.unwrap_or_default());
        let mut profile = told.lines(&stir::show(der)?);
        let revocation = chain.part(1, Part::Revocation)?.unwrap_or_default();
        profile.revocation = String::from_utf8_lossy(&revocation).lines().map(Into::into).collect();
        profile.claims = parts.as_ref().and_then(claims);
        told.profile = Some(profile);
        Ok(told)
    }

    /// What the lines of `show` say.
    fn lines(&mut self, lines: &str) -> Profile {
        let mut profile = Profile::default();
        for line in lines.lines() {
            let (word, rest) = line.split_once(' ').unwrap_or((line, ""));
            match word {
                "not-before" => self.not_before = rest.parse().ok(),
                "not-after" => self.not_after = rest.parse().ok(),
                "ca" => profile.ca = rest == "yes",
                "path-length" => profile.path_length = number(rest.as_bytes(), u64::MAX),
                "usage" => profile.usage = usages(rest),
                "key" => profile.key = rest.into(),
                "authority" => profile.has_list = rest == "list",
                "code" => profile.codes.push(rest.into()),
                "number" => profile.numbers.push(rest.into()),
                "range" => {
                    let (start, count) = rest.split_once(' ').unwrap_or((rest, ""));
                    profile.ranges.push(Range { start: start.into(), count: count.into() });
                }
                _ => {}
            }
        }
        profile
    }
}

/// The key usages of four hex digits, or nothing if there is another word.
fn usages(digits: &str) -> Option<Vec<String>> {
    let bits = u16::from_str_radix(digits, 16).ok()?;
    let named = (0..16).filter(|bit| bits & (1 << bit) != 0);
    let name = |bit: usize| USAGES.get(bit).map_or(format!("bit {bit}"), |name| (*name).into());
    Some(named.map(name).collect())
}

fn hex(bytes: &[u8]) -> String {
    bytes.iter().map(|byte| format!("{byte:02x}")).collect()
}

fn second_of(time: &Asn1TimeRef) -> Result<i64, ErrorStack> {
    let since = Asn1Time::from_unix(0)?.diff(time)?;
    Ok(i64::from(since.days) * 86_400 + i64::from(since.secs))
}

/// What the extension of this identifier says.
fn extension<'a>(parts: &Parts<'a>, identifier: &ObjectIdentifier) -> Option<&'a [u8]> {
    let extensions = parts.extensions()?;
    extensions.iter().find(|it| it.identifier().as_ref() == Some(identifier))?.content()
}

/// A policy (RFC 5280, section 4.2.1.4).
#[derive(Asn1Read)]
struct Policy<'a> {
    policy: ObjectIdentifier,
    #[allow(dead_code)]
    qualifiers: Option<Tlv<'a>>,
}

fn policies(parts: &Parts<'_>) -> Vec<String> {
    let content = extension(parts, &asn1::oid!(2, 5, 29, 32));
    let list = content.and_then(|it| asn1::parse_single::<SequenceOf<'_, Policy<'_>>>(it).ok());
    list.into_iter().flatten().map(|policy| policy.policy.to_string()).collect()
}

/// Constraints on claims, as docs/FORMATS.md has them. The library has looked at their form.
#[derive(Asn1Read)]
struct Constraints<'a> {
    #[explicit(0)]
    wanted: Option<SequenceOf<'a, IA5String<'a>>>,
    #[explicit(1)]
    permitted: Option<SequenceOf<'a, Values<'a>>>,
}

#[derive(Asn1Read)]
struct Values<'a> {
    claim: IA5String<'a>,
    values: SequenceOf<'a, Utf8String<'a>>,
}

fn claims(parts: &Parts<'_>) -> Option<Claims> {
    let content = extension(parts, &asn1::oid!(1, 3, 6, 1, 5, 5, 7, 1, 27))?;
    let Constraints { wanted, permitted } = asn1::parse_single(content).ok()?;
    let wanted = wanted.into_iter().flatten().map(|name| name.as_str().to_owned()).collect();
    let permitted = permitted.into_iter().flatten().map(|Values { claim, values }| Permitted {
        claim: claim.as_str().to_owned(),
        values: values.map(|value| value.as_str().to_owned()).collect(),
    });
    Some(Claims { wanted, permitted: permitted.collect() })
}

#[cfg(test)]
mod tests {
    use super::*;
    use openssl::x509::X509;
    use stir::Settings;

    /// Numbers by a linear congruence (Knuth's MMIX), the high bits of each.
    struct Random(u64);

    impl Random {
        fn below(&mut self, end: usize) -> usize {
            let step = self.0.wrapping_mul(6_364_136_223_846_793_005);
            self.0 = step.wrapping_add(1_442_695_040_888_963_407);
            (self.0 >> 33) as usize % end.max(1)
        }
    }

    #[test]
    fn a_spoilt_certificate_is_told_and_its_broken_part_lies_within() {
        let path = concat!(env!("CARGO_MANIFEST_DIR"), "/../../examples/files/passport.der");
        let chain = std::fs::read(path).expect("the example");
        let leaf = stir_trust::fetch::certificates_of(&chain).expect("a chain").swap_remove(0);
        let world = World::open(&Settings::default(), b"", b"").expect("a world");
        let (mut random, mut outside, mut unread) = (Random(1), 0, 0);
        for number in 0..3_000 {
            let mut der = leaf.clone();
            for _ in 0..=random.below(2) {
                let at = random.below(der.len());
                der[at] ^= 1 << random.below(8);
            }
            let Ok(read) = X509::from_der(&der) else { continue };
            let certificate = Certificate { der: der.clone(), read };
            let told = Told::of(&world, "spoilt", 1, &certificate);
            let told = told.unwrap_or_else(|fault| panic!("{number}: {fault}, {der:02x?}"));
            match &told.outside {
                None => continue,
                Some(Broken::Part { place, .. }) => assert!(*place < der.len(), "{der:02x?}"),
                Some(_) => unread += 1,
            }
            outside += 1;
            assert!(told.to_string().contains("\n    outside     "), "{der:02x?}");
        }
        assert!(outside > 300 && unread < outside / 4, "{unread} of {outside}");
    }
}
