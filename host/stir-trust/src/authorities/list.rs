//! The signed list of authorities: a JWS (RFC 7515), by ES256 with a key that the operator knows.
use super::fault::{AuthoritiesFault, ListSignerFault};
use crate::Verifier;
use openssl::base64;
use openssl::bn::BigNumContext;
use openssl::ec::PointConversionForm;
use openssl::error::ErrorStack;
use openssl::nid::Nid;
use openssl::sha::sha256;
use openssl::x509::{X509VerifyResult, X509};
use serde::de::DeserializeOwned;
use serde::Deserialize;
use stir::Question;

/// The most bytes of a list.
///
/// ```
/// assert_eq!(stir_trust::authorities::MOST_BYTES, 8 << 20);
/// ```
pub const MOST_BYTES: usize = 8 << 20;

/// Who signs a list of authorities: a key on P-256.
///
/// ```
/// # let pem = include_bytes!("../../../../tests/ctl/files/carrier.pem");
/// let signer = stir_trust::authorities::ListSigner::from_pem(pem)?;
/// # Ok::<(), stir_trust::authorities::ListSignerFault>(())
/// ```
#[derive(Clone, Debug, PartialEq, Eq)]
pub struct ListSigner([u8; 65]);

impl ListSigner {
    /// The signer whose certificate a text in PEM is. The certificate is trusted as it is: nobody
    /// has to have issued it, and its dates and extensions aren't looked at.
    ///
    /// # Errors
    ///
    /// It isn't one certificate, or its key isn't one of P-256.
    ///
    /// ```
    /// # use stir_trust::authorities::ListSigner;
    /// assert!(ListSigner::from_pem(b"-----BEGIN CERTIFICATE-----").is_err());
    /// ```
    pub fn from_pem(pem: &[u8]) -> Result<ListSigner, ListSignerFault> {
        let point = || {
            let found = X509::stack_from_pem(pem).ok()?;
            let [certificate] = &found[..] else { return None };
            let key = certificate.public_key().ok()?.ec_key().ok()?;
            let is_p256 = key.group().curve_name() == Some(Nid::X9_62_PRIME256V1);
            let (form, mut numbers) =
                (PointConversionForm::UNCOMPRESSED, BigNumContext::new().ok()?);
            let point = key.public_key().to_bytes(key.group(), form, &mut numbers).ok()?;
            point.try_into().ok().filter(|_| is_p256)
        };
        let found = point().map(ListSigner).ok_or(ListSignerFault);
        drop(ErrorStack::get());
        found
    }
}

/// A list of authorities that its signer signed. Each has signed itself.
///
/// The list is a JWS in its compact form (RFC 7515, section 7.1), with the algorithm ES256 and
/// without `crit` and `b64`. An `x5u` or a key in its header is passed over. The payload is a JSON
/// object with `sequence`, a whole number that never falls; `exp`, the second at which the list
/// ends, in Unix time; and `trustList`, an array of certificates in PEM. Other members are passed
/// over.
///
/// ```
/// use stir_trust::authorities::{AuthorityList, ListSigner};
///
/// # fn of(jws: &[u8], pem: &[u8]) -> Result<(), Box<dyn std::error::Error>> {
/// let list = AuthorityList::read(jws, &ListSigner::from_pem(pem)?, 1_800_000_000)?;
/// println!("list {}: {} authorities", list.sequence, list.roots.len());
/// # Ok(())
/// # }
/// ```
#[derive(Clone, Debug)]
pub struct AuthorityList {
    /// Its sequence.
    pub sequence: u64,
    /// The second at which it ends, in Unix time.
    pub ends: u64,
    /// The roots of the authorities, in its order.
    pub roots: Vec<X509>,
}

/// The header of a JWS (section 4.1).
#[derive(Deserialize)]
struct Header {
    alg: String,
    #[serde(default)]
    crit: Present,
    #[serde(default)]
    b64: Present,
}

/// Whether a member is there, whatever its value.
#[derive(Default)]
struct Present(bool);

impl<'de> Deserialize<'de> for Present {
    fn deserialize<D: serde::Deserializer<'de>>(from: D) -> Result<Present, D::Error> {
        serde::de::IgnoredAny::deserialize(from).map(|_| Present(true))
    }
}

/// The payload of a list.
#[derive(Deserialize)]
struct Payload {
    sequence: u64,
    exp: u64,
    #[serde(rename = "trustList")]
    trust_list: Vec<String>,
}

impl AuthorityList {
    /// The list of these bytes at this second, in Unix time.
    ///
    /// # Errors
    ///
    /// It isn't taken, and why.
    ///
    /// ```
    /// use stir_trust::authorities::{AuthoritiesFault, AuthorityList, ListSigner};
    /// # let pem = include_bytes!("../../../../tests/ctl/files/carrier.pem");
    ///
    /// let unsigned = b"eyJhbGciOiJub25lIn0.e30.";
    /// let fault = AuthorityList::read(unsigned, &ListSigner::from_pem(pem)?, 0).err();
    /// assert_eq!(fault, Some(AuthoritiesFault::Header));
    /// # Ok::<(), stir_trust::authorities::ListSignerFault>(())
    /// ```
    pub fn read(
        jws: &[u8],
        signer: &ListSigner,
        now: u64,
    ) -> Result<AuthorityList, AuthoritiesFault> {
        if jws.len() > MOST_BYTES {
            return Err(AuthoritiesFault::Long(MOST_BYTES));
        }
        let jws = jws.trim_ascii_end();
        let mut parts = jws.split(|byte| *byte == b'.');
        let mut next = || parts.next().and_then(decoded).ok_or(AuthoritiesFault::Form);
        let (header, payload, signature) = (next()?, next()?, next()?);
        if parts.next().is_some() {
            return Err(AuthoritiesFault::Form);
        }
        let header: Header = object(&header).ok_or(AuthoritiesFault::Header)?;
        if header.alg != "ES256" || header.crit.0 || header.b64.0 {
            return Err(AuthoritiesFault::Header);
        }
        if !is_signed(jws, &signature, signer) {
            return Err(AuthoritiesFault::Forged);
        }
        let Payload { sequence, exp, trust_list } =
            object(&payload).ok_or(AuthoritiesFault::Payload)?;
        if exp <= now {
            return Err(AuthoritiesFault::Ended(exp));
        }
        let roots = (1..).zip(&trust_list).map(|(number, pem)| root(number, pem));
        Ok(AuthorityList { sequence, ends: exp, roots: roots.collect::<Result<_, _>>()? })
    }

    /// Fails if a list with a greater sequence was there before.
    ///
    /// # Errors
    ///
    /// Both sequences.
    ///
    /// ```
    /// use stir_trust::authorities::{AuthoritiesFault, AuthorityList};
    ///
    /// let list = AuthorityList { sequence: 6, ends: 0, roots: Vec::new() };
    /// assert!(list.follows(6).is_ok());
    /// assert_eq!(list.follows(7), Err(AuthoritiesFault::Back { before: 7, now: 6 }));
    /// ```
    pub fn follows(&self, before: u64) -> Result<(), AuthoritiesFault> {
        match self.sequence {
            now if now < before => Err(AuthoritiesFault::Back { before, now }),
            _ => Ok(()),
        }
    }
}

/// A JSON object, with the members that are wanted, each once. An array of their values is none.
fn object<T: DeserializeOwned>(text: &[u8]) -> Option<T> {
    let is_object = text.trim_ascii_start().starts_with(b"{");
    serde_json::from_slice(text).ok().filter(|_| is_object)
}

/// Whether the signer made the signature over the first two parts of a JWS.
fn is_signed(jws: &[u8], signature: &[u8], signer: &ListSigner) -> bool {
    let end = jws.iter().rposition(|byte| *byte == b'.').unwrap_or_default();
    let digest = sha256(jws.get(..end).unwrap_or_default());
    let question = [signer.0.as_slice(), &digest, signature].concat();
    let Ok(question) = question.try_into() else { return false };
    Verifier::new().is_ok_and(|verifier| verifier.checks(&Question::new(question)))
}

/// The root of this number in a list, which has signed itself.
fn root(number: usize, pem: &str) -> Result<X509, AuthoritiesFault> {
    let found = X509::stack_from_pem(pem.as_bytes());
    let found = found.map_err(|_| AuthoritiesFault::Certificate(number))?;
    let [root] = &found[..] else { return Err(AuthoritiesFault::Certificate(number)) };
    let is_signed = root.public_key().and_then(|key| root.verify(&key)).unwrap_or(false);
    drop(ErrorStack::get());
    match root.issued(root) {
        X509VerifyResult::OK if is_signed => Ok(root.clone()),
        _ => Err(AuthoritiesFault::Root(number)),
    }
}

/// The bytes of a text in base64url without padding (RFC 7515, section 2).
fn decoded(text: &[u8]) -> Option<Vec<u8>> {
    let is_in = |byte: &u8| byte.is_ascii_alphanumeric() || matches!(byte, b'-' | b'_');
    if !text.iter().all(is_in) {
        return None;
    }
    let usual = |text: &str| text.replace('-', "+").replace('_', "/");
    let mut padded = usual(std::str::from_utf8(text).ok()?);
    padded.push_str(["", "===", "==", "="].get(text.len() % 4)?);
    let bytes = base64::decode_block(&padded).ok();
    drop(ErrorStack::get());
    // Each text of bytes is one alone: what is left over of the last letter is zero.
    bytes.filter(|bytes| base64::encode_block(bytes) == padded)
}
