//! A revocation list: which certificates it names, and since when.
use super::fault::{ListFault, Older};
use super::form::{self, CertificateList, DistributionPoint, Entry, Extension, SignedList};
use super::names::Names;
use super::signers::{name_of, Signers};
use crate::fetch::block_of;
use openssl::bn::BigNum;
use std::collections::HashMap;
use std::fmt::{self, Debug, Formatter};

/// The most bytes of a list.
///
/// ```
/// assert_eq!(stir_trust::revocation::MOST_BYTES, 16_777_216);
/// ```
pub const MOST_BYTES: usize = 16 << 20;

/// The most authorities that a list names.
///
/// ```
/// assert_eq!(stir_trust::revocation::MOST_AUTHORITIES, 10_000);
/// ```
pub const MOST_AUTHORITIES: usize = 10_000;

/// The label of a list in PEM (RFC 7468, section 7).
const LABEL: &[u8] = b"X509 CRL";

/// The most bytes of a number (RFC 5280, section 5.2.3), and one for its sign.
const MOST_NUMBER: usize = 21;

/// A revocation list that its signer signed (RFC 5280, section 5).
///
/// A list may be one of its issuer's own certificates, or an indirect one, whose entries name the
/// authority that issued the certificate (sections 5.2.5 and 5.3.3): an entry that names none has
/// that of the entry before it. Certificates are told apart by authority and serial number. What
/// limits a list to the certificates of users or of authorities is passed over, since an entry
/// names one or the other anyway.
///
/// ```
#[doc = include_str!("hidden.md")]
/// println!("list {}: {} certificates", list.number(), list.len());
/// # Ok::<(), Box<dyn std::error::Error>>(())
/// ```
pub struct List {
    authorities: Names,
    /// By the number of the authority and the content of the serial number.
    since: HashMap<(u32, Box<[u8]>), u64>,
    number: Vec<u8>,
    begins: u64,
    ends: Option<u64>,
}

impl Debug for List {
    fn fmt(&self, to: &mut Formatter<'_>) -> fmt::Result {
        let List { begins, ends, .. } = self;
        let told = (self.number(), self.len(), begins, ends);
        to.debug_tuple("List").field(&told).finish()
    }
}

impl List {
    /// The list of these bytes, in PEM or DER, if one of these signers signed it.
    ///
    /// # Errors
    ///
    /// It isn't taken, and why.
    ///
    /// ```
    /// use stir_trust::revocation::{List, ListFault, Signers, MOST_BYTES};
    ///
    /// let fault = List::read(&vec![0x30; MOST_BYTES + 1], &Signers::default()).unwrap_err();
    /// assert!(matches!(fault, ListFault::Long(MOST_BYTES)));
    /// ```
    pub fn read(bytes: &[u8], signers: &Signers) -> Result<List, ListFault> {
        if bytes.len() > MOST_BYTES {
            return Err(ListFault::Long(MOST_BYTES));
        }
        let pem = block_of(bytes, LABEL).map_err(|_| ListFault::Form)?;
        let list = asn1::parse_single::<CertificateList<'_>>(pem.as_deref().unwrap_or(bytes));
        let list = list.map_err(|_| ListFault::Form)?;
        let signed: SignedList<'_> = list.signed.parse().map_err(|_| ListFault::Form)?;
        // Version 2, which extensions need (sections 5.1.2.1), or 1, of which none is told.
        let is_version = signed.version.map_or(signed.extensions.is_none(), |version| version == 1);
        if !is_version || signed.algorithm != list.algorithm {
            return Err(ListFault::Form);
        }
        let issuer = name_of(signed.issuer.full_data()).ok_or(ListFault::Form)?;
        signers.confirm(&list, &issuer)?;
        let About { number, is_indirect } = About::of(&signed)?;
        let mut authorities = Names::default();
        let mut authority = vec![authorities.put(issuer)?];
        let mut since = HashMap::new();
        for (place, entry) in (1..).zip(signed.revoked.into_iter().flatten()) {
            let Said { named, is_removed } = Said::of(&entry)?;
            if let Some(named) = named {
                if !is_indirect {
                    return Err(ListFault::Authority(place));
                }
                authority = numbers(&mut authorities, &named, place)?;
            }
            for authority in authority.iter().filter(|_| !is_removed) {
                let key = (*authority, entry.serial.as_bytes().into());
                let second = entry.since.second();
                let known = since.entry(key).or_insert(second);
                *known = second.min(*known);
            }
        }
        let (begins, ends) = (signed.this_update, signed.next_update);
        let (begins, ends) = (begins.second(), ends.map(|ends| ends.second()));
        Ok(List { authorities, since, number, begins, ends })
    }

    /// The second, in Unix time, since which a certificate is revoked: that of this issuer, a whole
    /// element in DER, and with this content of its serial number.
    ///
    /// # Errors
    ///
    /// OpenSSL failed, as if it had no memory.
    ///
    /// ```
    #[doc = include_str!("hidden.md")]
    /// // CN=B and O=STI, and 1004.
    /// let issuer = b"\x30\x1a\x31\x0c\x30\x0a\x06\x03\x55\x04\x0a\x0c\x03STI\
    ///     \x31\x0a\x30\x08\x06\x03\x55\x04\x03\x0c\x01B";
    /// assert_eq!(list.since(issuer, &[0x03, 0xec])?, Some(1_782_864_000));
    /// assert_eq!(list.since(issuer, &[0x03, 0xea])?, None);
    /// # Ok::<(), Box<dyn std::error::Error>>(())
    /// ```
    pub fn since(&self, issuer: &[u8], serial: &[u8]) -> Result<Option<u64>, ListFault> {
        let Some(issuer) = name_of(issuer) else { return Ok(None) };
        let authority = self.authorities.number(&issuer)?;
        Ok(authority.and_then(|number| self.since.get(&(number, serial.into())).copied()))
    }

    /// How many certificates it names.
    ///
    /// ```
    #[doc = include_str!("hidden.md")]
    /// assert_eq!(list.len(), 3);
    /// # Ok::<(), Box<dyn std::error::Error>>(())
    /// ```
    pub fn len(&self) -> usize {
        self.since.len()
    }

    /// Whether it names none.
    ///
    /// ```
    #[doc = include_str!("hidden.md")]
    /// assert!(!list.is_empty());
    /// # Ok::<(), Box<dyn std::error::Error>>(())
    /// ```
    pub fn is_empty(&self) -> bool {
        self.since.is_empty()
    }

    /// The second, in Unix time, at which it was issued.
    ///
    /// ```
    #[doc = include_str!("hidden.md")]
    /// assert_eq!(list.begins(), 1_782_864_000);
    /// # Ok::<(), Box<dyn std::error::Error>>(())
    /// ```
    pub fn begins(&self) -> u64 {
        self.begins
    }

    /// The second by which the next one is issued, if it says that.
    ///
    /// ```
    #[doc = include_str!("hidden.md")]
    /// assert_eq!(list.ends(), Some(1_785_542_400));
    /// # Ok::<(), Box<dyn std::error::Error>>(())
    /// ```
    pub fn ends(&self) -> Option<u64> {
        self.ends
    }

    /// Whether the next one should be there at this second.
    ///
    /// ```
    #[doc = include_str!("hidden.md")]
    /// assert!(!list.has_ended(1_785_542_400) && list.has_ended(1_785_542_401));
    /// # Ok::<(), Box<dyn std::error::Error>>(())
    /// ```
    pub fn has_ended(&self, now: u64) -> bool {
        self.ends.is_some_and(|ends| ends < now)
    }

    /// Its number in decimal digits; `none` if it has none.
    ///
    /// ```
    #[doc = include_str!("hidden.md")]
    /// assert_eq!(list.number(), "7");
    /// # Ok::<(), Box<dyn std::error::Error>>(())
    /// ```
    pub fn number(&self) -> String {
        if self.number.is_empty() {
            return "none".into();
        }
        let digits = BigNum::from_slice(&self.number).and_then(|number| number.to_dec_str());
        digits.map_or_else(|_| "unknown".into(), |digits| digits.to_string())
    }

    /// Fails if this list is older than one that was there before: if its number is less, or is the
    /// same and it was issued earlier (RFC 5280, section 5.2.3).
    ///
    /// # Errors
    ///
    /// Both numbers.
    ///
    /// ```
    #[doc = include_str!("hidden.md")]
    /// assert_eq!(list.follows(&List::read(der, &signers)?), Ok(()));
    /// # Ok::<(), Box<dyn std::error::Error>>(())
    /// ```
    pub fn follows(&self, before: &List) -> Result<(), Older> {
        let order = |list: &List| (list.number.len(), list.number.clone(), list.begins);
        if order(self) >= order(before) {
            return Ok(());
        }
        Err(Older { before: before.number(), now: self.number() })
    }
}

/// What the extensions of a list say.
struct About {
    number: Vec<u8>,
    is_indirect: bool,
}

impl About {
    fn of(signed: &SignedList<'_>) -> Result<About, ListFault> {
        let mut about = About { number: Vec::new(), is_indirect: false };
        for Extension { oid, critical, value } in signed.extensions.clone().into_iter().flatten() {
            match oid {
                form::NUMBER => about.number = number_of(value)?,
                form::DELTA => return Err(ListFault::Delta),
                form::POINT => {
                    let point: DistributionPoint<'_> =
                        asn1::parse_single(value).map_err(|_| ListFault::Form)?;
                    if point.only_some_reasons.is_some() || point.only_attributes {
                        return Err(ListFault::Scope);
                    }
                    about.is_indirect = point.is_indirect;
                }
                other if critical => return Err(ListFault::Critical(other.to_string())),
                _ => {}
            }
        }
        Ok(about)
    }
}

/// A number's digits to the base 256, without zeros before them; a zero for 0.
fn number_of(value: &[u8]) -> Result<Vec<u8>, ListFault> {
    let number: asn1::BigUint<'_> = asn1::parse_single(value).map_err(|_| ListFault::Form)?;
    match number.as_bytes() {
        long if long.len() > MOST_NUMBER => Err(ListFault::Form),
        [0, digits @ ..] if !digits.is_empty() => Ok(digits.into()),
        digits => Ok(digits.into()),
    }
}

/// What the extensions of an entry say.
struct Said<'a> {
    /// The names of its authority, if they are said.
    named: Option<Vec<&'a [u8]>>,
    /// Whether it takes a certificate out of the lists before it.
    is_removed: bool,
}

impl<'a> Said<'a> {
    fn of(entry: &Entry<'a>) -> Result<Said<'a>, ListFault> {
        let mut said = Said { named: None, is_removed: false };
        for Extension { oid, critical, value } in entry.extensions.clone().into_iter().flatten() {
            match oid {
                form::ISSUER => {
                    let names = form::directory_names(value).map_err(|_| ListFault::Form)?;
                    said.named = Some(names);
                }
                form::REASON => {
                    let reason: asn1::Enumerated =
                        asn1::parse_single(value).map_err(|_| ListFault::Form)?;
                    said.is_removed = reason.value() == form::REMOVED;
                }
                other if critical => return Err(ListFault::Critical(other.to_string())),
                _ => {}
            }
        }
        Ok(said)
    }
}

/// The numbers of the authorities of an entry.
fn numbers(names: &mut Names, named: &[&[u8]], place: usize) -> Result<Vec<u32>, ListFault> {
    let mut numbers = Vec::with_capacity(named.len());
    for name in named {
        let name = name_of(name).ok_or(ListFault::Authority(place))?;
        numbers.push(names.put(name)?);
    }
    if names.len() > MOST_AUTHORITIES {
        return Err(ListFault::Authorities(MOST_AUTHORITIES));
    }
    if numbers.is_empty() {
        return Err(ListFault::Authority(place));
    }
    Ok(numbers)
}
