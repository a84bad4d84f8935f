//! Which certificates are revoked, by lists that signers sign (RFC 5280, section 5) whom the
//! operator names.
//!
//! What a certificate says, its issuer, its serial number and the digest of its signed part, comes
//! from the proved library ([`stir::Part`]). A certificate is revoked if its authority's name and
//! its serial number stand in a list. The question about its signature isn't confirmed then
//! ([`Revoked::spoils`]), so a call breaks rule 15 at that certificate.
//!
//! ```
//! use stir_trust::revocation::{Lists, Signers};
//!
//! # fn judged(
//! #     chain: &stir::Chain, pem: &[u8], crl: &[u8],
//! # ) -> Result<(), Box<dyn std::error::Error>> {
//! # let now = 1_800_000_000;
//! let mut lists = Lists::default();
//! lists.add(stir_trust::revocation::List::read(crl, &Signers::from_pem(pem)?)?);
//! for revoked in lists.revoked(chain)? {
//!     println!("certificate {} is revoked since {}", revoked.certificate, revoked.since);
//!     assert!(chain.questions()?.iter().any(|question| revoked.spoils(question, now)));
//! }
//! # Ok(())
//! # }
//! ```
mod fault;
mod form;
mod list;
mod names;
mod signers;

pub use fault::{ListFault, Older, SignersFault};
pub use list::{List, MOST_AUTHORITIES, MOST_BYTES};
pub use signers::Signers;

use crate::authorities::issuer_and_serial;
use chrono::NaiveDateTime;
use std::sync::Arc;
use stir::{Chain, Part, Question, Settings, World};
use thiserror::Error;

/// The most certificates of a chain.
const MOST_CERTIFICATES: u32 = 6;

/// A certificate of a chain that is revoked.
///
/// ```
/// use stir_trust::revocation::Revoked;
///
/// let revoked = Revoked { certificate: 1, since: 1_780_272_000, digest: [0; 32] };
/// let text = "certificate 1 is revoked since 2026-06-01T00:00:00Z";
/// assert_eq!(revoked.to_string(), text);
/// ```
#[derive(Clone, Copy, Debug, Error, PartialEq, Eq)]
#[error("certificate {certificate} is revoked since {}", moment(*.since))]
pub struct Revoked {
    /// Its number in the chain; the leaf's is 1.
    pub certificate: u32,
    /// The second, in Unix time, since which it is revoked.
    pub since: u64,
    /// The SHA-256 of its signed part.
    pub digest: [u8; 32],
}

impl Revoked {
    /// Whether a question is about its signature and isn't to be confirmed at this second, since it
    /// is revoked then.
    ///
    /// ```
    /// # use stir_trust::revocation::Revoked;
    /// let revoked = Revoked { certificate: 1, since: 7, digest: [4; 32] };
    /// let question = stir::Question::new([4; 161]);
    /// assert!(revoked.spoils(&question, 7) && !revoked.spoils(&question, 6));
    /// ```
    pub fn spoils(&self, question: &Question, moment: u64) -> bool {
        self.since <= moment && question.digest() == self.digest
    }
}

/// Why it isn't known whether certificates are revoked.
///
/// ```
/// use stir_trust::revocation::{ListFault, Unknown};
///
/// assert!(matches!(Unknown::from(stir::Error::OutOfMemory), Unknown::Library(_)));
/// ```
#[derive(Clone, Debug, Error)]
pub enum Unknown {
    /// The proved library doesn't say what a certificate says.
    #[error("{0}")]
    Library(#[from] stir::Error),
    /// OpenSSL doesn't compare names.
    #[error("{0}")]
    List(#[from] ListFault),
}

/// Several lists.
///
/// ```
/// assert!(stir_trust::revocation::Lists::default().is_empty());
/// ```
#[derive(Clone, Debug, Default)]
pub struct Lists(Vec<Arc<List>>);

impl Lists {
    /// Takes one list more.
    ///
    /// ```
    #[doc = include_str!("hidden.md")]
    /// let mut lists = Lists::default();
    /// lists.add(list);
    /// assert!(!lists.is_empty());
    /// # Ok::<(), Box<dyn std::error::Error>>(())
    /// ```
    pub fn add(&mut self, list: impl Into<Arc<List>>) {
        self.0.push(list.into());
    }

    /// The lists.
    ///
    /// ```
    #[doc = include_str!("hidden.md")]
    /// let mut lists = Lists::default();
    /// lists.add(list);
    /// assert_eq!(lists.iter().map(|list| list.len()).sum::<usize>(), 3);
    /// # Ok::<(), Box<dyn std::error::Error>>(())
    /// ```
    pub fn iter(&self) -> impl Iterator<Item = &List> {
        self.0.iter().map(AsRef::as_ref)
    }

    /// Whether there is none.
    ///
    /// ```
    /// assert!(stir_trust::revocation::Lists::default().is_empty());
    /// ```
    pub fn is_empty(&self) -> bool {
        self.0.is_empty()
    }

    /// The second since which a certificate with this issuer and this serial number is revoked, by
    /// the list that says the earliest one.
    ///
    /// # Errors
    ///
    /// OpenSSL failed, as if it had no memory.
    ///
    /// ```
    /// let lists = stir_trust::revocation::Lists::default();
    /// assert_eq!(lists.since(b"", b"")?, None);
    /// # Ok::<(), stir_trust::revocation::ListFault>(())
    /// ```
    pub fn since(&self, issuer: &[u8], serial: &[u8]) -> Result<Option<u64>, ListFault> {
        let mut earliest: Option<u64> = None;
        for list in &self.0 {
            if let Some(since) = list.since(issuer, serial)? {
                earliest = Some(earliest.map_or(since, |known| known.min(since)));
            }
        }
        Ok(earliest)
    }

    /// The certificates of a chain that are revoked, from the leaf's on, whether at some second
    /// that has come or at a later one.
    ///
    /// # Errors
    ///
    /// Want of memory.
    ///
    /// ```
    /// # let world = stir::World::open(&stir::Settings::default(), b"", b"")?;
    /// # let chain = world.chain(b"")?;
    /// let lists = stir_trust::revocation::Lists::default();
    /// assert!(lists.revoked(&chain)?.is_empty());
    /// # Ok::<(), Box<dyn std::error::Error>>(())
    /// ```
    pub fn revoked(&self, chain: &Chain) -> Result<Vec<Revoked>, Unknown> {
        let mut revoked = Vec::new();
        if self.is_empty() {
            return Ok(revoked);
        }
        for certificate in 1..=MOST_CERTIFICATES {
            let Some(issuer) = chain.part(certificate, Part::Issuer)? else { break };
            let Some(serial) = chain.part(certificate, Part::Serial)? else { break };
            let Some(digest) = chain.part(certificate, Part::Digest)? else { break };
            if let (Some(since), Ok(digest)) = (self.since(&issuer, &serial)?, digest.try_into()) {
                revoked.push(Revoked { certificate, since, digest });
            }
        }
        Ok(revoked)
    }
}

impl Lists {
    /// The second since which a certificate in DER is revoked, whether the library takes it or it
    /// is outside the profile.
    ///
    /// # Errors
    ///
    /// Want of memory.
    ///
    /// ```
    #[doc = include_str!("hidden.md")]
    /// let lists = Lists::default();
    /// let certificate = openssl::x509::X509::from_pem(pem)?.to_der()?;
    /// assert_eq!(lists.since_of(&certificate)?, None);
    /// # Ok::<(), Box<dyn std::error::Error>>(())
    /// ```
    pub fn since_of(&self, der: &[u8]) -> Result<Option<u64>, Unknown> {
        if self.is_empty() {
            return Ok(None);
        }
        let world = World::open(&Settings::default(), b"", b"")?;
        if let [revoked, ..] = self.revoked(&world.chain(der)?)?[..] {
            return Ok(Some(revoked.since));
        }
        match issuer_and_serial(der) {
            Some((issuer, serial)) => Ok(self.since(&issuer, &serial)?),
            None => Ok(None),
        }
    }
}

/// A second in Unix time as a date and a time of day (RFC 3339).
///
/// ```
/// assert_eq!(stir_trust::revocation::moment(1_780_272_000), "2026-06-01T00:00:00Z");
/// ```
pub fn moment(second: u64) -> String {
    let time = i64::try_from(second).ok().and_then(|it| NaiveDateTime::from_timestamp_opt(it, 0));
    time.map_or_else(|| format!("second {second}"), |time| time.format("%FT%TZ").to_string())
}
