//! The certificates to which an x5u leads.

use crate::handle::{ChainHandle, WorldHandle};
use crate::question::bytes_of;
use crate::room::{questions, said, written, Written};
use crate::world::World;
use crate::{Error, Question};
use std::sync::{Mutex, PoisonError};

/// How many bytes a part of a certificate mostly has.
const PART: usize = 256;

/// A chain of certificates, judged once under a world. It doesn't change, and any number of threads
/// may use it at once.
///
/// ```
#[doc = include_str!("../tests/given/hidden.md")]
/// let chain = world.chain(given::CHAIN)?;
/// let good: Vec<bool> = chain.questions()?.iter().map(given::good).collect();
/// let chain = chain.confirmed(&good)?;
/// # Ok::<(), stir::Error>(())
/// ```
#[derive(Debug)]
pub struct Chain {
    world: World,
    handle: Mutex<ChainHandle>,
}

/// A part of a certificate.
///
/// ```
#[doc = include_str!("../tests/given/hidden.md")]
/// use stir::Part;
///
/// let until = chain.part(1, Part::NotAfter)?.unwrap_or_default();
/// assert_eq!(String::from_utf8_lossy(&until).parse::<i64>(), Ok(1_735_689_600));
/// # Ok::<(), stir::Error>(())
/// ```
#[derive(Clone, Copy, Debug, PartialEq, Eq)]
pub enum Part {
    /// The content of its serial number, as it stands in DER (RFC 5280, section 4.1.2.2).
    Serial = 1,
    /// Its subject, a whole element in DER (section 4.1.2.6).
    Subject,
    /// Its issuer, likewise (section 4.1.2.4).
    Issuer,
    /// The service provider codes of its authority list (RFC 8226, section 9), each with an LF.
    Codes,
    /// The SHA-256 of its signed part.
    Digest,
    /// The first second at which it is valid, in Unix time, in decimal digits.
    NotBefore,
    /// The last second at which it is valid, likewise.
    NotAfter,
    /// The URIs of its CRL distribution points (RFC 5280, section 4.2.1.13), each with an LF.
    Revocation,
}

impl Chain {
    /// Judges a chain under a world.
    pub(crate) fn open(
        world: &World,
        handle: &mut WorldHandle,
        der: &[u8],
    ) -> Result<Chain, Error> {
        // SAFETY: all are lent for the call, and `out` is a closed handle.
        let (chain, _) = unsafe {
            ChainHandle::opened(|out| {
                stir_sys::stir_chain_open(handle.at(), der.as_ptr(), der.len(), out)
            })
        }?;
        Ok(Chain { world: world.clone(), handle: Mutex::new(chain) })
    }

    /// What a verifier of signatures is asked for its certificates, at most six questions, from the
    /// leaf's on. There are none if the chain breaks one of rules 11, 12 and 14.
    ///
    /// # Errors
    ///
    /// Want of memory.
    ///
    /// ```
    #[doc = include_str!("../tests/given/hidden.md")]
    /// assert!(chain.questions()?.iter().all(given::good));
    /// # Ok::<(), stir::Error>(())
    /// ```
    pub fn questions(&self) -> Result<Vec<Question>, Error> {
        self.with(|handle| {
            // SAFETY: the handle and the room are lent for the call.
            let (_, questions) = unsafe {
                questions(|at, size| stir_sys::stir_chain_questions(handle.at(), at, size))
            }?;
            Ok(questions)
        })
    }

    /// The same chain with these of its questions confirmed, and no others: an answer for each,
    /// made by an honest verifier of ES256. A question without an answer isn't confirmed.
    ///
    /// # Errors
    ///
    /// Want of memory.
    ///
    /// ```
    #[doc = include_str!("../tests/given/hidden.md")]
    /// use stir::{Refused, Verdict};
    ///
    /// let spoilt = world.chain(given::CHAIN)?.confirmed(&[false])?;
    /// let mut call = world.call(given::MOMENT, given::INVITE)?;
    /// call.set_chain(0, &spoilt)?;
    /// let verdict = call.verify(given::good)?;
    /// assert_eq!(verdict, Verdict::Refused(Refused { rule: 15, code: 437, field: 1, part: 1 }));
    /// # Ok::<(), stir::Error>(())
    /// ```
    pub fn confirmed(&self, good: &[bool]) -> Result<Chain, Error> {
        let mut chain = self.with(ChainHandle::share)?;
        let good = bytes_of(good);
        // SAFETY: all are lent for the call.
        said(unsafe { stir_sys::stir_chain_confirm(chain.at(), good.as_ptr(), good.len()) })?;
        Ok(Chain { world: self.world.clone(), handle: Mutex::new(chain) })
    }

    /// A part of one of its certificates, of which the leaf is number 1; or nothing if there is no
    /// such certificate, or it hasn't got it.
    ///
    /// # Errors
    ///
    /// Want of memory.
    ///
    /// ```
    #[doc = include_str!("../tests/given/hidden.md")]
    /// use stir::Part;
    ///
    /// let subject = chain.part(2, Part::Subject)?;
    /// assert_eq!(subject, chain.part(1, Part::Issuer)?);
    /// assert_eq!(chain.part(3, Part::Subject)?, None);
    /// # Ok::<(), stir::Error>(())
    /// ```
    pub fn part(&self, number: u32, part: Part) -> Result<Option<Vec<u8>>, Error> {
        self.with(|handle| {
            // SAFETY: the handle and the room are lent for the call.
            let came = unsafe {
                written(PART, |at, size| {
                    stir_sys::stir_chain_part(handle.at(), number, part as u32, at, size)
                })
            }?;
            Ok(match came {
                Written::Said(_, bytes) => Some(bytes),
                Written::None => None,
            })
        })
    }

    /// Whether it was opened under this world.
    pub(crate) fn is_of(&self, world: &World) -> bool {
        self.world.is(world)
    }

    /// Lends its handle to a call of the library, under the lock.
    pub(crate) fn with<T>(&self, call: impl FnOnce(&mut ChainHandle) -> T) -> T {
        call(&mut self.handle.lock().unwrap_or_else(PoisonError::into_inner))
    }
}
