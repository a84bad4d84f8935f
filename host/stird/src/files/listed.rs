//! A file of the chain map, and the chain in it.
use super::bytes;
use super::fault::Why;
use super::lists::Revocation;
use super::look::Look;
use super::signer::Signer;
use arc_swap::ArcSwapOption;
use std::path::Path;
use std::sync::atomic::{AtomicBool, Ordering};
use std::sync::{Arc, OnceLock};
use stir::{Chain, Error, Part, Question};
use stir_trust::revocation::Revoked;
use stir_trust::Verifier;

/// The most bytes of a chain. Of a longer file one byte more is handed to the library, so that rule
/// 11 still sees that it is too long.
const MOST_CHAIN: usize = 49_152;

/// The most certificates of a chain (docs/RULES.md, rule 11).
const MOST_CERTIFICATES: u32 = 6;

/// A chain of the chain map, or one that was fetched.
pub struct Listed {
    /// As it was opened.
    opened: Chain,
    /// The same with all its questions confirmed, once they are.
    confirmed: OnceLock<Confirmed>,
    /// The last second at which all its certificates are valid, in Unix time; nothing if it breaks
    /// a rule at any second.
    ends: Option<u64>,
    /// The codes of its certificates, once they are asked for.
    codes: OnceLock<Vec<Box<[u8]>>>,
    /// Who its leaf says that its holder is, once that is asked for.
    signer: OnceLock<Arc<Signer>>,
    /// Whether it was tried in vain to prove it with its codes.
    is_unproved: AtomicBool,
    /// Its certificates that are revoked, by the lists of which that was asked last.
    revoked: ArcSwapOption<RevokedBy>,
}

/// The certificates of a chain that are revoked by a reading of the lists.
struct RevokedBy {
    reading: u64,
    revoked: Vec<Revoked>,
}

struct Confirmed {
    chain: Arc<Chain>,
    questions: Vec<Question>,
}

impl Listed {
    /// A chain of these bytes, judged under a world.
    pub(super) fn open(world: &stir::World, der: &[u8]) -> Result<Listed, Error> {
        let opened = world.chain(der)?;
        let ends = ends(&opened)?;
        Ok(Listed {
            opened,
            confirmed: OnceLock::new(),
            ends,
            codes: OnceLock::new(),
            signer: OnceLock::new(),
            is_unproved: AtomicBool::new(false),
            revoked: ArcSwapOption::empty(),
        })
    }

    /// Its certificates that are revoked at this moment by these lists, of which it is asked once
    /// a reading.
    ///
    /// # Errors
    ///
    /// Want of memory.
    pub fn revoked(&self, by: &Revocation, moment: u64) -> Result<Vec<Revoked>, Error> {
        let known = self.revoked.load_full().filter(|known| known.reading == by.reading());
        let known = match known {
            Some(known) => known,
            None => {
                let revoked = by.revoked(&self.opened)?;
                let known = Arc::new(RevokedBy { reading: by.reading(), revoked });
                self.revoked.store(Some(Arc::clone(&known)));
                known
            }
        };
        Ok(known.revoked.iter().filter(|it| it.since <= moment).copied().collect())
    }

    /// The chain with these of its questions confirmed, whatever was confirmed of it before.
    ///
    /// # Errors
    ///
    /// Want of memory.
    pub fn chain_but(&self, confirms: impl FnMut(&Question) -> bool) -> Result<Chain, Error> {
        let good: Vec<bool> = self.opened.questions()?.iter().map(confirms).collect();
        self.opened.confirmed(&good)
    }

    /// The service provider codes of all its certificates.
    ///
    /// # Errors
    ///
    /// Want of memory.
    pub fn codes(&self) -> Result<&[Box<[u8]>], Error> {
        if let Some(codes) = self.codes.get() {
            return Ok(codes);
        }
        let mut codes = Vec::new();
        for number in 1..=MOST_CERTIFICATES {
            let lines = self.opened.part(number, Part::Codes)?.unwrap_or_default();
            let lines = lines.split(|byte| *byte == b'\n').filter(|code| !code.is_empty());
            codes.extend(lines.map(Box::from));
        }
        Ok(self.codes.get_or_init(|| codes))
    }

    /// Who its leaf says that its holder is. It is read once a chain.
    ///
    /// # Errors
    ///
    /// Want of memory.
    pub fn signer(&self) -> Result<Arc<Signer>, Error> {
        if let Some(signer) = self.signer.get() {
            return Ok(Arc::clone(signer));
        }
        let signer = Arc::new(Signer::of(&self.opened)?);
        Ok(Arc::clone(self.signer.get_or_init(|| signer)))
    }

    /// A part of one of its certificates; the leaf is number 1.
    ///
    /// # Errors
    ///
    /// Want of memory.
    pub fn part(&self, number: u32, part: Part) -> Result<Option<Vec<u8>>, Error> {
        self.opened.part(number, part)
    }

    /// Whether it was tried in vain to prove it with its codes, and is so under its world.
    pub fn is_unproved(&self) -> bool {
        self.is_unproved.load(Ordering::Relaxed)
    }

    /// It was tried in vain.
    pub fn leave_unproved(&self) {
        self.is_unproved.store(true, Ordering::Relaxed);
    }

    /// The chain with its questions confirmed by this verifier. Once it has confirmed all of it, it
    /// isn't asked again.
    ///
    /// # Errors
    ///
    /// Want of memory.
    pub fn chain(&self, mut confirms: impl FnMut(&Question) -> bool) -> Result<Arc<Chain>, Error> {
        self.chain_by(|_, question| confirms(question))
    }

    /// The same by a verifier that is told which question it is: the leaf's is number 0.
    fn chain_by(
        &self,
        mut confirms: impl FnMut(usize, &Question) -> bool,
    ) -> Result<Arc<Chain>, Error> {
        if let Some(confirmed) = self.confirmed.get() {
            return Ok(Arc::clone(&confirmed.chain));
        }
        let questions = self.opened.questions()?;
        let good: Vec<bool> =
            questions.iter().enumerate().map(|(at, question)| confirms(at, question)).collect();
        let chain = Arc::new(self.opened.confirmed(&good)?);
        if good.iter().all(|good| *good) {
            let confirmed = self.confirmed.get_or_init(|| Confirmed { chain, questions });
            return Ok(Arc::clone(&confirmed.chain));
        }
        Ok(chain)
    }

    /// Confirms it before a call asks for it. What was confirmed of the chain in whose place it
    /// stands isn't asked again. Leaves' signatures stand in one chain each, and others in many:
    /// those alone are worth the verifier's memory.
    pub(super) fn confirm(&self, verifier: &Verifier, before: Option<&Listed>) {
        let known = before.map_or(&[][..], Listed::confirmed);
        // A chain for which there is no memory now is confirmed when a call asks for it.
        let _ = self.chain_by(|at, question| {
            known.contains(question)
                || if at == 0 { verifier.checks(question) } else { verifier.confirms(question) }
        });
    }

    /// Whether all its questions are confirmed.
    pub(super) fn is_confirmed(&self) -> bool {
        self.confirmed.get().is_some()
    }

    /// Its questions, if all are confirmed.
    pub(super) fn confirmed(&self) -> &[Question] {
        self.confirmed.get().map_or(&[], |confirmed| &confirmed.questions)
    }

    /// The last second at which all its certificates are valid; nothing if it breaks a rule at any
    /// second.
    pub(super) fn ends(&self) -> Option<u64> {
        self.ends
    }
}

/// The last second at which all certificates of a chain are valid. There is a question for each,
/// unless it breaks one of rules 11, 12 and 14.
fn ends(chain: &Chain) -> Result<Option<u64>, Error> {
    let mut ends = None;
    for (_, number) in chain.questions()?.iter().zip(1..) {
        let Some(digits) = chain.part(number, Part::NotAfter)? else { break };
        let end: i64 = std::str::from_utf8(&digits).ok().and_then(|n| n.parse().ok()).unwrap_or(0);
        let end = u64::try_from(end).unwrap_or(0);
        ends = Some(ends.map_or(end, |earlier: u64| earlier.min(end)));
    }
    Ok(ends)
}

/// A file of the chain map, as it was read last.
pub(super) struct ChainFile {
    /// How it looked.
    look: Look,
    /// Whether it has to be read again, however it looks.
    again: bool,
    /// Its bytes, and the chain that they are. If it can't be read they are those from before.
    held: Option<Held>,
    /// Why it can't be read.
    fault: Option<Why>,
}

#[derive(Clone)]
struct Held {
    der: Arc<[u8]>,
    chain: Arc<Listed>,
}

impl ChainFile {
    /// Whether it isn't what it was when it was read.
    pub(super) fn is_stale(&self, path: &Path) -> bool {
        self.again || Look::at(path) != self.look
    }

    /// How it looked.
    pub(super) fn look(&self) -> &Look {
        &self.look
    }

    /// Reads it, and opens its chain under a world. `before` is the same file as it was, and
    /// `is_same` tells that its chain stands under the same world.
    pub(super) fn read(
        path: &Path,
        world: &stir::World,
        before: Option<&ChainFile>,
        is_same: bool,
    ) -> ChainFile {
        let came = bytes::read(path, MOST_CHAIN);
        let held_before = before.and_then(|before| before.held.as_ref());
        match came.bytes {
            Ok(der) => {
                let same = held_before.filter(|held| *held.der == *der);
                let der = same.map_or_else(|| der.into(), |held| Arc::clone(&held.der));
                let file =
                    ChainFile { look: came.look, again: came.again, held: None, fault: None };
                file.holding(der, world, held_before, is_same)
            }
            Err(Why::Missing) => {
                ChainFile { look: came.look, again: came.again, held: None, fault: None }
            }
            Err(why) => {
                let file =
                    ChainFile { look: came.look, again: came.again, held: None, fault: Some(why) };
                match held_before {
                    Some(held) => file.holding(held.der.clone(), world, held_before, is_same),
                    None => file,
                }
            }
        }
    }

    /// The same file with its chain opened under another world; it isn't read.
    pub(super) fn reopened(&self, world: &stir::World) -> ChainFile {
        let file =
            ChainFile { look: self.look, again: self.again, held: None, fault: self.fault.clone() };
        match &self.held {
            Some(held) => file.holding(held.der.clone(), world, None, false),
            None => file,
        }
    }

    /// The file with a chain of these bytes: that from before, if these are its bytes and its world
    /// is the same.
    fn holding(
        mut self,
        der: Arc<[u8]>,
        world: &stir::World,
        before: Option<&Held>,
        is_same: bool,
    ) -> ChainFile {
        if let Some(held) = before.filter(|held| is_same && Arc::ptr_eq(&held.der, &der)) {
            self.held = Some(held.clone());
            return self;
        }
        match Listed::open(world, &der) {
            Ok(chain) => self.held = Some(Held { der, chain: Arc::new(chain) }),
            Err(error) => {
                self.held = before.filter(|_| is_same).cloned();
                self.fault = Some(error.into());
                self.again = true;
            }
        }
        self
    }

    /// Its chain, if it is there.
    pub(super) fn chain(&self) -> Option<&Arc<Listed>> {
        self.held.as_ref().map(|held| &held.chain)
    }

    /// The bytes of that chain.
    pub(super) fn der(&self) -> Option<&Arc<[u8]>> {
        self.held.as_ref().map(|held| &held.der)
    }

    /// Why it can't be read.
    pub(super) fn fault(&self) -> Option<&Why> {
        self.fault.as_ref()
    }

    /// Whether there is no such file.
    pub(super) fn is_missing(&self) -> bool {
        self.held.is_none() && self.fault.is_none()
    }
}
