//! A world of the library, and the chains that calls brought to it.
use super::listed::Listed;
use std::collections::{HashMap, HashSet};
use std::sync::{Arc, RwLock, Weak};
use stir::Error;
use stir_trust::locks::Held;
use stir_trust::{Unanswered, Verifier};

/// A world of the library with chains that were fetched, each opened once under it. A chain stays
/// as long as whoever fetched it keeps its bytes.
pub struct Ground {
    by: stir::World,
    most: usize,
    opened: RwLock<HashMap<Box<[u8]>, Opened>>,
}

struct Opened {
    der: Weak<[u8]>,
    chain: Arc<Listed>,
}

impl Opened {
    /// Whether it is of these very bytes, and not of others under the same x5u.
    fn is_of(&self, der: &Arc<[u8]>) -> bool {
        std::ptr::eq(self.der.as_ptr(), Arc::as_ptr(der))
    }

    fn is_kept(&self) -> bool {
        self.der.strong_count() > 0
    }
}

/// What is known of a chain's certificates.
#[derive(Clone, Copy, Debug, PartialEq, Eq)]
pub enum Proof {
    /// They break none of rules 11, 12, 14 and 15.
    Good,
    /// They break one.
    Bad,
    /// OpenSSL doesn't say.
    Unknown,
}

impl Ground {
    /// A world without chains; it keeps so many at most.
    pub(super) fn new(by: stir::World, most: usize) -> Ground {
        Ground { by, most, opened: RwLock::default() }
    }

    /// The world.
    pub fn by(&self) -> &stir::World {
        &self.by
    }

    /// The chain of an x5u that these bytes are, opened if it wasn't. No lock is held meanwhile, so
    /// that several threads may open it at once; one of theirs is kept.
    ///
    /// # Errors
    ///
    /// Want of memory.
    pub fn chain(&self, x5u: &[u8], der: &Arc<[u8]>) -> Result<Arc<Listed>, Error> {
        if let Some(opened) = self.opened.read().held().get(x5u).filter(|it| it.is_of(der)) {
            return Ok(Arc::clone(&opened.chain));
        }
        let chain = Arc::new(Listed::open(&self.by, der)?);
        let opened = &mut *self.opened.write().held();
        if let Some(other) = opened.get(x5u).filter(|it| it.is_of(der)) {
            return Ok(Arc::clone(&other.chain));
        }
        if opened.len() >= self.most && !opened.contains_key(x5u) {
            opened.retain(|_, it| it.is_kept());
        }
        if opened.len() < self.most || opened.contains_key(x5u) {
            let (der, chain) = (Arc::downgrade(der), Arc::clone(&chain));
            opened.insert(x5u.into(), Opened { der, chain });
        }
        Ok(chain)
    }

    /// Whether the chain of an x5u that these bytes are breaks none of the rules on chains but the
    /// one on dates, by the library and this verifier. A chain of trust anchors alone counts as one
    /// that does: nothing is asked for it.
    ///
    /// # Errors
    ///
    /// Want of memory.
    pub fn proves(&self, x5u: &[u8], der: &Arc<[u8]>, verifier: &Verifier) -> Result<Proof, Error> {
        let chain = self.chain(x5u, der)?;
        let mut is_unknown = false;
        chain.chain(|question| match verifier.answer(question) {
            Ok(good) => good,
            Err(Unanswered { .. }) => {
                is_unknown = true;
                false
            }
        })?;
        Ok(match chain.confirmed() {
            _ if is_unknown => Proof::Unknown,
            [] => Proof::Bad,
            _ => Proof::Good,
        })
    }

    /// Drops the chains whose bytes nobody keeps any more.
    pub fn sweep(&self) {
        self.opened.write().held().retain(|_, opened| opened.is_kept());
    }

    /// How many chains it has.
    pub fn count(&self) -> usize {
        self.opened.read().held().len()
    }
}

/// The codes that the lines of a table name (docs/FORMATS.md, "Code table"): the first word of each
/// line that isn't passed over. The library took the table, so all of its lines are good.
pub(super) fn names_of(table: &[u8]) -> HashSet<Box<[u8]>> {
    crate::lines::lines_of(table)
        .filter_map(|line| line.split(|byte| *byte == b' ').next().map(Into::into))
        .collect()
}

#[cfg(test)]
mod tests {
    use super::*;

    fn ground(most: usize) -> Ground {
        let by = stir::World::open(&stir::Settings::default(), b"", b"");
        Ground::new(by.expect("a world"), most)
    }

    fn opened(ground: &Ground, x5u: &str, der: &Arc<[u8]>) -> Arc<Listed> {
        ground.chain(x5u.as_bytes(), der).expect("memory")
    }

    #[test]
    fn a_chain_is_opened_once_and_anew_if_it_was_fetched_anew() {
        let ground = ground(9);
        let der: Arc<[u8]> = b"no chain"[..].into();
        let first = opened(&ground, "a", &der);
        assert!(Arc::ptr_eq(&first, &opened(&ground, "a", &der)));
        let anew: Arc<[u8]> = der[..].into();
        assert!(!Arc::ptr_eq(&first, &opened(&ground, "a", &anew)));
        assert_eq!(ground.count(), 1);
        let verifier = Verifier::new().expect("OpenSSL");
        assert_eq!(ground.proves(b"a", &anew, &verifier), Ok(Proof::Bad));
    }

    #[test]
    fn at_its_bound_chains_go_whose_bytes_nobody_keeps() {
        let ground = ground(3);
        let mut ders: Vec<Arc<[u8]>> = (0..4).map(|number| vec![number].into()).collect();
        for (number, der) in ders.iter().enumerate() {
            opened(&ground, &number.to_string(), der);
            assert_eq!(ground.count(), (number + 1).min(3));
        }
        let is_kept =
            |der: &Arc<[u8]>| Arc::ptr_eq(&opened(&ground, "3", der), &opened(&ground, "3", der));
        assert!(!is_kept(&ders[3]), "there is no room for it");
        drop(ders.remove(0));
        assert!(is_kept(&ders[2]), "it takes the place of the first");
        assert_eq!(ground.count(), 3);
        ders.truncate(1);
        ground.sweep();
        assert_eq!(ground.count(), 1);
    }

    #[test]
    fn a_table_names_the_first_word_of_its_lines() {
        let table = b"; 11 *\n709J 12155551000 100\r\n709J *67\n\n42 *\n*3 12155550000";
        let named = names_of(table);
        let wanted = ["709J", "42", "*3"].map(|code| code.as_bytes().into());
        assert_eq!(named, wanted.into_iter().collect());
        assert!(names_of(b"").is_empty());
    }
}
