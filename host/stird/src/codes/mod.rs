//! Codes that the table doesn't name, and that stand for every number all the same, since a chain
//! has them that breaks no rule on chains.
//!
//! No code counts that the proved library hasn't seen under a trust anchor: a chain is opened under
//! a world in which its codes stand for every number, and if it breaks no rule there, and all of
//! its signatures are good, the codes stay. Such a world stands beside that of the files, and is
//! asked for calls by chains that were fetched, and for those that rule 14 or 17 refuses else. A
//! code is forgotten when the chain that brought it isn't kept any more, unless its successor has
//! it too.
mod adopting;

pub use adopting::adopt_all;

use crate::files::{Ground, Listed, World};
use arc_swap::ArcSwapOption;
use std::collections::{BTreeSet, HashMap};
use std::sync::{Arc, Weak};
use std::time::Duration;
use stir::Error;
use tokio::sync::{mpsc, oneshot};

/// How many codes a table may name (docs/FORMATS.md, "Code table").
const MOST: usize = 20_000;

/// How long a call waits until its codes are known, at most.
const PATIENCE: Duration = Duration::from_secs(1);

/// A service provider code.
type Code = Box<[u8]>;

/// A chain by which a call is judged.
#[derive(Clone)]
pub struct Used {
    /// Its x5u.
    pub x5u: Vec<u8>,
    /// Its bytes.
    pub der: Arc<[u8]>,
    /// As it was opened.
    pub chain: Arc<Listed>,
}

/// What a call that rule 14 or 17 refuses wants of codes that aren't in the table.
pub enum Wants {
    /// It has none that would say otherwise.
    Nothing,
    /// Some count already.
    Known,
    /// These chains have new ones.
    New(Vec<Used>),
}

/// Which codes count beside those of the table.
pub struct Codes {
    extended: ArcSwapOption<Extended>,
    requests: mpsc::Sender<Request>,
}

/// Chains whose codes are to be adopted; whoever asks is told when that was tried.
pub struct Request {
    chains: Vec<Used>,
    tried: oneshot::Sender<()>,
}

/// A world of the files with more codes.
struct Extended {
    /// The world of the files: if that is another one, this says nothing.
    base: Arc<Ground>,
    ground: Arc<Ground>,
    codes: BTreeSet<Code>,
    /// The chains that brought them, by their x5us.
    adopters: HashMap<Box<[u8]>, Adopter>,
}

#[derive(Clone)]
struct Adopter {
    der: Weak<[u8]>,
    codes: Vec<Code>,
}

impl Codes {
    /// None counts yet. So many requests wait at most; who adopts takes them by [`adopt_all`].
    pub fn new(most: usize) -> (Codes, mpsc::Receiver<Request>) {
        let (requests, receiver) = mpsc::channel(most.max(1));
        (Codes { extended: ArcSwapOption::empty(), requests }, receiver)
    }

    /// The world of the files with more codes, if there are some.
    pub fn in_force(&self, world: &World) -> Option<Arc<Ground>> {
        let extended = self.of(world)?;
        Some(Arc::clone(&extended.ground))
    }

    fn of(&self, world: &World) -> Option<Arc<Extended>> {
        self.extended.load_full().filter(|extended| Arc::ptr_eq(&extended.base, world.ground()))
    }

    /// How many codes count beside those of the table.
    pub fn count(&self) -> usize {
        self.extended.load().as_ref().map_or(0, |extended| extended.codes.len())
    }

    /// What these chains of a call want, which was judged by such a world if one is said.
    ///
    /// # Errors
    ///
    /// Want of memory.
    pub fn wants(
        &self,
        world: &World,
        used: &[Used],
        by: Option<&Arc<Ground>>,
    ) -> Result<Wants, Error> {
        let extended = self.of(world);
        let is_by = |it: &Extended| by.is_some_and(|by| Arc::ptr_eq(by, &it.ground));
        let is_another = extended.as_ref().is_some_and(|extended| !is_by(extended));
        let counts = |code: &Code| extended.as_ref().is_some_and(|it| it.codes.contains(code));
        let (mut is_known, mut new) = (false, Vec::new());
        for one in used {
            let codes = unnamed(world, &one.chain)?;
            is_known |= codes.iter().any(counts);
            if !codes.iter().all(counts) && !one.chain.is_unproved() {
                new.push(one.clone());
            }
        }
        Ok(match (new.is_empty(), is_known) {
            (false, _) => Wants::New(new),
            (true, true) if is_another => Wants::Known,
            (true, _) => Wants::Nothing,
        })
    }

    /// Has the codes of these chains adopted: whether that was tried in time.
    pub async fn adopt(&self, chains: Vec<Used>) -> bool {
        let (tried, ended) = oneshot::channel();
        if self.requests.try_send(Request { chains, tried }).is_err() {
            return false;
        }
        matches!(tokio::time::timeout(PATIENCE, ended).await, Ok(Ok(())))
    }

    /// Forgets the codes of chains that aren't kept any more, aside; and all, if the world of the
    /// files is another one.
    pub fn sweep(&self, world: &World) {
        let Some(extended) = self.of(world) else { return self.extended.store(None) };
        extended.ground.sweep();
        if extended.adopters.values().any(|adopter| adopter.der.strong_count() == 0) {
            let (tried, _) = oneshot::channel();
            // If there are other requests, they do the same.
            let _ = self.requests.try_send(Request { chains: Vec::new(), tried });
        }
    }
}

/// The codes of a chain that the table doesn't name, and that a table can: none that begins with a
/// `;`, which a line of it can't.
fn unnamed(world: &World, chain: &Listed) -> Result<Vec<Code>, Error> {
    let codes = chain.codes()?.iter();
    let unnamed = codes.filter(|code| !world.names(code) && !code.starts_with(b";"));
    Ok(unnamed.cloned().collect())
}

#[cfg(test)]
mod tests {
    use super::*;
    use std::time::Instant;

    #[tokio::test]
    async fn a_call_waits_until_its_codes_were_tried_but_not_past_the_most_that_wait() {
        let (codes, mut requests) = Codes::new(1);
        let begun = Instant::now();
        let (one, other) = tokio::join!(codes.adopt(Vec::new()), codes.adopt(Vec::new()));
        assert!(!one && !other, "nobody tries");
        assert!((PATIENCE..10 * PATIENCE).contains(&begun.elapsed()));
        assert!(requests.try_recv().is_ok() && requests.try_recv().is_err(), "one waited");
        let trying = async {
            let request = requests.recv().await.expect("a request");
            request.tried.send(()).expect("it is waited for");
        };
        assert!(tokio::join!(codes.adopt(Vec::new()), trying).0);
    }
}
