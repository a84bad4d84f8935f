//! A call that may have to be reached for: by certificates that are fetched for it, or by codes
//! that aren't in the table.
use super::spoilt::Handed;
use super::{is_unread, Case, Judge, Ruled, Unsaid};
use crate::codes::{Used, Wants};
use crate::fetching::{Came, Certificates};
use crate::files::{Ground, World};
use std::sync::Arc;
use std::time::{Duration, Instant};
use stir::{Call, Refused, Verdict};
use stir_trust::cache::{Entry, Miss};
use stir_trust::split;

/// The rules that a code may hang on: that each certificate lies within its issuer's authority, and
/// that the leaf covers the number (docs/RULES.md).
const WITHIN: u32 = 14;
const COVERS: u32 = 17;

/// A call with what is known of its x5us.
struct Sight {
    world: Arc<World>,
    call: Call,
    /// For each of its PASSporTs the x5u, and where its chain is.
    places: Vec<(Vec<u8>, Place)>,
}

/// Where a chain is.
enum Place {
    /// The operator's map has the x5u, with a chain or without one.
    Map(Option<Used>),
    /// It was fetched before.
    Held(Arc<Entry>),
    /// It was asked for.
    Came(Result<Arc<Entry>, Miss>),
    /// Nobody asked for it.
    Nowhere,
}

/// What is said of a call.
struct Said {
    ruled: Ruled,
    certificates: Option<Certificates>,
    /// The chains by which it was judged, if more codes may say otherwise.
    used: Vec<Used>,
    /// The world in which codes counted that aren't in the table, if it was judged by one.
    extended: Option<Arc<Ground>>,
}

impl Judge {
    /// What the rules say of a message, and how its certificates came. It waits for certificates
    /// that are to be fetched, of a call that keeps the rules of the call; the files may change
    /// meanwhile.
    pub(super) async fn reached(
        &self,
        case: Case<'_>,
    ) -> Result<(Ruled, Option<Certificates>), Unsaid> {
        let split = self.split.then(|| split::lists(case.message)).flatten();
        if split.is_some() {
            // A place in a message that can't be read is one in what came.
            let mut call = self.world.load().call(case.moment, case.message)?;
            if is_unread(&call) {
                return Ok((Ruled::unread(&mut call, case.aim)?, None));
            }
            self.metrics.split.inc();
        }
        let case = Case { message: split.as_deref().unwrap_or(case.message), ..case };
        let (mut came, mut waited) = (Came::default(), Duration::ZERO);
        let mut said = match self.by_map(case)? {
            Ok(said) => said,
            Err(sight) => {
                let begun = Instant::now();
                let (sight, brought) = self.brought(case, sight).await?;
                waited = begun.elapsed();
                came = brought;
                self.by_sight(case, sight, false)?
            }
        };
        let begun = Instant::now();
        if self.adopted(&said).await? {
            waited += begun.elapsed();
            let sight = self.sight(case, &came)?;
            let mut again = self.by_sight(case, sight, true)?;
            again.ruled.spent = again.ruled.spent.and(said.ruled.spent);
            said = Said { certificates: said.certificates, ..again };
        }
        said.ruled.spent.wait = waited;
        Ok((said.ruled, said.certificates))
    }

    /// What is said of a call all of whose x5us are in the map, as without fetching; or the call
    /// as far as it is known.
    fn by_map(&self, case: Case<'_>) -> Result<Result<Said, Sight>, Unsaid> {
        let start = Instant::now();
        let world = self.world.load();
        let (mut call, mut handed) = (world.call(case.moment, case.message)?, Handed::default());
        let mut certificates = (call.passports() > 0).then_some(Certificates::Held);
        for index in 0..call.passports() {
            let x5u = call.x5u(index)?;
            match world.listed(&x5u) {
                Some(listed) => {
                    self.hand_in(&mut call, index, listed, case.moment, &mut handed)?;
                }
                None if world.lists(&x5u) || self.fetching.is_none() => certificates = None,
                None => {
                    let world = Arc::clone(&world);
                    return Ok(Err(self.seen(world, call, &Came::default())?));
                }
            }
        }
        let certificates = certificates.filter(|_| self.fetching.is_some());
        let x5us = if self.codes.is_some() { call.x5us()? } else { Vec::new() };
        let mut said = Said {
            ruled: self.settled(call, case.aim, start, &handed)?,
            certificates,
            used: Vec::new(),
            extended: None,
        };
        if self.may_extend(&said.ruled.verdict) {
            said.used.extend(x5us.into_iter().filter_map(|x5u| used(&world, x5u)));
        }
        Ok(Ok(said))
    }

    /// A call and what is known of its x5us: what the map has comes first, then what came.
    fn sight(&self, case: Case<'_>, came: &Came) -> Result<Sight, Unsaid> {
        let world = self.world.load_full();
        let call = world.call(case.moment, case.message)?;
        self.seen(world, call, came)
    }

    fn seen(&self, world: Arc<World>, mut call: Call, came: &Came) -> Result<Sight, Unsaid> {
        let mut places = Vec::with_capacity(call.passports());
        for x5u in call.x5us()? {
            let place = match (world.lists(&x5u), came.of(&x5u), &self.fetching) {
                (true, ..) => Place::Map(used(&world, x5u.clone())),
                (false, Some(came), _) => Place::Came(came.clone()),
                (false, None, Some(fetching)) => {
                    fetching.held(&x5u).map_or(Place::Nowhere, Place::Held)
                }
                (false, None, None) => Place::Map(None),
            };
            places.push((x5u, place));
        }
        Ok(Sight { world, call, places })
    }

    /// The call with the certificates that it lacks, as far as they come in time, and what came.
    async fn brought(&self, case: Case<'_>, sight: Sight) -> Result<(Sight, Came), Unsaid> {
        let mut missing: Vec<Vec<u8>> = Vec::new();
        for (x5u, place) in &sight.places {
            match place {
                Place::Map(_) | Place::Came(_) => {}
                Place::Held(_) => self.metrics.fetches.look(true),
                Place::Nowhere => {
                    self.metrics.fetches.look(false);
                    if !missing.contains(x5u) {
                        missing.push(x5u.clone());
                    }
                }
            }
        }
        let Some(fetching) = self.fetching.as_ref().filter(|_| !missing.is_empty()) else {
            return Ok((sight, Came::default()));
        };
        drop(sight);
        let came = fetching.wait(missing).await;
        Ok((self.sight(case, &came)?, came))
    }

    /// What is said of a call by what is known of its x5us. Codes that aren't in the table count if
    /// a chain was fetched, or if the call is judged again for them.
    fn by_sight(&self, case: Case<'_>, sight: Sight, is_again: bool) -> Result<Said, Unsaid> {
        let start = Instant::now();
        let Sight { world, mut call, places } = sight;
        let is_fetched = places.iter().any(|(_, place)| place.entry().is_some());
        let codes = self.codes.as_ref().filter(|_| is_again || is_fetched);
        let extended = codes.and_then(|codes| codes.in_force(&world));
        let ground = match &extended {
            Some(extended) => {
                call = extended.by().call(case.moment, case.message)?;
                extended
            }
            None => world.ground(),
        };
        let (mut chains, mut handed) = (Vec::with_capacity(places.len()), Handed::default());
        for (index, (x5u, place)) in places.iter().enumerate() {
            let chain = match place {
                Place::Map(Some(used)) if extended.is_none() => Some(used.clone()),
                Place::Map(Some(used)) => {
                    let chain = ground.chain(x5u, &used.der)?;
                    Some(Used { chain, ..used.clone() })
                }
                place => match place.entry() {
                    Some(entry) => {
                        let chain = ground.chain(x5u, &entry.der)?;
                        let der = Arc::clone(&entry.der);
                        Some(Used { x5u: x5u.clone(), der, chain })
                    }
                    None => None,
                },
            };
            if let Some(used) = chain {
                self.hand_in(&mut call, index, &used.chain, case.moment, &mut handed)?;
                chains.push(used);
            }
        }
        let ruled = self.settled(call, case.aim, start, &handed)?;
        let certificates = places.iter().filter_map(|(_, place)| place.certificates());
        let certificates = certificates.reduce(Certificates::and);
        let used = if self.may_extend(&ruled.verdict) { chains } else { Vec::new() };
        Ok(Said { ruled, certificates, used, extended })
    }

    /// Whether codes that aren't in the table may say otherwise.
    fn may_extend(&self, verdict: &Verdict) -> bool {
        let hangs = matches!(verdict, Verdict::Refused(Refused { rule: WITHIN | COVERS, .. }));
        hangs && self.codes.is_some()
    }

    /// Whether a call is to be judged again, since codes of its chains count that didn't. For codes
    /// that are new it waits, but not for long.
    async fn adopted(&self, said: &Said) -> Result<bool, Unsaid> {
        let Some(codes) = self.codes.as_ref().filter(|_| !said.used.is_empty()) else {
            return Ok(false);
        };
        let wants = codes.wants(&self.world.load(), &said.used, said.extended.as_ref())?;
        Ok(match wants {
            Wants::Nothing => false,
            Wants::Known => true,
            Wants::New(chains) => codes.adopt(chains).await,
        })
    }
}

impl Place {
    /// What was fetched.
    fn entry(&self) -> Option<&Arc<Entry>> {
        match self {
            Place::Held(entry) | Place::Came(Ok(entry)) => Some(entry),
            Place::Map(_) | Place::Came(Err(_)) | Place::Nowhere => None,
        }
    }

    fn certificates(&self) -> Option<Certificates> {
        match self {
            Place::Map(Some(_)) | Place::Held(_) => Some(Certificates::Held),
            Place::Map(None) => None,
            Place::Came(Ok(_)) => Some(Certificates::Fetched),
            Place::Came(Err(Miss::Failed(reason))) => Some(Certificates::Failed(reason.word())),
            Place::Came(Err(Miss::Late)) | Place::Nowhere => Some(Certificates::Late),
        }
    }
}

/// The chain that the map has for an x5u.
fn used(world: &World, x5u: Vec<u8>) -> Option<Used> {
    let (chain, der) = world.listed_whole(&x5u)?;
    Some(Used { x5u, der, chain })
}
