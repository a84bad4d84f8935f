//! How codes are adopted: aside from what answers, for all calls that wait at once, and with a
//! pause in between that bounds what it takes.
use super::{unnamed, Adopter, Code, Codes, Extended, Request, Used, MOST};
use crate::files::{Ground, Listed, Proof, World};
use crate::routes::Service;
use std::collections::{BTreeSet, HashMap};
use std::sync::Arc;
use std::time::{Duration, Instant};
use stir::{Error, Input};
use stir_trust::Verifier;
use tokio::sync::mpsc;
use tokio::task::spawn_blocking;

/// How many requests are taken at once, and how long the pause between two times is at least, and
/// beside the time that the last one took.
const AT_ONCE: usize = 256;
const PAUSE: Duration = Duration::from_millis(50);
const TIMES: u32 = 5;

/// How many codes are named one by one.
const MOST_NAMED: usize = 16;

/// A chain whose codes are to be adopted.
struct Candidate {
    x5u: Box<[u8]>,
    der: Arc<[u8]>,
    codes: Vec<Code>,
    /// As it was opened for the calls that ask; none for one that takes another's place.
    asked: Vec<Used>,
}

/// Adopts codes as they are asked for, as long as the service runs.
pub async fn adopt_all(service: Arc<Service>, mut requests: mpsc::Receiver<Request>) {
    while let Some(first) = requests.recv().await {
        let mut batch = vec![first];
        while batch.len() < AT_ONCE {
            let Ok(more) = requests.try_recv() else { break };
            batch.push(more);
        }
        let begun = Instant::now();
        let (chains, waiting): (Vec<_>, Vec<_>) =
            batch.into_iter().map(|request| (request.chains, request.tried)).unzip();
        let aside = Arc::clone(&service);
        let done = spawn_blocking(move || adopt(&aside, chains.into_iter().flatten().collect()));
        match done.await {
            Ok(Ok(())) => {}
            Ok(Err(error)) => tracing::warn!("codes can't be adopted now: {error}"),
            Err(error) => tracing::error!("codes couldn't be adopted: {error}"),
        }
        for one in waiting {
            // Whoever asked may be gone.
            let _ = one.send(());
        }
        tokio::time::sleep((begun.elapsed() * TIMES).max(PAUSE)).await;
    }
}

/// Adopts the codes of these chains, and forgets those of chains that aren't kept any more.
fn adopt(service: &Service, chains: Vec<Used>) -> Result<(), Error> {
    let Some(codes) = &service.judge.codes else { return Ok(()) };
    let world = service.judge.world.load_full();
    let now = |x5u: &[u8]| {
        if world.lists(x5u) {
            return world.listed_whole(x5u).map(|(_, der)| der);
        }
        let x5u = std::str::from_utf8(x5u).ok()?;
        Some(Arc::clone(&service.judge.fetching.as_ref()?.cache.kept(x5u)?.der))
    };
    let (lists, moment) = (service.judge.revocation.as_ref(), service.clock.now());
    let is_revoked = |chain: &Listed| match lists.map(|lists| lists.load()) {
        Some(lists) => chain.revoked(&lists, moment).map(|revoked| !revoked.is_empty()),
        None => Ok(false),
    };
    codes.extend(
        &world,
        chains,
        &service.judge.verifier,
        &Known { now: &now, is_revoked: &is_revoked },
    )
}

/// Tells the bytes that an x5u has now.
type Now<'a> = dyn Fn(&[u8]) -> Option<Arc<[u8]>> + 'a;

/// What is known of chains beside the files.
struct Known<'a> {
    /// The bytes that an x5u has now.
    now: &'a Now<'a>,
    /// Whether a certificate of a chain is revoked.
    is_revoked: &'a dyn Fn(&Listed) -> Result<bool, Error>,
}

impl Codes {
    /// Puts the codes of these chains to those that count, if the chains break no rule with them.
    fn extend(
        &self,
        world: &World,
        chains: Vec<Used>,
        verifier: &Verifier,
        known: &Known,
    ) -> Result<(), Error> {
        let before = self.of(world);
        let before = before.as_deref();
        let (mut adopters, mut candidates) = (HashMap::new(), HashMap::new());
        let mut successors = Vec::new();
        for (x5u, adopter) in before.iter().flat_map(|before| &before.adopters) {
            if adopter.der.strong_count() > 0 {
                adopters.insert(x5u.clone(), adopter.clone());
            } else if let Some(der) = (known.now)(x5u) {
                let chain = world.ground().chain(x5u, &der)?;
                successors.push(Used { x5u: x5u.to_vec(), der, chain });
            }
        }
        let all = successors.into_iter().map(|chain| (chain, false));
        for (chain, is_asked) in all.chain(chains.into_iter().map(|chain| (chain, true))) {
            if !(known.is_revoked)(&chain.chain)? {
                put(&mut candidates, world, chain, is_asked)?;
            }
        }
        let mut candidates: Vec<Candidate> = candidates.into_values().collect();
        let kept: BTreeSet<Code> = adopters.values().flat_map(|it| it.codes.clone()).collect();
        with_room(&mut candidates, &kept, MOST.saturating_sub(world.names_count()));
        let proved = proved(world, before, &kept, candidates, verifier)?;
        let Some(Proved { ground, codes, candidates }) = proved else { return Ok(()) };
        for Candidate { x5u, der, codes, .. } in candidates {
            adopters.insert(x5u, Adopter { der: Arc::downgrade(&der), codes });
        }
        tell(before.map(|before| &before.codes), &codes);
        let base = Arc::clone(world.ground());
        let extended = Extended { base, ground, codes, adopters };
        let is_empty = extended.codes.is_empty();
        self.extended.store((!is_empty).then(|| Arc::new(extended)));
        Ok(())
    }
}

/// Candidates that break no rule on chains, and the world in which they don't.
struct Proved {
    ground: Arc<Ground>,
    codes: BTreeSet<Code>,
    candidates: Vec<Candidate>,
}

/// Those of these candidates that break no rule on chains in a world in which their codes count
/// beside those that are kept, and no others; nothing if the table has no room for them.
fn proved(
    world: &World,
    before: Option<&Extended>,
    kept: &BTreeSet<Code>,
    mut candidates: Vec<Candidate>,
    verifier: &Verifier,
) -> Result<Option<Proved>, Error> {
    loop {
        let new = candidates.iter().flat_map(|candidate| candidate.codes.iter().cloned());
        let codes: BTreeSet<Code> = kept.iter().cloned().chain(new).collect();
        let ground = match before.filter(|before| before.codes == codes) {
            Some(before) => Arc::clone(&before.ground),
            None => match world.extended(&codes) {
                Err(Error::BadInput(Input::Table)) => {
                    tell_no_room();
                    return Ok(None);
                }
                opened => Arc::new(opened?),
            },
        };
        let count = candidates.len();
        let mut good = Vec::with_capacity(count);
        for candidate in candidates {
            match ground.proves(&candidate.x5u, &candidate.der, verifier)? {
                Proof::Good => good.push(candidate),
                Proof::Bad => candidate.asked.iter().for_each(|it| it.chain.leave_unproved()),
                Proof::Unknown => {}
            }
        }
        candidates = good;
        // Without the codes of those that fail it is tried again, until none does.
        if candidates.len() == count {
            return Ok(Some(Proved { ground, codes, candidates }));
        }
    }
}

/// Puts a chain to the candidates; of one x5u the last bytes hold.
fn put(
    candidates: &mut HashMap<Box<[u8]>, Candidate>,
    world: &World,
    chain: Used,
    is_asked: bool,
) -> Result<(), Error> {
    let codes = unnamed(world, &chain.chain)?;
    if codes.is_empty() {
        return Ok(());
    }
    let x5u: Box<[u8]> = chain.x5u.as_slice().into();
    let same = candidates.remove(&x5u).filter(|other| Arc::ptr_eq(&other.der, &chain.der));
    let mut candidate = same.unwrap_or_else(|| {
        let der = Arc::clone(&chain.der);
        Candidate { x5u: x5u.clone(), der, codes, asked: Vec::new() }
    });
    if is_asked {
        candidate.asked.push(chain);
    }
    candidates.insert(x5u, candidate);
    Ok(())
}

/// Leaves out candidates whose codes have no room beside those that are kept.
fn with_room(candidates: &mut Vec<Candidate>, kept: &BTreeSet<Code>, most: usize) {
    let (mut all, count) = (kept.clone(), candidates.len());
    candidates.retain(|candidate| {
        let codes: BTreeSet<&Code> = candidate.codes.iter().collect();
        let new = codes.into_iter().filter(|code| !all.contains(*code)).count();
        let has_room = all.len() + new <= most;
        if has_room {
            all.extend(candidate.codes.iter().cloned());
        }
        has_room
    });
    if candidates.len() < count {
        tell_no_room();
    }
}

fn tell_no_room() {
    tracing::warn!("the code table has no room for more codes, so calls by them break rule 17");
}

/// Says which codes are new.
fn tell(before: Option<&BTreeSet<Code>>, codes: &BTreeSet<Code>) {
    let new = codes.iter().filter(|code| !before.is_some_and(|before| before.contains(*code)));
    let mut names: Vec<String> =
        new.map(|code| String::from_utf8_lossy(code).into_owned()).collect();
    let more = names.len().saturating_sub(MOST_NAMED);
    names.truncate(MOST_NAMED);
    if more > 0 {
        names.push(format!("{more} more"));
    }
    if !names.is_empty() {
        tracing::info!("codes of proved chains stand for every number now: {}", names.join(" "));
    }
}

#[cfg(test)]
mod tests {
    use super::*;

    #[test]
    fn codes_have_room_up_to_that_of_a_table() {
        let candidates = || -> Vec<Candidate> {
            let lists: [&[&[u8]]; 3] = [&[b"2", b"2"], &[b"3", b"4"], &[b"1"]];
            let of = |codes: &&[&[u8]]| Candidate {
                x5u: b"https://cr.example/".as_slice().into(),
                der: Vec::new().into(),
                codes: codes.iter().map(|code| (*code).into()).collect(),
                asked: Vec::new(),
            };
            lists.iter().map(of).collect()
        };
        let kept: BTreeSet<Code> = [b"1".as_slice().into()].into();
        for (most, left) in [(0, ""), (1, "1"), (2, "221"), (3, "221"), (4, "22341"), (5, "22341")]
        {
            let mut candidates = candidates();
            with_room(&mut candidates, &kept, most);
            let codes: Vec<u8> = candidates.iter().flat_map(|it| it.codes.concat()).collect();
            assert_eq!(String::from_utf8_lossy(&codes), left, "{most}");
        }
    }
}
