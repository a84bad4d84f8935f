//! Codes that the table doesn't name, and that are trusted: each of a chain that breaks no rule on
//! chains stands for every number.
//!
//! The inputs are read once before they are judged, so that all calls are judged by one table. A
//! chain is tried in a world in which the codes of all such chains stand for every number. The
//! codes of those that break a rule there are taken out, and the others are tried again, until none
//! does. So no code counts that the proved library hasn't seen under a trust anchor.

use crate::capture::How;
use crate::files::{lines, says_nothing};
use crate::input::each_log;
use crate::judge::{Came, Judge};
use crate::log::Log;
use crate::sink::STDOUT;
use crate::{say, Fault};
use rayon::prelude::*;
use rayon::ThreadPool;
use std::collections::{BTreeSet, HashSet};
use std::fs;
use stir::{Error, Input, Part, Settings, World};

/// How many codes a table may name (docs/FORMATS.md, "Code table").
const MOST_CODES: usize = 20_000;

/// How many certificates a chain may have.
const MOST_CERTIFICATES: u32 = 6;

/// So many chains are looked at together.
const TOGETHER: usize = 256;

type Code = Vec<u8>;

/// A chain with codes that the table doesn't name.
struct Candidate {
    x5u: Vec<u8>,
    codes: BTreeSet<Code>,
}

impl Judge {
    /// Has the codes of the chains of these inputs' calls stand for every number, if the table
    /// doesn't name them and the chains break no rule with them. Certificates that the chain map
    /// hasn't got are fetched, as they are when the calls are judged.
    pub fn trust(
        &mut self,
        settings: &Settings,
        inputs: &[String],
        how: How,
        pool: &ThreadPool,
    ) -> Result<(), Fault> {
        let x5us = self.x5us_of(inputs, how, pool)?;
        self.trust_chains(settings, x5us, pool)
    }

    /// The same of the chains of these x5us.
    pub fn trust_chains(
        &mut self,
        settings: &Settings,
        x5us: BTreeSet<Vec<u8>>,
        pool: &ThreadPool,
    ) -> Result<(), Fault> {
        let mut candidates = pool.install(|| self.candidates(x5us))?;
        while !candidates.is_empty() {
            let table = self.table_with(&candidates);
            let world = match World::open(settings, &self.files.anchors, &table) {
                Err(Error::BadInput(Input::Table)) => {
                    say_full();
                    break;
                }
                opened => opened?,
            };
            let count = candidates.len();
            candidates = pool.install(|| self.proved(&world, candidates))?;
            // Without the codes of those that fail it is another world.
            if candidates.len() == count {
                self.world = world.clone();
                self.chains.open_under(world);
                self.files.table = table;
                break;
            }
        }
        Ok(())
    }

    /// The x5us of the calls of these inputs whose certificates are there.
    fn x5us_of(
        &self,
        inputs: &[String],
        how: How,
        pool: &ThreadPool,
    ) -> Result<BTreeSet<Vec<u8>>, Fault> {
        if let Some(input) = inputs.iter().find(|input| !can_be_read_twice(input)) {
            let why = "what can't be read twice needs the word --codes listed";
            return Err(Fault::Words(format!("{input}: {why}")));
        }
        let mut all = BTreeSet::new();
        each_log(inputs, How { is_quiet: true, ..how }, |_, source| {
            // How it ends is said when its calls are judged.
            let mut log = Log::after(source, 0, 0);
            while let Some(piece) = log.piece() {
                let calls: Vec<Came<'_>> = piece.calls().collect();
                let x5us = pool.install(|| self.x5us(&calls))?;
                self.fetch(&x5us)?;
                all.extend(x5us.into_iter().filter(|x5u| self.chains.has(x5u)));
            }
            Ok(())
        })?;
        Ok(all)
    }

    /// Those of these x5us whose chains have codes that the table doesn't name, as long as it has
    /// room for them.
    fn candidates(&self, x5us: BTreeSet<Vec<u8>>) -> Result<Vec<Candidate>, Fault> {
        let named = named(&self.files.table);
        let room = MOST_CODES.saturating_sub(named.len());
        let x5us: Vec<Vec<u8>> = x5us.into_iter().collect();
        let (mut candidates, mut all, mut is_full) = (Vec::new(), HashSet::new(), false);
        for some in x5us.chunks(TOGETHER) {
            let found: Result<Vec<_>, Fault> =
                some.par_iter().map(|x5u| self.candidate(x5u, &named)).collect();
            for candidate in found?.into_iter().filter(|it| !it.codes.is_empty()) {
                let new = candidate.codes.iter().filter(|code| !all.contains(*code)).count();
                if all.len() + new <= room {
                    all.extend(candidate.codes.iter().cloned());
                    candidates.push(candidate);
                } else {
                    is_full = true;
                }
            }
        }
        if is_full {
            say_full();
        }
        Ok(candidates)
    }

    /// The codes of a chain that aren't these and that a table can name: none that begins with a
    /// `;`, which a line of it can't.
    fn candidate(&self, x5u: &[u8], named: &HashSet<&[u8]>) -> Result<Candidate, Fault> {
        let mut codes = BTreeSet::new();
        if let Some(chain) = self.chains.opened(&self.world, x5u)? {
            for number in 1..=MOST_CERTIFICATES {
                let lines = chain.part(number, Part::Codes)?.unwrap_or_default();
                let lines = lines.split(|byte| *byte == b'\n');
                let new = lines.filter(|code| !says_nothing(code) && !named.contains(code));
                codes.extend(new.map(<[u8]>::to_vec));
            }
        }
        Ok(Candidate { x5u: x5u.to_vec(), codes })
    }

    /// Those that break no rule on chains under this world.
    fn proved(&self, world: &World, all: Vec<Candidate>) -> Result<Vec<Candidate>, Fault> {
        let proved =
            all.into_par_iter().filter_map(|candidate| match self.is_proved(world, &candidate) {
                Ok(true) => Some(Ok(candidate)),
                Ok(false) => None,
                Err(fault) => Some(Err(fault)),
            });
        proved.collect()
    }

    /// Whether a chain breaks none of rules 11, 12, 14 and 15 under this world.
    fn is_proved(&self, world: &World, candidate: &Candidate) -> Result<bool, Fault> {
        let Some(chain) = self.chains.opened(world, &candidate.x5u)? else { return Ok(false) };
        let questions = chain.questions()?;
        Ok(!questions.is_empty() && questions.iter().all(|it| self.provider.confirms(it)))
    }

    /// The lines of the table, and those of these chains' codes.
    fn table_with(&self, candidates: &[Candidate]) -> Vec<u8> {
        let mut table = self.files.table.clone();
        if table.last().is_some_and(|last| *last != b'\n') {
            table.push(b'\n');
        }
        let codes: BTreeSet<&Code> = candidates.iter().flat_map(|it| &it.codes).collect();
        for code in codes {
            table.extend_from_slice(code);
            table.extend_from_slice(b" *\n");
        }
        table
    }
}

/// The codes that the lines of a table name: the first word of each line that says something. The
/// library took the table, so all of its lines are good.
fn named(table: &[u8]) -> HashSet<&[u8]> {
    let lines = lines(table).filter(|(_, line)| !says_nothing(line));
    lines.filter_map(|(_, line)| line.split(|byte| *byte == b' ').next()).collect()
}

/// Whether the input of this word gives the same bytes again; one that isn't there gives its fault
/// again.
fn can_be_read_twice(input: &str) -> bool {
    input != STDOUT && fs::metadata(input).map_or(true, |about| about.is_file())
}

fn say_full() {
    say("the code table has no room for more codes, so calls by them break rule 17");
}

#[cfg(test)]
mod tests {
    use super::*;

    #[test]
    fn a_table_names_the_first_word_of_its_lines() {
        let table = b"; 11 *\n709J 12155551000 100\r\n709J *67\n\n42 *\n*3 12155550000";
        let wanted = [&b"709J"[..], b"42", b"*3"];
        assert_eq!(named(table), wanted.into_iter().collect());
    }
}
