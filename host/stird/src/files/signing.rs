//! Calls signed: by the number that calls a block of numbers is found, which has a key and an
//! attestation. What is signed is said by the proved library, which first holds the number against
//! the key's certificate.
use super::fault::FileFault;
use super::number_map::{Ambiguous, NumberMap, Standing};
use super::numbers::Numbers;
use super::several::Files;
use super::signing_block::{Block, Signer};
use super::signing_key::Secret;
use super::signing_line::{BlockFault, Line, Row};
use super::Sources;
use crate::lines::split;
use std::collections::{BTreeSet, HashMap};
use std::path::{Path, PathBuf};
use std::sync::{Arc, Mutex};
use stir_trust::locks::Held;

pub use super::signing_block::{Call, Unsigned};
pub use super::signing_line::attest_of;

/// The most bytes of the table.
const MOST_TABLE: usize = 16_777_216;

/// How many warnings are given.
const MOST_WARNINGS: usize = 16;

/// For which numbers is signed.
///
/// ```
/// use stird::files::signing::{Blocks, Call, Unsigned};
/// use stird::files::{Anchors, Codes, Sources};
///
/// let sources = Sources {
///     rules: stir::Settings::default(),
///     chains: None,
///     anchors: Anchors::Der("anchors.der".into()),
///     table: Some("table.txt".into()),
///     codes: Codes::Listed,
///     signing: None,
/// };
/// let blocks = Blocks::read(&sources, None)?;
/// let call = Call {
///     orig: "12155550001",
///     message: b"INVITE ..",
///     iat: 1_767_225_600,
///     origid: "123e4567-e89b-12d3-a456-426655440000",
///     attest: Some(stir::Attest::A),
///     most: stir::Attest::A,
/// };
/// assert_eq!(blocks.sign(&call), Err(Unsigned::NotOurs), "there is no table");
/// # Ok::<(), stird::files::FileFault>(())
/// ```
#[derive(Default)]
pub struct Blocks {
    /// The block of a number; none of those of which no call is signed.
    blocks: NumberMap<Option<Block>>,
    files: Files,
    /// How the files looked when they were read last and refused.
    refused: Mutex<Option<Files>>,
    /// The keys and passwords that others may read.
    open: BTreeSet<(PathBuf, Secret)>,
    /// Whether a key is in an HSM.
    has_hsm: bool,
}

impl Blocks {
    /// Reads the signing table, if one is named, with the keys and the certificates that it names
    /// ([`Line`]). Each key has to be that of its leaf, which has to cover the first number of its
    /// block and the last. The table is taken as a whole. If it is refused, the blocks from before
    /// aren't stale until a file changes once more.
    ///
    /// # Errors
    ///
    /// A file can't be read, or a line isn't taken.
    pub fn read(sources: &Sources, before: Option<&Blocks>) -> Result<Blocks, FileFault> {
        let Some(path) = &sources.signing else { return Ok(Blocks::default()) };
        if let Some(before) = before {
            before.files.wait_for_rest();
        }
        let mut blocks = Blocks::default();
        match blocks.fill(sources, path) {
            Ok(()) => {
                if let Some(before) = before {
                    blocks.go_on_from(before);
                }
                Ok(blocks)
            }
            Err(fault) => {
                if let Some(before) = before {
                    *before.refused.lock().held() = Some(blocks.files);
                }
                Err(fault)
            }
        }
    }

    /// Keys of before that didn't sign the last time are known as such, until they sign.
    fn go_on_from(&self, before: &Blocks) {
        let failing = before.all().map(|block| block.signer.key.failing()).collect();
        self.all().for_each(|block| block.signer.key.go_on_from(&failing));
    }

    fn fill(&mut self, sources: &Sources, path: &Path) -> Result<(), FileFault> {
        let whole = |file: &Path| {
            let file = file.to_path_buf();
            move |why| FileFault { file: Some(file), line: None, why }
        };
        let text = self.files.read(path, MOST_TABLE).map_err(whole(path))?.bytes;
        let table = match &sources.table {
            Some(table) => self.files.read(table, MOST_TABLE).map_err(whole(table))?.bytes,
            None => Vec::new(),
        };
        // No chain of a key is judged, so no trust anchor is needed.
        let world = stir::World::open(&sources.rules, b"", &table).map_err(|error| FileFault {
            file: sources.table.clone(),
            line: None,
            why: error.into(),
        })?;
        let (mut signers, mut blocks, mut places) = (HashMap::new(), Vec::new(), Vec::new());
        let lines = split(&text).enumerate();
        for (at, line) in lines.filter(|(_, line)| !line.is_empty() && !line.starts_with(b";")) {
            let block = Row::read(line)
                .and_then(|row| self.row(row, &world, &mut signers))
                .map_err(|fault| FileFault::of_line(path, at + 1, fault))?;
            blocks.push(block);
            places.push(at + 1);
        }
        self.blocks = NumberMap::new(blocks).map_err(|Ambiguous { earlier, later }| {
            let line = |place| places.get(place).copied().unwrap_or_default();
            FileFault::of_line(path, line(later), BlockFault::Ambiguous(line(earlier)))
        })?;
        Ok(())
    }

    /// What a line says of its numbers.
    fn row<'a>(
        &mut self,
        row: Row<'a>,
        world: &stir::World,
        signers: &mut HashMap<[&'a str; 3], Arc<Signer>>,
    ) -> Result<(Numbers, Standing, Option<Block>), BlockFault> {
        match row {
            Row::Sign(line) => {
                let block = self.block(&line, world, signers)?;
                Ok((line.numbers, line.standing, Some(block)))
            }
            Row::Except(numbers) => Ok((numbers, Standing::BySize, None)),
        }
    }

    fn block<'a>(
        &mut self,
        line: &Line<'a>,
        world: &stir::World,
        signers: &mut HashMap<[&'a str; 3], Arc<Signer>>,
    ) -> Result<Block, BlockFault> {
        let name = [line.key, line.certificates, line.x5u];
        let signer = match signers.get(&name) {
            Some(signer) => Arc::clone(signer),
            None => {
                let signer = Arc::new(Signer::read(line, world, &mut self.files)?);
                self.open.extend(signer.key.open.iter().cloned());
                self.has_hsm |= signer.key.is_in_hsm();
                signers.insert(name, Arc::clone(&signer));
                signer
            }
        };
        Block::new(line, signer)
    }

    /// Whether a file isn't what it was when it was read.
    pub fn is_stale(&self) -> bool {
        let refused = self.refused.lock().held().clone();
        refused.map_or_else(|| self.files.are_stale(), |refused| refused.are_stale())
    }

    /// How many there are.
    pub fn count(&self) -> usize {
        self.all().count()
    }

    fn all(&self) -> impl Iterator<Item = &Block> {
        self.blocks.values().flatten()
    }

    /// The URIs of the certificates that aren't valid at this second: nothing is signed with them.
    pub fn not_valid(&self, second: u64) -> BTreeSet<&str> {
        let signers = self.all().map(|block| &block.signer);
        signers.filter(|signer| !signer.is_valid(second)).map(|one| one.x5u.as_str()).collect()
    }

    /// The URIs of those that are, and end within a day.
    pub fn ending(&self, second: u64) -> BTreeSet<&str> {
        let signers = self.all().map(|block| &block.signer);
        signers.filter(|signer| signer.ends_soon(second)).map(|one| one.x5u.as_str()).collect()
    }

    /// Whether a key is in an HSM, so that signing may take as long as that does.
    pub fn has_hsm(&self) -> bool {
        self.has_hsm
    }

    /// What is to be told at this second: certificates that aren't valid or end soon, and keys
    /// that others may read or change.
    pub fn warnings(&self, second: u64) -> Vec<String> {
        let not_valid = self
            .not_valid(second)
            .into_iter()
            .map(|x5u| format!("{x5u}: not valid now, so nothing is signed with its key"));
        let ending = self.ending(second).into_iter();
        let ending = ending.map(|x5u| format!("{x5u}: its certificate ends within a day"));
        let open = self.open.iter().map(|(path, secret)| {
            let (what, another) = match secret {
                Secret::Key => ("PRIVATE KEY, and sign calls by it", "key"),
                Secret::Password => ("PASSWORD OF A PRIVATE KEY", "password"),
            };
            format!(
                "{}: OTHERS MAY READ OR CHANGE THIS {what}: keep it to its owner (chmod 600), and \
                 take a new {another} if somebody may have read it",
                path.display()
            )
        });
        let told = not_valid.take(MOST_WARNINGS).chain(ending.take(MOST_WARNINGS));
        told.chain(open.take(MOST_WARNINGS)).collect()
    }

    /// What `/readyz` says of certificates and keys at this second, though calls are judged.
    pub fn notes(&self, second: u64) -> Vec<String> {
        let not_valid = self.not_valid(second).into_iter();
        let not_valid = not_valid.map(|x5u| format!("signing: {x5u} isn't valid now"));
        let ending = self.ending(second).into_iter();
        let ending = ending.map(|x5u| format!("signing: the certificate of {x5u} ends in a day"));
        let keys = self.all().filter_map(|block| block.signer.key.note());
        let keys: BTreeSet<String> = keys.map(|note| format!("signing: {note}")).collect();
        let told = not_valid.chain(ending.take(MOST_WARNINGS));
        told.chain(keys.into_iter().take(MOST_WARNINGS)).collect()
    }

    /// The message of a call with its Identity field.
    ///
    /// # Errors
    ///
    /// Nothing is signed, as [`Unsigned`] says.
    pub fn sign(&self, call: &Call) -> Result<Vec<u8>, Unsigned> {
        self.block_of(call.orig).ok_or(Unsigned::NotOurs)?.sign(call)
    }

    /// The block that has a number.
    pub(super) fn block_of(&self, number: &str) -> Option<&Block> {
        self.blocks.at(number).and_then(Option::as_ref)
    }
}

/// The value of the last Identity field of a message that was signed, in the last line of its head.
pub fn identity(message: &[u8]) -> Option<String> {
    let text = std::str::from_utf8(message).ok()?;
    let (head, _) = text.split_once("\r\n\r\n")?;
    let (_, last) = head.rsplit_once("\r\n")?;
    Some(last.strip_prefix("Identity: ")?.into())
}

#[cfg(test)]
mod tests {
    use super::*;

    #[test]
    fn the_field_of_a_signed_message_is_its_last_line() {
        let message = b"INVITE sip:a SIP/2.0\r\nIdentity: old\r\nTo: b\r\n\
            Identity: a.b.c;info=<d>\r\n\r\nIdentity: body";
        assert_eq!(identity(message).as_deref(), Some("a.b.c;info=<d>"));
        assert_eq!(identity(b"INVITE sip:a SIP/2.0\r\nTo: b\r\n\r\n"), None);
    }
}
