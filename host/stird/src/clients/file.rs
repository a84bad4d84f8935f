//! The file of clients: TOML, with a table for each by its name.
use super::fault::{ClientFault, ClientsError};
use super::{Client, Shown};
use crate::files::number_map::{Ambiguous, NumberMap, Standing};
use crate::files::numbers::Numbers;
use crate::files::signing_line::attest_of;
use crate::files::whole;
use crate::tokens::is_token;
use openssl::sha::sha256;
use serde::Deserialize;
use std::collections::hash_map::Entry;
use std::collections::{BTreeMap, HashMap};
use std::hash::Hash;
use std::os::unix::fs::PermissionsExt;
use std::path::Path;
use std::sync::Arc;
use toml::Value;
use uuid::Uuid;

/// The most bytes of the file.
const MOST_FILE: usize = 16_777_216;

/// The most clients, each of which is counted.
const MOST_CLIENTS: usize = 1000;

/// The most characters of a name.
const MOST_NAME: usize = 64;

/// The clients, each by what it shows.
///
/// ```
/// use stird::clients::Clients;
///
/// let clients = Clients::read(None, false)?;
/// assert!(!clients.are_given() && clients.by_token(b"0123456789abcdef").is_none());
/// # Ok::<(), stird::clients::ClientsError>(())
/// ```
#[derive(Debug, Default)]
pub struct Clients {
    names: Vec<String>,
    /// By the SHA-256 of a token, so that the time of a look-up tells nothing of the token.
    tokens: HashMap<[u8; 32], Arc<Client>>,
    sums: HashMap<[u8; 32], Arc<Client>>,
    subjects: HashMap<String, Arc<Client>>,
}

/// A client, as the file has it.
#[derive(Deserialize)]
#[serde(deny_unknown_fields)]
struct Lines {
    #[serde(default)]
    tokens: Vec<String>,
    #[serde(default)]
    certificates: Vec<String>,
    blocks: Vec<String>,
    attest: String,
    unasked: Option<String>,
    origid: Option<String>,
}

impl Clients {
    /// Reads the file, if one is named. Its clients may have certificates only if clients are asked
    /// for them.
    ///
    /// # Errors
    ///
    /// It can't be read, or isn't taken.
    pub fn read(path: Option<&Path>, asks: bool) -> Result<Clients, ClientsError> {
        let Some(path) = path else { return Ok(Clients::default()) };
        let text = String::from_utf8(whole(path, MOST_FILE)?)
            .map_err(|_| ClientsError::NoText(path.into()))?;
        let toml = |error| ClientsError::Toml { path: path.into(), error };
        // Read as a value first: a table of any other kind takes a name twice.
        let value: Value = toml::from_str(&text).map_err(toml)?;
        let all: BTreeMap<String, Lines> = value.try_into().map_err(toml)?;
        if !(1..=MOST_CLIENTS).contains(&all.len()) {
            return Err(ClientsError::Count { path: path.into(), most: MOST_CLIENTS });
        }
        let mut clients = Clients::default();
        for (name, lines) in all {
            let added = clients.add(&name, lines, asks);
            added.map_err(|fault| ClientsError::Client { path: path.into(), name, fault })?;
        }
        if std::fs::metadata(path).is_ok_and(|data| data.permissions().mode() & 0o077 != 0) {
            let path = path.display();
            tracing::warn!("{path}: others than its owner may read or write the clients");
        }
        Ok(clients)
    }

    fn add(&mut self, name: &str, lines: Lines, asks: bool) -> Result<(), ClientFault> {
        let Lines { tokens, certificates, .. } = &lines;
        if tokens.is_empty() && certificates.is_empty() {
            return Err(ClientFault::Keyless);
        }
        if !asks && !certificates.is_empty() {
            return Err(ClientFault::Unasked);
        }
        let client = Arc::new(client(name, &lines)?);
        for (number, token) in (1..).zip(tokens) {
            let sum = token_sum(token).ok_or(ClientFault::Token(number))?;
            put(&mut self.tokens, sum, &client)?;
        }
        for (number, text) in (1..).zip(certificates) {
            match (sum_of(text), text.strip_prefix("cn:")) {
                (Some(sum), _) => put(&mut self.sums, sum, &client)?,
                (None, Some(subject)) if !subject.is_empty() => {
                    put(&mut self.subjects, subject.into(), &client)?;
                }
                _ => return Err(ClientFault::Certificate(number)),
            }
        }
        self.names.push(name.into());
        Ok(())
    }

    /// Whether a file was named.
    pub fn are_given(&self) -> bool {
        !self.names.is_empty()
    }

    /// Their names.
    pub fn names(&self) -> &[String] {
        &self.names
    }

    /// The client with this token.
    pub fn by_token(&self, token: &[u8]) -> Option<&Arc<Client>> {
        self.tokens.get(&sha256(token))
    }

    /// The client with this certificate: by its sum, or else by its subject's common name.
    pub fn by_certificate(&self, shown: &Shown) -> Option<&Arc<Client>> {
        let subject = || self.subjects.get(shown.name.as_ref()?);
        self.sums.get(&shown.sum).or_else(subject)
    }
}

/// The client of these lines.
fn client(name: &str, lines: &Lines) -> Result<Client, ClientFault> {
    let is_good = |byte: u8| byte.is_ascii_alphanumeric() || b".-_".contains(&byte);
    if !(1..=MOST_NAME).contains(&name.len()) || !name.bytes().all(is_good) {
        return Err(ClientFault::Name);
    }
    let attest = attest_of(&lines.attest).ok_or(ClientFault::Attest)?;
    // The later letter is the lower attestation.
    let taken = |letter: &String| attest_of(letter).filter(|unasked| *unasked >= attest);
    let unasked = lines.unasked.as_ref().map(|letter| taken(letter).ok_or(ClientFault::Better));
    let origid = lines.origid.as_ref().map(|text| {
        let uuid = Uuid::try_parse(text).ok().filter(|_| text.len() == 36);
        uuid.map(|uuid| uuid.to_string()).ok_or(ClientFault::Origid)
    });
    Ok(Client {
        name: name.into(),
        numbers: numbers(&lines.blocks)?,
        attest,
        unasked: unasked.transpose()?,
        origid: origid.transpose()?,
    })
}

/// Of which numbers calls are signed for a client, by the texts of its blocks.
fn numbers(texts: &[String]) -> Result<NumberMap<bool>, ClientFault> {
    let block = |text: &String| {
        if text == "*" {
            let all = Numbers::new(1, u64::MAX).ok_or(ClientFault::NoBlock)?;
            return Ok((all, Standing::InOrder, true));
        }
        let (block, is_in) = text.strip_prefix('!').map_or((text.as_str(), true), |of| (of, false));
        let numbers = block.parse();
        let numbers = numbers.map_err(|fault| ClientFault::Block { text: text.clone(), fault })?;
        Ok((numbers, Standing::BySize, is_in))
    };
    let blocks = texts.iter().map(block).collect::<Result<Vec<_>, ClientFault>>()?;
    if !blocks.iter().any(|(.., is_in)| *is_in) {
        return Err(ClientFault::NoBlock);
    }
    NumberMap::new(blocks).map_err(|Ambiguous { earlier, later }| {
        let text = |place: usize| texts.get(place).cloned().unwrap_or_default();
        ClientFault::Ambiguous(text(earlier), text(later))
    })
}

/// Puts a client under what it shows; no other may show it.
fn put<K: Eq + Hash>(
    to: &mut HashMap<K, Arc<Client>>,
    key: K,
    client: &Arc<Client>,
) -> Result<(), ClientFault> {
    match to.entry(key) {
        Entry::Occupied(taken) => Err(ClientFault::Shared(taken.get().name.clone())),
        Entry::Vacant(free) => {
            free.insert(Arc::clone(client));
            Ok(())
        }
    }
}

/// The SHA-256 of a token, which stands there whole or by its sum.
fn token_sum(text: &str) -> Option<[u8; 32]> {
    match text.starts_with("sha256:") {
        true => sum_of(text),
        false => is_token(text.as_bytes()).then(|| sha256(text.as_bytes())),
    }
}

/// The sum of `sha256:` and 64 hexadecimal digits, of either case.
fn sum_of(text: &str) -> Option<[u8; 32]> {
    let digits = text.strip_prefix("sha256:").filter(|digits| digits.len() == 64)?;
    let digits = digits.bytes().map(|byte| char::from(byte).to_digit(16));
    let digits: Vec<u32> = digits.collect::<Option<_>>()?;
    let bytes = digits.chunks_exact(2).map(|pair| match pair {
        [high, low] => u8::try_from(high * 16 + low).ok(),
        _ => None,
    });
    bytes.collect::<Option<Vec<u8>>>()?.try_into().ok()
}
