//! The chain map: which file has the certificates of which x5u (docs/FORMATS.md). What the file's
//! certificates say, the proved library does.
//!
//! ```
//! use stir_trust::chain_map::ChainMap;
//!
//! let map = ChainMap::read(b"https://cr.example/a.pem a.der\n").expect("a map");
//! assert_eq!(map.file(b"https://cr.example/a.pem"), Some(0));
//! ```
use std::collections::hash_map::Entry;
use std::collections::HashMap;
use std::ffi::OsStr;
use std::os::unix::ffi::OsStrExt;
use std::path::{Path, PathBuf};
use thiserror::Error;

/// The most bytes of a map.
///
/// ```
/// assert_eq!(stir_trust::chain_map::MOST_BYTES, 16 << 20);
/// ```
pub const MOST_BYTES: usize = 16_777_216;

/// The most lines of a map.
///
/// ```
/// assert_eq!(stir_trust::chain_map::MOST_LINES, 50_000);
/// ```
pub const MOST_LINES: usize = 50_000;

/// The most bytes of a file's name.
///
/// ```
/// assert_eq!(stir_trust::chain_map::LONGEST_NAME, 255);
/// ```
pub const LONGEST_NAME: usize = 255;

/// Why a line of a map isn't taken.
///
/// ```
/// use stir_trust::chain_map::{ChainMap, LineFault};
///
/// let fault = ChainMap::read(b"https://a a.der\nhttps://a b.der\n").err();
/// assert_eq!(fault, Some((2, LineFault::Twice)));
/// ```
#[derive(Clone, Copy, Debug, Error, PartialEq, Eq)]
pub enum LineFault {
    /// There are too many.
    #[error("there are more than {MOST_LINES} lines")]
    Many,
    /// It hasn't two words.
    #[error("an x5u and the name of a file are wanted, with one space between them")]
    Words,
    /// The first word has a byte that isn't one of a URI.
    #[error("the x5u has a byte that none has")]
    NoX5u,
    /// The second word has a byte that isn't a visible one of ASCII.
    #[error("the name of the file has a byte that isn't a visible one of ASCII")]
    NoName,
    /// The second word is too long.
    #[error("the name of the file has more than {LONGEST_NAME} bytes")]
    LongName,
    /// The x5u stands in an earlier line.
    #[error("the x5u stands in an earlier line too")]
    Twice,
}

/// The file of each x5u.
///
/// ```
/// # use stir_trust::chain_map::ChainMap;
/// assert_eq!(ChainMap::default().names().len(), 0);
/// ```
#[derive(Clone, Debug, Default)]
pub struct ChainMap {
    /// The number of each x5u's file.
    files: HashMap<Box<[u8]>, usize>,
    /// The names of the files, each once.
    names: Vec<PathBuf>,
}

impl ChainMap {
    /// Reads the lines of a map.
    ///
    /// # Errors
    ///
    /// The first line that isn't taken, counted from 1, and why.
    ///
    /// ```
    /// use stir_trust::chain_map::{ChainMap, LineFault};
    ///
    /// let map = ChainMap::read(b"; ours\nhttps://a a.der\n").expect("a map");
    /// assert_eq!(map.file(b"https://a"), Some(0));
    /// assert_eq!(map.names(), [std::path::Path::new("a.der")]);
    /// assert_eq!(ChainMap::read(b"\nhttps://a\n").err(), Some((2, LineFault::Words)));
    /// ```
    pub fn read(text: &[u8]) -> Result<ChainMap, (usize, LineFault)> {
        let mut map = ChainMap::default();
        let mut numbers = HashMap::new();
        for (at, line) in lines(text).enumerate() {
            let number = at + 1;
            if number > MOST_LINES {
                return Err((number, LineFault::Many));
            }
            if line.is_empty() || line.starts_with(b";") {
                continue;
            }
            let (x5u, name) = words(line).map_err(|fault| (number, fault))?;
            let Entry::Vacant(place) = map.files.entry(x5u.into()) else {
                return Err((number, LineFault::Twice));
            };
            let file = *numbers.entry(name).or_insert_with(|| {
                map.names.push(Path::new(OsStr::from_bytes(name)).into());
                map.names.len() - 1
            });
            place.insert(file);
        }
        Ok(map)
    }

    /// The number of the file of an x5u.
    ///
    /// ```
    /// # use stir_trust::chain_map::ChainMap;
    /// let map = ChainMap::read(b"https://a a.der\nhttps://b a.der\n").expect("a map");
    /// assert_eq!((map.file(b"https://b"), map.file(b"https://c")), (Some(0), None));
    /// ```
    pub fn file(&self, x5u: &[u8]) -> Option<usize> {
        self.files.get(x5u).copied()
    }

    /// The names of the files, by their numbers; each once, in the order of the lines.
    ///
    /// ```
    /// # use stir_trust::chain_map::ChainMap;
    /// let map = ChainMap::read(b"https://a b.der\nhttps://b a.der\n").expect("a map");
    /// assert_eq!(map.names(), [std::path::Path::new("b.der"), "a.der".as_ref()]);
    /// ```
    pub fn names(&self) -> &[PathBuf] {
        &self.names
    }

    /// All x5us with the numbers of their files, in any order.
    ///
    /// ```
    /// # use stir_trust::chain_map::ChainMap;
    /// let map = ChainMap::read(b"https://a a.der\n").expect("a map");
    /// assert!(map.all().eq([(b"https://a".as_slice(), 0)]));
    /// ```
    pub fn all(&self) -> impl Iterator<Item = (&[u8], usize)> + '_ {
        self.files.iter().map(|(x5u, file)| (&**x5u, *file))
    }
}

/// Whether a word may be an x5u: it has the bytes of a URI alone (RFC 3986, section 2).
///
/// ```
/// use stir_trust::chain_map::is_x5u;
///
/// assert!(is_x5u(b"https://cr.example/a.pem") && !is_x5u(b"<a>") && !is_x5u(b"a b"));
/// ```
pub fn is_x5u(word: &[u8]) -> bool {
    let is_in_one = |byte: &u8| byte.is_ascii_graphic() && !b"\"<>\\".contains(byte);
    !word.is_empty() && word.iter().all(is_in_one)
}

/// The lines of a text, without their LF and a CR directly before it. The last one may lack its LF,
/// and a CR that it ends with is then its own.
fn lines(text: &[u8]) -> impl Iterator<Item = &[u8]> {
    text.split_inclusive(|byte| *byte == b'\n').map(|line| match line.strip_suffix(b"\n") {
        Some(line) => line.strip_suffix(b"\r").unwrap_or(line),
        None => line,
    })
}

/// The x5u and the file of a line.
fn words(line: &[u8]) -> Result<(&[u8], &[u8]), LineFault> {
    let mut words = line.split(|byte| *byte == b' ');
    let (Some(x5u), Some(name), None) = (words.next(), words.next(), words.next()) else {
        return Err(LineFault::Words);
    };
    if x5u.is_empty() || name.is_empty() {
        Err(LineFault::Words)
    } else if !is_x5u(x5u) {
        Err(LineFault::NoX5u)
    } else if !name.iter().all(u8::is_ascii_graphic) {
        Err(LineFault::NoName)
    } else if name.len() > LONGEST_NAME {
        Err(LineFault::LongName)
    } else {
        Ok((x5u, name))
    }
}

#[cfg(test)]
mod tests {
    use super::*;

    fn file<'a>(map: &'a ChainMap, x5u: &str) -> Option<&'a Path> {
        Some(&map.names[map.file(x5u.as_bytes())?])
    }

    #[test]
    fn a_map_has_a_file_for_each_x5u_and_each_file_once() {
        let map = ChainMap::read(b"; ours\nhttps://a a.der\r\n\nb a.der\nc c.der").expect("a map");
        assert_eq!((map.all().count(), map.names.len()), (3, 2));
        for (x5u, name) in [("https://a", "a.der"), ("b", "a.der"), ("c", "c.der")] {
            assert_eq!(file(&map, x5u), Some(Path::new(name)), "{x5u}");
        }
        assert_eq!(file(&map, "d"), None);
        assert_eq!(ChainMap::read(b"").expect("an empty map").all().count(), 0);
    }

    #[test]
    fn the_first_bad_line_is_named_with_its_fault() {
        use LineFault::{NoName, NoX5u, Twice, Words};
        for (text, line, fault) in [
            ("a b\na c\n", 2, Twice),
            ("a b\na b\n", 2, Twice),
            ("a b\n\n;\nx\n", 4, Words),
            ("a  b\n", 1, Words),
            (" a\n", 1, Words),
            ("a \n", 1, Words),
            ("a b c\n", 1, Words),
            ("a b \n", 1, Words),
            ("a b\r", 1, NoName),
            ("a b\r\r\n", 1, NoName),
            ("a\tb\n", 1, Words),
            ("a\tb c\n", 1, NoX5u),
            ("<a> b\n", 1, NoX5u),
            ("a\\ b\n", 1, NoX5u),
            ("\u{e9} b\n", 1, NoX5u),
            ("a \u{e9}\nb\n", 1, NoName),
        ] {
            assert_eq!(ChainMap::read(text.as_bytes()).err(), Some((line, fault)), "{text:?}");
        }
    }

    #[test]
    fn at_its_limits_it_is_taken_and_past_them_it_isnt() {
        let name = "n".repeat(LONGEST_NAME);
        assert!(ChainMap::read(format!("a {name}").as_bytes()).is_ok());
        let long = ChainMap::read(format!("a {name}n").as_bytes());
        assert_eq!(long.err(), Some((1, LineFault::LongName)));
        let mut text = ";\n".repeat(MOST_LINES);
        assert!(ChainMap::read(text.as_bytes()).is_ok());
        text.push(';');
        let many = ChainMap::read(text.as_bytes());
        assert_eq!(many.err(), Some((MOST_LINES + 1, LineFault::Many)));
    }
}
