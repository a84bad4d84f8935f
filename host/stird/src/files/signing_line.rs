//! A line of the signing table, and why one isn't taken.
use super::fault::Why;
use super::number_map::Standing;
use super::numbers::{number_of, Numbers, NumbersFault};
use std::path::PathBuf;
use stir::Attest;
use stir_trust::{KeyFault, UriFault};
use thiserror::Error;

/// A line `BLOCK ATTEST KEY CERTIFICATES X5U [UNASKED]`: a block of numbers ([`Numbers`]), `A`, `B`
/// or `C`, the file of a private key in PEM or its URI in an HSM, the file of its certificates in
/// DER, the leaf first, the URI under which these are found, and perhaps the attestation of a
/// request that names none. Or the same with `FIRST COUNT` in the place of `BLOCK`: a number and
/// how many there are from it on.
#[derive(Clone, Copy, Debug, PartialEq, Eq)]
pub struct Line<'a> {
    /// The numbers.
    pub numbers: Numbers,
    /// How it stands to other lines.
    pub standing: Standing,
    /// How well the callers are known.
    pub attest: Attest,
    /// The file of the key, or its URI.
    pub key: &'a str,
    /// The file of its certificates.
    pub certificates: &'a str,
    /// Their URI.
    pub x5u: &'a str,
    /// What a request gets that doesn't say which attestation it wants; without it nothing.
    pub unasked: Option<Attest>,
}

/// What a line says.
#[derive(Clone, Copy, Debug, PartialEq, Eq)]
pub enum Row<'a> {
    /// Calls of a block are signed.
    Sign(Line<'a>),
    /// They aren't: a line `!BLOCK`.
    Except(Numbers),
}

/// Why a line isn't taken.
#[derive(Clone, Debug, Error, PartialEq, Eq)]
pub enum BlockFault {
    /// It isn't UTF-8.
    #[error("it isn't text")]
    NoText,
    /// It has too few words or too many.
    #[error(
        "six words are wanted, or seven, with one space between them; one less if the first is a \
         block; or a block alone with a ! before it"
    )]
    Words,
    /// The block.
    #[error("{0}")]
    Numbers(#[from] NumbersFault),
    /// Another line of the table is as special, and has a number of it.
    #[error("line {0} has as many numbers, and some of these: say by another line who decides")]
    Ambiguous(usize),
    /// The first word.
    #[error("the first word is no telephone number: digits, the first of them not 0")]
    NoNumber,
    /// The second word.
    #[error("the second word doesn't say how many numbers there are, or there aren't so many")]
    NoCount,
    /// The third word.
    #[error("the attestation is A, B or C")]
    NoAttest,
    /// The word after the URI.
    #[error("the last word is A, B or C, and no better than the attestation of the block")]
    NoUnasked,
    /// A file of the line can't be read.
    #[error("{}: {why}", .file.display())]
    File {
        /// Which.
        file: PathBuf,
        /// Why.
        why: Box<Why>,
    },
    /// The key isn't taken.
    #[error("{}: {fault}", .file.display())]
    Key {
        /// Its file, or its URI.
        file: PathBuf,
        /// Why.
        fault: KeyFault,
    },
    /// The URI of the key isn't taken.
    #[error("{uri}: {fault}")]
    Uri {
        /// It.
        uri: String,
        /// Why.
        fault: UriFault,
    },
    /// The certificates are those of another key.
    #[error("{} isn't the key of the first of {}", .key.display(), .certificates.display())]
    OtherKey {
        /// The key's file.
        key: PathBuf,
        /// That of the certificates.
        certificates: PathBuf,
    },
    /// The certificates aren't of the profile.
    #[error("{}: it is no chain of the profile", .file.display())]
    NoChain {
        /// Their file.
        file: PathBuf,
    },
    /// A number of the block can't be signed for.
    #[error("the certificate of {x5u} doesn't cover {number}, or the URI is none")]
    Uncovered {
        /// The certificate's URI.
        x5u: String,
        /// The first or the last number of the block.
        number: u64,
    },
    /// The library says so.
    #[error("{0}")]
    Library(#[from] stir::Error),
}

impl Row<'_> {
    /// Reads a line.
    ///
    /// ```
    /// use stird::files::signing_line::{BlockFault, Row};
    ///
    /// let row = Row::read(b"1215555xxxx A key.pem chain.der https://a/1.pem")?;
    /// let Row::Sign(line) = row else { unreachable!() };
    /// assert_eq!((line.numbers.first(), line.key), (12_155_550_000, "key.pem"));
    /// let old = Row::read(b"12155550000 10000 A key.pem chain.der https://a/1.pem")?;
    /// let Row::Sign(old) = old else { unreachable!() };
    /// assert_eq!(old.numbers, line.numbers);
    /// assert_eq!(Row::read(b"!12155550007")?, Row::Except("12155550007".parse()?));
    /// let bad = Row::read(b"0012155550000 1000 A key.pem chain.der https://a/1.pem");
    /// assert_eq!(bad, Err(BlockFault::NoNumber));
    /// # Ok::<(), BlockFault>(())
    /// ```
    pub fn read(line: &[u8]) -> Result<Row<'_>, BlockFault> {
        let line = std::str::from_utf8(line).map_err(|_| BlockFault::NoText)?;
        if let Some(block) = line.strip_prefix('!') {
            return Ok(Row::Except(block.parse()?));
        }
        let words: Vec<&str> = line.split(' ').collect();
        if words.contains(&"") {
            return Err(BlockFault::Words);
        }
        match words[..] {
            [block, attest, key, certificates, x5u] if is_block(block, attest) => {
                Line::of(by_text(block)?, attest, [key, certificates, x5u], None)
            }
            [block, attest, key, certificates, x5u, unasked] if is_block(block, attest) => {
                Line::of(by_text(block)?, attest, [key, certificates, x5u], Some(unasked))
            }
            [first, count, attest, key, certificates, x5u] => {
                Line::of(by_count(first, count)?, attest, [key, certificates, x5u], None)
            }
            [first, count, attest, key, certificates, x5u, unasked] => {
                Line::of(by_count(first, count)?, attest, [key, certificates, x5u], Some(unasked))
            }
            _ => Err(BlockFault::Words),
        }
        .map(Row::Sign)
    }
}

/// Whether the first two words of a line are a block and its attestation, and not a number and how
/// many there are.
fn is_block(block: &str, attest: &str) -> bool {
    block.contains(['x', '-']) || attest_of(attest).is_some()
}

/// The numbers of a block, and how it stands to others.
fn by_text(block: &str) -> Result<(Numbers, Standing), BlockFault> {
    Ok((block.parse()?, Standing::BySize))
}

/// So many numbers from the first on, and how they stand to others.
fn by_count(first: &str, count: &str) -> Result<(Numbers, Standing), BlockFault> {
    let first = number_of(first).ok_or(BlockFault::NoNumber)?;
    let count = number_of(count).ok_or(BlockFault::NoCount)?;
    let last = first.checked_add(count - 1).ok_or(BlockFault::NoCount)?;
    let numbers = Numbers::new(first, last).ok_or(BlockFault::NoCount)?;
    Ok((numbers, Standing::InOrder))
}

impl<'a> Line<'a> {
    fn of(
        (numbers, standing): (Numbers, Standing),
        attest: &str,
        [key, certificates, x5u]: [&'a str; 3],
        unasked: Option<&str>,
    ) -> Result<Line<'a>, BlockFault> {
        let attest = attest_of(attest).ok_or(BlockFault::NoAttest)?;
        // The later letter is the lower attestation.
        let taken = |letter| attest_of(letter).filter(|unasked| *unasked >= attest);
        let unasked = unasked.map(|letter| taken(letter).ok_or(BlockFault::NoUnasked));
        let unasked = unasked.transpose()?;
        Ok(Line { numbers, standing, attest, key, certificates, x5u, unasked })
    }
}

/// The attestation of a letter.
pub fn attest_of(letter: &str) -> Option<Attest> {
    match letter {
        "A" => Some(Attest::A),
        "B" => Some(Attest::B),
        "C" => Some(Attest::C),
        _ => None,
    }
}

#[cfg(test)]
mod tests {
    use super::*;

    fn of(line: &str) -> Result<Line<'_>, BlockFault> {
        match Row::read(line.as_bytes())? {
            Row::Sign(line) => Ok(line),
            Row::Except(numbers) => panic!("{line:?} is an exception of {numbers:?}"),
        }
    }

    #[test]
    fn a_line_that_isnt_taken_says_why() {
        use BlockFault::{NoAttest, NoCount, NoNumber, NoText, NoUnasked, Numbers, Words};
        use NumbersFault::{Ends, Form};
        for (line, fault) in [
            ("", Words),
            ("1 1 A k c", Words),
            ("1 1 A k c x A y", Words),
            ("1 1 A k c x A ", Words),
            ("1 1 A k c x ", Words),
            ("1 1 A k c x  A", Words),
            ("1  1 A k c x", Words),
            (" 1 1 A k c x", Words),
            ("1\t1 A k c x", Numbers(Form)),
            ("0 1 A k c x", NoNumber),
            ("+1 1 A k c x", NoNumber),
            ("18446744073709551616 1 A k c x", NoNumber),
            ("1 0 A k c x", NoCount),
            ("1 -1 A k c x", NoCount),
            ("1 01 A k c x", NoCount),
            ("18446744073709551615 2 A k c x", NoCount),
            ("1 1 a k c x", NoAttest),
            ("1 1 D k c x", NoAttest),
            ("1 1 A k c x D", NoUnasked),
            ("1 1 A k c x a", NoUnasked),
            ("1 1 B k c x A", NoUnasked),
            ("1 1 C k c x B", NoUnasked),
            ("1x", Words),
            ("1x A k c", Words),
            ("1x A k c x A y", NoNumber),
            ("1x 1 A k c x", NoAttest),
            ("1x D k c x", NoAttest),
            ("1x B k c x A", NoUnasked),
            ("1x B k c x 1", NoUnasked),
            ("01x A k c x", Numbers(Form)),
            ("01 A k c x", Numbers(Form)),
            ("1-01 A k c x", Numbers(Form)),
            ("9-10 A k c x", Numbers(Ends)),
            ("!", Numbers(Form)),
            ("! 1x", Numbers(Form)),
            ("!!1x", Numbers(Form)),
            ("!1x A k c x", Numbers(Form)),
            ("!1 1", Numbers(Form)),
        ] {
            assert_eq!(Row::read(line.as_bytes()), Err(fault), "{line:?}");
        }
        assert_eq!(Row::read(b"1 1 A k c \xff"), Err(NoText));
        let last = of("18446744073709551615 1 C k c x").expect("the last number");
        assert_eq!((last.numbers.all(), last.attest), (u64::MAX..=u64::MAX, Attest::C));
    }

    #[test]
    fn a_line_has_a_block_or_a_number_and_how_many_there_are() {
        for (line, numbers, standing) in [
            ("12155550000 1000 A k c x", 12_155_550_000..=12_155_550_999, Standing::InOrder),
            ("999 2 A k c x A", 999..=1000, Standing::InOrder),
            ("1215555xxxx A k c x", 12_155_550_000..=12_155_559_999, Standing::BySize),
            ("1215555xxxx A k c x A", 12_155_550_000..=12_155_559_999, Standing::BySize),
            ("12155550007 B k c x C", 12_155_550_007..=12_155_550_007, Standing::BySize),
            ("12155550007-12155550011 B k c x", 12_155_550_007..=12_155_550_011, Standing::BySize),
        ] {
            let read = of(line).expect(line);
            assert_eq!((read.numbers.all(), read.standing), (numbers, standing), "{line}");
            assert_eq!((read.key, read.certificates, read.x5u), ("k", "c", "x"), "{line}");
        }
        let except = "12155550007".parse().map(Row::Except);
        assert_eq!(Row::read(b"!12155550007").ok(), except.ok());
    }

    #[test]
    fn a_word_after_the_uri_is_no_better_than_the_attestation() {
        for (line, unasked) in [
            ("1 1 A k c x", None),
            ("1 1 A k c x A", Some(Attest::A)),
            ("1 1 A k c x C", Some(Attest::C)),
            ("1 1 B k c x B", Some(Attest::B)),
            ("1 1 C k c x C", Some(Attest::C)),
            ("1x A k c x", None),
            ("1x A k c x C", Some(Attest::C)),
        ] {
            assert_eq!(of(line).map(|line| line.unasked), Ok(unasked), "{line}");
        }
    }
}
