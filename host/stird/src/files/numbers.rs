//! Blocks of telephone numbers by their texts: a prefix of digits and how many follow, or all texts
//! of one length between two.
use std::ops::RangeInclusive;
use std::str::FromStr;
use thiserror::Error;

/// How many digits a number of a block has at most (ITU-T E.164, section 6.1).
const MOST_DIGITS: usize = 15;

/// Numbers that follow each other. Each has one text, since none begins with 0 (ITU-T E.164,
/// section 6), so that texts of one length are in the order of their values.
#[derive(Clone, Copy, Debug, PartialEq, Eq)]
pub struct Numbers {
    first: u64,
    last: u64,
}

/// Why a text is no block of numbers.
#[derive(Clone, Copy, Debug, Error, PartialEq, Eq)]
pub enum NumbersFault {
    /// It isn't of the form.
    #[error(
        "a block is 1 to 15 digits, the first of them not 0, perhaps with an x for each of the \
         last ones, or two such numbers with a - between them"
    )]
    Form,
    /// The ends of a range.
    #[error("the numbers of a range have the same length, and the second isn't before the first")]
    Ends,
}

impl Numbers {
    /// From the first to the last, if there are such.
    pub fn new(first: u64, last: u64) -> Option<Numbers> {
        (first <= last).then_some(Numbers { first, last })
    }

    /// The first of them.
    pub fn first(self) -> u64 {
        self.first
    }

    /// The last of them.
    pub fn last(self) -> u64 {
        self.last
    }

    /// All of them.
    pub fn all(self) -> RangeInclusive<u64> {
        self.first..=self.last
    }

    /// How many there are beside the first: the fewer, the more special is the block.
    pub(super) fn more(self) -> u64 {
        self.last - self.first
    }
}

impl FromStr for Numbers {
    type Err = NumbersFault;

    /// Reads a block.
    ///
    /// ```
    /// use stird::files::numbers::{Numbers, NumbersFault};
    ///
    /// let block: Numbers = "1215555xxxx".parse()?;
    /// assert_eq!(block.all(), 12_155_550_000..=12_155_559_999);
    /// assert_eq!("12155550000-12155559999".parse(), Ok(block));
    /// assert_eq!("0012155550000".parse::<Numbers>(), Err(NumbersFault::Form));
    /// # Ok::<(), NumbersFault>(())
    /// ```
    fn from_str(text: &str) -> Result<Numbers, NumbersFault> {
        if let Some((first, last)) = text.split_once('-') {
            let (one, other) = (whole(first)?, whole(last)?);
            let range = Numbers::new(one, other).filter(|_| first.len() == last.len());
            return range.ok_or(NumbersFault::Ends);
        }
        let prefix = text.trim_end_matches('x');
        let first: String = text.replace('x', "0");
        let last: String = text.replace('x', "9");
        whole(prefix)?;
        Numbers::new(whole(&first)?, whole(&last)?).ok_or(NumbersFault::Form)
    }
}

/// A number of a block.
fn whole(text: &str) -> Result<u64, NumbersFault> {
    let is_short = text.len() <= MOST_DIGITS;
    number_of(text).filter(|_| is_short).ok_or(NumbersFault::Form)
}

/// The number that a text of digits is, from 1 on. Each has one text alone: no country code begins
/// with 0 (ITU-T E.164), so a number with zeros before it is none that a block has.
pub fn number_of(text: &str) -> Option<u64> {
    let plain = !text.starts_with('0') && text.bytes().all(|byte| byte.is_ascii_digit());
    plain.then(|| text.parse().ok()).flatten()
}

#[cfg(test)]
mod tests {
    use super::*;

    #[test]
    fn a_number_has_one_text() {
        assert_eq!(number_of("12000010005"), Some(12_000_010_005));
        for text in
            ["012000010005", "0012000010005", "0", "", "+12000010005", "1 2", "12*", "\u{661}"]
        {
            assert_eq!(number_of(text), None, "{text}");
        }
    }

    #[test]
    fn a_block_has_the_texts_of_one_length_that_begin_so() {
        for (text, first, last) in [
            ("12155550001", 12_155_550_001, 12_155_550_001),
            ("1215555000x", 12_155_550_000, 12_155_550_009),
            ("1215555xxxx", 12_155_550_000, 12_155_559_999),
            ("1xxxxxxxxxx", 10_000_000_000, 19_999_999_999),
            ("1", 1, 1),
            ("1x", 10, 19),
            ("999999999999999", 999_999_999_999_999, 999_999_999_999_999),
            ("9xxxxxxxxxxxxxx", 900_000_000_000_000, 999_999_999_999_999),
            ("12155550007-12155550007", 12_155_550_007, 12_155_550_007),
            ("12155550007-12155550031", 12_155_550_007, 12_155_550_031),
        ] {
            assert_eq!(text.parse().map(Numbers::all), Ok(first..=last), "{text}");
        }
    }

    #[test]
    fn what_is_no_block_is_refused() {
        use NumbersFault::{Ends, Form};
        for (text, fault) in [
            ("", Form),
            ("x", Form),
            ("xxxxxxxxxxx", Form),
            ("0", Form),
            ("0x", Form),
            ("01215555xxxx", Form),
            ("1215555xxxxX", Form),
            ("1215555XXXX", Form),
            ("12x5x", Form),
            ("+1215555xxxx", Form),
            ("1215555*", Form),
            ("1xxxxxxxxxxxxxxx", Form),
            ("1234567890123456", Form),
            ("-", Form),
            ("1-", Form),
            ("-1", Form),
            ("1215555xxxx-1215556xxxx", Form),
            ("1-2-3", Form),
            ("99-100", Ends),
            ("12155550001-12155550000", Ends),
            ("12155550001-012155550002", Form),
        ] {
            assert_eq!(text.parse::<Numbers>(), Err(fault), "{text:?}");
        }
    }
}
