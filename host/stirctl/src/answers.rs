//! Answers files (docs/FORMATS.md, "Answers file"): which signatures are good, said beforehand.

use crate::files::{hex, lines, says_nothing, whole};
use crate::Fault;
use std::collections::HashSet;
use stir::Question;

const MOST_BYTES: u64 = 67_108_864;

/// The most bytes of a key's name, and those that it can't have.
const LONGEST_NAME: usize = 64;
const NO_NAME: &[u8] = b";,\"<>\\";

/// The questions whose signatures are good.
#[derive(Debug, Default)]
pub(crate) struct Answers(HashSet<Question>);

/// A line of an answers file.
enum Line<'a> {
    Confirm(Box<Question>),
    Sign(&'a [u8], [u8; 32]),
}

impl Answers {
    /// Reads the named file.
    pub fn read(name: &str) -> Result<Answers, Fault> {
        let text = whole(name, MOST_BYTES)?;
        Answers::of(&text).map_err(|line| Fault::Refused(name.into(), line))
    }

    /// The answers of a text, or its first bad line.
    fn of(text: &[u8]) -> Result<Answers, u64> {
        let (mut good, mut signed) = (HashSet::new(), HashSet::new());
        for (number, line) in lines(text).filter(|(_, line)| !says_nothing(line)) {
            match read_line(line).ok_or(number)? {
                Line::Confirm(question) => {
                    good.insert(*question);
                }
                Line::Sign(name, digest) if signed.insert((name, digest)) => {}
                Line::Sign(..) => return Err(number),
            }
        }
        Ok(Answers(good))
    }

    /// The questions whose signatures are good.
    pub fn all(&self) -> impl Iterator<Item = &Question> {
        self.0.iter()
    }

    /// Whether this signature is good.
    pub fn confirms(&self, question: &Question) -> bool {
        self.0.contains(question)
    }
}

/// The question of a line `confirm KEY DIGEST SIGNATURE`.
pub(crate) fn question(line: &[u8]) -> Option<Question> {
    match read_line(line)? {
        Line::Confirm(question) => Some(*question),
        Line::Sign(..) => None,
    }
}

/// Whether a key may have this name.
pub(crate) fn is_key_name(name: &[u8]) -> bool {
    let is_in_name = |byte: &u8| byte.is_ascii_graphic() && !NO_NAME.contains(byte);
    (1..=LONGEST_NAME).contains(&name.len()) && name.iter().all(is_in_name)
}

fn read_line(line: &[u8]) -> Option<Line<'_>> {
    let mut words = line.split(|byte| *byte == b' ');
    let mut next = || words.next();
    let (kind, who, digits, signature) = (next()?, next()?, next()?, next()?);
    if next().is_some() {
        return None;
    }
    let (mut digest, mut r_and_s) = ([0; 32], [0; 64]);
    hex(digits, &mut digest)?;
    hex(signature, &mut r_and_s)?;
    match kind {
        b"confirm" => {
            let (mut key, mut bytes) = ([0; 65], [0; stir_question()]);
            hex(who, &mut key)?;
            bytes[..65].copy_from_slice(&key);
            bytes[65..97].copy_from_slice(&digest);
            bytes[97..].copy_from_slice(&r_and_s);
            (key[0] == 4).then(|| Line::Confirm(Box::new(Question::new(bytes))))
        }
        b"sign" => is_key_name(who).then_some(Line::Sign(who, digest)),
        _ => None,
    }
}

/// How many bytes a question has.
const fn stir_question() -> usize {
    65 + 32 + 64
}

#[cfg(test)]
mod tests {
    use super::*;

    /// The signature of RFC 7515, appendix A.3, as docs/FORMATS.md has it.
    fn example() -> String {
        include_str!("../../../docs/FORMATS.md")
            .lines()
            .find(|line| line.starts_with("confirm 047fcdce"))
            .expect("the example of docs/FORMATS.md")
            .to_owned()
    }

    #[test]
    fn the_example_of_the_page_is_an_answer() {
        let answers = Answers::of(format!("; RFC 7515\n\n{}", example()).as_bytes()).unwrap();
        let question = question(example().as_bytes()).unwrap();
        assert!(answers.confirms(&question) && answers.0.len() == 1);
        let upper = example().to_uppercase().replace("CONFIRM", "confirm");
        assert!(Answers::of(upper.as_bytes()).unwrap().confirms(&question));
    }

    #[test]
    fn the_first_bad_line_is_told() {
        let (confirm, zeros) = (example(), "0".repeat(64));
        let sign = format!("sign k1 {zeros} {zeros}{zeros}");
        for (text, line) in [
            ("confirm 04".to_owned(), 1),
            (format!("{confirm}\n{confirm} \n"), 2),
            (format!("\n;\n {confirm}"), 3),
            (confirm.replace(" 04", " 05"), 1),
            (confirm.replace("confirm", "Confirm"), 1),
            (format!("{sign}\n{sign}\n"), 2),
            (sign.replace("k1", "k,1"), 1),
            (sign.replace("k1", &"k".repeat(65)), 1),
            (format!("{sign}0"), 1),
            (format!("{sign}\r"), 1),
        ] {
            assert_eq!(Answers::of(text.as_bytes()).err(), Some(line), "{text:?}");
        }
        assert!(Answers::of(format!("{sign}\n{}\n", sign.replace("k1", "k2")).as_bytes()).is_ok());
    }
}
