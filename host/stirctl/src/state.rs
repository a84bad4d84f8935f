//! State files (docs/FORMATS.md, "State file"): what one run hands on to the next.

use crate::files::{hex, number, push_hex, whole};
use crate::log::LAST_MOMENT;
use crate::Fault;

const MOST_BYTES: u64 = 536_870_912;

/// The most seconds of a window, the greatest number of a call, and the last second of a ticket.
const LONGEST_WINDOW: u64 = 86_400;
const MOST_CALLS: u64 = 4_000_000_000;
const LAST: u64 = LAST_MOMENT + LONGEST_WINDOW;

/// The line with which a state begins.
pub(crate) const BEGINS: &[u8] = b"past 1";

/// A call that passed.
#[derive(Clone, Copy, Debug, PartialEq, Eq)]
pub(crate) struct Kept {
    /// By what it is known again.
    pub ticket: [u8; 32],
    /// Its number.
    pub call: u64,
    /// The last second at which its PASSporT is fresh.
    pub last: u64,
}

/// What one run hands on.
#[derive(Clone, Debug, Default, PartialEq, Eq)]
pub(crate) struct State {
    /// How many seconds after its `iat` a PASSporT is fresh.
    pub window: u64,
    /// The number and the moment of the last call.
    pub call: u64,
    pub moment: u64,
    /// The calls that passed, by rising tickets.
    pub kept: Vec<Kept>,
}

impl State {
    /// Reads the state file of this name; its window has to be this one.
    pub fn read(name: &str, window: u64) -> Result<State, Fault> {
        let text = whole(name, MOST_BYTES)?;
        State::of(&text, window).map_err(|line| Fault::Refused(name.into(), line))
    }

    /// The state of a text, or its first bad line.
    fn of(text: &[u8], window: u64) -> Result<State, u64> {
        if text.is_empty() {
            return Ok(State { window, ..State::default() });
        }
        let mut lines = Lines { text, number: 0 };
        loop {
            match lines.next() {
                Some((BEGINS, true)) => break,
                Some((BEGINS, false)) => return Err(lines.number),
                Some(_) => {}
                None => return Err(lines.number + 1),
            }
        }
        let own = lines.number_after(b"window ", LONGEST_WINDOW)?;
        let at_window = lines.number;
        let call = lines.number_after(b"call ", MOST_CALLS)?;
        let moment = lines.number_after(b"moment ", LAST_MOMENT)?;
        let mut kept: Vec<Kept> = Vec::new();
        loop {
            let line = lines.whole()?;
            if let Some(count) = line.strip_prefix(b"end ") {
                if number(count, u64::MAX) != Some(kept.len() as u64) {
                    return Err(lines.number);
                }
                break;
            }
            let found = read_kept(line, call).ok_or(lines.number)?;
            if kept.last().is_some_and(|before| before.ticket >= found.ticket) {
                return Err(lines.number);
            }
            kept.push(found);
        }
        if own != window {
            return Err(at_window);
        }
        Ok(State { window, call, moment, kept })
    }

    /// Its lines.
    pub fn text(&self) -> Vec<u8> {
        let State { window, call, moment, kept } = self;
        let head = format!("past 1\nwindow {window}\ncall {call}\nmoment {moment}\n");
        let mut text = head.into_bytes();
        for Kept { ticket, call, last } in kept {
            text.extend_from_slice(b"kept ");
            push_hex(&mut text, ticket);
            text.extend_from_slice(format!(" {call} {last}\n").as_bytes());
        }
        text.extend_from_slice(format!("end {}\n", kept.len()).as_bytes());
        text
    }
}

/// The ticket, the call and the last second of a line.
fn read_kept(line: &[u8], calls: u64) -> Option<Kept> {
    let mut words = line.strip_prefix(b"kept ")?.split(|byte| *byte == b' ');
    let (digits, call, last) = (words.next()?, words.next()?, words.next()?);
    let mut ticket = [0; 32];
    hex(digits, &mut ticket)?;
    let is_lower = !digits.iter().any(u8::is_ascii_uppercase);
    let call = number(call, calls).filter(|call| *call > 0)?;
    let last = number(last, LAST)?;
    (is_lower && words.next().is_none()).then_some(Kept { ticket, call, last })
}

/// The lines that are left of a text, and the number of the last one that was given.
struct Lines<'a> {
    text: &'a [u8],
    number: u64,
}

impl<'a> Lines<'a> {
    /// The next line, and whether it ends with LF.
    fn next(&mut self) -> Option<(&'a [u8], bool)> {
        if self.text.is_empty() {
            return None;
        }
        self.number += 1;
        let end = self.text.iter().position(|byte| *byte == b'\n');
        let (line, rest) = self.text.split_at(end.unwrap_or(self.text.len()));
        self.text = rest.get(1..).unwrap_or_default();
        Some((line, end.is_some()))
    }

    /// The next line, which has to end with LF; or the number of the bad line.
    fn whole(&mut self) -> Result<&'a [u8], u64> {
        match self.next() {
            Some((line, true)) => Ok(line),
            Some((_, false)) => Err(self.number),
            None => Err(self.number + 1),
        }
    }

    /// The number on the next line, after this word.
    fn number_after(&mut self, word: &[u8], most: u64) -> Result<u64, u64> {
        let digits = self.whole()?.strip_prefix(word).ok_or(self.number)?;
        number(digits, most).ok_or(self.number)
    }
}

#[cfg(test)]
mod tests {
    use super::*;

    /// The state of docs/FORMATS.md.
    fn example() -> String {
        let page = include_str!("../../../docs/FORMATS.md");
        let start = page.find("1 valid - - -\npast 1\n").expect("the example of the page");
        let end = page[start..].find("```").expect("its end");
        page[start..start + end].to_owned()
    }

    #[test]
    fn the_state_of_the_page_is_read_and_written_again() {
        let state = State::of(example().as_bytes(), 60).unwrap();
        assert_eq!((state.call, state.moment, state.kept.len()), (1, 1_443_208_345, 1));
        assert_eq!(
            format!("1 valid - - -\n{}", String::from_utf8(state.text()).unwrap()),
            example()
        );
        assert_eq!(
            State::of(b"", 60).unwrap().text(),
            b"past 1\nwindow 60\ncall 0\nmoment 0\nend 0\n"
        );
        let more = format!("{}anything\npast 1\n", example());
        assert_eq!(State::of(more.as_bytes(), 60), Ok(state));
    }

    #[test]
    fn the_first_bad_line_of_a_state_is_told() {
        let good = example();
        let kept = good.lines().find(|line| line.starts_with("kept")).unwrap().to_owned();
        for (text, line) in [
            (good.replace("end 1\n", ""), 7),
            (good.replace("end 1\n", "end 01\n"), 7),
            (good.replace("end 1\n", "end 2\n"), 7),
            (good.replace("end 1\n", "end 1"), 7),
            (good.replace("kept 2e9", "kept 2E9"), 6),
            (good.replace(" 1 1443208405", " 0 1443208405"), 6),
            (good.replace(" 1 1443208405", " 2 1443208405"), 6),
            (good.replace("end 1\n", &format!("{kept}\nend 2\n")), 7),
            (good.replace("past 1\n", "past 1\npast 1\n"), 3),
            (good.replace("past 1\n", "past 1\r\n"), 8),
            ("past 1".into(), 1),
            ("abc\n".into(), 2),
            ("abc".into(), 2),
            (good.replace("window 60", "window 61"), 3),
            (good.replace("window 60", "window 61").replace("end 1\n", "end 2\n"), 7),
            (good.replace("moment 1443208345", "moment 253402300800"), 5),
            (good.replace("call 1\n", "call 4000000001\n"), 4),
        ] {
            assert_eq!(State::of(text.as_bytes(), 60).err(), Some(line), "{text:?}");
        }
    }
}
