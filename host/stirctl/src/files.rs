//! Named files, and the lines of a text.

use crate::Fault;
use std::fs::{File, OpenOptions};
use std::io::{ErrorKind, Read};
use std::os::unix::fs::OpenOptionsExt;
use std::path::Path;

/// Why a file gives no bytes.
#[derive(Clone, Copy, Debug, PartialEq, Eq)]
pub(crate) enum Unread {
    Missing,
    Failed,
}

/// Opens a file for reading. A pipe that nobody writes to is no file, and isn't waited for.
pub(crate) fn open(path: &Path) -> Result<File, Unread> {
    let file = OpenOptions::new().read(true).custom_flags(libc::O_NONBLOCK).open(path);
    match file {
        Ok(file) => match file.metadata() {
            Ok(about) if about.is_dir() => Err(Unread::Failed),
            Ok(_) => Ok(file),
            Err(_) => Err(Unread::Failed),
        },
        Err(error) if error.kind() == ErrorKind::NotFound => Err(Unread::Missing),
        Err(_) => Err(Unread::Failed),
    }
}

/// At most so many bytes of a file.
pub(crate) fn prefix(path: &Path, most: u64) -> Result<Vec<u8>, Unread> {
    let mut bytes = Vec::new();
    let file = open(path)?;
    match file.take(most).read_to_end(&mut bytes) {
        Ok(_) => Ok(bytes),
        Err(_) => Err(Unread::Failed),
    }
}

/// All bytes of a named file that may have so many.
pub(crate) fn whole(name: &str, most: u64) -> Result<Vec<u8>, Fault> {
    let bytes = prefix(Path::new(name), most + 1).map_err(|unread| match unread {
        Unread::Missing => Fault::Missing(name.into()),
        Unread::Failed => Fault::Read(name.into()),
    })?;
    if bytes.len() as u64 > most {
        return Err(Fault::Long(name.into()));
    }
    Ok(bytes)
}

/// The lines of a text (docs/FORMATS.md, "Text files"), numbered from 1: each without its LF and a
/// CR directly before it. The last one may lack its LF, and a CR that it ends with is then its own.
pub(crate) fn lines(text: &[u8]) -> impl Iterator<Item = (u64, &[u8])> {
    let lines = text.split_inclusive(|byte| *byte == b'\n');
    (1..).zip(lines.map(|line| match line.strip_suffix(b"\n") {
        Some(line) => line.strip_suffix(b"\r").unwrap_or(line),
        None => line,
    }))
}

/// Whether a line says nothing.
pub(crate) fn says_nothing(line: &[u8]) -> bool {
    line.is_empty() || line.starts_with(b";")
}

/// A number in decimal digits, without a sign and without a leading zero, up to this one.
pub(crate) fn number(digits: &[u8], most: u64) -> Option<u64> {
    let is_one = matches!(digits, [b'0'] | [b'1'..=b'9', ..]) && digits.len() <= 20;
    let number = std::str::from_utf8(digits).ok().filter(|_| is_one)?.parse().ok()?;
    (number <= most).then_some(number)
}

/// The bytes of hex digits, as many as they are to be.
pub(crate) fn hex(digits: &[u8], bytes: &mut [u8]) -> Option<()> {
    if digits.len() != 2 * bytes.len() {
        return None;
    }
    let digit = |digit: u8| char::from(digit).to_digit(16);
    for (byte, pair) in bytes.iter_mut().zip(digits.chunks_exact(2)) {
        let [high, low] = pair else { return None };
        *byte = (digit(*high)? << 4 | digit(*low)?) as u8;
    }
    Some(())
}

/// Hex digits in lower case.
pub(crate) fn push_hex(text: &mut Vec<u8>, bytes: &[u8]) {
    const DIGITS: &[u8; 16] = b"0123456789abcdef";
    for byte in bytes {
        text.push(DIGITS[usize::from(byte >> 4)]);
        text.push(DIGITS[usize::from(byte & 15)]);
    }
}

#[cfg(test)]
mod tests {
    use super::*;

    #[test]
    fn numbers_have_no_sign_no_blank_and_no_leading_zero() {
        for (digits, number_of) in [("0", Some(0)), ("7", Some(7)), ("20", Some(20))] {
            assert_eq!(number(digits.as_bytes(), 20), number_of, "{digits}");
        }
        for digits in ["", "00", "07", "+7", "-0", " 7", "7 ", "21", "99999999999999999999", "x"] {
            assert_eq!(number(digits.as_bytes(), 20), None, "{digits}");
        }
        assert_eq!(number(b"18446744073709551615", u64::MAX), Some(u64::MAX));
        assert_eq!(number(b"18446744073709551616", u64::MAX), None);
    }

    #[test]
    fn hex_digits_of_either_case_are_bytes() {
        let mut bytes = [0; 2];
        assert_eq!((hex(b"0aFf", &mut bytes), bytes), (Some(()), [10, 255]));
        for digits in ["", "0", "0aF", "0aFg", "0aFf0", "+aFf"] {
            assert_eq!(hex(digits.as_bytes(), &mut bytes), None, "{digits}");
        }
        let mut text = Vec::new();
        push_hex(&mut text, &[10, 255]);
        assert_eq!(text, b"0aff");
    }

    #[test]
    fn a_line_ends_with_lf_and_one_cr_before_it() {
        let found: Vec<_> = lines(b"a\r\nb\r\r\n\nc\r").collect();
        assert_eq!(found, [(1, &b"a"[..]), (2, b"b\r"), (3, b""), (4, b"c\r")]);
        assert_eq!(lines(b"").count(), 0);
    }
}
