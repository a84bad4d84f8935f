//! How telephone numbers stand in the record.
use super::RecordFault;
use crate::files::whole;
use crate::told::{hex, Tells};
use openssl::error::ErrorStack;
use openssl::hash::MessageDigest;
use openssl::pkey::{PKey, Private};
use openssl::sign::Signer;
use std::borrow::Cow;
use std::path::PathBuf;

/// How many digits at the end of a number are left out if it is short.
const LEFT_OUT: usize = 4;

/// How many bytes a key has at least and at most.
const LEAST_KEY: usize = 16;
const MOST_KEY: usize = 4096;

/// In which form numbers stand in the record.
#[derive(Clone, Debug, PartialEq, Eq)]
pub enum Form {
    /// As they are.
    Whole,
    /// With an `x` for each of their last four digits.
    Short,
    /// As the HMAC-SHA-256 of each by the key in this file.
    Hashed(PathBuf),
}

/// What writes numbers in a form.
pub enum Numbers {
    /// As they are.
    Whole,
    /// Without their ends.
    Short,
    /// Hashed by this key.
    Hashed(PKey<Private>),
}

impl Numbers {
    /// What writes numbers in this form. A key is the bytes of its file, without LF or CR at its
    /// end.
    ///
    /// # Errors
    ///
    /// The key can't be read, or is too short.
    pub fn of(form: &Form) -> Result<Numbers, RecordFault> {
        let path = match form {
            Form::Whole => return Ok(Numbers::Whole),
            Form::Short => return Ok(Numbers::Short),
            Form::Hashed(path) => path,
        };
        let bytes = whole(path, MOST_KEY)?;
        let key = bytes.trim_ascii_end();
        if key.len() < LEAST_KEY {
            return Err(RecordFault::ShortKey(path.clone()));
        }
        Ok(Numbers::Hashed(PKey::hmac(key)?))
    }
}

impl Tells for Numbers {
    fn number<'a>(&self, number: &'a str) -> Cow<'a, str> {
        match self {
            Numbers::Whole => number.into(),
            Numbers::Short => short(number).into(),
            // Nothing is told of a number that can't be hashed.
            Numbers::Hashed(key) => hashed(key, number).unwrap_or_default().into(),
        }
    }
}

fn short(number: &str) -> String {
    let kept = number.chars().count().saturating_sub(LEFT_OUT);
    number.chars().enumerate().map(|(at, digit)| if at < kept { digit } else { 'x' }).collect()
}

fn hashed(key: &PKey<Private>, number: &str) -> Result<String, ErrorStack> {
    let mut signer = Signer::new(MessageDigest::sha256(), key)?;
    Ok(hex(&signer.sign_oneshot_to_vec(number.as_bytes())?))
}

#[cfg(test)]
mod tests {
    use super::*;

    #[test]
    fn a_short_number_lacks_its_last_four_digits() {
        for (number, wanted) in
            [("12155551212", "1215555xxxx"), ("12345", "1xxxx"), ("911", "xxx"), ("", "")]
        {
            assert_eq!(Numbers::Short.number(number), wanted);
        }
    }

    #[test]
    fn a_hashed_number_is_its_hmac_by_the_key() {
        // RFC 4231, section 4.3: the key "Jefe", which is too short for a file.
        let key = PKey::hmac(b"Jefe").expect("a key");
        assert_eq!(
            Numbers::Hashed(key).number("what do ya want for nothing?"),
            "5bdcc146bf60754e6a042426089575c75a003f089d2739839dec58b964ec3843"
        );
    }

    #[test]
    fn a_key_has_16_bytes_at_least_without_the_end_of_its_line() {
        let path = std::env::temp_dir().join(format!("stird-record-key-{}", std::process::id()));
        for (text, is_key) in [("fifteen bytes..\n", false), ("sixteen bytes...\r\n", true)] {
            std::fs::write(&path, text).expect("a file");
            assert_eq!(Numbers::of(&Form::Hashed(path.clone())).is_ok(), is_key, "{text:?}");
        }
        std::fs::remove_file(&path).expect("it is removed");
        assert!(Numbers::of(&Form::Hashed(path)).is_err(), "it is gone");
    }
}
