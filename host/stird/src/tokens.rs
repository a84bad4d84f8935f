//! Tokens with which calls are signed for all numbers of the signing table.
use crate::files::{whole, FileFault};
use crate::lines::lines_of;
use openssl::memcmp;
use openssl::sha::sha256;
use std::os::unix::fs::PermissionsExt;
use std::path::{Path, PathBuf};

/// The most bytes of the file.
const MOST_FILE: usize = 1 << 20;

/// How many characters a token has.
const LEAST: usize = 16;
const MOST: usize = 512;

/// Why the tokens can't be taken.
#[derive(Debug, thiserror::Error)]
pub enum TokensError {
    /// The file can't be read.
    #[error("{0}")]
    File(#[from] FileFault),
    /// A token isn't one.
    #[error(
        "{}: token {number} isn't {LEAST} to {MOST} characters of ASCII without blanks",
        path.display()
    )]
    Token {
        /// The file.
        path: PathBuf,
        /// The number of the token.
        number: usize,
    },
    /// There is no token.
    #[error("{}: it has no token", path.display())]
    None {
        /// The file.
        path: PathBuf,
    },
}

/// The tokens, each by its SHA-256; none if no file is named.
#[derive(Debug, Default)]
pub struct Tokens {
    sums: Option<Vec<[u8; 32]>>,
}

impl Tokens {
    /// Reads the lines of a file, each of which is a token.
    ///
    /// # Errors
    ///
    /// It can't be read, or has no token or a line that is none.
    pub fn read(path: Option<&Path>) -> Result<Tokens, TokensError> {
        let Some(path) = path else { return Ok(Tokens::default()) };
        let text = whole(path, MOST_FILE)?;
        let mut sums = Vec::new();
        for token in lines_of(&text) {
            if !is_token(token) {
                return Err(TokensError::Token { path: path.into(), number: sums.len() + 1 });
            }
            sums.push(sha256(token));
        }
        if sums.is_empty() {
            return Err(TokensError::None { path: path.into() });
        }
        if std::fs::metadata(path).is_ok_and(|data| data.permissions().mode() & 0o077 != 0) {
            let path = path.display();
            tracing::warn!("{path}: others than its owner may read or write the tokens");
        }
        Ok(Tokens { sums: Some(sums) })
    }

    /// Whether a file was named.
    pub fn are_given(&self) -> bool {
        self.sums.is_some()
    }

    /// Whether one of them is this one.
    ///
    /// ```
    /// use stird::tokens::Tokens;
    ///
    /// assert!(!Tokens::read(None)?.has(b"0123456789abcdef"));
    /// # Ok::<(), stird::tokens::TokensError>(())
    /// ```
    pub fn has(&self, token: &[u8]) -> bool {
        let sum = sha256(token);
        // All are compared, so that the time tells nothing of them.
        let sums = self.sums.iter().flatten();
        sums.fold(false, |found, known| memcmp::eq(known, &sum) | found)
    }
}

/// Whether this may be a token.
pub(crate) fn is_token(text: &[u8]) -> bool {
    (LEAST..=MOST).contains(&text.len()) && text.iter().all(u8::is_ascii_graphic)
}

#[cfg(test)]
mod tests {
    use super::*;

    const TOKEN: &str = "0123456789abcdef";

    fn of(text: &str) -> Result<Tokens, TokensError> {
        static NUMBER: std::sync::atomic::AtomicUsize = std::sync::atomic::AtomicUsize::new(0);
        let number = NUMBER.fetch_add(1, std::sync::atomic::Ordering::Relaxed);
        let name = format!("stird-tokens-{}-{number}", std::process::id());
        let path = std::env::temp_dir().join(name);
        std::fs::write(&path, text).expect("a file");
        let read = Tokens::read(Some(&path));
        std::fs::remove_file(&path).expect("it is removed");
        read
    }

    #[test]
    fn a_token_is_one_of_those_in_the_file() {
        let tokens = of(&format!("; for the proxy\n{TOKEN}\nfedcba9876543210\n")).expect("tokens");
        for good in [TOKEN, "fedcba9876543210"] {
            assert!(tokens.has(good.as_bytes()), "{good}");
        }
        for bad in ["", "0123456789abcde", "0123456789abcdef0", "; for the proxy"] {
            assert!(!tokens.has(bad.as_bytes()), "{bad}");
        }
    }

    #[test]
    fn what_is_no_list_of_tokens_is_refused() {
        for (text, told) in [
            ("", "it has no token"),
            ("; none\n", "it has no token"),
            ("0123456789abcde\n", "token 1 "),
            ("0123456789abcdef\n0123456789 abcdef\n", "token 2 "),
            ("0123456789abcdef\u{e9}\n", "token 1 "),
        ] {
            let fault = of(text).expect_err(text).to_string();
            assert!(fault.contains(told), "{text}: {fault}");
        }
    }
}
