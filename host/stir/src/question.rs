//! What a verifier of signatures is asked.

/// Whether a signature over a digest is good under a key (ES256; RFC 7518, section 3.4). It is a
/// key of a map, so that answers can be remembered.
///
/// ```
#[doc = include_str!("../tests/given/hidden.md")]
/// use std::collections::HashMap;
/// use stir::Question;
///
/// let mut answers: HashMap<Question, bool> = HashMap::new();
/// for question in chain.questions()? {
///     answers.entry(question).or_insert_with(|| given::good(&question));
/// }
/// # Ok::<(), stir::Error>(())
/// ```
#[repr(transparent)]
#[derive(Clone, Copy, Debug, PartialEq, Eq, Hash)]
pub struct Question([u8; stir_sys::QUESTION]);

impl Question {
    /// The question of these bytes: key, digest and signature, one after another.
    ///
    /// ```
    /// let question = stir::Question::new([4; 161]);
    /// assert_eq!((question.key().len(), question.digest().len()), (65, 32));
    /// assert_eq!(question.signature().len(), 64);
    /// assert_eq!(question.bytes(), &[4; 161]);
    /// ```
    pub fn new(bytes: [u8; stir_sys::QUESTION]) -> Question {
        Question(bytes)
    }

    /// All of it: 161 bytes.
    pub fn bytes(&self) -> &[u8; stir_sys::QUESTION] {
        &self.0
    }

    /// The key: an uncompressed point of P-256, 65 bytes (SEC 1, section 2.3.3). Whether it lies on
    /// the curve isn't looked at.
    pub fn key(&self) -> &[u8] {
        &self.0[..65]
    }

    /// The digest: a SHA-256, 32 bytes.
    pub fn digest(&self) -> &[u8] {
        &self.0[65..97]
    }

    /// The signature: r and s, 32 bytes each.
    pub fn signature(&self) -> &[u8] {
        &self.0[97..]
    }
}

/// Answers as the library takes them: a byte for each question.
pub(crate) fn bytes_of(good: &[bool]) -> &[u8] {
    // SAFETY: a `bool` is a byte that is 0 or 1.
    unsafe { std::slice::from_raw_parts(good.as_ptr().cast(), good.len()) }
}
