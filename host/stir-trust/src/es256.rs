//! ES256 (RFC 7518, section 3.4): ECDSA on P-256 with SHA-256, by OpenSSL. What is confirmed here
//! is what the judge takes for good.
use crate::locks::Held;
use openssl::bn::{BigNum, BigNumContext};
use openssl::ec::{EcGroup, EcKey, EcPoint};
use openssl::ecdsa::EcdsaSig;
use openssl::error::{Error, ErrorStack};
use openssl::nid::Nid;
use openssl::pkey::Public;
use std::collections::HashMap;
use std::sync::RwLock;
use stir::Question;

/// How many answers a generation holds, and how many keys are held.
const GENERATION: usize = 32_768;
const MOST_KEYS: usize = 16_384;

/// What OpenSSL says of an input that is no point of the curve, or no signature under any key, in
/// its library for elliptic curves. All else that it fails at, as without memory, tells nothing.
const OF_INPUT: [&str; 5] = [
    "bad signature",
    "coordinates out of range",
    "invalid encoding",
    "point at infinity",
    "point is not on curve",
];

/// Why nothing is known of a signature, or none is made: OpenSSL failed, as if it had no memory.
///
/// ```
/// # fn question() -> stir::Question { stir::Question::new([4; 161]) }
/// use stir_trust::{Unanswered, Verifier};
///
/// let answer: Result<bool, Unanswered> = Verifier::new()?.answer(&question());
/// assert_eq!(answer, Ok(false));
/// # Ok::<(), Unanswered>(())
/// ```
#[derive(Clone, Debug, thiserror::Error, PartialEq, Eq)]
#[error("OpenSSL failed: {0}")]
pub struct Unanswered(String);

impl From<ErrorStack> for Unanswered {
    fn from(errors: ErrorStack) -> Unanswered {
        Unanswered(errors.to_string())
    }
}

/// A verifier that remembers: keys, and what it answered, in two generations. What is asked again
/// is remembered again, so the questions of certificates stay and those of PASSporTs go. What
/// OpenSSL failed at isn't remembered.
///
/// ```
/// let verifier = stir_trust::Verifier::new()?;
/// assert!(!verifier.confirms(&stir::Question::new([0; 161])));
/// # Ok::<(), stir_trust::Unanswered>(())
/// ```
pub struct Verifier {
    curve: EcGroup,
    keys: RwLock<HashMap<[u8; 65], EcKey<Public>>>,
    answers: RwLock<Generations>,
}

#[derive(Default)]
struct Generations {
    young: HashMap<Question, bool>,
    old: HashMap<Question, bool>,
}

impl Verifier {
    /// A verifier that remembers nothing yet.
    ///
    /// # Errors
    ///
    /// OpenSSL has no memory, or not this curve.
    ///
    /// ```
    /// assert!(stir_trust::Verifier::new().is_ok());
    /// ```
    pub fn new() -> Result<Verifier, Unanswered> {
        let curve = EcGroup::from_curve_name(Nid::X9_62_PRIME256V1)?;
        Ok(Verifier { curve, keys: RwLock::default(), answers: RwLock::default() })
    }

    /// Whether the signature of a question is good. If OpenSSL fails it isn't known to be, and the
    /// next time it is asked again.
    ///
    /// ```
    /// let verifier = stir_trust::Verifier::new()?;
    /// assert!(!verifier.confirms(&stir::Question::new([4; 161])), "no point of the curve");
    /// # Ok::<(), stir_trust::Unanswered>(())
    /// ```
    pub fn confirms(&self, question: &Question) -> bool {
        self.answer(question).unwrap_or(false)
    }

    /// The same, for who wants to tell a signature that isn't good from one of which nothing is
    /// known.
    ///
    /// # Errors
    ///
    /// OpenSSL failed, as if it had no memory. That isn't remembered.
    ///
    /// ```
    /// let verifier = stir_trust::Verifier::new()?;
    /// assert_eq!(verifier.answer(&stir::Question::new([4; 161])), Ok(false));
    /// # Ok::<(), stir_trust::Unanswered>(())
    /// ```
    pub fn answer(&self, question: &Question) -> Result<bool, Unanswered> {
        if let Some(good) = self.remembered(question) {
            return Ok(good);
        }
        let good = self.verified(question)?;
        self.remember(question, good);
        Ok(good)
    }

    /// Whether the signature of a question is good, without remembering the answer.
    ///
    /// ```
    /// let verifier = stir_trust::Verifier::new()?;
    /// assert!(!verifier.checks(&stir::Question::new([4; 161])));
    /// # Ok::<(), stir_trust::Unanswered>(())
    /// ```
    pub fn checks(&self, question: &Question) -> bool {
        self.verified(question).unwrap_or(false)
    }

    /// What OpenSSL says of a signature. A key that is no point of the curve has signed nothing.
    fn verified(&self, question: &Question) -> Result<bool, Unanswered> {
        // What an earlier failure left in OpenSSL's queue is none of this one.
        drop(ErrorStack::get());
        let verify = || {
            let Some(key) = self.key(question.key())? else { return Ok(false) };
            let (r, s) = question.signature().split_at(32);
            EcdsaSig::from_private_components(BigNum::from_slice(r)?, BigNum::from_slice(s)?)?
                .verify(question.digest(), &key)
        };
        verify().or_else(|errors| if is_of_input(&errors) { Ok(false) } else { Err(errors.into()) })
    }

    fn remembered(&self, question: &Question) -> Option<bool> {
        let answers = self.answers.read().held();
        if let Some(good) = answers.young.get(question) {
            return Some(*good);
        }
        let good = *answers.old.get(question)?;
        drop(answers);
        self.remember(question, good);
        Some(good)
    }

    fn remember(&self, question: &Question, good: bool) {
        let Generations { young, old } = &mut *self.answers.write().held();
        if young.len() >= GENERATION {
            // The older one's memory serves again.
            std::mem::swap(young, old);
            young.clear();
        }
        young.insert(*question, good);
    }

    /// The public key of this form, if it is an uncompressed point (SEC 1, section 2.3.3).
    fn key(&self, point: &[u8]) -> Result<Option<EcKey<Public>>, ErrorStack> {
        let Some(point) = <[u8; 65]>::try_from(point).ok().filter(|point| point[0] == 4) else {
            return Ok(None);
        };
        if let Some(key) = self.keys.read().held().get(&point) {
            return Ok(Some(key.clone()));
        }
        let key = self.key_of(&point)?;
        let mut keys = self.keys.write().held();
        if keys.len() >= MOST_KEYS {
            keys.clear();
        }
        keys.insert(point, key.clone());
        Ok(Some(key))
    }

    /// The public key that a point is, if it lies on the curve: OpenSSL takes no coordinates of
    /// another, nor any past the field's prime. Each point of P-256 that isn't infinity has the
    /// curve's order, since its cofactor is 1, and infinity hasn't 65 bytes (SEC 1, sections 2.3.4
    /// and 3.2.2).
    fn key_of(&self, point: &[u8; 65]) -> Result<EcKey<Public>, ErrorStack> {
        let point = EcPoint::from_bytes(&self.curve, point, &mut *BigNumContext::new()?)?;
        EcKey::from_public_key(&self.curve, &point)
    }
}

/// Whether it is the input at which OpenSSL failed, so that it fails there each time. The first
/// error tells that; the others come of it.
fn is_of_input(errors: &ErrorStack) -> bool {
    let reason = errors.errors().first().and_then(Error::reason);
    reason.is_some_and(|why| OF_INPUT.contains(&why))
}

#[cfg(test)]
mod tests {
    use super::*;

    /// The question of these hex digits, with or without blanks between them.
    fn question(digits: &str) -> Question {
        let digits: Vec<u8> = digits.bytes().filter(u8::is_ascii_hexdigit).collect();
        let bytes: Vec<u8> = digits
            .chunks(2)
            .map(|pair| std::str::from_utf8(pair).expect("ASCII"))
            .map(|pair| u8::from_str_radix(pair, 16).expect("hex digits"))
            .collect();
        Question::new(bytes.try_into().expect("161 bytes"))
    }

    /// RFC 6979, section A.2.5, "sample" with SHA-256: a key, a digest and a signature that this
    /// program didn't make.
    fn sample() -> Question {
        question(
            "0460FED4BA255A9D31C961EB74C6356D68C049B8923B61FA6CE669622E60F29FB6\
             7903FE1008B8BC99A41AE9E95628BC64F2F1B20C2D7E9F5177A3C294D4462299\
             AF2BDBE1AA9B6EC1E2ADE1D694F41FC71A831D0268E9891562113D8A62ADD1BF\
             EFD48B2AACB6A8FD1140DD9CD45E81D69D2C877B56AAF991C34D0EA84EAF3716\
             F7CB1C942D657C41D436C7A1B6E29F65F3E900DBB9AFF4064DC4AB2F843ACDA8",
        )
    }

    #[test]
    fn a_published_signature_is_good_and_each_changed_byte_of_it_isnt() {
        let verifier = Verifier::new().unwrap();
        assert!(verifier.confirms(&sample()));
        assert!(verifier.confirms(&sample()), "asked again");
        for at in 1..161 {
            let mut other = *sample().bytes();
            other[at] ^= 1;
            assert!(!verifier.confirms(&Question::new(other)), "byte {at}");
        }
    }

    #[test]
    fn what_isnt_good_is_told_from_what_isnt_known() {
        let verifier = Verifier::new().unwrap();
        for at in 0..161 {
            let mut other = *sample().bytes();
            other[at] ^= 1;
            assert_eq!(verifier.answer(&Question::new(other)), Ok(false), "byte {at}");
        }
        for bytes in [[0; 161], [4; 161], [255; 161]] {
            assert_eq!(verifier.answer(&Question::new(bytes)), Ok(false), "{bytes:?}");
        }
        assert_eq!(verifier.answer(&sample()), Ok(true));
    }

    #[test]
    fn at_its_boundaries_it_says_what_another_program_says() {
        let verifier = Verifier::new().unwrap();
        let cases = include_str!("../cases/es256.txt");
        for line in cases.lines().filter(|line| !line.starts_with(';')) {
            let (case, what) = line.split_once("; ").expect(line);
            let (word, digits) = case.split_once(" confirm ").expect(line);
            assert_eq!(verifier.answer(&question(digits)), Ok(word == "good"), "{what}");
        }
    }

    #[test]
    fn what_was_answered_is_remembered_through_two_generations() {
        let verifier = Verifier::new().unwrap();
        let bad = |number: usize| {
            let mut question = [0; 161];
            question[..8].copy_from_slice(&number.to_be_bytes());
            Question::new(question)
        };
        verifier.remember(&sample(), true);
        for number in 1..GENERATION {
            verifier.remember(&bad(number), false);
        }
        verifier.remember(&bad(GENERATION), false);
        assert!(verifier.answers.read().unwrap().old.contains_key(&sample()));
        assert_eq!(verifier.remembered(&sample()), Some(true), "asked again, it is young again");
        for number in GENERATION..2 * GENERATION {
            verifier.remember(&bad(number), false);
        }
        assert_eq!(
            (verifier.remembered(&bad(1)), verifier.remembered(&sample())),
            (None, Some(true))
        );
    }
}
