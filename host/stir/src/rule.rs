//! The rules in words.

use crate::verdict::{Refused, Verdict};

/// A rule in words. docs/RULES.md has each in full.
///
/// ```
/// use stir::Rule;
///
/// let rule = Rule::of(9).expect("there is a rule of this number");
/// assert_eq!(rule.holds, "it was signed at about the moment of the call");
/// assert_eq!(rule.broken, "it was signed too long before or after, or by a clock that is wrong");
/// assert!(rule.standard.starts_with("RFC 8224, section 6.2;"));
/// ```
#[derive(Clone, Copy, Debug, PartialEq, Eq)]
pub struct Rule {
    /// Its number.
    pub number: u32,
    /// What is so if it holds.
    pub holds: &'static str,
    /// What it means that it is broken.
    pub broken: &'static str,
    /// The section of the standard, and what of it is this project's own.
    pub standard: &'static str,
}

const fn rule(
    number: u32,
    holds: &'static str,
    broken: &'static str,
    standard: &'static str,
) -> Rule {
    Rule { number, holds, broken, standard }
}

/// The number of the last rule that asks for a signature.
const SIGNATURE: u32 = 16;

/// The rules by their numbers.
const RULES: &[Rule] = &[
    rule(
        1,
        "the message is an INVITE",
        "the message can't be read, or is no INVITE",
        "RFC 3261, section 21.4.1",
    ),
    rule(2, "there is an Identity field", "there is no Identity field", "RFC 8224, section 6.2"),
    rule(
        3,
        "each Identity field can be read",
        "an Identity field can't be read",
        "RFC 8224, section 4; the limit is our own",
    ),
    rule(
        4,
        "an Identity field speaks for the caller",
        "no Identity field speaks for the caller",
        "RFC 8224, section 6.2",
    ),
    rule(5, "it is signed by ES256", "it isn't signed by ES256", "RFC 8224, section 4"),
    rule(
        6,
        "the PASSporT and its claims can be read",
        "the PASSporT can't be read",
        "RFC 8225, sections 3 to 5",
    ),
    rule(
        7,
        "the PASSporT is of the calling number",
        "the PASSporT is of another caller",
        "RFC 8224, section 6.2; ATIS-1000074, section 5.3.1",
    ),
    rule(
        8,
        "the PASSporTs lead to the called number",
        "the PASSporTs don't lead to the called number",
        "RFC 8946, section 4.2",
    ),
    rule(
        9,
        "it was signed at about the moment of the call",
        "it was signed too long before or after, or by a clock that is wrong",
        "RFC 8224, section 6.2; both bounds are our own",
    ),
    rule(
        10,
        "the certificates of each x5u are there",
        "the certificates of this x5u aren't there",
        "RFC 8224, section 6.2.2",
    ),
    rule(
        11,
        "each certificate is within the profile",
        "a certificate is outside the profile",
        "RFC 5280, in a profile; the limits are our own",
    ),
    rule(
        12,
        "the certificates lead to a trust anchor",
        "the certificates lead to no trust anchor",
        "RFC 5280, section 6.1",
    ),
    rule(
        13,
        "each certificate is valid at the moment of the call",
        "a certificate is out of date",
        "RFC 5280, section 6.1.3",
    ),
    rule(
        14,
        "each certificate speaks for no more than its issuer",
        "a certificate speaks for more than its issuer",
        "RFC 9060; RFC 8226, section 9",
    ),
    rule(
        15,
        "each certificate's signature is good",
        "a certificate's signature isn't good",
        "RFC 5280, section 6.1.3",
    ),
    rule(
        16,
        "the PASSporT's signature is good",
        "the PASSporT's signature isn't good",
        "RFC 8224, section 6.2; RFC 7515, section 5.2",
    ),
    rule(
        17,
        "the certificate covers the number",
        "the certificate doesn't cover the number",
        "ATIS-1000074, section 5.2.3; RFC 8946, section 4.2",
    ),
    rule(
        18,
        "the PASSporT passed for the first time",
        "the PASSporT passed before",
        "our own rule",
    ),
    rule(
        19,
        "the certificates allow what is claimed",
        "a certificate doesn't allow what is claimed",
        "after RFC 8226, section 8; the extension's form and meaning are our own",
    ),
];

impl Rule {
    /// The number of the rule on replays, which looks at other calls and is tried last.
    pub const REPLAY: u32 = 18;

    /// All of them, by their numbers, which count from 1.
    ///
    /// ```
    /// use stir::Rule;
    ///
    /// assert!(Rule::all().iter().zip(1..).all(|(rule, number)| rule.number == number));
    /// ```
    pub fn all() -> &'static [Rule] {
        RULES
    }

    /// Those by which a call is judged by itself, in the order in which they are tried.
    ///
    /// ```
    /// use stir::Rule;
    ///
    /// assert!(Rule::of_one_call().all(|rule| rule.number != Rule::REPLAY));
    /// assert_eq!(Rule::of_one_call().count(), Rule::all().len() - 1);
    /// ```
    pub fn of_one_call() -> impl Iterator<Item = &'static Rule> {
        RULES.iter().filter(|rule| rule.number != Rule::REPLAY)
    }

    /// The rule of this number, if there is one.
    ///
    /// ```
    /// assert_eq!(stir::Rule::of(0), None);
    /// ```
    pub fn of(number: u32) -> Option<&'static Rule> {
        RULES.iter().find(|rule| rule.number == number)
    }
}

impl Refused {
    /// Whether the signatures of its PASSporTs are good, by certificates that lead to a trust
    /// anchor: the rule that is broken comes after those on signatures. Only then its certificates
    /// say who signed.
    ///
    /// ```
    /// use stir::Refused;
    ///
    /// assert!(Refused { rule: 17, code: 437, field: 1, part: 0 }.is_signed());
    /// assert!(!Refused { rule: 16, code: 438, field: 1, part: 0 }.is_signed());
    /// ```
    pub fn is_signed(&self) -> bool {
        self.rule > SIGNATURE
    }
}

impl Verdict {
    /// Whether the signatures of its PASSporTs are good, as [`Refused::is_signed`] has it.
    ///
    /// ```
    #[doc = include_str!("../tests/given/hidden.md")]
    /// let mut call = world.call(given::MOMENT, given::INVITE)?;
    /// assert!(!call.verify(given::good)?.is_signed(), "its chain isn't there");
    /// call.set_chain(0, &chain)?;
    /// assert!(call.verify(given::good)?.is_signed());
    /// # Ok::<(), stir::Error>(())
    /// ```
    pub fn is_signed(&self) -> bool {
        match self {
            Verdict::Passes(_) => true,
            Verdict::Refused(refused) => refused.is_signed(),
        }
    }
}

#[cfg(test)]
mod tests {
    use super::*;

    #[test]
    fn each_rule_stands_in_the_page_with_its_standard() {
        let page = include_str!("../../../docs/RULES.md");
        for (rule, number) in RULES.iter().zip(1..) {
            assert_eq!(rule.number, number);
            let begins = format!("| {number} | ");
            let ends = format!(" | {} |", rule.standard);
            let is_it = |line: &&str| line.starts_with(&begins) && line.ends_with(&ends);
            assert!(page.lines().any(|line| is_it(&line)), "{rule:?}");
        }
    }
}
