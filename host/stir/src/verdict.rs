//! What comes of a call.

use crate::Error;
use stir_sys::stir_said;

/// What comes of a call by the rules that were tried.
///
/// ```
#[doc = include_str!("../tests/given/hidden.md")]
/// use stir::Verdict;
///
/// let mut call = world.call(given::MOMENT, given::INVITE)?;
/// call.set_chain(0, &chain)?;
/// let verdict = call.verify(given::good)?;
/// match verdict {
///     Verdict::Passes(passes) => println!("let through once, up to {}", passes.last),
///     Verdict::Refused(refused) => println!("answered {} by rule {}", refused.code, refused.rule),
/// }
/// # assert!(matches!(verdict, Verdict::Passes(_)));
/// # Ok::<(), stir::Error>(())
/// ```
#[derive(Clone, Copy, Debug, PartialEq, Eq)]
pub enum Verdict {
    /// It breaks none of them.
    Passes(Passes),
    /// It breaks one.
    Refused(Refused),
}

/// A call that breaks no rule. Of those with one ticket only one is let through.
///
/// ```
#[doc = include_str!("../tests/given/hidden.md")]
/// use stir::{Passes, Verdict};
///
/// let mut call = world.call(given::MOMENT, given::INVITE)?;
/// call.set_chain(0, &chain)?;
/// if let Verdict::Passes(Passes { ticket, last }) = call.verify(given::good)? {
///     println!("{ticket:x?} is let through once, up to {last}");
/// }
/// # Ok::<(), stir::Error>(())
/// ```
#[derive(Clone, Copy, Debug, PartialEq, Eq)]
pub struct Passes {
    /// By what the call is known again: the SHA-256 of what was signed as its last PASSporT.
    pub ticket: [u8; 32],
    /// The last second at which that PASSporT is fresh, in Unix time: until then the ticket has to
    /// be remembered.
    pub last: u64,
}

/// A call that breaks a rule: the first one (docs/RULES.md).
///
/// ```
#[doc = include_str!("../tests/given/hidden.md")]
/// use stir::{Refused, Verdict};
///
/// let verdict = world.call(given::MOMENT, b"no INVITE")?.early();
/// assert_eq!(verdict, Verdict::Refused(Refused { rule: 1, code: 400, field: 0, part: 9 }));
/// # Ok::<(), stir::Error>(())
/// ```
#[derive(Clone, Copy, Debug, PartialEq, Eq)]
pub struct Refused {
    /// The number of the rule, one of the call or the chains.
    pub rule: u32,
    /// The rule's response code (RFC 8224, section 6.2.2).
    pub code: u32,
    /// The Identity header field in which it is broken, counted from 1; 0 if in none.
    pub field: u32,
    /// The part of it.
    pub part: u32,
}

impl Verdict {
    /// The verdict that was said.
    pub(crate) fn of(said: &stir_said) -> Result<Verdict, Error> {
        match said.kind {
            stir_sys::PASSES => {
                Ok(Verdict::Passes(Passes { ticket: said.ticket, last: said.last }))
            }
            stir_sys::REFUSED => {
                let stir_said { rule, code, field, part, .. } = *said;
                Ok(Verdict::Refused(Refused { rule, code, field, part }))
            }
            kind => Err(Error::of(kind, said.input)),
        }
    }
}
