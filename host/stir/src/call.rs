//! One call.

use crate::chain::Chain;
use crate::handle::{CallHandle, WorldHandle};
use crate::question::bytes_of;
use crate::room::{questions, said, written, Written};
use crate::verdict::Verdict;
use crate::world::World;
use crate::{Error, Question};
use stir_sys::{stir_call, stir_chain};

/// How many bytes an x5u, and a text of lines or of claims, mostly has.
const SHORT: usize = 256;
const LINES: usize = 4096;

/// An INVITE, read once under a world. It may go from thread to thread, and is used by one at a
/// time.
///
/// ```
#[doc = include_str!("../tests/given/hidden.md")]
/// let mut call = world.call(given::MOMENT, given::INVITE)?;
/// call.set_chain(0, &chain)?;
/// println!("{:?} claims {:?}", call.verify(given::good)?, call.claims()?);
/// # Ok::<(), stir::Error>(())
/// ```
#[derive(Debug)]
pub struct Call {
    world: World,
    handle: CallHandle,
    early: Verdict,
    count: usize,
    size: usize,
}

/// What a verifier of signatures is asked for the PASSporTs of a call, and what comes of the call
/// if all of it is good.
///
/// ```
#[doc = include_str!("../tests/given/hidden.md")]
/// let mut call = world.call(given::MOMENT, given::INVITE)?;
/// call.set_chain(0, &chain)?;
/// let stir::Asked { questions, if_all } = call.questions()?;
/// assert_eq!(call.judge(&vec![true; questions.len()])?, if_all);
/// # Ok::<(), stir::Error>(())
/// ```
#[derive(Clone, Debug, PartialEq, Eq)]
pub struct Asked {
    /// The questions, at most nine.
    pub questions: Vec<Question>,
    /// The verdict, if a verifier confirms all of them.
    pub if_all: Verdict,
}

/// What a PASSporT says.
///
/// ```
#[doc = include_str!("../tests/given/hidden.md")]
/// let mut call = world.call(given::MOMENT, given::INVITE)?;
/// for stir::Claims { field, payload } in call.claims()? {
///     println!("field {field}: {}", payload.as_deref().unwrap_or("no deterministic form"));
/// }
/// # Ok::<(), stir::Error>(())
/// ```
#[derive(Clone, Debug, PartialEq, Eq)]
pub struct Claims {
    /// The number of its Identity header field, counted from 1.
    pub field: u32,
    /// The payload that was signed, as deterministic JSON (RFC 8225, section 9); nothing if a
    /// number in it is no integer of 64 bits.
    pub payload: Option<String>,
}

/// Which rules a call meets, and the verdict.
///
/// ```
#[doc = include_str!("../tests/given/hidden.md")]
/// let mut call = world.call(given::MOMENT, given::INVITE)?;
/// let explained = call.explain(1, &[])?;
/// assert!(explained.lines.ends_with("1 9 ok\n1 10 436 1.0\n"));
/// # Ok::<(), stir::Error>(())
/// ```
#[derive(Clone, Debug, PartialEq, Eq)]
pub struct Explanation {
    /// The lines of the command `explain` (docs/FORMATS.md).
    pub lines: String,
    /// What comes of the call.
    pub verdict: Verdict,
}

// SAFETY: all that use the handle have the call as `&mut`.
unsafe impl Sync for Call {}

impl Call {
    /// Reads a message under a world.
    pub(crate) fn open(
        world: &World,
        handle: &mut WorldHandle,
        moment: u64,
        message: &[u8],
    ) -> Result<Call, Error> {
        // SAFETY: all are lent for the call, and `out` is a closed handle.
        let (call, told) = unsafe {
            CallHandle::opened(|out| {
                stir_sys::stir_call_open(handle.at(), moment, message.as_ptr(), message.len(), out)
            })
        }?;
        let early = Verdict::of(&told)?;
        let (count, size) = (told.size as usize, message.len());
        Ok(Call { world: world.clone(), handle: call, early, count, size })
    }

    /// What comes of it by the rules of the call. If one of them is broken, no chain and no
    /// signature changes that.
    ///
    /// ```
    #[doc = include_str!("../tests/given/hidden.md")]
    /// use stir::Verdict;
    ///
    /// let call = world.call(given::MOMENT, given::INVITE)?;
    /// assert!(matches!(call.early(), Verdict::Passes(_)));
    /// # Ok::<(), stir::Error>(())
    /// ```
    pub fn early(&self) -> Verdict {
        self.early
    }

    /// How many PASSporTs are judged, at most nine; none if one of the rules of the call is broken.
    ///
    /// ```
    #[doc = include_str!("../tests/given/hidden.md")]
    /// assert_eq!(world.call(given::MOMENT, given::INVITE)?.passports(), 1);
    /// assert_eq!(world.call(given::MOMENT, b"no INVITE")?.passports(), 0);
    /// # Ok::<(), stir::Error>(())
    /// ```
    pub fn passports(&self) -> usize {
        self.count
    }

    /// The x5us of its PASSporTs, in the order in which the call went: the originating one is the
    /// first. One may come twice.
    ///
    /// # Errors
    ///
    /// Want of memory.
    ///
    /// ```
    #[doc = include_str!("../tests/given/hidden.md")]
    /// let mut call = world.call(given::MOMENT, given::INVITE)?;
    /// assert_eq!(call.x5us()?, [given::X5U.as_bytes()]);
    /// # Ok::<(), stir::Error>(())
    /// ```
    pub fn x5us(&mut self) -> Result<Vec<Vec<u8>>, Error> {
        (0..self.count).map(|index| self.x5u(index)).collect()
    }

    /// The x5u of the PASSporT of this index, counted from 0.
    ///
    /// # Errors
    ///
    /// [`Error::NoPassport`] if there is none of this index, or want of memory.
    ///
    /// ```
    #[doc = include_str!("../tests/given/hidden.md")]
    /// let mut call = world.call(given::MOMENT, given::INVITE)?;
    /// assert_eq!(call.x5u(0)?, given::X5U.as_bytes());
    /// assert_eq!(call.x5u(1), Err(stir::Error::NoPassport(1)));
    /// # Ok::<(), stir::Error>(())
    /// ```
    pub fn x5u(&mut self, index: usize) -> Result<Vec<u8>, Error> {
        let number = self.number(index)?;
        let call = &mut self.handle;
        // SAFETY: the handle and the room are lent for the call.
        let came = unsafe {
            written(SHORT, |at, size| stir_sys::stir_call_x5u(call.at(), number, at, size))
        }?;
        bytes(came).ok_or(Error::NoPassport(index))
    }

    /// The values of the header fields of this name in its message, in message order; none if the
    /// message can't be read, which breaks rule 1. Names are compared without case, and a compact
    /// form is its long name, as `i` is `Call-ID` (RFC 3261, sections 7.3.1 and 7.3.3). A value has
    /// no blanks at its ends, and that of a field of several lines is in one.
    ///
    /// Each step reads the message anew, and a message may have more than 21,000 fields: take a
    /// bounded number of them. After an error there is no further step.
    ///
    /// # Errors
    ///
    /// Want of memory.
    ///
    /// ```
    #[doc = include_str!("../tests/given/hidden.md")]
    /// let mut call = world.call(given::MOMENT, given::INVITE)?;
    /// let called = call.header("to").next().transpose()?;
    /// assert_eq!(called.as_deref(), Some(&b"<sip:+12125551213@example.net>"[..]));
    /// assert_eq!(call.header("t").next().transpose()?, called);
    /// assert_eq!(call.header("Subject").count(), 0);
    /// # Ok::<(), stir::Error>(())
    /// ```
    pub fn header<'a>(
        &'a mut self,
        name: &'a str,
    ) -> impl Iterator<Item = Result<Vec<u8>, Error>> + 'a {
        let mut next = Some(0);
        std::iter::from_fn(move || {
            let index = next?;
            let value = self.header_at(name, index).transpose();
            next = if matches!(value, Some(Ok(_))) { index.checked_add(1) } else { None };
            value
        })
    }

    /// Hands in the chain to which the x5u of this PASSporT leads. A PASSporT without one breaks
    /// rule 10.
    ///
    /// # Errors
    ///
    /// [`Error::OtherWorld`] if the chain was opened under another world, [`Error::NoPassport`] if
    /// there is none of this index, or want of memory.
    ///
    /// ```
    #[doc = include_str!("../tests/given/hidden.md")]
    /// use stir::{Error, Settings, World};
    ///
    /// let other = World::open(&Settings::default(), given::ANCHORS, given::TABLE)?;
    /// let mut call = other.call(given::MOMENT, given::INVITE)?;
    /// assert_eq!(call.set_chain(0, &chain), Err(Error::OtherWorld));
    /// assert_eq!(call.set_chain(1, &other.chain(given::CHAIN)?), Err(Error::NoPassport(1)));
    /// # Ok::<(), stir::Error>(())
    /// ```
    pub fn set_chain(&mut self, index: usize, chain: &Chain) -> Result<(), Error> {
        if !chain.is_of(&self.world) {
            return Err(Error::OtherWorld);
        }
        let number = self.number(index)?;
        chain.with(|chain| self.hand_in(number, chain.at()))
    }

    /// Takes the chain of this PASSporT away.
    ///
    /// # Errors
    ///
    /// [`Error::NoPassport`] if there is none of this index, or want of memory.
    ///
    /// ```
    #[doc = include_str!("../tests/given/hidden.md")]
    /// use stir::{Refused, Verdict};
    ///
    /// let mut call = world.call(given::MOMENT, given::INVITE)?;
    /// call.set_chain(0, &chain)?;
    /// call.clear_chain(0)?;
    /// let verdict = call.verify(given::good)?;
    /// assert_eq!(verdict, Verdict::Refused(Refused { rule: 10, code: 436, field: 1, part: 0 }));
    /// # Ok::<(), stir::Error>(())
    /// ```
    pub fn clear_chain(&mut self, index: usize) -> Result<(), Error> {
        let number = self.number(index)?;
        let mut closed = stir_chain::CLOSED;
        self.hand_in(number, &mut closed)
    }

    /// What its PASSporTs say, in the order in which the call went; nothing if one of the rules of
    /// the call is broken. It was claimed by whoever sent the call, and is worth what the verdict
    /// is.
    ///
    /// # Errors
    ///
    /// Want of memory.
    ///
    /// ```
    #[doc = include_str!("../tests/given/hidden.md")]
    /// let claims = world.call(given::MOMENT, given::INVITE)?.claims()?;
    /// let payload = claims[0].payload.as_deref().unwrap_or_default();
    /// assert_eq!((claims.len(), claims[0].field), (1, 1));
    /// assert!(payload.starts_with(r#"{"attest":"A","dest":{"tn":["12125551213"]},"#));
    /// # Ok::<(), stir::Error>(())
    /// ```
    pub fn claims(&mut self) -> Result<Vec<Claims>, Error> {
        let call = &mut self.handle;
        // SAFETY: the handle and the room are lent for the call.
        let came =
            unsafe { written(LINES, |at, size| stir_sys::stir_call_claims(call.at(), at, size)) }?;
        let lines = bytes(came).unwrap_or_default();
        Ok(String::from_utf8_lossy(&lines).split_terminator('\n').filter_map(claims).collect())
    }

    /// What a verifier of signatures is asked for its PASSporTs, each under its leaf's key. There
    /// are no questions if an earlier rule is broken, by the chains that were handed in and by what
    /// of them is confirmed.
    ///
    /// # Errors
    ///
    /// Want of memory.
    ///
    /// ```
    #[doc = include_str!("../tests/given/hidden.md")]
    /// let mut call = world.call(given::MOMENT, given::INVITE)?;
    /// call.set_chain(0, &chain)?;
    /// let asked = call.questions()?;
    /// assert_eq!(asked.questions.len(), 1);
    /// assert_eq!(call.judge(&[true])?, asked.if_all);
    /// # Ok::<(), stir::Error>(())
    /// ```
    pub fn questions(&mut self) -> Result<Asked, Error> {
        let call = &mut self.handle;
        // SAFETY: the handle and the room are lent for the call.
        let (told, questions) =
            unsafe { questions(|at, size| stir_sys::stir_call_questions(call.at(), at, size)) }?;
        Ok(Asked { questions, if_all: Verdict::of(&told)? })
    }

    /// What comes of it by the rules of the call and the chains, over the chains that were handed
    /// in, if these of its questions were confirmed and no others. A question without an answer
    /// wasn't.
    ///
    /// # Errors
    ///
    /// Want of memory.
    ///
    /// ```
    #[doc = include_str!("../tests/given/hidden.md")]
    /// use stir::{Refused, Verdict};
    ///
    /// let mut call = world.call(given::MOMENT, given::INVITE)?;
    /// call.set_chain(0, &chain)?;
    /// let verdict = call.judge(&[false])?;
    /// assert_eq!(verdict, Verdict::Refused(Refused { rule: 16, code: 438, field: 1, part: 0 }));
    /// # Ok::<(), stir::Error>(())
    /// ```
    pub fn judge(&mut self, good: &[bool]) -> Result<Verdict, Error> {
        let good = bytes_of(good);
        // SAFETY: all are lent for the call.
        let told = said(unsafe {
            stir_sys::stir_call_judge(self.handle.at(), good.as_ptr(), good.len())
        })?;
        Verdict::of(&told)
    }

    /// The same by an honest verifier of ES256, who is asked for each question.
    ///
    /// # Errors
    ///
    /// Want of memory.
    ///
    /// ```
    #[doc = include_str!("../tests/given/hidden.md")]
    /// use stir::Verdict;
    ///
    /// let mut call = world.call(given::MOMENT, given::INVITE)?;
    /// call.set_chain(0, &chain)?;
    /// assert!(matches!(call.verify(given::good)?, Verdict::Passes(_)));
    /// # Ok::<(), stir::Error>(())
    /// ```
    pub fn verify(&mut self, confirms: impl FnMut(&Question) -> bool) -> Result<Verdict, Error> {
        let Asked { questions, if_all } = self.questions()?;
        let good: Vec<bool> = questions.iter().map(confirms).collect();
        if good.iter().all(|good| *good) {
            return Ok(if_all);
        }
        self.judge(&good)
    }

    /// Which rules it meets, as the call of this number, with the answers of [`Call::judge`].
    ///
    /// # Errors
    ///
    /// Want of memory.
    ///
    /// ```
    #[doc = include_str!("../tests/given/hidden.md")]
    /// let mut call = world.call(given::MOMENT, given::INVITE)?;
    /// call.set_chain(0, &chain)?;
    /// assert_eq!(call.explain(7, &[true])?.holds().count(), 18);
    /// let explained = call.explain(7, &[false])?;
    /// assert!(explained.lines.ends_with("7 15 ok\n7 16 438 1.0\n"));
    /// # Ok::<(), stir::Error>(())
    /// ```
    pub fn explain(&mut self, number: u32, good: &[bool]) -> Result<Explanation, Error> {
        let (call, good) = (&mut self.handle, bytes_of(good));
        // SAFETY: all are lent for the call.
        let came = unsafe {
            written(LINES, |at, size| {
                stir_sys::stir_call_explain(call.at(), number, good.as_ptr(), good.len(), at, size)
            })
        }?;
        match came {
            Written::Said(told, lines) => {
                let lines = String::from_utf8_lossy(&lines).into_owned();
                Ok(Explanation { lines, verdict: Verdict::of(&told)? })
            }
            Written::None => Err(Error::Unexpected(stir_sys::NONE)),
        }
    }

    /// All that is asked for it, as lines of an answers file (docs/FORMATS.md): for the
    /// certificates of its chains, and for its PASSporTs. A line may come twice.
    ///
    /// # Errors
    ///
    /// Want of memory.
    ///
    /// ```
    #[doc = include_str!("../tests/given/hidden.md")]
    /// let mut call = world.call(given::MOMENT, given::INVITE)?;
    /// call.set_chain(0, &chain)?;
    /// assert_eq!(call.lines()?.lines().filter(|line| line.starts_with("confirm 04")).count(), 3);
    /// # Ok::<(), stir::Error>(())
    /// ```
    pub fn lines(&mut self) -> Result<String, Error> {
        let call = &mut self.handle;
        // SAFETY: the handle and the room are lent for the call.
        let came =
            unsafe { written(LINES, |at, size| stir_sys::stir_call_lines(call.at(), at, size)) }?;
        Ok(String::from_utf8_lossy(&bytes(came).unwrap_or_default()).into_owned())
    }

    /// Where its handle is, for one call of the library.
    pub(crate) fn at(&mut self) -> *mut stir_call {
        self.handle.at()
    }

    /// How many bytes its message has.
    pub(crate) fn message_size(&self) -> usize {
        self.size
    }

    /// The value of the header field of this name and this index, if there is one.
    fn header_at(&mut self, name: &str, index: u32) -> Result<Option<Vec<u8>>, Error> {
        let call = &mut self.handle;
        // SAFETY: the handle, the name and the room are lent for the call.
        let came = unsafe {
            written(SHORT, |at, size| {
                stir_sys::stir_call_header(call.at(), name.as_ptr(), name.len(), index, at, size)
            })
        }?;
        Ok(bytes(came))
    }

    /// The number by which the library knows a PASSporT.
    fn number(&self, index: usize) -> Result<u32, Error> {
        u32::try_from(index).ok().filter(|_| index < self.count).ok_or(Error::NoPassport(index))
    }

    /// Hands in what is behind this handle of a chain.
    fn hand_in(&mut self, number: u32, chain: *mut stir_chain) -> Result<(), Error> {
        // SAFETY: both handles are lent for the call.
        let told = unsafe { stir_sys::stir_call_chain(self.handle.at(), number, chain) };
        said(told).map(|_| ())
    }
}

impl Explanation {
    /// The numbers of the rules that the call meets, up to the first that it breaks.
    ///
    /// ```
    #[doc = include_str!("../tests/given/hidden.md")]
    /// let mut call = world.call(given::MOMENT, given::INVITE)?;
    /// call.set_chain(0, &chain)?;
    /// let rules = stir::Rule::of_one_call().map(|rule| rule.number);
    /// assert!(call.explain(1, &[true])?.holds().eq(rules));
    /// # Ok::<(), stir::Error>(())
    /// ```
    pub fn holds(&self) -> impl Iterator<Item = u32> + '_ {
        let lines = self.lines.lines().filter_map(|line| line.strip_suffix(" ok"));
        lines.filter_map(|line| line.split(' ').nth(1)?.parse().ok())
    }
}

/// What was written, if there is such a thing.
fn bytes(came: Written) -> Option<Vec<u8>> {
    match came {
        Written::Said(_, bytes) => Some(bytes),
        Written::None => None,
    }
}

/// The claims of a line.
fn claims(line: &str) -> Option<Claims> {
    let (field, payload) = line.split_once(' ')?;
    let payload = (payload != "-").then(|| payload.to_owned());
    Some(Claims { field: field.parse().ok()?, payload })
}
