//! Rooms that the library writes into.

use crate::{Error, Question};
use stir_sys::stir_said;

/// What a call of the library that writes came to.
pub(crate) enum Written {
    /// It said this, and wrote these bytes.
    Said(stir_said, Vec<u8>),
    /// There is none of this number or name.
    None,
}

/// What is said by a call of the library that may refuse, or why nothing is.
pub(crate) fn said(said: stir_said) -> Result<stir_said, Error> {
    match said.kind {
        stir_sys::PASSES | stir_sys::REFUSED => Ok(said),
        kind => Err(Error::of(kind, said.input)),
    }
}

/// The bytes that a call of the library writes: with this much room, and once more with as much as
/// it wants if that was too little.
///
/// # Safety
///
/// `call` gets a pointer to as many bytes as it is told, which nobody else reads or writes, and
/// `size` of what it says is how many of them it wrote, unless its kind says that it wrote none.
pub(crate) unsafe fn written(
    first: usize,
    mut call: impl FnMut(*mut u8, usize) -> stir_said,
) -> Result<Written, Error> {
    let mut room = Vec::new();
    let mut size = first;
    for _ in 0..2 {
        room.try_reserve_exact(size).map_err(|_| Error::OutOfMemory)?;
        let told = call(room.as_mut_ptr(), size);
        match told.kind {
            stir_sys::PASSES | stir_sys::REFUSED => {
                // SAFETY: so many bytes were written, and no more than there was room for.
                unsafe { room.set_len(told.size.min(size as u64) as usize) };
                return Ok(Written::Said(told, room));
            }
            stir_sys::NONE => return Ok(Written::None),
            stir_sys::NO_ROOM => size = usize::try_from(told.size).unwrap_or(usize::MAX),
            kind => return Err(Error::of(kind, told.input)),
        }
    }
    Err(Error::Unexpected(stir_sys::NO_ROOM))
}

/// The same of questions, of which there are at most nine.
///
/// # Safety
///
/// That of [`written`].
pub(crate) unsafe fn questions(
    mut call: impl FnMut(*mut u8, usize) -> stir_said,
) -> Result<(stir_said, Vec<Question>), Error> {
    let most = stir_sys::MOST_QUESTIONS;
    let mut questions: Vec<Question> = Vec::new();
    questions.try_reserve_exact(most).map_err(|_| Error::OutOfMemory)?;
    let told = said(call(questions.as_mut_ptr().cast(), most * stir_sys::QUESTION))?;
    let count = (told.size / stir_sys::QUESTION as u64).min(most as u64);
    // SAFETY: a question is 161 bytes, and those of so many were written.
    unsafe { questions.set_len(count as usize) };
    Ok((told, questions))
}
