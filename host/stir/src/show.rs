//! What certificates say.

use crate::room::{written, Written};
use crate::Error;

/// How many bytes the lines of a chain mostly have.
const LINES: usize = 2048;

/// What the certificates of a chain say, at most six in DER one after another: the lines of the
/// command `show` (docs/FORMATS.md). Nothing is judged.
///
/// # Errors
///
/// [`Input::Certificate`](crate::Input) if the bytes are no chain, or want of memory.
///
/// ```
#[doc = include_str!("../tests/given/hidden.md")]
/// assert!(stir::show(given::CHAIN)?.starts_with("certificate 1\nnot-before "));
/// # Ok::<(), stir::Error>(())
/// ```
pub fn show(chain: &[u8]) -> Result<String, Error> {
    // SAFETY: all are lent for the call.
    let came = unsafe {
        written(LINES, |at, size| stir_sys::stir_show(chain.as_ptr(), chain.len(), at, size))
    }?;
    match came {
        Written::Said(_, lines) => Ok(String::from_utf8_lossy(&lines).into_owned()),
        Written::None => Err(Error::Unexpected(stir_sys::NONE)),
    }
}
