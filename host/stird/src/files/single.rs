//! A file that stands alone, as the chain map, the trust anchors and the code table.
use super::bytes;
use super::fault::FileFault;
use super::look::Look;
use std::path::{Path, PathBuf};
use std::sync::Arc;

/// The most bytes of one.
pub(super) const MOST_BYTES: usize = 16_777_216;

/// Such a file as it was read last; without a name it has no bytes.
#[derive(Clone)]
pub(super) struct Single {
    /// Its name.
    path: Option<PathBuf>,
    /// How it looked.
    look: Look,
    /// Whether it has to be read again, however it looks.
    again: bool,
    /// Its bytes, or those from before if it isn't taken.
    pub bytes: Arc<[u8]>,
    /// Why it isn't taken.
    pub fault: Option<FileFault>,
}

impl Single {
    /// Reads it if it isn't what it was before; what can't be read stays what it was.
    ///
    /// # Errors
    ///
    /// It can't be read, and was nothing before.
    pub(super) fn read(path: Option<&Path>, before: Option<&Single>) -> Result<Single, FileFault> {
        if let Some(before) = before.filter(|before| !before.is_stale()) {
            return Ok(before.clone());
        }
        let Some(path) = path else {
            let (look, bytes) = (Look::Missing, [].into());
            return Ok(Single { path: None, look, again: false, bytes, fault: None });
        };
        let came = bytes::read(path, MOST_BYTES);
        // What can't be read is tried again each time, and what is too long once it was changed.
        let again = came.again || came.bytes.is_err();
        let bytes = came.bytes.and_then(|bytes| bytes::is_within(bytes, MOST_BYTES));
        let (bytes, fault) = match (bytes, before) {
            (Ok(bytes), before) => {
                let same = before.filter(|before| *before.bytes == *bytes);
                (same.map_or_else(|| bytes.into(), |before| Arc::clone(&before.bytes)), None)
            }
            (Err(why), Some(before)) => (Arc::clone(&before.bytes), Some(FileFault::of(path, why))),
            (Err(why), None) => return Err(FileFault::of(path, why)),
        };
        Ok(Single { path: Some(path.into()), look: came.look, again, bytes, fault })
    }

    /// The same with the bytes from before, if there are some: these ones aren't taken.
    ///
    /// # Errors
    ///
    /// It was nothing before.
    pub(super) fn refused(
        self,
        fault: FileFault,
        before: Option<&Single>,
    ) -> Result<Single, FileFault> {
        match before.filter(|before| !Arc::ptr_eq(&before.bytes, &self.bytes)) {
            Some(before) => {
                Ok(Single { bytes: Arc::clone(&before.bytes), fault: Some(fault), ..self })
            }
            None => Err(fault),
        }
    }

    /// Whether it isn't what it was when it was read.
    pub(super) fn is_stale(&self) -> bool {
        self.path.as_ref().is_some_and(|path| self.again || Look::at(path) != self.look)
    }

    /// How it looked.
    pub(super) fn look(&self) -> &Look {
        &self.look
    }
}
