//! Files that are taken together or not at all, as they were read.
use super::bytes::{self, wait_for_rest};
use super::fault::Why;
use super::look::Look;
use std::path::{Path, PathBuf};

/// Files as they looked when they were read, and whether they have to be read again however they
/// look.
#[derive(Clone, Default)]
pub(super) struct Files(Vec<(PathBuf, Look, bool)>);

/// A file that was read: its bytes, and who may read it.
pub(super) struct File {
    pub bytes: Vec<u8>,
    pub mode: u32,
}

impl Files {
    /// Reads one of them, of at most so many bytes.
    pub(super) fn read(&mut self, path: &Path, most: usize) -> Result<File, Why> {
        let came = bytes::read(path, most);
        let again = came.again || matches!(came.bytes, Err(Why::Missing | Why::NoFile(_)));
        self.0.push((path.into(), came.look, again));
        let bytes = came.bytes.and_then(|bytes| bytes::is_within(bytes, most))?;
        let mode = if let Look::There(stamp) = came.look { stamp.mode } else { 0 };
        Ok(File { bytes, mode })
    }

    /// They have to be read again, however they look.
    pub(super) fn read_again(&mut self) {
        for (_, _, again) in &mut self.0 {
            *again = true;
        }
    }

    /// Whether one isn't what it was when it was read, or couldn't be read.
    pub(super) fn are_stale(&self) -> bool {
        self.0.iter().any(|(path, look, again)| *again || Look::at(path) != *look)
    }

    /// Waits until those that are written in their places rest.
    pub(super) fn wait_for_rest(&self) {
        let files: Vec<(&Path, &Look)> =
            self.0.iter().map(|(path, look, _)| (path.as_path(), look)).collect();
        wait_for_rest(&files);
    }
}
