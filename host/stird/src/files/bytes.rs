//! The bytes of a file, which is looked at before and after it is read.
use super::fault::Why;
use super::look::{Kind, Look, Stamp};
use super::place::place;
use std::fs::{File, OpenOptions};
use std::io::{ErrorKind, Read};
use std::os::unix::fs::OpenOptionsExt;
use std::path::Path;
use std::time::Duration;

/// How often a file is read that is changed meanwhile, and how long is waited before the next time.
const TRIES: u32 = 5;
const PAUSE: Duration = Duration::from_millis(2);

/// What came of reading a file.
#[derive(Debug)]
pub struct Reading {
    /// How it looked.
    pub look: Look,
    /// Whether it has to be read again next time, however it looks then.
    pub again: bool,
    /// Its bytes.
    pub bytes: Result<Vec<u8>, Why>,
}

/// Reads a file, of which no more is taken than these bytes and one: that one tells that there are
/// more. Nothing but a file of bytes is opened, so no FIFO is waited for. What was changed while it
/// was read is read again.
pub fn read(path: &Path, most: usize) -> Reading {
    read_while(path, most, || ())
}

/// The bytes that were read, if they are no more than these.
pub(super) fn is_within(bytes: Vec<u8>, most: usize) -> Result<Vec<u8>, Why> {
    if bytes.len() > most {
        return Err(Why::Long(most));
    }
    Ok(bytes)
}

/// The same, while something is done each time that the bytes were read.
fn read_while(path: &Path, most: usize, mut meanwhile: impl FnMut()) -> Reading {
    for attempt in 0..TRIES {
        std::thread::sleep(PAUSE * attempt);
        match read_once(path, most, &mut meanwhile) {
            Ok((bytes, before, after))
                if before == after && Look::at(path) == Look::There(after) =>
            {
                let again = after.is_young();
                return Reading { look: Look::There(after), again, bytes: Ok(bytes) };
            }
            Ok(_) => {}
            Err(why) => {
                // What isn't a file won't be one unless it looks otherwise; all else may pass.
                let again = !matches!(why, Why::Missing | Why::NoFile(_));
                return Reading { look: Look::at(path), again, bytes: Err(why) };
            }
        }
    }
    Reading { look: Look::at(path), again: true, bytes: Err(Why::Changing) }
}

/// Its bytes, and how it looked before they were read and after.
fn read_once(
    path: &Path,
    most: usize,
    meanwhile: impl FnOnce(),
) -> Result<(Vec<u8>, Stamp, Stamp), Why> {
    let is_file = |stamp: Stamp| match stamp.kind {
        Kind::File => Ok(stamp),
        kind => Err(Why::NoFile(kind)),
    };
    // A device may do something if it is opened, so it isn't.
    let path = &place(path);
    is_file(stamp_of(std::fs::metadata(path))?)?;
    let file = OpenOptions::new()
        .read(true)
        .custom_flags(libc::O_NONBLOCK | libc::O_NOCTTY)
        .open(path)
        .map_err(Why::of)?;
    let before = is_file(stamp_of(file.metadata())?)?;
    let mut bytes = Vec::new();
    let size = usize::try_from(before.size).unwrap_or(usize::MAX).min(most);
    bytes.try_reserve(size.saturating_add(1)).map_err(|_| Why::NoMemory)?;
    take(&file, most).read_to_end(&mut bytes).map_err(Why::of)?;
    meanwhile();
    let after = stamp_of(file.metadata())?;
    Ok((bytes, before, after))
}

fn take(file: &File, most: usize) -> impl Read + '_ {
    file.take(u64::try_from(most).unwrap_or(u64::MAX).saturating_add(1))
}

fn stamp_of(data: std::io::Result<std::fs::Metadata>) -> Result<Stamp, Why> {
    data.map(|data| Stamp::of(&data)).map_err(Why::of)
}

impl Why {
    /// Why a file can't be read.
    fn of(error: std::io::Error) -> Why {
        match error.kind() {
            ErrorKind::NotFound => Why::Missing,
            ErrorKind::OutOfMemory => Why::NoMemory,
            _ => Why::Unreadable(error.raw_os_error().unwrap_or(0)),
        }
    }
}

/// How long a file that is written in its place has to rest before it is read, and how often that
/// is waited for.
const REST: Duration = Duration::from_millis(300);
const MOST_RESTS: u32 = 5;

/// Waits until files that are written in their places, beside how they looked when they were read,
/// rest; not for ever. What was put in place by a rename is whole, and isn't waited for.
pub fn wait_for_rest(files: &[(&Path, &Look)]) {
    let left = |(path, before): &(&Path, &Look)| {
        let now = Look::at(path);
        let age = if now.is_rewritten(before) { now.age()? } else { return None };
        REST.checked_sub(age)
    };
    for _ in 0..MOST_RESTS {
        match files.iter().filter_map(left).max() {
            Some(left) => std::thread::sleep(left + PAUSE),
            None => return,
        }
    }
}

#[cfg(test)]
mod tests {
    use super::*;

    /// A file in the folder for such, by the name of its test.
    fn file(test: &str, bytes: &[u8]) -> std::path::PathBuf {
        let path = std::env::temp_dir().join(format!("stird-{test}-{}", std::process::id()));
        std::fs::write(&path, bytes).expect("a file");
        path
    }

    #[test]
    fn no_more_is_taken_than_the_most_and_one() {
        let path = file("most", &[7; 100]);
        for (most, taken) in [(99, 100), (100, 100), (98, 99), (0, 1), (usize::MAX, 100)] {
            let came = read(&path, most).bytes.expect("it is read");
            assert_eq!(came, vec![7; taken], "{most}");
        }
        std::fs::remove_file(&path).expect("removed");
        assert_eq!(read(&path, 100).bytes, Err(Why::Missing));
    }

    #[test]
    fn a_file_that_was_changed_a_moment_ago_is_read_again_and_one_that_rests_isnt() {
        let path = file("young", b"a");
        // On a busy machine a moment may be over before it is read.
        let is_read_again = |_| {
            std::fs::write(&path, b"b").expect("written");
            read(&path, 100).again
        };
        assert!((0..100).any(is_read_again));
        std::thread::sleep(Duration::from_millis(100));
        assert!(!read(&path, 100).again);
        std::fs::remove_file(&path).expect("removed");
    }

    #[test]
    fn what_is_changed_while_it_is_read_is_read_again() {
        let (path, other) = (file("changed", b"first"), file("other", b"other"));
        let mut times = 0;
        let came = read_while(&path, 100, || {
            times += 1;
            if times <= 2 {
                std::fs::write(&path, format!("written {times}")).expect("written");
            }
        });
        assert_eq!((came.bytes, times), (Ok(b"written 2".to_vec()), 3));
        // Another file was put in its place.
        let came = read_while(&path, 100, || {
            let _ = std::fs::rename(&other, &path);
        });
        assert_eq!((came.bytes, came.look), (Ok(b"other".to_vec()), Look::at(&path)));
        // A link leads to another one.
        let (other, link) = (file("linked", b"linked"), path.with_extension("link"));
        let lead = |to: &Path| {
            let new = path.with_extension("new");
            std::os::unix::fs::symlink(to, &new).expect("a link");
            std::fs::rename(&new, &link).expect("renamed");
        };
        lead(&path);
        let came = read_while(&link, 100, || lead(&other));
        assert_eq!((came.bytes, came.look), (Ok(b"linked".to_vec()), Look::at(&other)));
        for path in [&other, &link] {
            std::fs::remove_file(path).expect("removed");
        }
        // It never rests.
        let mut times = 0;
        let came = read_while(&path, 100, || {
            times += 1;
            std::fs::write(&path, "x".repeat(times)).expect("written");
        });
        assert_eq!((came.bytes, came.again, times), (Err(Why::Changing), true, 5));
        std::fs::remove_file(&path).expect("removed");
    }
}
