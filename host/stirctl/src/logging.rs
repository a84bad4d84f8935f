//! The command `log`.

use crate::capture::How;
use crate::input::each_log;
use crate::sink::{Sink, STDOUT};
use crate::words::Log;
use crate::{Ended, Fault};
use std::io::{copy, ErrorKind};

/// Writes the call log of captures. Nothing is written if one of them can't be read.
pub(crate) fn log(words: &Log) -> Ended {
    let mut out = Sink::open(STDOUT)?;
    let how = How { initial: words.initial, as_is: words.as_is, is_quiet: false };
    each_log(&words.captures, how, |name, mut source| {
        copy(&mut source, &mut out).map(drop).map_err(|error| match error.kind() {
            ErrorKind::BrokenPipe | ErrorKind::StorageFull => Fault::write(STDOUT, &error),
            _ => Fault::Read(name),
        })
    })?;
    out.commit()?;
    Ok(0)
}
