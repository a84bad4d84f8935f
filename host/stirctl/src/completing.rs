//! The command `completion`.

use crate::sink::{Sink, STDOUT};
use crate::words::{Completion, Words};
use crate::Ended;
use clap::CommandFactory;
use clap_complete::generate;

/// Writes the completion for a shell, by the table of words.
pub(crate) fn completion(words: &Completion) -> Ended {
    let mut script = Vec::new();
    generate(words.shell, &mut Words::command(), "stirctl", &mut script);
    let mut out = Sink::open(STDOUT)?;
    out.put(|out| out.write_all(&script))?;
    out.commit()?;
    Ok(0)
}
