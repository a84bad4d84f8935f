//! `stirctl`: the operator's program of `stir`. It judges the calls of logs and captures by the
//! proved library (the crate `stir`), with ES256 by OpenSSL, and tells what came of them.
//! docs/COMMANDS.md has its commands.
#![forbid(unsafe_code)]

mod answers;
mod asking;
mod capture;
mod certificates;
mod chaining;
mod chains;
mod checking;
mod code_table;
mod collecting;
mod collector;
mod completing;
mod confirming;
mod crl;
mod days;
mod diverting;
mod explaining;
mod fault;
mod fetched;
mod fetching;
mod files;
mod hep;
mod input;
mod judge;
mod judging;
mod log;
mod logging;
mod messages;
mod outputs;
mod picture;
mod provider;
mod reporting;
mod requesting;
mod revocation;
mod rooting;
mod run;
mod settling;
mod showing;
mod signing;
mod sink;
mod state;
mod stream_input;
mod stream_line;
mod streaming;
mod summary;
mod telling;
mod tickets;
mod trusting;
mod verdict;
pub mod words;
mod world;

pub use fault::Fault;
use std::io::Write;

/// The status of a command, or why it ended early.
type Ended = Result<u8, Fault>;

/// Does what the words say, and gives the status. A fault is said on standard error, if it doesn't
/// stand in the report.
pub fn main(words: words::Words) -> u8 {
    let ended = match words.command {
        words::Command::Judge(words) => judging::judge(&words),
        words::Command::Explain(words) => explaining::explain(&words),
        words::Command::Report(words) => reporting::report(&words),
        words::Command::Confirm(words) => confirming::confirm(&words),
        words::Command::Day(words) => days::day(&words),
        words::Command::Fetch(words) => fetching::fetch(&words),
        words::Command::Log(words) => logging::log(&words),
        words::Command::Chain(words) => chaining::chain(&words),
        words::Command::Show(words) => showing::show(&words),
        words::Command::Sign(words) => signing::sign(&words),
        words::Command::Divert(words) => diverting::divert(&words),
        words::Command::Retarget(words) => diverting::retarget(&words),
        words::Command::Request(words) => requesting::request(&words),
        words::Command::Completion(words) => completing::completion(&words),
        words::Command::Crl(words) => crl::crl(&words),
        words::Command::Roots(words) => rooting::roots(&words),
        words::Command::Collect(words) => collecting::collect(&words),
        words::Command::Settle(words) => settling::settle(&words),
    };
    ended.unwrap_or_else(|fault| {
        say(&fault.to_string());
        fault.status()
    })
}

/// Says something to whoever started the program.
pub(crate) fn say(text: &str) {
    let text: String = text.chars().map(|it| if it.is_control() { '?' } else { it }).collect();
    // If nobody hears it, nobody can be told so.
    let _ = writeln!(std::io::stderr(), "stirctl: {text}");
}
