//! The program `stirctl`; what it does stands in its library.

use clap::Parser;
use std::process::ExitCode;

fn main() -> ExitCode {
    ExitCode::from(stirctl::main(stirctl::words::Words::parse()))
}
