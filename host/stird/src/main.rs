//! The program `stird`: its words, and the memory of its threads.
#![forbid(unsafe_code)]
#![deny(clippy::print_stderr, clippy::print_stdout)]

use anyhow::Result;
use std::env;
use std::io::Write;
use std::os::unix::process::CommandExt;
use std::process::{Command, ExitCode};
use stird::logs::Log;
use stird::server::Handed;
use stird::settings::{self, Settings, SettingsError};

/// The settings of the C library, and how many freed blocks of each size a thread keeps for itself
/// (mallopt(3), "Environment variables"). A call gives back more than the seven that are usual, and
/// each further one takes a lock.
const TUNABLES: &str = "GLIBC_TUNABLES";
const KEPT_BLOCKS: &str = "glibc.malloc.tcache_count=64";

/// Is set for a program that was started anew, so that it isn't again if the first one is gone.
const STARTED_ANEW: &str = "STIRD_STARTED_ANEW";

/// How many threads do what isn't an answer: they take connections, and look at files and stores.
const OTHERS: usize = 2;

fn main() -> ExitCode {
    keep_blocks();
    let settings = match settings::read(env::args_os().skip(1)) {
        Ok(settings) => settings,
        // Help and the version aren't faults.
        Err(SettingsError::Words(told)) if !told.use_stderr() => {
            let _ = told.print();
            return ExitCode::SUCCESS;
        }
        Err(SettingsError::Completion(script)) => {
            let _ = std::io::stdout().write_all(script.as_bytes());
            return ExitCode::SUCCESS;
        }
        Err(fault) => {
            say(&fault);
            return ExitCode::from(2);
        }
    };
    match start(settings) {
        Ok(()) => ExitCode::SUCCESS,
        Err(fault) => {
            say(&format_args!("{fault:#}"));
            ExitCode::FAILURE
        }
    }
}

/// Says why it doesn't start. What can't be written is lost.
fn say(fault: &dyn std::fmt::Display) {
    let _ = writeln!(std::io::stderr(), "stird: {fault}");
}

/// Starts the program anew with these settings, which the C library reads before `main`, unless
/// there are some. If that fails it goes on without.
fn keep_blocks() {
    if env::var_os(TUNABLES).is_some() || env::var_os(STARTED_ANEW).is_some() {
        return;
    }
    let mut words = env::args_os();
    if let (Some(name), Ok(program)) = (words.next(), env::current_exe()) {
        let mut anew = Command::new(program);
        anew.arg0(name).args(words).env(TUNABLES, KEPT_BLOCKS).env(STARTED_ANEW, "1");
        let _ = anew.exec();
    }
}

fn start(settings: Settings) -> Result<()> {
    // There is one thread as yet.
    let handed = Handed::take();
    let log = Log::start(settings.log, settings.log_file.as_deref())?;
    let runtime =
        tokio::runtime::Builder::new_multi_thread().worker_threads(OTHERS).enable_all().build()?;
    let done = runtime.block_on(stird::start::run(settings, log.clone(), handed));
    // What hangs aside, as a file of a network that is gone, doesn't keep it from its end.
    runtime.shutdown_background();
    log.end();
    done
}
