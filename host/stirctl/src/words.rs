//! The words of the program.

pub mod certificates;
mod fetch;
pub mod request;
pub mod signing;
pub mod trust;

pub use fetch::{Fetch, FetchFrom, YesNo};

use clap::{Args, Parser, Subcommand, ValueEnum};
use stir::Settings;
use trust::RevokedBy;

/// Judges telephone calls by STIR/SHAKEN, and tells of them: logs and captures of INVITEs, over the
/// proved library of stir, with signatures by OpenSSL.
///
/// The status is 0 if each call is valid, 1 if some call isn't; 2 for bad words; 3 if an input
/// can't be read, 4 if an output can't be written, 5 if an input is missing or outside its form,
/// and 6 if memory ran out. docs/OPERATING.md tells how a day is judged.
#[derive(Debug, Parser)]
#[command(name = "stirctl", version, max_term_width = 100)]
pub struct Words {
    #[command(subcommand)]
    pub command: Command,
}

#[derive(Debug, Subcommand)]
pub enum Command {
    Judge(Box<Judge>),
    Day(Box<Day>),
    Explain(Explain),
    Collect(Collect),
    Settle(Settle),
    Report(Report),
    Confirm(Confirm),
    Fetch(Fetch),
    Log(Log),
    Crl(trust::Crl),
    Roots(trust::Roots),
    Chain(certificates::Chain),
    Show(certificates::Show),
    Sign(Box<certificates::Sign>),
    Divert(signing::Divert),
    Retarget(Box<signing::Retarget>),
    Request(request::Request),
    Completion(Completion),
}

/// Writes a completion of these words for a shell.
#[derive(Debug, Args)]
pub struct Completion {
    /// The shell
    #[arg(value_name = "SHELL", default_value = "bash")]
    pub shell: clap_complete::Shell,
}

/// Judges the calls of logs and captures, and writes what came of them.
#[derive(Debug, Args)]
pub struct Judge {
    #[command(flatten)]
    pub by: By,
    #[command(flatten)]
    pub to: To,
    #[command(flatten)]
    pub pool: Pool,
    /// The state of an earlier run, from which the calls go on: its whole report, or an empty file
    /// for the first run. The new state stands at the end of the report
    #[arg(long, value_name = "FILE")]
    pub state: Option<String>,
    /// Has this program, the proved `stir`, judge the same log by the answers that were made. If
    /// its report has other bytes, the status is 7 and nothing is written under the names of files
    #[arg(long, value_name = "PROGRAM")]
    pub checked_by: Option<String>,
    /// The chain map by which the calls were judged: that of --chains, and the files of what was
    /// fetched
    #[arg(long, value_name = "FILE", requires = "fetch")]
    pub chains_out: Option<String>,
    /// The code table by which the calls were judged: that of --table, and the codes that were
    /// trusted
    #[arg(long, value_name = "FILE")]
    pub table_out: Option<String>,
    /// Reads lines of JSON, each with the moment and the message of a call, and answers each with a
    /// line on the standard output as soon as it is judged; docs/FORMATS.md, "Stream", has them.
    /// Replays are told by `settle`. The status says nothing of the calls
    #[arg(long, conflicts_with_all = NOT_OF_A_STREAM)]
    pub stream: bool,
    /// Leaves out INVITEs of captures that stand inside a dialog: their To has a tag (RFC 3261,
    /// section 14)
    #[arg(long)]
    pub initial: bool,
    /// Leaves P-Asserted-Identity fields of captures with several values as they are. Else each
    /// value gets a field, which means the same, since one value of a field is judged
    #[arg(long)]
    pub as_is: bool,
    /// Call logs, or captures (pcap or pcapng, of SIP over UDP), in the order of their calls; each
    /// may be packed by gzip. `-` is the standard input
    #[arg(required = true, value_name = "INPUT")]
    pub inputs: Vec<String>,
}

/// What goes with whole logs alone.
const NOT_OF_A_STREAM: [&str; 12] = [
    "report",
    "json",
    "csv",
    "words",
    "summary",
    "svg",
    "state",
    "checked_by",
    "chains_out",
    "table_out",
    "initial",
    "as_is",
];

/// Writes the calls that agents of capture send by HEP3, as Kamailio's siptrace and those of HOMER
/// do, as they come and without retransmissions: lines for `judge --stream`, or a call log.
///
/// It ends by SIGTERM or SIGINT, after what had come by then is written.
#[derive(Debug, Args)]
pub struct Collect {
    /// Where to listen, over UDP and TCP: HOST:PORT; may be given several times
    #[arg(long, required = true, value_name = "ADDRESS")]
    pub hep: Vec<String>,
    /// Takes packets alone that have the word in this file
    #[arg(long, value_name = "FILE")]
    pub password: Option<String>,
    /// Writes a call log. A call that comes after a later one gets the moment of that
    #[arg(long)]
    pub log: bool,
    /// Leaves out INVITEs that stand inside a dialog: their To has a tag (RFC 3261, section 14)
    #[arg(long)]
    pub initial: bool,
    /// Leaves P-Asserted-Identity fields with several values as they are
    #[arg(long)]
    pub as_is: bool,
}

/// Reads what `judge --stream` writes, in the order of the calls, and tells of each call that
/// passes whether it is valid, or a replay of one before it.
///
/// A ticket is remembered until its PASSporT is no longer fresh. So if a stream is cut into parts
/// by the tickets, each part may be settled by itself.
#[derive(Debug, Args)]
pub struct Settle {
    /// The member of a line by which a replay names the call that is valid
    #[arg(long, value_name = "MEMBER", default_value = "id")]
    pub id: String,
    /// How many seconds a call may come after a later one; tickets are remembered so much longer
    #[arg(long, value_name = "SECONDS", default_value = "0", value_parser = seconds)]
    pub late: u64,
    /// A call that is valid may come again, as from a stream that hands on lines at least once. It
    /// is known by that member, which no caller may choose, and is valid each time
    #[arg(long)]
    pub again: bool,
    /// Files of lines; the standard input if none is named
    #[arg(value_name = "FILE", default_value = "-")]
    pub files: Vec<String>,
}

/// Judges the logs of a folder one after another, each with the state of the one before, so that
/// together they are judged as one.
///
/// The files whose names end with .log are taken in the order of their names, which has to be the
/// order of their calls. Of NAME.log the report, with the state for the next, becomes NAME.report.
/// A report that stands there is whole: started again, the command goes on after the last one.
#[derive(Debug, Args)]
pub struct Day {
    /// Where the reports are written; it is made if it isn't there
    #[arg(long, value_name = "FOLDER")]
    pub to: String,
    /// In the names of these files {} stands for NAME
    #[command(flatten)]
    pub by: By,
    #[command(flatten)]
    pub pool: Pool,
    /// Has this program, the proved `stir`, judge each log by the answers that were made, as
    /// `judge` does
    #[arg(long, value_name = "PROGRAM")]
    pub checked_by: Option<String>,
    /// The folder with the logs
    #[arg(value_name = "LOGS")]
    pub logs: String,
}

/// Writes which rules each call meets, up to the first that it breaks, as `stir explain` does.
/// Replays aren't looked at.
#[derive(Debug, Args)]
pub struct Explain {
    #[command(flatten)]
    pub by: By,
    /// Explains the call of this number alone
    #[arg(long, value_name = "NUMBER", value_parser = call)]
    pub call: Option<u32>,
    /// A call log; `-` is the standard input
    #[arg(value_name = "INPUT")]
    pub input: String,
}

/// Joins a log and the report that `stir verify` or `stirctl judge` wrote of it: who called whom,
/// who signed, and what the verdicts mean.
#[derive(Debug, Args)]
pub struct Report {
    #[command(flatten)]
    pub to: To,
    /// The chain map, or a folder with the map chains.txt; without it no codes of signers are told
    #[arg(long, value_name = "FILE")]
    pub chains: Option<String>,
    #[command(flatten)]
    pub rules: Rules,
    #[command(flatten)]
    pub pool: Pool,
    /// Makes the report again from what --json wrote; LOG is that
    #[arg(long, conflicts_with = "report_file")]
    pub back: bool,
    /// The log
    #[arg(value_name = "LOG")]
    pub log: String,
    /// Its report; the standard input if it isn't given. It may have a state at its end
    #[arg(value_name = "REPORT", id = "report_file", default_value = "-")]
    pub of: String,
}

/// Writes the call log of captures: their INVITEs, each with the second at which it came, in the
/// order of time and without retransmissions.
#[derive(Debug, Args)]
pub struct Log {
    /// Leaves out INVITEs that stand inside a dialog: their To has a tag (RFC 3261, section 14)
    #[arg(long)]
    pub initial: bool,
    /// Leaves P-Asserted-Identity fields with several values as they are
    #[arg(long)]
    pub as_is: bool,
    /// Captures (pcap or pcapng, of SIP over UDP), as they are or packed by gzip; `-` is the
    /// standard input
    #[arg(required = true, value_name = "CAPTURE")]
    pub captures: Vec<String>,
}

/// Reads questions about signatures, as `stir ask` writes them, and writes those whose signature is
/// good (ES256): the answers file of `stir verify`. If a line is no question, nothing is written.
#[derive(Debug, Args)]
pub struct Confirm {
    #[command(flatten)]
    pub pool: Pool,
    #[command(flatten)]
    pub revoked: RevokedBy,
    /// The chain map, or a folder with the map chains.txt: which certificates a question may be
    /// about. With --crl no question about one that is revoked, at whatever second, is confirmed
    #[arg(long, value_name = "FILE", requires = "crl", required = false)]
    pub chains: Option<String>,
    /// Files of questions; the standard input if none is named
    #[arg(value_name = "FILE", default_value = "-")]
    pub files: Vec<String>,
}

/// What calls are judged by.
#[derive(Clone, Debug, Args)]
pub struct By {
    /// The trust anchors, in PEM. What the library doesn't take for an anchor is named and left out
    #[arg(long, value_name = "FILE", required_unless_present = "anchors")]
    pub roots: Option<String>,
    /// The trust anchors, one after another in DER
    #[arg(long, value_name = "FILE", conflicts_with = "roots")]
    pub anchors: Option<String>,
    /// The chain map, which says what file has the certificates of what x5u; or a folder with the
    /// map chains.txt
    #[arg(long, value_name = "FILE", required_unless_present = "fetch_hosts")]
    pub chains: Option<String>,
    #[command(flatten)]
    pub from: FetchFrom,
    /// The code table: which numbers a service provider code covers
    #[arg(long, value_name = "FILE")]
    pub table: Option<String>,
    /// Which codes stand for numbers: those of the table; or also, for every number, each other
    /// code of a chain that breaks no rule on chains, which is so without a table. Then the inputs
    /// are read twice
    #[arg(long, value_name = "listed|trusted")]
    pub codes: Option<Codes>,
    /// An answers file that says which signatures are good, in the place of OpenSSL
    #[arg(long, value_name = "FILE")]
    pub answers: Option<String>,
    #[command(flatten)]
    pub revoked: RevokedBy,
    #[command(flatten)]
    pub rules: Rules,
}

/// Which codes stand for numbers.
#[derive(Clone, Copy, Debug, PartialEq, Eq, ValueEnum)]
pub enum Codes {
    Listed,
    Trusted,
}

/// How numbers and times are looked at.
#[derive(Clone, Debug, Args)]
pub struct Rules {
    /// How many seconds old a PASSporT may be, at most 86400
    #[arg(long, value_name = "SECONDS", default_value = "60", value_parser = seconds)]
    pub past: u64,
    /// How many seconds a PASSporT may be ahead of its call, at most 86400
    #[arg(long, value_name = "SECONDS", default_value = "5", value_parser = seconds)]
    pub future: u64,
    /// The country of numbers without +, 1 to 3 digits
    #[arg(long, value_name = "DIGITS", default_value = "1", value_parser = country)]
    pub country: String,
    /// How many digits a national number has, 1 to 14
    #[arg(long, value_name = "COUNT", default_value = "10", value_parser = national)]
    pub national: u8,
}

/// What is written, each to a file or to `-`, the standard output; a file gets its name once it is
/// whole. If none is named, the report goes to the standard output.
#[derive(Debug, Default, Args)]
pub struct To {
    /// The report of `stir verify`
    #[arg(long, value_name = "FILE")]
    pub report: Option<String>,
    /// A JSON object a line, for each call
    #[arg(long, value_name = "FILE")]
    pub json: Option<String>,
    /// The same as CSV
    #[arg(long, value_name = "FILE")]
    pub csv: Option<String>,
    /// The same in words
    #[arg(long, value_name = "FILE")]
    pub words: Option<String>,
    /// Counts of the calls by rule, signer and hour
    #[arg(long, value_name = "FILE")]
    pub summary: Option<String>,
    /// A picture of the counts, in SVG
    #[arg(long, value_name = "FILE")]
    pub svg: Option<String>,
}

/// How many threads work.
#[derive(Clone, Debug, Args)]
pub struct Pool {
    /// How many threads judge; as many as there are processors if it isn't given
    #[arg(long, value_name = "COUNT", value_parser = jobs)]
    pub jobs: Option<usize>,
}

impl By {
    /// Whether codes that the table doesn't name stand for numbers.
    pub fn trusts(&self) -> bool {
        self.codes.map_or(self.table.is_none(), |codes| codes == Codes::Trusted)
    }
}

impl Rules {
    /// The same as the library takes them.
    pub fn settings(&self) -> Settings {
        let Rules { past, future, country, national } = self;
        Settings { past: *past, future: *future, country: country.clone(), national: *national }
    }
}

pub(crate) fn number(text: &str, least: u64, most: u64) -> Result<u64, String> {
    let number = crate::files::number(text.as_bytes(), most).filter(|number| *number >= least);
    number.ok_or_else(|| format!("a number from {least} to {most} is wanted"))
}

fn seconds(text: &str) -> Result<u64, String> {
    number(text, 0, 86_400)
}

pub(crate) fn national(text: &str) -> Result<u8, String> {
    number(text, 1, 14).map(|number| number as u8)
}

fn call(text: &str) -> Result<u32, String> {
    number(text, 1, u32::MAX.into()).map(|number| number as u32)
}

fn jobs(text: &str) -> Result<usize, String> {
    number(text, 1, 256).map(|number| number as usize)
}

pub(crate) fn country(text: &str) -> Result<String, String> {
    let is_one = (1..=3).contains(&text.len()) && text.bytes().all(|digit| digit.is_ascii_digit());
    if is_one {
        Ok(text.into())
    } else {
        Err("1 to 3 digits are wanted".into())
    }
}
