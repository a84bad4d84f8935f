//! Judges a call log by the library, as the command `verify` does, or explains it as `explain`
//! does:
//!
//! ```text
//! judge verify|explain --chains FILE --anchors FILE --table FILE --answers FILE < LOG
//! ```
//!
//! The words, the files and what is written are those of docs/COMMANDS.md and docs/FORMATS.md. Here
//! files are taken for whole, the calls with one ticket for those of one log, and a chain that
//! can't be read for one that is missing.

use std::collections::{HashMap, HashSet};
use std::error::Error;
use std::io::{stdin, stdout, BufWriter, Read, Write};
use stir::{Chain, Question, Settings, Verdict, World};

type Outcome<T> = Result<T, Box<dyn Error>>;

/// What calls are judged by.
struct Files {
    world: World,
    chains: HashMap<Vec<u8>, Chain>,
    confirmed: HashSet<Vec<u8>>,
}

fn main() -> Outcome<()> {
    let words: Vec<String> = std::env::args().skip(1).collect();
    let (command, words) = words.split_first().ok_or("a command is missing")?;
    let files = Files::read(&options(words)?)?;
    let (mut log, mut past) = (Vec::new(), HashMap::new());
    stdin().read_to_end(&mut log)?;
    let mut out = BufWriter::new(stdout().lock());
    let mut are_valid = true;
    for (number, entry) in (1..).zip(entries(&log)) {
        let (moment, message) = entry?;
        if command == "explain" {
            are_valid &= files.explain(&mut out, number, moment, message)?;
        } else {
            are_valid &= files.verify(&mut out, &mut past, number, moment, message)?;
        }
    }
    out.flush()?;
    drop(out);
    std::process::exit(i32::from(!are_valid))
}

/// The values of options: `--name value` or `--name=value`.
fn options(words: &[String]) -> Outcome<HashMap<&str, &str>> {
    let (mut options, mut words) = (HashMap::new(), words.iter());
    while let Some(word) = words.next() {
        let name = word.strip_prefix("--").ok_or("an option begins with --")?;
        let (name, value) = match name.split_once('=') {
            Some(pair) => pair,
            None => (name, words.next().ok_or("a value is missing")?.as_str()),
        };
        options.insert(name, value);
    }
    Ok(options)
}

/// The moments and messages of a call log.
fn entries(mut log: &[u8]) -> impl Iterator<Item = Outcome<(u64, &[u8])>> {
    std::iter::from_fn(move || {
        let end = log.iter().position(|byte| *byte == b'\n')?;
        let (head, rest) = (std::str::from_utf8(&log[..end]), &log[end + 1..]);
        let entry = || {
            let (moment, size) =
                head?.strip_prefix('@').and_then(|head| head.split_once(' ')).ok_or("no entry")?;
            let size = size.parse()?;
            Ok((moment.parse()?, rest.get(..size).ok_or("the log is cut")?))
        };
        let entry = entry();
        log = entry.as_ref().map_or(&[], |(_, message): &(u64, &[u8])| &rest[message.len()..]);
        Some(entry)
    })
}

/// The lines of a text that say something.
fn lines(text: &str) -> impl Iterator<Item = &str> {
    text.lines().filter(|line| !line.is_empty() && !line.starts_with(';'))
}

impl Files {
    fn read(options: &HashMap<&str, &str>) -> Outcome<Files> {
        let file = |name| Ok::<_, Box<dyn Error>>(std::fs::read(options.get(name).ok_or(name)?)?);
        let number = |name, usual| match options.get(name) {
            Some(value) => value.parse(),
            None => Ok(usual),
        };
        let settings = Settings {
            past: number("past", 60)?,
            future: number("future", 5)?,
            country: options.get("country").unwrap_or(&"1").to_string(),
            national: number("national", 10)? as u8,
        };
        let world = World::open(&settings, &file("anchors")?, &file("table")?)?;
        let answers = String::from_utf8(file("answers")?)?;
        let confirmed: HashSet<_> = lines(&answers)
            .filter_map(|line| line.strip_prefix("confirm "))
            .filter_map(bytes)
            .collect();
        let good = |question: &Question| confirmed.contains(question.bytes().as_slice());
        let mut chains = HashMap::new();
        for line in lines(&String::from_utf8(file("chains")?)?) {
            let (x5u, name) = line.split_once(' ').ok_or("no chain map")?;
            let Ok(der) = std::fs::read(name) else {
                continue;
            };
            let chain = world.chain(&der)?;
            let good: Vec<bool> = chain.questions()?.iter().map(good).collect();
            chains.insert(x5u.into(), chain.confirmed(&good)?);
        }
        Ok(Files { world, chains, confirmed })
    }

    /// A call with its chains.
    fn call(&self, moment: u64, message: &[u8]) -> Outcome<stir::Call> {
        let mut call = self.world.call(moment, message)?;
        for index in 0..call.passports() {
            if let Some(chain) = self.chains.get(&call.x5u(index)?) {
                call.set_chain(index, chain)?;
            }
        }
        Ok(call)
    }

    fn good(&self, question: &Question) -> bool {
        self.confirmed.contains(question.bytes().as_slice())
    }

    /// Writes the line of a call, and says whether it is valid.
    fn verify(
        &self,
        out: &mut impl Write,
        past: &mut HashMap<[u8; 32], u32>,
        number: u32,
        moment: u64,
        message: &[u8],
    ) -> Outcome<bool> {
        match self.call(moment, message)?.verify(|question| self.good(question))? {
            Verdict::Passes(passes) => match *past.entry(passes.ticket).or_insert(number) {
                winner if winner == number => {
                    writeln!(out, "{number} valid - - -")?;
                    return Ok(true);
                }
                winner => writeln!(out, "{number} replay 438 18 {winner}")?,
            },
            Verdict::Refused(refused) => {
                let stir::Refused { code, rule, field, part } = refused;
                writeln!(out, "{number} refused {code} {rule} {field}.{part}")?;
            }
        }
        Ok(false)
    }

    /// Writes the lines of a call, and says whether it breaks no rule.
    fn explain(
        &self,
        out: &mut impl Write,
        number: u32,
        moment: u64,
        message: &[u8],
    ) -> Outcome<bool> {
        let mut call = self.call(moment, message)?;
        let asked = call.questions()?.questions;
        let good: Vec<bool> = asked.iter().map(|question| self.good(question)).collect();
        let explained = call.explain(number, &good)?;
        out.write_all(explained.lines.as_bytes())?;
        Ok(matches!(explained.verdict, Verdict::Passes(_)))
    }
}

/// The bytes of hex digits, with blanks between them.
fn bytes(digits: &str) -> Option<Vec<u8>> {
    let digits: Vec<char> = digits.chars().filter(|digit| *digit != ' ').collect();
    let byte = |pair: &[char]| u8::from_str_radix(&pair.iter().collect::<String>(), 16).ok();
    digits.chunks(2).map(byte).collect()
}
