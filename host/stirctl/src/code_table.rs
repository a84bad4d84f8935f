//! A code table of one's own lines, and `CODE *` for each other code in chains of others. What is a
//! line of a table, and which codes a certificate has, the proved library says.

use crate::certificates::leaf_first;
use crate::chaining::chain_lines;
use crate::files::{self, lines, says_nothing};
use crate::sink::{Sink, STDOUT};
use crate::words::certificates::Chain;
use crate::{say, world, Fault};
use std::collections::{BTreeMap, HashSet};
use stir::{Error, Input, Part, Settings, World};

/// The most codes of a table (docs/FORMATS.md, "Code table").
const MOST_CODES: usize = 20_000;

/// Writes a code table, and says whether a code can't stand in one.
pub(crate) fn table(own: &str, words: &Chain) -> Result<bool, Fault> {
    let text = own_table(own)?;
    let own: Vec<&str> = text.lines().collect();
    // The first word of a line is its code.
    let known = own.iter().map(|line| line.split(' ').next().unwrap_or(line));
    let known: HashSet<&str> = known.chain(words.without.iter().map(String::as_str)).collect();
    let (mut others, mut is_strange) = (Vec::new(), false);
    for (code, file) in codes(&words.files)? {
        if known.contains(code.as_str()) {
            continue;
        }
        match can_stand(&code)? {
            true => others.push(format!("{code} *\n")),
            false => {
                say(&format!("{file}: the code {code:?} can stand in no table"));
                is_strange = true;
            }
        }
    }
    let count = known.len() + others.len();
    if count > MOST_CODES {
        let why = format!("{count} codes, and a table has at most {MOST_CODES}");
        return Err(Fault::Words(why));
    }
    let mut out = Sink::open(STDOUT)?;
    out.put(|out| {
        own.iter().try_for_each(|line| writeln!(out, "{line}"))?;
        others.iter().try_for_each(|line| out.write_all(line.as_bytes()))
    })?;
    out.commit()?;
    Ok(is_strange)
}

/// The lines of one's own table that say something.
fn own_table(name: &str) -> Result<String, Fault> {
    let table = match world::table(&Settings::default(), name) {
        Err(Fault::Refused(name, line)) => {
            let why = "no line `CODE *`, `CODE NUMBER` or `CODE START COUNT`".into();
            return Err(Fault::Input(format!("{name}:{line}"), why));
        }
        table => table?,
    };
    let lines = lines(&table).filter(|(_, line)| !says_nothing(line));
    Ok(lines.map(|(_, line)| String::from_utf8_lossy(line).into_owned() + "\n").collect())
}

/// The codes in the chains of these chain maps, each with the file in which it first stands.
fn codes(maps: &[String]) -> Result<BTreeMap<String, String>, Fault> {
    let world = World::open(&Settings::default(), b"", b"")?;
    let (mut found, mut seen) = (BTreeMap::new(), HashSet::new());
    for map in maps {
        for (_, file) in chain_lines(map)? {
            if !seen.insert(file.clone()) {
                continue;
            }
            for certificate in leaf_first(&file)? {
                let codes = world.chain(&certificate.der)?.part(1, Part::Codes)?;
                let codes = codes.unwrap_or_default();
                for (_, code) in files::lines(&codes) {
                    let code = String::from_utf8_lossy(code).into_owned();
                    found.entry(code).or_insert_with(|| file.clone());
                }
            }
        }
    }
    Ok(found)
}

/// Whether a table may have a line on this code. One that begins with `;` is a comment.
fn can_stand(code: &str) -> Result<bool, Fault> {
    match World::open(&Settings::default(), b"", format!("{code} *\n").as_bytes()) {
        Ok(_) => Ok(!code.starts_with(';') && !code.is_empty()),
        Err(Error::BadInput(Input::Table)) => Ok(false),
        Err(error) => Err(error.into()),
    }
}
