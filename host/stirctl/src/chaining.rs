//! The command `chain`: chains and their map, trust anchors, and the certificate of a key's holder.

use crate::certificates::{broken, in_order, is_outside, leaf_first, Certificate};
use crate::code_table::table;
use crate::input::{name_of, whole};
use crate::revocation::Revocation;
use crate::sink::{Sink, STDOUT};
use crate::words::certificates::Chain;
use crate::{files, say, Ended, Fault};
use std::collections::{HashMap, HashSet};
use std::fs;
use std::path::{Component, Path, PathBuf};
use stir::Settings;
use stir_trust::chain_map::{ChainMap, LONGEST_NAME, MOST_BYTES};
use stir_trust::fetch::FormFault;
use stir_trust::issuers::missing;
use stir_trust::names::text_of;
use stir_trust::roots::{is_anchor, MOST_ANCHORS};

/// The most certificates of a chain (docs/FORMATS.md, "Chain").
const MOST_CERTIFICATES: usize = 6;

/// Makes what the words say. The status is 1 if something was named that isn't as it should be.
pub(crate) fn chain(words: &Chain) -> Ended {
    if !words.revoked.crl.is_empty() && !words.anchors {
        return Err(Fault::Words("--crl goes with --anchors: judging asks for the others".into()));
    }
    let is_strange = match (&words.table, words.anchors, words.leaf) {
        (Some(own), ..) => table(own, words)?,
        (None, true, _) => anchors(words)?,
        (None, false, true) => leaf(words)?,
        (None, false, false) => chains(words)?,
    };
    Ok(u8::from(is_strange))
}

/// Lines `X5U FILE`, in their order: of a list, or of a chain map.
pub(crate) fn chain_lines(word: &str) -> Result<Vec<(String, String)>, Fault> {
    let text = whole(word, MOST_BYTES as u64)?;
    let refused = |(line, fault): (usize, _)| {
        Fault::Input(format!("{}:{line}", name_of(word)), format!("{fault}"))
    };
    ChainMap::read(&text).map_err(refused)?;
    let lines = files::lines(&text).filter(|(_, line)| !files::says_nothing(line));
    let lines = lines.filter_map(|(_, line)| std::str::from_utf8(line).ok()?.split_once(' '));
    Ok(lines.map(|(x5u, file)| (x5u.to_owned(), file.to_owned())).collect())
}

/// Writes the chains of the lists and their map.
fn chains(words: &Chain) -> Result<bool, Fault> {
    let under = words.under.as_deref().map(in_order).transpose()?;
    let under: Option<Vec<Vec<u8>>> = under.map(|all| all.into_iter().map(|it| it.der).collect());
    let folder = words.to.as_deref().map_or(PathBuf::new(), plain);
    if !folder.as_os_str().is_empty() {
        let failed = |error| Fault::write(&folder.display().to_string(), &error);
        fs::create_dir_all(&folder).map_err(failed)?;
    }
    let (mut is_strange, mut map, mut known) = (false, Vec::new(), HashSet::new());
    let mut sources: HashMap<PathBuf, String> = HashMap::new();
    for word in &words.files {
        for (x5u, name) in chain_lines(word)? {
            if !known.insert(x5u.clone()) {
                return Err(Fault::Words(format!("{x5u} stands twice")));
            }
            let to = file_of_chain(&folder, &name)?;
            let source = sources.entry(to.clone()).or_insert_with(|| name.clone());
            if *source != name {
                let to = to.display();
                return Err(Fault::Words(format!("{source} and {name}: both would become {to}")));
            }
            is_strange |= write_chain(&name, &to, under.as_deref())?;
            map.push(format!("{x5u} {}\n", to.display()));
        }
    }
    write(map.concat().as_bytes())?;
    Ok(is_strange)
}

/// A path without `.` in it.
fn plain(folder: &str) -> PathBuf {
    Path::new(folder).components().filter(|part| *part != Component::CurDir).collect()
}

/// Where the chain of this file is written, if a chain map takes such a name.
fn file_of_chain(folder: &Path, name: &str) -> Result<PathBuf, Fault> {
    let stem = Path::new(name).file_stem().and_then(|stem| stem.to_str()).unwrap_or_default();
    let to = folder.join(format!("{stem}.der"));
    let is_name = to.to_str().is_some_and(|name| {
        name.len() <= LONGEST_NAME && name.bytes().all(|byte| byte.is_ascii_graphic())
    });
    match is_name {
        true => Ok(to),
        false => {
            Err(Fault::Words(format!("{}: a chain map takes no such name of a file", to.display())))
        }
    }
}

/// Writes the chain of a file, and says whether something of it was named.
fn write_chain(name: &str, to: &Path, under: Option<&[Vec<u8>]>) -> Result<bool, Fault> {
    let chain = leaf_first(name)?;
    let mut is_strange = chain.len() > MOST_CERTIFICATES;
    if is_strange {
        let count = chain.len();
        say(&format!("{name}: {count} certificates, and a chain has at most {MOST_CERTIFICATES}"));
    }
    for (number, certificate) in (1..).zip(&chain) {
        if is_outside(&certificate.der)? {
            let broken = broken(&certificate.der)?;
            say(&format!("{name}: certificate {number} is outside the profile: {broken}"));
            is_strange = true;
        }
    }
    let chain: Vec<Vec<u8>> = chain.into_iter().map(|certificate| certificate.der).collect();
    let failed = |fault: FormFault| Fault::Input(name.into(), fault.to_string());
    for issuer in missing(&chain, under).map_err(failed)? {
        say(&format!("{name}: {issuer}"));
        is_strange = true;
    }
    let mut file = Sink::open(&to.to_string_lossy())?;
    file.put(|out| chain.iter().try_for_each(|der| out.write_all(der)))?;
    file.commit()?;
    Ok(is_strange)
}

/// Writes the trust anchors of the files, or all of their certificates.
fn anchors(words: &Chain) -> Result<bool, Fault> {
    let settings = Settings::default();
    let revocation = Revocation::read(&words.revoked)?;
    let (mut is_strange, mut kept, mut count) = (false, Vec::new(), 0);
    for word in &words.files {
        for (number, certificate) in (1..).zip(&in_order(word)?) {
            if let Some(revoked) = revocation.since_of(&certificate.der)? {
                is_strange = true;
                let subject = text_of(certificate.read.subject_name());
                let file = name_of(word);
                say(&format!("{file}: certificate {number}, {subject}, {revoked}; it is left out"));
                continue;
            }
            let is_one = is_anchor(&settings, &certificate.der)?;
            if !is_one {
                is_strange = true;
                say_no_anchor(word, number, certificate, words.all)?;
            }
            if is_one || words.all {
                kept.extend_from_slice(&certificate.der);
                count += 1;
            }
        }
    }
    if count > MOST_ANCHORS {
        let why = format!("{count} trust anchors, and a file has at most {MOST_ANCHORS}");
        return Err(Fault::Words(why));
    }
    write(&kept)?;
    Ok(is_strange)
}

/// Says which certificate is no trust anchor, and why.
fn say_no_anchor(
    word: &str,
    number: usize,
    certificate: &Certificate,
    is_all: bool,
) -> Result<(), Fault> {
    let file = name_of(word);
    let subject = text_of(certificate.read.subject_name());
    let subject = if subject.is_empty() { subject } else { format!(", {subject},") };
    let why = match is_outside(&certificate.der)? {
        true => format!("is outside the profile: {}", broken(&certificate.der)?),
        false => "is none of a certificate authority".into(),
    };
    let end = if is_all { "" } else { "; it is left out" };
    say(&format!("{file}: certificate {number}{subject} {why}{end}"));
    Ok(())
}

/// Writes the first certificate of a chain.
fn leaf(words: &Chain) -> Result<bool, Fault> {
    let [word] = &words.files[..] else {
        return Err(Fault::Words("--leaf wants one file".into()));
    };
    let chain = leaf_first(word)?;
    write(chain.first().map_or(&[][..], |certificate| &certificate.der))?;
    Ok(false)
}

/// Writes all of this to the standard output.
fn write(bytes: &[u8]) -> Result<(), Fault> {
    let mut out = Sink::open(STDOUT)?;
    out.put(|out| out.write_all(bytes))?;
    out.commit()
}
