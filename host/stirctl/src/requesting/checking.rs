//! What an authority sent back, held against the key and the request.

use super::pkcs10::{list_of, LIST};
use crate::certificates::{leaf_first, Certificate, Parts, Told};
use crate::input::name_of;
use crate::signing::{point_of, read_key};
use crate::sink::{Sink, STDOUT};
use crate::telling::printable;
use crate::words::request::Request;
use crate::{files, say, Ended, Fault};
use openssl::x509::X509Req;
use std::time::{SystemTime, UNIX_EPOCH};
use stir::{Part, Settings, World};
use stir_trust::revocation::moment;
use stir_trust::roots::{Roots, MOST_BYTES};
use stir_trust::Verifier;

/// The most bytes of a request.
const LONGEST_REQUEST: u64 = 1 << 20;

/// Within how many seconds before its end a certificate is told of.
const SOON: i64 = 86_400;

/// Something that was looked at.
struct Finding {
    is_good: bool,
    what: String,
}

fn finding(is_good: bool, good: String, wrong: String) -> Finding {
    Finding { is_good, what: if is_good { good } else { wrong } }
}

/// Looks at a chain, and says what of it is as it should be. The status is 1 if something isn't.
pub(super) fn check(words: &Request, name: &str) -> Ended {
    let chain = leaf_first(name)?;
    let leaf = chain.first();
    let leaf = leaf.ok_or_else(|| Fault::Input(name.into(), "it has no certificate".into()))?;
    let key = read_key(&words.key, words.password_file.as_deref())?;
    let is_its = point_of(&leaf.read).as_deref() == Some(&key.public()[..]);
    let (key, file) = (&words.key, name_of(name));
    let mut found = vec![finding(
        is_its,
        format!("key: {key} is that of the leaf"),
        format!("key: {key} isn't that of the leaf"),
    )];
    found.extend(profile(file, &chain)?);
    found.push(dates(leaf)?);
    if let Some(request) = &words.request {
        found.push(list(leaf, request)?);
    }
    if let Some(roots) = &words.roots {
        found.push(path(&chain, roots)?);
    }
    let mut out = Sink::open(STDOUT)?;
    out.put(|out| {
        found.iter().try_for_each(|Finding { is_good, what }| {
            let word = if *is_good { "good" } else { "wrong" };
            writeln!(out, "{word:<6}{}", printable(what))
        })
    })?;
    out.commit()?;
    Ok(u8::from(found.iter().any(|finding| !finding.is_good)))
}

/// Whether each certificate is one of the profile.
fn profile(file: &str, chain: &[Certificate]) -> Result<Vec<Finding>, Fault> {
    let world = World::open(&Settings::default(), b"", b"")?;
    let told = (1..).zip(chain).map(|(number, certificate)| {
        let told = Told::of(&world, file, number, certificate)?;
        let wrong = told.outside.as_ref().map_or(String::new(), ToString::to_string);
        let of = format!("certificate {number}, {},", told.subject);
        Ok(finding(
            told.outside.is_none(),
            format!("profile: {of} is of it"),
            format!("profile: {of} is outside of it: {wrong}"),
        ))
    });
    told.collect()
}

/// Whether the leaf is valid now, and for a day at least.
fn dates(leaf: &Certificate) -> Result<Finding, Fault> {
    let world = World::open(&Settings::default(), b"", b"")?;
    let chain = world.chain(&leaf.der)?;
    let second = |part| -> Result<Option<u64>, Fault> {
        let digits = chain.part(1, part)?.unwrap_or_default();
        Ok(std::str::from_utf8(&digits).ok().and_then(|digits| digits.parse().ok()))
    };
    let (Some(first), Some(last)) = (second(Part::NotBefore)?, second(Part::NotAfter)?) else {
        return Ok(finding(false, String::new(), "dates: they can't be read".into()));
    };
    let now = SystemTime::now().duration_since(UNIX_EPOCH).map_or(0, |since| since.as_secs());
    let is_now = (first..=last).contains(&now) && last - now >= SOON.unsigned_abs();
    let dates = format!("{} to {}", moment(first), moment(last));
    Ok(finding(
        is_now,
        format!("dates: {dates}"),
        format!("dates: not now, or not for a day: {dates}"),
    ))
}

/// Whether the leaf has the list of the request.
fn list(leaf: &Certificate, name: &str) -> Result<Finding, Fault> {
    let pem = files::whole(name, LONGEST_REQUEST)?;
    let asked = X509Req::from_pem(&pem).ok().and_then(|request| request.to_der().ok());
    let asked = asked.and_then(|der| list_of(&der).ok()).flatten().ok_or_else(|| {
        Fault::Input(name.into(), "it is no request in PEM with codes or numbers".into())
    })?;
    let extensions = Parts::of(&leaf.der).and_then(|parts| parts.extensions());
    let given = extensions.iter().flatten();
    let given = given.filter(|it| it.identifier() == Some(LIST)).find_map(|it| it.content());
    Ok(finding(
        given == Some(&asked[..]),
        format!("list: that of {name}"),
        match given {
            Some(_) => format!("list: another one than that of {name}"),
            None => "list: the leaf has none".into(),
        },
    ))
}

/// Whether the chain leads to a trust anchor, and each signature of it is good.
fn path(chain: &[Certificate], name: &str) -> Result<Finding, Fault> {
    let settings = Settings::default();
    let pem = files::whole(name, MOST_BYTES as u64)?;
    let roots = Roots::read(&settings, &pem)
        .map_err(|fault| Fault::Input(name.into(), fault.to_string()))?;
    roots.left_out.iter().for_each(|left| say(&format!("{name}: {left}")));
    let der: Vec<u8> = chain.iter().flat_map(|certificate| certificate.der.clone()).collect();
    // Its codes stand for every number, so that rule 14 asks for no table.
    let world = World::open(&settings, &roots.anchors, b"")?.chain(&der)?;
    let mut table = Vec::new();
    for number in (1..).take(chain.len()) {
        let codes = world.part(number, Part::Codes)?.unwrap_or_default();
        for code in codes.split(|byte| *byte == b'\n').filter(|code| !files::says_nothing(code)) {
            table.extend([code, b" *\n"].concat());
        }
    }
    let world = World::open(&settings, &roots.anchors, &table)?;
    let questions = world.chain(&der)?.questions()?;
    let verifier = Verifier::new().map_err(|_| Fault::Memory)?;
    let wrong = match questions.iter().position(|question| !verifier.checks(question)) {
        Some(at) => format!("path: the signature of certificate {} isn't good (rule 15)", at + 1),
        None => format!("path: none to an anchor of {name} (rule 11, 12 or 14)"),
    };
    let is_good = !questions.is_empty() && questions.iter().all(|it| verifier.checks(it));
    Ok(finding(is_good, format!("path: to an anchor of {name}"), wrong))
}
