//! What calls are judged by: trust anchors and a code table, as the library takes them, and where
//! they are bad.

use crate::files::whole;
use crate::{say, Fault};
use stir::{Error, Input, Settings, World};
use stir_trust::roots::{is_anchor, Roots, RootsFault, MOST_ANCHORS, MOST_BYTES};

const MOST_ANCHORS_BYTES: u64 = 2_097_152;
const MOST_TABLE_BYTES: u64 = 16_777_216;

/// The most bytes of a certificate.
const LONGEST_CERTIFICATE: usize = 8_192;

/// The trust anchors of a file in DER, one after another.
pub(crate) fn anchors(settings: &Settings, name: &str) -> Result<Vec<u8>, Fault> {
    let anchors = whole(name, MOST_ANCHORS_BYTES)?;
    match World::open(settings, &anchors, b"") {
        Err(Error::BadInput(Input::Anchors)) => {
            Err(Fault::Refused(name.into(), first_bad_anchor(settings, &anchors)? as u64))
        }
        Err(error) => Err(error.into()),
        Ok(_) => Ok(anchors),
    }
}

/// Where the first certificate begins that is no trust anchor. The library tells whether bytes are
/// such certificates, so the end of each is the first place at which they are.
fn first_bad_anchor(settings: &Settings, anchors: &[u8]) -> Result<usize, Fault> {
    let mut start = 0;
    for _ in 0..MOST_ANCHORS {
        let longest = anchors.len().min(start + LONGEST_CERTIFICATE);
        let mut end = None;
        for at in start + 1..=longest {
            if is_anchor(settings, anchors.get(start..at).unwrap_or_default())? {
                end = Some(at);
                break;
            }
        }
        match end {
            Some(end) => start = end,
            None => break,
        }
    }
    Ok(start)
}

/// The certificates of a file of roots in PEM that the library takes for trust anchors, one after
/// another in DER. Each other one is named, and left out.
pub(crate) fn roots(settings: &Settings, name: &str) -> Result<Vec<u8>, Fault> {
    let pem = whole(name, MOST_BYTES as u64)?;
    let Roots { anchors, left_out } = Roots::read(settings, &pem).map_err(|fault| match fault {
        RootsFault::Library(error) => error.into(),
        fault => Fault::Input(name.into(), fault.to_string()),
    })?;
    left_out.iter().for_each(|left| say(&format!("{name}: {left}")));
    Ok(anchors)
}

/// The code table of a file.
pub(crate) fn table(settings: &Settings, name: &str) -> Result<Vec<u8>, Fault> {
    let table = whole(name, MOST_TABLE_BYTES)?;
    if is_table(settings, &table)? {
        return Ok(table);
    }
    Err(Fault::Refused(name.into(), first_bad_line(settings, &table)?))
}

fn is_table(settings: &Settings, table: &[u8]) -> Result<bool, Fault> {
    match World::open(settings, b"", table) {
        Ok(_) => Ok(true),
        Err(Error::BadInput(Input::Table)) => Ok(false),
        Err(error) => Err(error.into()),
    }
}

/// The first bad line of a table that the library refuses. It takes every number of lines before
/// that, and no more.
fn first_bad_line(settings: &Settings, table: &[u8]) -> Result<u64, Fault> {
    let ends: Vec<usize> = std::iter::once(0)
        .chain(table.split_inclusive(|byte| *byte == b'\n').scan(0, |end, line| {
            *end += line.len();
            Some(*end)
        }))
        .collect();
    let (mut taken, mut refused) = (0, ends.len().saturating_sub(1));
    while refused - taken > 1 {
        let middle = taken + (refused - taken) / 2;
        let lines = ends.get(middle).and_then(|end| table.get(..*end)).unwrap_or_default();
        if is_table(settings, lines)? {
            taken = middle;
        } else {
            refused = middle;
        }
    }
    Ok(refused as u64)
}
