//! The command `crl`.

use crate::files::{whole, Unread};
use crate::revocation::signers;
use crate::sink::Sink;
use crate::words::trust::{Crl, Fetch};
use crate::{files, say, Ended, Fault};
use std::path::Path;
use std::time::{Duration, SystemTime, UNIX_EPOCH};
use stir_trust::fetch::{document, Hosts, Reach, Settings};
use stir_trust::revocation::{List, MOST_BYTES};

/// Takes a revocation list in the place of the one before it, if its signer signed it and it isn't
/// older. The status is 1 if the next one should be there already.
pub(crate) fn crl(words: &Crl) -> Ended {
    let signers = signers(&words.signer)?;
    let bytes = taken(&words.from, MOST_BYTES, &words.fetch)?;
    let fault = |fault: String| Fault::Input(words.from.clone(), fault);
    let list = List::read(&bytes, &signers).map_err(|it| fault(it.to_string()))?;
    match files::prefix(Path::new(&words.to), MOST_BYTES as u64 + 1) {
        Ok(before) if before == bytes => return Ok(ended(&words.from, &list)),
        Ok(before) => match List::read(&before, &signers) {
            Ok(before) => list.follows(&before).map_err(|older| fault(older.to_string()))?,
            Err(why) => say(&format!("{}: {why}; it is replaced", words.to)),
        },
        Err(Unread::Missing) => {}
        Err(Unread::Failed) => return Err(Fault::Read(words.to.clone())),
    }
    let mut out = Sink::open(&words.to)?;
    out.put(|out| out.write_all(&bytes))?;
    out.commit()?;
    say(&format!("{}: number {}, certificates {}", words.to, list.number(), list.len()));
    Ok(ended(&words.from, &list))
}

/// The status for a list that was taken.
fn ended(name: &str, list: &List) -> u8 {
    let has_ended = list.has_ended(now());
    if has_ended {
        say(&format!("{name}: the next list should be there already"));
    }
    u8::from(has_ended)
}

/// The bytes of a file, or of what is fetched from a URL.
pub(crate) fn taken(from: &str, most: usize, how: &Fetch) -> Result<Vec<u8>, Fault> {
    let scheme = from.split_once("://").map(|(scheme, _)| scheme.to_ascii_lowercase());
    if !matches!(scheme.as_deref(), Some("http" | "https")) {
        return whole(from, most as u64);
    }
    let authorities =
        how.authorities.as_deref().map(|name| whole(name, most as u64)).transpose()?;
    let reach = if how.private { Reach::All } else { Reach::Public };
    let limit = Duration::from_secs(how.seconds);
    let settings = Settings { authorities, reach, limit, most, ..Settings::new(Hosts::default()) };
    document(from, settings).map_err(|fault| Fault::Input(from.into(), fault.to_string()))
}

/// The second, in Unix time.
pub(crate) fn now() -> u64 {
    SystemTime::now().duration_since(UNIX_EPOCH).map_or(0, |since| since.as_secs())
}
