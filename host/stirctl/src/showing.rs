//! The command `show`.

use crate::certificates::{leaf_first, Told};
use crate::input::name_of;
use crate::sink::{Sink, STDOUT};
use crate::telling::printable;
use crate::words::certificates::Show;
use crate::Ended;
use stir::{Settings, World};

/// Writes what the certificates of the files say. The status is 1 if one is outside the profile.
pub(crate) fn show(words: &Show) -> Ended {
    let world = World::open(&Settings::default(), b"", b"")?;
    let (mut out, mut is_one_outside) = (Sink::open(STDOUT)?, false);
    for word in &words.files {
        let file = name_of(word);
        for (number, certificate) in (1..).zip(&leaf_first(word)?) {
            let told = Told::of(&world, file, number, certificate)?;
            is_one_outside |= told.outside.is_some();
            out.put(|out| {
                if words.json {
                    serde_json::to_writer(&mut *out, &told)?;
                    return out.write_all(b"\n");
                }
                let text = told.to_string();
                text.lines().try_for_each(|line| writeln!(out, "{}", printable(line)))
            })?;
        }
    }
    out.commit()?;
    Ok(u8::from(is_one_outside))
}
