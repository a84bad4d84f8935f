//! Captures of SIP over UDP, made call logs: their INVITE requests, in the order in which they
//! came, without retransmissions.

mod frames;
mod packets;
mod spool;

pub(crate) use frames::is_capture;
pub(crate) use spool::{key_of, Repeats, NANOSECONDS};

use crate::Fault;
use frames::{Broken, Frames};
use packets::{Carried, Packets};
use spool::Spool;
use std::borrow::Cow;
use std::fs::File;
use std::io::{BufReader, Read, Seek};
use stir::{Settings, World};

const BUFFER: usize = 1 << 20;

/// With what an INVITE request begins (RFC 3261, section 7.1).
const INVITE: &[u8] = b"INVITE ";

/// Who reads what isn't read here.
const BY_TSHARK: &str = "which tools/stir-log reads by tshark";

/// Which INVITEs of captures are calls, and how they are taken.
#[derive(Clone, Copy, Debug)]
pub(crate) struct How {
    /// Those inside a dialog aren't (RFC 3261, section 14).
    pub initial: bool,
    /// P-Asserted-Identity fields with several values stay. Else they become one field a value,
    /// which means the same (RFC 3261, section 7.3.1).
    pub as_is: bool,
    /// What is left out isn't told.
    pub is_quiet: bool,
}

/// The INVITEs of captures.
pub(crate) struct Captures {
    spool: Spool,
    sieve: Sieve,
    cut: u64,
    fragments: u64,
    on_port: u64,
    /// The name of the first.
    name: String,
}

/// What tells the messages that are calls from others.
pub(crate) struct Sieve {
    how: How,
    /// What tells header fields.
    world: World,
    pub counts: Counts,
}

/// What was passed over, and what was split.
#[derive(Debug, Default)]
pub(crate) struct Counts {
    pub others: u64,
    in_dialogs: u64,
    split: u64,
}

impl Sieve {
    pub fn new(how: How) -> Result<Sieve, Fault> {
        let world = World::open(&Settings::default(), b"", b"")?;
        Ok(Sieve { how, world, counts: Counts::default() })
    }

    /// The message as it is judged, if it is a call; it came at this second.
    pub fn call<'a>(
        &mut self,
        moment: u64,
        message: &'a [u8],
    ) -> Result<Option<Cow<'a, [u8]>>, Fault> {
        if !message.starts_with(INVITE) {
            self.counts.others += 1;
            return Ok(None);
        }
        if self.how.initial && self.is_in_dialog(moment, message)? {
            self.counts.in_dialogs += 1;
            return Ok(None);
        }
        let split = (!self.how.as_is).then(|| stir_trust::split::lists(message)).flatten();
        self.counts.split += u64::from(split.is_some());
        Ok(Some(split.map_or(Cow::Borrowed(message), Cow::Owned)))
    }

    /// Whether To has a tag (RFC 3261, section 12.2).
    fn is_in_dialog(&self, moment: u64, message: &[u8]) -> Result<bool, Fault> {
        let mut call = self.world.call(moment, message)?;
        let to = call.header("To").next().transpose()?.unwrap_or_default();
        Ok(has_tag(&to))
    }

    /// What is said of so many calls, of what else was left out, and how often.
    pub fn said(&self, calls: u64, repeated: u64, others: &[(&str, u64)]) -> String {
        let Counts { others: other, in_dialogs, split } = self.counts;
        let own =
            [("retransmissions", repeated), ("re-INVITEs", in_dialogs), ("other messages", other)];
        let left_out = own.iter().chain(others).filter(|(_, count)| *count > 0);
        let left_out: Vec<_> = left_out.map(|(what, count)| format!("{what} {count}")).collect();
        let mut said = format!("calls {calls}");
        if !left_out.is_empty() {
            said += &format!("; left out: {}", left_out.join(", "));
        }
        if split > 0 {
            said += &format!("; messages with P-Asserted-Identity split: {split}");
        }
        said
    }
}

impl Captures {
    /// None so far.
    pub fn new(how: How) -> Result<Captures, Fault> {
        let (spool, sieve) = (Spool::new()?, Sieve::new(how)?);
        Ok(Captures { spool, sieve, cut: 0, fragments: 0, on_port: 0, name: String::new() })
    }

    /// Whether none was added.
    pub fn is_empty(&self) -> bool {
        self.name.is_empty()
    }

    /// Adds the INVITEs of the capture of this name.
    pub fn add(&mut self, name: &str, source: impl Read) -> Result<(), Fault> {
        if self.is_empty() {
            self.name = name.into();
        }
        let broken = |broken| match broken {
            Broken::Failed => Fault::Read(name.into()),
            Broken::Form(why) => Fault::Input(name.into(), why),
        };
        let mut frames = Frames::new(BufReader::with_capacity(BUFFER, source)).map_err(broken)?;
        let mut packets = Packets::default();
        while let Some(frame) = frames.next().map_err(broken)? {
            if !packets::is_read(frame.link) {
                let why = format!("packets of link type {}, {BY_TSHARK}", frame.link);
                return Err(Fault::Input(name.into(), why));
            }
            let Some(bytes) = frame.bytes else {
                self.cut += 1;
                continue;
            };
            match packets.carried(frame.time, frame.link, &bytes) {
                Carried::Datagram { source, content, is_on_port } => {
                    self.on_port += u64::from(is_on_port);
                    self.take(frame.time, &source, &content)?;
                }
                Carried::SipOverTcp => {
                    let why = format!("SIP over TCP, {BY_TSHARK}");
                    return Err(Fault::Input(name.into(), why));
                }
                Carried::Fragment => {}
                Carried::Other => self.sieve.counts.others += 1,
            }
        }
        self.fragments += packets.missing();
        Ok(())
    }

    fn take(&mut self, time: u64, source: &[u8], message: &[u8]) -> Result<(), Fault> {
        match self.sieve.call(time / NANOSECONDS, message)? {
            Some(call) => self.spool.add(time, source, &call),
            None => Ok(()),
        }
    }

    /// A log of the calls from its first byte on, the name of its capture, and what is said of
    /// both.
    pub fn log(self) -> Result<(File, String, String), Fault> {
        let Captures { spool, sieve, cut, fragments, on_port, name } = self;
        let (mut log, calls, repeated) = spool.log()?;
        log.rewind().map_err(|error| Fault::write("a temporary file", &error))?;
        let others = [("cut packets", cut), ("datagrams with missing fragments", fragments)];
        let mut said = sieve.said(calls, repeated, &others);
        if calls == 0 && on_port > 0 {
            said += "; there was traffic on port 5060, and no call in it";
        }
        Ok((log, name, said))
    }
}

/// Whether the value of From or To has the parameter `tag` (RFC 3261, sections 20.20 and 20.39):
/// after its `>`, or after its first `;` if it has no angle brackets.
fn has_tag(value: &[u8]) -> bool {
    let (mut is_quoted, mut is_escaped, mut plain) = (false, false, Vec::new());
    for byte in value {
        match (is_quoted, is_escaped, byte) {
            (true, true, _) => is_escaped = false,
            (true, false, b'\\') => is_escaped = true,
            (_, _, b'"') => is_quoted = !is_quoted,
            (false, _, byte) => plain.push(byte.to_ascii_lowercase()),
            (true, false, _) => {}
        }
    }
    let after = plain.rsplit(|byte| *byte == b'>').next().unwrap_or_default();
    after.split(|byte| *byte == b';').skip(1).any(|parameter| {
        let name = parameter.split(|byte| *byte == b'=').next().unwrap_or_default();
        parameter.contains(&b'=') && name.trim_ascii() == b"tag"
    })
}

#[cfg(test)]
mod tests {
    use super::*;

    #[test]
    fn a_tag_is_a_parameter_and_no_text_that_looks_like_one() {
        for (value, has) in [
            ("<sip:a@example.org>;tag=1", true),
            ("\"b\" <sip:a@example.org> ; x=y ; TAG = 1", true),
            ("sip:a@example.org;tag=1", true),
            ("<sip:a@example.org;tag=1>", false),
            ("\"a;tag=1\" <sip:b;tag=2>", false),
            ("\"a\\\";tag=1\" <sip:b>", false),
            ("<sip:a>;tags=1", false),
            ("<sip:a>;tag", false),
            ("", false),
        ] {
            assert_eq!(has_tag(value.as_bytes()), has, "{value}");
        }
    }
}
