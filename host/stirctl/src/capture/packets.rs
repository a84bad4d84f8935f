//! What packets carry: Ethernet, also with VLAN tags (IEEE 802.1Q), raw IP, and what `tcpdump -i
//! any` writes; IPv4 and IPv6, with the fragments of a datagram put together.

use std::collections::{BTreeMap, HashMap};

/// Types of links.
const ETHERNET: u32 = 1;
const RAW: u32 = 101;
const COOKED: u32 = 113;
const COOKED_2: u32 = 276;

const VLANS: [&[u8]; 2] = [b"\x81\x00", b"\x88\xA8"];
const IP: [&[u8]; 2] = [b"\x08\x00", b"\x86\xDD"];

const TCP: u8 = 6;
const UDP: u8 = 17;
const FRAGMENT: u8 = 44;

/// Hop-by-hop options, routing and destination options (RFC 8200, section 4).
const BEFORE: [u8; 3] = [0, 43, 60];

/// SIP's own port (RFC 3261, section 19.1.2), and its version, which each message names twice.
const SIP_PORT: u16 = 5_060;
const VERSION: &[u8] = b"SIP/2.0";

/// After a minute an identification may stand for another datagram (RFC 8200, section 4.5).
const MINUTE: u64 = 60_000_000_000;

/// The most datagrams whose other fragments are waited for, and the most fragments of one.
const MOST_WAITING: usize = 8_192;
const MOST_FRAGMENTS: usize = 256;

/// What a packet carries.
#[derive(Debug, PartialEq, Eq)]
pub(super) enum Carried {
    /// A datagram of UDP: who sent it, address and port, and whether it goes from or to SIP's port.
    Datagram { source: Vec<u8>, content: Vec<u8>, is_on_port: bool },
    /// A segment of TCP that carries SIP.
    SipOverTcp,
    /// A fragment, while others are missing.
    Fragment,
    /// Something else.
    Other,
}

/// Whether packets of this link are read.
pub(super) fn is_read(link: u32) -> bool {
    matches!(link, ETHERNET | RAW | COOKED | COOKED_2)
}

/// The IP packet in a frame, or no bytes.
fn ip_of(link: u32, frame: &[u8]) -> &[u8] {
    let is_ip = |at: usize| frame.get(at..at + 2).is_some_and(|kind| IP.contains(&kind));
    let start = match link {
        RAW => Some(0),
        COOKED => is_ip(14).then_some(16),
        COOKED_2 => is_ip(0).then_some(20),
        _ => {
            let mut at = 12;
            while frame.get(at..at + 2).is_some_and(|kind| VLANS.contains(&kind)) {
                at += 4;
            }
            is_ip(at).then_some(at + 2)
        }
    };
    start.and_then(|start| frame.get(start..)).unwrap_or_default()
}

fn u16_at(bytes: &[u8], at: usize) -> Option<u16> {
    Some(u16::from_be_bytes(bytes.get(at..at + 2)?.try_into().ok()?))
}

/// A datagram's fragments: where each begins, and whether more come after it.
#[derive(Debug)]
struct Waiting {
    since: u64,
    parts: BTreeMap<usize, (Vec<u8>, bool)>,
}

/// Where a fragment belongs.
struct Place {
    /// What all fragments of the datagram have in common.
    of: Vec<u8>,
    offset: usize,
    more: bool,
}

/// Reads packets, and keeps the fragments of datagrams whose others haven't come.
#[derive(Debug, Default)]
pub(super) struct Packets {
    waiting: HashMap<Vec<u8>, Waiting>,
    /// How many datagrams stayed without some of their fragments.
    pub lost: u64,
}

impl Packets {
    /// What a packet carries that came at this time.
    pub fn carried(&mut self, time: u64, link: u32, frame: &[u8]) -> Carried {
        let packet = ip_of(link, frame);
        let carried = match packet.first().map(|byte| byte >> 4) {
            Some(4) => self.version_4(time, packet),
            Some(6) => self.version_6(time, packet),
            _ => None,
        };
        carried.unwrap_or(Carried::Other)
    }

    /// RFC 791, section 3.1.
    fn version_4(&mut self, time: u64, packet: &[u8]) -> Option<Carried> {
        let (start, end) = (usize::from(packet.first()? & 15) * 4, usize::from(u16_at(packet, 2)?));
        let flags = u16_at(packet, 6)?;
        let (protocol, addresses) = (*packet.get(9)?, packet.get(12..20)?);
        let content = packet.get(start..end.min(packet.len()))?;
        if flags & 0x3FFF == 0 || protocol != UDP {
            return transported(protocol, addresses.get(..4)?, content);
        }
        let of = [addresses, packet.get(4..6)?].concat();
        let (offset, more) = (usize::from(flags & 0x1FFF) * 8, flags & 0x2000 != 0);
        match self.whole(time, Place { of, offset, more }, content) {
            Some(content) => transported(UDP, addresses.get(..4)?, &content),
            None => Some(Carried::Fragment),
        }
    }

    /// RFC 8200, sections 3 and 4.
    fn version_6(&mut self, time: u64, packet: &[u8]) -> Option<Carried> {
        let end = 40 + usize::from(u16_at(packet, 4)?);
        let addresses = packet.get(8..40)?;
        let mut content = packet.get(40..end.min(packet.len()))?;
        let mut protocol = *packet.get(6)?;
        while BEFORE.contains(&protocol) && content.len() >= 8 {
            protocol = *content.first()?;
            content = content.get(8 + 8 * usize::from(*content.get(1)?)..)?;
        }
        if protocol != FRAGMENT || content.first() != Some(&UDP) {
            return transported(protocol, addresses.get(..16)?, content);
        }
        let flags = u16_at(content, 2)?;
        let of = [addresses, content.get(4..8)?].concat();
        let place = Place { of, offset: (flags & 0xFFF8).into(), more: flags & 1 != 0 };
        match self.whole(time, place, content.get(8..)?) {
            Some(content) => transported(UDP, addresses.get(..16)?, &content),
            None => Some(Carried::Fragment),
        }
    }

    /// The content of the datagram to which a fragment belongs, once all are there.
    fn whole(&mut self, time: u64, place: Place, content: &[u8]) -> Option<Vec<u8>> {
        let Place { of, offset, more } = place;
        if offset == 0 && !more {
            return Some(content.to_vec());
        }
        self.forget(time, &of);
        let fresh = || Waiting { since: time, parts: BTreeMap::new() };
        let waiting = self.waiting.entry(of.clone()).or_insert_with(fresh);
        if waiting.parts.len() < MOST_FRAGMENTS {
            waiting.parts.insert(offset, (content.to_vec(), more));
        }
        let joined = joined(&waiting.parts)?;
        self.waiting.remove(&of);
        Some(joined)
    }

    /// Drops what is waited for in vain: all that is a minute old if there is much, and the
    /// datagram of this name if it is.
    fn forget(&mut self, time: u64, of: &[u8]) {
        let is_old = |waiting: &Waiting| time.saturating_sub(waiting.since) > MINUTE;
        let before = self.waiting.len();
        if before >= MOST_WAITING {
            self.waiting.retain(|_, waiting| !is_old(waiting));
            if self.waiting.len() >= MOST_WAITING {
                self.waiting.clear();
            }
        } else if self.waiting.get(of).is_some_and(is_old) {
            self.waiting.remove(of);
        }
        self.lost += (before - self.waiting.len()) as u64;
    }

    /// How many datagrams lack fragments, at the end of a capture.
    pub fn missing(&self) -> u64 {
        self.lost + self.waiting.len() as u64
    }
}

/// The fragments from the first to the last, if none is missing.
fn joined(parts: &BTreeMap<usize, (Vec<u8>, bool)>) -> Option<Vec<u8>> {
    let mut joined = Vec::new();
    loop {
        let (content, more) = parts.get(&joined.len())?;
        if content.is_empty() && *more {
            return None;
        }
        joined.extend_from_slice(content);
        if !more {
            return Some(joined);
        }
    }
}

/// What a datagram or a segment carries.
fn transported(protocol: u8, address: &[u8], segment: &[u8]) -> Option<Carried> {
    let is_on_port =
        [0, 2].iter().any(|at| u16_at(segment, *at).is_some_and(|port| port == SIP_PORT));
    match protocol {
        // RFC 768.
        UDP => {
            let length = usize::from(u16_at(segment, 4)?);
            let content = segment.get(8..length.min(segment.len()).max(8))?.to_vec();
            let source = [address, segment.get(..2)?].concat();
            Some(Carried::Datagram { source, content, is_on_port })
        }
        // RFC 9293, section 3.1.
        TCP => {
            let start = usize::from(segment.get(12)? >> 4) * 4;
            let content = segment.get(start..)?;
            let names_it = content.windows(VERSION.len()).any(|part| part == VERSION);
            let is_sip = start >= 20 && !content.is_empty() && (is_on_port || names_it);
            Some(if is_sip { Carried::SipOverTcp } else { Carried::Other })
        }
        _ => Some(Carried::Other),
    }
}
