//! HEP3, the protocol in which agents of capture send what they see (HOMER; Kamailio's `siptrace`
//! and its like): one packet a message.
//!
//! A packet is `HEP3`, its length in two bytes, and chunks. A chunk is a vendor, a type and its
//! length, two bytes each, and a content; the length counts these six bytes too.

use flate2::read::ZlibDecoder;
use std::io::Read;
use std::net::{IpAddr, Ipv4Addr, Ipv6Addr, SocketAddr};
use thiserror::Error;

/// With what a packet begins.
pub(crate) const SIGN: &[u8; 4] = b"HEP3";

/// The bytes before the first chunk, and those of a chunk before its content.
pub(crate) const HEAD: usize = 6;

/// The most bytes of a message that was packed.
const LONGEST: u64 = 131_072;

/// What was captured, if it is SIP.
const SIP: u8 = 1;

/// Why some bytes are no packet.
#[derive(Clone, Copy, Debug, Error, PartialEq, Eq)]
pub(crate) enum HepFault {
    #[error("it doesn't begin as HEP3 does")]
    Sign,
    #[error("its length is another one")]
    Length,
    #[error("a chunk is cut short")]
    Chunk,
    #[error("the chunk of type {0} is missing, or isn't one")]
    Missing(u16),
}

/// A SIP message that was captured.
#[derive(Debug, PartialEq, Eq)]
pub(crate) struct Captured {
    /// The second at which it was, in Unix time.
    pub moment: u64,
    /// From where it came, if that is told.
    pub source: Option<SocketAddr>,
    pub message: Vec<u8>,
    /// The word by which the agent shows who it is.
    pub password: Option<Vec<u8>>,
}

/// The length of the packet that begins so; nothing if none does.
pub(crate) fn length(head: &[u8; HEAD]) -> Option<usize> {
    let [a, b, c, d, high, low] = *head;
    let length = usize::from(u16::from_be_bytes([high, low]));
    (&[a, b, c, d] == SIGN && length >= HEAD).then_some(length)
}

/// What a packet says; nothing if it isn't of SIP.
pub(crate) fn read(packet: &[u8]) -> Result<Option<Captured>, HepFault> {
    let (head, mut rest) = packet.split_first_chunk::<HEAD>().ok_or(HepFault::Sign)?;
    if length(head).ok_or(HepFault::Sign)? != packet.len() {
        return Err(HepFault::Length);
    }
    let mut chunks = Chunks::default();
    while !rest.is_empty() {
        let (head, after) = rest.split_first_chunk::<HEAD>().ok_or(HepFault::Chunk)?;
        let [vendor, kind, size] = words(head);
        let size = usize::from(size).checked_sub(HEAD).ok_or(HepFault::Chunk)?;
        let (content, after) = after.split_at_checked(size).ok_or(HepFault::Chunk)?;
        // Those of other vendors say nothing here.
        if vendor == 0 {
            chunks.put(kind, content);
        }
        rest = after;
    }
    chunks.captured()
}

fn words(bytes: &[u8; HEAD]) -> [u16; 3] {
    let [a, b, c, d, e, f] = *bytes;
    [[a, b], [c, d], [e, f]].map(u16::from_be_bytes)
}

/// The chunks that are used, each the first of its type.
#[derive(Default)]
struct Chunks<'a> {
    four: Option<&'a [u8]>,
    six: Option<&'a [u8]>,
    port: Option<&'a [u8]>,
    seconds: Option<&'a [u8]>,
    protocol: Option<&'a [u8]>,
    password: Option<&'a [u8]>,
    payload: Option<&'a [u8]>,
    packed: Option<&'a [u8]>,
}

/// The types of those chunks.
const SOURCE_FOUR: u16 = 3;
const SOURCE_SIX: u16 = 5;
const SOURCE_PORT: u16 = 7;
const SECONDS: u16 = 9;
const PROTOCOL: u16 = 11;
const PASSWORD: u16 = 14;
const PAYLOAD: u16 = 15;
const PACKED: u16 = 16;

impl<'a> Chunks<'a> {
    fn put(&mut self, kind: u16, content: &'a [u8]) {
        let place = match kind {
            SOURCE_FOUR => &mut self.four,
            SOURCE_SIX => &mut self.six,
            SOURCE_PORT => &mut self.port,
            SECONDS => &mut self.seconds,
            PROTOCOL => &mut self.protocol,
            PASSWORD => &mut self.password,
            PAYLOAD => &mut self.payload,
            PACKED => &mut self.packed,
            _ => return,
        };
        place.get_or_insert(content);
    }

    fn captured(&self) -> Result<Option<Captured>, HepFault> {
        let protocol = sized::<1>(self.protocol).ok_or(HepFault::Missing(PROTOCOL))?;
        if protocol != [SIP] {
            return Ok(None);
        }
        let seconds = sized(self.seconds).ok_or(HepFault::Missing(SECONDS))?;
        let message = match (self.payload, self.packed) {
            (Some(payload), _) => payload.to_vec(),
            (None, Some(packed)) => unpacked(packed).ok_or(HepFault::Missing(PACKED))?,
            (None, None) => return Err(HepFault::Missing(PAYLOAD)),
        };
        Ok(Some(Captured {
            moment: u32::from_be_bytes(seconds).into(),
            source: self.source(),
            message,
            password: self.password.map(<[u8]>::to_vec),
        }))
    }

    fn source(&self) -> Option<SocketAddr> {
        let four = sized(self.four).map(|bytes| IpAddr::V4(Ipv4Addr::from(bytes)));
        let six = || sized::<16>(self.six).map(|bytes| IpAddr::V6(Ipv6Addr::from(bytes)));
        Some(SocketAddr::new(four.or_else(six)?, u16::from_be_bytes(sized(self.port)?)))
    }
}

/// A content, if it has so many bytes.
fn sized<const SIZE: usize>(content: Option<&[u8]>) -> Option<[u8; SIZE]> {
    content?.try_into().ok()
}

/// A message that zlib packed (RFC 1950).
fn unpacked(packed: &[u8]) -> Option<Vec<u8>> {
    let mut message = Vec::new();
    ZlibDecoder::new(packed).take(LONGEST + 1).read_to_end(&mut message).ok()?;
    (message.len() as u64 <= LONGEST).then_some(message)
}

#[cfg(test)]
mod tests {
    use super::*;
    use flate2::{write::ZlibEncoder, Compression};
    use std::io::Write;

    fn packet(chunks: &[(u16, u16, &[u8])]) -> Vec<u8> {
        let mut body = Vec::new();
        for (vendor, kind, content) in chunks {
            for word in [*vendor, *kind, (content.len() + HEAD) as u16] {
                body.extend(word.to_be_bytes());
            }
            body.extend_from_slice(content);
        }
        [&SIGN[..], &((body.len() + HEAD) as u16).to_be_bytes(), &body].concat()
    }

    const FOUR: [(u16, u16, &[u8]); 8] = [
        (0, 1, &[2]),
        (0, 2, &[17]),
        (0, 3, &[192, 0, 2, 1]),
        (0, 7, &[0x13, 0xC4]),
        (0, 9, &[0x56, 0x05, 0x9E, 0x19]),
        (0, 11, &[1]),
        (9, 15, b"of another vendor"),
        (0, 15, b"INVITE sip:a SIP/2.0\r\n\r\n"),
    ];

    #[test]
    fn a_packet_says_what_its_chunks_say() {
        let got = read(&packet(&FOUR)).unwrap().unwrap();
        assert_eq!(got.moment, 1_443_208_729);
        assert_eq!(got.source, Some("192.0.2.1:5060".parse().unwrap()));
        assert_eq!(got.message, b"INVITE sip:a SIP/2.0\r\n\r\n");
        let mut zlib = ZlibEncoder::new(Vec::new(), Compression::default());
        zlib.write_all(b"INVITE x").unwrap();
        let packed = zlib.finish().unwrap();
        let six = [0x20, 1, 0x0D, 0xB8, 0, 0, 0, 0, 0, 0, 0, 0, 0, 0, 0, 1];
        let chunks: &[(u16, u16, &[u8])] = &[
            (0, 5, &six),
            (0, 7, &[0, 1]),
            (0, 9, &[0, 0, 0, 7]),
            (0, 11, &[1]),
            (0, 14, b"word"),
            (0, 16, &packed),
        ];
        let got = read(&packet(chunks)).unwrap().unwrap();
        assert_eq!((got.moment, got.message.as_slice()), (7, &b"INVITE x"[..]));
        assert_eq!(got.source, Some("[2001:db8::1]:1".parse().unwrap()));
        assert_eq!(got.password.as_deref(), Some(&b"word"[..]));
    }

    #[test]
    fn what_is_no_packet_is_told() {
        let whole = packet(&FOUR);
        assert_eq!(read(b""), Err(HepFault::Sign));
        assert_eq!(read(b"HEP2\0\x06"), Err(HepFault::Sign));
        assert_eq!(read(&whole[..whole.len() - 1]), Err(HepFault::Length));
        assert_eq!(read(&packet(&[(0, 11, &[5])])), Ok(None));
        for missing in [9, 11, 15] {
            let left: Vec<_> = FOUR.into_iter().filter(|chunk| chunk.1 != missing).collect();
            assert_eq!(read(&packet(&left)), Err(HepFault::Missing(missing)), "{missing}");
        }
        let mut cut = whole.clone();
        cut[11] = 200;
        assert_eq!(read(&cut), Err(HepFault::Chunk));
        cut[11] = 5;
        assert_eq!(read(&cut), Err(HepFault::Chunk));
    }

    /// Numbers of 31 bits, by a linear congruence modulo 2^64.
    struct Draws(u64);

    impl Draws {
        fn below(&mut self, most: usize) -> usize {
            self.0 = self.0.wrapping_mul(6_364_136_223_846_793_005).wrapping_add(1_442_695_040);
            (self.0 >> 33) as usize % most
        }
    }

    #[test]
    fn spoilt_packets_are_read_or_refused() {
        let (whole, mut draws, mut read_ones) = (packet(&FOUR), Draws(20_261_201), 0);
        for _ in 0..200_000 {
            let mut spoilt = whole.clone();
            for _ in 0..=draws.below(4) {
                let place = draws.below(spoilt.len());
                match draws.below(4) {
                    0 => spoilt[place] ^= 1 << draws.below(8),
                    1 => spoilt[place] = draws.below(256) as u8,
                    2 => spoilt.insert(place, draws.below(256) as u8),
                    _ => spoilt.truncate(place.max(1)),
                }
            }
            if draws.below(2) == 0 && spoilt.len() >= HEAD {
                let length = (spoilt.len() as u16).to_be_bytes();
                spoilt[4..6].copy_from_slice(&length);
            }
            if let Ok(Some(captured)) = read(&spoilt) {
                assert!(captured.message.len() <= spoilt.len(), "{spoilt:?}");
                read_ones += 1;
            }
        }
        // Some are still packets, and most aren't.
        assert!((10_000..150_000).contains(&read_ones), "{read_ones}");
    }
}
