//! The packets of a capture: classic pcap, and pcapng (draft-ietf-opsawg-pcap and -pcapng).

use std::io::{ErrorKind, Read};

/// The most bytes of a packet that a capture has, and of a block around it.
const LONGEST_PACKET: u32 = 262_144;
const LONGEST_BLOCK: u32 = 16 << 20;

/// The most interfaces of a section.
const MOST_INTERFACES: usize = 4_096;

const NANOSECONDS: u64 = 1_000_000_000;

/// The first bytes of a section of pcapng, and its block types.
const SECTION: u32 = 0x0A0D_0D0A;
const INTERFACE: u32 = 1;
const OLD_PACKET: u32 = 2;
const SIMPLE_PACKET: u32 = 3;
const PACKET: u32 = 6;
const BYTE_ORDER: u32 = 0x1A2B_3C4D;

/// The options of an interface that tell the unit and the beginning of its times.
const RESOLUTION: u16 = 9;
const OFFSET: u16 = 14;

/// A packet as it was captured.
#[derive(Debug, PartialEq, Eq)]
pub(super) struct Frame {
    /// When it came, in nanoseconds of Unix time.
    pub time: u64,
    /// The type of its link.
    pub link: u32,
    /// Its bytes; nothing if it was captured in part.
    pub bytes: Option<Vec<u8>>,
}

/// What is wrong with a capture.
#[derive(Debug, PartialEq, Eq)]
pub(super) enum Broken {
    /// It can't be read.
    Failed,
    /// It isn't what a capture is, and why.
    Form(String),
}

type Maybe<T> = Result<T, Broken>;

/// Whether these first bytes are those of a capture.
pub(crate) fn is_capture(sign: &[u8]) -> bool {
    kind(sign).is_some() || sign == SECTION.to_be_bytes()
}

/// The order of the bytes of a classic capture, and how many nanoseconds a unit of its fractions
/// is.
fn kind(sign: &[u8]) -> Option<(Order, u64)> {
    match sign {
        [0xD4, 0xC3, 0xB2, 0xA1] => Some((Order::Little, 1_000)),
        [0x4D, 0x3C, 0xB2, 0xA1] => Some((Order::Little, 1)),
        [0xA1, 0xB2, 0xC3, 0xD4] => Some((Order::Big, 1_000)),
        [0xA1, 0xB2, 0x3C, 0x4D] => Some((Order::Big, 1)),
        _ => None,
    }
}

#[derive(Clone, Copy, Debug)]
enum Order {
    Little,
    Big,
}

impl Order {
    fn u16(self, bytes: &[u8], at: usize) -> Option<u16> {
        let bytes = bytes.get(at..at + 2)?.try_into().ok()?;
        Some(match self {
            Order::Little => u16::from_le_bytes(bytes),
            Order::Big => u16::from_be_bytes(bytes),
        })
    }

    fn u32(self, bytes: &[u8], at: usize) -> Option<u32> {
        let bytes = bytes.get(at..at + 4)?.try_into().ok()?;
        Some(match self {
            Order::Little => u32::from_le_bytes(bytes),
            Order::Big => u32::from_be_bytes(bytes),
        })
    }
}

/// A capture that is being read.
pub(super) struct Frames<R> {
    source: R,
    form: Form,
    /// How many packets were read.
    count: u64,
}

enum Form {
    Classic {
        order: Order,
        unit: u64,
        link: u32,
    },
    /// Of a section: its order and its interfaces.
    Next(Order, Vec<Interface>),
}

#[derive(Clone, Copy, Debug)]
struct Interface {
    link: u32,
    /// How many units a second has, and the second from which they are counted.
    units: u64,
    offset: i64,
}

impl<R: Read> Frames<R> {
    /// A capture from its first byte on.
    pub fn new(mut source: R) -> Maybe<Frames<R>> {
        let sign: [u8; 4] = part(&mut source)?.ok_or_else(|| cut(0))?;
        let form = match kind(&sign) {
            Some((order, unit)) => {
                let head: [u8; 20] = part(&mut source)?.ok_or_else(|| cut(0))?;
                let link = order.u32(&head, 16).unwrap_or_default() & 0xFFFF;
                Form::Classic { order, unit, link }
            }
            None if sign == SECTION.to_be_bytes() => Form::Next(section(&mut source)?, Vec::new()),
            None => return Err(Broken::Form("no capture".into())),
        };
        Ok(Frames { source, form, count: 0 })
    }

    /// The next packet, or nothing at the end.
    pub fn next(&mut self) -> Maybe<Option<Frame>> {
        match &self.form {
            Form::Classic { order, unit, link } => {
                let (order, unit, link) = (*order, *unit, *link);
                self.classic(order, unit, link)
            }
            Form::Next(..) => self.of_blocks(),
        }
    }

    fn classic(&mut self, order: Order, unit: u64, link: u32) -> Maybe<Option<Frame>> {
        let Some(head) = part::<16>(&mut self.source)? else { return Ok(None) };
        self.count += 1;
        let word = |at| order.u32(&head, at).unwrap_or_default();
        let (second, fraction, kept, length) = (word(0), word(4), word(8), word(12));
        if kept > LONGEST_PACKET {
            return Err(Broken::Form(format!("packet {} is of {kept} bytes", self.count)));
        }
        let bytes = bytes(&mut self.source, kept)?.ok_or_else(|| cut(self.count))?;
        let time = u64::from(second) * NANOSECONDS + u64::from(fraction) * unit;
        Ok(Some(Frame { time, link, bytes: (kept >= length).then_some(bytes) }))
    }

    /// The next packet of pcapng. Other blocks are passed over.
    fn of_blocks(&mut self) -> Maybe<Option<Frame>> {
        loop {
            let Form::Next(order, interfaces) = &mut self.form else { return Ok(None) };
            let Some(sign) = part::<4>(&mut self.source)? else { return Ok(None) };
            if sign == SECTION.to_be_bytes() {
                self.form = Form::Next(section(&mut self.source)?, Vec::new());
                continue;
            }
            let kind = order.u32(&sign, 0).unwrap_or_default();
            let block = block(&mut self.source, *order)?.ok_or_else(|| cut(self.count))?;
            match kind {
                INTERFACE if interfaces.len() == MOST_INTERFACES => {
                    return Err(Broken::Form("more than 4,096 interfaces".into()));
                }
                INTERFACE => {
                    let interface = interface(*order, &block);
                    interfaces.push(interface.ok_or_else(|| cut(self.count))?);
                }
                PACKET | OLD_PACKET => {
                    self.count += 1;
                    let frame = packet(*order, interfaces, kind, &block);
                    return frame.map(Some).ok_or_else(|| cut(self.count));
                }
                SIMPLE_PACKET => return Err(Broken::Form("a packet without a time".into())),
                _ => {}
            }
        }
    }
}

fn cut(packet: u64) -> Broken {
    Broken::Form(match packet {
        0 => "the capture is cut short in its header".into(),
        _ => format!("the capture is cut short or broken in packet {packet}, or after it"),
    })
}

/// So many bytes; nothing at the end, and a fault if it comes in the middle of them.
fn part<const SIZE: usize>(source: &mut impl Read) -> Maybe<Option<[u8; SIZE]>> {
    let mut room = [0; SIZE];
    let mut filled = 0;
    while filled < SIZE {
        match source.read(room.get_mut(filled..).unwrap_or_default()) {
            Ok(0) if filled == 0 => return Ok(None),
            Ok(0) => return Err(Broken::Form("the capture is cut short".into())),
            Ok(count) => filled += count,
            Err(error) if error.kind() == ErrorKind::Interrupted => {}
            Err(_) => return Err(Broken::Failed),
        }
    }
    Ok(Some(room))
}

/// So many bytes, or nothing if they aren't all there.
fn bytes(source: &mut impl Read, count: u32) -> Maybe<Option<Vec<u8>>> {
    let mut bytes = Vec::with_capacity(count.min(LONGEST_PACKET) as usize);
    match source.take(count.into()).read_to_end(&mut bytes) {
        Ok(read) => Ok((read == count as usize).then_some(bytes)),
        Err(_) => Err(Broken::Failed),
    }
}

/// The order of the bytes of a section, whose first four bytes were read.
fn section(source: &mut impl Read) -> Maybe<Order> {
    let [length @ .., a, b, c, d] = part::<8>(source)?.ok_or_else(|| cut(0))?;
    let order = match u32::from_le_bytes([a, b, c, d]) {
        BYTE_ORDER => Order::Little,
        other if other.swap_bytes() == BYTE_ORDER => Order::Big,
        _ => return Err(Broken::Form("no section of a capture".into())),
    };
    let length = order.u32(&length, 0).unwrap_or_default();
    let rest = length.checked_sub(12).filter(|rest| *rest <= LONGEST_BLOCK);
    let rest = rest.ok_or_else(|| Broken::Form("no section of a capture".into()))?;
    bytes(source, rest)?.map(|_| order).ok_or_else(|| cut(0))
}

/// The content of a block whose type was read.
fn block(source: &mut impl Read, order: Order) -> Maybe<Option<Vec<u8>>> {
    let Some(length) = part::<4>(source)? else { return Ok(None) };
    let length = order.u32(&length, 0).unwrap_or_default();
    let rest = length.checked_sub(8).filter(|rest| (4..=LONGEST_BLOCK).contains(rest));
    let rest = rest.ok_or_else(|| Broken::Form(format!("a block of {length} bytes")))?;
    // Blocks fill words of four bytes, and end with their length.
    let content = bytes(source, rest.div_ceil(4) * 4)?;
    Ok(content.map(|mut content| {
        content.truncate(rest as usize - 4);
        content
    }))
}

fn interface(order: Order, block: &[u8]) -> Option<Interface> {
    let link = order.u16(block, 0)?.into();
    let mut interface = Interface { link, units: 1_000_000, offset: 0 };
    let mut at = 8;
    while let (Some(code), Some(length)) = (order.u16(block, at), order.u16(block, at + 2)) {
        let value = block.get(at + 4..at + 4 + usize::from(length))?;
        match (code, value) {
            (0, _) => break,
            (RESOLUTION, [exponent, ..]) => interface.units = units(*exponent)?,
            (OFFSET, value) => {
                let (one, other) = (order.u32(value, 0)?.into(), order.u32(value, 4)?.into());
                let (high, low): (u64, u64) = match order {
                    Order::Little => (other, one),
                    Order::Big => (one, other),
                };
                interface.offset = (high << 32 | low) as i64;
            }
            _ => {}
        }
        at += 4 + usize::from(length).div_ceil(4) * 4;
    }
    Some(interface)
}

/// How many units a second has: a power of 10, or of 2 if the first bit is set.
fn units(exponent: u8) -> Option<u64> {
    match exponent & 0x80 {
        0 => 10_u64.checked_pow(exponent.into()),
        _ => 2_u64.checked_pow((exponent & 0x7F).into()),
    }
}

fn packet(order: Order, interfaces: &[Interface], kind: u32, block: &[u8]) -> Option<Frame> {
    let number = match kind {
        PACKET => order.u32(block, 0)? as usize,
        _ => order.u16(block, 0)?.into(),
    };
    let Interface { link, units, offset } = *interfaces.get(number)?;
    let stamp = u64::from(order.u32(block, 4)?) << 32 | u64::from(order.u32(block, 8)?);
    let (kept, length) = (order.u32(block, 12)?, order.u32(block, 16)?);
    let bytes = block.get(20..20 + kept as usize)?;
    let second = i64::try_from(stamp / units).ok()?.checked_add(offset)?;
    let part = u128::from(stamp % units) * u128::from(NANOSECONDS) / u128::from(units);
    let time = u64::try_from(second).ok()?.checked_mul(NANOSECONDS)?.checked_add(part as u64)?;
    Some(Frame { time, link, bytes: (kept >= length).then(|| bytes.to_vec()) })
}
