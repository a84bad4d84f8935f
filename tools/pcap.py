"""Captures in the form of classic pcap with SIP over UDP, read packet by packet: Ethernet, also with VLAN tags, raw IP, and what
`tcpdump -i any` writes; IPv4 and IPv6, with fragments put together. What else a capture may be is read by tshark (shark.py)."""
import struct

import outside
from call_log import SECOND
from connections import SIP_PORT

# The first bytes of a capture: the order of its bytes, and the unit of its fractions of a second.
KINDS = {b'\xd4\xc3\xb2\xa1': ('<', 1000), b'\x4d\x3c\xb2\xa1': ('<', 1), b'\xa1\xb2\xc3\xd4': ('>', 1000), b'\xa1\xb2\x3c\x4d': ('>', 1)}
NEXT_GENERATION = b'\x0a\x0d\x0d\x0a'

# The most bytes of a packet that tcpdump writes.
LONGEST_PACKET = 262_144

# Link types of the tcpdump group, and where in the others than Ethernet the protocol stands, if it does, and the packet begins.
ETHERNET, RAW, COOKED, COOKED_2 = 1, 101, 113, 276
PLACES = {RAW: (None, 0), COOKED: (14, 16), COOKED_2: (0, 20)}
VLANS = (b'\x81\x00', b'\x88\xa8')
IP = (b'\x08\x00', b'\x86\xdd')
TCP, UDP, FRAGMENT = 6, 17, 44
# The bytes of a header of TCP without options.
SHORTEST_TCP = 20
# Hop-by-hop options, routing and destination options (RFC 8200, section 4).
HEADERS_BEFORE = (0, 43, 60)
SIP = SIP_PORT.to_bytes(2, 'big')


def header(name, file):
    """The order of the bytes of a capture, the unit of its fractions, and the link type of its packets."""
    data = file.read(24)
    order, unit = KINDS[data[:4]]
    if len(data) < 24:
        raise outside.Fault(f'{name}: the capture is cut short in its header')
    return order, unit, struct.unpack(order + 'I', data[20:24])[0] & 0xFFFF


def is_read(link):
    """Whether packets of this link type are read."""
    return link == ETHERNET or link in PLACES


def packets(name, file, order, unit, link):
    """Each packet of a capture with its time, and its captured bytes: None if those are fewer than there were."""
    record, number = struct.Struct(order + '4I'), 0
    while entry := file.read(16):
        number += 1
        if len(entry) < 16:
            raise outside.Fault(f'{name}: the capture is cut short in packet {number}')
        second, fraction, kept, length = record.unpack(entry)
        if kept > LONGEST_PACKET:
            raise outside.Fault(f'{name}: packet {number} is of {kept} bytes, which no capture has')
        frame = file.read(kept)
        if len(frame) < kept:
            raise outside.Fault(f'{name}: the capture is cut short in packet {number}')
        yield second * SECOND + fraction * unit, frame_content(frame, link) if kept >= length else None


def frame_content(frame, link):
    """The IP packet in a frame, in Ethernet after its VLAN tags (IEEE 802.1Q); nothing where there is none."""
    if link != ETHERNET:
        kind, start = PLACES[link]
        return frame[start:] if kind is None or frame[kind:kind + 2] in IP else b''
    at = 12
    while frame[at:at + 2] in VLANS:
        at += 4
    return frame[at + 2:] if frame[at:at + 2] in IP else b''


class Fragments:
    """The fragments of IP packets whose others haven't come."""

    def __init__(self):
        self.waiting, self.lost = {}, 0

    def whole(self, time, packet, offset, more, content):
        """The content of the packet to which this fragment belongs, or None while others are missing. After a minute a packet's
        identification may stand for another packet (RFC 8200, section 4.5)."""
        if not (offset or more):
            return content
        since, parts = self.waiting.pop(packet, (time, {}))
        if time - since > 60 * SECOND:
            since, parts = time, {}
            self.lost += 1
        self.waiting[packet] = since, parts
        self.forget(time)
        parts[offset] = content, more
        joined = b''
        while len(joined) in parts:
            content, more = parts[len(joined)]
            joined += content
            if not more:
                del self.waiting[packet]
                return joined
            if not content:
                break
        return None

    def forget(self, time):
        """Drops the oldest packet, where its time is up: so no more are kept than came in a minute."""
        oldest = next(iter(self.waiting))
        if time - self.waiting[oldest][0] > 60 * SECOND:
            del self.waiting[oldest]
            self.lost += 1


def transported(time, packet, fragments):
    """The protocol that an IP packet carries, and its segment: None while fragments of it are missing."""
    version = packet[0] >> 4 if packet else 0
    if version == 4 and len(packet) >= 20:
        # RFC 791, section 3.1.
        length, identification, flags = struct.unpack_from('>HHH', packet, 2)
        content, protocol = packet[(packet[0] & 15) * 4:length], packet[9]
        if flags & 0x3FFF and protocol == UDP:
            place = packet[12:20], identification
            return UDP, fragments.whole(time, place, (flags & 0x1FFF) * 8, bool(flags & 0x2000), content)
        return protocol, content
    if version == 6 and len(packet) >= 40:
        # RFC 8200, sections 3 and 4.
        content, protocol = packet[40:40 + int.from_bytes(packet[4:6], 'big')], packet[6]
        while protocol in HEADERS_BEFORE and len(content) >= 8:
            protocol, content = content[0], content[8 + 8 * content[1]:]
        if protocol == FRAGMENT and len(content) >= 8 and content[0] == UDP:
            flags, identification = struct.unpack_from('>HI', content, 2)
            return UDP, fragments.whole(time, (packet[8:40], identification), flags & 0xFFF8, bool(flags & 1), content[8:])
        return protocol, content
    return 0, b''


class Reader:
    """Reads captures, and counts what it sees on the way."""

    def __init__(self, counts, connections):
        self.counts, self.connections = counts, connections
        # Packets of UDP from or to SIP's port.
        self.on_port = 0

    def messages(self, name, file, kind):
        """The time, the source (address and port) and the bytes of what each UDP datagram of a capture carries, from after its header on."""
        fragments = Fragments()
        for time, packet in packets(name, file, *kind):
            if packet is None:
                self.counts['cut packets'] += 1
                continue
            protocol, segment = transported(time, packet, fragments)
            if segment is None:
                continue
            if protocol == UDP and len(segment) >= 8:
                # RFC 768.
                self.on_port += SIP in (segment[:2], segment[2:4])
                address = packet[12:16] if packet[0] >> 4 == 4 else packet[8:24]
                yield time, address + segment[:2], segment[8:int.from_bytes(segment[4:6], 'big')]
            elif protocol == TCP and len(segment) >= SHORTEST_TCP and segment[12] >> 4 >= SHORTEST_TCP // 4:
                # RFC 9293, section 3.1.
                self.connections.note(*struct.unpack_from('>HH', segment), segment[(segment[12] >> 4) * 4:])
            else:
                self.counts['other messages'] += 1
        self.counts['other messages'] += self.connections.others()
        self.counts['packets with missing fragments'] += fragments.lost + len(fragments.waiting)
