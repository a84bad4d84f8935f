"""One run of calls as captures of many forms, made by the layouts of pcapng, Linux cooked captures and RFC 9293, and the one log that
tools/stir-log must make of them all."""
import gzip
import random
import struct

import captures

LOOPBACK, COOKED, COOKED_2 = 0, 113, 276


def call(number, body=b''):
    """An INVITE with a length, as every message over TCP has one (RFC 3261, section 18.3)."""
    message = captures.message(number, rest=body)
    return message.replace(b'INVITE\r\n\r\n', b'INVITE\r\nContent-Length: %d\r\n\r\n' % len(body))


RUN = [(700, call(1)), (701, call(2, b'v=0\r\n\r\nINVITE x')), (701, call(3)), (702, call(4, b'\0' * 3000)), (703, call(5))]
LOG = captures.log(RUN)


def tcp(content, sequence, port=5070, to=5060, flags=0x18):
    return struct.pack('>HHIIBBHHH', port, to, sequence & 0xFFFFFFFF, 1, 0x50, flags, 65535, 0, 0) + content


def segment(content, sequence, port=5070, to=5060, flags=0x18):
    return captures.ethernet(captures.ipv4(tcp(content, sequence, port, to, flags), protocol=6))


def stream(parts, port=5070, first=1000, to=5060):
    """The frames of a connection that carries these parts, each with its time."""
    frames, at = [(parts[0][0], segment(b'', first - 1, port, to, 2))], first
    for time, content in parts:
        frames.append((time, segment(content, at, port, to)))
        at += len(content)
    return frames


def cut(messages, size):
    """The messages in parts of so many bytes."""
    return [(time, message[at:at + size]) for time, message in messages for at in range(0, len(message), size)]


def joined(messages):
    """Everything in one part, at the last message's time."""
    return [(messages[-1][0], b''.join(message for _, message in messages))]


def everywhere(to):
    """For each place in two messages a connection of its own to this port, cut there."""
    text, frames = call(6) + call(7, b'hello'), []
    for place in range(1, len(text)):
        frames += stream([(800 + place, text[:place]), (800 + place, text[place:])], 10000 + place, to=to)
    return frames, [(800 + place, message) for place in range(1, len(text)) for message in (call(6), call(7, b'hello'))]


def shuffled(frames):
    """Segments in another order and some of them twice: the first two and the last, which is of a later time, stay where they are."""
    some = frames[2:-1] + frames[4:8]
    random.Random(1).shuffle(some)
    return frames[:2] + some + frames[-1:]


def cooked(packet, link):
    """A packet as `tcpdump -i any` has it (link types LINKTYPE_LINUX_SLL and LINKTYPE_LINUX_SLL2 of the tcpdump group)."""
    kind = 0x86DD if packet[0] >> 4 == 6 else 0x0800
    if link == COOKED:
        return struct.pack('>HHH8sH', 0, 1, 6, bytes(8), kind) + packet
    return struct.pack('>HHIHBB8s', kind, 0, 1, 1, 0, 6, bytes(8)) + packet


def block(kind, content):
    content += bytes(-len(content) % 4)
    return struct.pack('<II', kind, 12 + len(content)) + content + struct.pack('<I', 12 + len(content))


def pcapng(*interfaces):
    """A capture in the next generation's form (draft-ietf-opsawg-pcapng, sections 4.1 to 4.3), in microseconds: of each interface its frames
    and its link type."""
    data = block(0x0A0D0D0A, struct.pack('<IHHq', 0x1A2B3C4D, 1, 0, -1))
    for _, link in interfaces:
        data += block(1, struct.pack('<HHI', link, 0, 0))
    for interface, time, frame in ((number, *it) for number, (frames, _) in enumerate(interfaces) for it in frames):
        stamp = time * 1_000_000 + 999
        data += block(6, struct.pack('<IIIII', interface, stamp >> 32, stamp & 0xFFFFFFFF, len(frame), len(frame)) + frame)
    return data


def fragmented(message, number):
    """A message over UDP in packets of Ethernet."""
    datagram = captures.udp(message)
    pieces = [datagram[at:at + 1480] for at in range(0, len(datagram), 1480)]
    return [captures.ipv4(piece, number, 1480 * at, at < len(pieces) - 1) for at, piece in enumerate(pieces)]


PACKETS = [(time, packet) for number, (time, message) in enumerate(RUN) for packet in fragmented(message, number)]
FRAMES = [(time, captures.ethernet(packet)) for time, packet in PACKETS]
ANY = [(time, cooked(packet, COOKED_2)) for time, packet in PACKETS]
SHUFFLED = stream(RUN[:3]) + shuffled(stream(cut(RUN[3:], 100), first=1000 + sum(len(it[1]) for it in RUN[:3])))[1:]
DNS = struct.pack('>HHHH', 53, 53, 9, 0) + b'x'
NO_TRAFFIC = [(1, captures.ethernet(captures.ipv4(DNS)))]
ONE_PART = RUN[:1], [RUN[1], RUN[2]], RUN[3:4], RUN[4:]
CUT_EVERYWHERE, EVERYWHERE = everywhere(5060)
# Connections to other ports than SIP's, of which 8080 is one that tshark takes for another protocol's; and one that carries no SIP, but for a byte each.
ELSEWHERE = stream(cut(RUN[:3], 300), 40000, to=5070) + stream(RUN[3:], 40001, to=8080)
WEB = stream([(700, b'GET /index HTTP/1.1\r\nHost: a\r\n\r\n'), (701, b'GET /sip:a HTTP/1.1\r\n\r\n')], 40002, to=80)
SPLIT = stream([(time, bytes([byte])) for time, message in RUN[:3] for byte in message], 40003, to=5090)
# Messages of which the capture lacks all ends.
UNREADABLE = stream([(700, call(1)[:-9])], 40004, to=5070) + stream([(701, call(2)[:200])], 40005, to=5080)
NO_CALLS = [(time, captures.ethernet(captures.ipv4(captures.udp(captures.message(number, 'OPTIONS'))))) for number, time in enumerate((1, 2))]

def invite(*identities):
    return captures.message(9).replace(b'\r\n\r\n', b'\r\n' + b'\r\n'.join(identities) + b'\r\n\r\n')


# Identity fields with an x5u: plain, with blanks and a short name, folded, and one whose quoted parameter looks like another; and some without.
X5US = captures.log([(1, invite(b'Identity: t;info=<https://a.example/1>;alg=ES256', b'y: t ; INFO = <https://a.example/2> ;ppt=shaken')),
                     (2, invite(b'Identity: t;info=<https://a.example/1>', b'Identity: t\r\n ;info=\r\n\t<https://a.example/3>')),
                     (3, captures.message(3) + b'\nIdentity: t;info=<https://a.example/body>'),
                     (4, invite(b'Identity: t;info=<a b>', b'Identity: t;info=u', b'Identity: t;x=";info=<v>"', b'Identity: t;y=1;info=<w>', b'Identity: '))])

FILES = {
    'x5us.log': X5US, 'x5us': b'https://a.example/1\nhttps://a.example/2\nhttps://a.example/3\n', 'x5us-cut.log': X5US[:-1],
    'x5us-no.log': b'@1 2\nab@02 3\nabc',
    'run.log': LOG,
    'three.log': captures.FILES['ethernet.log'] + captures.FILES['dialogs.log'] + LOG,
    'run-udp.pcap': captures.pcap(FRAMES, captures.ETHERNET),
    'run-any.pcap': captures.pcap([(time, cooked(packet, COOKED)) for time, packet in PACKETS], COOKED),
    'run-any-2.pcap': captures.pcap(ANY, COOKED_2),
    'run-any-2.pcapng': pcapng((ANY, COOKED_2)),
    'run-udp.pcapng': pcapng((FRAMES, captures.ETHERNET)),
    'run-tcp.pcap': captures.pcap(stream(RUN), captures.ETHERNET),
    'run-tcp-cut.pcap': captures.pcap(stream(cut(RUN, 11)), captures.ETHERNET),
    'run-tcp-joined.pcap': captures.pcap(stream([part for some in ONE_PART for part in joined(some)]), captures.ETHERNET),
    'run-tcp-shuffled.pcapng': pcapng((SHUFFLED, captures.ETHERNET)),
    'run-two.pcapng': pcapng((FRAMES[:3], captures.ETHERNET), (ANY[3:], COOKED_2)),
    'run-cut.pcapng': pcapng((FRAMES, captures.ETHERNET))[:-9],
    'elsewhere.pcap': captures.pcap(ELSEWHERE + WEB, captures.ETHERNET),
    'elsewhere.pcapng': pcapng((ELSEWHERE + WEB, captures.ETHERNET)),
    'elsewhere-loopback.pcap': captures.pcap([(time, struct.pack('<I', 2) + frame[14:]) for time, frame in ELSEWHERE], LOOPBACK),
    'elsewhere-everywhere.pcap': captures.pcap(everywhere(5070)[0], captures.ETHERNET),
    'web.pcap': captures.pcap(WEB, captures.ETHERNET),
    'split.pcap': captures.pcap(SPLIT, captures.ETHERNET),
    'split.log': captures.log(RUN[:3]),
    'unreadable.pcap': captures.pcap(UNREADABLE + FRAMES, captures.ETHERNET),
    'unreadable-loopback.pcap': captures.pcap([(time, struct.pack('<I', 2) + frame[14:]) for time, frame in UNREADABLE + FRAMES], LOOPBACK),
    'run-loopback.pcap': captures.pcap([(time, struct.pack('<I', 2) + packet) for time, packet in PACKETS], LOOPBACK),
    'run-half-tcp.pcap': captures.pcap(FRAMES[:2] + stream(RUN[2:]), captures.ETHERNET),
    'everywhere.pcap': captures.pcap(CUT_EVERYWHERE, captures.ETHERNET),
    'everywhere.log': captures.log(EVERYWHERE),
    'no-calls.pcap': captures.pcap(NO_CALLS, captures.ETHERNET),
    'no-calls.pcapng': pcapng((NO_CALLS, captures.ETHERNET)),
    'no-traffic.pcapng': pcapng((NO_TRAFFIC, captures.ETHERNET)),
    'no-traffic-loopback.pcap': captures.pcap([(1, struct.pack('<I', 2) + captures.ipv4(DNS))], LOOPBACK),
    'no-calls-loopback.pcap': captures.pcap([(1, struct.pack('<I', 2) + captures.ipv4(captures.udp(b'\0')))], LOOPBACK),
    'not-gzip.gz': b'\x1f\x8bnothing',
}
FILES['run-udp.pcap.gz'] = gzip.compress(FILES['run-udp.pcap'])
FILES['run-cut.pcap.gz'] = FILES['run-udp.pcap.gz'][:-9]
FILES['run-udp.pcapng.gz'] = gzip.compress(FILES['run-udp.pcapng'])
FILES['x5us.log.gz'] = gzip.compress(X5US)
FILES['list.gz'] = gzip.compress(captures.FILES['list'])
