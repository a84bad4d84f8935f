"""Captures read by tshark (Debian's package tshark, 4.0 or later): every form, link type and tunnel that it knows, and SIP over TCP."""
import contextlib
import ipaddress
import json
import os
import shutil
import subprocess
import tempfile

import outside
from call_log import BUFFER, SECOND

INSTALL = 'apt install tshark'

# What is wanted of a packet. An INVITE in an error message of ICMP is no call.
WANTED = '!icmp && !icmpv6 && (sip || udp.payload[0:7] == "INVITE ")'
OVER_TCP = 'tcp && sip && !icmp && !icmpv6'
ON_PORT = 'udp.port == 5060 || (tcp.port == 5060 && tcp.len > 0)'
CARRIES = 'tcp.len > 0 && !icmp && !icmpv6'
FIELDS = 'frame frame.time_epoch frame.len frame.cap_len ip ip.src ipv6 ipv6.src udp udp.srcport udp.payload tcp tcp.srcport tcp.dstport sip'


def is_there():
    return shutil.which('tshark') is not None


@contextlib.contextmanager
def running(name, path, words):
    """What tshark writes of a capture; that it fails is a fault, where what it writes was read to its end."""
    with tempfile.TemporaryDirectory() as room, tempfile.TemporaryFile() as said:
        # No preferences of the user's.
        environment = os.environ | {'WIRESHARK_CONFIG_DIR': room, 'HOME': room, 'XDG_CONFIG_HOME': room}
        command = ['tshark', '-n', '-r', path, '-o', 'tcp.reassemble_out_of_order:TRUE', *words]
        with subprocess.Popen(command, stdin=subprocess.DEVNULL, stdout=subprocess.PIPE, stderr=said, env=environment, bufsize=BUFFER) as child:
            try:
                yield child.stdout
                is_whole = not child.stdout.read(1)
            finally:
                child.stdout.close()
                child.wait()
        if is_whole and child.returncode:
            said.seek(0)
            why = said.read().decode(errors='replace').strip().rpartition('\n')[2].removeprefix('tshark: ')
            raise outside.Fault(f'{name}: tshark reads no further: {why}')


class NotClassic(Exception):
    """A capture that can't be a classic one, since its packets are of several link types."""


@contextlib.contextmanager
def as_classic(name, path):
    """A capture of another form as a classic one in nanoseconds, which tshark makes without a look into the packets; or NotClassic."""
    with running(name, path, ['-F', 'nsecpcap', '-w', '-']) as stream:
        if not stream.peek(4):
            raise NotClassic
        yield stream


def lines(name, path, words):
    with running(name, path, words) as stream:
        yield from stream


def last(value):
    """A field that a packet in a tunnel has more than once is that of the innermost."""
    return value[-1] if isinstance(value, list) else value


def several(value):
    return value if isinstance(value, list) else [value]


def time_of(frame):
    second, _, fraction = frame['frame_frame_time_epoch'].partition('.')
    return int(second) * SECOND + int(f'{fraction:0<9}'[:9])


def source_of(layers, port):
    """The address and the port, as pcap.Reader has them."""
    for layer in ('ipv6', 'ip'):
        found = last(layers.get(layer, {})).get(f'{layer}_{layer}_src')
        if found:
            return ipaddress.ip_address(last(found)).packed + int(last(port)).to_bytes(2, 'big')
    return None


def look(name, path, connections):
    """Looks at the TCP connections of a capture."""
    words = ['-Y', CARRIES, '-T', 'fields', '-E', 'occurrence=l', '-e', 'tcp.srcport', '-e', 'tcp.dstport', '-e', 'tcp.payload']
    for line in lines(name, path, words):
        one, other, content = line.rstrip(b'\n').split(b'\t')
        connections.note(int(one), int(other), bytes.fromhex(content.decode()))


def messages(name, path, counts, connections, wanted=WANTED):
    """The time, the source and the bytes of each SIP message of a capture. One over TCP comes when its last segment does, and has no
    source: there no client sends a request again (RFC 3261, section 17.1.1.2)."""
    # What tshark takes for SIP of itself, on another port than SIP's, lacks each message that is cut in its first line.
    by_port = [word for port in connections.found() for word in ('-d', f'tcp.port=={port},sip')]
    for line in lines(name, path, [*by_port, '-Y', wanted, '-T', 'ek', '-x', '-j', FIELDS]):
        if line.startswith(b'{"index"') or not line.strip():
            continue
        layers = json.loads(line)['layers']
        frame, datagram = last(layers['frame']), last(layers.get('udp', {}))
        if int(frame['frame_frame_cap_len']) < int(frame['frame_frame_len']):
            counts['cut packets'] += 1
        elif 'udp_udp_payload_raw' in datagram:
            source = source_of(layers, datagram['udp_udp_srcport'])
            yield time_of(frame), source, bytes.fromhex(last(datagram['udp_udp_payload_raw']))
        else:
            segment = last(layers['tcp'])
            connections.note_read(*(int(last(segment[f'tcp_tcp_{end}port'])) for end in ('src', 'dst')))
            for message in several(layers['sip_raw']):
                yield time_of(frame), None, bytes.fromhex(message)


def has_traffic(name, path):
    """Whether a packet goes from or to SIP's port."""
    return sum(1 for _ in lines(name, path, ['-Y', ON_PORT, '-T', 'fields', '-e', 'frame.number'])) > 0
