"""`stirctl collect`: the calls of agents of capture, which are Kamailio's siptrace and packets that are made here by HEP3's description."""
import json
import random
import shutil
import signal
import socket
import struct
import subprocess
import sys
import time
import zlib

import pytest

INVITE = 'INVITE sip:+12125551213@127.0.0.1 SIP/2.0\r\nVia: SIP/2.0/UDP 127.0.0.1:9;rport;branch=z9hG4bK{0}\r\nMax-Forwards: 70\r\nFrom: <sip:+12155551212@a.example>;tag={0}\r\n' \
    'To: <sip:+12125551213@127.0.0.1>{1}\r\nCall-ID: c{0}\r\nCSeq: 1 INVITE\r\nContent-Length: 0\r\n\r\n'
CONFIG = '''
log_stderror=yes
children=1
auto_aliases=no
disable_tcp=yes
loadmodule "sl.so"
loadmodule "pv.so"
loadmodule "siptrace.so"
modparam("siptrace", "duplicate_uri", "sip:{0}")
modparam("siptrace", "hep_mode_on", 1)
modparam("siptrace", "hep_version", 3)
modparam("siptrace", "trace_to_database", 0)
modparam("siptrace", "trace_on", 1)
request_route {{
    sip_trace();
    sl_send_reply("486", "Busy Here");
}}
'''


def message(number, tag=''):
    return INVITE.format(number, tag).encode()


def chunk(kind, content, vendor=0):
    return struct.pack('!HHH', vendor, kind, len(content) + 6) + content


def packet(data, moment=1_700_000_000, source=('192.0.2.1', 5060), kind=15, protocol=1, more=b''):
    body = chunk(1, b'\2') + chunk(2, b'\x11') + chunk(3, socket.inet_aton(source[0])) + chunk(7, struct.pack('!H', source[1]))
    body += chunk(9, struct.pack('!I', moment)) + chunk(11, bytes([protocol])) + more + chunk(kind, data)
    return b'HEP3' + struct.pack('!H', len(body) + 6) + body


class Collector:
    """`stirctl collect` that was started, and what it wrote once it was told to end."""

    def __init__(self, ctl, folder, *words):
        self.out = open(folder / 'out', 'wb')
        self.process = subprocess.Popen([ctl, 'collect', '--hep=127.0.0.1:0', *words], stdout=self.out, stderr=subprocess.PIPE, cwd=folder)
        self.place = tuple(self.process.stderr.readline().decode().rsplit(' ', 1)[1].strip().split(':'))
        self.place = self.place[0], int(self.place[1])

    def read(self):
        """What it wrote so far. Its own place in the file stays."""
        with open(self.out.name, 'rb') as file:
            return file.read()

    def has(self, count, seconds):
        """Whether there are so many lines before so many seconds are over."""
        until = time.monotonic() + seconds
        while time.monotonic() < until:
            if len(self.read().splitlines()) >= count:
                return True
            time.sleep(0.02)
        return False

    def lines(self, count):
        """The lines, once there are so many."""
        assert self.has(count, 30), f'fewer than {count} lines'
        return [json.loads(line) for line in self.read().splitlines()]

    def end(self):
        """What it wrote, and what it said at its end."""
        self.process.send_signal(signal.SIGTERM)
        _, said = self.process.communicate(timeout=30)
        assert self.process.returncode == 0, said
        return self.read(), said.decode().splitlines()[-1]


@pytest.fixture
def collector(ctl, tmp_path):
    started = []

    def start(*words):
        started.append(Collector(ctl, tmp_path, *words))
        return started[-1]
    yield start
    for one in started:
        one.process.kill()
        one.out.close()


def sent(place, *packets):
    with socket.socket(socket.AF_INET, socket.SOCK_DGRAM) as udp:
        for data in packets:
            udp.sendto(data, place)
            time.sleep(0.002)


@pytest.fixture
def proxy(tmp_path):
    """Starts a Kamailio that traces to this place, and gives its port."""
    started = []

    def start(place):
        (tmp_path / 'kamailio.cfg').write_text(CONFIG.format('%s:%d' % place))
        with socket.socket(socket.AF_INET, socket.SOCK_DGRAM) as free:
            free.bind(('127.0.0.1', 0))
            port = free.getsockname()[1]
        words = ['kamailio', '-DD', '-f', 'kamailio.cfg', '-l', f'udp:127.0.0.1:{port}', '-m', '16', '-M', '4']
        with open(tmp_path / 'said', 'wb') as said:
            started.append(subprocess.Popen(words, cwd=tmp_path, stdout=said, stderr=said))
        return port
    yield start
    for one in started:
        one.kill()
        one.wait()


def answered(phone, port, data):
    """Sends a request until it is answered: Kamailio may not listen yet."""
    for _ in range(60):
        phone.sendto(data, ('127.0.0.1', port))
        try:
            assert phone.recv(65_535).startswith(b'SIP/2.0 486 ')
            return
        except TimeoutError:
            continue
    raise AssertionError(f'no answer to {data}')


@pytest.mark.skipif(not shutil.which('kamailio'), reason='kamailio is missing')
def test_what_kamailio_traces_is_collected_and_judged(collector, proxy, ctl, tmp_path):
    one, begun = collector(), int(time.time())
    port = proxy(one.place)
    with socket.socket(socket.AF_INET, socket.SOCK_DGRAM) as phone:
        phone.bind(('127.0.0.1', 0))
        phone.settimeout(0.5)
        for number in range(20):
            answered(phone, port, message(number))
        lines, source = one.lines(20), '%s:%d' % phone.getsockname()
    assert [line['message'].encode() for line in lines] == [message(number) for number in range(20)]
    assert all(line['source'] == source and begun <= line['moment'] <= time.time() for line in lines)
    _, said = one.end()
    assert said.startswith('stirctl: calls 20')
    given = b''.join(json.dumps(line).encode() + b'\n' for line in lines)
    (tmp_path / 'anchors').write_bytes(b'')
    (tmp_path / 'chains').write_bytes(b'')
    done = subprocess.run([ctl, 'judge', '--stream', '--anchors=anchors', '--chains=chains', '--codes=listed', '-'], input=given, cwd=tmp_path,
                          capture_output=True, timeout=60)
    assert {json.loads(line)['stir']['response'] for line in done.stdout.splitlines()} == {428}, done


def test_a_call_is_written_once_and_else_is_counted(collector, tmp_path):
    (tmp_path / 'password').write_text('word\n')
    one = collector('--password=password', '--initial')
    knows = chunk(14, b'word')
    sent(one.place, packet(message(1), more=knows), packet(message(1), more=knows), packet(message(1), source=('192.0.2.1', 5061), more=knows),
         packet(message(1), moment=1_700_000_033, more=knows), packet(zlib.compress(message(2)), kind=16, more=knows), packet(message(3)),
         packet(message(3), more=chunk(14, b'ward')), packet(message(4, ';tag=9'), more=knows), packet(b'BYE sip:a SIP/2.0\r\n\r\n', more=knows),
         packet(b'rtcp', protocol=5), b'HEP3', b'', packet(b'INVITE \xff', more=knows))
    lines = one.lines(5)
    assert [(line['moment'], line['source'], line.get('message'), line.get('message_base64')) for line in lines] == [
        (1_700_000_000, '192.0.2.1:5060', message(1).decode(), None), (1_700_000_000, '192.0.2.1:5061', message(1).decode(), None),
        (1_700_000_033, '192.0.2.1:5060', message(1).decode(), None), (1_700_000_000, '192.0.2.1:5060', message(2).decode(), None),
        (1_700_000_000, '192.0.2.1:5060', None, 'SU5WSVRFIP8=')]
    _, said = one.end()
    assert said == ('stirctl: calls 5; left out: retransmissions 1, re-INVITEs 1, other messages 2, packets that are none of HEP3 2, '
                    'packets without the password 2')


def test_a_log_has_the_calls_of_two_agents_over_tcp(collector, ctl, tmp_path):
    one = collector('--log')
    agents = [socket.create_connection(one.place) for _ in range(2)]
    for number in range(200):
        data = packet(message(number), moment=1_700_000_000 + number // 10 - number % 2)
        for piece in (data[:3], data[3:50], data[50:]):
            agents[number % 2].sendall(piece)
        time.sleep(0.001)
    for agent in agents:
        agent.sendall(b'HEP2..')
        assert agent.recv(10) == b''
        agent.close()
    log, said = one.end()
    assert said == 'stirctl: calls 200; left out: packets that are none of HEP3 2'
    moments = [int(line.split()[0][1:]) for line in log.splitlines() if line.startswith(b'@1')]
    assert len(moments) == 200 and moments == sorted(moments) and moments[0] == 1_700_000_000
    (tmp_path / 'anchors').write_bytes(b'')
    (tmp_path / 'chains').write_bytes(b'')
    done = subprocess.run([ctl, 'judge', '--anchors=anchors', '--chains=chains', '--codes=listed', '-'], input=log, cwd=tmp_path, capture_output=True, timeout=60)
    assert done.stdout.decode() == ''.join(f'{number} refused 428 2 0.0\n' for number in range(1, 201)), done


def test_spoilt_packets_end_nothing(collector):
    one, draws = collector(), random.Random(20_261_201)
    for _ in range(5_000):
        data = bytearray(packet(message(draws.randrange(1_000))))
        for _ in range(draws.randint(1, 4)):
            data[draws.randrange(len(data))] = draws.randrange(256)
        sent_one = bytes(data[:draws.choice([len(data), draws.randrange(len(data))])])
        with socket.socket(socket.AF_INET, socket.SOCK_DGRAM) as udp:
            udp.sendto(sent_one, one.place)
    # A datagram is lost if the receiver's buffer is full of those before it, so this one is sent until it has come.
    until = time.monotonic() + 30
    while b'Call-ID: clast' not in open(one.out.name, 'rb').read():
        assert one.process.poll() is None and time.monotonic() < until
        sent(one.place, packet(message('last')))
        time.sleep(0.05)
    one.end()


def test_an_address_that_is_taken_is_told(ctl):
    with socket.socket(socket.AF_INET, socket.SOCK_DGRAM) as taken:
        taken.bind(('127.0.0.1', 0))
        place = '127.0.0.1:%d' % taken.getsockname()[1]
        done = subprocess.run([ctl, 'collect', f'--hep={place}'], capture_output=True, timeout=30)
    assert done.returncode == 2 and done.stderr.startswith(f'stirctl: {place}: '.encode()), (done, sys.platform)
