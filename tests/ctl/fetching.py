"""A hostile https server on the loopback, and runs of `stirctl fetch` against it."""
import collections
import contextlib
import http.server
import pathlib
import ssl
import subprocess
import sys
import threading
import time

TESTS = pathlib.Path(__file__).resolve().parent.parent
sys.path.append(str(TESTS / 'tools'))
import issued  # noqa: E402

# How long the fetches take that end by their time alone.
SECONDS = 2

# The words that a server on the loopback needs.
TRUSTED = '--private', '--authorities=authorities'


class Handler(http.server.BaseHTTPRequestHandler):
    """Answers by the path. The server's `asked` counts the requests for each."""

    def log_message(self, *_):
        pass

    def do_GET(self):
        self.server.asked[self.path] += 1
        with contextlib.suppress(OSError):
            getattr(self, self.path.strip('/').partition('.')[0])()

    def send(self, data, status=200, length=None, **fields):
        self.send_response(status)
        for name, value in fields.items():
            self.send_header(name.replace('_', '-'), value)
        self.send_header('Content-Length', str(len(data) if length is None else length))
        self.end_headers()
        self.wfile.write(data)

    def file(self):
        """`/file.NAME`: the certificates of that name."""
        self.send(issued.files()[self.path.removeprefix('/file.')])

    def both(self):
        self.send(issued.files()['middle'] + issued.files()['carrier'])

    def fits(self):
        self.send(issued.files()['carrier'].ljust(49_152, b'\n'))

    def long(self):
        self.send(issued.files()['carrier'].ljust(49_153, b'\n'))

    def endless(self):
        self.protocol_version = 'HTTP/1.1'
        self.send_response(200)
        self.send_header('Transfer-Encoding', 'chunked')
        self.end_headers()
        while True:
            self.wfile.write(b'1000\r\n' + b'x' * 0x1000 + b'\r\n')

    def drip(self):
        self.send(b'', length=1000)
        while True:
            self.wfile.write(b'-')
            self.wfile.flush()
            time.sleep(0.2)

    def fields(self):
        """Header fields that come slowly and never end."""
        self.wfile.write(b'HTTP/1.1 200 OK\r\n')
        while True:
            self.wfile.write(b'X')
            self.wfile.flush()
            time.sleep(0.2)

    def silent(self):
        time.sleep(SECONDS + 2)

    def cut(self):
        self.send(issued.files()['carrier'][:300], length=623)

    def packed(self):
        self.send(issued.files()['carrier'], Content_Encoding='gzip')

    def html(self):
        self.send(b'<html>sign in</html>')

    def empty(self):
        self.send(b'')

    def gone(self):
        self.send(b'', 404)

    def garbage(self):
        self.send(b'\x30\x03\x02\x01\x05')

    def seven(self):
        self.send(issued.files()['carrier'] * 7)

    def same(self):
        self.send(b'', 302, Location='/file.carrier')

    def loop(self):
        self.send(b'', 302, Location='/loop')

    def other(self):
        self.send(b'', 302, Location=f'https://127.0.0.1:{self.server.server_port}/file.carrier')

    def plain(self):
        self.send(b'', 301, Location=f'http://localhost:{self.server.server_port}/file.carrier')

    def kept(self):
        self.send(issued.files()['carrier'], Cache_Control='public, max-age=3600')

    def flaky(self):
        """Good once, and then broken."""
        is_first = self.server.asked[self.path] == 1
        self.send(issued.files()['soon'] if is_first else b'busy', 200 if is_first else 503, Cache_Control='no-cache')

    def chain(self):
        """`/chain.N`: that file of the server's world."""
        self.send((self.server.chains / f'chain-{self.path.removeprefix("/chain.")}.der').read_bytes(), Cache_Control='max-age=3600')


@contextlib.contextmanager
def served(room):
    """A server; its files are left in the room, with those that a run of `fetch` needs."""
    (room / 'server.pem').write_bytes(issued.files()['localhost'] + issued.files()['localhost.key'])
    context = ssl.SSLContext(ssl.PROTOCOL_TLS_SERVER)
    context.load_cert_chain(room / 'server.pem')
    server = http.server.ThreadingHTTPServer(('', 0), Handler)
    server.daemon_threads, server.handle_error = True, lambda *_: None
    server.asked, server.chains = collections.Counter(), room / 'world'
    server.socket = context.wrap_socket(server.socket, server_side=True, do_handshake_on_connect=False)
    threading.Thread(target=server.serve_forever, daemon=True).start()
    port = server.server_port
    (room / 'hosts').write_text(f'; the server\nlocalhost:{port}\n127.0.0.1:{port}\n127.0.0.2:{port}\n*.invalid\n')
    (room / 'authorities').write_bytes(issued.files()['localhost'])
    yield server
    server.shutdown()
    server.server_close()


class Fetches:
    """Runs of `stirctl fetch` in the folder of a server."""

    def __init__(self, ctl, room, server):
        self.ctl, self.room, self.server = ctl, room, server

    def at(self, path):
        return f'https://localhost:{self.server.server_port}/{path}'

    def words(self, *words):
        return [self.ctl, 'fetch', '--hosts=hosts', *words]

    def __call__(self, x5us, *words):
        """The status, the chain map, and what is said, by the x5us: whose order is that in which the answers came."""
        given = ''.join(f'{x5u}\n' for x5u in x5us).encode()
        done = subprocess.run(self.words(*words), input=given, stdout=subprocess.PIPE, stderr=subprocess.PIPE, cwd=self.room, timeout=120)
        return done.returncode, dict(line.split() for line in done.stdout.decode().splitlines()), sorted(done.stderr.decode().splitlines())
