"""A real https server for certificates, and worlds whose x5us lead to it.

What it does with a request hangs on the first part of its path: `/chain/N` gives the chain of the n-th certificate, and each other one is a server that means no good.
"""
import collections
import contextlib
import datetime
import http.server
import ipaddress
import ssl
import threading
import time

from cryptography import x509
from cryptography.hazmat.primitives import hashes, serialization
from stird import Stird
from world import World, key

# As many addresses of the loopback serve as hosts.
HOSTS = 40


def tls_certificate(name, names, issuer=None, days=30):
    """A certificate for TLS, of an authority if it has no issuer, with the key of its name."""
    now = datetime.datetime.utcnow()
    called = x509.Name([x509.NameAttribute(x509.NameOID.COMMON_NAME, name)])
    builder = (
        x509.CertificateBuilder()
        .subject_name(called)
        .issuer_name(x509.Name([x509.NameAttribute(x509.NameOID.COMMON_NAME, issuer or name)]))
        .public_key(key(f"tls {name}").public_key())
        .serial_number(x509.random_serial_number())
        .not_valid_before(now - datetime.timedelta(days=60))
        .not_valid_after(now + datetime.timedelta(days=days))
        .add_extension(x509.BasicConstraints(not issuer, None), True)
        .add_extension(x509.SubjectKeyIdentifier.from_public_key(key(f"tls {name}").public_key()), False)
        .add_extension(x509.AuthorityKeyIdentifier.from_issuer_public_key(key(f"tls {issuer or name}").public_key()), False)
    )
    if names:
        builder = builder.add_extension(x509.SubjectAlternativeName(names), False)
    return builder.sign(key(f"tls {issuer or name}"), hashes.SHA256()).public_bytes(serialization.Encoding.PEM)


class Handler(http.server.BaseHTTPRequestHandler):
    """Answers by the first part of the path."""
    protocol_version = "HTTP/1.1"

    def log_message(self, *_):
        pass

    def do_GET(self):
        web, (kind, _, rest) = self.server.web, self.path[1:].partition("/")
        with web.lock:
            web.asked[self.path] += 1
            web.times.append(time.monotonic())
        with contextlib.suppress(OSError):
            getattr(self, kind)(rest)

    def send(self, data, status=200, length=None, **fields):
        self.send_response(status)
        for name, value in fields.items():
            self.send_header(name.replace("_", "-"), value)
        self.send_header("Content-Length", str(len(data) if length is None else length))
        self.end_headers()
        self.wfile.write(data)

    def chain(self, rest):
        self.send(self.server.web.chains[rest.partition("?")[0]], **self.server.web.fields)

    def slow(self, rest):
        time.sleep(self.server.web.delay)
        self.chain(rest)

    def gone(self, _):
        self.send(b"", 404)

    def html(self, _):
        self.send(b"<html>sign in</html>")

    def cut(self, _):
        self.send(b"0\x82", length=600)

    def drip(self, _):
        self.send(b"", length=1000)
        while True:
            self.wfile.write(b"-")
            self.wfile.flush()
            time.sleep(0.2)

    def endless(self, _):
        self.send_response(200)
        self.send_header("Transfer-Encoding", "chunked")
        self.end_headers()
        while True:
            self.wfile.write(b"1000\r\n" + b"x" * 0x1000 + b"\r\n")

    def lines(self, _):
        """Lines of a head that never ends."""
        self.wfile.write(b"HTTP/1.1 200 OK\r\n")
        while True:
            self.wfile.write(b"X-More: " + b"x" * 100 + b"\r\n")

    def away(self, rest):
        self.send(b"", 302, Location=f"https://127.0.0.1:{self.server.server_port}/chain/{rest}")

    def here(self, rest):
        self.send(b"", 302, Location=f"/chain/{rest}")


class Listener(http.server.ThreadingHTTPServer):
    daemon_threads, request_queue_size = True, 128

    def handle_error(self, *_):
        pass


class Web:
    """A server on all addresses of the loopback, and what was asked of it. `names` and `days` are those of its certificate for TLS."""

    def __init__(self, folder, names=None, days=30):
        self.asked, self.times, self.lock = collections.Counter(), [], threading.Lock()
        self.chains, self.fields, self.delay = {}, {}, 0.5
        folder.mkdir(parents=True, exist_ok=True)
        self.authorities = folder / "authorities.pem"
        self.authorities.write_bytes(tls_certificate("authority", []))
        if names is None:
            names = [x509.DNSName("localhost")] + [x509.IPAddress(ipaddress.ip_address(f"127.0.0.{number + 1}")) for number in range(HOSTS)]
        pair = folder / "server.pem"
        secret = key("tls server").private_bytes(serialization.Encoding.PEM, serialization.PrivateFormat.PKCS8, serialization.NoEncryption())
        pair.write_bytes(tls_certificate("server", names, "authority", days) + secret)
        context = ssl.SSLContext(ssl.PROTOCOL_TLS_SERVER)
        context.load_cert_chain(pair)
        self.listener = Listener(("", 0), Handler)
        self.listener.web = self
        self.listener.socket = context.wrap_socket(self.listener.socket, server_side=True, do_handshake_on_connect=False)
        self.port = self.listener.server_port
        self.hosts = folder / "hosts.txt"
        self.hosts.write_text("; the server\n" + f"localhost:{self.port}\n" + "".join(f"127.0.0.{number + 1}:{self.port}\n" for number in range(HOSTS)))
        self.thread = threading.Thread(target=self.listener.serve_forever, args=(0.05,), daemon=True)
        self.thread.start()

    def at(self, path, host="localhost"):
        return f"https://{host}:{self.port}/{path}"

    def count(self):
        """How many requests there were."""
        with self.lock:
            return sum(self.asked.values())

    def words(self, *more):
        return ["--fetch-hosts", str(self.hosts), "--fetch-authorities", str(self.authorities), "--fetch-private", "yes", *map(str, more)]

    def stop(self):
        self.listener.shutdown()
        self.listener.server_close()


class Fetched(World):
    """A world whose x5us lead to a server, which has its chains."""

    def __init__(self, folder, chains, web, now=None, code=None):
        self.web = web
        super().__init__(folder, chains, now or int(time.time()), code)
        for n in range(chains):
            web.chains[str(n)] = (folder / f"chain-{n}.der").read_bytes()
        root = x509.load_der_x509_certificate((folder / "anchors.der").read_bytes())
        (folder / "roots.pem").write_bytes(root.public_bytes(serialization.Encoding.PEM))

    def x5u(self, n):
        return self.web.at(f"chain/{n}")

    def leaf(self, n):
        """The n-th certificate."""
        return x509.load_der_x509_certificate((self.folder / f"leaf-{n}.der").read_bytes())

    def anchors(self):
        return ["--anchors", str(self.folder / "anchors.der"), "--table", str(self.folder / "table.txt")]

    def roots(self):
        return ["--roots", str(self.folder / "roots.pem")]

    def to(self, path, call, n=0, host="localhost"):
        """A good call of the n-th certificate, the x5u of which leads there."""
        orig, dest, now = self.number(n, call % 10000), "13105550100", int(time.time())
        return self.invite(orig, dest, call, self.identity(n, orig, dest, now, call, x5u=path if "://" in path else self.web.at(path, host)))


class Fetching(Stird):
    """A service that fetches. Calls may be old, so that a slow machine says the same."""

    def __init__(self, stird, words, **others):
        super().__init__(stird, [*map(str, words), "--past", "3600"], **others)

    def told_of(self, message):
        """The outcome, the rule, and how its certificates came."""
        one = self.verify(message)
        return one["outcome"], one["rule"], one.get("certificates")
