"""TCP connections that carry SIP (RFC 3261, section 18.3), as far as that can be seen in single segments. tshark reads what they carry (shark.py)."""
import collections
import re

# SIP's own port (RFC 3261, section 19.1.2). What comes over it is taken for SIP.
SIP_PORT = 5060

# Each message names the version: in its first line, and in its topmost Via.
VERSION = b'SIP/2.0'
FIRST_LINE = re.compile(rb'(?:[A-Z]+ (?:sips?|tel):[^ \r\n]+ SIP/2\.0\r?\n|SIP/2\.0 [1-6]\d\d )', re.I)


class Connections:
    """The TCP connections of a capture, by their two ports."""

    def __init__(self, ports):
        # The ports over which all is taken for SIP.
        self.ports = {SIP_PORT, *ports}
        self.on_ports = 0
        # The pairs of ports of other connections: those of which a segment names SIP's version, those of which one begins as a message does, and how many
        # segments each has.
        self.named, self.begun, self.segments = set(), set(), collections.Counter()
        self.read = set()

    def note(self, one, other, content):
        """Looks at a segment between these two ports, and at what it carries, if it does."""
        if one in self.ports or other in self.ports:
            self.on_ports += content != b''
            return
        pair = min(one, other), max(one, other)
        self.segments[pair] += 1
        if VERSION in content:
            self.named.add(pair)
        if FIRST_LINE.match(content):
            self.begun.add(pair)

    def is_of_sip(self):
        return self.on_ports > 0 or bool(self.named)

    def found(self):
        """The ports besides SIP's own by which tshark finds each of these connections. The port that more of them share is that of a server."""
        shared = collections.Counter(port for pair in self.named for port in pair)
        servers = {max(pair, key=lambda port: (shared[port], -port)) for pair in self.named}
        return sorted(servers | self.ports - {SIP_PORT})

    def others(self):
        """How many segments are of connections without SIP."""
        return sum(count for pair, count in self.segments.items() if pair not in self.named)

    def note_read(self, one, other):
        """A message between these two ports was read."""
        self.read |= {one, other}

    def unread(self):
        """The ports over which messages began and none was read."""
        return sorted(port for port in self.found() if port not in self.read and any(port in pair for pair in self.begun))
