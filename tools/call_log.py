"""Call logs (docs/FORMATS.md, "Call log"): their entries, and how messages become one."""
import array
import collections
import hashlib
import re
import tempfile

import outside

MOST_CALLS = 1_000_000
LONGEST_MESSAGE = 131_072
LAST_MOMENT = 253_402_300_799
HEADER = re.compile(rb'@(0|[1-9]\d{0,11}) (0|[1-9]\d{0,5})\n')
LONGEST_HEADER = 22

# Times are in nanoseconds.
SECOND = 1_000_000_000
# How long a client sends an INVITE again: 64 times T1, which is half a second (RFC 3261, sections 17.1.1.1 and 17.1.1.2).
LONGEST_RETRY = 32 * SECOND

BUFFER = 1 << 20

# The bytes that stand for a request among its retransmissions.
KEY = 16
NO_KEY = bytes(KEY)


def entries(name, file):
    """The moment and the message of each whole entry of a log. What doesn't go on as a log is a fault with its place."""
    place = 0
    while header := file.readline(LONGEST_HEADER):
        found = HEADER.fullmatch(header)
        if not found or int(found[1]) > LAST_MOMENT or int(found[2]) > LONGEST_MESSAGE:
            raise outside.Fault(f'{name}: no entry of a log at byte {place}')
        message = file.read(int(found[2]))
        if len(message) < int(found[2]):
            raise outside.Fault(f'{name}: the log is cut short in the entry at byte {place}')
        place += len(header) + len(message)
        yield int(found[1]), message


def key_of(source, transaction):
    """What retransmissions of one request have in common, in a few bytes; NO_KEY where that can't be told."""
    if not source or not transaction:
        return NO_KEY
    text = '\0'.join(transaction).encode('latin-1')
    return hashlib.blake2b(source + b'\0' + text, digest_size=KEY).digest()


class Spool:
    """INVITE requests, on the disk until all are there. In memory stand 41 bytes for each: its time, place, length, key, and whether it
    stands inside a dialog."""

    def __init__(self):
        self.file = tempfile.TemporaryFile(buffering=BUFFER)
        self.times, self.places, self.lengths, self.keys = array.array('q'), array.array('q', [0]), array.array('l'), bytearray()
        self.dialogs, self.in_order = bytearray(), True
        # How many of its fields were split, of each message that has such.
        self.split = {}

    def __len__(self):
        return len(self.times)

    def add(self, time, key, inside, message, split):
        if split:
            self.split[len(self)] = split
        self.in_order = self.in_order and (not self.times or self.times[-1] <= time)
        self.file.write(message)
        self.times.append(time)
        self.lengths.append(len(message))
        self.places.append(self.places[-1] + len(message))
        self.keys += key
        self.dialogs.append(inside)

    def ordered(self):
        """The numbers of the messages in the order in which they came; those of one time in the order in which they were read."""
        return range(len(self.times)) if self.in_order else sorted(range(len(self.times)), key=self.times.__getitem__)

    def calls(self, initial, counts):
        """The numbers of those messages that are calls, in the order in which they came: no retransmissions and, if only initial ones are
        wanted, no re-INVITEs."""
        # The requests that may be sent again, with the last time at which they may, in the order of these.
        known, ends = set(), collections.deque()
        for number in self.ordered():
            time, key = self.times[number], bytes(self.keys[KEY * number:KEY * number + KEY])
            while ends and ends[0][0] < time:
                known.remove(ends.popleft()[1])
            if key in known:
                counts['retransmissions'] += 1
                continue
            if key != NO_KEY:
                known.add(key)
                ends.append((time + LONGEST_RETRY, key))
            if initial and self.dialogs[number]:
                counts['re-INVITEs'] += 1
            else:
                yield number

    def write(self, numbers, output):
        """Writes these messages as a log."""
        for number in numbers:
            self.file.seek(self.places[number])
            output.write(b'@%d %d\n%s' % (self.times[number] // SECOND, self.lengths[number], self.file.read(self.lengths[number])))
        output.flush()
