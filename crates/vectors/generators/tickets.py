"""What `once` writes, by a model of what docs/FORMATS.md says of tickets ("Tickets").

    tickets.py SIZE < TICKETS      prints the lines of one worker
"""

import random
import sys

LEVELS = 6
PIECE_BITS = 43


def pieces(ticket):
    """The pieces of a ticket of 64 hex digits: five of 43 bits and one of 41."""
    bits = f"{int(ticket, 16):0256b}"
    return [int(bits[start : start + PIECE_BITS], 2) for start in range(0, 256, PIECE_BITS)]


def claim(desk, ticket):
    """What comes of a claim on a desk, which is a list of words for each level; the words that it sets are changed."""
    parent = 0
    for number, (words, piece) in enumerate(zip(desk, pieces(ticket)), 1):
        code = (parent << PIECE_BITS) + piece + 1
        for tries in range(len(words)):
            slot = (code + tries) % len(words)
            if words[slot] in (0, code):
                break
        else:
            return f"full {number}"
        said = "lost" if words[slot] else "won"
        words[slot] = code
        parent = slot
    return said


def claims(size, tickets):
    """What one worker says of each ticket."""
    desk = [[0] * size for _ in range(LEVELS)]
    return [claim(desk, ticket) for ticket in tickets]


def report(said):
    """The lines."""
    return "".join(f"{number} {text}\n" for number, text in enumerate(said, 1)).encode()


def level_of(text):
    """The level at which a line is full; one above all where it isn't."""
    return int(text[5:]) if text.startswith("full ") else LEVELS + 1


def may_say(size, tickets, said):
    """Whether this may come of the tickets on any number of workers: a ticket is won once at most, and where one of its lines is lost; and where a
    line is full, other tickets have the slots of that level."""
    if len(said) != len(tickets) or not all(text in ("won", "lost") or 1 <= level_of(text) <= LEVELS for text in said):
        return False
    lines = list(zip((ticket.lower() for ticket in tickets), said))
    won = [ticket for ticket, text in lines if text == "won"]
    if len(won) != len(set(won)) or not {ticket for ticket, text in lines if text == "lost"} <= set(won):
        return False
    for level in range(1, LEVELS + 1):
        held = {tuple(pieces(ticket)[:level]) for ticket, text in lines if level_of(text) > level}
        full = {tuple(pieces(ticket)[:level]) for ticket, text in lines if level_of(text) == level}
        if any(len(held) - (one in held) < size for one in full):
            return False
    return True


def is_right(size, workers, tickets, said):
    """Whether this may come of the tickets on this number of workers."""
    return said == claims(size, tickets) if workers == 1 else may_say(size, tickets, said)


def drawn(seed):
    """A size, and tickets some of which are alike, or alike in their first pieces, in digits of either case."""
    source = random.Random(seed)
    size = source.choice((1, 2, 3, 5, 8, 100, 1024))
    kinds = [source.getrandbits(256) for _ in range(source.randint(1, 12))]
    tickets = []
    for _ in range(source.randint(0, 60)):
        bits = source.choice(kinds) ^ source.choice((0, 0, 1, 1 << source.randrange(256)))
        tickets.append(f"{bits:064x}" if source.random() < 0.7 else f"{bits:064X}")
    return size, tickets


if __name__ == "__main__":
    sys.stdout.buffer.write(report(claims(int(sys.argv[1]), sys.stdin.read().split())))
