"""Header fields that are found by their names, through the library for C."""
import ctypes

from header import Handle, bytes_of, loaded, shared_object, world_by, written
from world import START

# A message with names in many spellings, folded and empty values, and a body that has none.
MESSAGE = (
    b"OPTIONS sip:+12025550100@example.org SIP/2.0\r\nVia: SIP/2.0/UDP one.example.org;branch=z9hG4bK1\r\nv:SIP/2.0/UDP two.example.org\r\n"
    b"FROM: <sip:+12025550101@example.org>;tag=1\r\nt  : <sip:+12025550100@example.org>\r\ni:\t a84b4c76e66710@pc33.example.org \r\nCSeq: 1 OPTIONS\r\n"
    b"Subject: a folded\r\n\t value\r\n  \r\n in parts\r\nS:\r\nVIA: SIP/2.0/UDP three.example.org\r\nX-Fill: 1\r\n\r\nCall-ID: of the body\r\n"
)
VIAS = [b"SIP/2.0/UDP one.example.org;branch=z9hG4bK1", b"SIP/2.0/UDP two.example.org", b"SIP/2.0/UDP three.example.org"]
FOUND = {
    b"Via": VIAS,
    b"V": VIAS,
    b"Call-ID": [b"a84b4c76e66710@pc33.example.org"],
    b"I": [b"a84b4c76e66710@pc33.example.org"],
    b"from": [b"<sip:+12025550101@example.org>;tag=1"],
    b"To": [b"<sip:+12025550100@example.org>"],
    b"Subject": [b"a folded value in parts", b""],
    b"cseq": [b"1 OPTIONS"],
    b"x-fill": [b"1"],
    b"Identity": [],
    b"x": [],
    b"Via ": [],
    b"": [],
}

# RFC 3261, section 7.3.3 and section 20; RFC 8224, section 4.
COMPACT = {
    b"c": b"Content-Type",
    b"e": b"Content-Encoding",
    b"f": b"From",
    b"i": b"Call-ID",
    b"k": b"Supported",
    b"l": b"Content-Length",
    b"m": b"Contact",
    b"s": b"Subject",
    b"t": b"To",
    b"v": b"Via",
    b"y": b"Identity",
}


def opened_call(stir, opened, message):
    """A call of this message, whatever the rules of the call say of it."""
    call = Handle()
    assert stir.stir_call_open(ctypes.byref(opened), ctypes.c_uint64(START), *bytes_of(message), ctypes.byref(call)).kind in (0, 1)
    return call


def values(stir, call, name):
    """The values of the fields of a name."""
    found = []
    while True:
        value, said = written(stir.stir_call_header, ctypes.byref(call), *bytes_of(name), ctypes.c_uint32(len(found)))
        if said.kind == 6:
            return found
        assert said.kind == 0, said.kind
        found.append(value)


def spelled(stir, opened):
    """Each name finds its fields in message order, in letters of either case; a room that is too small is told, and stays as it was."""
    call = opened_call(stir, opened, MESSAGE)
    for name, wanted in FOUND.items():
        assert values(stir, call, name) == wanted, name
    room = ctypes.create_string_buffer(b"untouched", 9)
    said = stir.stir_call_header(ctypes.byref(call), *bytes_of(b"v"), ctypes.c_uint32(0), room, ctypes.c_size_t(9))
    assert (said.kind, said.size, room.raw) == (4, len(VIAS[0]), b"untouched")
    stir.stir_call_close(ctypes.byref(call))
    assert stir.stir_call_header(ctypes.byref(call), *bytes_of(b"v"), ctypes.c_uint32(0), room, ctypes.c_size_t(9)).kind == 5


def compact(stir, opened):
    """A compact form and its long name find each other's fields, and no other field; a letter that is no compact form is a name of its own. A message has
    one From and one To, or it isn't read."""
    letters = [bytes([letter]) for letter in range(ord("a"), ord("z") + 1)]
    for short, name in COMPACT.items():
        for own in ([short], [name], [short, name]):
            single = {b"f", b"t", b"From", b"To"}
            if len(own) == 2 and short in single:
                continue
            others = [one for one in (*letters, *COMPACT.values()) if one not in (short, name) and one not in single]
            others += [one for form, one in ((b"f", b"From"), (b"t", b"To")) if form != short]
            heads = [b"OPTIONS sip:a SIP/2.0", *(b"%s: of %s" % (one, one) for one in (*others, *own)), b"", b""]
            call = opened_call(stir, opened, b"\r\n".join(heads))
            for asked in (short, short.upper(), name, name.swapcase()):
                assert values(stir, call, asked) == [b"of " + one for one in own], (asked, own)
            for letter in letters:
                assert letter in COMPACT or values(stir, call, letter.upper()) == [b"of " + letter], letter
            stir.stir_call_close(ctypes.byref(call))


def unread(stir, opened):
    """A message that can't be read has no fields."""
    for message in (b"", b"no INVITE", MESSAGE.replace(b"\r\n\r\n", b"\r\n"), MESSAGE + b" " * (65_536 - len(MESSAGE))):
        call = opened_call(stir, opened, message)
        assert values(stir, call, b"Via") == [], message[:80]
        stir.stir_call_close(ctypes.byref(call))
    call = opened_call(stir, opened, MESSAGE + b" " * (65_535 - len(MESSAGE)))
    assert values(stir, call, b"Via") == VIAS
    stir.stir_call_close(ctypes.byref(call))


def all(library, world, folder):  # noqa: A001
    stir = loaded(shared_object(library, folder))
    opened = world_by(stir, (world.folder / "anchors.der").read_bytes(), b"")
    spelled(stir, opened)
    compact(stir, opened)
    unread(stir, opened)
    stir.stir_world_close(ctypes.byref(opened))
    return f"{len(FOUND) + 4 * len(COMPACT)} names"
