"""Calls that are sent on to another number, through the library for C, with real keys."""
import ctypes
import pathlib
import re

from header import Handle, bytes_of, chain_by, good_of, judged, loaded, parts, sent_on, shared_object, world_by, written
from world import START

TARGET = b"sip:+12000020009@example.net"

# The numbers in stir.h, by their names.
HEADER = pathlib.Path(__file__).resolve().parents[2] / "include" / "stir.h"
NUMBERS = {name: int(number) for name, number in re.findall(r"\b(STIR_\w+) = (\d+)\b", HEADER.read_text())}


def opened(stir, world, held, message, chains):
    """A call with the chains of its x5us, and the answers to its questions."""
    call = Handle()
    said = stir.stir_call_open(ctypes.byref(held), ctypes.c_uint64(START), *bytes_of(message), ctypes.byref(call))
    for index in range(said.size if said.kind == 0 else 0):
        x5u, _ = written(stir.stir_call_x5u, ctypes.byref(call), ctypes.c_uint32(index))
        assert stir.stir_call_chain(ctypes.byref(call), ctypes.c_uint32(index), ctypes.byref(chains[x5u])).kind == 0
    questions, _ = written(stir.stir_call_questions, ctypes.byref(call))
    return call, good_of(questions)


def order(call, good, key, target=TARGET, x5u=b"https://certificates.example.org/1.pem", iat=START):
    """The words of an order."""
    return ctypes.byref(call), *bytes_of(good), ctypes.byref(key), ctypes.c_uint64(iat), *bytes_of(target), *bytes_of(x5u)


def goes_on(stir, program, world, held, chains, folder):
    """A call that passes goes on, signed by the key of the number that it called, with the bytes that `retarget` of the program writes; and it is valid at the
    next hop. Sent on once more, it is valid there too."""
    caller, called = world.number(0, 5), world.number(1, 7)
    message = world.invite(caller, called, 1, world.identity(0, caller, called, START, 1))
    hops = ((1, TARGET), (2, b"tel:+12000000042"))
    for n, target in hops:
        call, good = opened(stir, world, held, message, chains)
        words = order(call, good, chains[world.x5u(n).encode()], target, world.x5u(n).encode())
        said = stir.stir_to_retarget(*words)
        digest, signature, wanted = sent_on(program, world, n, target, message, folder)
        assert (said.kind, bytes(said.ticket)) == (0, digest), (said.kind, said.rule)
        onward, made = written(stir.stir_retargeted, *words, *bytes_of(signature))
        assert made.kind == 0 and bytes(made.ticket) == bytes(32), made.kind
        assert onward.startswith(b"INVITE %s SIP/2.0\r\n" % target) and onward.count(b"\r\nIdentity: ") == message.count(b"\r\nIdentity: ") + 1
        assert onward == wanted, "the program writes another message"
        passed = judged(stir, held, chains, START, onward)
        assert (passed.kind, bytes(passed.ticket)) == (0, digest), (passed.kind, passed.rule)
        stir.stir_call_close(ctypes.byref(call))
        message = onward


def is_held(stir, world, held, chains):
    """A call that breaks a rule doesn't go on, and is refused as it is judged; nor does one that can't go on there, for the cause that the header numbers."""
    caller, called = world.number(0, 5), world.number(1, 7)
    message = world.invite(caller, called, 2, world.identity(0, caller, called, START, 2))
    call, good = opened(stir, world, held, message, chains)
    key, other = chains[world.x5u(1).encode()], chains[world.x5u(2).encode()]
    nothing = bytes(len(good))
    refused = stir.stir_to_retarget(*order(call, nothing, key))
    wanted = stir.stir_call_judge(ctypes.byref(call), *bytes_of(nothing))
    assert bytes(refused) == bytes(wanted) and (wanted.kind, wanted.rule) == (1, 16), (refused.kind, refused.rule)
    back = b"sip:+%s@example.net" % called.encode()
    for name, words in (
        ("STIR_NO_TARGET", {"target": b"sip:alice@example.net"}),
        ("STIR_NO_TARGET", {"target": b"sip:+12000020009@example.net x"}),
        ("STIR_LOOP", {"target": back}),
        ("STIR_NO_AUTHORITY", {"key": other}),
        # The target comes before the certificate.
        ("STIR_LOOP", {"target": back, "key": other}),
    ):
        said = stir.stir_to_retarget(*order(call, good, **({"key": key} | words)))
        assert (said.kind, said.rule, said.code, said.size) == (1, NUMBERS[name], 0, 0), (name, said.kind, said.rule)
        room, told = written(stir.stir_retargeted, *order(call, good, **({"key": key} | words)), *bytes_of(bytes(64)))
        assert bytes(told) == bytes(said) and room == b"", name
    bad = chain_by(stir, held, b"x")
    for number, words, signature in (
        (7, {"key": bad, "iat": 253_402_300_800}, 64),
        (8, {"iat": 253_402_300_800}, 64),
        (8, {"x5u": b""}, 64),
        (9, {"key": bad, "x5u": b""}, 63),
    ):
        given = order(call, nothing, **({"key": key} | words))
        said = written(stir.stir_retargeted, *given, *bytes_of(bytes(signature)))[1]
        assert (said.kind, said.input) == (2, number), (number, said.kind, said.input)
        assert number == 9 or bytes(stir.stir_to_retarget(*given)) == bytes(said), number
    early, _ = opened(stir, world, held, b"no INVITE", chains)
    said = stir.stir_to_retarget(*order(early, b"", key))
    assert (said.kind, said.rule, said.code) == (1, 1, 400), (said.kind, said.rule)
    room = ctypes.create_string_buffer(b"untouched", 9)
    said = stir.stir_retargeted(*order(call, good, key), *bytes_of(bytes(64)), room, ctypes.c_size_t(9))
    assert said.kind == 4 and said.size > len(message) and room.raw == b"untouched", said.kind
    for one in (early, call):
        stir.stir_call_close(ctypes.byref(one))
    assert stir.stir_to_retarget(*order(call, good, key)).kind == 5
    open_again, good = opened(stir, world, held, message, chains)
    stir.stir_chain_close(ctypes.byref(bad))
    assert stir.stir_to_retarget(*order(open_again, good, bad)).kind == 5
    assert stir.stir_to_retarget(*order(open_again, good, key)).kind == 0, "a closed key closed the call"


def full(stir, world, held, chains):
    """A call that was diverted eight times goes on to no other number; one that was diverted seven times does."""
    hops = [world.number(n, 9) for n in range(1, 10)]
    for count, wanted in ((8, (0, 0)), (9, (1, NUMBERS["STIR_FULL"]))):
        fields = [world.identity(0, world.number(0, 5), hops[0], START, 3)]
        fields += [world.diversion(n, world.number(0, 5), hops[n - 1], hops[n], START) for n in range(1, count)]
        message = world.invite(world.number(0, 5), hops[0], 3, "\r\nIdentity: ".join(fields), hops[count - 1])
        call, good = opened(stir, world, held, message, chains)
        said = stir.stir_to_retarget(*order(call, good, chains[world.x5u(count).encode()], b"tel:+13105550199", world.x5u(count).encode()))
        assert (said.kind, said.rule) == wanted, (count, said.kind, said.rule)
        stir.stir_call_close(ctypes.byref(call))


def all(program, library, world, folder):  # noqa: A001
    stir = loaded(shared_object(library, folder))
    held = world_by(stir, (world.folder / "anchors.der").read_bytes(), (world.folder / "table.txt").read_bytes())
    chains = {world.x5u(n).encode(): chain_by(stir, held, parts(world, n)[1]) for n in range(world.count)}
    goes_on(stir, program, world, held, chains, folder)
    is_held(stir, world, held, chains)
    full(stir, world, held, chains)
