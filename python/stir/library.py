"""The proved library through ctypes: include/stir.h in Python. Nothing else in the package calls C.

ctypes lets other threads run while a call is inside. Each call hands in bytes, which nobody can change, with their own lengths, and takes a room
that nobody else knows. A handle is in one call at a time: a world lends shares of itself, and a chain is handed on under its lock.
"""
import contextlib
import ctypes
import enum
import pathlib
import threading
from typing import Callable, Iterator, List, Tuple

from .errors import BadInput, Input, LibraryError, OutOfMemory

ABI = 2

# What a call mostly writes. One that writes more is made once more.
ROOM = 4096

# A question has a key of 65 bytes, a digest of 32 and a signature of 64; a call has nine at most, and a chain six.
QUESTION = 161
MOST_QUESTIONS = 9

# How many shares of a world that serve no call just now are kept for those to come.
MOST_FREE = 64

FILE = pathlib.Path(__file__).with_name("libstir.so")


class Kind(enum.IntEnum):
    """What came of a call of the library."""

    PASSES = 0
    REFUSED = 1
    BAD_INPUT = 2
    NO_MEMORY = 3
    NO_ROOM = 4
    CLOSED = 5
    NONE = 6


class Said(ctypes.Structure):
    """C's stir_said."""

    _fields_ = [
        ("kind", ctypes.c_uint32),
        ("input", ctypes.c_uint32),
        ("rule", ctypes.c_uint32),
        ("code", ctypes.c_uint32),
        ("field", ctypes.c_uint32),
        ("part", ctypes.c_uint32),
        ("last", ctypes.c_uint64),
        ("size", ctypes.c_uint64),
        ("ticket", ctypes.c_uint8 * 32),
    ]


class Setting(ctypes.Structure):
    """C's stir_settings."""

    _fields_ = [
        ("past", ctypes.c_uint64),
        ("future", ctypes.c_uint64),
        ("country", ctypes.c_char * 3),
        ("country_size", ctypes.c_uint8),
        ("national", ctypes.c_uint8),
    ]


class Order(ctypes.Structure):
    """C's stir_order."""

    _fields_ = [("iat", ctypes.c_uint64), ("form", ctypes.c_uint8), ("origid", ctypes.c_char * 36)]


class Handle(ctypes.Structure):
    """C's stir_world, stir_chain and stir_call: new ones are closed."""

    _fields_ = [("full", ctypes.c_bool), ("at", ctypes.c_void_p)]

    def __del__(self, byref: Callable[..., object] = ctypes.byref) -> None:
        if self.full:
            self.close(byref(self))

    @staticmethod
    def close(at: object) -> None:
        """Closes the handle at this place."""


class WorldHandle(Handle):
    """A handle of a world."""


class ChainHandle(Handle):
    """A handle of a chain."""


class CallHandle(Handle):
    """A handle of a call."""


TEXT = (ctypes.c_char_p, ctypes.c_size_t)
ROOM_WORDS = (ctypes.c_void_p, ctypes.c_size_t)
WORLD, CHAIN, CALL = (ctypes.POINTER(handle) for handle in (WorldHandle, ChainHandle, CallHandle))
TO_SIGN = (CHAIN, ctypes.POINTER(Order), *TEXT, *TEXT)

DECLARED = {
    "stir_world_open": (ctypes.POINTER(Setting), *TEXT, *TEXT, WORLD),
    "stir_world_share": (WORLD, WORLD),
    "stir_chain_open": (WORLD, *TEXT, CHAIN),
    "stir_chain_questions": (CHAIN, *ROOM_WORDS),
    "stir_chain_confirm": (CHAIN, *TEXT),
    "stir_chain_share": (CHAIN, CHAIN),
    "stir_call_open": (WORLD, ctypes.c_uint64, *TEXT, CALL),
    "stir_call_x5u": (CALL, ctypes.c_uint32, *ROOM_WORDS),
    "stir_call_chain": (CALL, ctypes.c_uint32, CHAIN),
    "stir_call_claims": (CALL, *ROOM_WORDS),
    "stir_call_questions": (CALL, *ROOM_WORDS),
    "stir_call_judge": (CALL, *TEXT),
    "stir_call_explain": (CALL, ctypes.c_uint32, *TEXT, *ROOM_WORDS),
    "stir_show": (*TEXT, *ROOM_WORDS),
    "stir_to_sign": TO_SIGN,
    "stir_signed": (*TO_SIGN, *TEXT, *ROOM_WORDS),
}

CLOSE = {"stir_world_close": WorldHandle, "stir_chain_close": ChainHandle, "stir_call_close": CallHandle}


def load(file: pathlib.Path) -> ctypes.CDLL:
    """The library of this file, if it has the version of these declarations."""
    if not file.exists():
        raise LibraryError(f"{file} is missing: `pip install ./python` builds it, after `rt lib` in crates/stir_c (python/README.md, Install)")
    try:
        loaded = ctypes.CDLL(str(file))
        loaded.stir_abi.restype, loaded.stir_abi.argtypes = ctypes.c_uint64, ()
        version = loaded.stir_abi()
        if version != ABI:
            raise LibraryError(f"{file} has version {version} of the declarations, and this package was made for {ABI}")
        for name, words in DECLARED.items():
            function = getattr(loaded, name)
            function.restype, function.argtypes = Said, words
        for name, handle in CLOSE.items():
            function = getattr(loaded, name)
            function.restype, function.argtypes = None, (ctypes.POINTER(handle),)
            handle.close = staticmethod(function)
    except (OSError, AttributeError) as error:
        raise LibraryError(f"{file} isn't the library of this package: {error}") from None
    return loaded


library = load(FILE)


def text(content: bytes) -> Tuple[bytes, int]:
    return content, len(content)


class World:
    """An open world. Any number of threads may use it: each call is lent a handle of its own."""

    def __init__(self, setting: Setting, anchors: bytes, table: bytes) -> None:
        self.first = WorldHandle()
        decided(library.stir_world_open(setting, *text(anchors), *text(table), self.first))
        self.lock = threading.Lock()
        self.free: List[WorldHandle] = []

    @contextlib.contextmanager
    def lent(self) -> Iterator[WorldHandle]:
        """A handle that nobody else has meanwhile."""
        handle = self.taken()
        try:
            yield handle
        finally:
            if len(self.free) < MOST_FREE:
                self.free.append(handle)

    def taken(self) -> WorldHandle:
        try:
            return self.free.pop()
        except IndexError:
            handle = WorldHandle()
            with self.lock:
                decided(library.stir_world_share(self.first, handle))
            return handle


class Chain:
    """A chain that was opened under a world, as it is confirmed. It doesn't change; any number of threads may use it."""

    def __init__(self, handle: ChainHandle) -> None:
        self.handle = handle
        self.lock = threading.Lock()

    @classmethod
    def of(cls, world: World, der: bytes) -> "Chain":
        handle = ChainHandle()
        with world.lent() as lent:
            decided(library.stir_chain_open(lent, *text(der), handle))
        return cls(handle)

    def questions(self) -> bytes:
        """What a verifier is asked for its certificates, in bytes."""
        with self.lock:
            return present("stir_chain_questions", self.handle)[1]

    def confirmed(self, good: bytes) -> "Chain":
        """The same with these of its questions confirmed: a byte for each, 0 if it wasn't."""
        handle = ChainHandle()
        with self.lock:
            decided(library.stir_chain_share(self.handle, handle))
        decided(library.stir_chain_confirm(handle, *text(good)))
        return Chain(handle)

    def to_sign(self, order: Order, x5u: bytes, message: bytes) -> Said:
        """What stir_to_sign says."""
        with self.lock:
            return decided(library.stir_to_sign(self.handle, order, *text(x5u), *text(message)))

    def signed(self, order: Order, x5u: bytes, message: bytes, signature: bytes) -> Tuple[Said, bytes]:
        """What stir_signed says, and the message that it writes."""
        with self.lock:
            return present("stir_signed", self.handle, order, *text(x5u), *text(message), *text(signature))


class Call:
    """An open call, which one thread uses. `said` is what comes of it by the rules of the call."""

    def __init__(self, world: World, moment: int, message: bytes) -> None:
        self.handle = CallHandle()
        with world.lent() as lent:
            self.said = decided(library.stir_call_open(lent, moment, *text(message), self.handle))

    def x5us(self) -> List[bytes]:
        """The x5us of its PASSporTs, in the order in which it went."""
        return [present("stir_call_x5u", self.handle, index)[1] for index in range(self.said.size)]

    def bring(self, index: int, chain: Chain) -> None:
        """Hands in the chain of a PASSporT."""
        with chain.lock:
            decided(library.stir_call_chain(self.handle, index, chain.handle))

    def claims(self) -> bytes:
        """The lines that stir_call_claims writes."""
        return present("stir_call_claims", self.handle)[1]

    def questions(self) -> Tuple[Said, bytes]:
        """What comes of it if all its own questions are good, and these, in bytes."""
        return present("stir_call_questions", self.handle)

    def judge(self, good: bytes) -> Said:
        """What comes of it if these of its questions are good."""
        return decided(library.stir_call_judge(self.handle, *text(good)))

    def explain(self, number: int, good: bytes) -> Tuple[Said, bytes]:
        """The same, and the lines that stir_call_explain writes."""
        return present("stir_call_explain", self.handle, number, *text(good))


def show(chain: bytes) -> bytes:
    """The lines that stir_show writes."""
    return present("stir_show", *text(chain))[1]


def present(name: str, *words: object) -> Tuple[Said, bytes]:
    """What this function says, and what it writes."""
    function: Callable[..., Said] = getattr(library, name)
    size = ROOM
    while True:
        room = ctypes.create_string_buffer(size)
        said = function(*words, room, size)
        if said.kind != Kind.NO_ROOM:
            return decided(said), ctypes.string_at(room, said.size)
        size = said.size


def decided(said: Said) -> Said:
    """What is said, if something is; else an error."""
    if said.kind in (Kind.PASSES, Kind.REFUSED):
        return said
    if said.kind == Kind.BAD_INPUT:
        raise BadInput(Input(said.input))
    if said.kind == Kind.NO_MEMORY:
        raise OutOfMemory("the library had no memory, and said nothing")
    raise LibraryError(f"the library said {said.kind}, which is none of its answers here")
