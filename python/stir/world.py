"""What all calls are judged by: settings, trust anchors, a code table, and the chains of x5us, each read once by the library."""
import hashlib
import os
import re
import threading
from pathlib import Path
from typing import Callable, Dict, Mapping, Optional, Tuple, Union

from . import chain_map, checks, library
from .errors import BadFile, BadInput, Input
from .es256 import Question
from .settings import Settings

Name = Union[str, "os.PathLike[str]"]

# A chain has at most so many bytes. One byte more is kept, so that rule 11 still sees that there are too many.
LONGEST_CHAIN = 49_152

X5U = re.compile(chain_map.X5U)


class Listed:
    """A chain under a world, opened when it is first asked for; and for each choice of its questions the chain with these confirmed."""

    def __init__(self, world: library.World, der: bytes) -> None:
        self.world, self.der, self.lock = world, der, threading.Lock()
        self.opened: Optional[Tuple[library.Chain, Tuple[Question, ...]]] = None
        self.known: Dict[bytes, library.Chain] = {}

    def open(self) -> Tuple[library.Chain, Tuple[Question, ...]]:
        """The chain, and what a verifier of signatures is asked for its certificates."""
        with self.lock:
            if not self.opened:
                chain = library.Chain.of(self.world, self.der)
                self.opened = chain, tuple(Question.each(chain.questions()))
            return self.opened

    @property
    def questions(self) -> Tuple[Question, ...]:
        return self.open()[1]

    def confirmed(self, confirm: Callable[[Question], bool]) -> library.Chain:
        """The chain, with what this verifier confirms."""
        chain, questions = self.open()
        good = bytes(bool(confirm(question)) for question in questions)
        if good not in self.known:
            self.known[good] = chain.confirmed(good)
        return self.known[good]


class World:
    """What calls are judged by. `digest` is the SHA-256 of all of it: worlds of one digest judge every call alike."""

    def __init__(self, chains: Mapping[str, bytes], anchors: bytes, table: bytes, settings: Settings = Settings()) -> None:
        """`chains` has the chain of each x5u whose file is there: its certificates in DER one after another, from the leaf's on. `anchors` are the trust
        anchors in DER, one after another, and `table` the lines of a code table.

        Raises BadInput if anchors or table are outside their grammars, and OutOfMemory.
        """
        checks.mapping("chains", chains)
        for x5u in chains:
            if not X5U.fullmatch(checks.instance("an x5u", x5u, str)):
                raise ValueError(f"an x5u must be visible ASCII without quotes, angle brackets and backslash, and not begin with `;`: {x5u!r}")
        anchors, table = checks.octets("anchors", anchors), checks.octets("table", table)
        self.opened = library.World(checks.instance("settings", settings, Settings).setting(), anchors, table)
        self.chains = {x5u.encode(): Listed(self.opened, checks.octets("a chain", chain)[: LONGEST_CHAIN + 1]) for x5u, chain in chains.items()}
        self.digest = self.summed(repr(settings).encode(), anchors, table)

    @classmethod
    def read(cls, chains: Name, anchors: Name, table: Name, folder: Name = ".", settings: Settings = Settings()) -> "World":
        """Reads the files, and each file that the chain map names, from this folder on. An x5u whose file is missing has no chain (rule 10).

        Raises OSError if a file can't be read, BadFile if one is outside its grammar or its limits, and OutOfMemory.
        """
        listed, anchors_der, lines = (Path(file).read_bytes() for file in (chains, anchors, table))
        try:
            files = chain_map.read(listed)
        except chain_map.Fault as fault:
            raise BadFile(f"{os.fspath(chains)}: {fault}") from fault
        found = {}
        for x5u, name in files.items():
            try:
                with open(os.path.join(folder, name), "rb") as file:
                    found[x5u] = file.read(LONGEST_CHAIN + 1)
            except FileNotFoundError:
                continue
        try:
            return cls(found, anchors_der, lines, settings)
        except BadInput as error:
            name = {Input.ANCHORS: anchors, Input.TABLE: table}[error.input]
            raise BadFile(f"{os.fspath(name)}: {error}") from error

    def listed(self, x5u: bytes) -> Optional[Listed]:
        """The chain of an x5u, if it is there."""
        return self.chains.get(x5u)

    def summed(self, *texts: bytes) -> bytes:
        """The SHA-256 of all that this world is made of: each text after its length."""
        whole = hashlib.sha256()
        for text in (*texts, *(text for x5u, chain in sorted(self.chains.items(), key=lambda pair: pair[0]) for text in (x5u, chain.der))):
            whole.update(len(text).to_bytes(8, "big") + text)
        return whole.digest()
