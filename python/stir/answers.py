"""An answers file as a verifier of signatures: what was confirmed beforehand, as by `stirctl confirm`."""
import hashlib
import os
import re
from pathlib import Path
from typing import FrozenSet, Set, Tuple, Union

from . import checks
from .errors import BadFile, BadInput, Input
from .es256 import Question

MOST_BYTES = 67_108_864

HEX = rb"([0-9A-Fa-f]{%d})"
CONFIRM = re.compile(rb"confirm (04[0-9A-Fa-f]{128}) " + HEX % 64 + b" " + HEX % 128)
SIGN = re.compile(rb"sign ([!#-+\--:=?-\[\]-~]{1,64}) " + HEX % 64 + b" " + HEX % 128)


class Answers:
    """A signature is good if the file has its `confirm` line, as for `stir verify`. `digest` is the SHA-256 of the file."""

    def __init__(self, confirmed: FrozenSet[bytes], digest: bytes) -> None:
        self.confirmed = confirmed
        self.digest = digest

    @classmethod
    def of(cls, text: bytes) -> "Answers":
        """The answers of a text. Raises BadInput if it is outside its grammar (docs/FORMATS.md, "Answers file")."""
        return cls(confirmed_by(checks.octets("text", text)), hashlib.sha256(text).digest())

    @classmethod
    def read(cls, file: Union[str, "os.PathLike[str]"]) -> "Answers":
        """The answers of a file. Raises OSError, and BadFile if it is outside its grammar."""
        try:
            return cls.of(Path(file).read_bytes())
        except BadInput as error:
            raise BadFile(f"{os.fspath(file)}: {error}") from error

    def __call__(self, question: Question) -> bool:
        return question.octets() in self.confirmed


def confirmed_by(text: bytes) -> FrozenSet[bytes]:
    """The questions that the lines of a text confirm, in bytes."""
    if len(text) > MOST_BYTES:
        raise BadInput(Input.ANSWERS)
    confirmed: Set[bytes] = set()
    signed: Set[Tuple[bytes, bytes]] = set()
    *lines, last = text.split(b"\n")
    # The last line may lack its LF, and a CR that it ends with is then its own.
    for line in [line.removesuffix(b"\r") for line in lines] + [last]:
        if not line or line.startswith(b";"):
            continue
        confirm, sign = CONFIRM.fullmatch(line), SIGN.fullmatch(line)
        if confirm:
            confirmed.add(bytes.fromhex(b"".join(confirm.groups()).decode()))
        elif sign and (sign[1], sign[2].lower()) not in signed:
            signed.add((sign[1], sign[2].lower()))
        else:
            raise BadInput(Input.ANSWERS)
    return frozenset(confirmed)
