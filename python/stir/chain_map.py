"""Chain maps (docs/FORMATS.md, "Chain map"): which file has the certificates of which x5u."""
import re
from typing import Dict

MOST_BYTES = 16_777_216
MOST_LINES = 50_000

# What an x5u is. A line that begins with `;` is a comment.
X5U = r"(?!;)[!#-;=?-\[\]-~]+"
LINE = re.compile(f"({X5U}) ([!-~]{{1,255}})".encode())


class Fault(Exception):
    """A text is no chain map."""


def read(text: bytes) -> Dict[str, str]:
    """The file of each x5u. Raises Fault, with the first bad line."""
    if len(text) > MOST_BYTES:
        raise Fault(f"more than {MOST_BYTES:,} bytes")
    *lines, last = text.split(b"\n")
    # The last line may lack its LF, and a CR that it ends with is then its own.
    lines = [line.removesuffix(b"\r") for line in lines] + ([last] if last else [])
    files: Dict[str, str] = {}
    for number, line in enumerate(lines, 1):
        if number > MOST_LINES:
            raise Fault(f"line {number} is past the {MOST_LINES:,} that there may be")
        if line and not line.startswith(b";"):
            found = LINE.fullmatch(line)
            if not found or found[1].decode() in files:
                raise Fault(f"line {number} is outside its grammar")
            files[found[1].decode()] = found[2].decode()
    return files
