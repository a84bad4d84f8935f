"""Telephone calls judged by STIR/SHAKEN, by the proved library libstir_c.a.

    import stir

    world = stir.World.read("chains.txt", "anchors.der", "table.txt")
    call = stir.Call(moment=1443208345, message=invite)
    print(stir.verify(call, world, stir.confirm))

`verify` asks what signatures a call stands on, has each confirmed, and gives the verdict: `Passes` or `Refused`. `ask` and `judge` are the two
halves. `explain` says which rules hold, `claims` what the PASSporTs say, `sign` writes a message with an Identity field, and `show` tells what
certificates say. `stir.logs` reads call logs and cuts them into parts, `stir.days` judges a log part by part, and `stir.jobs` hands that to other machines.

What the library says is proved (docs/dev/PROVED.md). What this package hands it, the verifier of signatures and the count of tickets aren't. Any
number of threads may call at once; a thread needs a stack of 256 kilobytes and what Python takes.
"""
from .answers import Answers
from .calls import Asked, Call, Passes, Refused, Verdict, ask, judge, verify
from .errors import BadFile, BadInput, Input, LibraryError, OutOfMemory, StirError
from .es256 import Question, confirm
from .explaining import Explained, claims, explain, x5us
from .settings import Settings
from .showing import Authority, Certificate, show
from .signing import Form, Order, Why, Withheld, sign, signed, signer_by, to_sign
from .world import World

__all__ = [
    "Answers",
    "Asked",
    "Authority",
    "BadFile",
    "BadInput",
    "Call",
    "Certificate",
    "Explained",
    "Form",
    "Input",
    "LibraryError",
    "Order",
    "OutOfMemory",
    "Passes",
    "Question",
    "Refused",
    "Settings",
    "StirError",
    "Verdict",
    "Why",
    "Withheld",
    "World",
    "ask",
    "claims",
    "confirm",
    "explain",
    "judge",
    "show",
    "sign",
    "signed",
    "signer_by",
    "to_sign",
    "verify",
    "x5us",
]
