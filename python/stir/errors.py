"""What goes wrong in this package, beside a caller's wrong type (TypeError) or value (ValueError)."""
import enum


class StirError(Exception):
    """Any of the errors below."""


class LibraryError(StirError, ImportError):
    """The proved library isn't in the package, can't be loaded, or isn't of the version for which the package was made."""


class Input(enum.IntEnum):
    """Which input isn't taken. The library looks at them in this order."""

    SETTINGS = 1
    ANCHORS = 4
    TABLE = 5
    ANSWERS = 6
    CERTIFICATE = 7
    ORDER = 8
    SIGNATURE = 9


WHY = {
    Input.SETTINGS: "past or future is more than 86,400 seconds, or there is no such local numbering",
    Input.ANCHORS: "the trust anchors aren't certificates of authorities one after another, or more than 256",
    Input.TABLE: "the lines are no code table, or more than 16,777,216 bytes",
    Input.ANSWERS: "the lines are no answers file, or more than 67,108,864 bytes",
    Input.CERTIFICATE: "it is no certificate of the profile, or one without an authority list; or no chain of certificates",
    Input.ORDER: "the x5u is no URI of 1 to 2,048 bytes, the second is past the year 9999, or the identifier isn't a UUID in 36 characters",
    Input.SIGNATURE: "the signature hasn't 64 bytes",
}


class BadInput(StirError, ValueError):
    """An input is outside its grammar or its limits (docs/FORMATS.md). `input` says which."""

    def __init__(self, which: Input) -> None:
        super().__init__(which)
        self.input = which

    def __str__(self) -> str:
        return WHY[self.input]


class BadFile(StirError):
    """A file that was named is outside its grammar or its limits, or isn't what it was."""


class OutOfMemory(StirError, MemoryError):
    """The library had no memory, and said nothing of the call."""
