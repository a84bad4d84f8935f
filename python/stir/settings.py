"""How calls are judged."""
import re
from dataclasses import dataclass

from . import checks, library

MOST_SECONDS = 86_400


@dataclass(frozen=True)
class Settings:
    """How calls are judged. A PASSporT may be `past` seconds old and `future` seconds ahead of its call, at most 86,400 each. `country` is the
    digits of the own country, 1 to 3, and `national` how many digits a number in it has, 1 to 14, at most 15 together."""

    past: int = 60
    future: int = 5
    country: str = "1"
    national: int = 10

    def __post_init__(self) -> None:
        checks.number("past", self.past, 0, MOST_SECONDS)
        checks.number("future", self.future, 0, MOST_SECONDS)
        if not re.fullmatch("[0-9]{1,3}", checks.instance("country", self.country, str)):
            raise ValueError(f"country must be 1 to 3 digits, and is {self.country!r}")
        checks.number("national", self.national, 1, min(14, 15 - len(self.country)))

    def setting(self) -> library.Setting:
        return library.Setting(self.past, self.future, self.country.encode(), len(self.country), self.national)
