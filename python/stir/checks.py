"""The arguments of a caller: a wrong type is a TypeError and a wrong value a ValueError, each with a sentence."""
from typing import Any, Mapping, Type, TypeVar

T = TypeVar("T")


def instance(name: str, value: object, kind: Type[T]) -> T:
    """The value, which is one of this class."""
    if not isinstance(value, kind):
        raise TypeError(f"{name} must be {kind.__name__}, and is {type(value).__name__}")
    return value


def mapping(name: str, value: object) -> Mapping[Any, Any]:
    """The value, which is a mapping."""
    if not isinstance(value, Mapping):
        raise TypeError(f"{name} must be a mapping, and is {type(value).__name__}")
    return value


def number(name: str, value: object, least: int, most: int) -> int:
    """The value, which is an integer within these bounds."""
    if not isinstance(value, int) or isinstance(value, bool):
        raise TypeError(f"{name} must be int, and is {type(value).__name__}")
    if not least <= value <= most:
        raise ValueError(f"{name} must be {least:,} to {most:,}, and is {value}")
    return int(value)


def octets(name: str, value: object, size: int = -1) -> bytes:
    """The value as bytes, which nobody can change; of exactly so many, if a size is given."""
    if not isinstance(value, (bytes, bytearray, memoryview)):
        raise TypeError(f"{name} must be bytes, and is {type(value).__name__}")
    if size >= 0 and len(bytes(value)) != size:
        raise ValueError(f"{name} must have {size} bytes, and has {len(bytes(value))}")
    return bytes(value)
