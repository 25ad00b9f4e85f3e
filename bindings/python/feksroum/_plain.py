"""What is written for the values of a table in which no other values lie: which kind, and which number or bytes."""

import datetime
import time
from decimal import Decimal
from typing import Any, Callable, Dict, Optional, Tuple

from . import _kinds as kinds
from .values import NUMBERS, Float32, Float64, LongString, Number, seconds_of

#: The kind of a value that nothing lies in; its number, which may be negative; its bytes; its scale.
Plain = Tuple[int, int, bytes, int]
_MOST_SCALE = 255
#: No decimal with a larger exponent has a number of 32 bits, but 0.
_MOST_EXPONENT = 9


def octets_of(text: str) -> bytes:
    """The bytes of a str, as UTF-8. Raises TypeError for what is none."""
    if not isinstance(text, str):
        raise TypeError(f"a string has to be a str, and is {type(text).__name__}")
    return str.encode(text)


def _decimal(value: Decimal) -> Plain:
    """The digits of a decimal, and how many of them are behind the point."""
    sign, digits, exponent = value.as_tuple()
    if not isinstance(exponent, int) or sign:
        raise ValueError(f"{value} is no decimal without a sign")
    number = int("".join(map(str, digits))) * 10 ** max(exponent, 0) if exponent <= _MOST_EXPONENT else -1
    scale = max(-exponent, 0)
    if not 0 <= number < 2**32 or scale > _MOST_SCALE:
        raise ValueError(f"{value} has more digits than a decimal has")
    return kinds.DECIMAL, number, b"", scale


def _int(value: int) -> Plain:
    if -(2**31) <= value < 2**31:
        return kinds.INT32, value, b"", 0
    if -(2**63) <= value < 2**63:
        return kinds.INT64, value, b"", 0
    raise OverflowError(f"{value} is no signed number of 64 bits")


def _number(value: Number) -> Plain:
    return value.tag, int(value), b"", 0


def _time(value: Any) -> Plain:
    return kinds.TIME, seconds_of(value), b"", 0


def _byte_array(value: Any) -> Plain:
    return kinds.BYTE_ARRAY, 0, bytes(value), 0


_Maker = Callable[[Any], Plain]
#: What is written for the values of each type, in the order in which types that inherit from them are looked for.
_MAKERS: Dict[type, _Maker] = {
    type(None): lambda value: (kinds.NOTHING, 0, b"", 0),
    bool: lambda value: (kinds.TRUTH, int(value), b"", 0),
    str: lambda value: (kinds.STRING, 0, octets_of(value), 0),
    **dict.fromkeys(NUMBERS.values(), _number),
    int: _int,
    Float32: lambda value: (kinds.FLOAT32, value.bits, b"", 0),
    Float64: lambda value: (kinds.FLOAT64, value.bits, b"", 0),
    float: lambda value: (kinds.FLOAT64, Float64(value).bits, b"", 0),
    datetime.datetime: _time,
    time.struct_time: _time,
    Decimal: _decimal,
    LongString: lambda value: (kinds.STRING, 0, bytes(value), 0),
    bytes: _byte_array,
    bytearray: _byte_array,
    memoryview: _byte_array,
}


def _maker_of(value: Any) -> Optional[_Maker]:
    """What makes the numbers of a value whose type inherits from one above; None where there is none."""
    for known, make in _MAKERS.items():
        if isinstance(value, known):
            return make
    return None


def plain(value: Any) -> Optional[Plain]:
    """What is written for a value that nothing lies in; None for a table or an array. Raises TypeError, ValueError and OverflowError
    for what cannot be written."""
    make = _MAKERS.get(type(value)) or _maker_of(value)
    if make is not None:
        return make(value)
    if isinstance(value, (dict, list, tuple)):
        return None
    raise TypeError(f"no value of a table is written for {type(value).__name__}")
