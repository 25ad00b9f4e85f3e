"""Values out of bytes, each by its type: how many bytes it has, and the value. All raise ValueError where none is there."""

import datetime
import decimal as _decimal
from typing import Any, Callable, Dict, List, Tuple, Union

from .._errors import Error
from .._tables import read_table
from . import common
from .base import plain, text_of

_Read = Tuple[int, Any]


def by_type(value: bytes, data_type: str, offset: int = 0) -> _Read:
    """The value of a type; of a bit the one at an offset."""
    if data_type == "bit":
        return bit(value, offset)
    if data_type not in METHODS:
        raise ValueError(f"Unknown type: {data_type}")
    return METHODS[data_type](value)


def bit(value: bytes, position: int) -> Tuple[int, bool]:
    """One bit of the first byte, which stays for the next one."""
    return 0, octet(value)[1] & (1 << position) != 0


def _number(packer: Any) -> Callable[[bytes], _Read]:
    """What reads the numbers that a packer packs."""

    def read(value: bytes) -> _Read:
        if len(value) < packer.size:
            raise ValueError(f"{packer.size} bytes are wanted, and {len(value)} are there")
        return packer.size, packer.unpack_from(value)[0]

    return read


octet = _number(common.Struct.byte)
short_short_int = _number(common.Struct.short_short_int)
short_short_uint = _number(common.Struct.short_short_uint)
short_int = _number(common.Struct.short)
short_uint = _number(common.Struct.ushort)
long_int = _number(common.Struct.long)
long_uint = _number(common.Struct.ulong)
long_long_int = _number(common.Struct.long_long_int)
_long_long_uint = _number(common.Struct.timestamp)
floating_point = _number(common.Struct.float)
double = _number(common.Struct.double)


def boolean(value: bytes) -> Tuple[int, bool]:
    """A truth value."""
    return 1, octet(value)[1] != 0


def _content(value: bytes, width: int) -> Tuple[int, bytes]:
    """The bytes after a length of so many bytes, and how many both are."""
    length = octet(value)[1] if width == 1 else long_uint(value)[1]
    end = width + length
    if len(value) < end:
        raise ValueError(f"{length} bytes are wanted, and {len(value) - width} are there")
    return end, bytes(value[width:end])


def byte_array(value: bytes) -> Tuple[int, bytearray]:
    """A byte array."""
    used, content = _content(value, 4)
    return used, bytearray(content)


def long_str(value: bytes) -> Tuple[int, Union[str, bytes]]:
    """A long string: a str where it is UTF-8."""
    used, content = _content(value, 4)
    return used, text_of(content)


def short_str(value: bytes) -> Tuple[int, str]:
    """A short string."""
    used, content = _content(value, 1)
    return used, content.decode()


def decimal(value: bytes) -> Tuple[int, _decimal.Decimal]:
    """A decimal."""
    _, scale = octet(value)
    return 5, _decimal.Decimal(f"{long_uint(value[1:])[1]}E-{scale}")


def timestamp(value: bytes) -> Tuple[int, datetime.datetime]:
    """A time, which is UTC and names no zone."""
    used, seconds = _long_long_uint(value)
    try:
        return used, datetime.datetime.fromtimestamp(seconds, datetime.timezone.utc).replace(tzinfo=None)
    except (OverflowError, OSError):
        raise ValueError(f"{seconds} seconds are beyond what datetime has") from None


def field_table(value: bytes) -> Tuple[int, Dict[str, Any]]:
    """A table."""
    used, content = _content(value, 4)
    return used, _table(content)


def field_array(value: bytes) -> Tuple[int, List[Any]]:
    """An array."""
    used, content = _content(value, 4)
    found: List[Any] = _table(b"\0A" + value[:4] + content)[""]
    return used, found


def _table(content: bytes) -> Dict[str, Any]:
    """The table that some bytes are the content of."""
    try:
        found: Dict[str, Any] = plain(read_table(content))
    except Error as error:
        raise ValueError(str(error)) from None
    return found


#: How many bytes a value has after its tag, where that is the same for all.
_WIDTHS = {b"t": 1, b"b": 1, b"B": 1, b"s": 2, b"U": 2, b"u": 2, b"I": 4, b"i": 4, b"l": 8, b"L": 8, b"f": 4, b"d": 8, b"D": 5, b"T": 8, b"V": 0}


def embedded_value(value: bytes) -> _Read:
    """A value in a table, after its tag; None where nothing is there."""
    if not value:
        return 0, None
    tag = bytes(value[:1])
    if tag not in TABLE_MAPPING:
        raise ValueError(f"Unknown type: {tag!r}")
    end = 1 + (_WIDTHS[tag] if tag in _WIDTHS else _content(value[1:], 4)[0])
    return end, _table(b"\0" + bytes(value[:end]))[""]


def void(_: bytes) -> Tuple[int, None]:
    """Nothing."""
    return 0, None


METHODS: Dict[str, Callable[[bytes], _Read]] = {
    "array": field_array, "bit": lambda value: bit(value, 0), "boolean": boolean, "byte_array": byte_array, "decimal": decimal,
    "double": double, "float": floating_point, "long": long_uint, "longlong": _long_long_uint, "longstr": long_str, "octet": octet,
    "short": short_uint, "shortstr": short_str, "table": field_table, "timestamp": timestamp, "void": void,
}
#: What reads the values of each tag.
TABLE_MAPPING: Dict[bytes, Callable[[bytes], _Read]] = {
    b"A": field_array, b"B": short_short_uint, b"D": decimal, b"F": field_table, b"I": long_int, b"L": long_long_int,
    b"S": long_str, b"T": timestamp, b"U": short_int, b"V": void, b"b": short_short_int, b"d": double, b"f": floating_point,
    b"i": long_uint, b"l": long_long_int, b"s": short_int, b"t": boolean, b"u": short_uint, b"x": byte_array,
}
