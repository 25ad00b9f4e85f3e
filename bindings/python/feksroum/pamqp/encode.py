"""Values into bytes, each by its type."""

import datetime
import decimal as _decimal
import time
from typing import Any, Callable, Dict, List, Type, Union, cast

from .. import _kinds as kinds
from .._packing import PACKERS, entries, packed_value
from ..values import Float32, seconds_of
from .common import Struct

#: Nothing changes with it: numbers are written in 4 or in 8 bytes, which every broker reads.
DEPRECATED_RABBITMQ_SUPPORT = False


def support_deprecated_rabbitmq(enabled: bool = True) -> None:
    """Keeps what is asked for."""
    global DEPRECATED_RABBITMQ_SUPPORT
    DEPRECATED_RABBITMQ_SUPPORT = enabled


def by_type(value: Any, data_type: str) -> bytes:
    """The bytes of a field of a type. Raises TypeError for an unknown one, and for a value that is none of it."""
    if data_type not in METHODS:
        raise TypeError(f"Unknown type: {data_type}")
    return cast(bytes, METHODS[data_type](value))


def bit(value: int, byte: int, position: int) -> int:
    """A byte with one more bit."""
    return byte | (value << position)


def _wanted(value: Any, *types: Type[Any]) -> Any:
    """A value of one of some types. Raises TypeError for another."""
    if not isinstance(value, types):
        raise TypeError(f"{' or '.join(one.__name__ for one in types)} required, received {type(value)}")
    return value


def _number(packer: Any, least: int, most: int) -> Callable[[int], bytes]:
    """What packs whole numbers from a least to a most one."""

    def packed(value: int) -> bytes:
        if not least <= _wanted(value, int) <= most:
            raise TypeError(f"integer range: {least} to {most}, and not {value}")
        return bytes(packer.pack(value))

    return packed


octet = _number(Struct.byte, 0, 2**8 - 1)
short_int = _number(Struct.short, -(2**15), 2**15 - 1)
short_uint = _number(Struct.ushort, 0, 2**16 - 1)
long_int = _number(Struct.long, -(2**31), 2**31 - 1)
long_uint = _number(Struct.ulong, 0, 2**32 - 1)
long_long_int = _number(Struct.long_long_int, -(2**63), 2**63 - 1)
_long_long_uint = _number(Struct.timestamp, 0, 2**64 - 1)


def boolean(value: bool) -> bytes:
    """A truth value."""
    return b"\1" if _wanted(value, bool) else b"\0"


def byte_array(value: Union[bytes, bytearray]) -> bytes:
    """A byte array, with its length."""
    return packed_value(bytes(_wanted(value, bytearray, bytes)), 1)[1:]


def decimal(value: _decimal.Decimal) -> bytes:
    """A decimal: how many digits are behind the point, and all digits as a number."""
    return packed_value(_wanted(value, _decimal.Decimal), 1)[1:]


def double(value: float) -> bytes:
    """A fraction of 8 bytes."""
    return Struct.double.pack(_wanted(value, float))


def floating_point(value: float) -> bytes:
    """A fraction of 4 bytes."""
    return packed_value(Float32(_wanted(value, float)), 1)[1:]


def long_string(value: str) -> bytes:
    """A long string, with its length."""
    return PACKERS[kinds.LONG_STRING](_wanted(value, str, bytes))


def short_string(value: str) -> bytes:
    """A short string, with its length."""
    return PACKERS[kinds.SHORT_STRING](_wanted(value, str))


def timestamp(value: Union[datetime.datetime, time.struct_time]) -> bytes:
    """A time, in seconds since 1970."""
    return Struct.timestamp.pack(seconds_of(_wanted(value, datetime.datetime, time.struct_time)))


def field_array(value: List[Any]) -> bytes:
    """An array, with its length."""
    return packed_value(_wanted(value, list), 1)[1:]


def field_table(value: Any) -> bytes:
    """A table, with its length."""
    content = entries(_wanted(value, dict)) if value else b""
    return Struct.integer.pack(len(content)) + content


def table_integer(value: int) -> bytes:
    """A whole number in a table, after its tag."""
    return packed_value(_wanted(value, int), 1)


def encode_table_value(value: Any) -> bytes:
    """A value in a table, after its tag."""
    return packed_value(value, 1)


METHODS: Dict[str, Callable[[Any], Any]] = {
    "bytearray": byte_array, "double": double, "field_array": field_array, "long": long_uint,
    "longlong": _long_long_uint, "longstr": long_string, "octet": octet, "short": short_uint, "shortstr": short_string,
    "table": field_table, "timestamp": timestamp, "void": lambda _: None,
}
