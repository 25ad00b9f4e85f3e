"""The values that stand in tables and arrays, and which kind each is written as.

| Python                         | Written as                                                                  |
|--------------------------------|-----------------------------------------------------------------------------|
| `None`                         | `V`, nothing                                                                |
| `bool`                         | `t`, a truth value                                                          |
| `int`                          | `I`, signed of 4 bytes, where it fits; else `l`, signed of 8 bytes          |
| `float`                        | `d`, a fraction of 8 bytes                                                  |
| `decimal.Decimal`              | `D`: its digits below 2^32, at most 255 of them behind the point, no sign   |
| `datetime.datetime`            | `T`, whole seconds since 1970; where it names no time zone it is UTC        |
| `time.struct_time`             | `T`; it is UTC, as that of `time.gmtime`                                    |
| `str`                          | `S`, a long string, as UTF-8                                                |
| `bytes`, `bytearray`           | `x`, a byte array                                                           |
| `list`, `tuple`                | `A`, an array                                                               |
| `dict`                         | `F`, a table: keys are `str`, and stand in ascending order of their bytes   |

What is read comes as the type in this table where it would be written as the same kind, and else as one of the classes
below, which are numbers or bytes as well. So what was read and is written again is the canonical encoding. `str` shows the value
alone; `repr` names the class. An assignment as `table["count"] += 1` keeps the class; `+` alone gives a plain number.
"""

import calendar
import datetime
import operator
import struct
import time
from decimal import Decimal
from typing import Any, Callable, Dict, List, Optional, Type, Union

from ._arguments import LONG_LONG_MOST, whole
from ._buffers import view_of

Value = Union[None, bool, int, float, Decimal, datetime.datetime, str, bytes, List["Value"], Dict[str, "Value"]]
#: The fields of a table by their keys.
Table = Dict[str, Value]

UTC = datetime.timezone.utc
#: The last second that `datetime` has.
LAST_SECOND = 253402300799


def _kept(operation: Callable[[Any, Any], Any], plain: type) -> Any:
    """An assignment that keeps the class of what is assigned to, where the result is of the plain type."""

    def assign(self: Any, other: Any) -> Any:
        result = operation(plain(self), other)
        return type(self)(result) if type(result) is plain else result

    return assign


class Number(int):
    """A whole number that is written as one kind, whatever its size. Equal to the `int` that it is."""

    __slots__ = ()
    tag = 0
    least, most = 0, 0

    def __new__(cls, value: int) -> "Number":
        number = operator.index(value)
        if not cls.least <= number <= cls.most:
            raise OverflowError(f"{number} is no {cls.__name__}")
        return int.__new__(cls, number)

    __iadd__ = _kept(operator.add, int)
    __isub__ = _kept(operator.sub, int)
    __imul__ = _kept(operator.mul, int)
    __ifloordiv__ = _kept(operator.floordiv, int)
    __imod__ = _kept(operator.mod, int)
    __ilshift__ = _kept(operator.lshift, int)
    __irshift__ = _kept(operator.rshift, int)
    __iand__ = _kept(operator.and_, int)
    __ior__ = _kept(operator.or_, int)
    __ixor__ = _kept(operator.xor, int)
    __str__ = int.__repr__

    def __repr__(self) -> str:
        return f"{type(self).__name__}({int(self)})"


class Int8(Number):
    """Kind `b`: signed, of 1 byte."""

    __slots__ = ()
    tag, least, most = ord("b"), -(2**7), 2**7 - 1


class UInt8(Number):
    """Kind `B`: unsigned, of 1 byte."""

    __slots__ = ()
    tag, least, most = ord("B"), 0, 2**8 - 1


class Int16(Number):
    """Kind `s`: signed, of 2 bytes."""

    __slots__ = ()
    tag, least, most = ord("s"), -(2**15), 2**15 - 1


class UInt16(Number):
    """Kind `u`: unsigned, of 2 bytes."""

    __slots__ = ()
    tag, least, most = ord("u"), 0, 2**16 - 1


class Int32(Number):
    """Kind `I`: signed, of 4 bytes. An `int` that fits is written so as well."""

    __slots__ = ()
    tag, least, most = ord("I"), -(2**31), 2**31 - 1


class UInt32(Number):
    """Kind `i`: unsigned, of 4 bytes."""

    __slots__ = ()
    tag, least, most = ord("i"), 0, 2**32 - 1


class Int64(Number):
    """Kind `l`: signed, of 8 bytes."""

    __slots__ = ()
    tag, least, most = ord("l"), -(2**63), 2**63 - 1


class Timestamp(Number):
    """Kind `T`: seconds since 1970, beyond what `datetime` has. In properties too."""

    __slots__ = ()
    tag, least, most = ord("T"), 0, 2**64 - 1


class Fraction(float):
    """A fraction whose bytes are kept bit by bit. Equal to the `float` that it is."""

    __slots__ = ("bits",)
    bits: int
    #: As `struct` has it and its bits.
    _forms = struct.Struct("=d"), struct.Struct("=Q")

    def __new__(cls, value: float, bits: Optional[int] = None) -> "Fraction":
        as_fraction, as_bits = cls._forms
        if bits is not None:
            packed = as_bits.pack(whole("bits", bits, 256**as_bits.size - 1))
        elif isinstance(value, (str, bytes, bytearray)):
            raise TypeError(f"{cls.__name__} is made of a number, and not of {type(value).__name__}")
        else:
            packed = as_fraction.pack(float(value))
        made = float.__new__(cls, as_fraction.unpack(packed)[0])
        made.bits = as_bits.unpack(packed)[0]
        return made

    @classmethod
    def from_bits(cls, bits: int) -> Any:
        """The fraction that these bits are."""
        return cls(0.0, bits)

    def __reduce__(self) -> Any:
        return type(self).from_bits, (self.bits,)

    __iadd__ = _kept(operator.add, float)
    __isub__ = _kept(operator.sub, float)
    __imul__ = _kept(operator.mul, float)
    __itruediv__ = _kept(operator.truediv, float)
    __str__ = float.__repr__

    def __repr__(self) -> str:
        width = 2 + 2 * self._forms[1].size
        name = type(self).__name__
        return f"{name}.from_bits({self.bits:#0{width}x})" if self != self else f"{name}({float(self)!r})"


class Float32(Fraction):
    """Kind `f`: a fraction of 4 bytes, which are kept bit by bit."""

    __slots__ = ()
    _forms = struct.Struct("=f"), struct.Struct("=I")


class Float64(Fraction):
    """Kind `d`: a fraction of 8 bytes, which are kept bit by bit. It is read where the bytes are no number."""

    __slots__ = ()


class LongString(bytes):
    """Kind `S`: a long string that is not UTF-8. As `bytes` alone it would be written as a byte array."""

    __slots__ = ()

    def __new__(cls, octets: Any = b"") -> "LongString":
        return bytes.__new__(cls, view_of(octets))

    __iadd__ = _kept(operator.add, bytes)
    __str__ = bytes.__repr__

    def __repr__(self) -> str:
        return f"LongString({bytes(self)!r})"


#: The class of each kind of whole numbers.
NUMBERS: Dict[int, Type[Number]] = {number.tag: number for number in Number.__subclasses__()}


def time_of(seconds: int) -> Union[datetime.datetime, Timestamp]:
    """The time so many seconds after 1970 began."""
    return datetime.datetime.fromtimestamp(seconds, UTC) if seconds <= LAST_SECOND else Timestamp(seconds)


def seconds_of(moment: Union[datetime.datetime, time.struct_time, int]) -> int:
    """How many whole seconds after 1970 began a time is; one that names no time zone is UTC."""
    if isinstance(moment, time.struct_time):
        seconds = calendar.timegm(moment)
    elif isinstance(moment, datetime.datetime):
        zoned = moment if moment.utcoffset() is not None else moment.replace(tzinfo=UTC)
        seconds = (zoned - datetime.datetime(1970, 1, 1, tzinfo=UTC)) // datetime.timedelta(seconds=1)
    else:
        return whole("a time", moment, LONG_LONG_MOST)
    if seconds < 0:
        raise ValueError(f"{moment!r} is before 1970")
    return seconds
