"""Types of values, and the numbers of fields."""

import datetime
import decimal
import struct
from typing import Dict, List, Optional, Union

FieldArray = List["FieldValue"]
FieldTable = Dict[str, "FieldValue"]
FieldValue = Union[
    bool, bytes, bytearray, decimal.Decimal, FieldArray, FieldTable, float, int, None, str, datetime.datetime]
Arguments = Optional[FieldTable]


class Struct:
    """The numbers of fields, by the names that pamqp has for them."""

    byte = struct.Struct("B")
    double = struct.Struct(">d")
    float = struct.Struct(">f")
    integer = struct.Struct(">I")
    uint = struct.Struct(">i")
    long_long_int = struct.Struct(">q")
    short_short_int = struct.Struct(">b")
    short_short_uint = struct.Struct(">B")
    timestamp = struct.Struct(">Q")
    long = struct.Struct(">l")
    ulong = struct.Struct(">L")
    short = struct.Struct(">h")
    ushort = struct.Struct(">H")
