"""From nodes, as the library lists them, to values of Python.

This is the hot path of reading where the compiled part is not there: one pass over the nodes, in plain loops, with the frequent kinds
first.
"""

import datetime
import struct
from decimal import Decimal
from itertools import islice
from typing import Any, Callable, Dict, Iterator, List, Tuple, Type, cast

from ._kinds import (
    ARRAY, BYTE_ARRAY, DECIMAL, FLAG, FLOAT32, FLOAT64, INNER_TABLE, INT32, INT64, LONG_LONG, LONG_STRING, NOTHING, SHORT_STRING,
    STRING, TABLE, TIME, TRUTH,
)
from ._library import FIELD_NODE, FLAG_PART, NODE, NUMBER_PART, STRING_PART, VALUE_NODE
from .methods import METHODS, Method, Properties
from .values import LAST_SECOND, NUMBERS, UTC, Float32, Float64, Int64, LongString, Table, Value, time_of

NODE_SIZE = NODE.size
#: Bound here, since a method of a name that is imported takes longer to be called.
_unpack_field, _unpack_values = FIELD_NODE.unpack_from, VALUE_NODE.iter_unpack
_UNSIGNED = 2**64 - 1
_pack_bits = struct.Struct("=q").pack
_unpack_float = struct.Struct("=d").unpack
_number = int.__new__
_time = datetime.datetime.fromtimestamp

Nodes = Iterator[Tuple[int, ...]]


def rare_value(source: bytes, number: int, start: int, length: int, kind: int, scale: int) -> Value:
    """A value of one of the kinds that the loops below leave, or one that is read as a wrapper."""
    if kind == STRING:
        return LongString(source[start : start + length])
    if kind == INT64:
        return Int64(number)
    if kind == TIME:
        return time_of(number & _UNSIGNED)
    if kind == FLOAT64:
        return cast(float, Float64.from_bits(number & _UNSIGNED))
    if kind == BYTE_ARRAY:
        return source[start : start + length]
    if kind == FLOAT32:
        return cast(float, Float32.from_bits(number))
    if kind == DECIMAL:
        return Decimal(f"{number}E-{scale}")
    return cast(Value, _number(NUMBERS[kind], number))


def table_of(source: bytes, nodes: Nodes, count: int) -> Table:
    """The table of the next so many entries: of duplicate keys the last one wins."""
    table: Table = {}
    for number, start, length, key_start, items, key_length, kind, scale in islice(nodes, count):
        key = source[key_start : key_start + key_length].decode()
        if kind == STRING:
            try:
                table[key] = source[start : start + length].decode()
            except UnicodeDecodeError:
                table[key] = rare_value(source, number, start, length, kind, scale)
        elif kind == INT32:
            table[key] = number
        elif kind == TRUTH:
            table[key] = number == 1
        elif kind == INT64 and not -0x80000000 <= number < 0x80000000:
            table[key] = number
        elif kind == TIME and 0 <= number <= LAST_SECOND:
            table[key] = _time(number, UTC)
        elif kind == FLOAT64:
            (fraction,) = _unpack_float(_pack_bits(number))
            table[key] = fraction if fraction == fraction else rare_value(source, number, start, length, kind, scale)
        elif kind == INNER_TABLE:
            table[key] = table_of(source, nodes, items)
        elif kind == ARRAY:
            table[key] = array_of(source, nodes, items)
        elif kind == NOTHING:
            table[key] = None
        else:
            table[key] = rare_value(source, number, start, length, kind, scale)
    return table


def array_of(source: bytes, nodes: Nodes, count: int) -> List[Value]:
    """The array of the next so many values: as a table, without keys."""
    array: List[Value] = []
    for number, start, length, _, items, _, kind, scale in islice(nodes, count):
        if kind == STRING:
            try:
                array.append(source[start : start + length].decode())
            except UnicodeDecodeError:
                array.append(rare_value(source, number, start, length, kind, scale))
        elif kind == INT32:
            array.append(number)
        elif kind == TRUTH:
            array.append(number == 1)
        elif kind == INT64 and not -0x80000000 <= number < 0x80000000:
            array.append(number)
        elif kind == TIME and 0 <= number <= LAST_SECOND:
            array.append(_time(number, UTC))
        elif kind == FLOAT64:
            (fraction,) = _unpack_float(_pack_bits(number))
            array.append(fraction if fraction == fraction else rare_value(source, number, start, length, kind, scale))
        elif kind == INNER_TABLE:
            array.append(table_of(source, nodes, items))
        elif kind == ARRAY:
            array.append(array_of(source, nodes, items))
        elif kind == NOTHING:
            array.append(None)
        else:
            array.append(rare_value(source, number, start, length, kind, scale))
    return array


def read_table_of(source: bytes, nodes: Any, first: int, inside: int, items: int) -> Table:
    """The table whose entries' nodes begin at `first`: `inside` with all that lies in them, of which `items` at most are its own."""
    entries = memoryview(nodes)[first * NODE_SIZE : (first + inside) * NODE_SIZE]
    return table_of(source, _unpack_values(entries), items)


def _field_of(source: bytes, nodes: Any, index: int, kind: int, node: Tuple[int, ...]) -> Any:
    """The value of the field whose node this is, at `index` in the list; of a number that is done already."""
    number, start, length, inside, items, _ = node
    if kind == SHORT_STRING:
        return source[start : start + length].decode()
    if kind == FLAG:
        return number == 1
    if kind == LONG_STRING:
        return source[start : start + length]
    return read_table_of(source, nodes, index + 1, inside, items)


_Reader = Callable[[bytes, Any, int], Method]
_new = object.__new__
_PARTS = {FLAG: FLAG_PART, SHORT_STRING: STRING_PART, LONG_STRING: STRING_PART}


def _reader_of(method: Type[Method]) -> _Reader:
    """What reads a method without tables. Its code is generated, as `dataclasses` does: a loop over the fields takes twice as long."""
    targets, strings = [], []
    for place, (name, kind) in enumerate(method.fields):
        if kind < SHORT_STRING:
            targets.append(f"made.{name}")
        else:
            targets.append(f"start{place}, length{place}")
            text = f"source[start{place} : start{place} + length{place}]"
            strings.append(f"made.{name} = {text}.decode()" if kind == SHORT_STRING else f"made.{name} = {text}")
    unpacked = [f"{', '.join(targets)}, = unpack(nodes, index * {NODE_SIZE})"] if targets else []
    lines = ["made = new(method)", *unpacked, *strings, "return made"]
    unpack = struct.Struct("=" + "".join(_PARTS.get(kind, NUMBER_PART) for kind in method.kinds)).unpack_from
    names: Dict[str, Any] = {"method": method, "new": _new, "unpack": unpack}
    exec("\n    ".join(["def read(source, nodes, index):", *lines]), names)
    return cast(_Reader, names["read"])


def _reader_with_tables(method: Type[Method]) -> _Reader:
    """What reads a method with tables, behind whose nodes those of other fields stand."""
    return lambda source, nodes, index: _with_tables(_new(method), source, nodes, index)


#: What reads the method of these ids from nodes that begin at an index.
METHOD_READERS: Dict[Tuple[int, int], _Reader] = {
    ids: _reader_with_tables(method) if TABLE in method.kinds else _reader_of(method) for ids, method in METHODS.items()
}


def _with_tables(made: Method, source: bytes, nodes: Any, index: int) -> Method:
    """Fills a method that has tables."""
    for name, kind in made.fields:
        node = _unpack_field(nodes, index * NODE_SIZE)
        number, _, _, inside, _, _ = node
        setattr(made, name, number if kind <= LONG_LONG else _field_of(source, nodes, index, kind, node))
        index += 1 + inside
    return made


def properties_of(source: bytes, nodes: Any, index: int, end: int) -> Properties:
    """The properties whose nodes stand from `index` to `end`."""
    values: List[Any] = [None] * len(Properties.fields)
    while index < end:
        node = _unpack_field(nodes, index * NODE_SIZE)
        number, _, _, inside, _, place = node
        name, kind = Properties.fields[place]
        if name == "timestamp":
            values[place] = time_of(number)
        else:
            values[place] = number if kind <= LONG_LONG else _field_of(source, nodes, index, kind, node)
        index += 1 + inside
    made = Properties.__new__(Properties)
    for name, value in zip(Properties.__match_args__, values):
        setattr(made, name, value)
    return made
