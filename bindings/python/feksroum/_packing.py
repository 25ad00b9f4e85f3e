"""Fields, tables and frames into bytes, in Python: what runs where the compiled part is not there, and what names a refusal.

The bytes are the canonical ones: tests compare them with the library on each method, property and kind of value.
"""

import functools
import operator
import struct
import time
from typing import Any, Callable, Dict, Iterable, List, Optional, Tuple

from . import _kinds as kinds
from ._arguments import LONG_LONG_MOST, LONG_MOST, OCTET_MOST, SHORT_MOST, whole
from ._errors import Error, TooDeep, TooLarge, TooLong
from ._layout import Constant, Flags, layout_of, property_bits
from ._plain import octets_of, plain
from .methods import METHODS, Fields, Method, Properties
from .values import seconds_of

#: How deep tables and arrays nest at most.
MOST_NESTED = 64
_FRONT, _FRAME_END = struct.Struct(">BHI"), b"\xce"
_METHOD, _HEADER, _BODY = 1, 2, 3
#: A content header: class, weight, size, which properties follow.
_HEADER_FRONT = struct.Struct(">HHQH")
#: The bytes that are one number: the lengths of short strings.
_OCTETS = tuple(bytes([number]) for number in range(256))
_WIDTH = {kinds.OCTET: ">B", kinds.SHORT: ">H", kinds.LONG: ">I", kinds.LONG_LONG: ">Q"}
_MOST = {kinds.OCTET: OCTET_MOST, kinds.SHORT: SHORT_MOST, kinds.LONG: LONG_MOST, kinds.LONG_LONG: LONG_LONG_MOST}
_pack_length = struct.Struct(">I").pack
_pack_int32 = struct.Struct(">ci").pack
_pack_fraction = struct.Struct(">cd").pack
_pack_string = struct.Struct(">cI").pack

# ---- Fields


def _number(kind: int) -> Callable[[Any], bytes]:
    """What packs the numbers of a kind of fields."""
    pack: Callable[[Any], bytes] = struct.Struct(_WIDTH[kind]).pack
    most = _MOST[kind]

    def packed(value: Any) -> bytes:
        try:
            return pack(value)
        except struct.error:
            return pack(whole("a number", value, most))

    return packed


def _short_string(value: Any) -> bytes:
    octets = octets_of(value)
    if len(octets) > OCTET_MOST:
        raise TooLong()
    return _OCTETS[len(octets)] + octets


def _long_string(value: Any) -> bytes:
    """A long string in a field: bytes, or a str as UTF-8."""
    if isinstance(value, str):
        octets = str.encode(value)
    elif isinstance(value, (bytes, bytearray, memoryview)):
        octets = bytes(value)
    else:
        raise TypeError(f"a long string has to be bytes or a str, and is {type(value).__name__}")
    return _with_length(octets)


def _with_length(octets: bytes) -> bytes:
    if len(octets) > LONG_MOST:
        raise TooLarge()
    return _pack_length(len(octets)) + octets


def _flag(value: Any) -> bool:
    if not isinstance(value, int):
        raise TypeError(f"a flag has to be a bool, and is {type(value).__name__}")
    return bool(value)


def _table(value: Any) -> bytes:
    return _with_length(entries(value))


def _seconds(value: Any) -> bytes:
    return PACKERS[kinds.LONG_LONG](seconds_of(value))


PACKERS: Dict[int, Callable[[Any], bytes]] = {
    **{kind: _number(kind) for kind in _WIDTH}, kinds.SHORT_STRING: _short_string, kinds.LONG_STRING: _long_string, kinds.TABLE: _table,
}

# ---- Tables


def entries(table: Any, depth: int = 1) -> bytes:
    """The content of a table: its entries in ascending order of their keys' bytes. None has no entries."""
    if table is None:
        return b""
    if not isinstance(table, dict):
        raise TypeError(f"a table has to be a dict, and is {type(table).__name__}")
    if depth > MOST_NESTED:
        raise TooDeep()
    # By their bytes, since keys that are not equal may have the same: of these the last one wins.
    by_octets = {_short_string(key)[1:]: value for key, value in table.items()}
    return b"".join([_OCTETS[len(key)] + key + packed_value(by_octets[key], depth) for key in sorted(by_octets)])


def _array(values: Iterable[Any], depth: int) -> bytes:
    if depth > MOST_NESTED:
        raise TooDeep()
    return b"".join([packed_value(value, depth) for value in values])


def packed_value(value: Any, depth: int) -> bytes:
    """The bytes of a value in a table or array that is nested so deep: its tag, and what follows it."""
    kind = type(value)
    if kind is str:
        octets: bytes = value.encode()
        return _pack_string(b"S", len(octets)) + octets
    if kind is int and -0x80000000 <= value < 0x80000000:
        return _pack_int32(b"I", value)
    if kind is bool:
        return b"t\1" if value else b"t\0"
    if kind is dict:
        return b"F" + _with_length(entries(value, depth + 1))
    if kind is list:
        return b"A" + _with_length(_array(value, depth + 1))
    if kind is float and value == value:
        return _pack_fraction(b"d", value)
    return b"V" if value is None else _other_value(value, depth)


def _other_value(value: Any, depth: int) -> bytes:
    """The same of a value of another type."""
    made = plain(value)
    if made is None:
        is_table = isinstance(value, dict)
        return (b"F" if is_table else b"A") + _with_length(entries(value, depth + 1) if is_table else _array(value, depth + 1))
    kind, number, octets, scale = made
    if kind in (kinds.STRING, kinds.BYTE_ARRAY):
        return _OCTETS[kind] + _with_length(octets)
    if kind == kinds.DECIMAL:
        return struct.pack(">cBI", b"D", scale, number)
    return _OCTETS[kind] + _VALUE_FORMS[kind].pack(*([number] if kind != kinds.NOTHING else []))


#: The numbers after a tag; fractions are given as their bits.
_VALUE_FORMS: Dict[int, struct.Struct] = {
    kinds.TRUTH: struct.Struct(">B"), kinds.INT8: struct.Struct(">b"), kinds.UINT8: struct.Struct(">B"), kinds.INT16: struct.Struct(">h"),
    kinds.UINT16: struct.Struct(">H"), kinds.INT32: struct.Struct(">i"), kinds.UINT32: struct.Struct(">I"), kinds.INT64: struct.Struct(">q"),
    kinds.FLOAT32: struct.Struct(">I"), kinds.FLOAT64: struct.Struct(">Q"), kinds.TIME: struct.Struct(">Q"), kinds.NOTHING: struct.Struct(""),
}

# ---- Frames

_Part = Callable[[Any], bytes]


def _field_part(name: str, kind: int) -> _Part:
    get, pack = operator.attrgetter(name), PACKERS[kind]
    return lambda fields: pack(get(fields))


def _flags_part(flags: Flags) -> _Part:
    bits = [(operator.attrgetter(name), bit) for name, bit in flags.bits]

    def packed(fields: Any) -> bytes:
        found = flags.rest
        for get, bit in bits:
            value = get(fields)
            if value is True or (value is not False and _flag(value)):
                found |= bit
        return _OCTETS[found]

    return packed


def _constant_part(octets: bytes) -> _Part:
    return lambda fields: octets


@functools.lru_cache(maxsize=None)
def _parts_of(ids: Tuple[int, int]) -> List[_Part]:
    """What packs the payload of a method, from left to right."""
    parts: List[_Part] = []
    for part in layout_of(METHODS[ids]):
        if isinstance(part, Constant):
            parts.append(_constant_part(part.octets))
        else:
            parts.append(_flags_part(part) if isinstance(part, Flags) else _field_part(part.name, part.kind))
    return parts


def _property_packer(name: str, kind: int) -> Callable[[Any], bytes]:
    return _seconds if name == "timestamp" else PACKERS[kind]


#: Of each property the bit of a content header that says that it is set.
PROPERTY_BITS = property_bits()
#: Of each property what gets it, that bit, and what packs it.
_PROPERTIES = tuple(
    (operator.attrgetter(name), bit, _property_packer(name, kind)) for (name, kind), bit in zip(Properties.fields, PROPERTY_BITS))


def _framed(frame_type: int, channel: int, payload: bytes, limit: int) -> bytes:
    if len(payload) > limit:
        raise TooLarge()
    return _FRONT.pack(frame_type, channel, len(payload)) + payload + _FRAME_END


def method_frame(channel: int, method: Method, limit: int) -> bytes:
    """The frame of a method."""
    try:
        payload = b"".join([part(method) for part in _parts_of(method.ids)])
    except _REFUSALS as error:
        raise _refusal_of(method, error) from None
    return _framed(_METHOD, channel, payload, limit)


def header_frame(channel: int, properties: Properties, size: int, class_id: int, limit: int) -> bytes:
    """The frame of a content header."""
    bits, pieces = 0, []
    try:
        for get, bit, pack in _PROPERTIES:
            value = get(properties)
            if value is not None:
                bits |= bit
                pieces.append(pack(value))
    except _REFUSALS as error:
        raise _refusal_of(properties, error) from None
    return _framed(_HEADER, channel, _HEADER_FRONT.pack(class_id, 0, size, bits) + b"".join(pieces), limit)


def body_frames(channel: int, view: memoryview, limit: int) -> bytes:
    """The frames of a body, each as long as it may be; none for no bytes."""
    pieces: List[Any] = []
    for at in range(0, view.nbytes, limit):
        piece = view[at : at + limit]
        pieces += [_FRONT.pack(_BODY, channel, piece.nbytes), piece, _FRAME_END]
    return b"".join(pieces)


def empty_body(channel: int) -> bytes:
    """The frame of a body of no bytes."""
    return _FRONT.pack(_BODY, channel, 0) + _FRAME_END


# ---- Refusals

_REFUSALS = TypeError, ValueError, OverflowError, Error


def _refusal_of(fields: Fields, error: Exception) -> Exception:
    """The refusal of the first field that is refused, which names it; else the error that was met."""
    for name, kind in fields.fields:
        value = getattr(fields, name)
        if isinstance(fields, Properties):
            found = None if value is None else _refused(name, _property_packer(name, kind), value)
        else:
            found = _refused(name, _flag if kind == kinds.FLAG else PACKERS[kind], value)
        if found is not None:
            inner = refusal_in(name, value, 1) if kind == kinds.TABLE and isinstance(value, dict) else None
            return inner or found
    return error


def _refused(place: str, pack: Callable[[Any], Any], value: Any) -> Optional[Exception]:
    """Why a value cannot be packed, which names its place; None where it can."""
    try:
        pack(value)
    except UnicodeEncodeError as error:
        return UnicodeEncodeError(error.encoding, error.object, error.start, error.end, f"{error.reason}, in {place}")
    except Error as error:
        error.place = place
        return error
    except (TypeError, ValueError, OverflowError) as error:
        return type(error)(f"{place}: {error}")
    return None


def refusal_in(place: str, value: Any, depth: int) -> Optional[Exception]:
    """Why a table, or a value in one that is nested so deep, cannot be packed, which names the key; None where it can."""
    if isinstance(value, dict) and depth <= MOST_NESTED:
        for key, inner in value.items():
            found = _refused(f"{place}, its key {key!r}", _short_string, key) or _refusal_inside(f"{place}[{key!r}]", inner, depth)
            if found is not None:
                return found
        return None
    return _refused(place, lambda value: packed_value(value, depth - 1), value)


def _refusal_inside(place: str, value: Any, depth: int) -> Optional[Exception]:
    """The same of a value in a table or array that is nested so deep."""
    if isinstance(value, dict):
        return refusal_in(place, value, depth + 1)
    if isinstance(value, (list, tuple)) and not isinstance(value, time.struct_time) and depth < MOST_NESTED:
        for at, inner in enumerate(value):
            found = _refusal_inside(f"{place}[{at}]", inner, depth + 1)
            if found is not None:
                return found
        return None
    return _refused(place, lambda value: packed_value(value, depth), value)
