"""Where the fields of methods and properties lie in their payloads, and what stands between them: as the library writes them.

Reserved fields are in no table of names, so they are read off frames that the library writes: one in which all fields are zero or
empty, and for each field one in which it alone is not.
"""

from typing import List, NamedTuple, Tuple, Type, Union

from . import _kinds as kinds
from ._arguments import LONG_MOST
from ._buffers import Room
from ._errors import UnknownStatus
from ._library import HEAD, NODE, SMALL, Head
from .methods import Method, Properties

#: Where the payload of a frame begins, and how many bytes come after it.
FRONT, BACK = 7, 1
#: The two bytes of a content header that say which properties follow: class, weight and size come before them.
PROPERTY_BITS = 12
#: How many bytes a field has that is zero or empty, and which of them is another where it is 1 or short.
_WIDTHS = {kinds.OCTET: 1, kinds.SHORT: 2, kinds.LONG: 4, kinds.LONG_LONG: 8, kinds.SHORT_STRING: 1, kinds.LONG_STRING: 4, kinds.TABLE: 4}
_MARKED_AT = {kind: width - 1 for kind, width in _WIDTHS.items()}
#: A short string of one byte, and the content of a table with one entry.
_POOL = b"x\0V"
_METHOD, _HEADER = 1, 2


class Constant(NamedTuple):
    """Bytes that are the same in each frame: the ids, reserved fields."""

    octets: bytes


class Field(NamedTuple):
    """A field that is no flag."""

    name: str
    kind: int


class Flags(NamedTuple):
    """A byte of flags: its reserved bits, and the bit of each flag."""

    rest: int
    bits: Tuple[Tuple[str, int], ...]


Part = Union[Constant, Field, Flags]


def _node(kind: int, place: int, is_marked: bool) -> bytes:
    """The node of a field that is zero or empty, or is marked."""
    number = int(is_marked and kind <= kinds.FLAG)
    start, length = {kinds.SHORT_STRING: (0, 1), kinds.LONG_STRING: (0, 1), kinds.TABLE: (1, 2)}.get(kind, (0, 0)) if is_marked else (0, 0)
    return NODE.pack(number, start, length, 0, 0, 0, 0, kind, place, 0)


def _payload(frame_type: int, ids: Tuple[int, int], nodes: List[bytes]) -> bytes:
    """The payload that the library writes for fields, in a frame of some type and ids."""
    class_id, method_id = ids
    head = Head(
        body_size=0, start=0, length=0, first=0, nodes=len(nodes), channel=0, class_id=class_id, method_id=method_id, type=frame_type, form=0)
    out = Room(1024)
    written = SMALL.feksroum_write(HEAD.pack(*head), 1, b"".join(nodes), len(nodes), _POOL, len(_POOL), LONG_MOST, out.address, len(out))
    if written.status:
        raise UnknownStatus(0, written.status)
    return out.copy(written.length)[FRONT:-BACK]


def _difference(one: bytes, other: bytes) -> Tuple[int, int]:
    """The first place at which bytes differ, and in which bits."""
    place = next(place for place in range(len(one)) if one[place] != other[place])
    return place, one[place] ^ other[place]


def layout_of(method: Type[Method]) -> List[Part]:
    """The payload of a method, from left to right: its ids are part of what comes first."""
    blank = [_node(kind, place, False) for place, kind in enumerate(method.kinds)]
    octets = _payload(_METHOD, method.ids, blank)
    parts: List[Part] = []
    end, last_flags = 0, -1
    for place, (name, kind) in enumerate(method.fields):
        marked = [*blank[:place], _node(kind, place, True), *blank[place + 1 :]]
        at, bit = _difference(octets, _payload(_METHOD, method.ids, marked))
        is_more = kind == kinds.FLAG and at == last_flags
        start, width = (at, 1) if kind == kinds.FLAG else (at - _MARKED_AT[kind], _WIDTHS[kind])
        if start > end and not is_more:
            parts.append(Constant(octets[end:start]))
        before = parts[-1] if parts else None
        if is_more and isinstance(before, Flags):
            parts[-1] = Flags(before.rest, (*before.bits, (name, bit)))
        else:
            parts.append(Flags(octets[at], ((name, bit),)) if kind == kinds.FLAG else Field(name, kind))
        end, last_flags = start + width, at if kind == kinds.FLAG else -1
    return parts + ([Constant(octets[end:])] if end < len(octets) else [])


def property_bits() -> Tuple[int, ...]:
    """Of each property, which bit of a content header says that it is set."""
    found = []
    for place, kind in enumerate(Properties.kinds):
        octets = _payload(_HEADER, (0, 0), [_node(kind, place, False)])
        found.append(int.from_bytes(octets[PROPERTY_BITS : PROPERTY_BITS + 2], "big"))
    return tuple(found)
