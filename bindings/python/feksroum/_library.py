"""The shared library: where it is found, its structs, and its functions as `feksroum.h` declares them.

Each function is there twice. A call on few bytes keeps the interpreter's lock, since to take it back beside a busy thread
lasts longer than the call; a call on many bytes lets go of it.
"""

import ctypes
import os
import struct
from ctypes import POINTER, Structure, c_bool, c_size_t, c_uint8, c_uint16, c_uint32, c_uint64
from typing import Any, Callable, List, NamedTuple, Tuple, Type

#: The version of the library that this module is written for: major, minor.
WANTED = (0, 1)
#: The name by which the system has it.
SONAME = "libfeksroum.so.0"
#: Calls on more bytes than this let go of the interpreter's lock.
SMALL_INPUT = 16384


class FrontFrame(Structure):
    _fields_ = [
        ("used", c_uint64), ("needed", c_uint64), ("payload_length", c_uint64), ("payload_start", c_uint32),
        ("channel", c_uint16), ("type", c_uint8), ("status", c_uint8),
    ]


class Payload(Structure):
    _fields_ = [
        ("body_size", c_uint64), ("class_id", c_uint16), ("method_id", c_uint16), ("canonical", c_bool), ("tidy", c_bool),
        ("status", c_uint8), ("fields", c_uint8),
    ]


class Progress(Structure):
    _fields_ = [("used", c_uint64), ("written", c_uint64), ("status", c_uint32), ("unused", c_uint32)]


class Line(Structure):
    _fields_ = [("used", c_uint64), ("length", c_uint64), ("status", c_uint32), ("unused", c_uint32)]


class Fields(Structure):
    _fields_ = [
        ("body_size", c_uint64), ("nodes", c_uint64), ("class_id", c_uint16), ("method_id", c_uint16), ("canonical", c_bool),
        ("tidy", c_bool), ("status", c_uint8), ("unused", c_uint8),
    ]


class Batch(Structure):
    _fields_ = [
        ("used", c_uint64), ("needed", c_uint64), ("heads", c_uint32), ("nodes", c_uint32), ("status", c_uint32),
        ("unused", c_uint32),
    ]


class Written(Structure):
    _fields_ = [
        ("length", c_uint64), ("head", c_uint32), ("node", c_uint32), ("status", c_uint32), ("unused", c_uint32),
    ]


class MethodRow(Structure):
    _fields_ = [
        ("class_id", c_uint16), ("method_id", c_uint16), ("fields", c_uint8), ("carries_content", c_bool),
        ("wants_answer", c_bool), ("status", c_uint8),
    ]


class Mark(Structure):
    _fields_ = [("numbers", c_uint64 * 2)]


class ChannelState(Structure):
    _fields_ = [("size", c_uint64), ("seen", c_uint64), ("state", c_uint32), ("unused", c_uint32)]


class Turn(Structure):
    _fields_ = [
        ("after", ChannelState), ("before", c_uint64), ("up_to", c_uint64), ("size", c_uint64), ("part", c_uint8),
        ("finished", c_bool), ("fault", c_uint8), ("status", c_uint8), ("unused", c_uint32),
    ]


class FrameRule(Structure):
    _fields_ = [
        ("first_channel", c_uint16), ("last_channel", c_uint16), ("class_id", c_uint16), ("method_id", c_uint16),
        ("keep", c_uint8), ("has_channels", c_uint8), ("type", c_uint8), ("has_class", c_uint8), ("has_method", c_uint8),
        ("status", c_uint8),
    ]


class Cut(Structure):
    _fields_ = [("pieces", c_uint64), ("left", c_uint32), ("status", c_uint32)]


class Piece(Structure):
    _fields_ = [("held_start", c_uint32), ("held_length", c_uint32), ("start", c_uint32), ("length", c_uint32)]


class Head(NamedTuple):
    """A frame among others, as HEAD unpacks it."""

    #: How many bytes of body a content header announces, else 0.
    body_size: int
    #: Where the payload begins.
    start: int
    #: How many bytes the payload has.
    length: int
    #: Which node is the first.
    first: int
    #: How many nodes there are.
    nodes: int
    #: 0 for a protocol header.
    channel: int
    #: Of a method or content header, else 0.
    class_id: int
    #: Of a method, else 0.
    method_id: int
    #: What the first byte of the frame names.
    type: int
    #: A bit that says whether the payload is canonical, and one that says whether it is tidy.
    form: int

    def __hash__(self) -> int:
        """That of its numbers. From Python 3.14 on a tuple keeps its hash, and the compiled part makes heads without preparing that."""
        return hash(tuple(self))


HEAD = struct.Struct("=Q4I3HBB")
#: `new_head(Head, numbers)` makes a head of what was unpacked, as `Head._make(numbers)` does in twice the time.
new_head: Callable[[Type[Head], Tuple[int, ...]], Head] = tuple.__new__

# The layouts of a node, by what each unpacks.
#: The whole node: number; start, length, key_start, inside, items; key_length, kind, place, scale.
NODE = struct.Struct("=Q5I4B")
#: Of a value in a table or an array: number (signed), start, length, key_start, items, key_length, kind, scale.
VALUE_NODE = struct.Struct("=q3I4xI2BxB")
#: Of a field: number, start, length, inside, items, place.
FIELD_NODE = struct.Struct("=Q2I4x2I2xBx")
#: Of fields that are no tables, whose nodes are unpacked together: number; whether a flag is set; start, length.
NUMBER_PART, FLAG_PART, STRING_PART = "Q24x", "?31x", "8x2I16x"

BYTES_IN = [ctypes.c_void_p, c_size_t]
NAME_OUT = [POINTER(c_uint8), c_size_t]
FUNCTIONS: List[Tuple[str, Any, List[Any]]] = [
    ("feksroum_version", c_uint32, []),
    ("feksroum_next", FrontFrame, [*BYTES_IN, c_uint32]),
    ("feksroum_check", Payload, [c_uint8, *BYTES_IN]),
    ("feksroum_open", Fields, [c_uint8, *BYTES_IN, *BYTES_IN]),
    ("feksroum_frames", Batch, [*BYTES_IN, c_uint32, c_uint8, *BYTES_IN, *BYTES_IN]),
    ("feksroum_write", Written, [*BYTES_IN, *BYTES_IN, *BYTES_IN, c_uint32, *BYTES_IN]),
    ("feksroum_write_content", Written, [c_uint8, *BYTES_IN, *BYTES_IN, *BYTES_IN]),
    ("feksroum_body_head", c_size_t, [c_uint16, c_uint32, *BYTES_IN]),
    ("feksroum_max_payload", c_uint32, [c_uint32]),
    ("feksroum_scratch", c_size_t, [c_size_t]),
    ("feksroum_canonicalize", Progress, [*BYTES_IN, *BYTES_IN, *BYTES_IN, c_uint32, c_uint8]),
    ("feksroum_dump", Line, [*BYTES_IN, *BYTES_IN, c_uint32]),
    ("feksroum_undump", Line, [*BYTES_IN, *BYTES_IN, c_uint32]),
    ("feksroum_step", Turn, [ChannelState, c_uint8, c_uint16, c_uint16, c_uint64, c_uint64]),
    ("feksroum_rule", FrameRule, [*BYTES_IN]),
    ("feksroum_decide", c_uint8, [*BYTES_IN, c_uint8, c_uint16, c_uint16, c_uint16]),
    ("feksroum_recut", Cut, [c_uint32, c_uint32, c_uint32, c_uint8]),
    ("feksroum_piece_at", Piece, [c_uint32, c_uint32, c_uint32, c_uint8, c_uint64]),
    ("feksroum_name", c_size_t, [c_uint8, *NAME_OUT]),
    ("feksroum_method_at", MethodRow, [c_uint8]),
    ("feksroum_shape", c_size_t, [c_uint16, c_uint16, *NAME_OUT]),
    ("feksroum_property_kind", c_uint8, [c_uint8]),
    ("feksroum_class_name", c_size_t, [c_uint16, *NAME_OUT]),
    ("feksroum_method_name", c_size_t, [c_uint16, c_uint16, *NAME_OUT]),
    ("feksroum_field_name", c_size_t, [c_uint16, c_uint16, c_uint8, *NAME_OUT]),
    ("feksroum_property_name", c_size_t, [c_uint8, *NAME_OUT]),
]


def place() -> str:
    """Where the library is: where FEKSROUM_LIBRARY says, beside this module as a wheel has it, where `make -C bindings`
    builds it, or where the system looks for its name."""
    named = os.environ.get("FEKSROUM_LIBRARY")
    if named:
        return named
    here = os.path.dirname(os.path.abspath(__file__))
    for folder in (here, os.path.join(here, "..", "..", "out")):
        path = os.path.join(folder, SONAME)
        if os.path.exists(path):
            return path
    return SONAME


def check_version(number: int, path: str) -> None:
    """Raises ImportError where a library of this version cannot serve. Below 1.0 the middle number counts as the first."""
    major, minor, patch = number >> 16, number >> 8 & 255, number & 255
    if major != WANTED[0] or (major == 0 and minor != WANTED[1]):
        raise ImportError(f"feksroum: {path} is version {major}.{minor}.{patch}, and {WANTED[0]}.{WANTED[1]} is wanted")


def _declare(library: Any, path: str) -> Any:
    """The library with its functions' arguments and results."""
    for name, result, arguments in FUNCTIONS:
        try:
            function = getattr(library, name)
        except AttributeError:
            raise ImportError(f"feksroum: {path} has no function {name}: it is not version {WANTED[0]}.{WANTED[1]}") from None
        function.restype, function.argtypes = result, arguments
    return library


def load(path: str) -> Tuple[Any, Any]:
    """The library at a path, for calls that keep the interpreter's lock, and for calls that let go of it."""
    try:
        small, large = ctypes.PyDLL(path), ctypes.CDLL(path)
    except OSError as error:
        raise ImportError(
            f"feksroum: no library ({error}): make -C bindings builds it, and FEKSROUM_LIBRARY may say where it is") from None
    _declare(small, path)
    _declare(large, path)
    check_version(small.feksroum_version(), path)
    return small, large


SMALL, LARGE = load(place())


def library_for(length: int) -> Any:
    """The library for a call on so many bytes."""
    return SMALL if length <= SMALL_INPUT else LARGE


def name_of(function: Any, *arguments: int) -> str:
    """A name that a function writes; "" where it has none."""
    room = (c_uint8 * 64)()
    length = function(*arguments, room, len(room))
    return bytes(room[:length]).decode("ascii")
