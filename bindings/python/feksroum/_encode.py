"""Frames into bytes."""

import functools
from typing import Any, Optional, Union

from . import _compiled
from ._arguments import LONG_LONG_MOST, LONG_MOST, OCTET_MOST, SHORT_MOST, whole
from ._buffers import bytes_of, view_of
from ._library import SMALL
from ._packing import body_frames, empty_body, header_frame, method_frame
from .methods import Method, Properties

#: The largest frame, as RabbitMQ proposes it: 131,072 bytes with the 8 around the payload.
FRAME_MAX = 131072
BASIC = 60
#: The bytes of a heartbeat.
HEARTBEAT = bytes.fromhex("08000000000000ce")


class ProtocolHeader:
    """What a client sends first."""

    __slots__ = ("major", "minor", "revision")
    __match_args__ = ("major", "minor", "revision")

    def __init__(self, major: int = 0, minor: int = 9, revision: int = 1) -> None:
        self.major = whole("major", major, OCTET_MOST)
        self.minor = whole("minor", minor, OCTET_MOST)
        self.revision = whole("revision", revision, OCTET_MOST)

    def __eq__(self, other: object) -> bool:
        return isinstance(other, ProtocolHeader) and repr(self) == repr(other)

    __hash__ = None  # type: ignore[assignment]

    def __repr__(self) -> str:
        return f"ProtocolHeader(major={self.major}, minor={self.minor}, revision={self.revision})"


class Body:
    """The bytes of a message, or a part of them."""

    __slots__ = ("payload",)
    __match_args__ = ("payload",)

    def __init__(self, payload: Any = b"") -> None:
        if type(payload) is not bytes:
            view_of(payload)
        self.payload = payload

    def __eq__(self, other: object) -> bool:
        return isinstance(other, Body) and view_of(self.payload) == view_of(other.payload)

    __hash__ = None  # type: ignore[assignment]

    def __repr__(self) -> str:
        return f"Body({bytes_of(self.payload)!r})"


class Heartbeat:
    """A sign of life, on channel 0."""

    __slots__ = ()

    def __eq__(self, other: object) -> bool:
        return isinstance(other, Heartbeat)

    __hash__ = None  # type: ignore[assignment]

    def __repr__(self) -> str:
        return "Heartbeat()"


Item = Union[Method, Properties, Body, Heartbeat, ProtocolHeader]


def encode(
    channel: int,
    item: Item,
    body: Any = None,
    frame_max: int = FRAME_MAX,
    *,
    body_size: Optional[int] = None,
    class_id: int = BASIC,
) -> bytes:
    """The canonical bytes of what is sent on a channel: of a method its frame, of a heartbeat or a protocol header too, on channel 0; of
    a body its frames, one at least; of properties the content header, and the frames of the body that belongs to them, none of
    no bytes.

    No frame is longer than `frame_max`, where 0 is no limit: bodies are cut, and whatever else is longer raises TooLarge.
    `body_size` instead of a body gives the content header alone, which announces so many bytes, and `class_id` is its class.
    Raises TypeError, ValueError and OverflowError for values that are none of their kinds, TooLong for strings of more than 255
    bytes where no more fit, and TooDeep: each names the field, and the key in a table.
    """
    native = _compiled.native
    made: Optional[bytes] = None if native is None else native.encode(channel, item, body, frame_max, body_size, class_id)
    return _encode(channel, item, body, frame_max, body_size, class_id) if made is None else made


def _encode(channel: int, item: Item, body: Any, frame_max: int, body_size: Optional[int], class_id: int) -> bytes:
    """The same in Python, which says why something is refused."""
    channel = whole("channel", channel, SHORT_MOST)
    limit = _limit_of(frame_max)
    if body is not None and (body_size is not None or not isinstance(item, Properties)):
        raise TypeError("a body comes with properties, and without a size")
    if isinstance(item, Method):
        return method_frame(channel, item, limit)
    if isinstance(item, Properties):
        view = view_of(b"" if body is None else body)
        size = view.nbytes if body_size is None else whole("body_size", body_size, LONG_LONG_MOST)
        return header_frame(channel, item, size, whole("class_id", class_id, SHORT_MOST), limit) + body_frames(channel, view, limit)
    if isinstance(item, Body):
        view = view_of(item.payload)
        return body_frames(channel, view, limit) if view.nbytes else empty_body(channel)
    if isinstance(item, (Heartbeat, ProtocolHeader)):
        if channel != 0:
            raise ValueError(f"a {type(item).__name__} is sent on channel 0, and not on channel {channel}")
        return HEARTBEAT if isinstance(item, Heartbeat) else _protocol_header(item)
    raise TypeError(f"nothing is sent for {type(item).__name__}")


@functools.lru_cache(maxsize=16, typed=True)
def _limit_of(frame_max: int) -> int:
    """The longest payload that a frame may have."""
    limit: int = SMALL.feksroum_max_payload(whole("frame_max", frame_max, LONG_MOST))
    if limit == 0:
        raise ValueError(f"frame_max {frame_max} leaves no room for a payload")
    return limit


def _protocol_header(header: ProtocolHeader) -> bytes:
    """The eight bytes of a protocol header."""
    version = (whole(name, getattr(header, name), OCTET_MOST) for name in header.__match_args__)
    return b"AMQP\0" + bytes(version)
