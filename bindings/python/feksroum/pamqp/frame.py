"""Frames into bytes and out of bytes."""

import struct
from typing import Any, List, Optional, Tuple, Union

from .. import _compiled, _encode
from .._errors import Error, error_of
from .._frames import BatchReader, Frame, FrameType
from . import base, body, commands, constants, exceptions, header, heartbeat

UNMARSHAL_FAILURE = 0, 0, None
FrameTypes = Union[base.Frame, body.ContentBody, header.ContentHeader, header.ProtocolHeader, heartbeat.Heartbeat]
_FRONT = struct.Struct(">BHI")
#: A frame comes whole, so no limit holds.
_READER_LIMIT = 2**32 - 1
_HEADER_BYTES = 8


def marshal(frame_value: FrameTypes, channel_id: int) -> bytes:
    """The canonical bytes of a frame. Raises ValueError and TypeError for what cannot be written."""
    if isinstance(frame_value, base.Frame):
        return _encode.encode(channel_id, frame_value._as_ours(), frame_max=0)
    if isinstance(frame_value, header.ContentHeader):
        return frame_value.frame(channel_id)
    if isinstance(frame_value, body.ContentBody):
        return _encode.encode(channel_id, _encode.Body(frame_value.value), frame_max=0)
    if isinstance(frame_value, (header.ProtocolHeader, heartbeat.Heartbeat)):
        return frame_value.marshal()
    raise ValueError(f"Could not determine frame type: {frame_value}")


def frame_parts(data: bytes) -> Tuple[int, int, Optional[int]]:
    """The type, the channel and the length of the payload of the frame in front; zeros and None where fewer than 7 bytes are there."""
    if len(data) < _FRONT.size:
        return UNMARSHAL_FAILURE
    kind, channel, length = _FRONT.unpack_from(data)
    return kind, channel, length


def unmarshal(data_in: bytes) -> Tuple[int, int, FrameTypes]:
    """The frame in front: how many bytes it has, its channel, and what it is. Raises UnmarshalingException where none is there."""
    if data_in[:4] == constants.AMQP:
        made = header.ProtocolHeader()
        try:
            return made.unmarshal(data_in), 0, made
        except ValueError as error:
            raise exceptions.UnmarshalingException(header.ProtocolHeader, error) from None
    _, _, length = frame_parts(data_in)
    if length is None:
        raise exceptions.UnmarshalingException("Unknown", "No frame size")
    size = length + _HEADER_BYTES
    if size > len(data_in):
        raise exceptions.UnmarshalingException("Unknown", "Not all data received")
    found = _read(bytes(data_in[:size]))
    return size, found.channel, _theirs(found)


def _read(data: bytes) -> Frame:
    """The one frame that these bytes are."""
    found: List[Frame] = []
    native = _compiled.native
    if native is not None:
        used, _, status = native.read(data, 0, len(data), _READER_LIMIT, found)
    else:
        used, _, status = BatchReader(_READER_LIMIT).read(data, 0, len(data), found)
    if status or used != len(data) or len(found) != 1:
        raise exceptions.UnmarshalingException("Unknown", error_of(status, used) or Error())
    return found[0]


def _theirs(found: Frame) -> FrameTypes:
    """A frame of feksroum as pamqp has it."""
    if found.method is not None:
        if type(found.method) not in commands.OF_OURS:
            raise exceptions.UnmarshalingException("Unknown", f"Unknown method index: {found.class_id << 16 | found.method_id}")
        return commands.OF_OURS[type(found.method)]._of(found.method)
    if found.properties is not None:
        made = header.ContentHeader()
        made.take(found, found.properties)
        return made
    return body.ContentBody(bytes(found.payload)) if found.type is FrameType.BODY else heartbeat.Heartbeat()


def _framed(kind: int, payload: bytes) -> bytes:
    return _FRONT.pack(kind, 0, len(payload)) + payload + constants.FRAME_END_CHAR


def method_in(payload: bytes) -> Any:
    """The method of feksroum that a payload is."""
    return _read(_framed(constants.FRAME_METHOD, payload)).method


def header_in(payload: bytes) -> Tuple[Frame, Any]:
    """What a content header's payload is."""
    found = _read(_framed(constants.FRAME_HEADER, payload))
    return found, found.properties


# Clients call these too.


def _unmarshal_method_frame(frame_data: bytes) -> FrameTypes:
    """The method that a payload is."""
    return _theirs(_read(_framed(constants.FRAME_METHOD, frame_data)))


def _unmarshal_header_frame(frame_data: bytes) -> FrameTypes:
    """The content header that a payload is."""
    return _theirs(_read(_framed(constants.FRAME_HEADER, frame_data)))


def _unmarshal_body_frame(frame_data: bytes) -> body.ContentBody:
    """The body that a payload is."""
    return body.ContentBody(frame_data)
