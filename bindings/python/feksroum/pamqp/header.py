"""Protocol headers and content headers."""

import struct
from typing import Any, Optional

from .. import _encode
from . import commands, constants
from .base import BasicProperties

_FRONT, _BACK = constants.FRAME_HEADER_SIZE, 1


class ProtocolHeader:
    """What a client sends first."""

    name = "ProtocolHeader"

    def __init__(self, major_version: int = 0, minor_version: int = 9, revision: int = 1) -> None:
        self.major_version = major_version
        self.minor_version = minor_version
        self.revision = revision

    def marshal(self) -> bytes:
        """Its eight bytes."""
        return _encode.encode(0, _encode.ProtocolHeader(self.major_version, self.minor_version, self.revision))

    def unmarshal(self, data: bytes) -> int:
        """Takes the version from its bytes. Raises ValueError where they are too few."""
        try:
            self.major_version, self.minor_version, self.revision = struct.unpack("BBB", data[5:8])
        except struct.error:
            raise ValueError(f"Could not unpack protocol header from {data!r}") from None
        return 8


class ContentHeader:
    """What comes before the bodies of a message: its properties, and how many bytes the bodies have."""

    name = "ContentHeader"

    def __init__(self, weight: int = 0, body_size: int = 0, properties: Optional[BasicProperties] = None) -> None:
        self.class_id: Optional[int] = None
        self.weight = weight
        self.body_size = body_size
        self.properties: Any = properties or commands.Basic.Properties()

    def frame(self, channel: int) -> bytes:
        """The bytes of its frame."""
        return _encode.encode(channel, self.properties._as_ours(), frame_max=0, body_size=self.body_size)

    def marshal(self) -> bytes:
        """The bytes of its payload."""
        return self.frame(0)[_FRONT:-_BACK]

    def unmarshal(self, data: bytes) -> None:
        """Takes what stands in a payload."""
        from .frame import header_in

        self.take(*header_in(data))

    def take(self, head: Any, properties: Any) -> None:
        """Takes what stands in a frame of feksroum, which drops the weight."""
        self.class_id, self.weight, self.body_size = head.class_id, 0, head.body_size
        self.properties._take(properties)
