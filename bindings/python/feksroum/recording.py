"""Recordings: the bytes of each direction of some connections, with the times at which they came.

A recording begins with MAGIC. Then come records: a head of 17 bytes, the most significant byte of a number first, and the bytes.

| Bytes | What |
|---|---|
| 1 | the direction: `>` from client to broker, `<` from broker to client |
| 4 | the connection, from 1 on |
| 8 | the time in nanoseconds since 1970 |
| 4 | how many bytes follow; 0 where the direction ended |
"""

import struct
from typing import Any, List, NamedTuple

from ._buffers import view_of

MAGIC = b"feksroum recording 1\n"
_HEAD = struct.Struct(">cIQI")


class BadRecording(Exception):
    """Bytes that are no recording."""


class Record(NamedTuple):
    """Some bytes of one direction of a connection; none where it ended."""

    #: ">" from client to broker, "<" from broker to client.
    direction: str
    connection: int
    #: Nanoseconds since 1970.
    time: int
    data: bytes

    def pack(self) -> bytes:
        """The record as it stands in a recording."""
        return _HEAD.pack(self.direction.encode(), self.connection, self.time, len(self.data)) + self.data


class RecordReader:
    """Reads the records of a recording that comes in pieces, after its MAGIC."""

    def __init__(self) -> None:
        self.held = bytearray()

    def feed(self, data: Any) -> List[Record]:
        """The records that this piece completes. Raises BadRecording where a direction is none."""
        self.held += view_of(data)
        found: List[Record] = []
        at = 0
        while len(self.held) - at >= _HEAD.size:
            direction, connection, time, length = _HEAD.unpack_from(self.held, at)
            if direction not in (b"<", b">"):
                raise BadRecording(f"{direction!r} is no direction")
            end = at + _HEAD.size + length
            if end > len(self.held):
                break
            found.append(Record(direction.decode(), connection, time, bytes(self.held[at + _HEAD.size : end])))
            at = end
        del self.held[:at]
        return found
