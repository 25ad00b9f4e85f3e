"""Recutting: the bodies of messages are cut anew into frames of one size."""

from typing import Any, Dict

from ._arguments import LONG_MOST, whole
from ._buffers import MAX_PAYLOAD, Room
from ._errors import UnknownStatus
from ._inputs import Input
from ._library import SMALL, Head
from ._streams import MessageStream, Written, is_canonical, written_over
from ._turns import BODY

_HEAD_LENGTH = 7
_FRAME_END = b"\xce"


class Recutter(MessageStream):
    """Writes a stream as canonical bytes, with the bodies of messages cut into pieces of `size` bytes, and the last of each as long as
    it comes. Other frames stay as they are. Of each open message fewer than `size` bytes are held. A peer takes pieces of at most the
    frame-max that was agreed on, less 8.

    >>> from feksroum import Basic, Properties, Recutter, encode, frames
    >>> data = encode(1, Basic.Publish(routing_key="k")) + encode(1, Properties(), b"hello")
    >>> [bytes(frame.payload) for frame in frames(Recutter(2).feed(data))][2:]
    [b'he', b'll', b'o']
    """

    def __init__(self, size: int, max_payload: int = MAX_PAYLOAD) -> None:
        super().__init__(max_payload)
        self._size = whole("the size of a piece", size, LONG_MOST, 1)
        #: The last bytes of a channel's body so far, which are too few for a piece.
        self._bodies: Dict[int, bytearray] = {}
        self._head = Room(_HEAD_LENGTH)

    def _take(self, head: Head, turn: Any, start: int, end: int, written: Written) -> None:
        if turn.part != BODY:
            written.frame(start, end, is_canonical(head))
            return
        channel, length = head.channel, head.length
        held = self._bodies.pop(channel, None) or bytearray()
        cut = SMALL.feksroum_recut(self._size, len(held), length, int(turn.finished))
        if cut.status:
            raise UnknownStatus(self._used, cut.status)
        if cut.pieces == 1 and not held and length <= self._size:
            # The frame is the piece.
            written.frame(start, end, True)
            return
        body = memoryview(written.source)[start + _HEAD_LENGTH : end - 1]
        if cut.pieces:
            octets = bytes(held) + body
            written.octets(self._frames(channel, octets[: len(octets) - cut.left]))
            held = bytearray(octets[len(octets) - cut.left :])
        else:
            held += body
        if held:
            self._bodies[channel] = held

    def _frames(self, channel: int, octets: bytes) -> bytes:
        """Body frames of bytes: pieces of one size, and the last as long as it comes."""
        size = self._size
        last = len(octets) - len(octets) % size
        head = self._head_of(channel, size) if last else b""
        pieces = [part for at in range(0, last, size) for part in (head, octets[at : at + size], _FRAME_END)]
        if last < len(octets):
            pieces += [self._head_of(channel, len(octets) - last), octets[last:], _FRAME_END]
        return b"".join(pieces)

    def _head_of(self, channel: int, length: int) -> bytes:
        """What comes before a body of so many bytes."""
        return self._head.copy(SMALL.feksroum_body_head(channel, length, self._head.address, len(self._head)))

    def __repr__(self) -> str:
        return f"<Recutter into {self._size} bytes: {self.open} messages open>"


def recut(source: Input, size: int, max_payload: int = MAX_PAYLOAD) -> bytes:
    """The canonical bytes of a stream with the bodies of messages cut into pieces of `size` bytes, as the program's `recut N` writes
    them. Input and exceptions are those of `filter`; `Recutter(size).over(input)` gives the same piece by piece.
    """
    return written_over(Recutter(size, max_payload), source)
