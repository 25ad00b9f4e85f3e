"""Streams whose messages are followed: what filtering and recutting have in common."""

import threading
from abc import ABC, abstractmethod
from typing import Any, Iterator, List, Optional

from ._buffers import SHORTEST, bytes_of
from ._canonical import Canonicalizer
from ._errors import BUFFER_TOO_SMALL, BadContent, CutShort, Error, OpenContent
from ._frames import CANONICAL, LAST_WINDOW, SHALLOW, BatchReader, fault_of, span_of
from ._inputs import Input, pieces_of
from ._library import HEAD, Head, new_head
from ._turns import Turns


class Written:
    """What is written for the frames of some bytes. Canonical frames that stand together are copied together."""

    def __init__(self, source: bytes, canonicalizer: Canonicalizer) -> None:
        self.source = source
        self._canonicalizer = canonicalizer
        self._parts: List[Any] = []
        self._start = self._end = 0

    def frame(self, start: int, end: int, is_canonical: bool) -> None:
        """Writes the canonical bytes of a frame that stands in the source."""
        if is_canonical and start == self._end:
            self._end = end
            return
        self._settle()
        if is_canonical:
            self._start, self._end = start, end
        else:
            self._parts.append(self._canonicalizer.feed(self.source[start:end]))

    def octets(self, *parts: Any) -> None:
        """Writes some bytes as they are."""
        self._settle()
        self._parts += parts

    def _settle(self) -> None:
        if self._start < self._end:
            self._parts.append(memoryview(self.source)[self._start : self._end])
        self._start = self._end = -1

    def all(self) -> bytes:
        """All that was written."""
        self._settle()
        return b"".join(self._parts)


class MessageStream(ABC):
    """A stream that comes in pieces, and is written with its messages whole. Two threads that feed it at once are let in one after
    the other."""

    def __init__(self, max_payload: int) -> None:
        self._reader = BatchReader(max_payload, SHALLOW)
        self._canonicalizer = Canonicalizer(max_payload)
        self._turns = Turns()
        self._lock = threading.Lock()
        self._held = bytearray()
        #: How many bytes the next frame has, where its length is known; else 0.
        self._needed = 0
        self._used = 0
        self._fault: Optional[Exception] = None

    @abstractmethod
    def _take(self, head: Head, turn: Any, start: int, end: int, written: Written) -> None:
        """Writes what is written for a frame in turn, which stands from `start` to `end` in what is read."""

    @property
    def error(self) -> Optional[Exception]:
        """Why no more frames come: the fault that was met, or None."""
        return None if self._fault is None else type(self._fault)(*self._fault.args)

    @property
    def open(self) -> int:
        """How many messages are open."""
        return self._turns.open

    def feed(self, data: Any) -> bytes:
        """What is written for the frames that this piece completes. Raises nothing for a fault, which is kept in `error`; nothing is
        written for what comes after it."""
        piece = bytes_of(data)
        with self._lock:
            if self._fault is not None:
                return b""
            if not self._held:
                whole = piece
            else:
                self._held += piece
                if len(self._held) < self._needed:
                    return b""
                whole = bytes(self._held)
            written = Written(whole, self._canonicalizer)
            used = self._read(whole, written)
            if used or not self._held:
                self._held = bytearray(memoryview(whole)[used:])
            return written.all()

    def _read(self, data: bytes, written: Written) -> int:
        """Takes the whole frames in front, up to a fault, and returns how many bytes they have."""
        at, size, before = 0, LAST_WINDOW, self._used
        while self._fault is None:
            heads, end = self._reader.heads(data, at, size)
            is_last = at + size >= len(data)
            if not self._take_all(data, heads, at, written):
                break
            at += end.used
            self._used = before + at
            if end.status == CutShort.status and not is_last:
                size = LAST_WINDOW if end.used else max(2 * size, end.needed)
            elif end.status == CutShort.status:
                self._needed = end.needed if end.needed > SHORTEST else 0
                break
            elif end.status == 0 and is_last:
                self._needed = 0
                break
            elif end.status not in (0, BUFFER_TOO_SMALL):
                self._fault = fault_of(end.status, self._used, end.needed)
        return at

    def _take_all(self, data: bytes, heads: bytes, at: int, written: Written) -> bool:
        """Takes frames one after another, and returns whether all of them are in turn."""
        before = self._used
        for numbers in HEAD.iter_unpack(heads):
            head = new_head(Head, numbers)
            start, end = span_of(head, at)
            try:
                turn = self._turns.step(head, before + start - at)
            except BadContent as fault:
                self._fault = fault
                self._used = fault.used
                return False
            self._take(head, turn, start, end, written)
        return True

    def over(self, source: Input) -> Iterator[bytes]:
        """What is written for a whole input, piece by piece as it is read: bytes, an open binary file, or an iterable of bytes. Raises
        the fault that is met, and what `close` raises, after the last piece."""
        for piece in pieces_of(source):
            written = self.feed(piece)
            if written:
                yield written
            if self._fault is not None:
                break
        self.close()

    def close(self) -> None:
        """Raises the fault that was met, CutShort where the stream ended inside a frame, and OpenContent where it ended between two
        frames, inside a message."""
        error = self.error
        if error is None and self._held:
            error = CutShort(self._used, max(self._needed, SHORTEST))
        if error is None and self.open:
            error = OpenContent(self._used, self.open)
        if error is not None:
            raise error


def written_over(stream: MessageStream, source: Input) -> bytes:
    """All that is written for an input. An exception for the input has it as `written`."""
    written: List[bytes] = []
    try:
        written.extend(stream.over(source))
    except Error as error:
        error.written = b"".join(written)
        raise
    return b"".join(written)


def is_canonical(head: Head) -> bool:
    """Whether the bytes of a frame are the canonical ones, by its head."""
    return head.form & CANONICAL != 0
