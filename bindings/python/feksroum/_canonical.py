"""The canonical bytes of frames."""

import ctypes
import enum
import threading
from typing import Any, Optional, Tuple

from ._arguments import whole
from ._buffers import MAX_PAYLOAD, SHORTEST, Room, bytes_of, limit_of
from ._errors import CutShort, error_of
from ._library import Mark, library_for


class Level(enum.IntEnum):
    """How closely frames have to keep to their canonical bytes."""

    PLAIN = 0
    TIDY = 1


class Canonicalizer:
    """Canonicalizes a stream that comes in pieces. Two threads that feed it at once are let in one after the other."""

    def __init__(self, max_payload: int = MAX_PAYLOAD, level: int = Level.PLAIN) -> None:
        self._limit = limit_of(max_payload)
        self._level = Level(whole("level", level, Level.TIDY))
        self._lock = threading.Lock()
        self._held = bytearray()
        #: How many bytes the next frame has, where its length is known; else 0.
        self._needed = 0
        self._used = 0
        self._fault = 0
        self._out = Room()
        self._scratch = (Mark * 0)()

    @property
    def error(self) -> Optional[Exception]:
        """Why no more frames come: the fault that was met, or None."""
        return error_of(self._fault, self._used)

    def feed(self, data: Any) -> bytes:
        """The canonical bytes of the frames that this piece completes. Raises nothing for a fault, which is kept in `error`;
        nothing is written for what comes after it."""
        piece = bytes_of(data)
        with self._lock:
            if self._fault:
                return b""
            if not self._held:
                whole = piece
            else:
                self._held += piece
                if len(self._held) < self._needed:
                    return b""
                whole = bytes(self._held)
            used, written = self._canonicalize(whole)
            if used or not self._held:
                self._held = bytearray(memoryview(whole)[used:])
            return written

    def _canonicalize(self, data: bytes) -> Tuple[int, bytes]:
        """How many bytes the whole frames in front have, and their canonical bytes."""
        library = library_for(len(data))
        self._grow_scratch(len(data))
        self._out.grow(len(data))
        scratch = self._scratch
        progress = library.feksroum_canonicalize(
            data, len(data), self._out.address, len(self._out), ctypes.addressof(scratch), len(scratch), self._limit, self._level
        )
        used = progress.used
        self._used += used
        self._needed = 0
        if progress.status == CutShort.status:
            needed = library.feksroum_next(data[used : used + SHORTEST], min(len(data) - used, SHORTEST), self._limit).needed
            self._needed = needed if needed > SHORTEST else 0
        else:
            self._fault = progress.status
        return used, self._out.copy(progress.written)

    def _grow_scratch(self, length: int) -> None:
        """Makes the scratch long enough for the tables in so many bytes."""
        marks = library_for(0).feksroum_scratch(min(length, self._limit))
        if marks > len(self._scratch):
            self._scratch = (Mark * max(marks, 2 * len(self._scratch)))()

    def close(self) -> None:
        """Raises the fault that was met, and CutShort where the stream ended inside a frame."""
        error = self.error
        if error is None and self._held:
            error = CutShort(self._used, max(self._needed, SHORTEST))
        if error is not None:
            raise error


def canonicalize(data: Any, max_payload: int = MAX_PAYLOAD, level: int = Level.PLAIN) -> bytes:
    """The canonical bytes of these bytes. Raises where they do not all belong to whole frames: `used` of the exception says
    where that is, and `written` has what was written for the frames before."""
    stream = Canonicalizer(max_payload, level)
    written = stream.feed(bytes_of(data))
    try:
        stream.close()
    except Exception as error:
        error.written = written  # type: ignore[attr-defined]
        raise
    return written
