"""Frames as lines of text, and back."""

from typing import Any, List, Optional, Tuple

from ._buffers import MAX_PAYLOAD, Room, address_of, bytes_of, limit_of
from ._errors import BUFFER_TOO_SMALL, CutShort, error_of
from ._library import LARGE, SMALL, SMALL_INPUT


def _piece(name: str, address: int, length: int, out: Room, limit: int) -> Any:
    """What a function says of the frame or line in front, for which only a long one lets go of the interpreter's lock."""
    short = min(length, SMALL_INPUT)
    found = getattr(SMALL, name)(address, short, out.address, len(out), limit)
    if found.status == CutShort.status and short < length:
        return getattr(LARGE, name)(address, length, out.address, len(out), limit)
    return found


def _pieces(name: str, data: bytes, max_payload: int) -> Tuple[bytes, Optional[Exception]]:
    """What a function writes for each frame or line in front, one after another, and the exception for what follows them, or
    None."""
    limit = limit_of(max_payload)
    kept, address = address_of(data)
    out = Room(256)
    written: List[bytes] = []
    at = 0
    while at < len(data):
        found = _piece(name, address + at, len(data) - at, out, limit)
        if found.status == BUFFER_TOO_SMALL and found.length > len(out):
            out.grow(found.length)
        elif found.status:
            return b"".join(written), error_of(found.status, at)
        else:
            written.append(out.copy(found.length))
            at += found.used
    return b"".join(written), None


def dump(data: Any, max_payload: int = MAX_PAYLOAD) -> str:
    """The lines of the frames that these bytes are, each of which ends with a newline. Raises where the bytes do not all
    belong to whole frames; the lines of those before the fault are the exception's attribute `written`."""
    written, error = _pieces("feksroum_dump", bytes_of(data), max_payload)
    if error is not None:
        error.written = written.decode("ascii")  # type: ignore[attr-defined]
        raise error
    return written.decode("ascii")


def undump(text: Any, max_payload: int = MAX_PAYLOAD) -> bytes:
    """The canonical bytes of the frames whose lines this text is, a string or bytes. Raises BadText at a line that is not
    the line of any frame with a payload of at most so many bytes, as one that is not ASCII, and CutShort where the last line has
    no newline; the bytes before it are the exception's attribute `written`."""
    data = str.encode(text, "utf-8", "surrogatepass") if isinstance(text, str) else bytes_of(text)
    written, error = _pieces("feksroum_undump", data, max_payload)
    if error is not None:
        error.written = written  # type: ignore[attr-defined]
        raise error
    return written
