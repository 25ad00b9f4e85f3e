"""What is read from: bytes, an open file, or pieces one after another."""

from typing import Any, Iterable, Iterator, Protocol, Union, runtime_checkable

from ._buffers import Buffer, bytes_of
from ._frames import Frame, FrameReader, frames

#: How many bytes are read at once.
CHUNK = 65536


@runtime_checkable
class Readable(Protocol):
    """A file that is open for reading bytes."""

    def read(self, size: int, /) -> Any:
        """At most so many bytes; none at the end."""


#: Bytes, an open binary file, or an iterable of bytes that are cut anywhere.
Input = Union[Buffer, Readable, Iterable[Buffer]]


def _is_buffer(source: Any) -> bool:
    try:
        with memoryview(source):
            return True
    except TypeError:
        return False


def check_input(source: Any) -> None:
    """Raises TypeError for what is no input."""
    if isinstance(source, str) or not (_is_buffer(source) or isinstance(source, (Readable, Iterable))):
        raise TypeError(f"bytes are wanted, an open binary file, or an iterable of bytes, and not {type(source).__name__}")


def pieces_of(source: Input) -> Iterator[bytes]:
    """The bytes of an input, one piece after another. What is buffered in a file is taken as soon as it is there."""
    check_input(source)
    if _is_buffer(source):
        yield bytes_of(source)
    elif isinstance(source, Readable):
        read = getattr(source, "read1", source.read)
        while True:
            piece = read(CHUNK)
            if piece is None:
                raise BlockingIOError("a file that does not block has nothing to be read now")
            if not piece:
                return
            yield bytes_of(piece)
    else:
        yield from map(bytes_of, source)


def frames_of(source: Input, max_payload: int) -> Iterator[Frame]:
    """The frames of an input. Raises as `frames` does, after the last one."""
    if _is_buffer(source):
        yield from frames(source, max_payload)
        return
    reader = FrameReader(max_payload)
    for piece in pieces_of(source):
        yield from reader.feed(piece)
        if reader.error is not None:
            break
    reader.close()
