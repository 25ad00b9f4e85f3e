"""Bytes-like arguments: what is asked of them, and their addresses for calls of the library."""

import ctypes
from typing import Any, Tuple, Union

from ._arguments import LONG_MOST, whole

Buffer = Union[bytes, bytearray, memoryview]

#: The longest payload that the program accepts, in bytes.
MAX_PAYLOAD = 131072
#: How many bytes the shortest frame has. Where fewer are there, more of them may show a fault.
SHORTEST = 8


def view_of(data: Any) -> memoryview:
    """The bytes of an object, one by one. Raises TypeError for what has no buffer, or one that does not lie in one piece."""
    try:
        view = memoryview(data)
    except TypeError:
        raise TypeError(f"bytes are wanted, and not {type(data).__name__}") from None
    return view.cast("B")


def bytes_of(data: Any) -> bytes:
    """The same as `bytes`, which are copied where they are not."""
    return data if type(data) is bytes else view_of(data).tobytes()


def limit_of(max_payload: int) -> int:
    """The limit, tested."""
    return whole("max_payload", max_payload, LONG_MOST)


def address_of(data: bytes) -> Tuple[Any, int]:
    """Where bytes lie, with what has to be kept until the call returns. A call that takes all of them takes the `bytes` itself."""
    pointer = ctypes.c_char_p(data)
    return pointer, ctypes.c_void_p.from_buffer(pointer).value or 0


class Room:
    """A buffer that a call writes into, which grows as it is asked to."""

    def __init__(self, size: int = 0) -> None:
        self._make(size)

    def _make(self, size: int) -> None:
        #: What was written, from the front on.
        self.octets = bytearray(max(size, 1))
        # It holds the buffer, so that it stays where it is.
        self._front = ctypes.c_char.from_buffer(self.octets)
        #: Where it lies, until it grows.
        self.address = ctypes.addressof(self._front)
        self.pointer = ctypes.c_void_p(self.address)

    def grow(self, size: int) -> None:
        """Makes it so long, at least; what was in it goes."""
        if size > len(self.octets):
            self._make(max(size, 2 * len(self.octets)))

    def __len__(self) -> int:
        return len(self.octets)

    def copy(self, length: int) -> bytes:
        """Its first bytes, copied."""
        return bytes(memoryview(self.octets)[:length])
