"""Frames out of bytes, with what stands in them."""

import ctypes
import enum
import struct
import threading
from typing import Any, Dict, Iterator, List, Optional, Tuple, cast

from . import _compiled
from ._arguments import OCTET_MOST, whole
from ._buffers import MAX_PAYLOAD, SHORTEST, Room, address_of, bytes_of, limit_of, view_of
from ._errors import BUFFER_TOO_SMALL, CutShort, error_of
from ._library import HEAD, LARGE, NODE, SMALL, SMALL_INPUT, Batch, Head, library_for, new_head
from ._reading import METHOD_READERS, properties_of
from .methods import Method, Properties


class FrameType(enum.IntEnum):
    """What the first byte of a frame names."""

    METHOD = 1
    HEADER = 2
    BODY = 3
    HEARTBEAT = 8
    PROTOCOL_HEADER = 65


_TYPES = {int(type): type for type in FrameType}
CANONICAL, _TIDY = 1, 2
#: How many bytes come before a payload, and after it.
_AROUND = {int(FrameType.PROTOCOL_HEADER): (5, 0)}
_AROUND_OTHERS = (7, 1)


def span_of(head: Head, base: int) -> Tuple[int, int]:
    """Where the bytes of a frame begin and end, whose head counts from `base`."""
    before, after = _AROUND.get(head.type, _AROUND_OTHERS)
    start = base + head.start
    return start - before, start + head.length + after


class Frame:
    """A whole frame, and what stands in it. Equal to each frame of the same bytes."""

    __slots__ = ("type", "channel", "method", "properties", "_head", "_source", "_start")
    type: FrameType
    #: 0 for a protocol header.
    channel: int
    #: The method of a method frame, else None.
    method: Optional[Method]
    #: The properties of a content header, else None.
    properties: Optional[Properties]

    def __init__(self, head: Head, source: bytes, base: int) -> None:
        """From a head whose spans count from `base` in the source."""
        self.type = _TYPES[head.type]
        self.channel = head.channel
        self.method = None
        self.properties = None
        self._head = head
        self._source = source
        self._start = base + head.start

    @property
    def class_id(self) -> int:
        """Of a method or content header, else 0."""
        return self._head.class_id

    @property
    def method_id(self) -> int:
        """Of a method, else 0."""
        return self._head.method_id

    @property
    def body_size(self) -> int:
        """How many bytes of body a content header announces, else 0."""
        return self._head.body_size

    @property
    def canonical(self) -> bool:
        """Whether its bytes are the canonical ones."""
        return self._head.form & CANONICAL != 0

    @property
    def tidy(self) -> bool:
        """Whether all that reading drops is canonical."""
        return self._head.form & _TIDY != 0

    @property
    def payload(self) -> memoryview:
        """The payload; of a protocol header its three version bytes. It is a part of what the frame was read from."""
        return memoryview(self._source)[self._start : self._start + self._head.length]

    @property
    def bytes(self) -> memoryview:
        """All bytes of the frame, as they came."""
        start, end = span_of(self._head, self._start - self._head.start)
        return memoryview(self._source)[start:end]

    @property
    def version(self) -> Optional[Tuple[int, int, int]]:
        """Of a protocol header: major, minor, revision."""
        if self.type is not FrameType.PROTOCOL_HEADER:
            return None
        major, minor, revision = self.payload
        return major, minor, revision

    def __getstate__(self) -> Tuple[None, Dict[str, Any]]:
        """What a pickle has of it, in which the head is a plain tuple."""
        return None, {**{name: getattr(self, name) for name in Frame.__slots__}, "_head": tuple(self._head)}

    def __setstate__(self, state: Tuple[None, Dict[str, Any]]) -> None:
        _, slots = state
        for name, value in slots.items():
            setattr(self, name, Head._make(value) if name == "_head" else value)

    def __eq__(self, other: object) -> bool:
        return isinstance(other, Frame) and self.bytes == other.bytes

    def __hash__(self) -> int:
        return hash(self.bytes)

    def __repr__(self) -> str:
        content = self.method or self.properties or f"{len(self.payload)} bytes"
        return f"<Frame {self.type.name} on channel {self.channel}: {content}>"


#: How many bytes are looked at by one call, at first and at most, where no frame is larger.
FIRST_WINDOW, LAST_WINDOW = 4096, 262144
#: Room for so many heads at most, and for so many nodes where no frame has more.
HEADS, NODES = 2048, 16384
#: Room for so many of each at first.
FEW = 64
#: The same as an argument, and lengths of bytes as arguments: to make them takes longer than the call.
_C_FEW = ctypes.c_size_t(FEW)
_SIZES = tuple(map(ctypes.c_size_t, range(1024)))
#: The call without what tests its arguments.
_direct = SMALL["feksroum_frames"]
_direct.restype = Batch
_unpack_batch = struct.Struct("=QQ3I4x").unpack
_unpack_heads, _HEAD_SIZE = HEAD.iter_unpack, HEAD.size
_new = object.__new__
SHALLOW, DEEP = 0, 1
_METHOD, _HEADER = int(FrameType.METHOD), int(FrameType.HEADER)


#: How far some frames go: how many bytes they have, how many the next one has at least, and the status of what follows them.
End = Tuple[int, int, int]


class BatchReader:
    """Reads frames by batches, into lists that it keeps."""

    def __init__(self, max_payload: int, detail: int = DEEP) -> None:
        self.limit = limit_of(max_payload)
        self._detail = detail
        self._c_limit, self._c_detail = ctypes.c_uint32(self.limit), ctypes.c_uint8(detail)
        self._heads = Room(FEW * HEAD.size)
        self._nodes = Room(FEW * NODE.size)
        #: In so many bytes there are no more frames and nodes than the lists have room for.
        self._enough = FEW

    def _call(self, data: bytes, at: int, size: int) -> Any:
        """The heads and nodes of as many frames in front of a window as there is room for."""
        kept, place = address_of(data) if at else (None, 0)
        heads, nodes = self._heads, self._nodes
        library = SMALL if size <= SMALL_INPUT else LARGE
        return library.feksroum_frames(
            place + at if at else data, size, self.limit, self._detail,
            heads.address, len(heads.octets) // HEAD.size, nodes.address, len(nodes.octets) // NODE.size)

    def _fill(self, data: bytes, at: int, size: int) -> Any:
        """Fills the lists from a window of so many bytes, with one frame at least where one is in front, and says how far they go."""
        if size > self._enough:
            self._heads.grow(min(size // SHORTEST + 1, HEADS) * HEAD.size)
            self._nodes.grow(min(size, NODES) * NODE.size)
            self._enough = min(size, NODES)
        end = self._call(data, at, size)
        if end.status == BUFFER_TOO_SMALL and end.heads == 0:
            self._nodes.grow(end.needed * NODE.size)
            end = self._call(data, at, size)
        return end

    def heads(self, data: bytes, at: int, size: int) -> Tuple[bytes, Any]:
        """The heads of some whole frames in front of a window, whose spans count from `at`, and how far they go."""
        end = self._fill(data, at, min(size, len(data) - at))
        return self._heads.copy(end.heads * HEAD.size), end

    def some(self, data: bytes, at: int, size: int, found: List[Frame]) -> End:
        """Adds some whole frames in front of a window to a list, and says how far they go: by the compiled part, where it is there."""
        native = _compiled.native
        if native is not None:
            return cast(End, native.read(data, at, size, self.limit, found))
        return self.read(data, at, size, found)

    def read(self, data: bytes, at: int, size: int, found: List[Frame]) -> End:
        """The same in Python."""
        if size > len(data) - at:
            size = len(data) - at
        status, count = BUFFER_TOO_SMALL, 0
        if size < len(_SIZES) and not at:
            # The usual frames of a client, by a call whose arguments are made already.
            used, needed, count, listed, status = _unpack_batch(_direct(
                data, _SIZES[size], self._c_limit, self._c_detail, self._heads.pointer, _C_FEW, self._nodes.pointer, _C_FEW))
        if status == BUFFER_TOO_SMALL and count == 0:
            used, needed, count, listed, status = _unpack_batch(self._fill(data, at, size))
        heads, nodes = self._heads.octets, self._nodes.octets
        # The spans of heads and nodes count from `at`: from there on the window has the same bytes.
        window = data[at : at + used] if at and listed else data
        for numbers in _unpack_heads(heads[: count * _HEAD_SIZE]):
            _, start, _, first, inside, channel, class_id, method_id, type, _ = numbers
            # As Frame makes itself of a head, without what its call takes.
            frame = _new(Frame)
            frame.type = _TYPES[type]
            frame.channel = channel
            frame.method = METHOD_READERS[class_id, method_id](window, nodes, first) if type == _METHOD else None
            frame.properties = properties_of(window, nodes, first, first + inside) if type == _HEADER else None
            frame._head = new_head(Head, numbers)
            frame._source = data
            frame._start = at + start
            found.append(frame)
        return used, needed, status


def frames(data: Any, max_payload: int = MAX_PAYLOAD) -> Iterator[Frame]:
    """The frames in front of some bytes, one after another. Raises where the bytes do not all belong to whole frames: the
    exception's `used` says where that is; it is CutShort where the bytes end inside a frame.

    A frame keeps the `bytes` that it was read from; of anything else it keeps a copy of some, and nothing of what was passed is
    held: a bytearray may be changed once the last frame came, or the exception.
    """
    view_of(data).release()
    return _frames(data, BatchReader(max_payload))


def _part(data: Any, at: int, size: int) -> Tuple[bytes, int, bool]:
    """Bytes, from which place on so many are looked at, and whether they are the last ones."""
    if type(data) is bytes:
        return data, at, at + size >= len(data)
    with view_of(data) as view:
        return view[at : at + size].tobytes(), 0, at + size >= view.nbytes


def _frames(data: Any, reader: BatchReader) -> Iterator[Frame]:
    at, size = 0, FIRST_WINDOW
    while True:
        part, start, is_last = _part(data, at, size)
        stop, before, status = start + size, at, BUFFER_TOO_SMALL
        while status == BUFFER_TOO_SMALL:
            found: List[Frame] = []
            used, needed, status = reader.some(part, start, stop - start, found)
            yield from found
            start, at = start + used, at + used
        if status == CutShort.status and not is_last:
            size = max(2 * size, needed) if at == before else max(min(2 * size, LAST_WINDOW), needed)
        elif status == 0:
            if is_last:
                return
            size = min(2 * size, LAST_WINDOW)
        else:
            raise fault_of(status, at, needed)


def fault_of(status: int, at: int, needed: int) -> Exception:
    """The exception for what ended some frames, after so many bytes."""
    if status == CutShort.status:
        return CutShort(at, needed)
    return error_of(status, at) or AssertionError("no fault")


class FrameReader:
    """Reads the frames of a stream that comes in pieces. Two threads that feed it at once are let in one after the other."""

    def __init__(self, max_payload: int = MAX_PAYLOAD) -> None:
        self._reader = BatchReader(max_payload)
        self._lock = threading.Lock()
        self._held = bytearray()
        #: How many bytes the next frame has, where its length is known; else 0.
        self._needed = 0
        self._used = 0
        #: Why no more frames come: the fault that was met, or None. Its `used` counts from the front of the stream.
        self.error: Optional[Exception] = None

    def feed(self, data: Any) -> List[Frame]:
        """The frames that this piece completes. Raises nothing for a fault, which is kept in `error`; what comes after it is not
        read."""
        piece = data if type(data) is bytes else bytes_of(data)
        found: List[Frame] = []
        with self._lock:
            if self.error is not None:
                return found
            if self._held:
                self._held += piece
                if len(self._held) < self._needed:
                    return found
                piece = bytes(self._held)
            used = self._read(piece, found)
            if used < len(piece):
                self._held = bytearray(memoryview(piece)[used:])
            elif self._held:
                self._held.clear()
        return found

    def _read(self, data: bytes, found: List[Frame]) -> int:
        """Adds the whole frames in front to a list, up to a fault, and returns how many bytes they have."""
        native, reader, at, size = _compiled.native, self._reader, 0, LAST_WINDOW
        self._needed = 0
        while at < len(data):
            # A part is copied, so that no frame keeps more than a window.
            part, start = (data, at) if len(data) <= size else (data[at : at + size], 0)
            is_last, status = part is data or at + size >= len(data), BUFFER_TOO_SMALL
            while status == BUFFER_TOO_SMALL:
                if native is not None:
                    used, needed, status = native.read(part, start, size, reader.limit, found)
                else:
                    used, needed, status = reader.read(part, start, size, found)
                start, at = start + used, at + used
                self._used += used
            if status == CutShort.status:
                if is_last:
                    self._needed = needed if needed > SHORTEST else 0
                    break
                size = max(LAST_WINDOW, needed)
            elif status:
                self.error = fault_of(status, self._used, needed)
                break
        return at

    def close(self) -> None:
        """Raises the fault that was met, and CutShort where the stream ended inside a frame."""
        if self.error is not None:
            raise type(self.error)(*self.error.args)
        if self._held:
            raise CutShort(self._used, max(self._needed, SHORTEST))


def check(type: int, payload: Any) -> Tuple[int, int, int, bool, bool]:
    """What stands in a whole payload of this type, as (class_id, method_id, body_size, canonical, tidy). Raises its fault."""
    data = bytes_of(payload)
    found = library_for(len(data)).feksroum_check(whole("type", type, OCTET_MOST), data, len(data))
    error = error_of(found.status)
    if error is not None:
        raise error
    return found.class_id, found.method_id, found.body_size, found.canonical, found.tidy
