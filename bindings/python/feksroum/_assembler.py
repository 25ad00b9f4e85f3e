"""Whole messages out of frames."""

import threading
from typing import Any, Dict, Iterable, Iterator, List, Optional, Union

from ._arguments import LONG_LONG_MOST, SHORT_MOST, instance, whole
from ._buffers import MAX_PAYLOAD, bytes_of, limit_of, view_of
from ._encode import FRAME_MAX, encode
from ._errors import AssemblerFull, BadContent, ContentError, OpenContent
from ._frames import Frame, FrameReader, span_of
from ._inputs import Input, check_input, frames_of
from ._library import Head
from ._turns import BODY, HEADER, NO_PART, OPENING, Turns
from .methods import Basic, Method, Properties

#: How many bytes a body may have, where nothing else is said: RabbitMQ's own bound for a message.
MAX_BODY = 134_217_728

Opening = Union[Basic.Publish, Basic.Return, Basic.Deliver, Basic.GetOk]
_OPENINGS = Basic.Publish, Basic.Return, Basic.Deliver, Basic.GetOk


class Message:
    """A whole message, as it came on a channel. Equal to each message with equal fields."""

    __slots__ = ("channel", "opening", "properties", "body")
    __match_args__ = ("channel", "opening", "properties", "body")

    def __init__(self, channel: int, opening: Opening, properties: Properties, body: bytes = b"") -> None:
        self.channel = whole("channel", channel, SHORT_MOST)
        #: The method that opened it: Basic.Publish, Return, Deliver or GetOk.
        self.opening = instance("opening", opening, _OPENINGS)
        self.properties = instance("properties", properties, Properties)
        if type(body) is not bytes:
            view_of(body)
        self.body = body

    def encode(self, frame_max: int = FRAME_MAX) -> bytes:
        """The canonical bytes of its frames, as `encode` makes them."""
        return encode(self.channel, self.opening, frame_max=frame_max) + encode(
            self.channel, self.properties, self.body, frame_max=frame_max)

    def __eq__(self, other: object) -> bool:
        return isinstance(other, Message) and all(getattr(self, name) == getattr(other, name) for name in self.__slots__)

    __hash__ = None  # type: ignore[assignment]

    def __repr__(self) -> str:
        return f"<Message on channel {self.channel}: {self.opening}, {self.properties}, {len(self.body)} bytes>"


class _Open:
    """A message that is not complete."""

    __slots__ = ("opening", "properties", "parts", "held")

    def __init__(self, opening: Method, held: int) -> None:
        self.opening: Any = opening
        self.properties = Properties()
        self.parts: List[bytes] = []
        #: How many bytes the payloads of its frames have.
        self.held = held


class Assembler:
    """Puts the frames of one direction of a connection together to messages, each channel by itself. Two threads that push at once are
    let in one after the other.

    >>> from feksroum import Assembler, Basic, Properties, encode, frames
    >>> data = encode(1, Basic.Publish(routing_key="orders")) + encode(1, Properties(priority=1), b"hello" * 6, frame_max=30)
    >>> list(Assembler().messages(frames(data)))
    [<Message on channel 1: Basic.Publish(exchange='', routing_key='orders', mandatory=False, immediate=False), Properties(priority=1), 30 bytes>]

    `max_body` bounds the body of one message, by what its content header announces. `max_open` bounds what open messages hold
    together: the payloads of their frames in bytes; None is no bound.
    """

    def __init__(self, max_body: int = MAX_BODY, max_open: Optional[int] = None) -> None:
        self._turns = Turns(max_body)
        self._max_open = None if max_open is None else whole("max_open", max_open, LONG_LONG_MOST)
        self._messages: Dict[int, _Open] = {}
        self._lock = threading.Lock()
        self._used = 0
        #: How many bytes the payloads of the frames of open messages have together.
        self.held = 0

    @property
    def open(self) -> int:
        """How many messages are open."""
        return len(self._messages)

    def push(self, frame: Frame) -> Union[Message, Frame, None]:
        """Takes a frame. Returns the message that is complete with it; the frame itself where it is part of none; None where its
        message goes on.

        Raises BadContent where it may not come next on its channel. The channel is at fault then, what was held of it is dropped, and
        each later frame of it is refused with `ContentFault.FAULTED`, until `forget`; other channels go on. Raises AssemblerFull
        where more bytes would be held than are allowed: nothing changes then.
        """
        instance("a frame", frame, Frame)
        with self._lock:
            return self._push(frame, frame._head)

    def _push(self, frame: Frame, head: Head) -> Union[Message, Frame, None]:
        turn = self._turns.look(head)
        if turn.part != NO_PART and self._max_open is not None and self.held + head.length > self._max_open:
            raise AssemblerFull(self._used, frame)
        self._turns.keep(frame.channel, turn)
        start, end = span_of(head, 0)
        before, self._used = self._used, self._used + end - start
        if turn.status:
            self._drop(frame.channel)
            raise BadContent(before, frame.channel, turn.fault)
        if turn.part == NO_PART:
            return frame
        self._add(frame, turn.part)
        return self._complete(frame.channel) if turn.finished else None

    def _add(self, frame: Frame, part: int) -> None:
        """Adds a frame to the message that is open on its channel."""
        length = frame._head.length
        self.held += length
        if part == OPENING and frame.method is not None:
            self._messages[frame.channel] = _Open(frame.method, length)
            return
        message = self._messages[frame.channel]
        message.held += length
        if part == HEADER and frame.properties is not None:
            message.properties = frame.properties
        elif part == BODY and length:
            message.parts.append(bytes(frame.payload))

    def _complete(self, channel: int) -> Message:
        message = self._messages.pop(channel)
        self.held -= message.held
        body = message.parts[0] if len(message.parts) == 1 else b"".join(message.parts)
        return Message(channel, message.opening, message.properties, body)

    def _drop(self, channel: int) -> None:
        message = self._messages.pop(channel, None)
        if message is not None:
            self.held -= message.held

    def forget(self, channel: int) -> None:
        """Begins anew with a channel, as one that was closed and opened again does. What was held of it is dropped."""
        whole("channel", channel, SHORT_MOST)
        with self._lock:
            self._turns.forget(channel)
            self._drop(channel)

    def messages(self, frames: Iterable[Frame]) -> Iterator[Message]:
        """The messages of some frames, as they are complete; other frames are passed over. Raises as `push` does, and at the end
        as `close`."""
        for frame in frames:
            found = self.push(frame)
            if isinstance(found, Message):
                yield found
        self.close()

    def close(self) -> None:
        """Raises OpenContent where messages are open."""
        if self._messages:
            raise OpenContent(self._used, self.open)

    def __repr__(self) -> str:
        return f"<Assembler: {self.open} messages open, {self.held} bytes held>"


class MessageReader:
    """Reads the messages of a stream that comes in pieces; frames that are part of none are passed over. Two threads that feed it at once
    are let in one after the other."""

    def __init__(self, max_payload: int = MAX_PAYLOAD, assembler: Optional[Assembler] = None) -> None:
        self._reader = FrameReader(max_payload)
        self._lock = threading.Lock()
        self._fault: Optional[ContentError] = None
        #: What puts the messages together.
        self.assembler = Assembler() if assembler is None else instance("assembler", assembler, Assembler)

    @property
    def error(self) -> Optional[Exception]:
        """Why no more messages come: the fault that was met, or None. Its `used` counts from the front of the stream."""
        return self._reader.error if self._fault is None else self._fault

    def feed(self, data: Any) -> List[Message]:
        """The messages that this piece completes. Raises nothing for a fault, which is kept in `error`; what comes after it is not
        read."""
        piece = bytes_of(data)
        with self._lock:
            found: List[Message] = []
            try:
                for frame in self._reader.feed(piece) if self._fault is None else []:
                    pushed = self.assembler.push(frame)
                    if isinstance(pushed, Message):
                        found.append(pushed)
            except ContentError as fault:
                self._fault = fault
            return found

    def close(self) -> None:
        """Raises the fault that was met, CutShort where the stream ended inside a frame, and OpenContent where it ended between two
        frames, inside a message."""
        if self._fault is not None:
            raise type(self._fault)(*self._fault.args)
        self._reader.close()
        self.assembler.close()

    def __repr__(self) -> str:
        return f"<MessageReader by {self.assembler!r}>"


def messages(
    source: Input, max_payload: int = MAX_PAYLOAD, max_body: int = MAX_BODY, max_open: Optional[int] = None
) -> Iterator[Message]:
    """The messages of an input, as they are complete: of bytes, an open binary file, or an iterable of bytes that are cut anywhere.
    Raises what is wrong with the frames as `frames` does, and with their turns as `Assembler` does."""
    check_input(source)
    return Assembler(max_body, max_open).messages(frames_of(source, limit_of(max_payload)))
