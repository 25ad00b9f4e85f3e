"""Whose turn it is on each channel of one direction of a connection: which messages are open, and how far they have come."""

from typing import Any, Dict

from ._arguments import LONG_LONG_MOST, whole
from ._errors import BadContent, UnknownStatus
from ._frames import FrameType
from ._library import SMALL, ChannelState, Head

#: What a frame is to its channel: no part of a message, the method that opens one, its content header, a body.
NO_PART, OPENING, HEADER, BODY = range(4)
#: The largest number of bytes that a body may have.
ANY_SIZE = LONG_LONG_MOST
_BLANK = ChannelState()
_FAULTED = 3
_HEADER_TYPE = int(FrameType.HEADER)
_step = SMALL.feksroum_step
_STATUSES = 0, BadContent.status


class Turns:
    """The channels that are inside a message or at fault, with what the library keeps of each."""

    def __init__(self, max_body: int = ANY_SIZE) -> None:
        self._max_body = whole("max_body", max_body, ANY_SIZE)
        self._channels: Dict[int, Any] = {}

    def look(self, head: Head) -> Any:
        """What a frame is to its channel, by its head: status 24 where it is not in turn."""
        type = head.type
        size = head.body_size if type == _HEADER_TYPE else head.length
        state = self._channels.get(head.channel, _BLANK)
        turn = _step(state, type, head.class_id, head.method_id, size, self._max_body)
        if turn.status not in _STATUSES:
            raise UnknownStatus(0, turn.status)
        return turn

    def keep(self, channel: int, turn: Any) -> None:
        """Keeps what the channel is after the frame."""
        after = turn.after
        if after.state:
            self._channels[channel] = after
        else:
            self._channels.pop(channel, None)

    def step(self, head: Head, used: int) -> Any:
        """The same at once. Raises BadContent, at a frame that comes after so many bytes."""
        turn, channel = self.look(head), head.channel
        self.keep(channel, turn)
        if turn.status:
            raise BadContent(used, channel, turn.fault)
        return turn

    def forget(self, channel: int) -> None:
        """Begins anew with a channel."""
        self._channels.pop(channel, None)

    @property
    def open(self) -> int:
        """How many messages are open."""
        return sum(state.state != _FAULTED for state in list(self._channels.values()))
