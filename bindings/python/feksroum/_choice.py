"""Which frames are shown: those of some channels, of some methods, of some routing keys. What follows a method that carries content is
shown where the method is."""

from typing import Dict, List, Optional, Set

from ._frames import Frame, FrameType
from ._keys import key_matches
from .methods import METHODS

#: What frames without a method are called.
KINDS = {
    "header": FrameType.HEADER, "body": FrameType.BODY, "heartbeat": FrameType.HEARTBEAT, "protocol-header": FrameType.PROTOCOL_HEADER,
}
_NAMES = {method.name for method in METHODS.values()}
_CLASSES = {name.split(".")[0] for name in _NAMES}


def names_of(text: str) -> Set[str]:
    """The names in a list with commas: of methods, as basic.publish; of classes, as queue; header, body, heartbeat and protocol-header.
    Raises ValueError for another."""
    names = {name.strip() for name in text.split(",")}
    unknown = sorted(names - _NAMES - _CLASSES - set(KINDS))
    if unknown:
        raise ValueError(f"{unknown[0]!r} is no name of a method, as basic.publish, of a class, as queue, and none of {', '.join(KINDS)}")
    return names


class Choice:
    """What is shown of the frames of one direction, given one after another."""

    def __init__(self, names: Optional[Set[str]] = None, channels: Optional[List[int]] = None, key: Optional[str] = None) -> None:
        self._names = names
        self._channels = channels
        self._key = key
        #: Whether the content on a channel is shown.
        self._follows: Dict[int, bool] = {}

    def new(self) -> "Choice":
        """The same for another direction."""
        return Choice(self._names, self._channels, self._key)

    def shows(self, frame: Frame) -> bool:
        """Whether the frame is shown."""
        if self._channels is not None and frame.channel not in self._channels:
            return False
        if frame.method is None:
            return self._shows_other(frame)
        is_shown = self._names is None or not self._names.isdisjoint((frame.method.name, frame.method.name.split(".")[0]))
        if is_shown and self._key is not None:
            key: Optional[str] = getattr(frame.method, "routing_key", None)
            is_shown = key is not None and key_matches(self._key, key)
        if frame.method.carries_content:
            self._follows[frame.channel] = is_shown
        return is_shown

    def _shows_other(self, frame: Frame) -> bool:
        """The same of a frame without a method."""
        if self._names is None and self._key is None:
            return True
        if self._names is not None and any(KINDS.get(name) is frame.type for name in self._names):
            return True
        return frame.type in (FrameType.HEADER, FrameType.BODY) and self._follows.get(frame.channel, False)
