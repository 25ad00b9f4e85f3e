"""Filtering: whole messages are kept or dropped by rules."""

from typing import Any, Set

from ._arguments import instance
from ._buffers import MAX_PAYLOAD
from ._inputs import Input
from ._library import Head
from ._rules import Rules
from ._streams import MessageStream, Written, is_canonical, written_over
from ._turns import BODY, HEADER, OPENING


class Filter(MessageStream):
    """Writes of a stream what rules keep, as canonical bytes. They decide once a message, at the method that opens it; its content
    header and bodies follow, and each other frame is decided by itself. So what is written is in turn wherever the stream is.

    >>> from feksroum import Filter, Rules
    >>> Filter(Rules("drop,kind=beat", "keep")).feed(bytes.fromhex("08000000000000ce 0300"))
    b''
    """

    def __init__(self, rules: Rules, max_payload: int = MAX_PAYLOAD) -> None:
        super().__init__(max_payload)
        self._rules = instance("rules", rules, Rules)
        #: The channels whose message is dropped.
        self._dropped: Set[int] = set()

    def _take(self, head: Head, turn: Any, start: int, end: int, written: Written) -> None:
        if self._keeps(head, turn.part):
            written.frame(start, end, is_canonical(head))

    def _keeps(self, head: Head, part: int) -> bool:
        channel = head.channel
        if part in (HEADER, BODY):
            return channel not in self._dropped
        is_kept = self._rules.decide_head(head)
        if part == OPENING and is_kept:
            self._dropped.discard(channel)
        elif part == OPENING:
            self._dropped.add(channel)
        return is_kept

    def __repr__(self) -> str:
        return f"<Filter by {self._rules!r}: {self.open} messages open>"


def filter(source: Input, rules: Rules, max_payload: int = MAX_PAYLOAD) -> bytes:
    """The canonical bytes of the messages and of the other frames that rules keep, as the program's `filter RULE..` writes them. The
    input is bytes, an open binary file, or an iterable of bytes that are cut anywhere; `Filter(rules).over(input)` gives the same
    piece by piece.

    Raises BadContent at a frame that may not come next on its channel, OpenContent where the input ends inside a message, and the
    faults of frames as `canonicalize` does: `used` says where that is, and `written` has what was written for what comes before.
    """
    return written_over(Filter(rules, max_payload), source)
