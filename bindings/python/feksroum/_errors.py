"""An exception for each status that a call of the library returns."""

import enum
from typing import Any, Dict, Optional, Type, Union


class Error(Exception):
    """No whole frame is in front of some bytes, or no line of one in front of some text."""

    #: The exit status of the program for it.
    status = 0

    def __init__(self, used: int = 0, *more: int) -> None:
        super().__init__(used, *more)
        #: How many bytes come before it: those of the whole frames, or of their lines.
        self.used = used
        #: What was written for these: canonical bytes; from `dump` lines of text.
        self.written: Union[bytes, str] = b""
        #: Where it is in what was to be written: the name of a field, and the keys in a table; "" of bytes that are read.
        self.place = ""

    def __str__(self) -> str:
        return f"{type(self).__name__} {f'in {self.place}' if self.place else f'at byte {self.used}'}: {self._what()}"

    def _what(self) -> str:
        return (type(self).__doc__ or f"status {self.status}").splitlines()[0]


class UnknownFrameType(Error):
    """The first byte of a frame is none of 1, 2, 3, 8 and 65."""

    status = 10


class BadProtocolHeader(Error):
    """A frame begins as a protocol header and is none."""

    status = 11


class TooLarge(Error):
    """A payload is longer than the limit."""

    status = 12


class BadFrameEnd(Error):
    """The byte after the payload is not 206."""

    status = 13


class UnknownClass(Error):
    """A method of no class."""

    status = 14


class UnknownMethod(Error):
    """A method that its class does not have."""

    status = 15


class ShortPayload(Error):
    """Something passes the end of the payload, or of a table or an array in it."""

    status = 16


class TrailingBytes(Error):
    """Bytes are left after the last field of a payload."""

    status = 17


class NotUtf8(Error):
    """A short string is not UTF-8."""

    status = 18


class UnknownTag(Error):
    """A field tag of no kind of value."""

    status = 19


class TooDeep(Error):
    """Tables or arrays nest more than 64 deep."""

    status = 20


class CutShort(Error):
    """The input ends inside a frame, or inside a line."""

    status = 21

    def __init__(self, used: int = 0, needed: int = 0) -> None:
        super().__init__(used, needed)
        #: How many bytes the frame that begins at `used` wants at least, as far as it is known; 0 of a line.
        self.needed = needed


class NotTidy(Error):
    """A frame whose ignored parts are not canonical."""

    status = 23


class BadText(Error):
    """A line is not the exact text form of any frame with a payload within the limit."""

    status = 26


class TooLong(Error):
    """A short string has more than 255 bytes, or what fills a table or an array more than 2^32 - 1."""

    status = 42


class ContentFault(enum.IntEnum):
    """Why a frame may not come next on its channel. `str` gives the name that docs/FORMAT.md has."""

    UNEXPECTED_METHOD = 1
    UNEXPECTED_HEADER = 2
    UNEXPECTED_BODY = 3
    WRONG_CLASS = 4
    BODY_TOO_LARGE = 5
    BODY_OVERRUN = 6
    FAULTED = 7

    def __str__(self) -> str:
        return "".join(part.capitalize() for part in self.name.split("_"))


_FAULTS = {
    ContentFault.UNEXPECTED_METHOD: "a method inside a message",
    ContentFault.UNEXPECTED_HEADER: "a content header outside of a message, or a second one",
    ContentFault.UNEXPECTED_BODY: "a body outside of a message, or before the content header",
    ContentFault.WRONG_CLASS: "a content header of a class other than 60",
    ContentFault.BODY_TOO_LARGE: "a content header that announces more bytes than are allowed",
    ContentFault.BODY_OVERRUN: "a body that goes beyond the announced size",
    ContentFault.FAULTED: "a frame after one that was not in turn",
}


class ContentError(Error):
    """Frames that are no sequence of messages, or that are not taken."""


class BadContent(ContentError):
    """A frame that may not come next on its channel."""

    status = 24

    def __init__(self, used: int = 0, channel: int = 0, fault: int = ContentFault.FAULTED) -> None:
        super().__init__(used, channel, fault)
        #: The channel of the frame.
        self.channel = channel
        #: Why it may not come.
        self.fault = ContentFault(fault)

    def _what(self) -> str:
        return f"{_FAULTS[self.fault]} ({self.fault}), on channel {self.channel}."


class OpenContent(ContentError):
    """The input ends inside a message."""

    status = 25

    def __init__(self, used: int = 0, messages: int = 0) -> None:
        super().__init__(used, messages)
        #: How many messages are open.
        self.messages = messages

    def _what(self) -> str:
        return f"{super()._what()[:-1]}: {self.messages} open." if self.messages != 1 else super()._what()


class AssemblerFull(ContentError):
    """A frame that was not taken, since open messages would have more bytes than are allowed together."""

    def __init__(self, used: int = 0, frame: Any = None) -> None:
        super().__init__(used, frame)
        #: The frame. It may be pushed again, once others are complete or forgotten.
        self.frame = frame


class UnknownStatus(Error):
    """A status that this module does not know: the library is not the one it was written for."""

    def __init__(self, used: int = 0, status: int = 0) -> None:
        super().__init__(used, status)
        self.status = status

    def _what(self) -> str:
        return f"the library returned status {self.status}, which this module does not know"


#: The statuses of calls that are no frame's and no line's.
NO_MEMORY, BUFFER_TOO_SMALL, BAD_ARGUMENT = 3, 40, 41

ERRORS: Dict[int, Type[Error]] = {error.status: error for error in Error.__subclasses__() if error.status}


def error_of(status: int, used: int = 0) -> Optional[Exception]:
    """A new exception for a status that is met after so many bytes; None for 0."""
    if status == 0:
        return None
    if status == NO_MEMORY:
        return MemoryError()
    known = ERRORS.get(status)
    return known(used) if known else UnknownStatus(used, status)
