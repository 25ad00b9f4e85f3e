"""The wire layer of AMQP 0-9-1: frames out of bytes and into bytes, their canonical bytes, and their lines of text.

    >>> import feksroum
    >>> from feksroum import Basic, Properties
    >>> data = feksroum.encode(1, Basic.Publish(routing_key="orders")) + feksroum.encode(1, Properties(priority=1), b"hi")
    >>> for frame in feksroum.frames(data):
    ...     print(frame.method or frame.properties or bytes(frame.payload))
    Basic.Publish(exchange='', routing_key='orders', mandatory=False, immediate=False)
    Properties(priority=1)
    b'hi'

Whole messages are put together by `messages` and `Assembler`, kept or dropped by rules by `filter` and `Filter`, and cut anew by `recut`
and `Recutter`:

    >>> [message] = feksroum.messages(feksroum.filter(data, feksroum.Rules("drop,kind=beat", "keep")))
    >>> message.opening.routing_key, message.body
    ('orders', b'hi')

What is called is proved; `feksroum.h` says what each function promises. All of it may be used by any number of threads.
`feksroum.values` says which kind is written for each value of a table.
"""

import os
import sys

try:
    from . import _library
except ImportError as error:
    # A command says it in one line. While Python looks for what `-m` names, `sys.argv[0]` is that.
    is_module = sys.argv[:1] == ["-m"] and "feksroum" in getattr(sys, "orig_argv", ())
    if is_module or os.path.basename(sys.argv[0] if sys.argv else "") == "feksroum-show":
        sys.exit(str(error))
    raise

from . import _compiled
from ._assembler import MAX_BODY, Assembler, Message, MessageReader, messages
from ._buffers import MAX_PAYLOAD
from ._canonical import Canonicalizer, Level, canonicalize
from ._encode import FRAME_MAX, Body, Heartbeat, ProtocolHeader, encode
from ._errors import (
    AssemblerFull,
    BadContent,
    BadFrameEnd,
    BadProtocolHeader,
    BadText,
    ContentError,
    ContentFault,
    CutShort,
    Error,
    NotTidy,
    NotUtf8,
    OpenContent,
    ShortPayload,
    TooDeep,
    TooLarge,
    TooLong,
    TrailingBytes,
    UnknownClass,
    UnknownFrameType,
    UnknownMethod,
    UnknownStatus,
    UnknownTag,
)
from ._filter import Filter
from ._filter import filter as filter
from ._frames import Frame, FrameReader, FrameType, check, frames
from ._keys import key_matches
from ._recut import Recutter, recut
from ._rules import BadRule, Rules
from ._tables import read_table, write_table
from ._text import dump, undump
from .methods import Access, Basic, Channel, Confirm, Connection, Exchange, Method, Properties, Queue, Tx

_compiled.bind()

# `filter` is left out, so that `from feksroum import *` does not hide the one of Python.
__all__ = [
    "Access", "Assembler", "AssemblerFull", "BadContent", "BadFrameEnd", "BadProtocolHeader", "BadRule", "BadText", "Basic",
    "Body", "Canonicalizer", "Channel", "Confirm", "Connection", "ContentError", "ContentFault", "CutShort", "Error",
    "Exchange", "FRAME_MAX", "Filter", "Frame", "FrameReader", "FrameType", "Heartbeat", "Level", "MAX_BODY", "MAX_PAYLOAD",
    "Message", "MessageReader", "Method", "NotTidy", "NotUtf8", "OpenContent", "Properties", "ProtocolHeader", "Queue", "Recutter", "Rules",
    "ShortPayload", "TooDeep", "TooLarge", "TooLong", "TrailingBytes", "Tx", "UnknownClass", "UnknownFrameType",
    "UnknownMethod", "UnknownStatus", "UnknownTag", "canonicalize", "check", "dump", "encode", "frames", "key_matches", "messages",
    "read_table", "recut", "undump", "write_table",
]
__version__ = "0.1.0"
