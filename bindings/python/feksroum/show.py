"""What `feksroum-show` and `python -m feksroum show` print: frames with their names and values, one a line, and tables indented below
them.

Passwords are hidden: the answers of a client that logs in, and the secret that renews a login.
"""

import argparse
import datetime
import os
import re
import sys
import time
from typing import Any, BinaryIO, Dict, Iterator, List, Optional, TextIO, Tuple

from ._buffers import MAX_PAYLOAD, limit_of
from ._captures import MAGIC_LENGTH, MAGICS, NoTshark, pieces_of
from ._choice import Choice, names_of
from ._errors import Error
from ._frames import Frame, FrameReader, FrameType
from .methods import Connection, Fields
from .recording import MAGIC, BadRecording, Record, RecordReader

#: The fields that are hidden, by their methods.
SECRETS = {
    Connection.StartOk: "response",
    Connection.SecureOk: "response",
    Connection.UpdateSecret: "new_secret",
}
#: So many bytes of a body are shown.
BODY_SHOWN = 64
#: How long `--follow` waits for more, in seconds.
PAUSE = 0.2
CHUNK = 65536
_PLAIN_KEY = re.compile(r"[A-Za-z0-9_.-]+")
_NAME, _KEY, _FAULT, _DIM = "1;36", "32", "1;31", "2"


class Style:
    """Colours of a terminal, or none."""

    def __init__(self, is_coloured: bool) -> None:
        self._is_coloured = is_coloured

    def paint(self, colour: str, text: str) -> str:
        """The text in a colour."""
        return f"\x1b[{colour}m{text}\x1b[0m" if self._is_coloured else text


def _key(key: str) -> str:
    return key if _PLAIN_KEY.fullmatch(key) else repr(key)


def _table_lines(style: Style, items: Iterator[Tuple[str, Any]], indent: str) -> Iterator[str]:
    """The entries of a table or an array, one a line, and below them what lies in them."""
    for name, value in items:
        head = f"{indent}{style.paint(_KEY, name)}:"
        if isinstance(value, dict) and value:
            yield head
            yield from _table_lines(style, ((_key(key), inner) for key, inner in value.items()), indent + "  ")
        elif isinstance(value, list) and value:
            yield head
            yield from _table_lines(style, ((str(place), inner) for place, inner in enumerate(value)), indent + "  ")
        else:
            yield f"{head} {_text(value)}"


def _text(value: Any) -> str:
    return value.isoformat() if isinstance(value, datetime.datetime) else repr(value)


def _fields_lines(style: Style, fields: Fields, has_secrets: bool, indent: str) -> List[str]:
    """The values of fields in one line, and the lines of their tables."""
    line = ""
    below: List[str] = []
    hidden = None if has_secrets else SECRETS.get(type(fields))
    for name in fields.set_fields():
        value = getattr(fields, name)
        if isinstance(value, dict) and value:
            below += _table_lines(style, iter([(name, value)]), indent)
        else:
            shown = "<hidden>" if name == hidden else _text(value)
            line += f" {style.paint(_KEY, name)}={shown}"
    return [line, *below]


def frame_lines(frame: Frame, style: Style, has_secrets: bool, indent: str) -> List[str]:
    """A frame in one line, and the lines of its tables below it, which begin with `indent`."""
    name: str
    if frame.method is not None:
        name, fields = type(frame.method).__qualname__, _fields_lines(style, frame.method, has_secrets, indent)
    elif frame.properties is not None:
        name, fields = "Header", _fields_lines(style, frame.properties, has_secrets, indent)
        fields[0] = f" body_size={frame.body_size}{fields[0]}"
    elif frame.type is FrameType.BODY:
        shown = bytes(frame.payload[:BODY_SHOWN])
        more = "..." if len(frame.payload) > BODY_SHOWN else ""
        name, fields = "Body", [f" {len(frame.payload)} bytes {shown!r}{more}"]
    elif frame.version is not None:
        name, fields = "ProtocolHeader", [" " + "-".join(map(str, frame.version))]
    else:
        name, fields = "Heartbeat", [""]
    return [f"{frame.channel:>3} {style.paint(_NAME, name)}{fields[0]}", *fields[1:]]


class Stream:
    """Prints the frames of one direction, each after its offset."""

    def __init__(
        self, out: TextIO, style: Style, has_secrets: bool, max_payload: int = MAX_PAYLOAD, choice: Optional[Choice] = None
    ) -> None:
        self._out = out
        self._style = style
        self._has_secrets = has_secrets
        self._choice = Choice() if choice is None else choice
        self._reader = FrameReader(max_payload)
        self._offset = 0
        self.error: Optional[Exception] = None

    def feed(self, data: bytes, prefix: str = "") -> None:
        """Prints the frames that this piece completes, and the fault that follows them."""
        if self.error is not None:
            return
        for frame in self._reader.feed(data):
            if self._choice.shows(frame):
                head = f"{prefix}{self._offset:>9} "
                lines = frame_lines(frame, self._style, self._has_secrets, " " * len(head) + "      ")
                self._out.write(self._style.paint(_DIM, head) + "\n".join(lines) + "\n")
            self._offset += frame.bytes.nbytes
        self._tell(self._reader.error, prefix)

    def close(self, prefix: str = "") -> None:
        """Prints that the bytes ended inside a frame, where they did."""
        if self.error is None:
            try:
                self._reader.close()
            except Error as error:
                self._tell(error, prefix)

    def _tell(self, error: Optional[Exception], prefix: str) -> None:
        if error is not None:
            self.error = error
            text = f"{type(error).__name__}: {(type(error).__doc__ or '').splitlines()[0]}"
            self._out.write(f"{prefix}{self._offset:>9} {self._style.paint(_FAULT, text)}\n")


class Both:
    """Prints the frames of both directions of some connections."""

    def __init__(
        self, out: TextIO, style: Style, has_secrets: bool, max_payload: int = MAX_PAYLOAD, choice: Optional[Choice] = None
    ) -> None:
        self._arguments = out, style, has_secrets, max_payload
        self._choice = Choice() if choice is None else choice
        self._streams: Dict[Tuple[int, str], Stream] = {}
        self.error: Optional[Exception] = None

    def take(self, connection: int, direction: str, data: bytes, time: str = "") -> None:
        """Prints the frames that a piece of one direction completes; one without bytes ends it."""
        prefix = f"{time}{connection:>3} {direction} "
        key = connection, direction
        if key not in self._streams:
            self._streams[key] = Stream(*self._arguments, choice=self._choice.new())
        stream = self._streams[key]
        if data:
            stream.feed(data, prefix)
        else:
            stream.close(prefix)
        self.error = self.error or stream.error


class Recording(Both):
    """Prints the frames of a recording, each after its time, its connection and its direction."""

    def __init__(self, *arguments: Any) -> None:
        super().__init__(*arguments)
        self._reader = RecordReader()

    def feed(self, data: bytes) -> None:
        """Prints the frames that this piece completes."""
        for record in self._reader.feed(data):
            self._show(record)

    def _show(self, record: Record) -> None:
        seconds, rest = divmod(record.time, 10**9)
        clock = time.strftime("%H:%M:%S", time.localtime(seconds))
        self.take(record.connection, record.direction, record.data, f"{clock}.{rest // 1000:06} ")

    def close(self) -> None:
        """Prints that a recording ended inside a record, where it did."""
        if self._reader.held:
            raise BadRecording("it ends inside a record")


def _chunks(file: BinaryIO, is_followed: bool, out: TextIO) -> Iterator[bytes]:
    """What can be read; of a file that grows without an end."""
    read = getattr(file, "read1", file.read)
    while True:
        chunk = read(CHUNK)
        if chunk:
            yield chunk
        elif is_followed:
            out.flush()
            time.sleep(PAUSE)
        else:
            return


def show_capture(
    path: str, out: TextIO, style: Style, has_secrets: bool, max_payload: int = MAX_PAYLOAD, choice: Optional[Choice] = None
) -> int:
    """Prints the frames of a capture of packets. Returns the status of the first fault. Raises NoTshark."""
    shown = Both(out, style, has_secrets, max_payload, choice)
    for piece in pieces_of(path):
        shown.take(piece.connection, piece.direction, piece.data)
    return getattr(shown.error, "status", 0) if shown.error is not None else 0


def is_capture(path: str) -> bool:
    """Whether a file begins as a capture of packets does."""
    with open(path, "rb") as file:
        return file.read(MAGIC_LENGTH) in MAGICS


def show(
    file: BinaryIO, out: TextIO, style: Style, has_secrets: bool, is_followed: bool, max_payload: int = MAX_PAYLOAD,
    choice: Optional[Choice] = None,
) -> int:
    """Prints the frames of a file, which is a recording or the bytes of one direction. Returns the status of the first fault."""
    front = b""
    shown: Any = None
    for chunk in _chunks(file, is_followed, out):
        if shown is None:
            front += chunk
            if MAGIC.startswith(front) and front != MAGIC:
                continue
            is_recording = front.startswith(MAGIC)
            shown = (Recording if is_recording else Stream)(out, style, has_secrets, max_payload, choice)
            chunk = front[len(MAGIC) :] if is_recording else front
        shown.feed(chunk)
        if shown.error is not None and isinstance(shown, Stream):
            break
    if shown is None:
        shown = Stream(out, style, has_secrets, max_payload, choice)
        shown.feed(front)
    shown.close()
    return getattr(shown.error, "status", 0) if shown.error is not None else 0


DESCRIPTION = (
    "Prints the frames of a file with their names and values: of the bytes of one direction of a connection; of a recording, both "
    "directions with the time of each frame; of a capture of packets, by tshark, both directions of each connection. Passwords are "
    "hidden. The status is that of the fault that ended the frames."
)


def _names(text: str) -> Any:
    try:
        return names_of(text)
    except ValueError as error:
        raise argparse.ArgumentTypeError(str(error)) from None


def _add_arguments(command: argparse.ArgumentParser) -> None:
    command.add_argument("file", nargs="?", default="-", metavar="FILE", help="the file; standard input where there is none")
    command.add_argument("--only", type=_names, metavar="NAME,..",
                         help="only these methods, as basic.publish, or classes, as queue, with what follows them; header, body, heartbeat")
    command.add_argument("--channel", type=int, action="append", metavar="N", help="only this channel; may be given again")
    command.add_argument("--key", metavar="KEY",
                         help="only methods with such a routing key, and their contents; as a binding key: 'orders.*', 'orders.#'")
    command.add_argument("--follow", action="store_true", help="wait for more at the end, until it is interrupted")
    command.add_argument("--secrets", action="store_true", help="print passwords too")
    command.add_argument("--color", choices=("auto", "always", "never"), default="auto", help="colours: on a terminal alone (auto)")
    command.add_argument("--max-payload", type=int, default=MAX_PAYLOAD, metavar="N", help=f"the longest payload ({MAX_PAYLOAD})")


def _show(arguments: argparse.Namespace) -> int:
    """Shows what the arguments say."""
    is_coloured = arguments.color == "always" or (
        arguments.color == "auto" and sys.stdout.isatty() and not os.environ.get("NO_COLOR")
    )
    style, most = Style(is_coloured), limit_of(arguments.max_payload)
    choice = Choice(arguments.only, arguments.channel, arguments.key)
    if arguments.file == "-":
        return show(sys.stdin.buffer, sys.stdout, style, arguments.secrets, arguments.follow, most, choice)
    if is_capture(arguments.file):
        return show_capture(arguments.file, sys.stdout, style, arguments.secrets, most, choice)
    with open(arguments.file, "rb") as file:
        return show(file, sys.stdout, style, arguments.secrets, arguments.follow, most, choice)


def _run(arguments: argparse.Namespace) -> int:
    """The same, and what goes wrong in one line."""
    reconfigure = getattr(sys.stdout, "reconfigure", None)
    if reconfigure is not None:
        # A terminal that has not all characters gets them escaped.
        reconfigure(errors="backslashreplace")
    try:
        return _show(arguments)
    except BrokenPipeError:
        os.dup2(os.open(os.devnull, os.O_WRONLY), sys.stdout.fileno())
        return 0
    except KeyboardInterrupt:
        return 130
    except (OSError, BadRecording, NoTshark, ValueError) as error:
        print(f"feksroum: {arguments.file}: {error}", file=sys.stderr)
        return 1


def main(words: Optional[List[str]] = None) -> int:
    """Runs `python -m feksroum`, and returns its exit status: 1 where the file cannot be read, 2 for invalid arguments."""
    parser = argparse.ArgumentParser(prog="python -m feksroum", description="Frames of AMQP 0-9-1, as text.")
    commands = parser.add_subparsers(dest="command", required=True)
    _add_arguments(commands.add_parser("show", help="print the frames of a file, with their names and values", description=DESCRIPTION))
    return _run(parser.parse_args(words))


def command() -> int:
    """Runs `feksroum-show`."""
    parser = argparse.ArgumentParser(prog="feksroum-show", description=DESCRIPTION)
    _add_arguments(parser)
    return _run(parser.parse_args())
