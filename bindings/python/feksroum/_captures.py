"""Captures of packets, which tshark reads: the bytes of both directions of each connection in them."""

import shutil
import subprocess
from typing import Iterator, List, NamedTuple

#: How the files of pcap and of pcapng begin.
MAGICS = tuple(map(bytes.fromhex, ("d4c3b2a1", "a1b2c3d4", "4d3cb2a1", "a1b23c4d", "0a0d0d0a")))
MAGIC_LENGTH = 4


class NoTshark(Exception):
    """tshark is not there, or does not read the file."""


class Piece(NamedTuple):
    """Some bytes of one direction of a connection; none where it ended."""

    #: ">" from client to broker, "<" from broker to client.
    direction: str
    #: The number of the TCP stream in the capture, from 0 on.
    connection: int
    data: bytes


def line_for(path: str) -> str:
    """What prints the bytes that the client of the first connection sent."""
    return f"tshark -r {path} -q -z follow,tcp,raw,0 | grep '^[0-9a-f]' | xxd -r -p | feksroum-show"


def _tshark(*words: str) -> List[str]:
    """The lines that tshark prints."""
    done = subprocess.run(["tshark", *words], stdout=subprocess.PIPE, stderr=subprocess.PIPE)
    if done.returncode:
        raise NoTshark(done.stderr.decode(errors="replace").strip())
    return done.stdout.decode("ascii", "replace").splitlines()


def _pieces(path: str, connection: int) -> List[Piece]:
    """The pieces of a connection in the order in which they came: what the broker sent stands after a tab."""
    pieces = []
    for line in _tshark("-r", path, "-q", "-z", f"follow,tcp,raw,{connection}"):
        digits = line.strip()
        if digits and not set(digits) - set("0123456789abcdef"):
            pieces.append(Piece("<" if line.startswith("\t") else ">", connection, bytes.fromhex(digits)))
    return pieces


def pieces_of(path: str) -> Iterator[Piece]:
    """The pieces of all connections that begin as one of AMQP does, one connection after another. Raises NoTshark."""
    if shutil.which("tshark") is None:
        raise NoTshark(f"a capture is read by tshark, which is not installed; where it is: {line_for(path)}")
    found = {int(line) for line in _tshark("-r", path, "-Y", "tcp", "-T", "fields", "-e", "tcp.stream") if line}
    for connection in sorted(found):
        pieces = _pieces(path, connection)
        if b"".join(piece.data for piece in pieces if piece.direction == ">")[:4] == b"AMQP":
            yield from pieces
            yield from (Piece(direction, connection, b"") for direction in "><")
