"""What mypy --strict has to accept in a program that uses the module. .ci/python calls mypy with it, and runs it."""

import datetime
import io
from typing import Dict, Iterable, Iterator, List, Optional

import feksroum
from feksroum import Basic, Connection, Properties, Queue
from feksroum.values import Int64, Table, Value


def tags(data: bytes) -> List[int]:
    """The delivery tags in some bytes."""
    found: List[int] = []
    for frame in feksroum.frames(data):
        method = frame.method
        if isinstance(method, Basic.Deliver):
            found.append(method.delivery_tag)
            key: str = method.routing_key
            assert key == "k"
        elif isinstance(method, Connection.Start):
            mechanisms: bytes = method.mechanisms
            assert mechanisms
        elif frame.properties is not None:
            headers: Optional[Table] = frame.properties.headers
            assert headers is not None and headers["attempt"] == 1
    return found


def sent() -> bytes:
    """Some frames."""
    headers: Dict[str, Value] = {"attempt": 1, "big": Int64(1), "at": datetime.datetime(2026, 1, 1, tzinfo=datetime.timezone.utc)}
    arguments: Table = {"x-max-length": 5, "list": [1, "two", None], "table": {"key": b"value"}}
    return b"".join([
        feksroum.encode(1, Basic.Deliver("c", 7, routing_key="k")),
        feksroum.encode(1, Properties(headers=headers), b"body", frame_max=4096),
        feksroum.encode(1, Queue.Declare(arguments=arguments)),
    ])


def keys(pieces: Iterable[bytes]) -> List[str]:
    """The routing keys of the messages that rules keep, in a stream that comes in pieces."""
    rules = feksroum.Rules("drop,channel=2,class=60,method=40", "keep")
    kept: Iterator[bytes] = feksroum.Filter(rules).over(pieces)
    found: List[str] = []
    for message in feksroum.messages(kept, max_body=1000, max_open=5000):
        opening = message.opening
        if isinstance(opening, Basic.Publish):
            key: str = opening.routing_key
            body: bytes = message.body
            found.append(f"{key} {len(body)}")
    return found


def assembled(frames: Iterable[feksroum.Frame]) -> int:
    """How many messages some frames are."""
    assembler, count = feksroum.Assembler(), 0
    for frame in frames:
        try:
            pushed = assembler.push(frame)
        except feksroum.BadContent as error:
            fault: feksroum.ContentFault = error.fault
            print(fault, error.channel)
            assembler.forget(error.channel)
            continue
        if isinstance(pushed, feksroum.Message):
            count += 1
        elif pushed is not None:
            print(pushed.method)
    return count


if __name__ == "__main__":
    assert tags(sent()) == [7]
    reader = feksroum.FrameReader()
    frames: List[feksroum.Frame] = reader.feed(feksroum.canonicalize(sent()))
    assert len(frames) == 4
    sample = b"".join(feksroum.Message(channel, Basic.Publish(routing_key="k"), Properties(), b"hi").encode() for channel in (1, 2))
    assert keys([sample[:9], sample[9:]]) == ["k 2"]
    assert assembled(feksroum.frames(sample)) == 2
    assert list(feksroum.messages(feksroum.recut(io.BytesIO(sample), 1))) == list(feksroum.messages(sample))
    assert feksroum.filter(sample, feksroum.Rules("keep")) == sample
