#!/usr/bin/env python3
"""Streams of messages that are made, whole and out of turn, for comparing the drivers. The files have the form of those of cases.py, with
the number of a choice in the place of the level.

    contents.py make CASES COUNT [SEED]   makes so many, and one with 1,000 channels
    contents.py run CASES RESULTS         filters and recuts each and assembles its messages, in pieces and whole, and writes what came
                                          out (`outcome` says in which form)
    contents.py filtered CASES RESULTS    what came out of filtering alone, in the form of cases.c
"""

import os
import random
import struct
import sys

HERE = os.path.dirname(os.path.abspath(__file__))
sys.path[:0] = [HERE, os.path.join(HERE, "python")]

from cases import cases, framed, sized  # noqa: E402

#: What is done with a case, by its choice: the rules, the size of pieces, the bounds of a body and of what is open.
CHOICES = [
    (["keep"], 1, 2**64 - 1, None),
    (["drop,class=60,method=40", "keep"], 2, 2**64 - 1, None),
    (["keep,kind=method"], 7, 64, None),
    (["keep,channel=1-5"], 100, 2**64 - 1, 300),
    (["drop,kind=beat", "drop,channel=2-700,class=60,method=60", "keep"], 4096, 1000, 5000),
    (["drop,class=60,method=50", "keep,channel=0-400"], 131072, 2**64 - 1, None),
]


def openings(pick):
    """A method that opens a message."""
    from feksroum import Basic

    key = pick.choice(["", "orders", "é", "x" * 200])
    return pick.choice([
        Basic.Publish(routing_key=key, mandatory=pick.random() < 0.5),
        Basic.Return(312, "NO_ROUTE", "", key),
        Basic.Deliver("tag", pick.randrange(2**64), routing_key=key),
        Basic.GetOk(pick.randrange(2**64), routing_key=key),
    ])


def bodies(pick, most):
    """A body in pieces, of which some are empty."""
    size = pick.choice([0, 1, 5, 300, most])
    rest, pieces = pick.randbytes(pick.randrange(size + 1)), []
    while rest:
        length = pick.choice([0, 1, 2, 100, len(rest)])
        pieces.append(rest[:length])
        rest = rest[length:]
    return pieces


def message(pick, channel, most):
    """The frames of a message."""
    import feksroum

    parts = bodies(pick, most)
    properties = feksroum.Properties(
        priority=pick.choice([None, 0, 9]), headers=pick.choice([None, {}, {"b": 1, "a": "text"}]), message_id=pick.choice([None, "m"]))
    size = sum(map(len, parts))
    opening = feksroum.encode(channel, openings(pick))
    header = feksroum.encode(channel, properties, body_size=size)
    return [opening, header, *(framed(3, channel, part) for part in parts)]


def other(pick, channel):
    """A frame that may stand between the messages of a channel; some are not canonical."""
    import feksroum

    return pick.choice([
        feksroum.encode(channel, feksroum.Basic.Ack(pick.randrange(9))),
        framed(1, channel, b"\0\x55\0\x0a\xff"),
        framed(8, channel, pick.choice([b"", b"x"])),
        framed(1, channel, b"\0\x32\0\x0a\0\7\0\x1f\0\0\0\6\1bV\1aV"),
    ])


def interleaved(pick, channels, messages, most):
    """Frames of some channels, which come in any order: those of one channel in theirs."""
    queues = []
    for channel in channels:
        queue = []
        for _ in range(pick.randrange(messages + 1)):
            queue += message(pick, channel, most) if pick.random() < 0.7 else [other(pick, channel)]
        queues.append(queue[::-1])
    found = []
    while queues:
        place = pick.randrange(len(queues))
        if queues[place]:
            found.append(queues[place].pop())
        else:
            queues[place] = queues[-1]
            queues.pop()
    return found


def bent(pick, frames):
    """The bytes of frames, as often as not with something out of turn, and at times cut short."""
    way, at = pick.randrange(8), pick.randrange(len(frames) + 1)
    if way == 4:
        frames = frames[:at] + frames[at + 1 :]
    elif way == 5:
        frames = frames[:at] + frames[max(0, at - 1) : at] + frames[at:]
    elif way == 6:
        frames = frames[:at]
    data = b"".join(frames)
    return data[: pick.randrange(len(data) + 1)] if way == 7 else data


def made(pick, many):
    """One case: its bytes, and the sizes of the pieces that it comes in."""
    if many:
        data = b"".join(interleaved(pick, range(1, 1001), 3, 2000))
        return data, [pick.randrange(2000) for _ in range(1000)]
    channels = pick.sample(range(10), pick.randrange(1, 6)) if pick.random() < 0.8 else pick.sample(range(65536), 3)
    data = bent(pick, interleaved(pick, channels, 4, pick.choice([300, 20_000])))
    most = pick.choice([1, 8, 20, 300])
    return data, [pick.randrange(most) + 1 for _ in range(pick.randrange(60))]


def make(path, count, seed):
    pick = random.Random(seed)
    with open(path, "wb") as file:
        for k in range(count + 1):
            data, pieces = made(pick, k == count)
            choice = pick.randrange(len(CHOICES))
            file.write(struct.pack(f"<BI{len(data)}sH{len(pieces)}H", choice, len(data), data, len(pieces), *pieces))


def written(function, source, argument):
    """The status of filtering or recutting, and what it wrote."""
    import feksroum

    try:
        return 0, function(source, argument)
    except feksroum.Error as error:
        return error.status, error.written


def end_of(error):
    """Why messages end: the status, 255 of an assembler that is full; the fault, its channel, and how many messages are open."""
    import feksroum

    status = 255 if isinstance(error, feksroum.AssemblerFull) else error.status
    return struct.pack("<BBHI", status, getattr(error, "fault", 0), getattr(error, "channel", 0), getattr(error, "messages", 0))


def assembled(source, max_body, max_open):
    """The messages of a case: of each its channel, the method that opened it, its routing key, its priority, 255 for none, and its body;
    then a channel 65535 with the method 0, and `end_of`."""
    import feksroum

    found, end = [], struct.pack("<BBHI", 0, 0, 0, 0)
    try:
        for message in feksroum.messages(source, max_body=max_body, max_open=max_open):
            head = struct.pack("<HH", message.channel, message.opening.ids[1])
            priority = 255 if message.properties.priority is None else message.properties.priority
            found.append(head + sized(message.opening.routing_key.encode()) + bytes([priority]) + sized(message.body))
    except feksroum.Error as error:
        end = end_of(error)
    return b"".join(found) + struct.pack("<HH", 65535, 0) + end


def outcome(choice, source):
    """What comes of a case: the status and the bytes of filtering and of recutting, and its messages."""
    import feksroum

    words, size, max_body, max_open = CHOICES[choice]
    pieces = list(source)
    filtered = written(feksroum.filter, iter(pieces), feksroum.Rules(*words))
    cut = written(feksroum.recut, iter(pieces), size)
    parts = [bytes([status]) + sized(octets) for status, octets in (filtered, cut)]
    return b"".join(parts) + assembled(iter(pieces), max_body, max_open)


def run(path, results):
    statuses = {}
    with open(results, "wb") as file:
        for choice, data, pieces in cases(path):
            result = outcome(choice, pieces)
            if outcome(choice, [data]) != result:
                sys.exit(f"contents: in pieces otherwise than whole: {data.hex()}")
            file.write(result)
            statuses[result[0]] = statuses.get(result[0], 0) + 1
    print("python:", sum(statuses.values()), "cases by status of filtering", dict(sorted(statuses.items())))


def run_filtered(path, results):
    import feksroum

    with open(results, "wb") as file:
        for choice, data, _ in cases(path):
            status, octets = written(feksroum.filter, data, feksroum.Rules(*CHOICES[choice][0]))
            file.write(bytes([status]) + sized(octets))


if __name__ == "__main__":
    if sys.argv[1:2] == ["make"] and len(sys.argv) in (4, 5):
        make(sys.argv[2], int(sys.argv[3]), int((sys.argv[4:] or [1])[0]))
    elif sys.argv[1:2] == ["run"] and len(sys.argv) == 4:
        run(sys.argv[2], sys.argv[3])
    elif sys.argv[1:2] == ["filtered"] and len(sys.argv) == 4:
        run_filtered(sys.argv[2], sys.argv[3])
    else:
        sys.exit(__doc__)
