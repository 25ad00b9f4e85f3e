#!/usr/bin/env python3
"""How fast frames are encoded and read beside pamqp, in one run: speed.py [MEGABYTES]

First single frames, one a call, as clients do: each is encoded, and fed to a reader. Then streams, those of bench/streams.py, of which all
fields of all frames are read. The best of some rounds counts, in which all take turns: pamqp, this module in Python alone, and with its
compiled part. Debian has pamqp as python3-pamqp, for /usr/bin/python3.
"""

import importlib
import os
import sys
import time

HERE = os.path.dirname(os.path.abspath(__file__))
sys.path[:0] = [HERE, os.path.join(HERE, "..", "..", "bench")]

import feksroum as compiled  # noqa: E402
import streams  # noqa: E402
from pamqp import body, commands, frame, header  # noqa: E402


def without_compiled_part():
    """A second copy of the module, which does all in Python."""
    kept = {name: module for name, module in sys.modules.items() if name.split(".")[0] == "feksroum"}
    for name in kept:
        del sys.modules[name]
    sys.modules["feksroum._native"] = None
    try:
        return importlib.import_module("feksroum")
    finally:
        for name in [name for name in sys.modules if name.split(".")[0] == "feksroum"]:
            del sys.modules[name]
        sys.modules.update(kept)


plain = without_compiled_part()
ROUNDS, CALLS = 7, 2000
ARGUMENTS = {"x-max-length": 1000, "x-message-ttl": 60000, "x-dead-letter-exchange": "dead", "x-queue-mode": "lazy"}
PROPERTIES = {"content_type": "application/json", "delivery_mode": 2, "message_id": "0123456789", "headers": {"attempt": 1, "source": "orders"}}
BODY = b"x" * 100
DELIVER = {"consumer_tag": "ctag1.abc", "delivery_tag": 7, "redelivered": False, "exchange": "amq.topic", "routing_key": "orders.created"}
PUBLISH = {"exchange": "amq.topic", "routing_key": "orders.created"}
DECLARE = {"queue": "orders", "durable": True, "arguments": ARGUMENTS}
#: What is sent, by its name: methods by their classes and fields, and whether a message's content follows.
SINGLE = {
    "ack": ("Ack", {"delivery_tag": 7}, False), "deliver": ("Deliver", DELIVER, False), "queue.declare": ("Declare", DECLARE, False),
    "publish": ("Publish", PUBLISH, True),
}


def by_module(module, name):
    """What encodes one of these by this module, and what feeds it to a reader."""
    kind, fields, has_content = SINGLE[name]
    method = getattr(module.Queue if kind == "Declare" else module.Basic, kind)(**fields)
    properties, reader = module.Properties(**PROPERTIES), module.FrameReader()

    def encode():
        return module.encode(1, method) + module.encode(1, properties, BODY) if has_content else module.encode(1, method)

    data = encode()
    return encode, lambda: reader.feed(data)


def by_pamqp(name):
    """The same by pamqp, frame by frame."""
    kind, fields, has_content = SINGLE[name]
    frames = [getattr(commands.Queue if kind == "Declare" else commands.Basic, kind)(**fields)]
    if has_content:
        frames += [header.ContentHeader(0, len(BODY), commands.Basic.Properties(**PROPERTIES)), body.ContentBody(BODY)]
    data = [frame.marshal(one, 1) for one in frames]
    return lambda: b"".join([frame.marshal(one, 1) for one in frames]), lambda: [frame.unmarshal(one) for one in data]


def times(calls, count):
    """The least processor time of each call, in microseconds; they take turns."""
    best = [float("inf")] * len(calls)
    for _ in range(ROUNDS):
        for place, call in enumerate(calls):
            began = time.process_time()
            for _ in range(count):
                call()
            best[place] = min(best[place], (time.process_time() - began) / count * 1e6)
    return best


def columns(found):
    """The times, and after each but the first what part of that it is."""
    first, *others = found
    return f"{first:9.2f}" + "".join(f"{other:10.2f} ({other / first:4.2f})" for other in others)


def single_frames():
    print("single frames: processor time in microseconds; in brackets, what part it is of pamqp's")
    print(f"{'':24}{'pamqp':>9}{'Python alone':>17}{'compiled':>17}")
    for name in SINGLE:
        makers = [by_pamqp(name), by_module(plain, name), by_module(compiled, name)]
        encoding, feeding = (times([pair[way] for pair in makers], CALLS) for way in (0, 1))
        print(f"{name:16}encoded {columns(encoding)}")
        print(f"{'':16}fed     {columns(feeding)}")
        print(f"{'':16}both    {columns([one + other for one, other in zip(encoding, feeding)])}")


def block(name, megabytes):
    """Whole frames of a stream, about so many megabytes."""
    data = streams.block_of(name)
    most = int(megabytes * 1_000_000)
    used = 0
    for one in compiled.frames(data):
        used += one.bytes.nbytes
        if used >= most:
            break
    return data[:used]


def pamqp_reads(data):
    """Reads all frames; each is passed alone, so that no rest is copied."""
    at = 0
    while at < len(data):
        size = 8 if data.startswith(b"AMQP", at) else int.from_bytes(data[at + 3 : at + 7], "big") + 8
        frame.unmarshal(data[at : at + size])
        at += size


def whole_streams(megabytes):
    print("streams: processor time for each frame")
    for name in streams.STREAMS:
        data = block(name, megabytes)
        count = sum(1 for _ in compiled.frames(data))
        readers = [lambda: pamqp_reads(data), *(lambda module=module: all(map(bool, module.frames(data))) for module in (plain, compiled))]
        print(f"{name:24}{columns([one / count for one in times(readers, 1)])}")


def main():
    if compiled._compiled.native is None:
        print("the compiled part is not built: build_wheel.py builds it")
    single_frames()
    whole_streams(float((sys.argv[1:] or [1])[0]))


if __name__ == "__main__":
    main()
