#!/usr/bin/env python3
"""Streams that are made, whole and bent, for comparing the drivers. The forms of the files stand in c/cases.c.

    cases.py make CASES COUNT [SEED]   makes so many
    cases.py run CASES RESULTS         runs them through the Python module, in pieces, and compares with one whole call
    cases.py typed CASES RESULTS       reads their frames with all fields, and writes what was read (`typed` says in which form);
                                       what is written of each frame has to be its canonical bytes
"""

import os
import random
import struct
import sys
import zlib

HERE = os.path.dirname(os.path.abspath(__file__))
sys.path.insert(0, os.path.join(HERE, "python"))
EXAMPLES = os.path.join(HERE, "..", "examples")


def known_frames():
    """All frames of the examples that are streams, and the bytes of the others."""
    import feksroum

    found = []
    with open(os.path.join(EXAMPLES, "statuses")) as file:
        rows = [line.split() for line in file]
    for name, command, *_ in rows:
        with open(os.path.join(EXAMPLES, f"{name}.{command}"), "rb") as file:
            data = file.read()
        if command in ("hex", "tidy"):
            data = bytes.fromhex(data.decode())
        at = 0
        try:
            for frame in feksroum.frames(data):
                size = 8 if frame.type == feksroum.FrameType.PROTOCOL_HEADER else len(frame.payload) + 8
                found.append(data[at : at + size])
                at += size
        except feksroum.Error:
            found.append(data[at:])
    return found


def framed(kind, channel, payload):
    return struct.pack(">BHI", kind, channel, len(payload)) + payload + b"\xce"


def table(pick, depth):
    """The content of a table whose keys come twice and stand in no order."""
    entries = []
    for _ in range(pick.randrange(6)):
        key = bytes(pick.choice(b"abc") for _ in range(pick.randrange(3)))
        value = [b"t" + bytes([pick.randrange(3)]), b"V", b"U\1\2", b"L" + bytes(8), b"S\0\0\0\1x"][pick.randrange(5)]
        if depth and pick.random() < 0.3:
            inner = table(pick, depth - 1)
            value = b"F" + struct.pack(">I", len(inner)) + inner
        entries.append(bytes([len(key)]) + key + value)
    return b"".join(entries)


def made_frame(pick, known):
    """A frame of one of some kinds."""
    kind = pick.randrange(6)
    channel = pick.choice([0, 1, 2, 65535])
    if kind == 0:
        return framed(3, channel, pick.randbytes(pick.choice([0, 1, 5, 300])))
    if kind == 1:
        return framed(8, channel, pick.choice([b"", b"", b"x"]))
    if kind == 2:
        return b"AMQP\0" + pick.randbytes(3)
    if kind == 3:
        inner = table(pick, 3)
        return framed(1, channel, b"\0\x32\0\x0a" + pick.choice([b"\0\0", b"\0\7"]) + b"\1q\x1f" + struct.pack(">I", len(inner)) + inner)
    return pick.choice(known)


def bent(pick, data):
    """The bytes, as often as not with something wrong."""
    way = pick.randrange(8)
    if not data or way < 3:
        return data
    at = pick.randrange(len(data))
    if way == 3:
        return data[:at]
    if way == 4:
        return data[:at] + data[at + 1 :]
    if way == 5:
        return data[:at] + pick.randbytes(1) + data[at:]
    return data[:at] + bytes([data[at] ^ 1 << pick.randrange(8)]) + data[at + 1 :]


def make(path, count, seed):
    pick, known = random.Random(seed), known_frames()
    with open(path, "wb") as file:
        for _ in range(count):
            data = bent(pick, b"".join(made_frame(pick, known) for _ in range(pick.randrange(8))))
            most = pick.choice([1, 8, 20, 300])
            pieces = [pick.randrange(most) + 1 for _ in range(pick.randrange(60))]
            file.write(struct.pack(f"<BI{len(data)}sH{len(pieces)}H", pick.randrange(2), len(data), data, len(pieces), *pieces))


def cases(path):
    """Each case: its level, its bytes, and these in pieces."""
    with open(path, "rb") as file:
        while head := file.read(5):
            level, length = struct.unpack("<BI", head)
            data = file.read(length)
            (count,) = struct.unpack("<H", file.read(2))
            pieces, at = [], 0
            for size in struct.unpack(f"<{count}H", file.read(2 * count)):
                pieces.append(data[at : at + size])
                at += size
            yield level, data, [*pieces, data[at:]]


def fed(level, pieces):
    import feksroum

    stream = feksroum.Canonicalizer(level=level)
    written = b"".join(stream.feed(piece) for piece in pieces)
    try:
        stream.close()
    except feksroum.Error as error:
        return error.status, written
    return 0, written


def run(path, results):
    faults = {}
    with open(results, "wb") as file:
        for level, data, pieces in cases(path):
            status, written = fed(level, pieces)
            if fed(level, [data]) != (status, written):
                sys.exit(f"cases: in pieces {status}, and not as whole: {data.hex()}")
            file.write(struct.pack(f"<BI{len(written)}s", status, len(written), written))
            faults[status] = faults.get(status, 0) + 1
    print("python:", sum(faults.values()), "cases by status", dict(sorted(faults.items())))


def sized(octets):
    """Some bytes, after their number."""
    return struct.pack("<I", len(octets)) + octets


def typed_value(value):
    """A value of a table or array, as `typed` has it."""
    from feksroum import _plain

    if isinstance(value, dict):
        return b"F" + typed_table(value)
    if isinstance(value, list):
        return b"A" + struct.pack("<I", len(value)) + b"".join(map(typed_value, value))
    tag, number, octets, scale = _plain.plain(value)
    if tag == ord("V"):
        return b"V"
    if tag in b"Sx":
        return bytes([tag]) + sized(octets)
    return bytes([tag]) + (bytes([scale]) if tag == ord("D") else b"") + struct.pack("<Q", number & 2**64 - 1)


def typed_table(table):
    """A table: its keys in ascending order of their bytes."""
    entries = sorted((key.encode(), value) for key, value in table.items())
    return struct.pack("<I", len(entries)) + b"".join(sized(key) + typed_value(value) for key, value in entries)


def typed_field(kind, value):
    """A field of a method or a property."""
    from feksroum.values import seconds_of

    if kind == 8:
        return b"\x08" + typed_table(value)
    if kind in (6, 7):
        return bytes([kind]) + sized(value.encode() if kind == 6 else value)
    return bytes([kind]) + struct.pack("<Q", value if isinstance(value, int) else seconds_of(value))


def typed_frame(frame):
    """A frame with all its fields."""
    head = struct.pack("<BH", frame.type, frame.channel)
    if frame.method is not None:
        fields = [typed_field(kind, getattr(frame.method, name)) for name, kind in frame.method.fields]
        return head + struct.pack("<HH", *frame.method.ids) + b"".join(fields)
    if frame.properties is not None:
        values = [(place, kind, getattr(frame.properties, name)) for place, (name, kind) in enumerate(frame.properties.fields)]
        fields = [bytes([place]) + typed_field(kind, value) for place, kind, value in values if value is not None]
        return head + struct.pack("<HQ", frame.class_id, frame.body_size) + b"".join(fields)
    if frame.version is not None:
        return head + bytes(frame.version)
    return head + (sized(bytes(frame.payload)) if frame.type == 3 else b"")


def written(frame):
    """What `encode` makes of what was read of a frame."""
    import feksroum

    if frame.properties is not None:
        return feksroum.encode(frame.channel, frame.properties, frame_max=0, body_size=frame.body_size, class_id=frame.class_id)
    if frame.version is not None:
        return feksroum.encode(0, feksroum.ProtocolHeader(*frame.version))
    if frame.method is not None:
        return feksroum.encode(frame.channel, frame.method, frame_max=0)
    return feksroum.canonicalize(frame.bytes)


def typed(path, results):
    """Writes what each case reads as: numbers little-endian; of each frame its type, its channel and what stands in it, by kinds as
    feksroum.h numbers them, with properties by their places; then 255, the status, and how many bytes the frames have."""
    import feksroum

    checksum = size = frames = 0
    with open(results, "wb") as file:
        for _, data, _ in cases(path):
            status, used, read = 0, 0, []
            try:
                for frame in feksroum.frames(data):
                    read.append(typed_frame(frame))
                    used += frame.bytes.nbytes
                    frames += 1
                    if written(frame) != feksroum.canonicalize(frame.bytes):
                        sys.exit(f"cases: what was read is written otherwise: {frame.bytes.hex()}")
            except feksroum.Error as error:
                status = error.status
            result = b"".join(read) + struct.pack("<BBQ", 255, status, used)
            checksum, size = zlib.crc32(result, checksum), size + len(result)
            file.write(result)
    print(f"typed: {size} bytes, crc32 {checksum:08x}")
    print(f"python: {frames} frames typed")


if __name__ == "__main__":
    if sys.argv[1:2] == ["make"] and len(sys.argv) in (4, 5):
        make(sys.argv[2], int(sys.argv[3]), int((sys.argv[4:] or [1])[0]))
    elif sys.argv[1:2] == ["run"] and len(sys.argv) == 4:
        run(sys.argv[2], sys.argv[3])
    elif sys.argv[1:2] == ["typed"] and len(sys.argv) == 4:
        typed(sys.argv[2], sys.argv[3])
    else:
        sys.exit(__doc__)
