"""The compiled part: what it makes is what the module makes in Python, and the library agrees with both on each method, property and kind
of value. Without it the tests here compare Python alone with the library. FEKSROUM_NATIVE says that it has to be there."""

import contextlib
import datetime
import os
import random
import struct
import sys
import time
import unittest
from decimal import Decimal
from unittest import mock

HERE = os.path.dirname(os.path.abspath(__file__))
sys.path.insert(0, HERE)

import feksroum  # noqa: E402
from feksroum import Basic, Properties, Queue, _compiled, _library, values  # noqa: E402
from feksroum.methods import METHODS  # noqa: E402
from test_typed import declare, made_table, only  # noqa: E402

native = _compiled.native
UTC = datetime.timezone.utc
#: Values of each kind of fields, and some that are none.
GOOD = {
    1: (0, 1, 255, True), 2: (0, 65535, 300), 3: (0, 2**32 - 1, 70_000), 4: (0, 2**64 - 1, 2**40), 5: (True, False),
    6: ("", "a", "é", "x" * 255, "orders.created"), 7: (b"", b"\xff\0", b"x" * 2000, "text", bytearray(b"ab"), memoryview(b"abc")),
}
BAD = {
    1: (256, -1, 1.5, "1", None), 2: (65536, -1, 0.5, b"1"), 3: (2**32, -1, 1.0, []), 4: (2**64, -1, 1e3, {}), 5: ("x", None, 1.5, []),
    6: ("x" * 256, "é" * 128, "\ud800", b"x", 7, None), 7: (7, None, 1.5, [1], "\ud800"), 8: ([1], 7, "x"),
}


class Sub(str):
    """A str of a class of its own."""

    __hash__ = str.__hash__


class Apart(str):
    """Keys of this class are other keys than equal ones of str."""

    def __hash__(self):
        return 7

    def __eq__(self, other):
        return self is other


def value(pick, depth):
    """A value of a table, of any type that is written."""
    made = [
        None, True, False, 0, -1, 2**31 - 1, 2**31, -(2**63), 2**63 - 1, 0.5, -0.0, float("inf"), float("nan"), "", "é", "x" * 300, b"", b"\xff",
        bytearray(b"a"), memoryview(b"abc"), Decimal("1.50"), Decimal(7), datetime.datetime(2026, 1, 2, tzinfo=UTC), datetime.datetime(2026, 1, 2), time.gmtime(5), Sub("s"),
        values.Int8(-1), values.UInt8(255), values.Int16(-2), values.UInt16(65535), values.Int32(1), values.UInt32(2**32 - 1), values.Int64(1),
        values.Timestamp(2**64 - 1), values.Float32(0.5), values.Float64.from_bits(0x7FF0000000000001), values.LongString(b"\xff"),
    ]
    if depth:
        nested = pick.choice((table, lambda pick, depth: [value(pick, depth) for _ in range(2)], lambda pick, depth: (value(pick, depth),)))
        made += [nested(pick, depth - 1)] * 8
    return pick.choice(made)


def table(pick, depth):
    """A table with keys in any order."""
    keys = ("", "a", "b", "é", "x-match", "k" * 31, "k" * 32, "k" * 255, Sub("sub"), "z" * 9)
    return {pick.choice(keys): value(pick, depth) for _ in range(pick.choice((0, 1, 3, 12)))}


def good(pick, kind):
    return table(pick, 3) if kind == 8 else pick.choice(GOOD[kind])


def outcome(call):
    """What a call gives, or what it raises."""
    try:
        return call()
    except Exception as error:
        return type(error), str(error), getattr(error, "place", None)


def both(call):
    """What a call gives by the compiled part and in Python, which is the same."""
    found = outcome(call)
    with mock.patch.object(_compiled, "native", None):
        plain = outcome(call)
    assert repr(found) == repr(plain), f"{found!r} and not {plain!r}"
    return found


def types_of(found):
    """The types of a value and of all that lies in it."""
    if isinstance(found, dict):
        return [(key, types_of(inner)) for key, inner in found.items()]
    return [types_of(inner) for inner in found] if isinstance(found, list) else type(found)


class Presence(unittest.TestCase):
    def test_it_is_there(self):
        if os.environ.get("FEKSROUM_NATIVE"):
            self.assertIsNotNone(native)


class Encoding(unittest.TestCase):
    """Both encode alike, and the bytes are canonical and read as what was given."""

    def check(self, encoded, fields):
        """These bytes are the canonical ones of these fields."""
        frame = only(encoded)
        self.assertTrue(frame.canonical)
        self.assertTrue(feksroum.canonicalize(encoded) == encoded)
        found = frame.method if frame.method is not None else frame.properties
        more = {} if frame.method else {"body_size": frame.body_size, "class_id": frame.class_id}
        self.assertTrue(feksroum.encode(frame.channel, found, **more) == encoded)
        for name, kind in fields.fields:
            given, read = getattr(fields, name), getattr(found, name)
            if kind in (1, 2, 3, 4) and not isinstance(given, (datetime.datetime, time.struct_time, type(None))):
                self.assertEqual(values.seconds_of(read) if name == "timestamp" else read, given, name)
            elif kind in (5, 6):
                self.assertEqual(read, given, name)
            elif kind == 7:
                self.assertEqual(read, given.encode() if isinstance(given, str) else bytes(given), name)

    def test_methods(self):
        pick = random.Random(1)
        for method in METHODS.values():
            for _ in range(10 if method.kinds else 1):
                made = method(**{name: good(pick, kind) for name, kind in method.fields})
                with self.subTest(method.name):
                    self.check(both(lambda made=made: feksroum.encode(pick.choice([0]), made)), made)

    def test_properties(self):
        pick = random.Random(2)
        for _ in range(150):
            made = Properties()
            for name, kind in Properties.fields:
                if pick.random() < 0.4:
                    setattr(made, name, good(pick, kind))
            made.timestamp = pick.choice((None, 0, 2**64 - 1, values.Timestamp(5), datetime.datetime(2026, 1, 2), time.gmtime(7)))
            size, class_id = pick.choice((0, 1, 2**64 - 1)), pick.choice((60, 0, 65535))
            self.check(both(lambda made=made: feksroum.encode(65535, made, body_size=size, class_id=class_id)), made)

    def test_tables(self):
        pick = random.Random(3)
        for _ in range(150):
            made = table(pick, 3)
            content = both(lambda made=made: feksroum.write_table(made))
            self.assertIs(type(content), bytes, content)
            self.assertTrue(declare(content) == feksroum.canonicalize(declare(content), max_payload=2**32 - 1))
            read = both(lambda content=content: feksroum.read_table(content))
            self.assertTrue(feksroum.write_table(read) == content)
            self.assertEqual(set(read), set(made))

    def test_keys_with_the_same_bytes(self):
        """Of keys that have the same bytes the last one wins."""
        content = both(lambda: feksroum.write_table({"b": 0, Apart("a"): 1, "a": 2, Apart("a"): 3}))
        self.assertEqual(feksroum.read_table(content), {"a": 3, "b": 0})

    def test_bodies(self):
        for body in (b"", b"x", b"0123456789" * 20, bytearray(b"abc"), memoryview(b"abcdef")):
            for frame_max in (9, 10, 17, 108, 4096, 0):
                limit = frame_max - 8 if frame_max else 2**32 - 1
                data = both(lambda: feksroum.encode(7, feksroum.Body(body), frame_max=frame_max))
                sizes = [len(frame.payload) for frame in feksroum.frames(data)]
                self.assertEqual(sizes, [min(limit, len(body) - at) for at in range(0, len(body), limit)] or [0])
                if frame_max != 0 and frame_max < 100:
                    continue
                data = both(lambda: feksroum.encode(7, Properties(priority=1), body, frame_max))
                head, *parts = feksroum.frames(data)
                self.assertEqual((head.body_size, b"".join(bytes(part.payload) for part in parts)), (len(body), bytes(body)))

    def test_refusals(self):
        pick, seen = random.Random(4), 0
        for method in [*METHODS.values(), Properties]:
            for name, kind in method.fields:
                for given in BAD[kind]:
                    made = method(**{name: given})
                    found = both(lambda made=made: feksroum.encode(1, made))
                    if method is Properties and given is None:
                        continue
                    self.assertTrue(issubclass(found[0], (TypeError, ValueError, feksroum.TooLong)), (method, name, given, found))
                    self.assertIn(name, found[1])
                    seen += 1
        self.assertGreater(seen, 300)
        for given in (2**63, object(), {1}, Decimal(-1), "\ud800", {7: 1}, {"x" * 256: 1}, [object()], float):
            made = table(pick, 1)
            made["k"] = given
            found = both(lambda made=made: feksroum.encode(1, Queue.Declare(arguments=made)))
            self.assertIn("arguments['k']", found[1])

    def test_limits(self):
        for frame_max in (8 + 5, 8 + 13, 8 + 12, 100, 2**32 - 1, 0, 7, 8, -1, 2**32, 1.5, None):
            both(lambda: feksroum.encode(1, Basic.Ack(7), frame_max=frame_max))
            both(lambda: feksroum.encode(1, Properties(), b"hello", frame_max))
        for channel in (-1, 65536, 1.5, "1", None):
            self.assertIn(both(lambda: feksroum.encode(channel, Basic.Ack(7)))[0], (TypeError, ValueError))

    def test_an_error_of_a_value_goes_through(self):
        """What is no refusal is raised as it is: an interrupt, memory that ran out."""

        class Interrupting(datetime.datetime):
            def utcoffset(self):
                raise KeyboardInterrupt

        for given in ({"k": Interrupting(2026, 1, 1)}, {"k": [Interrupting(2026, 1, 1)]}):
            self.assertRaises(KeyboardInterrupt, feksroum.encode, 1, Queue.Declare(arguments=given))
            self.assertRaises(KeyboardInterrupt, feksroum.write_table, given)

    def test_a_list_that_changes(self):
        class Changing(Decimal):
            def as_tuple(self):
                changed.clear()
                return super().as_tuple()

        changed = [Changing("1.5"), 1, 2, 3]
        self.assertEqual(feksroum.read_table(feksroum.write_table({"k": changed})), {"k": [Decimal("1.5")]})


class Reading(unittest.TestCase):
    """Both read alike."""

    def frames(self, data):
        """The frames of bytes by both, which are equal in all that they say."""
        found = list(feksroum.frames(data))
        with mock.patch.object(_compiled, "native", None):
            plain = list(feksroum.frames(data))
        for one, other in zip(found, plain):
            self.assertEqual(repr(one), repr(other))
            for name in ("type", "channel", "class_id", "method_id", "body_size", "canonical", "tidy", "payload", "bytes", "version"):
                self.assertEqual(getattr(one, name), getattr(other, name), name)
            self.assertIs(type(one.method), type(other.method))
            # Both read by batches of other lengths, from which these two are counted.
            head = other._head._replace(start=one._head.start, first=one._head.first)
            self.assertEqual((type(one._head), one._head, hash(one._head)), (_library.Head, head, hash(tuple(head))))
        self.assertEqual(len(found), len(plain))
        return found

    def test_frames(self):
        pick, data = random.Random(5), b"AMQP\0\0\x09\x01"
        for method in METHODS.values():
            data += feksroum.encode(pick.randrange(65536), method(**{name: good(pick, kind) for name, kind in method.fields}))
            data += feksroum.encode(3, Properties(headers=table(pick, 2), priority=pick.choice((None, 3))), b"x" * pick.randrange(9))
        self.assertGreater(len(self.frames(data)), 150)

    def test_tables(self):
        pick = random.Random(11)
        for _ in range(500):
            (found,) = self.frames(declare(made_table(pick, 4)))
            with mock.patch.object(_compiled, "native", None):
                plain = only(bytes(found.bytes)).method.arguments
            self.assertEqual(types_of(found.method.arguments), types_of(plain))
        for key in (b"", b"k" * 31, b"k" * 32, b"k" * 255, "é".encode()):
            self.frames(declare(bytes([len(key)]) + key + b"V" + bytes([len(key)]) + key + b"t\1"))

    def test_pieces(self):
        """A stream in pieces, with a fault at its end."""
        pick = random.Random(6)
        data = b"".join(
            feksroum.encode(1, pick.choice((Basic.Ack(7), Queue.Declare(arguments=table(pick, 2)), feksroum.Body(b"x" * 300)))) for _ in range(60))
        for size in (1, 7, 1000, len(data) + 9):
            ended = []
            for compiled in (native, None):
                with mock.patch.object(_compiled, "native", compiled):
                    reader, fed = feksroum.FrameReader(), data + b"\x09" + data
                    found = [repr(frame) for at in range(0, len(fed), size) for frame in reader.feed(fed[at : at + size])]
                    ended.append((found, repr(reader.error)))
            self.assertEqual(ended[0], ended[1])
            self.assertEqual((len(ended[0][0]), ended[0][1]), (60, f"UnknownFrameType({len(data)})"))

    def test_a_large_feed_is_not_kept(self):
        """A frame keeps no more than the part that it was read from."""
        body = feksroum.encode(1, feksroum.Body(bytes(1000)))
        reader = feksroum.FrameReader()
        found = reader.feed(body * 5000)
        self.assertEqual(len(found), 5000)
        self.assertLess(max(len(frame._source) for frame in found), 600_000)


@unittest.skipUnless(native, "the compiled part is not built")
class Trusting(unittest.TestCase):
    """No list of nodes and no argument leads it astray."""

    def test_nodes_that_lie_outside(self):
        pick, source = random.Random(13), bytes(range(97, 123))
        for _ in range(5000):
            nodes = b"".join(
                _library.NODE.pack(
                    pick.randrange(2**64), *(pick.choice((0, 1, 5, 26, 2**32 - 1)) for _ in range(5)), pick.choice((0, 3, 255)),
                    pick.choice(b"tbBsuIilfdDSATFxV?"), 0, pick.randrange(256))
                for _ in range(pick.randrange(6)))
            with contextlib.suppress(ValueError, OverflowError, KeyError, struct.error):
                native.read_table(source, nodes)

    def test_arguments(self):
        beat, found = bytes.fromhex("08000000000000ce"), []
        for at, size in ((-1, 8), (9, 1), (0, -1)):
            self.assertRaises(ValueError, native.read, beat, at, size, 100, found)
        for arguments in ((bytearray(beat), 0, 8, 100, found), (beat, 0, 8, 100, ()), (beat,), (beat, 0, 8, "x", found)):
            self.assertRaises(TypeError, native.read, *arguments)
        self.assertEqual((native.read(beat + b"x", 0, 8, 100, found), len(found)), ((8, 0, 0), 1))
        for arguments in ((b"",), ("x", b""), (b"", "x")):
            self.assertRaises(TypeError, native.read_table, *arguments)
        self.assertRaises(TypeError, native.encode, 1)
        self.assertIsNone(native.encode(1, "x", None, 0, None, 60))
        self.assertIsNone(native.write_table([1]))

    def test_it_is_bound_once(self):
        self.assertRaises(RuntimeError, native.bind, (), (), (), ())

    def test_references(self):
        """Nothing is held after many calls."""
        pick = random.Random(7)
        made = [Queue.Declare(arguments=table(pick, 3)), Properties(headers=table(pick, 3)), Queue.Declare(arguments={"k": object()})]
        counts = []
        for _ in range(3):
            for _ in range(200):
                for item in made:
                    with contextlib.suppress(TypeError):
                        list(feksroum.frames(feksroum.encode(1, item)))
            counts.append(sum(map(sys.getrefcount, (None, True, Queue.Declare, Properties, feksroum.Frame, _library.Head, "arguments"))))
        self.assertLess(abs(counts[2] - counts[1]), 50)


if __name__ == "__main__":
    unittest.main()
