"""pamqp as a second opinion on each method, property and kind of value that both have.

Skipped where it is not installed: Debian has it as python3-pamqp, for the system's own Python.
"""

import datetime
import random
import unittest
from decimal import Decimal
from unittest import mock

import feksroum
from feksroum import Basic, Properties, Queue
from feksroum.methods import METHODS
from feksroum.values import Float32, Int8, Int16, Int64, UInt8, UInt16, UInt32

try:
    from pamqp import body, commands, decode, encode, frame, header, heartbeat
except ImportError:
    raise unittest.SkipTest("no pamqp") from None

UTC = datetime.timezone.utc
#: The fields that are reserved here, and in pamqp too have to keep their defaults.
RESERVED = {"ticket", "capabilities", "insist", "known_hosts", "out_of_band", "channel_id", "prefetch_size"}
STRINGS = ("", "a", "orders.created", "é", "x" * 120)
NUMBERS = {1: (0, 9, 255), 2: (0, 1, 60, 65535), 3: (0, 131072, 2**32 - 1), 4: (0, 1, 2**40, 2**63 - 1)}


def theirs_of(method):
    """pamqp's class of the same method, or None."""
    group = getattr(commands, method.__qualname__.split(".")[0], None)
    return getattr(group, method.__name__, None)


def value_of(pick, kind):
    """A value of a field that both write, as this module has it."""
    if kind in NUMBERS:
        return pick.choice(NUMBERS[kind])
    if kind == 5:
        return pick.random() < 0.5
    if kind == 8:
        return table_of(pick, 3)
    text = pick.choice(STRINGS)
    return text.encode() if kind == 7 else text


def table_of(pick, depth):
    """A table of kinds that both have."""
    return {pick.choice(("a", "b", "key", "é", "x-match")): plain_value(pick, depth) for _ in range(pick.randrange(6))}


def plain_value(pick, depth):
    """A value whose kind both choose alike, or one that names its kind."""
    made = [
        None, True, False, "text", "é", 0.25, -1.5, Decimal("3.14"), datetime.datetime(2026, 1, 2, 3, 4, 5, tzinfo=UTC), 2**31 - 1,
        -(2**31), 2**40, -(2**40), 70_000, bytearray(b"\xff\0"), [], {},
    ]
    if depth:
        made += [[plain_value(pick, depth - 1) for _ in range(3)], table_of(pick, depth - 1)]
    return pick.choice(made)


def plain(value):
    """A value as both have it: pamqp's times name no zone, its byte arrays are bytearrays, its long strings str."""
    if isinstance(value, datetime.datetime):
        return value.replace(tzinfo=UTC)
    if isinstance(value, (bytes, bytearray)):
        return bytes(value)
    if isinstance(value, dict):
        return {key: plain(inner) for key, inner in value.items()}
    if isinstance(value, list):
        return [plain(inner) for inner in value]
    return value


def field(method, name):
    value = plain(getattr(method, name))
    return value.encode() if isinstance(value, str) else value


class Methods(unittest.TestCase):
    def test_classes(self):
        """All methods of pamqp are here, under the same names, ids and with the same fields but the reserved ones."""
        seen = 0
        for index, theirs in commands.INDEX_MAPPING.items():
            ours = METHODS[index >> 16, index & 0xFFFF]
            self.assertIs(theirs_of(ours), theirs)
            fields = [name for name in theirs.__slots__ if name not in RESERVED and theirs is not commands.Basic.GetEmpty]
            self.assertEqual(list(ours.__slots__), fields, ours.name)
            self.assertEqual(ours.wants_answer, theirs.synchronous and bool(theirs.valid_responses), ours.name)
            seen += 1
        self.assertEqual({method.name.split(".")[0] for method in METHODS.values() if theirs_of(method) is None}, {"access"})
        self.assertEqual(seen, 64)

    def test_by_name_alone(self):
        """The methods in which a place means something else in pamqp take their fields by name."""
        for theirs in commands.INDEX_MAPPING.values():
            ours = METHODS[theirs.index >> 16, theirs.index & 0xFFFF]
            names = list(theirs.__slots__)[: len(ours.__slots__)]
            self.assertEqual(ours.by_name, names != list(ours.__slots__), ours.name)

    def test_defaults(self):
        """What pamqp gives a field that is not given, where that is a value of its kind."""
        for theirs in commands.INDEX_MAPPING.values():
            ours = METHODS[theirs.index >> 16, theirs.index & 0xFFFF]()
            for name in ours.__slots__:
                value = getattr(theirs(), name)
                if value is not None:
                    self.assertEqual(field(ours, name), field(theirs(), name), f"{ours.name} {name}")

    def test_fields(self):
        pick, done = random.Random(1), 0
        for method in METHODS.values():
            theirs = theirs_of(method)
            for _ in range(40 if theirs and method.kinds else int(theirs is not None)):
                made = method(**{name: value_of(pick, kind) for name, kind in method.fields})
                with self.subTest(method=made):
                    self.both_read(made, theirs)
                done += 1
        self.assertGreater(done, 1000)

    def both_read(self, made, theirs):
        """pamqp reads what this module writes, and this module what pamqp writes then."""
        data = feksroum.encode(7, made)
        used, channel, read = frame.unmarshal(data)
        self.assertEqual((used, channel, type(read)), (len(data), 7, theirs))
        for name in made.__slots__:
            self.assertEqual(field(made, name), field(read, name), name)
        with mock.patch.object(theirs, "validate", lambda read: None):
            again = frame.marshal(read, 7)
        (found,) = feksroum.frames(again)
        for name in made.__slots__:
            self.assertEqual(field(found.method, name), field(made, name), name)
        self.assertEqual(feksroum.canonicalize(again), feksroum.encode(7, found.method))


class Contents(unittest.TestCase):
    def test_properties(self):
        pick = random.Random(2)
        for _ in range(500):
            made = Properties()
            for name, kind in zip(made.__slots__, made.kinds):
                if name != "cluster_id" and pick.random() < 0.5:
                    setattr(made, name, value_of(pick, kind) or 1 if kind != 6 else pick.choice(STRINGS[1:]))
            if made.headers is not None:
                made.headers = table_of(pick, 2)
            if made.timestamp is not None:
                made.timestamp = datetime.datetime(2026, 1, 2, 3, 4, pick.randrange(60), tzinfo=UTC)
            size = pick.choice((0, 1, 2**40))
            with self.subTest(made=made):
                self.both_read(made, size)

    def both_read(self, made, size):
        data = feksroum.encode(3, made, body_size=size)
        used, channel, read = frame.unmarshal(data)
        self.assertEqual((used, channel, read.body_size, read.class_id), (len(data), 3, size, 60))
        for name in made.__slots__:
            self.assertEqual(plain(getattr(read.properties, name)) or None, plain(getattr(made, name)) or None, name)
        (found,) = feksroum.frames(frame.marshal(read, 3))
        for name in made.__slots__:
            self.assertEqual(plain(getattr(found.properties, name)) or None, plain(getattr(made, name)) or None, name)
        self.assertEqual(found.body_size, size)

    def test_other_frames(self):
        for made, channel, theirs in (
            (feksroum.Body(b"hello"), 1, body.ContentBody(b"hello")), (feksroum.Heartbeat(), 0, heartbeat.Heartbeat()),
            (feksroum.ProtocolHeader(), 0, header.ProtocolHeader()),
        ):
            self.assertEqual(feksroum.encode(channel, made), frame.marshal(theirs, channel))


class Messages(unittest.TestCase):
    def test_theirs(self):
        """Messages whose frames pamqp writes, interleaved on some channels, are assembled as they were."""
        pick, sent, queues = random.Random(4), [], []
        for channel in range(1, 30):
            octets = pick.randbytes(pick.choice((0, 1, 500)))
            opening = pick.choice((
                commands.Basic.Publish(routing_key="k"), commands.Basic.Return(312, "NO_ROUTE", "", "k"),
                commands.Basic.Deliver("tag", 7, False, "", "k"), commands.Basic.GetOk(7, False, "", "k", 3)))
            properties = commands.Basic.Properties(content_type="text/plain", headers={"k": channel})
            sent.append((channel, type(opening).__name__, octets))
            parts = [octets[at : at + 100] for at in range(0, len(octets), 100)]
            frames = [opening, header.ContentHeader(0, len(octets), properties), *map(body.ContentBody, parts)]
            queues.append([frame.marshal(one, channel) for one in frames][::-1])
        data = b""
        while queues:
            queue = pick.choice(queues)
            data += queue.pop()
            queues = [one for one in queues if one]
        found = list(feksroum.messages(data))
        for message in found:
            self.assertEqual(message.properties, Properties("text/plain", headers={"k": message.channel}))
        read = sorted((message.channel, type(message.opening).__name__, message.body) for message in found)
        self.assertEqual(read, sent)

    def test_ours(self):
        """What a message is encoded as is read by pamqp."""
        message = feksroum.Message(3, Basic.Deliver("tag", 7, routing_key="k"), Properties(message_id="m"), b"0123456789" * 1000)
        data, names, octets = message.encode(frame_max=4096), [], b""
        while data:
            used, channel, read = frame.unmarshal(data)
            names.append((channel, type(read).__name__))
            octets += getattr(read, "value", b"")
            data = data[used:]
        self.assertEqual(names, [(3, "Deliver"), (3, "ContentHeader"), *[(3, "ContentBody")] * 3])
        self.assertEqual(octets, message.body)


class Values(unittest.TestCase):
    def test_each_kind(self):
        """One value of each kind, as bytes of pamqp, and as pamqp reads it."""
        for value in (
            Int8(-5), UInt8(200), Int16(-300), UInt16(60_000), UInt32(2**31), Int64(5), Int64(-(2**50)), Float32(0.5), 0.1, "é",
            b"\xff", None, True, 7, -(2**31), 2**33, Decimal("12.5"), datetime.datetime(2026, 1, 2, tzinfo=UTC), [1, "a", None], {"k": {"l": [True]}},
        ):
            with self.subTest(value=value):
                data = feksroum.encode(1, Queue.Declare(arguments={"k": value}))
                _, _, read = frame.unmarshal(data)
                self.assertEqual(plain(read.arguments["k"]), plain(value))

    def test_theirs(self):
        """What pamqp writes for values is read as equal ones. (It cannot write -1 to -128, nor 2^63 and above.)"""
        for value in (
            0, 127, 128, 255, 256, 32767, 32768, 65535, 65536, 2**31 - 1, 2**31, 2**32 - 1, 2**32, -129, -32769, -(2**31) - 1,
            0.1, True, False, "é", bytearray(b"\xff"), None, Decimal("0.5"), [1, [2]], {"a": {"b": 1}},
            datetime.datetime(2026, 1, 2, tzinfo=UTC),
        ):
            with self.subTest(value=value):
                content = encode.field_table({"k": value})
                data = frame.marshal(commands.Queue.Declare(queue="q", arguments={"k": value}), 1)
                (found,) = feksroum.frames(data)
                self.assertEqual(plain(found.method.arguments), plain(decode.field_table(content)[1]))
                self.assertEqual(feksroum.encode(1, found.method), feksroum.canonicalize(data))


if __name__ == "__main__":
    unittest.main()
