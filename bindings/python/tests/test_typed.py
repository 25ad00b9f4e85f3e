"""Methods, properties and tables: reading, writing, and reading again."""

import copy
import datetime
import doctest
import inspect
import math
import pickle
import random
import struct
import sys
import unittest
from decimal import Decimal

import feksroum
from feksroum import Basic, Connection, Exchange, Properties, Queue, values
from feksroum.methods import METHODS
from feksroum.values import Float32, Float64, Int8, Int16, Int32, Int64, LongString, Timestamp, UInt8, UInt16, UInt32

UTC = datetime.timezone.utc


def framed(kind, channel, payload):
    return struct.pack(">BHI", kind, channel, len(payload)) + payload + b"\xce"


def only(data):
    (frame,) = feksroum.frames(data)
    return frame


def declare(content):
    """A queue.declare with the content of a table."""
    return framed(1, 1, b"\0\x32\0\x0a\0\0\0\0" + struct.pack(">I", len(content)) + content)


def entry(value):
    """The content of a table with one entry."""
    return b"\1k" + value


def table_of(content):
    return only(declare(content)).method.arguments


class Methods(unittest.TestCase):
    def test_documents(self):
        self.assertEqual(doctest.testmod(feksroum).failed, 0)
        self.assertGreater(doctest.testmod(feksroum).attempted, 3)

    def test_names(self):
        self.assertEqual(len(METHODS), 66)
        self.assertEqual((Basic.Deliver.ids, Basic.Deliver.name), ((60, 60), "basic.deliver"))
        self.assertEqual(Basic.Deliver.__slots__, ("consumer_tag", "delivery_tag", "redelivered", "exchange", "routing_key"))
        self.assertTrue(Basic.Deliver.carries_content and Queue.Declare.wants_answer and not Basic.Ack.wants_answer)
        self.assertIs(Basic.Properties, Properties)
        self.assertEqual(Exchange.Declare().exchange_type, "direct")
        self.assertIn("global_", Basic.Qos.__slots__)
        self.assertIn("message_type", Properties.__slots__)

    def test_repr(self):
        method = Basic.Deliver("c", 1, routing_key="k")
        text = "Basic.Deliver(consumer_tag='c', delivery_tag=1, redelivered=False, exchange='', routing_key='k')"
        self.assertEqual(repr(method), text)
        self.assertEqual(eval(text), method)
        self.assertEqual(repr(Properties(priority=1)), "Properties(priority=1)")
        self.assertEqual(repr(Basic.QosOk()), "Basic.QosOk()")

    def test_arguments(self):
        self.assertRaises(TypeError, Basic.Ack, 1, False, 2)
        self.assertRaises(TypeError, Basic.Ack, 1, delivery_tag=2)
        self.assertRaises(TypeError, Basic.Ack, tag=2)
        self.assertRaises(AttributeError, setattr, Basic.Ack(), "tag", 1)
        self.assertEqual(str(inspect.signature(Basic.Ack)), "(delivery_tag=0, multiple=False)")
        self.assertIsNot(Queue.Declare().arguments, Queue.Declare().arguments)
        self.assertEqual(Connection.Start().mechanisms, b"PLAIN")

    def test_equality(self):
        self.assertEqual(Basic.Ack(1), Basic.Ack(1, False))
        self.assertNotEqual(Basic.Ack(1), Basic.Ack(2))
        self.assertNotEqual(Basic.Cancel("x"), Basic.CancelOk("x"))
        self.assertNotEqual(Basic.Ack(1), (1, False))
        self.assertRaises(TypeError, hash, Basic.Ack(1))

    def test_copies(self):
        method = Queue.Declare(queue="q", arguments={"k": [1, Int64(2)]})
        for same in (copy.deepcopy(method), pickle.loads(pickle.dumps(method))):
            self.assertEqual(same, method)
            self.assertIs(type(same), Queue.Declare)
        value = pickle.loads(pickle.dumps(Int8(3)))
        self.assertIs(type(value), Int8)
        for number in (Float32(0.5), Float64.from_bits(0x7FF0000000000001)):
            self.assertEqual(pickle.loads(pickle.dumps(number)).bits, number.bits)

    def test_copies_of_frames(self):
        """A pickle of a frame has its head as a plain tuple."""
        frame = only(feksroum.encode(1, Basic.Ack(7)))
        kept = pickle.dumps(frame)
        self.assertNotIn(b"Head", kept)
        for same in (copy.copy(frame), copy.deepcopy(frame), pickle.loads(kept), feksroum.Frame(frame._head, bytes(frame.bytes), 0)):
            self.assertEqual((same, same.type, same.channel, same._head), (frame, frame.type, 1, frame._head))
            self.assertEqual((same.class_id, same.method_id, same.canonical, bytes(same.payload)), (60, 80, True, bytes(frame.payload)))

    def test_each_method_comes_back(self):
        samples = {1: 200, 2: 40_000, 3: 3_000_000_000, 4: 2**64 - 1, 5: True, 6: "ü", 7: b"\xff\0", 8: {"k": "v"}}
        for method in METHODS.values():
            for made in (method(), method(**{name: samples[kind] for name, kind in method.fields})):
                with self.subTest(method.name):
                    data = feksroum.encode(7, made)
                    frame = only(data)
                    self.assertEqual((frame.method, frame.channel, frame.canonical), (made, 7, True))
                    self.assertEqual((frame.class_id, frame.method_id), method.ids)
                    self.assertEqual(feksroum.canonicalize(data), data)

    @unittest.skipIf(sys.version_info < (3, 10), "no match statement")
    def test_match(self):
        found = {}
        program = """
match method:
    case Queue.Declare():
        pass
    case Basic.Deliver(consumer, delivery_tag=tag, routing_key="k"):
        found = {"consumer": consumer, "tag": tag}
"""
        names = {"Basic": Basic, "Queue": Queue, "method": Basic.Deliver("c", 7, routing_key="k"), "found": found}
        exec(program, names)
        self.assertEqual(names["found"], {"consumer": "c", "tag": 7})


class Contents(unittest.TestCase):
    def test_properties(self):
        made = Properties(
            "text/plain", "utf-8", {"a": 1}, 2, 9, "c", "r", "100", "m", datetime.datetime(2026, 1, 2, tzinfo=UTC), "t", "u", "a",
            "x",
        )
        frame, body = feksroum.frames(feksroum.encode(3, made, b"hello"))
        self.assertEqual((frame.properties, frame.body_size, frame.method), (made, 5, None))
        self.assertEqual(bytes(body.payload), b"hello")
        self.assertEqual(only(feksroum.encode(3, Properties())).properties, Properties())

    def test_time_beyond_datetime(self):
        for seconds in (values.LAST_SECOND, values.LAST_SECOND + 1, 2**64 - 1, 0):
            time = values.time_of(seconds)
            self.assertEqual(isinstance(time, Timestamp), seconds > values.LAST_SECOND)
            self.assertEqual(only(feksroum.encode(1, Properties(timestamp=time))).properties.timestamp, time)
            self.assertEqual(table_of(entry(b"T" + struct.pack(">Q", seconds)))["k"], time)

    def test_bodies_are_cut(self):
        data = feksroum.encode(1, Properties(), bytes(1000), frame_max=108)
        sizes = [len(frame.payload) for frame in feksroum.frames(data)]
        self.assertEqual(sizes[1:], [100] * 10)
        cut = feksroum.encode(1, feksroum.Body(b"12345"), frame_max=10)
        self.assertEqual([len(frame.bytes) for frame in feksroum.frames(cut)], [10, 10, 9])
        self.assertEqual(len(feksroum.encode(1, feksroum.Body(bytes(200_000)), frame_max=0)), 200_008)

    def test_header_alone(self):
        data = feksroum.encode(1, Properties(priority=1), body_size=2**64 - 1, class_id=50)
        frame = only(data)
        self.assertEqual((frame.body_size, frame.class_id, frame.properties.priority), (2**64 - 1, 50, 1))

    def test_others(self):
        self.assertEqual(feksroum.encode(0, feksroum.ProtocolHeader()), b"AMQP\0\0\x09\x01")
        self.assertEqual(only(b"AMQP\0\0\x09\x01").version, (0, 9, 1))
        self.assertEqual(feksroum.encode(0, feksroum.Heartbeat()), bytes.fromhex("08000000000000ce"))
        self.assertEqual(only(bytes.fromhex("08000000000000ce")).version, None)

    def test_refusals(self):
        refused = [
            (TypeError, (1, "x")), (TypeError, (1, Basic.Ack(1), b"x")), (ValueError, (65536, Basic.Ack(1))),
            (ValueError, (-1, Basic.Ack(1))), (ValueError, (1, Basic.Ack(2**64))), (ValueError, (1, Basic.Ack(-1))),
            (TypeError, (1, Basic.Ack("1"))), (TypeError, (1, Queue.Declare(queue=1))), (feksroum.TooLong, (1, Queue.Declare(queue="x" * 256))),
            (UnicodeEncodeError, (1, Queue.Declare(queue="\ud800"))), (ValueError, (1, Basic.Qos(prefetch_count=65536))),
            (TypeError, (1, Basic.Ack(1, "x"))),
            (TypeError, (1, Queue.Declare(arguments=[1]))), (TypeError, (1, Queue.Declare(arguments={1: 1}))),
            (feksroum.TooLong, (1, Queue.Declare(arguments={"x" * 256: 1}))), (TypeError, (1, Connection.Secure(7))),
            (ValueError, (1, Basic.Ack(1), None, 8)), (ValueError, (1, Basic.Ack(1), None, -1)),
            (feksroum.TooLarge, (1, Queue.Declare(queue="x" * 200), None, 100)), (ValueError, (1, Properties(priority=256))),
        ]
        for error, arguments in refused:
            with self.subTest(arguments=arguments), self.assertRaises(error):
                feksroum.encode(*arguments)
        with self.assertRaises(ValueError) as caught:
            feksroum.encode(1, Queue.DeclareOk("q", 2**32, 0))
        self.assertIn("message_count", str(caught.exception))
        for method, name in (
            (Basic.Ack("1"), "delivery_tag: a number"), (Queue.Declare(arguments={"k": {1}}), "arguments['k']: no value"),
            (Queue.Declare(arguments={"k": 2**63}), "arguments['k']: 92"),
        ):
            with self.assertRaises((TypeError, OverflowError)) as caught:
                feksroum.encode(1, method)
            self.assertTrue(str(caught.exception).startswith(name), caught.exception)
        self.assertRaises(TypeError, feksroum.encode, 1, Properties(), b"x", body_size=1)


class Tables(unittest.TestCase):
    def check(self, value, wire, read=None):
        """A value is written as these bytes, and read as this value."""
        data = feksroum.encode(1, Queue.Declare(arguments={"k": value}))
        self.assertEqual(data, declare(entry(wire)))
        found = only(data).method.arguments["k"]
        wanted = value if read is None else read
        self.assertEqual(repr(found), repr(wanted))
        self.assertIs(type(found), type(wanted))

    def test_rule(self):
        """The table of `feksroum.values`."""
        self.check(None, b"V")
        self.check(True, b"t\1")
        self.check(False, b"t\0")
        for number in (0, -1, 2**31 - 1, -(2**31)):
            self.check(number, b"I" + struct.pack(">i", number))
        for number in (2**31, -(2**31) - 1, 2**63 - 1, -(2**63)):
            self.check(number, b"l" + struct.pack(">q", number))
        for number in (0.0, -0.0, 0.1, math.inf, 5e-324):
            self.check(number, b"d" + struct.pack(">d", number))
        self.check(Decimal("1.50"), b"D\2" + struct.pack(">I", 150))
        self.check(Decimal("0.000"), b"D\3" + struct.pack(">I", 0))
        self.check(Decimal("4294967295E-255"), b"D\xff" + struct.pack(">I", 2**32 - 1))
        self.check(Decimal("1E+3"), b"D\0" + struct.pack(">I", 1000), Decimal("1000"))
        self.check(datetime.datetime(2026, 1, 2, 3, 4, 5, tzinfo=UTC), b"T" + struct.pack(">Q", 1767323045))
        self.check("ü", b"S\0\0\0\2\xc3\xbc")
        self.check("x" * 70_000, b"S" + struct.pack(">I", 70_000) + b"x" * 70_000)
        self.check(b"\xff", b"x\0\0\0\1\xff")
        self.check(bytearray(b"\xff"), b"x\0\0\0\1\xff", b"\xff")
        self.check([1, "a", [None]], b"A\0\0\0\x11I\0\0\0\1S\0\0\0\1aA\0\0\0\1V")
        self.check((1,), b"A\0\0\0\5I\0\0\0\1", [1])
        self.check({}, b"F\0\0\0\0")
        self.check([], b"A\0\0\0\0")
        nested = b"F\0\0\0\x0e\1aF\0\0\0\4\1ct\1\1bV"
        self.check({"b": None, "a": {"c": True}}, nested, {"a": {"c": True}, "b": None})

    def test_other_zones(self):
        zone = datetime.timezone(datetime.timedelta(hours=2))
        time = datetime.datetime(2026, 1, 2, 3, 4, 5, 999_999, tzinfo=zone)
        self.check(time, b"T" + struct.pack(">Q", 1767315845), datetime.datetime(2026, 1, 2, 1, 4, 5, tzinfo=UTC))

    def test_wrappers(self):
        for number, wire in (
            (Int8(-1), b"b\xff"), (UInt8(255), b"B\xff"), (Int16(-2), b"s\xff\xfe"), (UInt16(65535), b"u\xff\xff"),
            (UInt32(2**32 - 1), b"i\xff\xff\xff\xff"), (Int64(5), b"l" + struct.pack(">q", 5)),
            (Timestamp(2**64 - 1), b"T" + b"\xff" * 8),
            (Float32(0.5), b"f" + struct.pack(">f", 0.5)), (LongString(b"\xff"), b"S\0\0\0\1\xff"),
        ):
            self.check(number, wire)
        self.check(Int32(5), b"I\0\0\0\5", 5)
        self.check(Int64(2**40), b"l" + struct.pack(">q", 2**40), 2**40)
        self.check(UInt8(5), b"B\5")
        self.assertEqual((Int8(5), Float32(0.5), LongString(b"x")), (5, 0.5, b"x"))
        self.assertRaises(OverflowError, Int8, 128)
        self.assertRaises(OverflowError, UInt32, -1)

    def test_bits_of_fractions(self):
        for bits in (0x7F800001, 0xFFC00000, 0x7FC00000, 0x00000001, 0x80000000, 0x7F7FFFFF):
            found = table_of(entry(b"f" + struct.pack(">I", bits)))["k"]
            self.assertEqual(found.bits, bits)
            self.check(found, b"f" + struct.pack(">I", bits))
        for bits in (0x7FF0000000000001, 0xFFF8000000000000, 0x7FF8000000000000):
            found = table_of(entry(b"d" + struct.pack(">Q", bits)))["k"]
            self.assertEqual(found.bits, bits)
            self.check(found, b"d" + struct.pack(">Q", bits))
        self.assertEqual(repr(Float32(math.nan)), "Float32.from_bits(0x7fc00000)")
        found = only(feksroum.encode(1, Queue.Declare(arguments={"k": math.nan}))).method.arguments["k"]
        self.assertEqual(found.bits, 0x7FF8000000000000)

    def test_refused_values(self):
        for value, error in (
            (2**63, OverflowError), (-(2**63) - 1, OverflowError), (object(), TypeError), ({1: 2}, TypeError),
            (Decimal("-1"), ValueError), (Decimal("NaN"), ValueError), (Decimal(2**32), ValueError), (Decimal("1E-256"), ValueError),
            (Decimal("1E+99999999"), ValueError),
            (datetime.datetime(1969, 1, 1, tzinfo=UTC), ValueError), (1j, TypeError),
            ("\udc80", UnicodeEncodeError), (set(), TypeError),
        ):
            with self.subTest(value=value), self.assertRaises(error):
                feksroum.encode(1, Queue.Declare(arguments={"k": value}))

    def test_nesting(self):
        table, circle = {}, {}
        for _ in range(63):
            table = {"k": table}
        self.assertEqual(only(feksroum.encode(1, Queue.Declare(arguments=table))).method.arguments, table)
        self.assertRaises(feksroum.TooDeep, feksroum.encode, 1, Queue.Declare(arguments={"k": table}))
        circle["k"] = [circle]
        self.assertRaises(feksroum.TooDeep, feksroum.encode, 1, Queue.Declare(arguments=circle))

    def test_duplicate_keys(self):
        content = b"\1bV\1at\1\1bt\0\1aU\0\1\1cL" + bytes(8)
        table = table_of(content)
        self.assertEqual(table, {"b": False, "a": 1, "c": 0})
        self.assertEqual((type(table["a"]), type(table["c"])), (Int16, Int64))
        self.assertEqual(feksroum.encode(1, Queue.Declare(arguments=table)), feksroum.canonicalize(declare(content)))

    def test_tables_that_stand_alone(self):
        login = {"LOGIN": "guest", "PASSWORD": "word"}
        self.assertEqual(feksroum.write_table(login), b"\5LOGINS\0\0\0\5guest\x08PASSWORDS\0\0\0\4word")
        pick = random.Random(3)
        for _ in range(300):
            content = made_table(pick, 4)
            table = feksroum.read_table(content)
            self.assertEqual(repr(table), repr(table_of(content)))
            self.assertEqual(declare(feksroum.write_table(table)), feksroum.canonicalize(declare(content)))
        many = {f"{number:05}": [number] for number in range(5000)}
        self.assertEqual(feksroum.read_table(bytearray(feksroum.write_table(many))), many)
        self.assertEqual((feksroum.read_table(b""), feksroum.write_table({})), ({}, b""))
        self.assertRaises(feksroum.ShortPayload, feksroum.read_table, b"\5LOG")
        self.assertRaises(feksroum.UnknownTag, feksroum.read_table, b"\1k?")
        self.assertRaises(TypeError, feksroum.write_table, [1])

    def test_made_tables(self):
        """Whatever stands in a table, what is read of it and written again is the canonical encoding."""
        pick = random.Random(7)
        for _ in range(300):
            data = declare(made_table(pick, 4))
            self.assertEqual(feksroum.encode(1, only(data).method), feksroum.canonicalize(data))


def made_value(pick, depth):
    """A value of any kind, as bytes."""
    sizes = {1: b"tbB", 2: b"sUu", 4: b"Iif", 8: b"lLdT", 5: b"D", 0: b"V"}
    fixed = {bytes([tag]): size for size, tags in sizes.items() for tag in tags}
    tag = pick.choice([*fixed, b"S", b"x", *([b"A", b"F"] if depth else [])])
    if tag in fixed:
        return tag + bytes(pick.choice((0, 1, 127, 128, 255)) for _ in range(fixed[tag]))
    if tag == b"F":
        content = made_table(pick, depth - 1)
    elif tag == b"A":
        content = b"".join(made_value(pick, depth - 1) for _ in range(pick.randrange(5)))
    else:
        content = pick.choice((b"", "é".encode(), b"\xff", b"plain", b"\0"))
    return tag + struct.pack(">I", len(content)) + content


def made_table(pick, depth):
    """The content of a table with keys in no order, some of them twice."""
    keys = [pick.choice((b"", b"a", b"b", "é".encode(), b"long key")) for _ in range(pick.randrange(8))]
    return b"".join(bytes([len(key)]) + key + made_value(pick, depth) for key in keys)


class Speed(unittest.TestCase):
    def test_large_frames(self):
        """A frame with more nodes than a batch has room for, between small ones, in windows that grow."""
        entries = b"".join(b"\5%05dV" % number for number in range(15_000))
        beat = bytes.fromhex("08000000000000ce")
        data = beat * 3 + declare(entries) + beat * 20_000 + declare(entries[:70])
        found = list(feksroum.frames(data))
        self.assertEqual((len(found), len(found[3].method.arguments), len(found[-1].method.arguments)), (20_005, 15_000, 10))
        self.assertEqual(b"".join(frame.bytes for frame in found), data)
        for form in (bytearray(data), memoryview(data)):
            self.assertEqual(list(feksroum.frames(form)), found)


if __name__ == "__main__":
    unittest.main()
