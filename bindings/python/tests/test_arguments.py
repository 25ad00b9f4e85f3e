"""Bad arguments: every public call once with each kind of them. What is refused is refused at once, and changes nothing."""

import array
import ctypes
import datetime
import decimal
import math
import pickle
import time
import unittest

import feksroum
from feksroum import (
    Assembler, Basic, Body, Canonicalizer, Connection, Filter, FrameReader, Heartbeat, Message, MessageReader, Properties, ProtocolHeader, Queue,
    Recutter, Rules, values,
)
from feksroum.recording import RecordReader

BEAT = bytes.fromhex("08000000000000ce")
(FRAME,) = feksroum.frames(BEAT)
UTC = datetime.timezone.utc


class Grabbing:
    """As arrays of numbers do, it adds itself to whatever stands on its left."""

    def __radd__(self, other):
        return "taken"


class Indexed:
    """A whole number that is no int."""

    def __init__(self, number):
        self._number = number

    def __index__(self):
        return self._number


NO_BYTES = ("text", 7, 1.5, None, [1, 2], Grabbing(), object())
#: What no whole number is, and numbers below and above all bounds.
NO_NUMBERS = (1.5, math.nan, "1", None, [], b"1", decimal.Decimal(1))
BEYOND = (-1, 2**64)

ON_BYTES = {
    "frames": feksroum.frames,
    "canonicalize": feksroum.canonicalize,
    "dump": feksroum.dump,
    "read_table": feksroum.read_table,
    "check": lambda data: feksroum.check(1, data),
    "Body": Body,
    "a payload": lambda data: feksroum.encode(1, set_payload(data)),
    "FrameReader": lambda data: FrameReader().feed(data),
    "Canonicalizer": lambda data: Canonicalizer().feed(data),
    "MessageReader": lambda data: MessageReader().feed(data),
    "Filter": lambda data: Filter(Rules("keep")).feed(data),
    "Recutter": lambda data: Recutter(1).feed(data),
    "RecordReader": lambda data: RecordReader().feed(data),
    "LongString": values.LongString,
}
ON_NUMBERS = {
    "frames": lambda number: feksroum.frames(BEAT, number),
    "FrameReader": FrameReader,
    "MessageReader": MessageReader,
    "messages": lambda number: feksroum.messages(BEAT, number),
    "max_body": Assembler,
    "max_body of messages": lambda number: feksroum.messages(BEAT, max_body=number),
    "Canonicalizer": Canonicalizer,
    "canonicalize": lambda number: feksroum.canonicalize(BEAT, number),
    "level": lambda number: feksroum.canonicalize(BEAT, level=number),
    "dump": lambda number: feksroum.dump(BEAT, number),
    "undump": lambda number: feksroum.undump("beat\n", number),
    "check": lambda number: feksroum.check(number, b""),
    "filter": lambda number: feksroum.filter(BEAT, Rules("keep"), number),
    "Filter": lambda number: Filter(Rules("keep"), number),
    "recut": lambda number: feksroum.recut(BEAT, number),
    "recut within": lambda number: feksroum.recut(BEAT, 1, number),
    "Recutter": Recutter,
    "forget": lambda number: Assembler().forget(number),
    "channel": lambda number: feksroum.encode(number, Basic.Ack()),
    "frame_max": lambda number: feksroum.encode(1, Basic.Ack(), frame_max=number),
    "class_id": lambda number: feksroum.encode(1, Properties(), class_id=number),
    "Message": lambda number: Message(number, Basic.Publish(), Properties()),
    "encode of a message": lambda number: Message(1, Basic.Publish(), Properties()).encode(number),
    "ProtocolHeader": ProtocolHeader,
    "minor": lambda number: ProtocolHeader(minor=number),
    "revision": lambda number: ProtocolHeader(revision=number),
    "a version": lambda number: feksroum.encode(0, set_version(number)),
}
#: None says here that there is no bound.
ON_BOUNDS = {
    "max_open": lambda number: Assembler(max_open=number),
    "max_open of messages": lambda number: feksroum.messages(BEAT, max_open=number),
    "body_size": lambda number: feksroum.encode(1, Properties(), body_size=number),
}


def set_payload(data):
    body = Body()
    body.payload = data
    return body


def set_version(number):
    header = ProtocolHeader()
    header.major = number
    return header


class Bytes(unittest.TestCase):
    def test_no_bytes(self):
        for name, call in ON_BYTES.items():
            for data in NO_BYTES:
                with self.subTest(name, data=data), self.assertRaises(TypeError):
                    call(data)
                    self.fail(f"{name} takes {data!r}")
            with self.subTest(name), self.assertRaises(TypeError):
                call(memoryview(BEAT)[::2])

    def test_a_stream_goes_on(self):
        """After what was no bytes, as if it had not come."""
        message = Message(1, Basic.Publish(), Properties(), b"hello").encode()
        for stream in (FrameReader(), Canonicalizer(), MessageReader(), Filter(Rules("keep")), Recutter(2)):
            found = [stream.feed(message[:5])]
            for data in NO_BYTES:
                self.assertRaises(TypeError, stream.feed, data)
            found.append(stream.feed(message[5:]))
            stream.close()
            self.assertEqual((len(found[0]), len(found[1]) > 0), (0, True))

    def test_after_a_fault(self):
        """Nothing more is held, and what is no bytes is refused all the same."""
        for stream in (FrameReader(), Canonicalizer(), MessageReader(), Filter(Rules("keep")), Recutter(2)):
            stream.feed(b"\x09")
            self.assertRaises(TypeError, stream.feed, "text")
            stream.feed(bytes(1000))
            reader = getattr(stream, "_reader", stream) if isinstance(stream, MessageReader) else stream
            self.assertLess(len(reader._held), 10)

    def test_other_buffers(self):
        """Whatever has the buffer interface is bytes: arrays, views, memory of C."""
        for data in (array.array("B", BEAT), bytearray(BEAT), memoryview(BEAT), (ctypes.c_ubyte * 8)(*BEAT)):
            for stream in (FrameReader(), Canonicalizer(), Filter(Rules("keep")), Recutter(1)):
                stream.feed(BEAT[:3])
                self.assertEqual(len(stream.feed(memoryview(data).cast("B")[3:])), 1 if isinstance(stream, FrameReader) else 8)
                self.assertTrue(stream.feed(data))
                stream.close()

    def test_a_body_says_what_it_wants(self):
        for call in (lambda: Body("text"), lambda: feksroum.encode(1, Properties(), "text"), lambda: Message(1, Basic.Publish(), Properties(), "x")):
            with self.assertRaises(TypeError) as caught:
                call()
            self.assertEqual(str(caught.exception), "bytes are wanted, and not str")
        self.assertRaises(TypeError, Body, 2**31)

    def test_inputs(self):
        for source in ("text", 7, None, 1.5, object()):
            for call in (
                feksroum.messages, lambda given: feksroum.filter(given, Rules("keep")), lambda given: feksroum.recut(given, 1),
                lambda given: list(Filter(Rules("keep")).over(given)), lambda given: list(Recutter(1).over(given)),
            ):
                with self.subTest(source=source), self.assertRaises(TypeError):
                    call(source)

    def test_text(self):
        for text in (7, None, [1], object()):
            self.assertRaises(TypeError, feksroum.undump, text)


class Numbers(unittest.TestCase):
    def test_no_numbers(self):
        for name, call in {**ON_NUMBERS, **ON_BOUNDS}.items():
            for number in NO_NUMBERS:
                if number is None and name in ON_BOUNDS:
                    continue
                with self.subTest(name, number=number), self.assertRaises((TypeError, ValueError)):
                    call(number)

    def test_beyond(self):
        for name, call in {**ON_NUMBERS, **ON_BOUNDS}.items():
            for number in BEYOND:
                with self.subTest(name, number=number), self.assertRaises((ValueError, OverflowError)):
                    call(number)

    def test_classes_of_numbers(self):
        for number in values.NUMBERS.values():
            for other in NO_NUMBERS:
                self.assertRaises(TypeError, number, other)
            for other in (number.least - 1, number.most + 1):
                self.assertRaises(OverflowError, number, other)
            self.assertEqual((number(number.least), number(number.most)), (number.least, number.most))

    def test_other_whole_numbers(self):
        """What says that it is a whole number is one."""
        self.assertEqual(feksroum.encode(Indexed(1), Basic.Ack(Indexed(7))), feksroum.encode(1, Basic.Ack(7)))
        self.assertEqual(feksroum.encode(1, Body(b"abc"), frame_max=Indexed(9)), feksroum.encode(1, Body(b"abc"), frame_max=9))
        self.assertEqual(values.Int8(Indexed(5)), 5)

    def test_fields(self):
        """Each refusal of a number names its field."""
        for method, name in (
            (Basic.Ack(1.5), "delivery_tag"), (Basic.Ack("1"), "delivery_tag"), (Basic.Ack(None), "delivery_tag"), (Basic.Ack(2**64), "delivery_tag"),
            (Basic.Qos(prefetch_count=65536), "prefetch_count"), (Basic.Qos(prefetch_count=-1), "prefetch_count"),
            (Queue.DeclareOk("q", 1, 2**32), "consumer_count"), (Basic.Ack(1, "x"), "multiple"), (Basic.Ack(1, None), "multiple"),
            (Connection.Tune(heartbeat=0.5), "heartbeat"), (Queue.Declare(queue=b"q"), "queue"), (Queue.Declare(queue=None), "queue"),
            (Connection.Secure(7), "challenge"), (Queue.Declare(arguments=[1]), "arguments"), (Properties(priority=256), "priority"),
            (Properties(timestamp=1.5), "timestamp"), (Properties(timestamp="now"), "timestamp"), (Properties(headers=[1]), "headers"),
            (Properties(message_id=7), "message_id"), (Properties(timestamp=datetime.datetime(1969, 1, 1)), "timestamp"),
            (Connection.Start(256), "version_major"), (Basic.Ack(datetime.datetime(2026, 1, 1)), "delivery_tag"),
        ):
            with self.subTest(method=method), self.assertRaises((TypeError, ValueError)) as caught:
                feksroum.encode(1, method)
            self.assertTrue(str(caught.exception).startswith(f"{name}: "), caught.exception)

    def test_strings(self):
        with self.assertRaises(UnicodeEncodeError) as caught:
            feksroum.encode(1, Queue.Declare(queue="\ud800"))
        self.assertTrue(str(caught.exception).endswith("in queue"), caught.exception)
        with self.assertRaises(feksroum.TooLong) as caught:
            feksroum.encode(1, Queue.Declare(queue="é" * 128))
        self.assertEqual((caught.exception.place, str(caught.exception).split(":")[0]), ("queue", "TooLong in queue"))
        self.assertEqual(vars(pickle.loads(pickle.dumps(caught.exception))), vars(caught.exception))


class Tables(unittest.TestCase):
    def check(self, table, error, place):
        for call in (lambda: feksroum.encode(1, Queue.Declare(arguments=table)), lambda: feksroum.encode(1, Properties(headers=table))):
            with self.assertRaises(error) as caught:
                call()
            self.assertIn(f"[{place}]" if place else "its key", str(caught.exception))
        with self.assertRaises(error) as caught:
            feksroum.write_table(table)
        self.assertTrue(str(caught.exception).count("table"), caught.exception)

    def test_a_refused_value_names_its_key(self):
        for value, error in (
            (2**63, OverflowError), (object(), TypeError), (1j, TypeError), ({1}, TypeError), (decimal.Decimal(-1), ValueError),
            (decimal.Decimal("NaN"), ValueError), (datetime.datetime(1969, 1, 1), ValueError), ("\ud800", UnicodeEncodeError),
        ):
            self.check({"a": 1, "x": value, "b": 2}, error, "'x'")
            self.check({"a": {"x": [0, value]}}, error, "'a']['x'][1")
        self.check({"a": {7: 1}}, TypeError, None)
        self.check({"x" * 256: 1}, feksroum.TooLong, None)
        self.check({"a": {"é" * 128: 1}}, feksroum.TooLong, None)

    def test_too_deep(self):
        table = {}
        for _ in range(64):
            table = {"k": table}
        self.check(table, feksroum.TooDeep, "'k'")
        circle = []
        circle.append(circle)
        self.check({"c": circle}, feksroum.TooDeep, "'c'")

    def test_no_tables(self):
        for table in ([1], "text", 7, None):
            self.assertRaises(TypeError, feksroum.write_table, table)


class Times(unittest.TestCase):
    def test_times(self):
        """A time without a zone is UTC, and a struct_time is a time and no array."""
        seconds, moment = 1_767_323_045, datetime.datetime(2026, 1, 2, 3, 4, 5)
        zoned = moment.replace(tzinfo=UTC)
        for given in (moment, zoned, time.gmtime(seconds)):
            self.assertEqual(values.seconds_of(given), seconds)
            (frame,) = feksroum.frames(feksroum.encode(1, Properties(timestamp=given, headers={"t": given, "l": [given]})))
            self.assertEqual((frame.properties.timestamp, frame.properties.headers), (zoned, {"t": zoned, "l": [zoned]}))
            self.assertEqual(feksroum.read_table(feksroum.write_table({"t": given})), {"t": zoned})
        self.assertRaises(ValueError, values.seconds_of, time.gmtime(-1))
        self.assertRaises(TypeError, values.seconds_of, 1.5)


class Kinds(unittest.TestCase):
    def test_text(self):
        """They print as the values that they are; only repr names the class."""
        for value, text in (
            (values.Int64(1), "1"), (values.Timestamp(7), "7"), (values.UInt8(255), "255"), (values.Float32(0.5), "0.5"),
            (values.Float64(0.25), "0.25"),
        ):
            self.assertEqual((str(value), f"{value}", f"{value:>5}", "%s" % value), (text, text, f"{text:>5}", text))
            self.assertEqual(repr(value), f"{type(value).__name__}({text})")
        self.assertEqual(f"retry.{values.Int64(1)}", "retry.1")
        self.assertEqual(str(values.LongString(b"\xff")), str(b"\xff"))

    def test_assignment_keeps_the_kind(self):
        table = {"n": values.Int64(1), "f": values.Float32(0.5), "s": values.LongString(b"\xff")}
        table["n"] += 1
        table["n"] *= 3
        table["n"] -= 2
        table["n"] //= 2
        table["f"] += 1
        table["f"] /= 2
        table["s"] += b"\xfe"
        self.assertEqual(table, {"n": 2, "f": 0.75, "s": b"\xff\xfe"})
        self.assertEqual([type(value) for value in table.values()], [values.Int64, values.Float32, values.LongString])
        self.assertIs(type(values.Int64(1) + 1), int)
        number = values.Int8(127)
        with self.assertRaises(OverflowError):
            number += 1
        number += 0.5
        self.assertEqual(number, 127.5)

    def test_refusals(self):
        for call in (
            lambda: values.Float32("1"), lambda: values.Float32(None), lambda: values.Float32(1j), lambda: values.Float32.from_bits(1.5),
            lambda: values.Float64(b"1"), lambda: values.Float64.from_bits("1"),
        ):
            self.assertRaises(TypeError, call)
        for call in (lambda: values.Float32.from_bits(2**32), lambda: values.Float64.from_bits(-1)):
            self.assertRaises(ValueError, call)
        self.assertRaises(OverflowError, values.Float32, 1e39)


class Objects(unittest.TestCase):
    def test_frames(self):
        for frame in (BEAT, None, 7, "frame", Heartbeat()):
            self.assertRaises(TypeError, Assembler().push, frame)
            self.assertRaises(TypeError, Rules("keep").decide, frame)
            self.assertRaises(TypeError, list, Assembler().messages([frame]))

    def test_rules(self):
        for rules in ("keep", None, ["keep"], 7, b"keep"):
            self.assertRaises(TypeError, Filter, rules)
            self.assertRaises(TypeError, feksroum.filter, b"", rules)
            self.assertRaises(TypeError, Rules, rules) if rules != "keep" else None

    def test_assemblers(self):
        for assembler in (5, "x", Assembler, object()):
            self.assertRaises(TypeError, MessageReader, assembler=assembler)

    def test_messages(self):
        for opening in (Heartbeat(), Basic.Ack(), None, "publish", Basic.Publish):
            self.assertRaises(TypeError, Message, 1, opening, Properties())
        for properties in (None, {}, Basic.Publish(), "x"):
            self.assertRaises(TypeError, Message, 1, Basic.Publish(), properties)

    def test_items(self):
        for item in ("x", None, 7, b"bytes", Basic.Ack, FRAME, object()):
            self.assertRaises(TypeError, feksroum.encode, 1, item)
        for item in (Basic.Ack(), Heartbeat(), ProtocolHeader(), Body(b"x")):
            self.assertRaises(TypeError, feksroum.encode, 0, item, b"body")
        self.assertRaises(TypeError, feksroum.encode, 1, Properties(), b"x", body_size=1)

    def test_keys(self):
        for key in (None, 7, b"key"):
            self.assertRaises(TypeError, feksroum.key_matches, key, "key")
            self.assertRaises(TypeError, feksroum.key_matches, "key", key)

    def test_channel_zero(self):
        for item, data in ((Heartbeat(), BEAT), (ProtocolHeader(), b"AMQP\0\0\x09\x01")):
            self.assertEqual(feksroum.encode(0, item), data)
            for channel in (1, 5, 65535):
                with self.assertRaises(ValueError) as caught:
                    feksroum.encode(channel, item)
                self.assertIn("channel 0", str(caught.exception))

    def test_an_empty_body(self):
        self.assertEqual(feksroum.encode(1, Body(b"")), bytes.fromhex("03000100000000ce"))
        self.assertEqual(len(list(feksroum.frames(feksroum.encode(1, Properties(), b"")))), 1)


class Fields(unittest.TestCase):
    def test_by_name_alone(self):
        """Where pamqp has a reserved field before others, places would mean something else there."""
        for method in (Basic.Qos, Basic.Publish, Basic.Consume, Basic.Get, Queue.Declare, Queue.Bind, feksroum.Exchange.Declare):
            for arguments in ((0,), (0, 10), ("",)):
                with self.assertRaises(TypeError) as caught:
                    method(*arguments)
                self.assertIn("by name", str(caught.exception))
        self.assertEqual(Basic.Qos(prefetch_count=10), eval(repr(Basic.Qos(prefetch_count=10))))

    def test_as_a_mapping(self):
        properties = Properties(priority=3, headers={"a": 1})
        self.assertEqual(dict(properties), {"headers": {"a": 1}, "priority": 3})
        self.assertEqual(("priority" in properties, "app_id" in properties, "nothing" in properties), (True, False, False))
        self.assertEqual((len(properties), properties["priority"], list(properties)), (2, 3, [("headers", {"a": 1}), ("priority", 3)]))
        self.assertEqual((dict(properties.headers), "a" in properties.headers, len(properties.headers), list(properties.headers)), ({"a": 1}, True, 1, ["a"]))
        self.assertEqual(dict(Basic.Ack(7)), {"delivery_tag": 7, "multiple": False})
        self.assertTrue(Basic.QosOk() and Properties())
        for name in ("app_id", "nothing", 7):
            self.assertRaises(KeyError, lambda: properties[name])


if __name__ == "__main__":
    unittest.main()
