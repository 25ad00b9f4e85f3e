"""feksroum.pamqp: the names of pamqp over the library. Where pamqp is installed (Debian's python3-pamqp, for the system's own Python), both are
compared name by name; the rest runs without it."""

import datetime
import importlib
import os
import random
import struct
import subprocess
import sys
import time
import unittest
from decimal import Decimal
from unittest import mock

HERE = os.path.dirname(os.path.abspath(__file__))
sys.path.insert(0, HERE)

from feksroum import pamqp as ours  # noqa: E402
from feksroum.pamqp import base, body, commands, constants, decode, encode, exceptions, frame, header, heartbeat  # noqa: E402

try:
    import pamqp as theirs
except ImportError:
    theirs = None

VALUES = {
    "octet": (0, 255), "short": (0, 65535), "long": (0, 2**32 - 1), "longlong": (0, 2**63 - 1), "bit": (True, False), "shortstr": ("", "a", "orders.created"),
    "longstr": ("", "text", "é"), "table": ({}, {"a": 70_000, "b": "x"}, {"k": {"l": [True, None]}}),
}
#: A table of values that both write alike.
TABLE = {
    "int": 70_000, "big": 2**40, "text": "é", "flag": True, "none": None, "list": [70_000, "x"], "table": {"k": False},
    "when": datetime.datetime(2026, 1, 2),
}


def fill(pick, method):
    """A method with a value in each field that is not reserved."""
    made = method()
    for name in method.__slots__:
        if name not in method._reserved:
            setattr(made, name, pick.choice(VALUES[method.amqp_type(name)]))
    return made


def module(name):
    return importlib.import_module(f"pamqp.{name}")


class Frames(unittest.TestCase):
    def test_methods(self):
        pick = random.Random(1)
        self.assertEqual(len(commands.INDEX_MAPPING), 64)
        for index, method in commands.INDEX_MAPPING.items():
            for _ in range(5):
                made = fill(pick, method)
                data = frame.marshal(made, 7)
                used, channel, read = frame.unmarshal(data + b"more")
                self.assertEqual((used, channel, type(read)), (len(data), 7, method))
                self.assertEqual(dict(read), dict(made))
                self.assertEqual(made.marshal(), data[11:-1])
                again = method()
                again.unmarshal(made.marshal())
                self.assertEqual(dict(again), dict(made))
                self.assertEqual(dict(frame._unmarshal_method_frame(data[7:-1])), dict(made))
                self.assertEqual(struct.unpack_from(">I", data, 7)[0], index)

    def test_contents(self):
        properties = commands.Basic.Properties(
            content_type="text/plain", headers=TABLE, delivery_mode=2, timestamp=datetime.datetime(2026, 1, 2), message_id="m")
        data = frame.marshal(header.ContentHeader(0, 300_000, properties), 3)
        used, channel, read = frame.unmarshal(data)
        self.assertEqual((used, channel, read.body_size, read.class_id, read.weight), (len(data), 3, 300_000, 60, 0))
        self.assertEqual(read.properties, properties)
        self.assertEqual(frame._unmarshal_header_frame(data[7:-1]).properties, properties)
        self.assertEqual(header.ContentHeader(0, 300_000, properties).marshal(), data[7:-1])
        again = commands.Basic.Properties()
        again.unmarshal(struct.unpack_from(">H", data, 19)[0], data[21:-1])
        self.assertEqual(again, properties)
        self.assertEqual(properties.marshal(), data[19:-1])
        self.assertEqual(commands.Basic.Properties(app_id="").marshal(), b"\0\0")
        self.assertNotEqual(properties, 7)

    def test_bodies(self):
        for octets in (b"", b"hello", bytes(300_000)):
            data = frame.marshal(body.ContentBody(octets), 1)
            used, channel, read = frame.unmarshal(data)
            self.assertEqual((used, channel, read.value, len(read)), (len(octets) + 8, 1, octets, len(octets)))
        self.assertEqual(frame._unmarshal_body_frame(b"x").value, b"x")

    def test_others(self):
        self.assertEqual(frame.marshal(heartbeat.Heartbeat(), 0), bytes.fromhex("08000000000000ce"))
        self.assertIsInstance(frame.unmarshal(bytes.fromhex("08000000000000ce"))[2], heartbeat.Heartbeat)
        self.assertEqual(frame.marshal(header.ProtocolHeader(), 0), b"AMQP\0\0\x09\x01")
        used, _, read = frame.unmarshal(b"AMQP\0\0\x09\x01")
        self.assertEqual((used, read.major_version, read.minor_version, read.revision), (8, 0, 9, 1))
        self.assertEqual(frame.frame_parts(b"\3\0\1\0\0\0\5hello"), (3, 1, 5))
        self.assertEqual(frame.frame_parts(b"\3\0"), frame.UNMARSHAL_FAILURE)

    def test_refusals(self):
        for data in (b"", b"\3\0\1", b"\3\0\1\0\0\0\5hell", b"\3\0\1\0\0\0\1xx", b"\x09\0\0\0\0\0\0\xce", b"AMQP\0", b"\1\0\1\0\0\0\4\0\0\0\0\xce",
                     b"\1\0\1\0\0\0\5\0\x32\0\x0b\xff\xce", b"\1\0\0\0\0\0\6\0\x1e\0\x0b\0\0\xce"):
            with self.assertRaises(exceptions.UnmarshalingException) as caught:
                frame.unmarshal(data)
            self.assertIn("Could not unmarshal", str(caught.exception))
        self.assertRaises(ValueError, frame.marshal, "x", 1)
        for method in (commands.Queue.Declare(queue=7), commands.Basic.Ack("1"), commands.Basic.Deliver()):
            self.assertRaises(TypeError, frame.marshal, method, 1)
        for made, name in ((lambda: commands.Queue.Declare(ticket=1), "ticket"), (lambda: commands.Basic.Qos(1), "prefetch_size"),
                           (lambda: commands.Basic.Properties(cluster_id="x"), "cluster_id"), (lambda: commands.Basic.Properties(delivery_mode=3), "mode")):
            with self.assertRaises(ValueError) as caught:
                made()
            self.assertIn(name, str(caught.exception))
        for made in (lambda: commands.Basic.Ack(1, 2, 3), lambda: commands.Basic.Ack(1, delivery_tag=2), lambda: commands.Basic.Ack(tag=1)):
            self.assertRaises(TypeError, made)

    def test_headers_that_pamqp_cannot_write(self):
        table = {"n": -5, "b": b"\xff"}
        made = commands.Queue.Declare(arguments=table)
        self.assertEqual(frame.unmarshal(frame.marshal(made, 1))[2].arguments, {"b": bytearray(b"\xff"), "n": -5})

    def test_as_a_mapping(self):
        made = commands.Basic.Ack(7)
        self.assertEqual((dict(made), "multiple" in made, made["delivery_tag"], len(made)), ({"delivery_tag": 7, "multiple": False}, True, 7, 2))
        self.assertEqual((commands.Basic.Ack.attributes(), commands.Basic.Ack.amqp_type("multiple")), (["delivery_tag", "multiple"], "bit"))
        self.assertTrue(repr(made).startswith("<Basic.Ack object at 0x"))


class Values(unittest.TestCase):
    def test_fields(self):
        for kind, value, wire in (
            ("octet", 255, b"\xff"), ("short", 258, b"\1\2"), ("long", 1, b"\0\0\0\1"), ("longlong", 2**64 - 1, b"\xff" * 8), ("shortstr", "é", b"\2\xc3\xa9"),
            ("longstr", "x", b"\0\0\0\1x"), ("table", {"k": None}, b"\0\0\0\3\1kV"), ("timestamp", datetime.datetime(1970, 1, 1, 0, 0, 9), bytes(7) + b"\x09"),
        ):
            self.assertEqual(encode.by_type(value, kind), wire)
            self.assertEqual(decode.by_type(wire + b"more", kind), (len(wire), value))
            for bad in (object(), 1.5):
                self.assertRaises(TypeError, encode.by_type, bad, kind)
            self.assertRaises(ValueError, decode.by_type, wire[:-1], kind)
        self.assertRaises(TypeError, encode.by_type, 1, "other")
        self.assertRaises(ValueError, decode.by_type, b"", "other")

    def test_values(self):
        for value, wire in (
            (True, b"t\1"), (70_000, b"I\0\1\x11\x70"), (2**40, b"l\0\0\1\0\0\0\0\0"), (-5, b"I\xff\xff\xff\xfb"), (0.5, b"d" + struct.pack(">d", 0.5)),
            ("é", b"S\0\0\0\2\xc3\xa9"), (Decimal("1.50"), b"D\2\0\0\0\x96"), ([None], b"A\0\0\0\1V"), ({"k": True}, b"F\0\0\0\4\1kt\1"), (None, b"V"),
            (bytearray(b"\xff"), b"x\0\0\0\1\xff"), (datetime.datetime(1970, 1, 1, 0, 0, 9), b"T" + bytes(7) + b"\x09"),
        ):
            self.assertEqual(encode.encode_table_value(value), wire)
            self.assertEqual(decode.embedded_value(wire + b"more"), (len(wire), value))
            self.assertEqual(decode.TABLE_MAPPING[wire[:1]](wire[1:]), (len(wire) - 1, value))
        self.assertEqual(encode.timestamp(time.gmtime(9)), bytes(7) + b"\x09")
        self.assertEqual((decode.bit(b"\5", 0), decode.bit(b"\5", 1)), ((0, True), (0, False)))
        self.assertEqual(encode.bit(1, 4, 1), 6)
        self.assertEqual((encode.floating_point(0.5), encode.double(0.5)), (struct.pack(">f", 0.5), struct.pack(">d", 0.5)))
        self.assertEqual(decode.embedded_value(b""), (0, None))
        for bad in (b"?", b"I\0", b"S\0\0\0\5x", b"F\0\0\0\1k"):
            self.assertRaises(ValueError, decode.embedded_value, bad)
        encode.support_deprecated_rabbitmq(True)
        self.assertEqual((encode.DEPRECATED_RABBITMQ_SUPPORT, encode.table_integer(70_000)), (True, b"I\0\1\x11\x70"))
        encode.support_deprecated_rabbitmq(False)


class Installed(unittest.TestCase):
    def run_in(self, program):
        environment = dict(os.environ, PYTHONPATH=os.path.join(HERE, ".."), PYTHONDONTWRITEBYTECODE="1")
        return subprocess.run([sys.executable, "-c", program], env=environment, capture_output=True, text=True, timeout=60)

    def test_install(self):
        names = ", ".join(name for name in ours.__all__ if name != "install")
        done = self.run_in(
            f"import feksroum.pamqp; feksroum.pamqp.install(); feksroum.pamqp.install(); import pamqp; from pamqp import {names}\n"
            "import pamqp.frame; from pamqp.commands import Basic; assert pamqp.frame is feksroum.pamqp.frame is frame\n"
            "print(pamqp.frame.marshal(Basic.Ack(1), 1).hex())")
        self.assertEqual((done.stdout, done.stderr), ("0100010000000d003c0050000000000000000100ce\n", ""))

    @unittest.skipUnless(theirs, "no pamqp")
    def test_too_late(self):
        done = self.run_in("import pamqp, feksroum.pamqp; feksroum.pamqp.install()")
        self.assertIn("ImportError: pamqp was imported already", done.stderr)


@unittest.skipUnless(theirs, "no pamqp")
class BesidePamqp(unittest.TestCase):
    def test_names(self):
        """Each public name of each of its modules is here."""
        for name in ours.__all__[:-1]:
            found = importlib.import_module(f"feksroum.pamqp.{name}")
            wanted = {word for word, value in vars(module(name)).items() if not word.startswith("_") and not isinstance(value, type(os))}
            self.assertEqual(wanted - set(vars(found)) - {"LOGGER", "BasicProperties"}, set(), name)

    def test_commands(self):
        for index, their in module("commands").INDEX_MAPPING.items():
            our = commands.INDEX_MAPPING[index]
            for name in ("name", "frame_id", "index", "synchronous", "valid_responses"):
                self.assertEqual(getattr(our, name), getattr(their, name), (our.name, name))
            self.assertEqual(our.attributes(), list(their.attributes()))
            self.assertEqual([our.amqp_type(name) for name in our.__slots__], [their.amqp_type(name) for name in their.__slots__])
            self.assertEqual(dict(our()), dict(their()), our.name)
        our, their = commands.Basic.Properties, module("commands").Basic.Properties
        for name in ("flags", "name", "frame_id", "index"):
            self.assertEqual(getattr(our, name), getattr(their, name))
        self.assertEqual(our.attributes(), their.__slots__)
        self.assertEqual(dict(our()), dict(their()))
        self.assertEqual([our.amqp_type(name) for name in our.__slots__], [their.amqp_type(name) for name in our.__slots__])

    def test_constants_and_exceptions(self):
        for name, value in vars(module("constants")).items():
            if name.isupper():
                self.assertEqual(getattr(constants, name), value, name)
        their = module("exceptions")
        self.assertEqual(set(exceptions.CLASS_MAPPING), set(their.CLASS_MAPPING))
        for code, error in their.CLASS_MAPPING.items():
            our = exceptions.CLASS_MAPPING[code]
            self.assertEqual((our.__name__, our.name, our.value), (error.__name__, error.name, error.value))
            self.assertEqual([base.__name__ for base in our.__mro__], [base.__name__ for base in error.__mro__])

    def test_bytes(self):
        """Both write the same bytes, where all values are of kinds that they write alike, and read the same of them."""
        pick, their_frame = random.Random(3), module("frame")
        for index, their in module("commands").INDEX_MAPPING.items():
            for _ in range(5):
                made = fill(pick, commands.INDEX_MAPPING[index])
                data = frame.marshal(made, 5)
                if made.name in ("Channel.Open", "Channel.OpenOk"):
                    # pamqp puts a 0 into what is reserved in these two.
                    continue
                with mock.patch.object(their, "validate", lambda method: None):
                    self.assertEqual(data, their_frame.marshal(their(**dict(made)), 5), made.name)
                read, found = frame.unmarshal(data), their_frame.unmarshal(data)
                self.assertEqual((read[:2], dict(read[2])), (found[:2], dict(found[2])), made.name)
        properties = {"headers": TABLE, "priority": 3, "timestamp": datetime.datetime(2026, 1, 2), "app_id": "a"}
        data = frame.marshal(header.ContentHeader(0, 9, commands.Basic.Properties(**properties)), 1)
        their_header = module("header").ContentHeader(0, 9, module("commands").Basic.Properties(**properties))
        self.assertEqual(data, their_frame.marshal(their_header, 1))
        self.assertEqual(dict(frame.unmarshal(data)[2].properties), dict(their_frame.unmarshal(data)[2].properties))

    def test_base(self):
        self.assertTrue(issubclass(commands.Basic.Ack, base.Frame) and issubclass(commands.Basic.Properties, base.BasicProperties))
        for name in ("marshal", "unmarshal", "validate", "attributes", "amqp_type"):
            self.assertTrue(hasattr(module("base").Frame, name) and hasattr(base.Frame, name))


if __name__ == "__main__":
    unittest.main()
