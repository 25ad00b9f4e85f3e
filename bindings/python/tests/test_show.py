"""What `python -m feksroum show` prints."""

import io
import os
import subprocess
import sys
import tempfile
import time
import unittest

import feksroum
from feksroum import Basic, Connection, Properties, Queue
from feksroum import show
from feksroum.recording import MAGIC, BadRecording, Record, RecordReader

HERE = os.path.dirname(os.path.abspath(__file__))
EXAMPLES = os.path.join(HERE, "..", "..", "..", "examples")
BEAT = bytes.fromhex("08000000000000ce")


def shown(data, has_secrets=False, is_coloured=False):
    """The status and what is printed."""
    out = io.StringIO()
    status = show.show(io.BytesIO(data), out, show.Style(is_coloured), has_secrets, False)
    return status, out.getvalue()


def run(*words, data=b""):
    """The command, as it is called."""
    environment = dict(os.environ, PYTHONPATH=os.path.join(HERE, ".."), PYTHONDONTWRITEBYTECODE="1")
    called = [sys.executable, "-m", "feksroum", *words]
    return subprocess.run(called, input=data, capture_output=True, env=environment, timeout=30)


class Frames(unittest.TestCase):
    def test_each_kind_of_frame(self):
        data = feksroum.encode(0, feksroum.ProtocolHeader()) + BEAT
        data += feksroum.encode(1, Queue.Declare(queue="q", arguments={"b": [1, {"c": "é"}], "a b": {}, "x": None}))
        data += feksroum.encode(1, Basic.Ack(7)) + feksroum.encode(1, Properties(priority=3), b"hi\n" * 50)
        status, text = shown(data)
        self.assertEqual(status, 0)
        self.assertEqual(text.splitlines(), [
            "        0   0 ProtocolHeader 0-9-1",
            "        8   0 Heartbeat",
            "       16   1 Queue.Declare queue='q' passive=False durable=False exclusive=False auto_delete=False nowait=False",
            "                arguments:",
            "                  'a b': {}",
            "                  b:",
            "                    0: 1",
            "                    1:",
            "                      c: 'é'",
            "                  x: None",
            "       75   1 Basic.Ack delivery_tag=7 multiple=False",
            "       96   1 Header body_size=150 priority=3",
            f"      119   1 Body 150 bytes {(b'hi' + bytes([10])) * 21 + b'h'!r}...",
        ])

    def test_faults(self):
        self.assertEqual(shown(BEAT + b"\x09"), (
            10, "        0   0 Heartbeat\n        8 UnknownFrameType: The first byte of a frame is none of 1, 2, 3, 8 and 65.\n"))
        status, text = shown(BEAT + BEAT[:5])
        self.assertEqual((status, text.splitlines()[-1].split(":")[0]), (21, "        8 CutShort"))
        self.assertEqual(shown(b""), (0, ""))
        self.assertEqual(shown(b"f")[0], 10)
        self.assertEqual(shown(BEAT * 10_000 + b"\x09" + BEAT * 10_000)[1].count("\n"), 10_001)

    def test_secrets(self):
        methods = (
            Connection.StartOk(response=b"\0guest\0word"), Connection.SecureOk(response=b"word"), Connection.UpdateSecret(b"word", "why"))
        data = b"".join(feksroum.encode(0, method) for method in methods)
        hidden, printed = shown(data)[1], shown(data, has_secrets=True)[1]
        self.assertEqual((hidden.count("<hidden>"), hidden.count("word")), (3, 0))
        self.assertEqual((printed.count("<hidden>"), printed.count("word")), (0, 3))
        self.assertIn("reason='why'", hidden)

    def test_colours(self):
        self.assertIn("\x1b[1;36mHeartbeat\x1b[0m", shown(BEAT, is_coloured=True)[1])
        self.assertNotIn("\x1b", shown(BEAT)[1])

    def test_no_escape_reaches_a_terminal(self):
        method = Queue.Declare(queue="\x1b[2J\n", arguments={"\x1b]0;x": "\x1b[2J"})
        text = shown(feksroum.encode(1, method))[1]
        self.assertNotIn("\x1b", text)
        self.assertEqual(text.count("\n"), 3)

    def test_examples(self):
        """All examples that are bytes end with the status of the program."""
        with open(os.path.join(EXAMPLES, "statuses")) as file:
            rows = [line.split() for line in file]
        done = 0
        for name, command, status, *_ in rows:
            if command not in ("raw", "lent", "hex", "dump"):
                continue
            with open(os.path.join(EXAMPLES, f"{name}.{command}"), "rb") as file:
                data = file.read()
            data = bytes.fromhex(data.decode()) if command == "hex" else data
            self.assertEqual(shown(data)[0], int(status), name)
            done += 1
        self.assertGreater(done, 20)


class Choices(unittest.TestCase):
    """What --only, --channel and --key leave."""

    DATA = b"".join((
        feksroum.encode(1, Queue.Declare(queue="orders")), feksroum.encode(1, Basic.Publish(routing_key="orders.created")),
        feksroum.encode(1, Properties(priority=1), b"one"), feksroum.encode(2, Basic.Publish(routing_key="other")),
        feksroum.encode(2, Properties(priority=2), b"two"), BEAT, feksroum.encode(2, Basic.Ack(7)), feksroum.encode(1, Queue.Bind(routing_key="orders.x")),
    ))

    def names(self, *words):
        """The channel and the name of each frame that is left."""
        done = run("show", *words, data=self.DATA)
        self.assertEqual((done.returncode, done.stderr), (0, b""))
        return [" ".join(line.split()[1:3]) for line in done.stdout.decode().splitlines()]

    def test_only(self):
        self.assertEqual(self.names("--only", "basic.ack,queue.declare"), ["1 Queue.Declare", "2 Basic.Ack"])
        self.assertEqual(self.names("--only", "queue"), ["1 Queue.Declare", "1 Queue.Bind"])
        self.assertEqual(self.names("--only", "basic.publish"), ["1 Basic.Publish", "1 Header", "1 Body", "2 Basic.Publish", "2 Header", "2 Body"])
        self.assertEqual(self.names("--only", "header, heartbeat"), ["1 Header", "2 Header", "0 Heartbeat"])
        for word in ("basic.nothing", "Basic.Publish", "", "publish"):
            done = run("show", "--only", word, data=self.DATA)
            self.assertEqual(done.returncode, 2)
            self.assertIn(b"is no name of a method", done.stderr)

    def test_channels(self):
        self.assertEqual(self.names("--channel", "2"), ["2 Basic.Publish", "2 Header", "2 Body", "2 Basic.Ack"])
        self.assertEqual(self.names("--channel", "0", "--channel", "2", "--only", "basic.ack,heartbeat"), ["0 Heartbeat", "2 Basic.Ack"])

    def test_keys(self):
        self.assertEqual(self.names("--key", "orders.*"), ["1 Basic.Publish", "1 Header", "1 Body", "1 Queue.Bind"])
        self.assertEqual(self.names("--key", "orders.*", "--only", "basic.publish"), ["1 Basic.Publish", "1 Header", "1 Body"])
        self.assertEqual(self.names("--key", "#"), self.names("--only", "basic.publish,queue.bind"))
        self.assertEqual(self.names("--key", "orders"), [])

    def test_binding_keys(self):
        for binding, key, is_taken in (
            ("#", "", True), ("#", "a.b", True), ("*", "", False), ("*", "a", True), ("*", "a.b", False), ("a.#", "a", True), ("a.#", "a.b.c", True),
            ("a.#", "b", False), ("#.c", "c", True), ("#.c", "a.b.c", True), ("a.#.c", "a.c", True), ("a.#.c", "a.x.y.c", True), ("a.#.c", "a.x", False),
            ("a.*.c", "a.c", False), ("a.*.c", "a.b.c", True), ("", "", True), ("", "a", False), ("*.#", "a", True), ("#.#", "", True), ("a.b", "a.b", True),
        ):
            self.assertEqual(feksroum.key_matches(binding, key), is_taken, (binding, key))


class Captures(unittest.TestCase):
    """Captures of packets are read by tshark: by a program of this name that prints what it would."""

    def capture(self, folder, script):
        path, program = os.path.join(folder, "c.pcap"), os.path.join(folder, "tshark")
        with open(path, "wb") as file:
            file.write(bytes.fromhex("d4c3b2a1") + bytes(20))
        if script:
            with open(program, "w") as file:
                file.write("#!/bin/sh\n" + script)
            os.chmod(program, 0o755)
        environment = dict(os.environ, PYTHONPATH=os.path.join(HERE, ".."), PYTHONDONTWRITEBYTECODE="1", PATH=f"{folder}:/usr/bin:/bin" if script else folder)
        return path, subprocess.run([sys.executable, "-m", "feksroum", "show", path], capture_output=True, env=environment, timeout=30)

    def test_both_directions(self):
        hello = feksroum.encode(0, feksroum.ProtocolHeader()).hex()
        start = feksroum.encode(0, Connection.Start()).hex()
        script = f"""
case "$*" in
    *follow,tcp,raw,3) printf '===\\n{hello[:6]}\\n\\t{start}\\n{hello[6:]}\\n===\\n' ;;
    *follow*) printf '414243\\n' ;;
    *) printf '3\\n0\\n3\\n' ;;
esac
"""
        with tempfile.TemporaryDirectory() as folder:
            _, done = self.capture(folder, script)
        self.assertEqual((done.returncode, done.stderr), (0, b""))
        lines = [line.split()[:5] for line in done.stdout.decode().splitlines()]
        self.assertEqual(lines[0], ["3", "<", "0", "0", "Connection.Start"])
        self.assertEqual(lines[-1], ["3", ">", "0", "0", "ProtocolHeader"])

    def test_without_tshark(self):
        with tempfile.TemporaryDirectory() as folder:
            path, done = self.capture(folder, "")
            self.assertEqual((done.returncode, done.stdout), (1, b""))
            self.assertIn(f"tshark -r {path} -q -z follow,tcp,raw,0 |", done.stderr.decode())
            _, done = self.capture(folder, "echo broken >&2; exit 2\n")
            self.assertEqual((done.returncode, done.stderr.decode().split(": ")[-1]), (1, "broken\n"))


class Recordings(unittest.TestCase):
    def test_recording(self):
        second = 10**9
        records = [
            Record(">", 1, 0, b"AMQP\0\0"), Record(">", 1, second, b"\x09\x01" + BEAT), Record("<", 1, second, BEAT),
            Record(">", 2, second, b"\x09"), Record("<", 1, second, BEAT[:3]), Record("<", 1, second, b""), Record(">", 1, second, b""),
        ]
        data = MAGIC + b"".join(record.pack() for record in records)
        status, text = shown(data)
        lines = [line.split(maxsplit=1)[1] for line in text.splitlines()]
        self.assertEqual(lines, [
            "1 >         0   0 ProtocolHeader 0-9-1", "1 >         8   0 Heartbeat", "1 <         0   0 Heartbeat",
            "2 >         0 UnknownFrameType: The first byte of a frame is none of 1, 2, 3, 8 and 65.",
            "1 <         8 CutShort: The input ends inside a frame, or inside a line.",
        ])
        self.assertEqual(status, 10)
        self.assertRaises(BadRecording, shown, data + b">")
        self.assertRaises(BadRecording, shown, data + b"?" * 17)

    def test_pieces(self):
        records = [Record(">", 1, 5, b"abc"), Record("<", 2**32 - 1, 2**64 - 1, b"")]
        data, reader = b"".join(record.pack() for record in records), RecordReader()
        self.assertEqual([record for at in range(len(data)) for record in reader.feed(data[at : at + 1])], records)


class Command(unittest.TestCase):
    def test_standard_input(self):
        done = run("show", data=BEAT + b"\x09")
        self.assertEqual((done.returncode, done.stderr), (10, b""))
        self.assertEqual(done.stdout.count(b"\n"), 2)

    def test_a_terminal_without_all_characters(self):
        environment = dict(os.environ, PYTHONPATH=os.path.join(HERE, ".."), PYTHONDONTWRITEBYTECODE="1", PYTHONIOENCODING="ascii")
        data = feksroum.encode(1, Queue.Declare(queue="é"))
        done = subprocess.run([sys.executable, "-m", "feksroum", "show"], input=data, capture_output=True, env=environment, timeout=30)
        self.assertEqual((done.returncode, done.stderr), (0, b""))
        self.assertIn(rb"queue='\xe9'", done.stdout)

    def test_without_a_library(self):
        environment = dict(os.environ, PYTHONPATH=os.path.join(HERE, ".."), PYTHONDONTWRITEBYTECODE="1", FEKSROUM_LIBRARY="/no/such/library.so")
        done = subprocess.run([sys.executable, "-c", "import feksroum"], capture_output=True, env=environment, timeout=30)
        self.assertIn(b"ImportError: feksroum: no library", done.stderr)
        if hasattr(sys, "orig_argv"):
            done = subprocess.run([sys.executable, "-m", "feksroum", "show"], capture_output=True, env=environment, timeout=30)
            self.assertEqual((done.returncode, done.stderr.count(b"\n")), (1, 1), done.stderr)
            self.assertIn(b"make -C bindings builds it, and FEKSROUM_LIBRARY", done.stderr)

    def test_arguments(self):
        self.assertEqual(run().returncode, 2)
        self.assertEqual(run("show", "--colour").returncode, 2)
        done = run("show", "/no/such/file")
        self.assertEqual(done.returncode, 1)
        self.assertIn(b"/no/such/file", done.stderr)
        self.assertIn(b"--secrets", run("show", "--help").stdout)
        self.assertIn(b"\x1b[", run("show", "--color", "always", data=BEAT).stdout)

    def test_reader_that_leaves(self):
        words = f"{sys.executable} -m feksroum show | head -n 1"
        environment = dict(os.environ, PYTHONPATH=os.path.join(HERE, ".."), PYTHONDONTWRITEBYTECODE="1")
        done = subprocess.run(["sh", "-c", words], input=BEAT * 100_000, capture_output=True, env=environment, timeout=60)
        self.assertEqual((done.stdout.count(b"\n"), done.stderr), (1, b""))

    def test_follow(self):
        environment = dict(os.environ, PYTHONPATH=os.path.join(HERE, ".."), PYTHONDONTWRITEBYTECODE="1")
        with tempfile.NamedTemporaryFile() as file:
            process = subprocess.Popen(
                [sys.executable, "-m", "feksroum", "show", "--follow", file.name], stdout=subprocess.PIPE, env=environment)
            try:
                for piece in (BEAT + BEAT[:3], BEAT[3:]):
                    file.write(piece)
                    file.flush()
                    self.assertTrue(process.stdout.readline().endswith(b"Heartbeat\n"))
                time.sleep(0.3)
                self.assertIsNone(process.poll())
            finally:
                process.kill()
                process.communicate()


if __name__ == "__main__":
    unittest.main()
