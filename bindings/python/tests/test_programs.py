"""The programs below examples: the client against the server, with the proxy and the recorder between them."""

import asyncio
import os
import select
import socket
import subprocess
import sys
import tempfile
import unittest
from unittest import mock

import feksroum
from feksroum import Basic, Connection

HERE = os.path.dirname(os.path.abspath(__file__))
PROGRAMS = os.path.join(HERE, "..", "examples")
sys.path.insert(0, PROGRAMS)

from client import Client  # noqa: E402

ENVIRONMENT = dict(os.environ, PYTHONPATH=os.path.join(HERE, ".."), PYTHONDONTWRITEBYTECODE="1")


class Listening:
    """A program that listens, until the block ends. Its port is its first line."""

    def __init__(self, *words):
        self._words = [sys.executable, os.path.join(PROGRAMS, words[0]), *words[1:]]

    def __enter__(self):
        self.process = subprocess.Popen(self._words, stdout=subprocess.PIPE, env=ENVIRONMENT, text=True)
        self.port = self.process.stdout.readline().split()[-1]
        return self

    def line(self):
        """What it prints next, within a few seconds."""
        ready, _, _ = select.select([self.process.stdout], [], [], 10)
        return self.process.stdout.readline() if ready else ""

    def __exit__(self, *_):
        self.process.terminate()
        self.process.communicate()


def client(port, message):
    """What the client prints."""
    words = [sys.executable, os.path.join(PROGRAMS, "client.py"), "--port", port, message]
    return subprocess.run(words, env=ENVIRONMENT, capture_output=True, text=True, timeout=30)


def connection(port):
    return socket.create_connection(("localhost", int(port)), timeout=10)


def all_frames(made):
    """All frames until the peer ends the connection."""
    data = b""
    while piece := made.recv(65536):
        data += piece
    return list(feksroum.frames(data))


class Programs(unittest.TestCase):
    def check(self, port, message="hello"):
        done = client(port, message)
        self.assertEqual(done.stderr, "")
        self.assertEqual(done.stdout.splitlines(), ["Properties(content_type='text/plain', headers={'attempt': 1})", message])

    def test_lines(self):
        """Each is complete and has less than 150 lines."""
        for name in ("client.py", "proxy.py", "recorder.py", "server.py"):
            with open(os.path.join(PROGRAMS, name)) as file:
                self.assertLess(len(file.readlines()), 150, name)

    def test_client_and_server(self):
        with Listening("server.py", "--port", "0") as server:
            self.check(server.port)
            self.check(server.port, "x" * 131_068)

    def test_server_at_a_fault(self):
        with Listening("server.py", "--port", "0") as server, connection(server.port) as made:
            made.sendall(feksroum.encode(0, feksroum.ProtocolHeader()) + b"\x09")
            start, close = all_frames(made)
            self.assertIsInstance(start.method, Connection.Start)
            self.assertEqual(
                close.method.reply_text, "FRAME_ERROR - UnknownFrameType at byte 8: The first byte of a frame is none of 1, 2, 3, 8 and 65.")

    def test_recorder(self):
        with tempfile.TemporaryDirectory() as folder, Listening("server.py", "--port", "0") as server:
            path = os.path.join(folder, "recording")
            with Listening("recorder.py", "--broker", f"localhost:{server.port}", "--listen", "0", path) as recorder:
                self.check(recorder.port)
                self.check(recorder.port)
            words = [sys.executable, "-m", "feksroum", "show", path]
            done = subprocess.run(words, env=ENVIRONMENT, capture_output=True, text=True, timeout=30)
            self.assertEqual((done.returncode, done.stderr), (0, ""))
            self.assertEqual(done.stdout.count("Basic.Publish"), 2)
            self.assertEqual((done.stdout.count("<hidden>"), done.stdout.count("guest")), (2, 0))
            self.assertIn(" 2 < ", done.stdout)

    def test_proxy(self):
        with Listening("server.py", "--port", "0") as server:
            with Listening("proxy.py", "--broker", f"localhost:{server.port}", "--listen", "0") as proxy:
                self.check(proxy.port)
                self.check(proxy.port, "x" * 131_068)

    def test_proxy_at_a_fault(self):
        """Both sides are told, and what came before the fault was passed on, as canonical bytes."""
        with socket.create_server(("localhost", 0)) as broker:
            place = f"localhost:{broker.getsockname()[1]}"
            with Listening("proxy.py", "--broker", place, "--listen", "0") as proxy, connection(proxy.port) as made:
                beat = bytes.fromhex("0800000000000107ce")
                made.sendall(feksroum.encode(0, feksroum.ProtocolHeader()) + beat)
                there, _ = broker.accept()
                with there:
                    there.settimeout(10)
                    there.sendall(feksroum.encode(0, Connection.Start()))
                    self.assertTrue(made.recv(1, socket.MSG_PEEK))
                    made.sendall(b"\3\0\1\0\0\0\1xx")
                    got, answered = all_frames(there), all_frames(made)
                wanted = [b"AMQP\0\0\x09\x01", bytes.fromhex("08000000000000ce")]
                self.assertEqual([bytes(frame.bytes) for frame in got[:2]], wanted)
                for frames in (got, answered):
                    self.assertEqual(frames[-1].method.reply_code, 501)
                    self.assertIn("BadFrameEnd at byte 17", frames[-1].method.reply_text)
                self.assertIn("client: BadFrameEnd at byte 17", proxy.line())

    def test_proxy_waits_for_a_slow_peer(self):
        """A broker that reads nothing: the client can send no more than buffers hold."""
        with socket.create_server(("localhost", 0)) as broker:
            place = f"localhost:{broker.getsockname()[1]}"
            with Listening("proxy.py", "--broker", place, "--listen", "0") as proxy, connection(proxy.port) as made:
                there, _ = broker.accept()
                made.settimeout(1)
                frame, sent = feksroum.encode(1, feksroum.Body(bytes(100_000))), 0
                with there, self.assertRaises(socket.timeout):
                    while sent < 500_000_000:
                        sent += made.send(frame)
                self.assertLess(sent, 40_000_000)
                self.assertLess(resident(proxy.process.pid), 60_000_000)

    def test_proxy_with_rules_and_pieces(self):
        with Listening("server.py", "--port", "0") as server:
            words = "--broker", f"localhost:{server.port}", "--listen", "0"
            for more in (["--recut", "1000"], ["--keep", "keep"], ["--keep", "keep", "--recut", "7"]):
                with Listening("proxy.py", *words, *more) as proxy:
                    self.check(proxy.port, "x" * 5000)
            with Listening("proxy.py", *words, "--keep", "drop,class=60,method=40", "keep") as proxy:
                self.check_get(server.port, Basic.GetOk)
                self.check_get(proxy.port, Basic.GetEmpty)
            with Listening("proxy.py", *words, "--recut", "7") as proxy, connection(proxy.port) as made:
                made.sendall(feksroum.encode(0, feksroum.ProtocolHeader()) + feksroum.encode(1, feksroum.Body(b"x")))
                self.assertIn("client: BadContent at byte 8: a body outside of a message", proxy.line())

    def test_proxy_drops_messages(self):
        """Of a queue, or by routing key: what else is published arrives."""
        with Listening("server.py", "--port", "0") as server:
            words = "--broker", f"localhost:{server.port}", "--listen", "0"
            for more, answer in (
                (["--drop-queue", "kept"], Basic.GetEmpty), (["--drop-queue", "other"], Basic.GetOk), (["--drop-key", "kept"], Basic.GetEmpty),
                (["--drop-key", "kept.*"], Basic.GetOk), (["--drop-key", "#"], Basic.GetEmpty),
                (["--drop-key", "other", "--keep", "keep", "--recut", "2"], Basic.GetOk),
            ):
                with Listening("proxy.py", *words, *more) as proxy:
                    self.check_get(proxy.port, answer)

    def test_brokers_without_a_port(self):
        for name, more in (("proxy.py", []), ("recorder.py", ["/dev/null"])):
            with Listening(name, "--broker", "localhost", "--listen", "0", *more) as program:
                self.assertTrue(program.port.isdigit(), name)

    def test_a_publish_is_not_delayed(self):
        """It is sent at once: no piece of it waits until the peer has acknowledged another."""
        with Listening("server.py", "--port", "0") as server:
            made = Client("localhost", int(server.port), "guest", "guest", "/")
            self.assertTrue(made._socket.getsockopt(socket.IPPROTO_TCP, socket.TCP_NODELAY))
            with mock.patch.object(made, "_socket", mock.Mock(wraps=made._socket)) as watched:
                made.publish("q", b"hello", feksroum.Properties())
                self.assertEqual(watched.sendall.call_count, 2)
            made._socket.close()

    def test_proxy_refuses_other_words(self):
        for more, why in ((["--keep", "keep", "keep,all"], "'keep,all' is no rule"), (["--recut", "0"], "the size of a piece")):
            words = [sys.executable, os.path.join(PROGRAMS, "proxy.py"), *more]
            done = subprocess.run(words, env=ENVIRONMENT, capture_output=True, text=True, timeout=30)
            self.assertEqual(done.returncode, 2)
            self.assertIn(f"proxy.py: error: {why}", done.stderr)

    def check_get(self, port, answer):
        """A message is published, and what is asked for then is answered so."""
        made = Client("localhost", int(port), "guest", "guest", "/")
        made.send(1, Basic.Publish(routing_key="kept"))
        made.send(1, feksroum.Properties(), b"hello")
        made.call(1, Basic.Get(queue="kept", no_ack=True), answer)
        made._socket.close()


def resident(process):
    """How much memory a process has, in bytes."""
    with open(f"/proc/{process}/statm") as file:
        return int(file.read().split()[1]) * os.sysconf("SC_PAGE_SIZE")


if __name__ == "__main__":
    unittest.main()
