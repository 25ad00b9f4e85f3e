"""What the module does where something is wrong: with the bytes, with its arguments, with the library, between threads."""

import os
import pickle
import threading
import time
import unittest
from unittest import mock

import feksroum
from feksroum import _canonical, _compiled, _frames, _library, _text

BEAT = bytes.fromhex("08000000000000ce")


class Answers:
    """A library all of whose functions return one result."""

    def __init__(self, **members):
        self._members = members

    def __getattr__(self, name):
        if name == "feksroum_scratch":
            return lambda length: 0
        return lambda *arguments: mock.Mock(used=0, needed=0, written=0, length=0, heads=0, nodes=0, **self._members)


class Statuses(unittest.TestCase):
    def test_unknown_status(self):
        answers = Answers(status=99)
        with mock.patch.object(_text, "SMALL", answers), mock.patch.object(_text, "LARGE", answers):
            for convert, argument in ((feksroum.dump, BEAT), (feksroum.undump, "beat\n")):
                with self.assertRaises(feksroum.UnknownStatus) as caught:
                    convert(argument)
                self.assertEqual(caught.exception.status, 99)
        with mock.patch.object(_canonical, "library_for", lambda length: answers):
            self.assertRaises(feksroum.UnknownStatus, feksroum.canonicalize, BEAT)
        in_python = mock.patch.object(_compiled, "native", None)
        with mock.patch.object(_frames, "_direct", lambda *arguments: _library.Batch(0, 0, 0, 0, 99, 0)), in_python:
            self.assertRaises(feksroum.UnknownStatus, list, feksroum.frames(BEAT))
        with mock.patch.object(_frames, "library_for", lambda length: answers):
            self.assertRaises(feksroum.UnknownStatus, feksroum.check, 1, b"")

    def test_out_of_memory(self):
        answers = Answers(status=3)
        with mock.patch.object(_text, "SMALL", answers), mock.patch.object(_text, "LARGE", answers):
            self.assertRaises(MemoryError, feksroum.dump, BEAT)

    def test_names(self):
        for error in (*feksroum._errors.ERRORS.values(), feksroum.BadContent, feksroum.OpenContent):
            name = _library.name_of(_library.SMALL.feksroum_name, error.status)
            self.assertEqual(name, error.__name__)

    def test_text_of_an_error(self):
        with self.assertRaises(feksroum.UnknownFrameType) as caught:
            feksroum.canonicalize(BEAT + b"\x09")
        self.assertEqual(str(caught.exception), "UnknownFrameType at byte 8: The first byte of a frame is none of 1, 2, 3, 8 and 65.")
        self.assertEqual(str(feksroum.UnknownStatus(3, 99)).split(":")[0], "UnknownStatus at byte 3")

    def test_copies(self):
        for error in (feksroum.CutShort(3, 9), feksroum.UnknownStatus(3, 99), feksroum.BadText(7)):
            same = pickle.loads(pickle.dumps(error))
            self.assertEqual((type(same), vars(same)), (type(error), vars(error)))

    def test_each_raise_is_a_new_exception(self):
        stream = feksroum.Canonicalizer()
        stream.feed(b"\x09")
        raised = []
        for _ in range(2):
            with self.assertRaises(feksroum.UnknownFrameType) as caught:
                stream.close()
            raised.append(caught.exception)
        self.assertIsNot(*raised)
        reader = feksroum.FrameReader()
        self.assertEqual(reader.feed(BEAT + b"\x09"), list(feksroum.frames(BEAT)))
        with self.assertRaises(feksroum.UnknownFrameType) as caught:
            reader.close()
        self.assertIsNot(caught.exception, reader.error)
        self.assertEqual(caught.exception.used, 8)


class Versions(unittest.TestCase):
    def test_version_of_the_library(self):
        major, minor = _library.WANTED
        self.assertEqual(feksroum.__version__.split(".")[:2], [str(major), str(minor)])
        with open(os.path.join(os.path.dirname(os.path.abspath(__file__)), "..", "pyproject.toml")) as file:
            self.assertIn(f'version = "{feksroum.__version__}"\n', file.readlines())
        _library.check_version(major << 16 | minor << 8 | 9, "x")
        for other in ((major + 1, minor), (major, minor + 1)):
            with self.assertRaises(ImportError):
                _library.check_version(other[0] << 16 | other[1] << 8, "x")

    def test_library_without_a_function(self):
        with self.assertRaises(ImportError) as caught:
            _library._declare(object(), "some.so")
        self.assertIn("some.so has no function", str(caught.exception))

    def test_place(self):
        with mock.patch.dict(os.environ, FEKSROUM_LIBRARY="/there/x.so"):
            self.assertEqual(_library.place(), "/there/x.so")
        with mock.patch.dict(os.environ, clear=True), mock.patch("os.path.exists", lambda path: False):
            self.assertEqual(_library.place(), "libfeksroum.so.0")


class Arguments(unittest.TestCase):
    def test_check(self):
        for type in (257, 256, -1):
            self.assertRaises(ValueError, feksroum.check, type, b"")
        self.assertRaises(feksroum.UnknownFrameType, feksroum.check, 9, b"")

    def test_limits(self):
        for limit in (-1, 2**32):
            self.assertRaises(ValueError, feksroum.frames, BEAT, limit)
            self.assertRaises(ValueError, feksroum.FrameReader, limit)
            self.assertRaises(ValueError, feksroum.Canonicalizer, limit)
            self.assertRaises(ValueError, feksroum.dump, BEAT, limit)

    def test_text_that_is_no_ascii(self):
        for line in ("é\n", "beat\u20ac\n", "\ud800\n", "beat\xa0\n"):
            with self.assertRaises(feksroum.BadText) as caught:
                feksroum.undump("beat\n" + line)
            self.assertEqual((caught.exception.used, caught.exception.written), (5, BEAT))

    def test_no_bytes(self):
        for call in (feksroum.canonicalize, feksroum.dump, lambda data: list(feksroum.frames(data))):
            self.assertRaises(TypeError, call, "text")


class Streaming(unittest.TestCase):
    def test_bytes_of_frames(self):
        data = BEAT + b"AMQP\0\0\x09\x01" + bytes.fromhex("030001000000026869ce")
        self.assertEqual(b"".join(frame.bytes for frame in feksroum.frames(data)), data)
        self.assertEqual([frame.bytes.nbytes for frame in feksroum.frames(data)], [8, 8, 10])

    def test_bytearray_is_let_go(self):
        buffer = bytearray(BEAT * 3 + BEAT[:5])
        seen = []
        with self.assertRaises(feksroum.CutShort) as caught:
            for frame in feksroum.frames(buffer):
                seen.append(frame)
        del buffer[: caught.exception.used]
        buffer += BEAT[5:]
        self.assertEqual((len(seen), caught.exception.needed), (3, 8))
        self.assertEqual([bytes(frame.bytes) for frame in feksroum.frames(buffer)], [BEAT])
        self.assertEqual(bytes(seen[0].bytes), BEAT)

    def test_generator_that_is_left(self):
        buffer = bytearray(BEAT * 3)
        walk = feksroum.frames(buffer)
        next(walk)
        del buffer[:8]
        self.assertEqual(len(buffer), 16)

    def test_needed(self):
        for data, needed in ((b"\3\0\1\0\0\0\5hell", 13), (b"\3\0", 8), (b"\3\0\1\0\1\0\0", 65544)):
            with self.assertRaises(feksroum.CutShort) as caught:
                list(feksroum.frames(BEAT + data))
            self.assertEqual((caught.exception.used, caught.exception.needed), (8, needed))

    def test_pieces_of_a_reader(self):
        data = BEAT + b"AMQP\0\0\x09\x01" + b"\3\0\1" + (70_000).to_bytes(4, "big") + bytes(70_000) + b"\xce" + BEAT * 9000
        for size in (1, 7, 5000, len(data)):
            reader = feksroum.FrameReader()
            found = [frame for at in range(0, len(data), size) for frame in reader.feed(data[at : at + size])]
            reader.close()
            self.assertEqual(b"".join(frame.bytes for frame in found), data)
        reader.feed(b"\x08\0")
        with self.assertRaises(feksroum.CutShort) as caught:
            reader.close()
        self.assertEqual(caught.exception.used, len(data))

    def test_feed_is_linear(self):
        frame = b"\3\0\1" + (131_072).to_bytes(4, "big") + bytes(131_072) + b"\xce"
        for stream in (feksroum.Canonicalizer(), feksroum.FrameReader()):
            began = time.process_time()
            got = [stream.feed(frame[at : at + 16]) for at in range(0, len(frame), 16)]
            self.assertLess(time.process_time() - began, 0.5)
            self.assertEqual(sum(map(len, got)), len(frame) if isinstance(got[-1], bytes) else 1)

    def test_calls_are_few(self):
        frame = b"\3\0\1" + (1000).to_bytes(4, "big") + bytes(1000) + b"\xce"
        stream, calls = feksroum.Canonicalizer(), []
        real = stream._canonicalize
        stream._canonicalize = lambda data: calls.append(len(data)) or real(data)
        for at in range(len(frame)):
            stream.feed(frame[at : at + 1])
        self.assertEqual(calls, [1, 2, 3, 4, 5, 6, 7, 1008])

    def test_faults_come_at_once(self):
        """A fault is met with the byte that shows it, however short the pieces are."""
        for data, error in (
            (b"AMQQ", feksroum.BadProtocolHeader), (b"AMQP\1", feksroum.BadProtocolHeader), (b"\3\0\1\0\2\0\1", feksroum.TooLarge),
            (b"\x09", feksroum.UnknownFrameType),
        ):
            for stream in (feksroum.Canonicalizer(), feksroum.FrameReader()):
                for byte in data[:-1]:
                    stream.feed(bytes([byte]))
                    self.assertIsNone(stream.error)
                stream.feed(data[-1:])
                self.assertIsInstance(stream.error, error)
                self.assertRaises(error, stream.close)


class Threads(unittest.TestCase):
    def test_small_calls_keep_the_lock(self):
        self.assertIs(_library.library_for(1), _library.SMALL)
        self.assertIs(_library.library_for(_library.SMALL_INPUT + 1), _library.LARGE)
        flag = 4  # FUNCFLAG_PYTHONAPI of ctypes: the lock is kept
        self.assertTrue(_library.SMALL.feksroum_next._flags_ & flag)
        self.assertFalse(_library.LARGE.feksroum_next._flags_ & flag)

    def test_beside_a_busy_thread(self):
        """A thousand small calls do not wait for the interpreter's lock a thousand times, 5 ms each."""
        is_done = threading.Event()

        def work():
            while not is_done.is_set():
                sum(range(1000))

        busy = threading.Thread(target=work)
        busy.start()
        try:
            began = time.monotonic()
            for _ in range(1000):
                list(feksroum.frames(BEAT))
            self.assertLess(time.monotonic() - began, 2)
        finally:
            is_done.set()
            busy.join()

    def test_shared_canonicalizer(self):
        """Two threads that feed whole frames get whole frames, and the state stays one of a stream."""
        stream, found = feksroum.Canonicalizer(), []
        frame = b"\3\0\1" + (300).to_bytes(4, "big") + bytes(300) + b"\xce"

        def work():
            for _ in range(300):
                found.append(stream.feed(frame * 60))

        threads = [threading.Thread(target=work) for _ in range(4)]
        for thread in threads:
            thread.start()
        for thread in threads:
            thread.join()
        stream.close()
        self.assertEqual(set(found), {frame * 60})
        self.assertEqual(len(found), 1200)


if __name__ == "__main__":
    unittest.main()
