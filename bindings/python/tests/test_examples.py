"""The repository's examples, each as the program does it, and streams in pieces."""

import os
import threading
import unittest

import feksroum

FOLDER = os.path.join(os.path.dirname(os.path.abspath(__file__)), "..", "..", "..", "examples")


def read(name):
    with open(os.path.join(FOLDER, name), "rb") as file:
        return file.read()


def outcome(data, level):
    """What is written, and the fault."""
    try:
        return feksroum.canonicalize(data, level=level), None
    except feksroum.Error as error:
        return error.written, error


def lines_outcome(convert, data):
    """The same of dumping and undumping."""
    try:
        return convert(data), None
    except feksroum.Error as error:
        return error.written, error


def frames_fault(data):
    """The fault that going from frame to frame finds."""
    try:
        for frame in feksroum.frames(data):
            assert len(frame.payload) <= feksroum.MAX_PAYLOAD
    except feksroum.Error as error:
        return error
    return None


def status(error):
    return error.status if error else 0


class Examples(unittest.TestCase):
    def test_examples(self):
        done = 0
        for line in read("statuses").decode().splitlines():
            name, command, wanted, *_ = line.split(" ")
            if command not in ("raw", "lent", "hex", "tidy"):
                continue
            is_text = command in ("hex", "tidy")
            data = read(f"{name}.{command}")
            if is_text:
                data = bytes.fromhex(data.decode())
            written, error = outcome(data, feksroum.Level.TIDY if command == "tidy" else feksroum.Level.PLAIN)
            if is_text:
                written = f"{written.hex()}\n{type(error).__name__ + chr(10) if error else ''}".encode()
            with self.subTest(name):
                self.assertEqual((status(error), written), (int(wanted), read(f"{name}.out")))
                if command != "tidy":
                    self.assertEqual(status(frames_fault(data)), int(wanted))
            done += 1
        self.assertGreater(done, 20)


class Lines(unittest.TestCase):
    def test_examples(self):
        done = 0
        for line in read("statuses").decode().splitlines():
            name, command, wanted, *_ = line.split(" ")
            if command not in ("dump", "undump"):
                continue
            data, out = read(f"{name}.{command}"), read(f"{name}.out")
            with self.subTest(name):
                if command == "dump":
                    text, error = lines_outcome(feksroum.dump, data)
                    self.assertEqual((status(error), text), (int(wanted), out.decode()))
                    self.assertEqual(feksroum.undump(text), outcome(data, feksroum.Level.PLAIN)[0])
                else:
                    written, error = lines_outcome(feksroum.undump, data)
                    self.assertEqual((status(error), written), (int(wanted), out))
            done += 1
        self.assertGreater(done, 3)

    def test_faults(self):
        beat = bytes.fromhex("08000000000000ce")
        with self.assertRaises(feksroum.BadFrameEnd) as caught:
            feksroum.dump(beat + bytes.fromhex("0300010000000007"))
        self.assertEqual(caught.exception.written, "beat\n")
        bad_text, cut_short = feksroum.BadText, feksroum.CutShort
        for text, error in (("beat\nbeat 0\n", bad_text), (b"beat\nbeat", cut_short), ("beat\né\n", bad_text)):
            with self.assertRaises(error) as caught:
                feksroum.undump(text)
            self.assertEqual(caught.exception.written, beat)
        self.assertEqual((feksroum.dump(b""), feksroum.undump("")), ("", b""))

    def test_limit(self):
        self.assertRaises(feksroum.TooLarge, feksroum.dump, bytes.fromhex("030001000000026869ce"), max_payload=1)
        self.assertRaises(feksroum.BadText, feksroum.undump, "body 1 x6869\n", max_payload=1)

    def test_long_line(self):
        body = b"\x03\0\1" + (100_000).to_bytes(4, "big") + bytes(100_000) + b"\xce"
        self.assertEqual(feksroum.undump(feksroum.dump(body)), body)


class Streams(unittest.TestCase):
    def test_pieces(self):
        data, wanted = read("raw/client_stream.raw"), read("raw/client_stream.out")
        for size in (1, 7, 8, 100, 4096):
            stream = feksroum.Canonicalizer()
            pieces = [stream.feed(data[at : at + size]) for at in range(0, len(data), size)]
            stream.close()
            self.assertEqual(b"".join(pieces), wanted)

    def test_end_inside_a_frame(self):
        stream = feksroum.Canonicalizer()
        self.assertEqual(stream.feed(b"\x08\0\0"), b"")
        self.assertRaises(feksroum.CutShort, stream.close)

    def test_fault_stays(self):
        stream = feksroum.Canonicalizer()
        self.assertEqual(stream.feed(bytes.fromhex("08000000000000ce 04")), bytes.fromhex("08000000000000ce"))
        self.assertEqual(stream.feed(bytes.fromhex("08000000000000ce")), b"")
        self.assertRaises(feksroum.UnknownFrameType, stream.close)

    def test_buffers(self):
        data = bytes.fromhex("030001000000026869ce")
        for form in (data, bytearray(data), memoryview(data), memoryview(b"x" + data)[1:]):
            (frame,) = feksroum.frames(form)
            self.assertEqual((frame.type, frame.channel, bytes(frame.payload)), (feksroum.FrameType.BODY, 1, b"hi"))
            self.assertEqual(feksroum.canonicalize(form), data)
        self.assertEqual(list(feksroum.frames(b"")), [])
        self.assertEqual(feksroum.canonicalize(b""), b"")

    def test_check(self):
        stands = feksroum.check(feksroum.FrameType.METHOD, bytes.fromhex("0055000aff"))
        self.assertEqual(stands, (85, 10, 0, False, False))
        self.assertRaises(feksroum.UnknownMethod, feksroum.check, 1, bytes.fromhex("0055000c"))

    def test_large_table(self):
        keys = [b"%05d" % number for number in range(9000)]
        entries = b"".join(bytes([5]) + key + b"V" for key in reversed(keys))
        payload = b"\0\x32\0\x0a\0\0\0\0" + len(entries).to_bytes(4, "big") + entries
        data = b"\1\0\1" + len(payload).to_bytes(4, "big") + payload + b"\xce"
        (frame,) = feksroum.frames(feksroum.canonicalize(data))
        self.assertEqual(bytes(frame.payload[12:]), b"".join(bytes([5]) + key + b"V" for key in keys))

    def test_limit(self):
        self.assertRaises(feksroum.TooLarge, feksroum.canonicalize, bytes.fromhex("030001000000026869ce"), max_payload=1)
        self.assertRaises(ValueError, feksroum.canonicalize, b"", max_payload=2**32)
        self.assertRaises(ValueError, feksroum.canonicalize, b"", level=2)

    def test_threads(self):
        data, wanted = read("raw/server_stream.raw"), read("raw/server_stream.out")
        found = []
        run = lambda: found.append(all(feksroum.canonicalize(data) == wanted for _ in range(50)))
        threads = [threading.Thread(target=run) for _ in range(4)]
        for thread in threads:
            thread.start()
        for thread in threads:
            thread.join()
        self.assertEqual(found, [True] * 4)


if __name__ == "__main__":
    unittest.main()
