"""Filtering and recutting: the repository's examples, made streams as the program does them, inputs of each kind."""

import copy
import doctest
import importlib
import io
import os
import pickle
import random
import socket
import subprocess
import sys
import tempfile
import time
import unittest

import feksroum
from feksroum import Filter, Recutter, Rules, _library

HERE = os.path.dirname(os.path.abspath(__file__))
sys.path[:0] = [HERE, os.path.join(HERE, "..", "..")]
from test_examples import read  # noqa: E402

import contents  # noqa: E402

#: The program that filters and recuts, where it is built.
FEKSROUM = os.environ.get("FEKSROUM_PROGRAM")
BEAT = bytes.fromhex("08000000000000ce")
MESSAGE = feksroum.encode(1, feksroum.Basic.Publish(routing_key="k")) + feksroum.encode(1, feksroum.Properties(), b"hello")


def outcome(function, source, argument):
    """The status and what was written."""
    return contents.written(function, source, argument)


class Examples(unittest.TestCase):
    def test_examples(self):
        done = 0
        for line in read("statuses").decode().splitlines():
            name, command, status, *words = line.split(" ")
            if command not in ("filter", "recut"):
                continue
            data = read(f"{name}.{command}")
            with self.subTest(name):
                if status == "2":
                    self.assertRaises(ValueError, Rules if command == "filter" else Recutter, words[0] if command == "filter" else 0)
                elif command == "filter":
                    self.assertEqual(outcome(feksroum.filter, data, Rules(*words)), (int(status), read(f"{name}.out")))
                else:
                    self.assertEqual(outcome(feksroum.recut, data, int(words[0])), (int(status), read(f"{name}.out")))
            done += 1
        self.assertEqual(done, 10)

    def test_documents(self):
        for name in ("_rules", "_filter", "_recut"):
            found = doctest.testmod(importlib.import_module(f"feksroum.{name}"))
            self.assertEqual((found.failed, found.attempted > 1), (0, True))


class MadeStreams(unittest.TestCase):
    def test_all_is_kept(self):
        """What keeps all, and cuts nothing else, writes as `canonicalize` does."""
        pick = random.Random(3)
        for _ in range(100):
            data = b"".join(contents.interleaved(pick, range(5), 3, 1000))
            wanted = feksroum.canonicalize(data)
            self.assertEqual(feksroum.filter(data, Rules("keep")), wanted)
            whole = feksroum.recut(data, 2**32 - 1)
            self.assertEqual(list(feksroum.messages(whole)), list(feksroum.messages(data)))
            size = pick.choice([1, 3, 500])
            cut = feksroum.recut(data, size)
            self.assertEqual(list(feksroum.messages(cut)), list(feksroum.messages(data)))
            self.assertEqual(feksroum.recut(cut, size), cut)

    @unittest.skipUnless(FEKSROUM, "FEKSROUM_PROGRAM names no program")
    def test_as_the_program(self):
        pick = random.Random(4)
        for k in range(150):
            data, sizes = contents.made(pick, k == 149)
            words, size, *_ = contents.CHOICES[k % len(contents.CHOICES)]
            at = [0, *(sum(sizes[:n]) for n in range(len(sizes))), len(data)]
            pieces = [data[start:end] for start, end in zip(at, at[1:])]
            for function, argument, command in (
                (feksroum.filter, Rules(*words), ["filter", *words]), (feksroum.recut, size, ["recut", str(size)])
            ):
                done = subprocess.run([FEKSROUM, *command], input=data, capture_output=True, timeout=60)
                for source in (data, pieces):
                    self.assertEqual(outcome(function, source, argument), (done.returncode, done.stdout), (command, data[:200].hex()))


class Inputs(unittest.TestCase):
    def check(self, source):
        self.assertEqual(feksroum.filter(source, Rules("keep")), MESSAGE)

    def test_each(self):
        pieces = [MESSAGE[:3], b"", MESSAGE[3:40], bytearray(MESSAGE[40:41]), memoryview(MESSAGE)[41:]]
        for source in (MESSAGE, bytearray(MESSAGE), memoryview(MESSAGE), pieces, iter(pieces), tuple(pieces), io.BytesIO(MESSAGE)):
            self.check(source)
        for source in (b"", [], [b""], io.BytesIO()):
            self.assertEqual(feksroum.recut(source, 3), b"")

    def test_files(self):
        with tempfile.NamedTemporaryFile() as file:
            file.write(MESSAGE)
            file.flush()
            for buffering in (0, -1):
                with open(file.name, "rb", buffering=buffering) as source:
                    self.check(source)
            with open(file.name, encoding="latin-1") as source:
                self.assertRaises(TypeError, feksroum.filter, source, Rules("keep"))

    def test_what_came_is_written_at_once(self):
        ours, theirs = socket.socketpair()
        with ours, theirs, theirs.makefile("rb") as source:
            ours.sendall(MESSAGE + BEAT[:3])
            found = Recutter(2).over(source)
            self.assertEqual(next(found), feksroum.recut(MESSAGE, 2))
            ours.sendall(BEAT[3:])
            ours.close()
            self.assertEqual(list(found), [BEAT])

    def test_a_file_that_does_not_block(self):
        reading, writing = os.pipe()
        os.set_blocking(reading, False)
        with os.fdopen(reading, "rb", buffering=0) as source, self.assertRaises(BlockingIOError):
            feksroum.filter(source, Rules("keep"))
        os.close(writing)

    def test_others(self):
        for source in ("text", 7, [7], None):
            self.assertRaises(TypeError, feksroum.filter, source, Rules("keep"))


class Streams(unittest.TestCase):
    def test_a_fault_stays(self):
        for stream in (Filter(Rules("keep")), Recutter(2)):
            self.assertEqual(stream.feed(MESSAGE[:-3]), feksroum.recut(MESSAGE, 9)[: len(MESSAGE) - 13])
            self.assertIsNone(stream.error)
            stream.feed(MESSAGE[-3:] + MESSAGE[-13:] + MESSAGE)
            self.assertEqual(stream.feed(MESSAGE), b"")
            raised = []
            for _ in range(2):
                with self.assertRaises(feksroum.BadContent) as caught:
                    stream.close()
                raised.append(caught.exception)
            self.assertIsNot(*raised)
            self.assertEqual((raised[0].used, raised[0].fault), (len(MESSAGE), feksroum.ContentFault.UNEXPECTED_BODY))

    def test_a_fault_of_a_frame_comes_before_its_turn(self):
        broken = bytearray(MESSAGE[-13:])
        broken[-1] = 0
        for data, error in ((bytes(broken), feksroum.BadFrameEnd), (MESSAGE[-13:] + b"\x09", feksroum.BadContent)):
            self.assertRaises(error, feksroum.filter, data, Rules("keep"))

    def test_the_end(self):
        with self.assertRaises(feksroum.OpenContent) as caught:
            feksroum.filter(BEAT + MESSAGE[:-13], Rules("drop,kind=beat", "keep"))
        self.assertEqual((caught.exception.written, caught.exception.used), (MESSAGE[:-13], len(BEAT + MESSAGE[:-13])))
        with self.assertRaises(feksroum.CutShort) as caught:
            feksroum.recut(MESSAGE[:-1], 2)
        self.assertEqual((caught.exception.used, caught.exception.needed), (len(MESSAGE) - 13, 13))

    def test_limits(self):
        self.assertRaises(feksroum.TooLarge, feksroum.filter, MESSAGE, Rules("keep"), 4)
        for size in (0, -1, 2**32):
            self.assertRaises(ValueError, Recutter, size)
        for limit in (-1, 2**32):
            self.assertRaises(ValueError, Filter, Rules("keep"), limit)

    def test_repr(self):
        stream = Filter(Rules("keep"))
        stream.feed(MESSAGE[:30])
        self.assertEqual(repr(stream), "<Filter by Rules('keep'): 1 messages open>")
        self.assertEqual(repr(Recutter(7)), "<Recutter into 7 bytes: 0 messages open>")

    def test_large_bodies(self):
        message = feksroum.Message(1, feksroum.Basic.Publish(), feksroum.Properties(), os.urandom(1_000_000))
        data = message.encode()
        for size in (10_000, 131_064, 2**31):
            (found,) = feksroum.messages(feksroum.recut(data, size), max_payload=2**32 - 1)
            self.assertEqual(found, message)
        self.assertEqual(feksroum.recut(feksroum.recut(data, 1000), 131_064), data)

    def test_small_pieces(self):
        """Of many pieces each costs the same."""
        data = feksroum.Message(1, feksroum.Basic.Publish(), feksroum.Properties(), bytes(700_000)).encode()
        began = time.process_time()
        cut = feksroum.recut(data, 3)
        self.assertLess(time.process_time() - began, 5)
        self.assertEqual(feksroum.recut(cut, 131_064), data)

    def test_pieces_as_the_library_has_them(self):
        pick = random.Random(9)
        for _ in range(200):
            size, held, length, ends = pick.choice((1, 2, 3, 7, 100)), 0, pick.randrange(30), pick.random() < 0.5
            held = pick.randrange(size)
            cut = _library.SMALL.feksroum_recut(size, held, length, ends)
            octets = bytes(range(held + length))
            pieces = [_library.SMALL.feksroum_piece_at(size, held, length, ends, k) for k in range(cut.pieces)]
            wanted = [octets[: p.held_length] + octets[held + p.start : held + p.start + p.length] for p in pieces]
            found = Recutter(size)._frames(1, octets[: len(octets) - cut.left])
            self.assertEqual([bytes(frame.payload) for frame in feksroum.frames(found)], wanted)


class RulesAndWords(unittest.TestCase):
    def test_decide(self):
        rules = Rules("drop,channel=1-5,class=60,method=40", "keep,channel=1")
        found = [rules.decide(frame) for frame in feksroum.frames(MESSAGE + BEAT)]
        self.assertEqual(found, [False, True, True, False])

    def test_words(self):
        rules = Rules("drop,kind=beat", "keep")
        self.assertEqual((repr(rules), rules.words), ("Rules('drop,kind=beat', 'keep')", ("drop,kind=beat", "keep")))
        self.assertEqual((rules, hash(rules)), (Rules(*rules.words), hash(Rules(*rules.words))))
        self.assertNotEqual(rules, Rules("keep"))

    def test_copies(self):
        rules = Rules("drop,channel=1-5", "keep")
        self.assertEqual(pickle.loads(pickle.dumps(rules)), rules)
        self.assertEqual(copy.deepcopy(rules).decide(next(feksroum.frames(BEAT))), True)

    def test_words_that_are_none(self):
        for word in ("", "keep,class=060", "keep ", "kéep", "\ud800", "keep,channel=5-1", "Keep"):
            with self.assertRaises(feksroum.BadRule) as caught:
                Rules("keep", word)
            self.assertEqual((caught.exception.word, str(caught.exception)), (word, f"{word!r} is no rule"))
        for word in (7, b"keep", None, ["keep"]):
            self.assertRaises(TypeError, Rules, word)

    def test_how_many(self):
        Rules(*["keep"] * 64)
        for count in (0, 65):
            with self.assertRaises(ValueError) as caught:
                Rules(*["keep"] * count)
            self.assertEqual(str(caught.exception), f"1 to 64 rules are wanted, and {count} were given")


if __name__ == "__main__":
    unittest.main()
