"""Whole messages out of frames: their order, their faults, their bounds."""

import doctest
import io
import pickle
import random
import threading
import unittest

import feksroum
from feksroum import Assembler, Basic, Body, ContentFault, Message, Properties, _assembler

BEAT = bytes.fromhex("08000000000000ce")
OPENINGS = (Basic.Publish(routing_key="k"), Basic.Return(312, "NO_ROUTE"), Basic.Deliver("tag", 7), Basic.GetOk(7))


def framed(kind, channel, payload):
    return bytes([kind]) + channel.to_bytes(2, "big") + len(payload).to_bytes(4, "big") + payload + b"\xce"


def only(data):
    (frame,) = feksroum.frames(data)
    return frame


def opening(channel=1):
    return only(feksroum.encode(channel, Basic.Publish(routing_key="k")))


def header(channel=1, size=0, class_id=60):
    return only(feksroum.encode(channel, Properties(priority=1), body_size=size, class_id=class_id))


def body(payload, channel=1):
    return only(framed(3, channel, payload))


def frames_of(message, most):
    """The bytes of a message's frames, with bodies of at most so many bytes."""
    channel, octets = message.channel, message.body
    pieces = [octets[at : at + most] for at in range(0, len(octets), most)]
    return [
        feksroum.encode(channel, message.opening), feksroum.encode(channel, message.properties, body_size=len(octets)),
        *(framed(3, channel, piece) for piece in pieces),
    ]


class Messages(unittest.TestCase):
    def test_documents(self):
        found = doctest.testmod(_assembler)
        self.assertEqual((found.failed, found.attempted > 2), (0, True))

    def test_each_opening(self):
        for method in OPENINGS:
            message = Message(3, method, Properties("text/plain", headers={"a": 1}), b"hello")
            (found,) = feksroum.messages(message.encode(frame_max=100))
            self.assertEqual(found, message)
            self.assertEqual(found.encode(), message.encode())
            self.assertIs(type(found.body), bytes)
            self.assertNotEqual(found, Message(4, method, message.properties, b"hello"))
        self.assertEqual(repr(Message(1, Basic.GetOk(7), Properties(), b"hi")), f"<Message on channel 1: {Basic.GetOk(7)}, Properties(), 2 bytes>")

    def test_without_a_body(self):
        (found,) = feksroum.messages(feksroum.encode(1, Basic.Publish()) + feksroum.encode(1, Properties(), b""))
        self.assertEqual(found.body, b"")

    def test_empty_bodies(self):
        found = [Assembler().messages([opening(), header(size=2), *map(body, parts)]) for parts in ((b"hi",), (b"", b"h", b"", b"i"))]
        self.assertEqual([message.body for messages in found for message in messages], [b"hi", b"hi"])

    def test_other_frames_are_passed(self):
        assembler = Assembler()
        for data in (BEAT, b"AMQP\0\0\x09\x01", feksroum.encode(1, Basic.Ack(1)), framed(8, 5, b"x")):
            frame = only(data)
            self.assertIs(assembler.push(frame), frame)
        self.assertIsNone(assembler.push(opening(5)))
        self.assertEqual(assembler.push(only(framed(8, 5, b"x"))), only(framed(8, 5, b"x")))
        self.assertEqual(assembler.open, 1)

    def test_many_channels(self):
        """1,000 channels at once, in any order and cut anywhere: each message comes back whole, and each channel's in their order."""
        pick = random.Random(5)
        sent, queues = {}, []
        for channel in pick.sample(range(1, 65536), 1000):
            bodies = [pick.randbytes(pick.choice([0, 1, 80])) for _ in range(3)]
            sent[channel] = [Message(channel, pick.choice(OPENINGS), Properties(priority=k), body) for k, body in enumerate(bodies)]
            queues.append([frame for message in sent[channel] for frame in frames_of(message, pick.choice([7, 40, 100]))][::-1])
        data = bytearray()
        while queues:
            place = pick.randrange(len(queues))
            data += queues[place].pop()
            if not queues[place]:
                queues[place] = queues[-1]
                queues.pop()
        cuts = sorted(pick.sample(range(len(data)), 500))
        pieces = [bytes(data[start:end]) for start, end in zip([0, *cuts], [*cuts, len(data)])]
        reader = feksroum.MessageReader()
        fed = [message for piece in pieces for message in reader.feed(piece)]
        reader.close()
        self.assertEqual(fed, list(feksroum.messages(bytes(data))))
        for source in (data, pieces, iter(pieces), io.BytesIO(data)):
            found = {}
            for message in feksroum.messages(source):
                found.setdefault(message.channel, []).append(message)
            self.assertEqual(found, sent)


class Faults(unittest.TestCase):
    def refused(self, fault, *frames, max_body=100, channel=1):
        """The last of some frames is refused so; its channel stays at fault until it is forgotten, and another goes on."""
        assembler = Assembler(max_body)
        for frame in frames[:-1]:
            assembler.push(frame)
        for wanted in (fault, ContentFault.FAULTED):
            with self.assertRaises(feksroum.BadContent) as caught:
                assembler.push(frames[-1])
            self.assertEqual((caught.exception.fault, caught.exception.channel, caught.exception.status), (wanted, channel, 24))
        self.assertEqual((assembler.open, assembler.held), (0, 0))
        (message,) = Assembler.messages(assembler, [opening(9), header(9)])
        self.assertEqual(message.channel, 9)
        assembler.forget(channel)
        (message,) = assembler.messages([opening(channel), header(channel, 2), body(b"hi", channel)])
        self.assertEqual(message.body, b"hi")

    def test_each(self):
        self.refused(ContentFault.UNEXPECTED_METHOD, opening(), opening())
        self.refused(ContentFault.UNEXPECTED_HEADER, header())
        self.refused(ContentFault.UNEXPECTED_HEADER, opening(), header(size=2), header(size=2))
        self.refused(ContentFault.UNEXPECTED_BODY, body(b"x"))
        self.refused(ContentFault.UNEXPECTED_BODY, opening(), body(b"x"))
        self.refused(ContentFault.WRONG_CLASS, opening(), header(class_id=50))
        self.refused(ContentFault.BODY_TOO_LARGE, opening(), header(size=101))
        self.refused(ContentFault.BODY_OVERRUN, opening(7), header(7, 2), body(b"abc", 7), channel=7)

    def test_names(self):
        names = [str(fault) for fault in ContentFault]
        self.assertEqual(names, [
            "UnexpectedMethod", "UnexpectedHeader", "UnexpectedBody", "WrongClass", "BodyTooLarge", "BodyOverrun", "Faulted"])

    def test_words(self):
        with self.assertRaises(feksroum.BadContent) as caught:
            list(feksroum.messages(BEAT + framed(3, 7, b"x")))
        error = caught.exception
        text = "BadContent at byte 8: a body outside of a message, or before the content header (UnexpectedBody), on channel 7."
        self.assertEqual((str(error), error.used), (text, 8))
        for number, words in ((1, "The input ends inside a message."), (3, "The input ends inside a message: 3 open.")):
            self.assertEqual(str(feksroum.OpenContent(9, number)), f"OpenContent at byte 9: {words}")
        for one in (error, feksroum.OpenContent(9, 3)):
            same = pickle.loads(pickle.dumps(one))
            self.assertEqual((type(same), vars(same)), (type(one), vars(one)))
        self.assertTrue(issubclass(feksroum.BadContent, feksroum.ContentError) and issubclass(feksroum.ContentError, feksroum.Error))

    def test_the_end(self):
        data = opening().bytes.tobytes() + header(size=2).bytes.tobytes()
        for source in (data, [data[:9], data[9:]]):
            with self.assertRaises(feksroum.OpenContent) as caught:
                list(feksroum.messages(source))
            self.assertEqual((caught.exception.used, caught.exception.messages, caught.exception.status), (len(data), 1, 25))
        for source in (data + b"\3", [data, b"\3"]):
            self.assertRaises(feksroum.CutShort, list, feksroum.messages(source))
        self.assertRaises(feksroum.UnknownFrameType, list, feksroum.messages([data, b"\x09", BEAT]))
        self.assertRaises(TypeError, feksroum.messages, "text")
        self.assertRaises(TypeError, list, feksroum.messages([1, 2]))


class Reader(unittest.TestCase):
    def test_a_fault_stays(self):
        data, reader = opening().bytes.tobytes() + header().bytes.tobytes(), feksroum.MessageReader()
        self.assertEqual([message.channel for message in reader.feed(data + framed(3, 1, b"x") + data)], [1])
        self.assertEqual((reader.feed(data), type(reader.error)), ([], feksroum.BadContent))
        raised = []
        for _ in range(2):
            with self.assertRaises(feksroum.BadContent) as caught:
                reader.close()
            raised.append(caught.exception)
        self.assertIsNot(*raised)
        self.assertEqual(raised[0].used, len(data))

    def test_the_end(self):
        data = opening().bytes.tobytes()
        for octets, error in ((data, feksroum.OpenContent), (data + b"\3", feksroum.CutShort), (data + b"\x09", feksroum.UnknownFrameType)):
            reader = feksroum.MessageReader(assembler=Assembler(max_open=100))
            self.assertEqual(reader.feed(octets), [])
            self.assertRaises(error, reader.close)
            self.assertEqual(repr(reader), "<MessageReader by <Assembler: 1 messages open, 10 bytes held>>")
        reader = feksroum.MessageReader(assembler=Assembler(max_open=1))
        reader.feed(data)
        self.assertRaises(feksroum.AssemblerFull, reader.close)

    def test_threads(self):
        """Each channel is pushed by a thread of its own."""
        assembler, found = Assembler(), []

        def run(channel):
            for _ in range(50):
                for frame in (opening(channel), header(channel, 2), body(b"hi", channel)):
                    pushed = assembler.push(frame)
                found.append(pushed.channel)

        threads = [threading.Thread(target=run, args=(channel,)) for channel in range(1, 5)]
        for thread in threads:
            thread.start()
        for thread in threads:
            thread.join()
        self.assertEqual((sorted(found), assembler.held), (sorted([1, 2, 3, 4] * 50), 0))


class Bounds(unittest.TestCase):
    def test_a_frame_that_passes_the_bound_changes_nothing(self):
        first, second = opening(1), opening(2)
        assembler = Assembler(max_open=len(first.payload) + 21)
        self.assertIsNone(assembler.push(first))
        self.assertIsNone(assembler.push(header(1, 6)))
        held = assembler.held
        self.assertEqual(held, len(first.payload) + len(header(1, 6).payload))
        for _ in range(2):
            with self.assertRaises(feksroum.AssemblerFull) as caught:
                assembler.push(second)
            self.assertIs(caught.exception.frame, second)
            self.assertEqual((assembler.open, assembler.held, caught.exception.used), (1, held, first.bytes.nbytes + header().bytes.nbytes))
        self.assertIs(type(assembler.push(body(b"123456"))), Message)
        self.assertEqual((assembler.open, assembler.held), (0, 0))
        self.assertIsNone(assembler.push(second))
        self.assertEqual(repr(assembler), f"<Assembler: 1 messages open, {len(second.payload)} bytes held>")

    def test_frames_that_are_held_by_nobody_pass_the_bound(self):
        assembler = Assembler(max_open=0)
        self.assertEqual(assembler.push(only(BEAT)), only(BEAT))
        self.assertRaises(feksroum.AssemblerFull, assembler.push, opening())
        self.assertRaises(feksroum.BadContent, assembler.push, body(b"x"))
        self.assertRaises(feksroum.AssemblerFull, list, feksroum.messages(opening().bytes, max_open=3))

    def test_forget_frees(self):
        assembler = Assembler()
        assembler.push(opening(3))
        assembler.push(opening(4))
        self.assertEqual((assembler.open, assembler.held), (2, 2 * len(opening().payload)))
        assembler.forget(3)
        self.assertEqual((assembler.open, assembler.held), (1, len(opening().payload)))
        self.assertRaises(feksroum.OpenContent, assembler.close)
        assembler.forget(4)
        assembler.forget(5)
        assembler.close()

    def test_arguments(self):
        self.assertRaises(ValueError, Assembler, 2**64)
        self.assertRaises(ValueError, Assembler, -1)
        self.assertRaises(ValueError, Assembler, max_open=-1)

    def test_a_frame_that_was_encoded(self):
        (frame,) = feksroum.frames(feksroum.encode(1, Body(b"x")))
        self.assertRaises(feksroum.BadContent, Assembler().push, frame)


if __name__ == "__main__":
    unittest.main()
