#!/usr/bin/env python3
"""Stands between clients and a broker, and passes on the canonical bytes of what each side sends.

    proxy.py [--broker HOST[:PORT]] [--listen PORT] [--keep RULE..] [--drop-key KEY] [--drop-queue NAME] [--recut N]

With --keep, whole messages are kept or dropped by rules. --drop-key drops those whose routing key a binding key takes, as 'orders.*', both
ways; --drop-queue those that are published to a queue by its name. With --recut, bodies are cut into frames of N bytes.

A client that waits for the confirm of a publish that is dropped waits for ever: the broker has never seen it, and counts without it. A
peer that reads slowly is waited for. A side whose bytes are at fault is told so by connection.close, as is the other, and both are
closed; what came before the fault is passed on.
"""

import argparse
import asyncio
import contextlib

import feksroum
from feksroum import Basic, Connection


class Drop:
    """A stage that drops whole messages by the methods that open them. What it is fed are whole canonical frames in turn."""

    error = None

    def __init__(self, drops):
        self._drops, self._reader, self._dropped = drops, feksroum.FrameReader(), {}
        self.close = self._reader.close

    def feed(self, data):
        return b"".join(frame.bytes for frame in self._reader.feed(data) if not self._is_dropped(frame))

    def _is_dropped(self, frame):
        if frame.method is not None and frame.method.carries_content:
            self._dropped[frame.channel] = self._drops(frame.method)
        elif frame.type not in (feksroum.FrameType.HEADER, feksroum.FrameType.BODY):
            return False
        return self._dropped.get(frame.channel, False)


class Way:
    """One direction of a connection. Each stage is fed with what the one before it wrote, which is whole frames alone: so between
    two writes another frame may be written."""

    def __init__(self, name, reader, writer, stages):
        self.name, self._reader, self.writer = name, reader, writer
        self._stages = stages
        self.has_begun = self.has_ended = False

    async def run(self):
        """Passes on what comes until it ends, and returns the fault that ended it, or None."""
        while data := await self._reader.read(65536):
            for stage in self._stages:
                data = stage.feed(data)
            self.has_begun = self.has_begun or bool(data)
            self.writer.write(data)
            await self.writer.drain()
            if any(stage.error for stage in self._stages):
                break
        try:
            for stage in self._stages:
                stage.close()
        except feksroum.Error as error:
            return str(error)
        if self.writer.can_write_eof():
            self.writer.write_eof()
            self.has_ended = True
        return None


async def close(writer, reason):
    """Says why, and closes; a peer that does not read is waited for a moment."""
    with contextlib.suppress(OSError, asyncio.TimeoutError):
        if reason:
            writer.write(feksroum.encode(0, Connection.Close(reply_code=501, reply_text=f"FRAME_ERROR - {reason}"[:255])))
        await asyncio.wait_for(writer.drain(), 2)
    writer.close()


class Proxy:
    """Connections to one broker, and what stands in each of them."""

    def __init__(self, host, port, makers):
        self._broker = host, port
        self._makers = makers

    async def serve(self, client_reader, client_writer):
        """One connection, until both sides have ended or one is at fault."""
        try:
            broker_reader, broker_writer = await asyncio.open_connection(*self._broker)
        except OSError as error:
            print(f"no broker: {error}", flush=True)
            client_writer.close()
            return
        ends = ("client", client_reader, broker_writer), ("broker", broker_reader, client_writer)
        ways = [Way(*end, [make() for make in self._makers]) for end in ends]
        running = {asyncio.ensure_future(way.run()): way for way in ways}
        reason, waiting = "", set(running)
        while waiting and not reason:
            done, waiting = await asyncio.wait(waiting, return_when=asyncio.FIRST_COMPLETED)
            for task in done:
                fault = task.exception() or task.result()
                if fault:
                    print(f"{running[task].name}: {fault}", flush=True)
                    reason = str(fault)
        for task in waiting:
            task.cancel()
        for way in ways:
            await close(way.writer, reason if way.has_begun and not way.has_ended else "")


def makers_of(words):
    """What makes the stages that each direction goes through. Raises ValueError for words that are no rules, and no size."""
    rules = feksroum.Rules(*words.keep or ["keep"])
    makers = [(lambda: feksroum.Filter(rules)) if words.keep else feksroum.Canonicalizer]
    if words.drop_key is not None:
        makers.append(lambda: Drop(lambda method: feksroum.key_matches(words.drop_key, method.routing_key)))
    if words.drop_queue is not None:
        place = ["", words.drop_queue]
        makers.append(lambda: Drop(lambda method: isinstance(method, Basic.Publish) and [method.exchange, method.routing_key] == place))
    if words.recut is not None:
        feksroum.Recutter(words.recut)
        makers.append(lambda: feksroum.Recutter(words.recut))
    return makers


async def main():
    parser = argparse.ArgumentParser(description=__doc__.splitlines()[0])
    parser.add_argument("--broker", type=lambda text: f"{text}:5672".split(":")[:2], default="localhost", metavar="HOST[:PORT]")
    parser.add_argument("--listen", type=int, default=5673, metavar="PORT")
    parser.add_argument("--keep", nargs="+", default=[], metavar="RULE", help="as `drop,class=60,method=40 keep`")
    parser.add_argument("--drop-key", metavar="KEY", help="a client that waits for the confirm of what is dropped waits for ever")
    parser.add_argument("--drop-queue", metavar="NAME")
    parser.add_argument("--recut", type=int, metavar="N")
    words = parser.parse_args()
    try:
        makers = makers_of(words)
    except ValueError as error:
        parser.error(str(error))
    server = await asyncio.start_server(Proxy(*words.broker, makers).serve, "localhost", words.listen)
    print("listening on port", server.sockets[0].getsockname()[1], flush=True)
    await server.serve_forever()


if __name__ == "__main__":
    with contextlib.suppress(KeyboardInterrupt):
        asyncio.run(main())
