#!/usr/bin/env python3
"""The core of a server: greets, tunes, opens channels, and gives each message back to who asks for it.

    server.py [--host HOST] [--port PORT]

Queues are lists in memory, and each message goes to the queue of its routing key. Whatever a broker has beside that is missing:
exchanges, users, acknowledgements that matter, several consumers of a queue.
"""

import argparse
import asyncio
import collections
import contextlib

import feksroum
from feksroum import Basic, Channel, Confirm, Connection, Exchange, Queue

QUEUES = collections.defaultdict(collections.deque)
CONSUMERS = {}
#: Methods that are answered with an empty method.
ANSWERS = {
    Channel.Open: Channel.OpenOk, Channel.Close: Channel.CloseOk, Connection.Open: Connection.OpenOk, Basic.Qos: Basic.QosOk,
    Connection.Close: Connection.CloseOk, Confirm.Select: Confirm.SelectOk, Exchange.Declare: Exchange.DeclareOk,
    Queue.Bind: Queue.BindOk,
}


class Peer:
    """A client: what it sends comes to `serve`."""

    def __init__(self, reader, writer):
        self._stream, self._writer, self._frame_max = reader, writer, feksroum.FRAME_MAX
        self._open, self._tags, self._confirming = {}, collections.Counter(), set()

    def send(self, channel, item, body=None):
        self._writer.write(feksroum.encode(channel, item, body, self._frame_max))

    async def serve(self):
        """Reads frames until the client leaves. What it sent after a fault is not looked at."""
        frames = feksroum.FrameReader()
        while data := await self._stream.read(65536):
            for frame in frames.feed(data):
                self.take(frame)
            if frames.error is not None:
                self.send(0, Connection.Close(reply_code=501, reply_text=f"FRAME_ERROR - {frames.error}"[:255]))
                break
            await self._writer.drain()

    def take(self, frame):
        """One frame, by its type."""
        if frame.version is not None:
            capabilities = {"publisher_confirms": True, "basic.nack": True}
            self.send(0, Connection.Start(server_properties={"product": "feksroum server.py", "capabilities": capabilities}))
        elif frame.method is not None:
            self.method(frame.channel, frame.method)
        elif frame.properties is not None:
            self._open[frame.channel].update(properties=frame.properties, size=frame.body_size, body=bytearray())
            self.publish(frame.channel)
        elif frame.type is feksroum.FrameType.BODY:
            self._open[frame.channel]["body"] += frame.payload
            self.publish(frame.channel)

    def method(self, channel, method):
        """One method: what answers it is sent."""
        if isinstance(method, Connection.StartOk):
            self.send(0, Connection.Tune(channel_max=2047, frame_max=feksroum.FRAME_MAX, heartbeat=0))
        elif isinstance(method, Connection.TuneOk):
            self._frame_max = method.frame_max or feksroum.FRAME_MAX
        elif isinstance(method, Basic.Publish):
            self._open[channel] = {"key": method.routing_key}
        elif isinstance(method, Queue.Declare):
            queue = method.queue or f"made-{len(QUEUES)}"
            self.send(channel, Queue.DeclareOk(queue=queue, message_count=len(QUEUES[queue])))
        elif isinstance(method, Basic.Get):
            self.get(channel, method.queue)
        elif isinstance(method, Basic.Consume):
            tag = method.consumer_tag or f"consumer-{channel}"
            self.send(channel, Basic.ConsumeOk(consumer_tag=tag))
            CONSUMERS[method.queue] = self, channel, tag
            deliver(method.queue)
        elif isinstance(method, Basic.Cancel):
            self.forget(tag=method.consumer_tag)
            self.send(channel, Basic.CancelOk(consumer_tag=method.consumer_tag))
        elif type(method) in ANSWERS and not getattr(method, "nowait", False):
            self._confirming.update([channel] if isinstance(method, Confirm.Select) else [])
            self.send(channel, ANSWERS[type(method)]())

    def publish(self, channel):
        """Where the message is whole, it goes to its queue, and is confirmed."""
        message = self._open[channel]
        if len(message["body"]) < message["size"]:
            return
        QUEUES[message["key"]].append(message)
        if channel in self._confirming:
            self.send(channel, Basic.Ack(delivery_tag=self.tag(channel, "published")))
        deliver(message["key"])

    def tag(self, channel, kind="delivered"):
        """The next number of a message that is delivered, or was published."""
        self._tags[channel, kind] += 1
        return self._tags[channel, kind]

    def get(self, channel, queue):
        """Answers basic.get."""
        message = QUEUES[queue].popleft() if QUEUES[queue] else None
        if message is None:
            self.send(channel, Basic.GetEmpty())
        else:
            self.send(channel, Basic.GetOk(delivery_tag=self.tag(channel), routing_key=queue, message_count=len(QUEUES[queue])))
            self.send(channel, message["properties"], message["body"])

    def forget(self, tag=None):
        for queue, (peer, _, consumer) in list(CONSUMERS.items()):
            if peer is self and tag in (None, consumer):
                del CONSUMERS[queue]


def deliver(queue):
    """Gives the messages of a queue to its consumer."""
    while queue in CONSUMERS and QUEUES[queue]:
        peer, channel, consumer = CONSUMERS[queue]
        message = QUEUES[queue].popleft()
        peer.send(channel, Basic.Deliver(consumer_tag=consumer, delivery_tag=peer.tag(channel), routing_key=queue))
        peer.send(channel, message["properties"], message["body"])


async def serve(reader, writer):
    peer = Peer(reader, writer)
    with contextlib.suppress(OSError):
        await peer.serve()
        await writer.drain()
    peer.forget()
    writer.close()


async def main():
    parser = argparse.ArgumentParser(description=__doc__.splitlines()[0])
    parser.add_argument("--host", default="localhost")
    parser.add_argument("--port", type=int, default=5672)
    server = await asyncio.start_server(serve, **vars(parser.parse_args()))
    print("listening on port", server.sockets[0].getsockname()[1], flush=True)
    await server.serve_forever()


if __name__ == "__main__":
    with contextlib.suppress(KeyboardInterrupt):
        asyncio.run(main())
