#!/usr/bin/env python3
"""The core of a client: logs in, publishes one message to a queue, waits until the broker has it, consumes it and says good-bye.

    client.py [--host HOST] [--port PORT] [--user NAME] [--password WORD] [--vhost NAME] [--queue NAME] MESSAGE

Prints the message that comes back. The status is 1 where the broker refuses something or closes the connection.
"""

import argparse
import collections
import socket
import sys

import feksroum
from feksroum import Basic, Channel, Confirm, Connection, Properties, ProtocolHeader, Queue

#: Where the queue has no name of its own, the broker makes one up, and the queue goes with the connection.
CHANNEL = 1


class Refused(Exception):
    """The broker closed the channel or the connection."""


class Client:
    """A connection with one channel. Each call waits until the broker has answered."""

    def __init__(self, host, port, user, password, vhost):
        self._socket = socket.create_connection((host, port), timeout=10)
        # What is sent in pieces does not wait until the peer has acknowledged the first of them.
        self._socket.setsockopt(socket.IPPROTO_TCP, socket.TCP_NODELAY, 1)
        self._reader = feksroum.FrameReader()
        self._frames = collections.deque()
        self._frame_max = feksroum.FRAME_MAX
        self._log_in(user, password, vhost)
        self.call(CHANNEL, Channel.Open(), Channel.OpenOk)

    def send(self, channel, item, body=None):
        """Sends a method, or the properties and the body of a message."""
        self._socket.sendall(feksroum.encode(channel, item, body, self._frame_max))

    def next_frame(self):
        """The next frame that is no heartbeat."""
        while True:
            while not self._frames:
                data = self._socket.recv(65536)
                if not data:
                    self._reader.close()
                    raise ConnectionError("the broker ended the connection")
                self._frames.extend(self._reader.feed(data))
                if self._reader.error is not None and not self._frames:
                    raise self._reader.error
            frame = self._frames.popleft()
            if frame.type is not feksroum.FrameType.HEARTBEAT:
                return frame

    def expect(self, kind):
        """The next method, which has to be of this kind."""
        method = self.next_frame().method
        if isinstance(method, (Channel.Close, Connection.Close)):
            raise Refused(f"{method.reply_code} {method.reply_text}")
        if not isinstance(method, kind):
            raise Refused(f"{kind.name} was to come, and not {method!r}")
        return method

    def call(self, channel, method, answer):
        """Sends a method, and returns its answer."""
        self.send(channel, method)
        return self.expect(answer)

    def _log_in(self, user, password, vhost):
        """The greeting, as the standard has it in 2.2.4."""
        start = self._greet()
        if b"PLAIN" not in start.mechanisms.split():
            raise Refused(f"the broker has no PLAIN, but {start.mechanisms!r}")
        response = f"\0{user}\0{password}".encode()
        capabilities = {"authentication_failure_close": True, "consumer_cancel_notify": True, "publisher_confirms": True}
        properties = {"product": "feksroum client.py", "version": feksroum.__version__, "capabilities": capabilities}
        tune = self.call(0, Connection.StartOk(client_properties=properties, response=response), Connection.Tune)
        self._frame_max = min(tune.frame_max or feksroum.FRAME_MAX, feksroum.FRAME_MAX)
        self.send(0, Connection.TuneOk(channel_max=tune.channel_max, frame_max=self._frame_max, heartbeat=0))
        self.call(0, Connection.Open(virtual_host=vhost), Connection.OpenOk)

    def _greet(self):
        self.send(0, ProtocolHeader())
        return self.expect(Connection.Start)

    def publish(self, queue, body, properties):
        """Publishes a message to a queue, and waits until the broker confirms it."""
        self.call(CHANNEL, Confirm.Select(), Confirm.SelectOk)
        message = feksroum.Message(CHANNEL, Basic.Publish(routing_key=queue, mandatory=True), properties, body)
        self._socket.sendall(message.encode(self._frame_max))
        self.expect(Basic.Ack)

    def consume(self, queue):
        """The properties and the body of the next message of a queue, which is acknowledged."""
        consumer = self.call(CHANNEL, Basic.Consume(queue=queue), Basic.ConsumeOk).consumer_tag
        deliver = self.expect(Basic.Deliver)
        header = self.next_frame()
        body = bytearray()
        while len(body) < header.body_size:
            body += self.next_frame().payload
        self.send(CHANNEL, Basic.Ack(delivery_tag=deliver.delivery_tag))
        self.call(CHANNEL, Basic.Cancel(consumer_tag=consumer), Basic.CancelOk)
        return header.properties, bytes(body)

    def close(self):
        """Says good-bye."""
        self.call(0, Connection.Close(reply_code=200, reply_text="bye"), Connection.CloseOk)
        self._socket.close()


def main():
    parser = argparse.ArgumentParser(description=__doc__.splitlines()[0])
    for name, default in (("host", "localhost"), ("user", "guest"), ("password", "guest"), ("vhost", "/"), ("queue", "")):
        parser.add_argument(f"--{name}", default=default)
    parser.add_argument("--port", type=int, default=5672)
    parser.add_argument("message")
    words = parser.parse_args()
    try:
        client = Client(words.host, words.port, words.user, words.password, words.vhost)
        is_own = not words.queue
        queue = client.call(CHANNEL, Queue.Declare(queue=words.queue, exclusive=is_own, auto_delete=is_own), Queue.DeclareOk).queue
        client.publish(queue, words.message.encode(), Properties(content_type="text/plain", headers={"attempt": 1}))
        properties, body = client.consume(queue)
        client.close()
    except (Refused, OSError, feksroum.Error) as error:
        sys.exit(f"client: {error}")
    print(properties)
    print(body.decode())


if __name__ == "__main__":
    main()
