#!/usr/bin/env python3
"""Stands between clients and a broker, passes all bytes on as they come, and records them with their times.

    recorder.py [--broker HOST[:PORT]] [--listen PORT] FILE
    python -m feksroum show --follow FILE

A peer that reads slowly is waited for: what is read from the other one is written before more is read.
"""

import argparse
import asyncio
import contextlib
import itertools
import time

from feksroum.recording import MAGIC, Record

CHUNK = 65536


class Recorder:
    """Connections, and the file of their bytes."""

    def __init__(self, file, host, port):
        self._file = file
        self._broker = host, port
        self._numbers = itertools.count(1)
        file.write(MAGIC)
        file.flush()

    def _record(self, direction, connection, data):
        self._file.write(Record(direction, connection, time.time_ns(), data).pack())
        self._file.flush()

    async def _pass_on(self, direction, connection, reader, writer):
        """All bytes of one direction."""
        try:
            while True:
                data = await reader.read(CHUNK)
                self._record(direction, connection, data)
                if not data:
                    break
                writer.write(data)
                await writer.drain()
            writer.write_eof()
        except OSError as error:
            print(f"connection {connection} {direction} {error}", flush=True)
            writer.close()

    async def serve(self, client_reader, client_writer):
        """One connection, until both sides have ended."""
        connection = next(self._numbers)
        try:
            broker_reader, broker_writer = await asyncio.open_connection(*self._broker)
        except OSError as error:
            print(f"connection {connection}: {error}", flush=True)
            client_writer.close()
            return
        await asyncio.gather(
            self._pass_on(">", connection, client_reader, broker_writer),
            self._pass_on("<", connection, broker_reader, client_writer),
        )
        client_writer.close()
        broker_writer.close()


def place_of(text):
    """A host and a port; 5672 where there is none."""
    host, _, port = text.partition(":")
    return host, int(port or 5672)


async def main():
    parser = argparse.ArgumentParser(description=__doc__.splitlines()[0])
    parser.add_argument("--broker", type=place_of, default="localhost", metavar="HOST[:PORT]")
    parser.add_argument("--listen", type=int, default=5673, metavar="PORT")
    parser.add_argument("file", metavar="FILE")
    words = parser.parse_args()
    with open(words.file, "wb") as file:
        recorder = Recorder(file, *words.broker)
        server = await asyncio.start_server(recorder.serve, "localhost", words.listen)
        print("listening on port", server.sockets[0].getsockname()[1], flush=True)
        await server.serve_forever()


if __name__ == "__main__":
    with contextlib.suppress(KeyboardInterrupt):
        asyncio.run(main())
