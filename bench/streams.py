"""Makes the streams that bench/run measures: streams.py SIZE_MB DIR

A block of some megabytes with varied frames is made once and repeated. The same streams come out
each time.
"""

import os
import random
import struct
import sys

BLOCK = 4_000_000


def short(text):
    return bytes([len(text)]) + text.encode()


def long(piece):
    return struct.pack('>I', len(piece)) + piece


def frame(kind, channel, payload):
    return struct.pack('>BHI', kind, channel, len(payload)) + payload + b'\xce'


def method(channel, class_id, method_id, *parts):
    return frame(1, channel, struct.pack('>HH', class_id, method_id) + b''.join(parts))


def header(channel, size, mask, *properties):
    return frame(2, channel, struct.pack('>HHQH', 60, 0, size, mask) + b''.join(properties))


HEARTBEAT = frame(8, 0, b'')

CONTENT_TYPES = ['application/json', 'text/plain', 'application/octet-stream']
ROUTING_KEYS = ['orders', 'orders.created', 'mail.out', 'metrics.eu-west.cpu', 'jobs.thumbnail']
EXCHANGES = ['', '', 'amq.topic', 'events']


def opening(rng, channel, number):
    """A Publish, as a client sends it, or a Deliver, as a broker does."""
    exchange, key = short(rng.choice(EXCHANGES)), short(rng.choice(ROUTING_KEYS))
    if rng.random() < 0.5:
        return method(channel, 60, 40, b'\0\0', exchange, key, b'\0')
    consumer = short('ctag%d.%d' % (channel, rng.randint(1, 9)))
    return method(channel, 60, 60, consumer, struct.pack('>QB', number, rng.random() < 0.05),
                  exchange, key)


def small_header(rng, channel, size, number):
    """content_type and delivery_mode, and most often some of the others."""
    content_type = short(rng.choice(CONTENT_TYPES))
    mode = bytes([rng.choice([1, 2])])
    shape = rng.random()
    if shape < 0.4:
        return header(channel, size, 0x9000, content_type, mode)
    stamp = struct.pack('>Q', 1_700_000_000 + number)
    message = short('%08x-%04x' % (rng.getrandbits(32), number % 65536))
    if shape < 0.7:
        return header(channel, size, 0x90c0, content_type, mode, message, stamp)
    return header(channel, size, 0x9e88, content_type, mode, b'\0',
                  short('%016x' % rng.getrandbits(64)), short('amq.rabbitmq.reply-to'),
                  message, short('shop'))


def message(rng, number, sizes):
    """A method, a content header, and bodies of these sizes."""
    channel = rng.randint(1, 20)
    return b''.join([opening(rng, channel, number), small_header(rng, channel, sum(sizes), number)]
                    + [frame(3, channel, rng.randbytes(size)) for size in sizes])


def small_messages(rng, number):
    return message(rng, number, [rng.randint(64, 512)])


def unordered_header(rng, channel, size):
    """content_type, headers in no order, and delivery_mode."""
    headers = table(rng, rng.randint(3, 8), 0, keys)
    return header(channel, size, 0xb000, short(rng.choice(CONTENT_TYPES)), headers, bytes([2]))


def unordered_headers(rng, number):
    """Small messages, of which one in forty has headers in no order, as most clients send them."""
    channel, size = rng.randint(1, 20), rng.randint(64, 512)
    made = unordered_header(rng, channel, size) if rng.random() < 1 / 40 else small_header(rng, channel, size, number)
    return opening(rng, channel, number) + made + frame(3, channel, rng.randbytes(size))


def large_bodies(rng, number):
    if rng.random() < 0.25:
        return message(rng, number, [16384] * rng.randint(1, 4))
    return message(rng, number, [131072] * rng.randint(1, 4))


def acks(rng, number):
    if rng.random() < 0.1:
        return HEARTBEAT
    return method(rng.randint(1, 20), 60, 80, struct.pack('>QB', number, rng.random() < 0.2))


WORDS = ['trace', 'span', 'order', 'customer', 'region', 'tenant', 'attempt', 'source', 'schema',
         'created', 'locale', 'priority', 'x-retry', 'x-death', 'content', 'user', 'device',
         'session', 'batch', 'offset']
ENDINGS = ['id', 'name', 'count', 'time', 'kind', 'version', 'hash', 'flag', 'path', 'code']


def keys(rng, count):
    """Keys in no order, with one twice now and then."""
    names = rng.sample([word + '_' + ending for word in WORDS for ending in ENDINGS], count)
    if rng.random() < 0.02:
        names[rng.randrange(count)] = names[0]
    return names


def keys_in_order(rng, count):
    """The same in the order of their bytes, as canonical tables have them."""
    return sorted(set(keys(rng, count)))


def value(rng, depth, names):
    shape = rng.random()
    if shape < 0.45:
        return b'S' + long(rng.randbytes(rng.randint(1, 20)).hex().encode())
    if shape < 0.60:
        return b'I' + struct.pack('>i', rng.randint(-1000, 1_000_000))
    if shape < 0.70:
        return b'l' + struct.pack('>q', rng.randint(0, 1 << 40))
    if shape < 0.80:
        return b't' + bytes([rng.getrandbits(1)])
    if shape < 0.86:
        return b'T' + struct.pack('>Q', 1_700_000_000 + rng.randint(0, 10_000_000))
    if shape < 0.92:
        return b'd' + struct.pack('>d', rng.random())
    if shape < 0.94:
        return b'V'
    if depth == 0:
        return b'b' + rng.randbytes(1)
    if shape < 0.97:
        return b'A' + long(b''.join(value(rng, depth - 1, names) for _ in range(rng.randint(1, 8))))
    return b'F' + table(rng, rng.randint(20, 40), depth - 1, names)


def table(rng, count, depth, names):
    return long(b''.join(short(key) + value(rng, depth, names) for key in names(rng, count)))


def tables(rng, number, names=keys):
    """A method or a content header with a nested table of 20 to 200 entries."""
    channel, entries = rng.randint(1, 20), table(rng, rng.randint(20, 200), 2, names)
    shape = rng.random()
    if shape < 0.5:
        return header(channel, 0, 0xb040, short('application/json'), entries, b'\2',
                      struct.pack('>Q', 1_700_000_000 + number))
    if shape < 0.7:
        return method(channel, 50, 10, b'\0\0', short('orders'), b'\2', entries)
    if shape < 0.85:
        return method(channel, 60, 20, b'\0\0', short('orders'), short('ctag'), b'\0', entries)
    return method(0, 10, 11, entries, short('PLAIN'), long(b'\0guest\0guest'), short('en_US'))


def tables_in_order(rng, number):
    return tables(rng, number, keys_in_order)


STREAMS = {'small messages': small_messages, 'unordered headers': unordered_headers, 'large bodies': large_bodies,
           'tables': tables, 'tables in order': tables_in_order, 'acks and heartbeats': acks}


def block_of(name):
    """Frames of one kind, some megabytes of them."""
    rng, pieces, size = random.Random(name), [], 0
    while size < BLOCK:
        pieces.append(STREAMS[name](rng, len(pieces) + 1))
        size += len(pieces[-1])
    return b''.join(pieces)


def path_of(folder, name):
    return os.path.join(folder, name.replace(' ', '_') + '.raw')


def main():
    megabytes, folder = int(sys.argv[1]), sys.argv[2]
    for name in STREAMS:
        block = block_of(name)
        with open(path_of(folder, name), 'wb') as file:
            for _ in range(max(1, round(megabytes * 1_000_000 / len(block)))):
                file.write(block)


if __name__ == '__main__':
    main()
