"""Constants of the protocol and of brokers, as pamqp names them."""

import re

AMQP = b"AMQP"
VERSION = (0, 9, 1)

DEFAULT_HOST = "localhost"
DEFAULT_PORT = 5672
DEFAULT_USER = "guest"
DEFAULT_PASS = "guest"
DEFAULT_VHOST = "/"

FRAME_METHOD = 1
FRAME_HEADER = 2
FRAME_BODY = 3
FRAME_HEARTBEAT = 8
FRAME_MIN_SIZE = 4096
FRAME_MAX_SIZE = 131072
FRAME_HEADER_SIZE = 7
FRAME_END = 206
FRAME_END_CHAR = bytes([FRAME_END])
REPLY_SUCCESS = 200

#: The types of fields.
DATA_TYPES = ["bit", "long", "longlong", "longstr", "octet", "short", "shortstr", "table", "timestamp"]
#: The domains of the standard, by their types.
DOMAINS = {
    "channel-id": "longstr", "class-id": "short", "consumer-tag": "shortstr", "delivery-tag": "longlong", "destination": "shortstr",
    "duration": "longlong", "exchange-name": "shortstr", "method-id": "short", "no-ack": "bit", "no-local": "bit", "offset": "longlong",
    "path": "shortstr", "peer-properties": "table", "queue-name": "shortstr", "redelivered": "bit", "reference": "longstr",
    "reject-code": "short", "reject-text": "shortstr", "reply-code": "short", "reply-text": "shortstr", "security-token": "longstr",
}
_NAME = re.compile("^[a-zA-Z0-9-_.:@#,/]*$")
#: What the standard wants of names; brokers take others too, and so do these modules.
DOMAIN_REGEX = {"exchange-name": _NAME, "queue-name": _NAME}
DEPRECATION_WARNING = "This command is deprecated in AMQP 0-9-1"
