"""Heartbeats."""

from .. import _encode


class Heartbeat:
    """A sign of life, on channel 0."""

    name = "Heartbeat"
    value: bytes = _encode.HEARTBEAT

    @classmethod
    def marshal(cls) -> bytes:
        """The bytes of its frame."""
        return cls.value
