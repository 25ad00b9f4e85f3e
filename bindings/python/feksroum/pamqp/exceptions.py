"""Exceptions: of reading, and one for each reply code."""

from typing import Dict, List, Tuple, Type


class PAMQPException(Exception):
    """All exceptions of these modules."""


class UnmarshalingException(PAMQPException):
    """Bytes that are no frame: which one was tried, and what is wrong."""

    def __str__(self) -> str:
        return f"Could not unmarshal {self.args[0]} frame: {self.args[1]}"


class AMQPError(PAMQPException):
    """A reply code that says what went wrong."""

    name = ""
    value = 0


class AMQPSoftError(AMQPError):
    """One that closes a channel."""


class AMQPHardError(AMQPError):
    """One that closes the connection."""


#: The exceptions by reply code: name of the class, name in the standard, code.
_SOFT: List[Tuple[str, str, int]] = [
    ("AMQPContentTooLarge", "CONTENT-TOO-LARGE", 311), ("AMQPNoRoute", "NO-ROUTE", 312), ("AMQPNoConsumers", "NO-CONSUMERS", 313),
    ("AMQPAccessRefused", "ACCESS-REFUSED", 403), ("AMQPNotFound", "NOT-FOUND", 404), ("AMQPResourceLocked", "RESOURCE-LOCKED", 405),
    ("AMQPPreconditionFailed", "PRECONDITION-FAILED", 406),
]
_HARD: List[Tuple[str, str, int]] = [
    ("AMQPConnectionForced", "CONNECTION-FORCED", 320), ("AMQPInvalidPath", "INVALID-PATH", 402),
    ("AMQPFrameError", "FRAME-ERROR", 501), ("AMQPSyntaxError", "SYNTAX-ERROR", 502), ("AMQPCommandInvalid", "COMMAND-INVALID", 503),
    ("AMQPChannelError", "CHANNEL-ERROR", 504), ("AMQPUnexpectedFrame", "UNEXPECTED-FRAME", 505),
    ("AMQPResourceError", "RESOURCE-ERROR", 506), ("AMQPNotAllowed", "NOT-ALLOWED", 530),
    ("AMQPNotImplemented", "NOT-IMPLEMENTED", 540), ("AMQPInternalError", "INTERNAL-ERROR", 541),
]


def _made(rows: List[Tuple[str, str, int]], base: Type[AMQPError]) -> Dict[int, Type[AMQPError]]:
    """The classes of rows, by their codes."""
    found = {}
    for spelled, name, value in rows:
        members = {"__module__": __name__, "__doc__": f"Reply code {value}, {name}.", "name": name, "value": value}
        found[value] = type(spelled, (base,), members)
    return found


#: The exception of each reply code.
CLASS_MAPPING: Dict[int, Type[AMQPError]] = {**_made(_SOFT, AMQPSoftError), **_made(_HARD, AMQPHardError)}
globals().update({error.__name__: error for error in CLASS_MAPPING.values()})
