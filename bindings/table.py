"""The table of names, as the library has it: classes, methods with their fields, properties; and reply codes.

    python3 bindings/table.py       prints it as JSON

All that is made by `generate` comes from here. The library is bindings/out/libfeksroum.so, or that of FEKSROUM_LIBRARY. It has no reply
codes: these are those of the crate amqp_protocol, out of its source.
"""

import ctypes
import json
import os
import re
from typing import List, NamedTuple

HERE = os.path.dirname(os.path.abspath(__file__))
ERRORS = os.path.join(HERE, "..", "crates", "amqp_protocol", "src", "errors.rt")

#: what the kinds are called, from 1 on
KINDS = ["octet", "short", "long", "long long", "flag", "short string", "long string", "table"]

NAME_MAX = 17
FIELDS_MAX = 8


class Field(NamedTuple):
    """A field of a method, or a property: its place is its index."""

    name: str
    kind: int


class Method(NamedTuple):
    class_id: int
    method_id: int
    class_name: str
    name: str
    fields: List[Field]
    carries_content: bool
    wants_answer: bool


class Class(NamedTuple):
    id: int
    name: str


class ReplyCode(NamedTuple):
    """An error that closes a channel, or a connection where it is a hard one."""

    code: int
    name: str
    hard: bool


class Table(NamedTuple):
    classes: List[Class]
    methods: List[Method]
    properties: List[Field]
    reply_codes: List[ReplyCode]


class _Row(ctypes.Structure):
    _fields_ = [
        ("class_id", ctypes.c_uint16),
        ("method_id", ctypes.c_uint16),
        ("fields", ctypes.c_uint8),
        ("carries_content", ctypes.c_bool),
        ("wants_answer", ctypes.c_bool),
        ("status", ctypes.c_uint8),
    ]


class _Library:
    """The calls on the table."""

    def __init__(self, path):
        self._calls = ctypes.CDLL(path)
        u8, u16, size = ctypes.c_uint8, ctypes.c_uint16, ctypes.c_size_t
        out = [ctypes.c_char_p, size]
        for name, words, result in [
            ("method_at", [u8], _Row),
            ("shape", [u16, u16] + out, size),
            ("property_kind", [u8], u8),
            ("class_name", [u16] + out, size),
            ("method_name", [u16, u16] + out, size),
            ("field_name", [u16, u16, u8] + out, size),
            ("property_name", [u8] + out, size),
        ]:
            call = getattr(self._calls, "feksroum_" + name)
            call.argtypes, call.restype = words, result

    def method_at(self, k):
        return self._calls.feksroum_method_at(k)

    def property_kind(self, place):
        return self._calls.feksroum_property_kind(place)

    def written(self, call, *ids):
        """What a call writes into a buffer that is long enough."""
        room = NAME_MAX
        buffer = ctypes.create_string_buffer(room)
        length = getattr(self._calls, "feksroum_" + call)(*ids, buffer, room)
        if length > room:
            raise ValueError(f"{call}{ids} needs {length} bytes")
        return buffer.raw[:length]

    def name(self, what, *ids):
        return self.written(what + "_name", *ids).decode("ascii")


def _methods(library):
    for k in range(256):
        row = library.method_at(k)
        if row.status != 0:
            return
        ids = (row.class_id, row.method_id)
        kinds = library.written("shape", *ids)
        if len(kinds) != row.fields or row.fields > FIELDS_MAX:
            raise ValueError(f"method {ids} has {row.fields} fields, and {len(kinds)} kinds")
        fields = [Field(library.name("field", *ids, place), kind) for place, kind in enumerate(kinds)]
        yield Method(*ids, library.name("class", row.class_id), library.name("method", *ids), fields, row.carries_content, row.wants_answer)


def _properties(library):
    for place in range(256):
        kind = library.property_kind(place)
        if kind == 0:
            return
        yield Field(library.name("property", place), kind)


def reply_codes():
    """The 18 of the standard, by ascending codes."""
    with open(ERRORS, encoding="utf-8") as file:
        source = file.read()
    codes = re.findall(r"AMQP(Soft|Hard)Error::(\w+) => (\d+),", source)
    texts = dict(re.findall(r"AMQP(?:Soft|Hard)Error::(\w+) => \"([A-Z-]+)\",", source))
    found = sorted(ReplyCode(int(code), texts[variant].lower(), kind == "Hard") for kind, variant, code in codes)
    if len(found) != 18 or len(texts) != 18:
        raise ValueError(f"{ERRORS}: {len(found)} reply codes and {len(texts)} names, and not 18")
    return found


def read(path=None):
    """The whole table, out of the library."""
    path = path or os.environ.get("FEKSROUM_LIBRARY") or os.path.join(HERE, "out", "libfeksroum.so")
    library = _Library(path)
    methods = list(_methods(library))
    classes = []
    for method in methods:
        found = Class(method.class_id, method.class_name)
        if found not in classes:
            classes.append(found)
    return Table(classes, methods, list(_properties(library)), reply_codes())


def as_json(table):
    def method(found):
        fields = [field._asdict() for field in found.fields]
        return {
            "class_id": found.class_id,
            "method_id": found.method_id,
            "class": found.class_name,
            "name": found.name,
            "fields": fields,
            "carries_content": found.carries_content,
            "wants_answer": found.wants_answer,
        }

    return {
        "kinds": {str(number): name for number, name in enumerate(KINDS, 1)},
        "classes": [found._asdict() for found in table.classes],
        "methods": [method(found) for found in table.methods],
        "properties": [{"place": place, **found._asdict()} for place, found in enumerate(table.properties)],
        "reply_codes": [found._asdict() for found in table.reply_codes],
    }


if __name__ == "__main__":
    print(json.dumps(as_json(read()), indent=1))
