"""The text of bindings/feksroum.map: the functions of the libraries, all others are seen from inside alone."""

import os
import re

import c_methods_text

HERE = os.path.dirname(os.path.abspath(__file__))
HEADER = os.path.join(HERE, "..", "include", "feksroum.h")


def declared():
    """The functions that feksroum.h declares."""
    with open(HEADER, encoding="utf-8") as file:
        return re.findall(r"^[a-z0-9_]+ (feksroum_[a-z0-9_]+)\(", file.read(), re.M)


def texts(rows):
    kinds = [kind[0] for kind in c_methods_text.KINDS]
    names = declared() + [f"feksroum_put_{row.path()}" for row in rows]
    names += [f"feksroum_put_{name}" for name in ("body", "content_header", "heartbeat", "protocol_header")]
    names += [f"feksroum_append_{what}_{kind}" for what in ("entry", "value") for kind in kinds]
    lines = "".join(f"        {name};\n" for name in sorted(names))
    yield "bindings/feksroum.map", "{\n    global:\n" + lines + "    local:\n        *;\n};\n"
