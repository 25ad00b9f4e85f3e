"""The compiled part of the module, where it was built and serves this library: else `native` is None, and all is done in Python."""

import ctypes
from typing import Any

#: The compiled module, which `bind` tells of the others.
native: Any = None
#: The functions of the library that it calls.
_CALLED = "feksroum_frames", "feksroum_write", "feksroum_write_content", "feksroum_body_head", "feksroum_max_payload"


def _address(function: Any) -> int:
    return ctypes.cast(function, ctypes.c_void_p).value or 0


def _row(kind: Any, ids: Any) -> Any:
    """A class as the compiled part takes it in: its ids, and of each field its name, its kind, and whether it is a time."""
    return (kind, *ids, tuple((name, field, name == "timestamp" and not ids[0]) for name, field in kind.fields))


def bind() -> None:
    """Looks for the compiled part, and tells it of the library and of the classes."""
    global native
    from . import _frames, _library, _plain, _reading, methods, values

    try:
        from . import _native
    except ImportError:
        return
    rows = tuple(_row(method, ids) for ids, method in methods.METHODS.items())
    called = tuple(_address(getattr(_library.SMALL, name)) for name in _CALLED)
    names = (
        _frames.Frame, _library.Head, _frames._TYPES, values.NUMBERS, _reading.rare_value, _plain.plain, values.time_of, values.seconds_of)
    try:
        _native.bind(called, rows, _row(methods.Properties, (0, 0)), names)
    except RuntimeError:
        # It serves another copy of this module already.
        return
    native = _native
