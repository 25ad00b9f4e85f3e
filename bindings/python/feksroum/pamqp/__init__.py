"""The modules of pamqp 3 over this one: the same names of modules, classes, fields and functions, so that clients that were written for
pamqp run over the library.

    import feksroum.pamqp
    feksroum.pamqp.install()      # before anything imports pamqp: after it, `import pamqp` finds these modules
    import aio_pika

What differs on purpose:

- What is read is decoded by the library: a frame that the grammar of docs/FORMAT.md does not allow is an UnmarshalingException, also where
  pamqp reads it: bytes after the last field, a short string that is no UTF-8, tables nested too deep.
- What is written is canonical. In tables an `int` is written in 4 bytes or in 8 (pamqp: in as few as it fits into, and -1 to -128 not at
  all), a `float` in 8 (pamqp: in 4, rounded), `bytes` as a byte array (pamqp: TypeError). Numbers that were read from smaller kinds keep
  these, since they are the classes of feksroum.values. `support_deprecated_rabbitmq` changes nothing.
- A key or a short string of more than 255 bytes is refused (pamqp cuts keys to 128 characters).
- Names of queues and exchanges may have all characters, as brokers allow. Reserved fields have to hold their defaults, as in pamqp, and are
  written empty: pamqp writes "0" in `Channel.Open` and `Channel.OpenOk`.
- A body frame of no bytes is read (pamqp: "No frame size").
- A delivery tag has all 64 bits.
"""

import importlib
import sys

__version__ = version = "3.2.1"
__all__ = ["base", "body", "commands", "common", "constants", "decode", "encode", "exceptions", "frame", "header", "heartbeat", "install"]
_MODULES = __all__[:-1]


def install() -> None:
    """Makes `import pamqp` find these modules. Raises ImportError where another pamqp was imported already."""
    known = sys.modules.get("pamqp")
    if known is not None and known is not sys.modules[__name__]:
        raise ImportError("pamqp was imported already: feksroum.pamqp.install() comes first")
    sys.modules["pamqp"] = sys.modules[__name__]
    for name in _MODULES:
        sys.modules[f"pamqp.{name}"] = importlib.import_module(f"{__name__}.{name}")
