"""Tables that stand alone, without their length, as the response of AMQPLAIN is one."""

from typing import Any, Optional, cast

from . import _compiled
from ._arguments import instance
from ._buffers import Room, bytes_of
from ._errors import BUFFER_TOO_SMALL, Error, error_of
from ._kinds import INNER_TABLE
from ._library import NODE, library_for
from ._packing import entries, refusal_in
from ._reading import read_table_of
from .values import Table


def read_table(content: Any) -> Table:
    """The table that these bytes are the content of. Raises what is wrong with them."""
    data = bytes_of(content)
    nodes = Room(min(len(data), 1024) * NODE.size)
    found = library_for(len(data)).feksroum_open(INNER_TABLE, data, len(data), nodes.address, len(nodes) // NODE.size)
    if found.status == BUFFER_TOO_SMALL:
        nodes.grow(found.nodes * NODE.size)
        found = library_for(len(data)).feksroum_open(INNER_TABLE, data, len(data), nodes.address, len(nodes) // NODE.size)
    error = error_of(found.status)
    if error is not None:
        raise error
    listed, native = nodes.copy(found.nodes * NODE.size), _compiled.native
    if native is not None:
        return cast(Table, native.read_table(data, listed))
    return read_table_of(data, listed, 0, found.nodes, found.nodes)


def write_table(table: Table) -> bytes:
    """The content of a table: its entries in ascending order of their keys' bytes. Raises as `encode` does."""
    made: Optional[bytes] = _compiled.native.write_table(table) if _compiled.native is not None else None
    if made is not None:
        return made
    try:
        return entries(instance("a table", table, dict))
    except (TypeError, ValueError, OverflowError, Error) as error:
        raise refusal_in("table", table, 1) or error from None
