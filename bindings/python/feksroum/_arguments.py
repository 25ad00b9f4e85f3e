"""What is asked of arguments: whole numbers within bounds, objects of some class. What is none is refused before anything changes."""

import operator
from typing import Any, Tuple, Type, TypeVar, Union, cast

_Kind = TypeVar("_Kind")
#: The largest numbers of 8, 16, 32 and 64 bits.
OCTET_MOST, SHORT_MOST, LONG_MOST, LONG_LONG_MOST = 2**8 - 1, 2**16 - 1, 2**32 - 1, 2**64 - 1


def whole(name: str, value: Any, most: int, least: int = 0) -> int:
    """A whole number within bounds. Raises TypeError for what is none, as a float, and ValueError beyond the bounds."""
    try:
        number = operator.index(value)
    except TypeError:
        raise TypeError(f"{name} has to be an int, and is {type(value).__name__}") from None
    if not least <= number <= most:
        raise ValueError(f"{name} has to be {least} to {most}, and is {number}")
    return number


def instance(name: str, value: Any, kind: Union[Type[_Kind], Tuple[Type[_Kind], ...]]) -> _Kind:
    """An object of a class, or of one of some. Raises TypeError for another."""
    if isinstance(value, kind):
        return cast(_Kind, value)
    kinds = kind if isinstance(kind, tuple) else (kind,)
    raise TypeError(f"{name} has to be a {' or a '.join(one.__qualname__ for one in kinds)}, and is {type(value).__name__}")
