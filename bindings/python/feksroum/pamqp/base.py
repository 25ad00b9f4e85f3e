"""What methods and properties share: their fields as attributes, and their bytes."""

import datetime
from typing import Any, ClassVar, Dict, Iterator, List, Tuple

from .. import _kinds as kinds
from .._encode import encode
from ..methods import Method, Properties

#: Where the fields begin in the frame of a method, after its ids; where those of a content header do; and what comes after them.
_FRONT, _HEADER_FRONT, _BACK = 11, 19, 1


def text_of(octets: bytes) -> Any:
    """A long string: a str where it is UTF-8."""
    try:
        return octets.decode()
    except UnicodeDecodeError:
        return octets


def plain(value: Any) -> Any:
    """A value of a table as pamqp has it: times name no zone, byte arrays are bytearrays."""
    kind = type(value)
    if kind is dict:
        return {key: plain(inner) for key, inner in value.items()}
    if kind is list:
        return [plain(inner) for inner in value]
    if kind is bytes:
        return bytearray(value)
    return value.replace(tzinfo=None) if kind is datetime.datetime else value


#: What is read of a kind of fields, where it differs.
_READ = {kinds.LONG_STRING: text_of, kinds.TABLE: plain}


class _AMQData:
    """Fields by name."""

    __slots__: Any = []
    name: ClassVar[str] = "_AMQData"
    #: The class of the same in feksroum, the type of each field, and what is given where nothing else is.
    _ours: ClassVar[Any] = None
    _types: ClassVar[Dict[str, str]] = {}
    _defaults: ClassVar[Tuple[Any, ...]] = ()

    def __init__(self, *values: Any, **named: Any) -> None:
        names = self.__slots__
        if len(values) > len(names):
            raise TypeError(f"{self.name} has {len(names)} fields, and {len(values)} were given")
        for place, name in enumerate(names):
            if place < len(values):
                value = values[place]
                if name in named:
                    raise TypeError(f"{self.name} got {name} twice")
            else:
                value = named.pop(name, self._defaults[place])
            setattr(self, name, value)
        if named:
            raise TypeError(f"{self.name} has no field {', '.join(named)}")

    def __contains__(self, item: str) -> bool:
        return item in self.__slots__

    def __getitem__(self, item: str) -> Any:
        return getattr(self, item)

    def __iter__(self) -> Iterator[Tuple[str, Any]]:
        return ((name, getattr(self, name)) for name in self.__slots__)

    def __len__(self) -> int:
        return len(self.__slots__)

    def __repr__(self) -> str:
        return f"<{self.name} object at {id(self):#x}>"

    @classmethod
    def amqp_type(cls, attr: str) -> str:
        """The type of a field."""
        return cls._types[attr]

    @classmethod
    def attributes(cls) -> List[str]:
        """The names of the fields."""
        return list(cls.__slots__)


class Frame(_AMQData):
    """A method."""

    __slots__: Any = []
    frame_id: ClassVar[int] = 0
    index: ClassVar[int] = 0
    synchronous: ClassVar[bool] = False
    valid_responses: ClassVar[List[str]] = []
    #: The reserved fields, and what they have to be.
    _reserved: ClassVar[Dict[str, Any]] = {}

    def __init__(self, *values: Any, **named: Any) -> None:
        super().__init__(*values, **named)
        for name, kind in self._ours.fields:
            if kind == kinds.TABLE and not getattr(self, name):
                setattr(self, name, {})
        self.validate()

    def validate(self) -> None:
        """Raises ValueError where a reserved field is not what it has to be."""
        for name, value in self._reserved.items():
            if getattr(self, name) != value:
                raise ValueError(f"{name} must be {value!r}")

    def _as_ours(self) -> Method:
        """The same method of feksroum."""
        self.validate()
        made: Method = self._ours.__new__(self._ours)
        for name in self._ours.__match_args__:
            setattr(made, name, getattr(self, name))
        return made

    def _take(self, ours: Method) -> None:
        """Takes the fields of the same method of feksroum; the reserved ones are what they have to be."""
        for name, value in self._reserved.items():
            setattr(self, name, value)
        for name, kind in ours.fields:
            read, value = _READ.get(kind), getattr(ours, name)
            setattr(self, name, value if read is None else read(value))

    @classmethod
    def _of(cls, ours: Method) -> "Frame":
        made = cls.__new__(cls)
        made._take(ours)
        return made

    def marshal(self) -> bytes:
        """The bytes of the fields."""
        return encode(0, self._as_ours(), frame_max=0)[_FRONT:-_BACK]

    def unmarshal(self, data: bytes) -> None:
        """Takes the fields from their bytes."""
        from .frame import method_in

        self._take(method_in(self.index.to_bytes(4, "big") + data))


class BasicProperties(_AMQData):
    """The properties of a message."""

    __slots__: Any = []
    name = "BasicProperties"
    flags: ClassVar[Dict[str, int]] = {}

    def __init__(self, *values: Any, **named: Any) -> None:
        super().__init__(*values, **named)
        self.validate()

    def __eq__(self, other: object) -> bool:
        if not isinstance(other, BasicProperties):
            return NotImplemented
        return all(getattr(self, name) == getattr(other, name, None) for name in self.__slots__)

    __hash__ = None  # type: ignore[assignment]

    def validate(self) -> None:
        """Raises ValueError for a cluster id, and for a delivery mode that is none."""
        if getattr(self, "cluster_id", "") != "":
            raise ValueError("cluster_id must be empty")
        if getattr(self, "delivery_mode", None) not in (None, 1, 2):
            raise ValueError(f"Invalid delivery_mode value: {getattr(self, 'delivery_mode')}")

    def _as_ours(self) -> Properties:
        """The same properties of feksroum: an empty string is not set."""
        made = Properties.__new__(Properties)
        for name in Properties.__match_args__:
            value = getattr(self, name)
            setattr(made, name, None if value == "" else value)
        return made

    def _take(self, ours: Properties) -> None:
        """Takes the properties of feksroum."""
        for name in Properties.__match_args__:
            value = getattr(ours, name)
            setattr(self, name, "" if value is None and name == "cluster_id" else plain(value))

    def encode_property(self, name: str, value: Any) -> bytes:
        """The bytes of one property."""
        from .encode import by_type

        return by_type(value, self.amqp_type(name))

    def marshal(self) -> bytes:
        """The bytes that say which properties are set, and theirs."""
        return encode(0, self._as_ours(), frame_max=0, body_size=0)[_HEADER_FRONT:-_BACK]

    def unmarshal(self, flags: int, data: bytes) -> None:
        """Takes the properties that flags name from their bytes."""
        from .frame import header_in

        front = (60).to_bytes(2, "big") + bytes(10) + (flags & 0xFFFF).to_bytes(2, "big")
        self._take(header_in(front + data)[1])

