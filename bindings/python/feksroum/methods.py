"""The 66 methods and the properties, as classes that are made from the library's table when this module is imported.

`Basic.Deliver`, `Queue.DeclareOk` and so on take their fields in the standard's order, by place or by name. A field that is
not given has the standard's default, or 0, "" or an empty table. Reserved fields do not appear: tickets, the prefetch size of
`Basic.Qos`, what is reserved in `Connection.Open`, `Channel.Open` and their answers. A method that has a reserved field before another
takes its fields by name alone, as `Queue.Declare(queue="orders")`: in pamqp the reserved one has its place. Names are the standard's in
the spelling of Python, those of pamqp: `nowait`, `global_`, `exchange_type`, `message_type`. The generated `methods.pyi` has all of them.

`name in method`, `method[name]`, `len(method)` and `dict(method)` go by the fields, of properties by those that are set.
"""

import ctypes
import inspect
import keyword
from typing import Any, ClassVar, Dict, Iterator, List, Tuple, Type, cast

from . import _kinds as kinds
from ._library import SMALL, name_of


class Fields:
    """What methods and properties share: fields in slots, named in `__match_args__`."""

    __slots__ = ()
    __match_args__: ClassVar[Tuple[str, ...]] = ()
    #: The kind of each field (`feksroum.h` numbers them).
    kinds: ClassVar[Tuple[int, ...]] = ()
    #: The name and the kind of each.
    fields: ClassVar[Tuple[Tuple[str, int], ...]] = ()
    #: The values of the fields that are not given; of tables None, for which each gets a new one.
    defaults: ClassVar[Tuple[Any, ...]] = ()
    #: They are given by name alone.
    by_name: ClassVar[bool] = False

    def __init__(self, *values: Any, **named: Any) -> None:
        names = self.__match_args__
        if values and self.by_name:
            raise TypeError(f"{type(self).__qualname__} takes its fields by name, as {names[0]}={values[0]!r}")
        if len(values) > len(names):
            raise TypeError(f"{type(self).__qualname__} has {len(names)} fields, and {len(values)} were given")
        for name, value in zip(names, values):
            if name in named:
                raise TypeError(f"{type(self).__qualname__} got {name} twice")
            setattr(self, name, value)
        for place in range(len(values), len(names)):
            setattr(self, names[place], named.pop(names[place]) if names[place] in named else self._default(place))
        if named:
            raise TypeError(f"{type(self).__qualname__} has no field {', '.join(named)}")

    @classmethod
    def _default(cls, place: int) -> Any:
        return cls.defaults[place]

    def __eq__(self, other: object) -> bool:
        if type(other) is not type(self):
            return NotImplemented
        return all(getattr(self, name) == getattr(other, name) for name in self.__match_args__)

    __hash__ = None  # type: ignore[assignment]

    def __repr__(self) -> str:
        shown = ", ".join(f"{name}={getattr(self, name)!r}" for name in self.set_fields())
        return f"{type(self).__qualname__}({shown})"

    def set_fields(self) -> Tuple[str, ...]:
        """The names of the fields that are set: all of a method."""
        return self.__match_args__

    def __contains__(self, name: object) -> bool:
        return name in self.set_fields()

    def __getitem__(self, name: str) -> Any:
        if name not in self.set_fields():
            raise KeyError(name)
        return getattr(self, name)

    def __iter__(self) -> Iterator[Tuple[str, Any]]:
        """The name and the value of each field that is set."""
        return ((name, getattr(self, name)) for name in self.set_fields())

    def __len__(self) -> int:
        return len(self.set_fields())

    def __bool__(self) -> bool:
        return True


class Method(Fields):
    """A method: what a method frame carries."""

    __slots__ = ()
    #: The ids of its class and of itself. (Close has fields that are called class_id and method_id.)
    ids: ClassVar[Tuple[int, int]] = (0, 0)
    #: The standard's name, as "basic.get-ok".
    name: ClassVar[str] = ""
    #: A content header and bodies follow it.
    carries_content: ClassVar[bool] = False
    #: The peer answers it.
    wants_answer: ClassVar[bool] = False

    @classmethod
    def _default(cls, place: int) -> Any:
        return {} if cls.kinds[place] == kinds.TABLE else cls.defaults[place]


class _Properties(Fields):
    """The properties of a message: what a content header carries. None where one is not set."""

    __slots__ = ()

    def set_fields(self) -> Tuple[str, ...]:
        """The names of the properties that are set."""
        return tuple(name for name in self.__match_args__ if getattr(self, name) is not None)


_ZERO: Dict[int, Any] = {
    kinds.OCTET: 0, kinds.SHORT: 0, kinds.LONG: 0, kinds.LONG_LONG: 0, kinds.FLAG: False, kinds.SHORT_STRING: "",
    kinds.LONG_STRING: b"", kinds.TABLE: None,
}

#: The defaults that the standard, or RabbitMQ's extension of it, gives.
_DEFAULTS: Dict[Tuple[str, str], Any] = {
    ("connection.start", "version_minor"): 9,
    ("connection.start", "mechanisms"): b"PLAIN",
    ("connection.start", "locales"): b"en_US",
    ("connection.start-ok", "mechanism"): "PLAIN",
    ("connection.start-ok", "locale"): "en_US",
    ("connection.open", "virtual_host"): "/",
    ("access.request", "realm"): "/data",
    ("access.request", "passive"): True,
    ("access.request", "active"): True,
    ("access.request", "write"): True,
    ("access.request", "read"): True,
    ("exchange.declare", "exchange_type"): "direct",
    ("basic.reject", "requeue"): True,
    ("basic.nack", "requeue"): True,
}

#: The fields that are called otherwise than in the standard, as pamqp calls them: their names there are words of Python.
_RENAMED = {("exchange.declare", "type"): "exchange_type", ("properties", "type"): "message_type"}


#: The methods that have a reserved field before another one, as the standard lists them.
_BY_NAME = {
    *(f"exchange.{name}" for name in ("declare", "delete", "bind", "unbind")),
    *(f"queue.{name}" for name in ("declare", "bind", "purge", "delete", "unbind")),
    *(f"basic.{name}" for name in ("qos", "consume", "publish", "get")),
}


def _class_name(name: str) -> str:
    """A class's name: GetOk for get-ok."""
    return "".join(part.capitalize() for part in name.split("-"))


def _field_name(owner: str, name: str) -> str:
    """A field's name: delivery_tag for delivery-tag, nowait for no-wait, global_ for global."""
    renamed = _RENAMED.get((owner, name))
    if renamed:
        return renamed
    spelled = "nowait" if name == "no-wait" else name.replace("-", "_")
    return spelled + "_" if keyword.iskeyword(spelled) else spelled


def _signature(names: Tuple[str, ...], defaults: Tuple[Any, ...], by_name: bool) -> inspect.Signature:
    """What `help` shows of the arguments."""
    form = inspect.Parameter.KEYWORD_ONLY if by_name else inspect.Parameter.POSITIONAL_OR_KEYWORD
    return inspect.Signature([inspect.Parameter(name, form, default=default) for name, default in zip(names, defaults)])


def _method_class(row: Any, group: str) -> Type[Method]:
    """The class of a method, from its row of the library's table."""
    ids = row.class_id, row.method_id
    short_name = name_of(SMALL.feksroum_method_name, *ids)
    name = f"{name_of(SMALL.feksroum_class_name, ids[0])}.{short_name}"
    room = (ctypes.c_uint8 * 64)()
    shape = tuple(room[: SMALL.feksroum_shape(*ids, room, len(room))])
    names = tuple(_field_name(name, name_of(SMALL.feksroum_field_name, *ids, place)) for place in range(len(shape)))
    defaults = tuple(_DEFAULTS.get((name, field), _ZERO[kind]) for field, kind in zip(names, shape))
    members = {
        "__slots__": names,
        "__match_args__": names,
        "__module__": __name__,
        "__qualname__": f"{group}.{_class_name(short_name)}",
        "__doc__": f"The method {name}.",
        "__signature__": _signature(names, defaults, name in _BY_NAME),
        "by_name": name in _BY_NAME,
        "kinds": shape,
        "fields": tuple(zip(names, shape)),
        "defaults": defaults,
        "ids": ids,
        "name": name,
        "carries_content": row.carries_content,
        "wants_answer": row.wants_answer,
    }
    return cast(Type[Method], type(_class_name(short_name), (Method,), members))


def _method_classes() -> List[Type[Method]]:
    """The class of each method of the library's table, in its order."""
    made = []
    for k in range(256):
        row = SMALL.feksroum_method_at(k)
        if row.status:
            break
        made.append(_method_class(row, _class_name(name_of(SMALL.feksroum_class_name, row.class_id))))
    return made


def _groups(classes: List[Type[Method]]) -> Dict[str, type]:
    """The methods by their classes: Basic has Deliver, and so on."""
    members: Dict[str, Dict[str, Any]] = {}
    for method in classes:
        group = method.__qualname__.split(".")[0]
        head = {"__slots__": (), "__module__": __name__, "__doc__": f"The methods of the class {method.name.split('.')[0]}."}
        members.setdefault(group, head)[method.__name__] = method
    return {group: type(group, (), found) for group, found in members.items()}


def _properties_class() -> Type[_Properties]:
    """The class of the properties, from the library's table."""
    names, shape = [], []
    for place in range(256):
        kind = SMALL.feksroum_property_kind(place)
        if kind == 0:
            break
        shape.append(kind)
        names.append(_field_name("properties", name_of(SMALL.feksroum_property_name, place)))
    defaults = (None,) * len(names)
    members = {
        "__slots__": tuple(names),
        "__match_args__": tuple(names),
        "__module__": __name__,
        "__doc__": _Properties.__doc__,
        "__signature__": _signature(tuple(names), defaults, False),
        "kinds": tuple(shape),
        "fields": tuple(zip(names, shape)),
        "defaults": defaults,
    }
    return cast(Type[_Properties], type("Properties", (_Properties,), members))


Properties = _properties_class()
METHODS: Dict[Tuple[int, int], Type[Method]] = {method.ids: method for method in _method_classes()}
for _name, _group in _groups(list(METHODS.values())).items():
    globals()[_name] = _group
Basic = globals()["Basic"]
Basic.Properties = Properties
__all__ = ["Fields", "METHODS", "Method", "Properties", *sorted({method.__qualname__.split(".")[0] for method in METHODS.values()})]
