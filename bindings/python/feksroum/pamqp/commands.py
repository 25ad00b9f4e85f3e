"""The methods and the properties as pamqp names them, made of the classes of feksroum.methods: `Basic.Deliver`, `Queue.DeclareOk` and so on,
with the reserved fields that pamqp has too."""

from typing import Any, Dict, List, Tuple, Type, cast

from .. import _kinds as kinds
from .. import methods as ours
from .._packing import PROPERTY_BITS
from .base import BasicProperties, Frame, text_of

_TYPES = {
    kinds.OCTET: "octet", kinds.SHORT: "short", kinds.LONG: "long", kinds.LONG_LONG: "longlong", kinds.FLAG: "bit",
    kinds.SHORT_STRING: "shortstr", kinds.LONG_STRING: "longstr", kinds.TABLE: "table",
}
#: A reserved field: its place among all fields, its name, its type and what it has to be.
_Reserved = Tuple[int, str, str, Any]
_TICKET: _Reserved = (0, "ticket", "short", 0)
_RESERVED: Dict[str, List[_Reserved]] = {
    "Connection.Open": [(1, "capabilities", "shortstr", ""), (2, "insist", "bit", False)],
    "Connection.OpenOk": [(0, "known_hosts", "shortstr", "")],
    "Channel.Open": [(0, "out_of_band", "shortstr", "0")],
    "Channel.OpenOk": [(0, "channel_id", "longstr", "0")],
    "Basic.Qos": [(0, "prefetch_size", "long", 0)],
    "Basic.GetEmpty": [(0, "cluster_id", "shortstr", "")],
    **{f"Exchange.{name}": [_TICKET] for name in ("Declare", "Delete", "Bind", "Unbind")},
    **{f"Queue.{name}": [_TICKET] for name in ("Declare", "Bind", "Purge", "Delete", "Unbind")},
    **{f"Basic.{name}": [_TICKET] for name in ("Consume", "Publish", "Get")},
}
#: The fields that are None where they are not given, beside the tables.
_NONE: Dict[str, Tuple[str, ...]] = {
    "Connection.Secure": ("challenge",), "Connection.SecureOk": ("response",), "Connection.UpdateSecret": ("new_secret", "reason"),
    "Connection.Close": ("reply_code", "class_id", "method_id"), "Channel.Close": ("reply_code", "class_id", "method_id"),
    "Channel.Flow": ("active",), "Channel.FlowOk": ("active",), "Queue.DeclareOk": ("queue", "message_count", "consumer_count"),
    "Queue.PurgeOk": ("message_count",), "Queue.DeleteOk": ("message_count",), "Basic.ConsumeOk": ("consumer_tag",),
    "Basic.Cancel": ("consumer_tag",), "Basic.CancelOk": ("consumer_tag",), "Basic.Return": ("reply_code", "routing_key"),
    "Basic.Deliver": ("consumer_tag", "delivery_tag", "routing_key"),
    "Basic.GetOk": ("delivery_tag", "routing_key", "message_count"), "Basic.Reject": ("delivery_tag",),
}


def _default(method: Type[ours.Method], name: str, place: int) -> Any:
    """What pamqp gives a field that is not given."""
    value = method.defaults[place]
    if name in _NONE.get(method.__qualname__, ()):
        return None
    return text_of(value) if isinstance(value, bytes) else value


def _method_class(method: Type[ours.Method]) -> Type[Frame]:
    """The class of a method."""
    name = method.__qualname__
    rows = [(field, _TYPES[kind], _default(method, field, place)) for place, (field, kind) in enumerate(method.fields)]
    reserved = _RESERVED.get(name, [])
    for place, field, kind, value in reserved:
        rows.insert(place, (field, kind, value))
    answers = {"Basic.Get": ["Basic.GetOk", "Basic.GetEmpty"]}.get(name, [f"{name}Ok"]) if method.wants_answer else []
    members = {
        "__slots__": [field for field, _, _ in rows], "__module__": __name__, "__qualname__": name, "__doc__": f"The method {method.name}.",
        "frame_id": method.ids[1], "index": method.ids[0] << 16 | method.ids[1], "name": name, "synchronous": method.wants_answer,
        "valid_responses": answers, "_ours": method, "_types": {field: kind for field, kind, _ in rows},
        "_defaults": tuple(value for _, _, value in rows), "_reserved": {field: value for _, field, _, value in reserved},
    }
    return cast(Type[Frame], type(method.__name__, (Frame,), members))


def _properties_class() -> Type[BasicProperties]:
    """The class of the properties."""
    names = ours.Properties.__match_args__
    kinds_of = {name: "timestamp" if name == "timestamp" else _TYPES[kind] for name, kind in ours.Properties.fields}
    members = {
        "__slots__": list(names), "__module__": __name__, "__qualname__": "Basic.Properties", "__doc__": BasicProperties.__doc__,
        "frame_id": 60, "index": 60, "name": "Basic.Properties", "flags": dict(zip(names, PROPERTY_BITS)), "_types": kinds_of,
        "_defaults": tuple("" if name == "cluster_id" else None for name in names), "_ours": ours.Properties,
    }
    return cast(Type[BasicProperties], type("Properties", (BasicProperties,), members))


def _group(name: str, found: List[Type[Frame]]) -> type:
    """The methods of a class of the standard."""
    members: Dict[str, Any] = {method.name.split(".")[1]: method for method in found}
    frame_id = found[0].index >> 16
    members.update(__slots__=[], __module__=__name__, __doc__=f"The methods of {name}.", frame_id=frame_id, index=frame_id << 16)
    return type(name, (), members)


def _groups() -> Dict[str, List[Type[Frame]]]:
    """The methods that pamqp has, by their classes."""
    found: Dict[str, List[Type[Frame]]] = {}
    for method in ours.METHODS.values():
        if not method.name.startswith("access."):
            found.setdefault(method.__qualname__.split(".")[0], []).append(_method_class(method))
    return found


#: The class of each method, by the number that its class and method ids are together.
INDEX_MAPPING: Dict[int, Type[Frame]] = {}
for _name, _found in _groups().items():
    globals()[_name] = _group(_name, _found)
    INDEX_MAPPING.update({method.index: method for method in _found})
Basic: Any = globals()["Basic"]
Basic.Properties = _properties_class()
#: The class of each method of feksroum.
OF_OURS: Dict[Type[ours.Method], Type[Frame]] = {method._ours: method for method in INDEX_MAPPING.values()}
