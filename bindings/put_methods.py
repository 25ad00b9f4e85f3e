"""The text of crates/amqp_put_methods/src: a call for each method, which puts its frame from its fields."""

import layout
from layout import Struct, Tuple

NUMBERS = {"octet": "u8", "short": "u16", "long": "u32", "long_long": "u64"}

RESERVED = {
    ("reserved_short", 0): "ReservedShort",
    ("reserved_short", 1): "ReservedTicket",
    ("reserved_long", 0): "ReservedLong",
    ("reserved_flag", 0): "ReservedFlag",
    ("reserved_short_string", 0): "ReservedShortString",
    ("reserved_long_string", 0): "ReservedLongString",
}

#: of strings and tables: what the field is in a frame, and why it is not written, as definitions
ITEMS = {"short_string": "text_item", "long_string": "bytes_item", "table": "entries_item"}
FLAWS = {"short_string": "text_flaw", "long_string": "long_flaw", "table": "table_flaw inner_depth"}

TACTIC = "#[tactic(auto, unfolding(amqp_types::specs::Rows::slots_at, amqp_types::specs::Rows::rows_of))]\n"


def type_of(form):
    if form == "flags":
        return "bool"
    return NUMBERS.get(form, "&[u8]")


def parameters(row):
    return [f"{name}: {type_of(slot.form)}" for slot in row.slots for name in slot.names]


def arguments(row):
    return [name for slot in row.slots for name in slot.names]


def item(form, name):
    """What a field gives where it is read."""
    if form == "flags":
        return f"flag_item {name}"
    if form in NUMBERS:
        return f"number_item {name}"
    if form == "table":
        return f"entries_item (table_in inner_depth {name}.now)"
    return f"{ITEMS[form]} {name}.now"


def listed(words):
    """A list, as words between which a line may end."""
    if not words:
        return ["[]"]
    first, *others = words
    found = [first, *(f"∷ {word}" for word in others)]
    return [*found[:-1], found[-1] + " ∷ []"]


def wrapped(before, words):
    """The words of a list as the last argument of a definition."""
    found = [before + words[0], *words[1:]]
    return [*found[:-1], found[-1] + "))"]


def method_words(row):
    """The method that is put."""
    items = listed([item(slot.form, name) for slot in row.slots for name in slot.names])
    if items == ["[]"]:
        return [f"(method {row.class_id} {row.method_id} [])"]
    return wrapped(f"(method {row.class_id} {row.method_id} (", items)


def flaw_words(row):
    """Why it is not put, but for its size."""
    flaws = [f"{FLAWS[slot.form]} {name}.now" for slot in row.slots for name in slot.names if slot.form in FLAWS]
    if not flaws:
        return ["None"]
    return wrapped("(first_flaw (", listed(flaws))


def field(slot):
    """What stands for a slot in the tuple."""
    if not slot.names:
        return RESERVED[slot.form, slot.constant]
    if slot.form == "flags" and len(slot.names) > 1:
        return Tuple(*slot.names)
    name = slot.names[0]
    if slot.form == "short_string":
        return Struct("Text", "bytes", name)
    if slot.form == "long_string":
        return Struct("LongBytes", "bytes", name)
    return f"TableContent::new({name})" if slot.form == "table" else name


def fields(row):
    found = "()"
    for slot in reversed(row.slots):
        found = Tuple(field(slot), found)
    return found


def function(row):
    head = layout.function(
        f"pub fn put_{row.path()}",
        ["channel: ChannelId", *parameters(row), "max_payload: u32", "out: &mut [u8]"],
        "Result<usize, PutError>",
    )
    clause = layout.clause(
        "ensures", "MakesMethod out.old out.new channel max_payload", [method_words(row), flaw_words(row)], "result"
    )
    return (
        f"\n/// Puts a frame of {row.title()}.\n{TACTIC}{head}{clause}{{\n"
        f"    let fields = {layout.laid_out(fields(row), '    ')};\n"
        f"    put_method_frame({row.class_id}, {row.method_id}, channel, &fields, max_payload, out)\n}}\n"
    )


def ghost_use(path, names):
    """An import of definitions, or several of the same module where one line has no room for all."""
    head = f"ghost use Rattle.{path}.{{"
    return "".join(f"{head}{part}}};\n" for part in layout.parted(names, layout.WIDTH - len(head + "};")))


def forms(rows):
    return {slot.form for row in rows for slot in row.slots if slot.names}


#: what contracts with a table name
TABLES = ghost_use("amqp_types.specs.Constants", ["inner_depth"]) + ghost_use("amqp_entries.specs.Contents", ["table_flaw", "table_in"])


def ghost_uses(rows, made):
    """The imports of the definitions that the contracts of these rows name; `made` is that of the word that they begin with."""
    found = forms(rows)
    items = sorted(
        {"flag_item"} & {"flag_item" for form in found if form == "flags"}
        | {"number_item" for form in found if form in NUMBERS}
        | {ITEMS[form] for form in found if form in ITEMS}
    )
    has_plain = any(flaw_words(row) == ["None"] for row in rows)
    flaws = sorted(FLAWS[form] for form in found & {"short_string", "long_string"})
    prelude = ["[]"] + (["◌∷◌"] if items else []) + (["None"] if has_plain else [])
    return (
        ghost_use("std.specs.Prelude", prelude)
        + ghost_use("amqp_types.specs.Methods", ["method"])
        + ghost_use("amqp_types.specs.Slots", items)
        + ghost_use("amqp_entries.specs.Flaws", flaws)
        + ghost_use("amqp_put.specs.Flaws", ["first_flaw"] if found & set(FLAWS) else [])
        + made
        + (TABLES if "table" in found else "")
    )


def by_class(rows):
    """The rows of each class."""
    found = {}
    for row in rows:
        found.setdefault(row.class_name, []).append(row)
    return found


def class_text(name, rows):
    names = {RESERVED[slot.form, slot.constant] for row in rows for slot in row.slots if not slot.names}
    names |= {word for form, word in (("short_string", "Text"), ("long_string", "LongBytes"), ("table", "TableContent")) if form in forms(rows)}
    made = ghost_use("amqp_put.specs.Made", ["MakesMethod"])
    return (
        f"//! Frames of the methods of class {name}.\n\n"
        + ghost_uses(rows, made)
        + "\n"
        + layout.use("amqp_put", [*sorted(names | {"PutError"}), "put_method_frame"])
        + "use amqp_types::ChannelId;\n"
        + "".join(function(row) for row in rows)
    )


def modules_text(rows, comment, prefix):
    """The module of all classes."""
    classes = by_class(rows)
    names = sorted(classes)
    return (
        f"//! {comment}\n\n"
        + "".join(f"mod {name};\n" for name in names)
        + "\n"
        + "".join(layout.use(name, sorted(prefix + row.path() for row in classes[name]), "pub use") for name in names)
    )


def lib_text(rows):
    return (
        "//! A call for each method: it puts the method's frame from its fields. Made by bindings/generate from the rows of\n"
        "//! amqp_types, and not to be edited.\n"
        "#![tactic(auto)]\n\nmod methods;\n\n"
        + layout.use("methods", sorted("put_" + row.path() for row in rows), "pub use")
    )


def texts(rows):
    """Each file's path below the top of the repository, and its text."""
    source = "crates/amqp_put_methods/src"
    yield f"{source}/lib.rt", lib_text(rows)
    yield f"{source}/methods.rt", modules_text(rows, "One call for each method, by classes.", "put_")
    for name, found in by_class(rows).items():
        yield f"{source}/methods/{name}.rt", class_text(name, found)
