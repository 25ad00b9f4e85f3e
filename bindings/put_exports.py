"""The text of the exports of crates/amqp_c_put: one for each method, as amqp_put_methods has it, and for each kind of value."""

from typing import List, NamedTuple

import layout
import put_methods


def function(row):
    head = layout.function(
        f'pub extern "C" fn feksroum_put_{row.path()}',
        ["channel: u16", *put_methods.parameters(row), "max_payload: u32", "out: &mut [u8]"],
        "PutReport",
    )
    flaw = put_methods.flaw_words(row)
    clause = layout.clause(
        "ensures",
        "Reports (MakesMethod out.old out.new channel max_payload",
        [put_methods.method_words(row), [*flaw[:-1], flaw[-1] + ")"]],
        "result",
    )
    call = layout.call("    let put = ", f"put_{row.path()}", ["channel", *put_methods.arguments(row), "max_payload", "out"])
    return f"\n/// Puts a frame of {row.title()}.\n#[unsafe(no_mangle)]\n{head}{clause}{{\n{call};\n    report(put)\n}}\n"


def class_text(name, rows):
    made = put_methods.ghost_use("amqp_put.specs.Made", ["MakesMethod"])
    return (
        f"//! Frames of the methods of class {name}.\n\n"
        + put_methods.ghost_uses(rows, made)
        + put_methods.ghost_use("amqp_c_put.specs.Reports", ["Reports"])
        + "\nuse crate::report::{PutReport, report};\n"
        + layout.use("amqp_put_methods", sorted("put_" + row.path() for row in rows))
        + "".join(function(row) for row in rows)
    )


def modules_text(classes):
    return (
        "//! An export for each method, by classes. Made by bindings/generate from the rows of amqp_types, and not to be\n"
        "//! edited.\n\n" + "".join(f"mod {name};\n" for name in sorted(classes))
    )


class Kind(NamedTuple):
    """A kind of value: its name in C, its parameter in Rattle, the value that is appended, and the same as a definition."""

    name: str
    parameters: List[str]
    value: str
    meant: str
    flaw: str
    remark: str


def number(name, definition, remark):
    return Kind(name, [f"value: {name_of_number(name)}"], "value", definition + " value", "None", remark)


def name_of_number(name):
    """Rattle's type of int32 and the like."""
    return name.replace("uint", "u").replace("int", "i")


def bits(name, struct, definition, width, remark):
    member = "seconds" if name == "timestamp" else "bits"
    return Kind(name, [f"{member}: {width}"], f"{struct} {{ {member} }}", f"unsigned_value {definition} {member}", "None", remark)


def long_bytes(name, struct, definition, remark):
    return Kind(name, ["value: &[u8]"], f"{struct} {{ bytes: value }}", f"bytes_value {definition} value.now", "long_flaw value.now", remark)


def content(name, struct, remark):
    meant = f"{name}_value ({'entries' if name == 'table' else 'values'}_of ({name}_in (inner_depth - 1) value.now))"
    return Kind(name, ["value: &[u8]"], f"{struct}::new(value)", meant, f"{name}_flaw (inner_depth - 1) value.now", remark)


KINDS = [
    Kind("bool", ["value: bool"], "value", "boolean_value value", "None", "a truth value, `t`"),
    number("int8", "signed_value short_short_int", "a signed number of 1 byte, `b`"),
    number("uint8", "unsigned_value short_short_uint", "an unsigned number of 1 byte, `B`"),
    number("int16", "signed_value short_int", "a signed number of 2 bytes, `s`"),
    number("uint16", "unsigned_value short_uint", "an unsigned number of 2 bytes, `u`"),
    number("int32", "signed_value long_int", "a signed number of 4 bytes, `I`"),
    number("uint32", "unsigned_value long_uint", "an unsigned number of 4 bytes, `i`"),
    number("int64", "signed_value long_long_int", "a signed number of 8 bytes, `l`"),
    bits("float", "FloatValue", "float", "u32", "a number of 4 bytes with a fraction, `f`, by its bits"),
    bits("double", "DoubleValue", "double", "u64", "a number of 8 bytes with a fraction, `d`, by its bits"),
    Kind("decimal", ["scale: u8", "value: u32"], "DecimalValue { scale, value }", "decimal_value scale value", "None", "a scale and a number, `D`"),
    long_bytes("string", "LongStringValue", "long_string", "a long string, `S`"),
    content("array", "ArrayValue", "an array, `A`, by what fills it"),
    bits("timestamp", "TimestampValue", "timestamp", "u64", "a time, `T`, in seconds since the beginning of 1970"),
    content("table", "TableValue", "a table, `F`, by what fills it"),
    Kind("void", [], "VoidValue", "void_value", "None", "nothing, `V`"),
    long_bytes("bytes", "ByteArrayValue", "byte_array", "a byte array, `x`"),
]


def appender(kind, what, key):
    """An export that appends an entry or a value of this kind; `key` is a parameter or none."""
    head = layout.function(
        f'pub extern "C" fn feksroum_append_{what}_{kind.name}',
        ["out: &mut [u8]", "at: usize", *key, *kind.parameters],
        "PutReport",
    )
    value = f"({kind.meant})" if " " in kind.meant else kind.meant
    flaw = f"({kind.flaw})" if " " in kind.flaw else kind.flaw
    makes = "AppendsEntry out.old out.new at key.now" if key else "AppendsValue out.old out.new at"
    clause = layout.clause("ensures", f"Reports ({makes}", [[value], [flaw + ")"]], "result")
    given = ["out", "at", *(["key"] if key else []), "&value"]
    bound = "" if kind.value == "value" else f"    let value = {kind.value};\n"
    call = layout.call("    let put = ", f"append_{what}", given)
    article = "an entry" if key else "a value of an array"
    return f"\n/// Appends {article}: {kind.remark}.\n#[unsafe(no_mangle)]\n{head}{clause}{{\n{bound}{call};\n    report(put)\n}}\n"


def appenders_text(what, key, comment):
    structs = sorted({kind.value.split(" {")[0].split("::")[0] for kind in KINDS if kind.value != "value"} - {"DecimalValue"})
    use = put_methods.ghost_use
    words = sorted(
        {word for kind in KINDS for word in kind.meant.replace("(", " ").split() if word.endswith("_value") or word.endswith("_of")}
        | {kind.meant.split()[1] for kind in KINDS if kind.meant.split()[0] in ("signed_value", "unsigned_value", "bytes_value")}
    )
    return (
        f"//! {comment}\n\n"
        + use("std.specs.Prelude", ["◌-◌", "None"])
        + use("amqp_types.specs.Constants", ["inner_depth"])
        + use("amqp_types.specs.Values", words)
        + use("amqp_entries.specs.Appending", ["AppendsEntry" if key else "AppendsValue"])
        + use("amqp_entries.specs.Contents", ["array_flaw", "array_in", "table_flaw", "table_in"])
        + use("amqp_entries.specs.Flaws", ["long_flaw"])
        + use("amqp_c_put.specs.Reports", ["Reports"])
        + "\nuse crate::report::{PutReport, report};\n"
        + layout.use("amqp_entries", [*structs, f"append_{what}"])
        + "use amqp_types::DecimalValue;\n"
        + "".join(appender(kind, what, key) for kind in KINDS)
    )


def texts(rows):
    """Each file's path below the top of the repository, and its text."""
    source = "crates/amqp_c_put/src"
    classes = put_methods.by_class(rows)
    yield f"{source}/methods.rt", modules_text(classes)
    for name, found in classes.items():
        yield f"{source}/methods/{name}.rt", class_text(name, found)
    yield f"{source}/entries.rt", appenders_text("entry", ["key: &[u8]"], "Entries that are appended to what fills a table.")
    yield f"{source}/values.rt", appenders_text("value", [], "Values that are appended to what fills an array.")
