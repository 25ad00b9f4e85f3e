"""The text of include/feksroum_names.h: the table of names for C and C++."""

HEAD = """/* Feksroum: the table of names of AMQP 0-9-1, for C and C++: ids, places, reply codes, and names as strings.
 *
 * Made by bindings/generate from the library, and not to be edited. feksroum.h has the calls, and says how names are spelled. */
#ifndef FEKSROUM_NAMES_H
#define FEKSROUM_NAMES_H

#include <stdint.h>
"""


def constant(*names):
    """The name of an enumerator."""
    return "_".join(["FEKSROUM", *names]).upper().replace("-", "_")


def enum(rows):
    return "enum {\n" + ",\n".join(f"    {name} = {number}" for name, number in rows) + "\n};\n"


def enums(table):
    """Each with the comment above it."""
    yield "Classes.", [(constant("class", found.name), found.id) for found in table.classes]
    for found in table.classes:
        methods = [method for method in table.methods if method.class_id == found.id]
        yield f"Methods of {found.name}.", [(constant(found.name, method.name), method.method_id) for method in methods]
    for method in table.methods:
        if method.fields:
            places = [(constant(method.class_name, method.name, field.name), place) for place, field in enumerate(method.fields)]
            yield f"Places of the fields of {method.class_name}.{method.name}.", places
    yield "Places of properties.", [(constant("property", field.name), place) for place, field in enumerate(table.properties)]
    yield (
        "Reply codes. 200 is that of a close without an error. Of the 18 errors some close a channel, and others, the hard ones,\n"
        " * a connection.",
        [("FEKSROUM_REPLY_SUCCESS", 200)] + [(constant("reply", found.name), found.code) for found in table.reply_codes],
    )


def call(comment, result, head, cases, otherwise):
    """A function that is one switch."""
    lines = [f"/* {comment} */", f"static inline {result}{head} {{"]
    lines += cases
    lines += ["    default:", f"        return {otherwise};", "    }", "}"]
    return "\n".join(lines) + "\n"


def cases(rows):
    for label, value in rows:
        yield f"    case {label}:"
        yield f"        return {value};"


def quoted(name):
    return f'"{name}"'


def ids(method):
    return f"{method.class_id}u << 16 | {method.method_id}u"


def by_ids():
    return "    switch ((uint32_t)class_id << 16 | method_id) {"


def field_cases(table):
    for method in table.methods:
        if method.fields:
            names = ", ".join(quoted(field.name) for field in method.fields)
            yield f"    case {ids(method)}: {{ /* {method.class_name}.{method.name} */"
            yield f"        static const char *const names[] = {{{names}}};"
            yield f'        return place < {len(method.fields)} ? names[place] : "";'
            yield "    }"


def calls(table):
    yield call(
        'The name of a class; "" where there is none, as in the functions that follow.',
        "const char *",
        "feksroum_name_of_class(uint16_t class_id)",
        ["    switch (class_id) {", *cases((constant("class", found.name), quoted(found.name)) for found in table.classes)],
        '""',
    )
    yield call(
        "The name of a method.",
        "const char *",
        "feksroum_name_of_method(uint16_t class_id, uint16_t method_id)",
        [by_ids(), *cases((ids(method), quoted(method.name)) for method in table.methods)],
        '""',
    )
    yield call(
        "The name of the field at a place of a method.",
        "const char *",
        "feksroum_name_of_field(uint16_t class_id, uint16_t method_id, uint8_t place)",
        [by_ids(), *field_cases(table)],
        '""',
    )
    yield call(
        "The name of the property at a place.",
        "const char *",
        "feksroum_name_of_property(uint8_t place)",
        ["    switch (place) {", *cases((constant("property", field.name), quoted(field.name)) for field in table.properties)],
        '""',
    )
    yield call(
        "The name of a reply code, as `not-found`.",
        "const char *",
        "feksroum_name_of_reply(uint16_t reply_code)",
        [
            "    switch (reply_code) {",
            *cases([("FEKSROUM_REPLY_SUCCESS", quoted("reply-success"))]),
            *cases((constant("reply", found.name), quoted(found.name)) for found in table.reply_codes),
        ],
        '""',
    )
    hard = [f"    case {constant('reply', found.name)}:" for found in table.reply_codes if found.hard]
    yield call(
        "1 where a reply code is that of an error that closes a connection; else 0.",
        "int ",
        "feksroum_reply_is_hard(uint16_t reply_code)",
        ["    switch (reply_code) {", *hard, "        return 1;"],
        "0",
    )


def text(table):
    found = list(enums(table))
    names = [name for _, rows in found for name, _ in rows]
    if len(set(names)) != len(names):
        raise ValueError("two enumerators have one name")
    parts = [HEAD]
    parts += [f"/* {comment} */\n{enum(rows)}" for comment, rows in found]
    parts += ['#ifdef __cplusplus\nextern "C" {\n#endif\n', *calls(table), "#ifdef __cplusplus\n}\n#endif\n", "#endif\n"]
    return "\n".join(parts)
