"""The text of include/feksroum_methods.h: methods and properties as structs, and the calls that put and read them."""

import c_methods_text
from c_names import constant
from layout import filled

WIDTH = 120

TYPES = {1: "uint8_t", 2: "uint16_t", 3: "uint32_t", 4: "uint64_t", 5: "bool"}

OCTET, SHORT_STRING, LONG_STRING, TABLE = 1, 6, 7, 8

REMARKS = {SHORT_STRING: "a short string", LONG_STRING: "any bytes", TABLE: "what fills a table"}

#: words of C and C++ that no member may be called
KEYWORDS = {"class", "default", "delete", "export", "operator", "private", "public", "register", "return", "switch", "template", "this"}


def identifier(name):
    word = name.replace("-", "_")
    return word + "_" if word in KEYWORDS else word


def wrapped(head, words, tail=""):
    """A head with words in parentheses; further lines stand below the first word."""
    words = [word + "," for word in words[:-1]] + [words[-1] + ")" + tail]
    first, *rest = filled(words, " " * (len(head) + 1), WIDTH)
    return "\n".join([f"{head}({first.lstrip()}", *rest]) + "\n"


def path(method):
    return identifier(f"{method.class_name}_{method.name}")


def title(method):
    return f"{method.class_name}.{method.name} ({method.class_id}.{method.method_id})"


def member(field):
    """A member of a struct with what it is."""
    remark = f" /* {REMARKS[field.kind]} */" if field.kind in REMARKS else ""
    return f"    {TYPES.get(field.kind, 'feksroum_bytes')} {identifier(field.name)};{remark}\n"


def is_plain(field):
    return field.kind in TYPES


def parameters(field):
    name = identifier(field.name)
    return [f"{TYPES[field.kind]} {name}"] if is_plain(field) else [f"const uint8_t *{name}", f"size_t {name}_length"]


def arguments(field):
    name = identifier(field.name)
    return [f"m->{name}"] if is_plain(field) else [f"m->{name}.bytes", f"m->{name}.length"]


def attributes(words):
    """What compilers are told of pointers and lengths."""
    found = ["FEKSROUM_RESULT"]
    for place, word in enumerate(words, 1):
        if word.startswith("const uint8_t *"):
            found.append(f"FEKSROUM_READS({place}, {place + 1})")
        elif word.startswith("uint8_t *"):
            found.append(f"FEKSROUM_WRITES({place}, {place + 1})")
    return found


def declaration(name, words):
    """The declaration of an export."""
    line = wrapped(f"feksroum_made {name}", words).rstrip("\n")
    attached = " ".join(attributes(words))
    last = line.rsplit("\n", 1)[-1]
    if len(last) + len(attached) + 2 <= WIDTH:
        return f"{line} {attached};\n"
    return line + "\n" + "\n".join(filled(attributes(words), "    ", WIDTH - 1)) + ";\n"


OUT = ["uint32_t max_payload", "uint8_t *out", "size_t out_length"]


def export(method):
    words = ["uint16_t channel", *(word for field in method.fields for word in parameters(field)), *OUT]
    return declaration(f"feksroum_put_{path(method)}", words)


def struct(method):
    if not method.fields:
        return ""
    name = f"feksroum_{path(method)}"
    return f"typedef struct {name} {{\n{''.join(member(field) for field in method.fields)}}} {name};\n\n"


def put(method):
    name = f"feksroum_{path(method)}"
    given = [f"const {name} *m"] if method.fields else []
    words = ["channel", *(word for field in method.fields for word in arguments(field)), "max_payload", "out", "out_length"]
    head = wrapped(f"static inline feksroum_made {name}_put", ["uint16_t channel", *given, *OUT], " {")
    return head + wrapped(f"    return feksroum_put_{path(method)}", words, ";") + "}\n"


def taken(field, node):
    """A field out of its node."""
    if field.kind == 5:
        return f"{node}->number != 0"
    if is_plain(field):
        return f"({TYPES[field.kind]}){node}->number"
    return f"feksroum_bytes_of(bytes, {node})"


def read_lines(method):
    """The members out of the nodes: a table may have more nodes inside it."""
    for place, field in enumerate(method.fields):
        if place > 0:
            inside = " + nodes->inside" if method.fields[place - 1].kind == TABLE else ""
            yield f"    nodes += 1{inside};\n"
        yield f"    m->{identifier(field.name)} = {taken(field, 'nodes')};\n"


def read(method):
    name = f"feksroum_{path(method)}"
    test = f"class_id == {constant('class', method.class_name)} && method_id == {constant(method.class_name, method.name)}"
    if not method.fields:
        return wrapped(f"static inline bool {name}_read", ["uint16_t class_id", "uint16_t method_id"], " {") + f"    return {test};\n}}\n"
    words = [f"{name} *m", "uint16_t class_id", "uint16_t method_id", "const uint8_t *bytes", "const feksroum_node *nodes"]
    bytes_unused = "" if any(not is_plain(field) for field in method.fields) else "    (void)bytes;\n"
    head = wrapped(f"static inline bool {name}_read", words, " {")
    return f"{head}{bytes_unused}    if (!({test}))\n        return false;\n{''.join(read_lines(method))}    return true;\n}}\n"


def statuses(fields):
    """The statuses that putting these fields may return."""
    kinds = {field.kind for field in fields}
    found = [12, 40]
    if TABLE in kinds:
        found += [16, 19, 20]
    if kinds & {SHORT_STRING, TABLE}:
        found.append(18)
    if kinds & {SHORT_STRING, LONG_STRING, TABLE}:
        found.append(42)
    found.sort()
    return ", ".join(str(status) for status in [0, *found[:-1]]) + f" or {found[-1]}"


def comment(method):
    """What the method is, and what its put call may return."""
    follows = " A content header follows it." if method.carries_content else ""
    answered = " The other end answers it." if method.wants_answer else ""
    return f"/* {title(method)}.{follows}{answered} Put: status {statuses(method.fields)}. */\n"


def method_text(method):
    return f"{comment(method)}{struct(method)}{export(method)}\n{put(method)}\n{read(method)}"


def each_method(table):
    """The macro over all methods."""
    words = [f"{'with' if method.fields else 'without'}({path(method)})" for method in table.methods]
    lines = filled(words, "    ", WIDTH - 2)
    return c_methods_text.EACH_METHOD + "#define FEKSROUM_EACH_METHOD(with, without) \\\n" + " \\\n".join(lines) + "\n"


def has(field):
    return constant("has", field.name)


def bit(place):
    return f"0x{1 << (15 - place):04x}"


def property_constants(table):
    rows = ",\n".join(f"    {has(field)} = {bit(place)}" for place, field in enumerate(table.properties))
    return f"enum {{\n{rows}\n}};\n"


#: what a property is, where that can be said in a few words
PROPERTY_REMARKS = {
    "delivery-mode": "2 for a message that is to be kept, 1 for one that may be lost",
    "priority": "0 to 9, the highest",
    "timestamp": "seconds since the beginning of 1970",
}


def property_member(field):
    remark = PROPERTY_REMARKS.get(field.name)
    return member(field) if remark is None else f"    {TYPES[field.kind]} {identifier(field.name)}; /* {remark} */\n"


def properties_struct(table):
    """The members stand as the library has them: short numbers, long ones, strings and the table."""
    octets = [field for field in table.properties if field.kind == OCTET]
    numbers = [field for field in table.properties if is_plain(field) and field.kind != OCTET]
    others = [field for field in table.properties if not is_plain(field)]
    found = c_methods_text.PROPERTIES_STRUCT.replace("NUMBERS", "".join(property_member(field) for field in octets))
    return found.replace("MEMBERS", "".join(property_member(field) for field in numbers + others))


def property_cases(table):
    for place, field in enumerate(table.properties):
        yield f"        case {constant('property', field.name)}:\n"
        yield f"            p->{identifier(field.name)} = {taken(field, 'node')};\n            break;\n"


PLACE = ["uint8_t *out", "size_t out_length", "size_t at"]

BUFFER = ["buffer->bytes", "buffer->room", "buffer->length"]


def appender(export_name, name, comment, key_parameters, key, c_type, given, export_parameters, key_given):
    """An export, and the call that keeps its place in a buffer."""
    value = [f"{c_type} value"] if c_type else []
    head = wrapped(f"static inline void {name}", ["feksroum_buffer *buffer", *key, *value], " {")
    return (
        f"/* {comment} */\n"
        + declaration(export_name, [*PLACE, *key_parameters, *export_parameters])
        + "\n"
        + head
        + "    if (buffer->status == FEKSROUM_OK)\n"
        + wrapped(f"        feksroum_appended(buffer, {export_name}", [*BUFFER, *key_given, *given], ");")
        + "}\n"
    )


def appenders():
    """Those of entries, and those of values."""
    yield c_methods_text.APPENDERS
    for kind, c_type, given, parameters, comment in c_methods_text.KINDS:
        entry = f"feksroum_append_entry_{kind}"
        key_parameters = ["const uint8_t *key", "size_t key_length"]
        yield "\n" + appender(
            entry, f"feksroum_add_{kind}", comment, key_parameters, ["feksroum_bytes key"], c_type, given, parameters, ["key.bytes", "key.length"]
        )
        yield "\n" + appender(f"feksroum_append_value_{kind}", f"feksroum_push_{kind}", comment, [], [], c_type, given, parameters, [])


def text(table):
    names = [path(method) for method in table.methods]
    if len(set(names)) != len(names):
        raise ValueError("two methods have one name")
    return "".join(
        [
            c_methods_text.HEAD,
            "\n".join(method_text(method) for method in table.methods),
            each_method(table),
            c_methods_text.PROPERTIES_BEFORE,
            property_constants(table),
            properties_struct(table),
            c_methods_text.PROPERTIES_READ.replace("CASES", "".join(property_cases(table))),
            c_methods_text.OTHERS,
            *appenders(),
            c_methods_text.TAIL,
        ]
    )
