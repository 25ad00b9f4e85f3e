"""Rattle's text as `rt fmt` lays it out: as much of that as the generated files need."""

import textwrap

WIDTH = 100

#: how long the last list of names is at least, where that costs no further one
SHORTEST = 30

#: how long the arguments of a call or the members of a tuple, and those of a struct, are at most on one line
CALL_WIDTH = 60
STRUCT_WIDTH = 18


def filled(words, indent, width=WIDTH):
    """Words on as many lines as they need."""
    lines, line = [], ""
    for word in words:
        longer = f"{line} {word}" if line else word
        if line and len(indent) + len(longer) > width:
            lines.append(indent + line)
            longer = word
        line = longer
    return lines + [indent + line] if line else lines


def parted(names, width):
    """Names in as few lists as have room for them, of which the last is not short where others as many can be shorter."""

    def lists(most):
        return textwrap.wrap(", ".join(names) + ",", most + 1, break_long_words=False, break_on_hyphens=False) if names else []

    tries = [lists(most) for most in range(width, SHORTEST, -1)]
    found = max((it for it in tries if len(it) == len(tries[0])), key=lambda it: min(SHORTEST, len(it[-1])) if it else 0)
    return [it.rstrip(",") for it in found]


def use(path, names, before="use"):
    """An import of some names, which are in their order: a type before a function."""
    if len(names) == 1:
        return f"{before} {path}::{names[0]};\n"
    line = f"{before} {path}::{{{', '.join(names)}}};"
    if len(line) <= WIDTH:
        return line + "\n"
    words = filled([name + "," for name in names], "    ", WIDTH - 1)
    return "\n".join([f"{before} {path}::{{", *words, "};"]) + "\n"


def function(head, parameters, result):
    """The first lines of a function, up to its clauses."""
    line = f"{head}({', '.join(parameters)}) -> {result}"
    if len(line) <= WIDTH:
        return line + "\n"
    return "".join([f"{head}(\n", *(f"    {parameter},\n" for parameter in parameters), f") -> {result}\n"])


def call(before, name, arguments):
    """A call in a statement or at the end of a body; `before` is what stands in front of it on its line."""
    inside = ", ".join(arguments)
    line = f"{before}{name}({inside})"
    if len(inside) <= CALL_WIDTH and len(line) <= WIDTH - 1:
        return line
    indent = " " * (len(before) - len(before.lstrip()))
    return "\n".join([f"{before}{name}(", *(f"{indent}    {argument}," for argument in arguments), f"{indent})"])


class Tuple:
    """A tuple of expressions, each a text, a struct of one member or a tuple."""

    def __init__(self, *members):
        self.members = members

    def inside(self):
        return ", ".join(one_line(member) for member in self.members)


class Struct:
    """A struct with one member."""

    def __init__(self, name, member, value):
        self.name, self.member, self.value = name, member, value

    def inside(self):
        return f"{self.member}: {self.value}"


def one_line(value):
    if isinstance(value, str):
        return value
    if isinstance(value, Struct):
        return f"{value.name} {{ {value.inside()} }}"
    return f"({value.inside()})"


def fits(value):
    """Whether it stands on one line."""
    if isinstance(value, str):
        return True
    if isinstance(value, Struct):
        return len(value.inside()) <= STRUCT_WIDTH
    return len(value.inside()) <= CALL_WIDTH and all(fits(member) for member in value.members)


def laid_out(value, indent=""):
    """Its lines; the first one has no indent."""
    if fits(value):
        return one_line(value)
    more = indent + "    "
    if isinstance(value, Struct):
        return f"{value.name} {{\n{more}{value.inside()},\n{indent}}}"
    members = "".join(f"{more}{laid_out(member, more)},\n" for member in value.members)
    return f"(\n{members}{indent})"


def clause(word, head, parts, last):
    """A clause: the name of a definition, its arguments, each as words between which a line may end, and a last argument."""
    line = f"    {word} {{ {' '.join([head, *(' '.join(part) for part in parts), last])} }}"
    if len(line) <= WIDTH:
        return line + "\n"
    indent = " " * 8
    lines = [f"    {word} {{ {head}"]
    for part in parts:
        lines += filled(part, indent)
    if len(lines[-1]) + len(last) + 3 <= WIDTH:
        lines[-1] += f" {last} }}"
    else:
        lines.append(f"{indent}{last} }}")
    return "\n".join(lines) + "\n"
