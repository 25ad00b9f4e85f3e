"""The rows of the methods as the definitions have them, with their reserved fields: out of crates/amqp_types/specs/Rows.antt.

The table of table.py has no reserved fields, which are only written. `compare` says whether both agree on all others.
"""

import os
import re
from typing import List, NamedTuple

HERE = os.path.dirname(os.path.abspath(__file__))
ROWS = os.path.join(HERE, "..", "crates", "amqp_types", "specs", "Rows.antt")

#: the numbers of the kinds in table.py, by their words in the rows
KINDS = {"octet": 1, "short": 2, "long": 3, "long_long": 4, "flags": 5, "short_string": 6, "long_string": 7, "table": 8}


class Slot(NamedTuple):
    """What stands at one place of a payload: one field, or as many flags as share a byte. `names` is empty where it is reserved."""

    form: str
    names: List[str]
    constant: int


class Row(NamedTuple):
    class_id: int
    method_id: int
    class_name: str
    name: str
    slots: List[Slot]

    def path(self):
        """Both names as one, as functions have it."""
        return f"{self.class_name}_{self.name}".replace("-", "_")

    def title(self):
        return f"{self.class_name}.{self.name}"


def _slots(text, names):
    for word in text.split("∷"):
        form, *rest = word.split()
        if form == "[]":
            continue
        count = int(rest[0]) if form == "flags" else 1
        taken = [next(names) for _ in range(count)]
        if form.startswith("reserved"):
            yield Slot(form, [], int(rest[0]) if rest else 0)
        else:
            yield Slot(form, taken, 0)


def read():
    """All of them, by classes, in the order of the definitions."""
    with open(ROWS, encoding="utf-8") as file:
        source = file.read()
    ids = {name: int(number) for number, name in re.findall(r"\((\d+), (\w+)_rows\) ∷", source)}
    found = []
    for class_name, rows in re.findall(r"abbrev pub (\w+)_rows : List Row\n\w+_rows =\n(.*?)\n    \[\]\n", source, re.S):
        for name, comment, number, slots in re.findall(r"-- ([\w-]+)(?:: (.*))?\n    \((\d+), (.*?)\) ∷", rows):
            names = iter(re.sub(r" \(.*?\)", "", comment).split(", "))
            found.append(Row(ids[class_name], int(number), class_name, name, list(_slots(slots, names))))
    if len(found) != 66:
        raise ValueError(f"{ROWS}: {len(found)} methods, and not 66")
    return found


def compare(rows, methods):
    """That the rows are the methods of the library, each with as many fields of the same kinds."""
    for row, method in zip(rows, methods):
        kinds = [KINDS[slot.form] for slot in row.slots for _ in slot.names]
        if (row.class_id, row.method_id, row.class_name, row.name) != method[:4] or kinds != [field.kind for field in method.fields]:
            raise ValueError(f"{row.title()} is not as the library has it")
    if len(rows) != len(methods):
        raise ValueError(f"{len(rows)} rows, and {len(methods)} methods")
