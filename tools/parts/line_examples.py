"""Values for the lines that tools/explain_line shows: those that were meant by others, and such as fit a table as it is."""
import datetime
import json
import math
import re

from parts.line_words import nearest
from reference.plain_machine import OPS, is_cell, spelled

HANDLE = re.compile("(0|[1-9][0-9]*):(0|[1-9][0-9]*)", re.ASCII)
EMPTY = {"int": 1, "text": "a", "bool": False}
TRUTHS = {"true": True, "yes": True, "on": True, "1": True, "false": False, "no": False, "off": False, "0": False}
MOST_BYTES = 4096


def is_handle(text):
    """Whether a text spells a handle, of a record that is there or not."""
    found = HANDLE.fullmatch(text)
    return bool(found) and len(text) < 40 and int(found[1]) < 2**32 and int(found[2]) < 2**64


def cut(text, most=MOST_BYTES):
    """The first characters of a text, as many as a cell may have."""
    return text.encode()[:most].decode("utf-8", "ignore")


def days_of(value):
    """The days from 1970 to the date that a text spells, or None."""
    found = re.fullmatch(r"\s*(\d{4}-\d\d-\d\d)([T ].*)?\s*", value, re.ASCII) if isinstance(value, str) else None
    try:
        return found and (datetime.date.fromisoformat(found[1]) - datetime.date(1970, 1, 1)).days
    except ValueError:
        return None


def whole_number(value):
    """The whole number that a value means, or None."""
    if days_of(value) is not None:
        return days_of(value)
    if isinstance(value, str) and re.fullmatch(r"\s*[-+]?[0-9]{1,30}(\.[0-9]*)?\s*", value):
        value = float(value) if "." in value else int(value)
    if isinstance(value, bool) or not isinstance(value, (int, float)) or not math.isfinite(value):
        return None
    return round(value)


def cell_near(value, column, other):
    """The cell of a column that a value means, or another."""
    if isinstance(value, list) and len(value) == 1:
        value = value[0]
    if column.cell == "int":
        value = whole_number(value)
    elif column.cell == "text" and isinstance(value, (str, int, float)):
        value = cut(value) if isinstance(value, str) else json.dumps(value)
    elif column.cell == "bool" and isinstance(value, (str, int, float)):
        value = TRUTHS.get(str(value).casefold().strip(), value if isinstance(value, bool) else None)
    return value if is_cell(value, column) and value is not None else other


def fresh_cell(table, name, again=0):
    """A cell of a column that no record has, where there is one."""
    column = table.columns[name]
    used = [it.row[name] for it in table.records]
    if column.cell == "int":
        numbers = [it for it in used if it is not None]
        return min(max(numbers, default=0) + 1 + again, 2**63 - 1)
    if column.cell == "text":
        return next(it for it in (f"a{k or ''}" for k in range(again, again + len(used) + 1)) if it not in used)
    return again % 2 == 1


def fresh_row(table):
    """A row that is banned by no record, where one is found."""
    rows = ({it: fresh_cell(table, it, again) for it in table.columns} for again in range(4))
    first, *others = rows
    return next((it for it in (first, *others) if not table.ban(it)), first)


def some_cell(table, name):
    """A cell of a column, as a record has it where there is one."""
    cells = [it.row[name] for it in table.records[:1] if it.row[name] is not None]
    return cells[0] if cells else EMPTY[table.columns[name].cell]


def key_near(table, index, values, whole):
    """The key of an index that values mean: as many as they are, or all."""
    count = len(index.parts) if whole else min(max(len(values), 1), len(index.parts))
    names = [name for name, _ in index.parts[:count]]
    others = [None if table.columns[it].null and None in values else some_cell(table, it) for it in names]
    near = [value if is_cell(value, table.columns[it]) else cell_near(value, table.columns[it], other) for value, it, other in zip(values, names, others)]
    return near + others[len(near) :]


def handle_near(table, value):
    """The handle that a value means: of a record where there is one."""
    numbers = re.findall("[0-9]{1,20}", json.dumps(value, default=str))[:2]
    if len(numbers) == 2 and is_handle(":".join(it.lstrip("0") or "0" for it in numbers)):
        return ":".join(it.lstrip("0") or "0" for it in numbers)
    records = sorted(table.records, key=lambda it: it.stamp) if table else []
    found = [it for it in records if numbers and it.slot == int(numbers[0])] or records
    return spelled(found[0]) if found else "0:1"


def fitting_indices(table, op):
    """The indices of a table that the op takes."""
    kinds = OPS[op][2]
    return [it for it in table.indices if kinds is None or it.kind in kinds]


def index_near(table, op, name=None, key=None):
    """The index of a table that was meant, among those that the op takes, or None."""
    fitting = fitting_indices(table, op)
    if not fitting:
        return None
    by_name = nearest(name, [it.name for it in fitting])
    if by_name:
        return next(it for it in fitting if it.name == by_name)
    by_column = [it for it in fitting if it.parts[:1] and it.parts[0][0] == name]
    meant = next((it for it in table.indices if it.name == name), None)
    if meant and not by_column:
        by_column = [it for it in fitting if meant.parts[:1] and it.parts[:1] and it.parts[0][0] == meant.parts[0][0]]
    by_key = [it for it in fitting if isinstance(key, list) and fits_key(table, it, key)]
    return (by_column or by_key or fitting)[0]


def fits_key(table, index, key):
    return 0 < len(key) <= len(index.parts) and all(is_cell(it, table.columns[name]) for it, (name, _) in zip(key, index.parts))


def key_sample(table, index, whole=True):
    """A key of an index, as some record has it."""
    parts = index.parts if whole else index.parts[:1]
    return [it.row[name] for it in table.records[:1] for name, _ in parts] or [some_cell(table, name) for name, _ in parts]


def value_for(table, op, key, said):
    """A value for a key that a command needs, on a table."""
    index = next((it for it in table.indices if it.name == said.get("i")), None)
    if key in ("k", "ge", "gt", "le", "lt"):
        index = index if index and index.parts else index_near(table, op)
        return key_sample(table, index) if index and index.parts else [1]
    if key == "set":
        return set_sample(table)
    if key == "i":
        if op == "add_index":
            return free_name(table, "by_" + first_column(table))
        found = index_near(table, op, None, said.get("k"))
        return found.name if found else table.indices[0].name
    values = {
        "h": lambda: owner(table, said.get("r")) or handle_near(table, None),
        "r": lambda: fresh_row(table),
        "add": lambda: {name: 1 for name, it in [*table.columns.items()] if it.cell == "int"},
        "hs": lambda: [spelled(it) for it in (table.lists[index] if index else table.records)],
        "by": lambda: [first_column(table)],
        "kind": lambda: "ordered" if "key" in said or "unique" in said else "sequenced",
        "key": lambda: [first_column(table)],
        "p": lambda: 0,
        "n": lambda: 0,
    }
    return values[key]()


def owner(table, row):
    """The handle of the record that has a row's key at a unique index, or None."""
    is_row = isinstance(row, dict) and row.keys() == table.columns.keys() and all(is_cell(row[it], table.columns[it]) for it in row)
    ban = table.ban(row) if is_row else None
    return ban and ban["h"]


def first_column(table):
    return next(iter(table.columns))


def free_name(table, name):
    """A name for an index that the table does not have yet."""
    taken = [it.name for it in table.indices]
    names = [name[:32], *(f"{name[:28]}_{k}" for k in range(2, 20))]
    return next(it for it in names if it not in taken)


def set_sample(table):
    """Cells to set that no unique index has: those of its first column without one."""
    in_unique = {name for it in table.indices if it.unique for name, _ in it.parts}
    name = next((it for it in table.columns if it not in in_unique), first_column(table))
    return {name: some_cell(table, name)}
