"""What is wrong with a command on the tables of a schema, as tools/explain_line says it: the faults table, index, kind, row, key and definition.

Each function gives the causes, and the command without them.
"""
import re

from parts.line_examples import cell_near, days_of, first_column, fitting_indices, free_name, fresh_cell, index_near, key_near, key_sample, some_cell
from parts.line_words import OF_KIND, in_words, kinds_in_words, named, nearest, shown
from reference.plain_machine import MAX_INDICES, MAX_PARTS, OPS, SEQUENCES, SORTED, Column, Index, is_cell

KEYS = ("k", "ge", "gt", "le", "lt")
KIND_HINTS = {
    "nth": "an ordered index knows no places, and a ranked one does",
    "rank": "an ordered index knows no places, and a ranked one does",
}


def plural(count, word):
    return f"{count} {word}{'' if count == 1 else 's'}"


def parts_in_words(index):
    return in_words(("-" if falls else "") + name for name, falls in index.parts)


def index_in_words(index):
    key = f" by {parts_in_words(index)}" if index.parts else ""
    return f'"{index.name}" ({OF_KIND[index.kind]}{key})'


def indices_in_words(indices):
    return in_words(map(index_in_words, indices))


def cells_in_words(column):
    what = {"int": "a whole number of 64 bits", "text": "a text of at most 4,096 bytes", "bool": "true or false"}[column.cell]
    return f"{what}{', or null' if column.null else ''}"


def index_of(table, command):
    return next(it for it in table.indices if it.name == command["i"])


# The table and the index.


def advise_table(session, command):
    names = [*session.machine.tables]
    near = session.table_near(command["t"], command)
    close = nearest(command["t"], names)
    what = f'perhaps "{close}"' if close else f"the schema has {in_words(map(named, names))}"
    holders = [name for name, it in session.machine.tables.items() if command["t"] in [index.name for index in it.indices]]
    if holders and not close:
        what = f'that is an index of the table "{holders[0]}"'
    return [f"no table is called {named(command['t'])}: {what}"], command | {"t": near.name}


def advise_index(session, command):
    table, name, op = session.machine.tables[command["t"]], command["i"], command["op"]
    found = index_near(table, op, name, command.get("k"))
    close = nearest(name, [it.name for it in table.indices])
    if name in table.columns:
        by_it = [it for it in table.indices if it.parts[:1] and it.parts[0][0] == name]
        which = f"by which it has {indices_in_words(by_it)}" if by_it else f"and its indices are {indices_in_words(table.indices)}"
        why = f"{named(name)} is a column of it, {which}"
    elif close:
        why = f'perhaps "{close}"'
    else:
        why = f"its indices are {indices_in_words(table.indices)}"
    dropped = session.histories[table.name].dropped.get(name)
    if dropped:
        why = f"{session.line_called(dropped)}, a drop_index, took it from the table; {why}"
    meant = found.name if found else close or table.indices[0].name
    if name in table.columns and not by_it and OPS[op][2] & SORTED and len(table.indices) < MAX_INDICES:
        kind = "ordered" if "ordered" in OPS[op][2] else "ranked"
        by_name = Index({"name": "", "kind": kind, "key": [name]})
        return [f'table "{table.name}" has no index {named(name)}: {why}; add_index makes one by {name}'], added_for(table, op, by_name)
    keys = {} if close or not found or not found.parts else {key: key_for(table, found, command[key]) for key in KEYS if key in command}
    return [f'table "{table.name}" has no index {named(name)}: {why}'], command | {"i": meant} | keys


def advise_kind(session, command):
    table, op = session.machine.tables[command["t"]], command["op"]
    index, fitting = index_of(table, command), fitting_indices(table, op)
    what = f'"{index.name}" is {OF_KIND[index.kind]}, and {op} takes an index that is {kinds_in_words(OPS[op][2])}'
    if op == "erase":
        return [f'{what}: leave "i" out'], {it: command[it] for it in command if it != "i"}
    if op == "insert":
        without = {it: command[it] for it in command if it not in ("i", "p")}
        return [f'{what}: the {OF_KIND[index.kind]} index places its records itself, so leave "i" and "p" out'], without
    if fitting:
        # (a question about other columns is another one)
        alike = sorted((it for it in fitting if same_columns(table, index.name, it)), key=lambda it: parts_in_words(it) != parts_in_words(index))
        if index.parts and not alike and OPS[op][2] & SORTED and len(table.indices) < MAX_INDICES:
            return [f"{what}: here {indices_in_words(fitting)}; add_index makes one by {parts_in_words(index)}"], added_for(table, op, index)
        target = alike[0] if index.parts and alike else index_near(table, op, index.name, command.get("k"))
        return [f"{what}: here {indices_in_words(fitting)}"], with_index(table, command, target)
    hint = f" ({KIND_HINTS[op]})" if op in KIND_HINTS and index.kind == "ordered" else ""
    causes = [f'{what}{hint}: table "{table.name}" has none, and add_index gives it one']
    if len(table.indices) == MAX_INDICES:
        return [f"{causes[0]} once another is dropped"], {"op": "drop_index", "t": table.name, "i": index.name}
    return causes, added_for(table, op, index)


def with_index(table, command, index):
    """The command through another index, with a key of it where it has one."""
    changed = command | {"i": index.name}
    for key in KEYS:
        if key in changed and index.parts:
            changed[key] = key_near(table, index, changed[key], False) if same_columns(table, command["i"], index) else key_for(table, index, changed[key])
    return changed


def same_columns(table, name, index):
    old = next(it for it in table.indices if it.name == name)
    return [it for it, _ in old.parts][:1] == [it for it, _ in index.parts][:1]


def key_for(table, index, key):
    fits = 0 < len(key) <= len(index.parts) and all(is_cell(it, table.columns[name]) for it, (name, _) in zip(key, index.parts))
    return key if fits else key_sample(table, index)


def added_for(table, op, index):
    """A line that adds an index which the op takes."""
    kinds = OPS[op][2]
    kind = next(it for it in ("ordered", "ranked", "sequenced", "random", "hashed") if it in kinds)
    if kind in SEQUENCES:
        return {"op": "add_index", "t": table.name, "i": free_name(table, "in_sequence"), "kind": kind}
    parts = [("-" if falls and kind in SORTED else "") + name for name, falls in index.parts] or [first_column(table)]
    name = free_name(table, f"{kind}_by_{parts[0].removeprefix('-')}")
    return {"op": "add_index", "t": table.name, "i": name, "kind": kind, "key": parts}


# Rows.


def cell_fault(what, value, column):
    """Why a value is no cell of a column, in words."""
    if value is None:
        alone = "" if what.endswith('"add"') else " (null stands in a column with null = true alone)"
        return f"{what} is null, and has to be {cells_in_words(column)}{alone}"
    if column.cell == "text" and isinstance(value, str):
        return f"{what} is a text of {len(value.encode()):,} bytes, and a cell has at most 4,096"
    why = ""
    if column.cell == "int" and days_of(value) is not None:
        why = " (a date is one as its days since 1970)"
    elif column.cell == "int" and isinstance(value, float):
        why = " (an int has no point and no exponent, and is not -0)" if abs(value) < 2**63 else " (an int is from -2^63 to 2^63-1)"
    elif column.cell == "int" and isinstance(value, int) and not isinstance(value, bool):
        why = " (an int is from -2^63 to 2^63-1)"
    elif isinstance(value, str) and cell_near(value, column, None) is not None:
        why = " (without quotes)"
    elif column.cell == "text" and not isinstance(value, (list, dict)):
        why = " (in quotes)"
    spelling = "-0" if isinstance(value, float) and str(value) == "-0.0" else shown(value, 40)
    return f"{what} is {spelling}, and has to be {cells_in_words(column)}{why}"


def advise_row(session, command):
    table = session.machine.tables[command["t"]]
    if "r" in command:
        return advise_whole_row(table, command)
    causes, given, added = [], dict(command.get("set", {})), dict(command.get("add", {}))
    causes += mend_names(table, given, "set")
    causes += mend_names(table, added, "add")
    for name in [it for it in given if it in added]:
        causes.append(f'column "{name}" stands in "set" and in "add", and may stand in one')
        del added[name]
    for name in [it for it in given if not is_cell(given[it], table.columns[it])]:
        causes.append(cell_fault(f'"{name}" in "set"', given[name], table.columns[name]))
        given[name] = cell_near(given[name], table.columns[name], null_or(table, name, given[name]))
    for name in [*added]:
        mend_term(table, causes, given, added, name)
    changed = {it: value for it, value in (("set", given), ("add", added)) if value} or {"set": given}
    return causes, {it: command[it] for it in command if it not in ("set", "add")} | changed


def mend_names(table, cells, key):
    """Mends the names that are no columns, and says which they are."""
    causes = []
    for name in [it for it in cells if it not in table.columns]:
        close = nearest(name, [it for it in table.columns if it not in cells])
        value = cells.pop(name)
        if close:
            cells[close] = value
        causes.append(f'"{key}" has {named(name)}, which is no column of table "{table.name}": {unknown_column(table, close)}')
    return causes


def unknown_column(table, close):
    return f'perhaps "{close}"' if close else f"it has {in_words(table.columns)}"


def mend_term(table, causes, given, added, name):
    column, value = table.columns[name], added[name]
    if column.cell != "int":
        causes.append(f'"add" has "{name}", which is a column of {column.cell}s: only ints are added to; "set" gives a cell its value')
        del added[name]
        if is_cell(value, column) and value is not None:
            given.setdefault(name, value)
    elif not is_cell(value, Column("int")):
        causes.append(cell_fault(f'"{name}" in "add"', value, Column("int")))
        added[name] = cell_near(value, Column("int"), 1)


def null_or(table, name, value):
    """Null where a value is far from any cell and the column takes it, or some cell."""
    return None if value is None and table.columns[name].null else some_cell(table, name)


def advise_whole_row(table, command):
    causes, row = [], dict(command["r"])
    missing = [it for it in table.columns if it not in row]
    for name in [it for it in row if it not in table.columns]:
        close = nearest(name, missing)
        value = row.pop(name)
        if close:
            row[close] = value
            missing.remove(close)
        causes.append(f'the row has {named(name)}, which is no column of table "{table.name}": {unknown_column(table, close)}')
    if missing:
        hint = " (a cell that may be null stands in the row all the same)" if any(table.columns[it].null for it in missing) else ""
        causes.append(f"the row has no {in_words(map(named, missing))}{hint}")
    for name, column in table.columns.items():
        value = row.get(name)
        if name in row and not is_cell(value, column):
            causes.append(cell_fault(f'"{name}"', value, column))
            row[name] = cell_near(value, column, fresh_cell(table, name))
        elif name not in row:
            row[name] = None if column.null else fresh_cell(table, name)
    return causes, command | {"r": {it: row[it] for it in table.columns}}


# Keys.


def advise_key(session, command):
    table, op = session.machine.tables[command["t"]], command["op"]
    if "by" in command:
        return advise_columns(table, command)
    index, causes, changed = index_of(table, command), [], dict(command)
    for key in [it for it in KEYS if it in command]:
        whole = op == "modify_key" or key == "k" and index.kind == "hashed"
        why = key_faults(table, index, op, key, command[key], whole)
        if why:
            causes += why
            changed[key] = key_near(table, index, command[key], whole)
    return causes, changed


def key_faults(table, index, op, key, values, whole):
    count = len(index.parts)
    what = f'the key of "{index.name}" is {parts_in_words(index)}'
    if not values:
        return [f'"{key}" is empty: {what}, {"and all of it is needed" if whole else "and its first part at least is needed"}']
    if len(values) > count:
        return [f'"{key}" has {plural(len(values), "value")}: {what}, so it has {count} at most']
    if whole and len(values) < count:
        why = "a hashed index is searched by its whole key" if index.kind == "hashed" else f"{op} needs the whole key"
        return [f'"{key}" has {plural(len(values), "value")}: {what}, and {why}']
    parts = zip(values, index.parts)
    return [cell_fault(f'the value for "{name}" in "{key}"', it, table.columns[name]) for it, (name, _) in parts if not is_cell(it, table.columns[name])]


def advise_columns(table, command):
    """What is wrong with the columns of a sort."""
    parts, causes = command["by"], []
    if not parts:
        causes.append(f'"by" is empty, and has to have 1 to {MAX_PARTS} columns')
    if len(parts) > MAX_PARTS:
        causes.append(f'"by" has {len(parts)} columns, and may have {MAX_PARTS} at most')
    mended = mend_parts(table, parts, causes, '"by"')
    return causes, command | {"by": mended[:MAX_PARTS] or [first_column(table)]}


def mend_parts(table, parts, causes, what):
    """The parts that are columns, or near ones."""
    mended = []
    for it in parts:
        name, sign = it.removeprefix("-"), "-" * it.startswith("-")
        if name in table.columns:
            mended.append(it)
            continue
        close = nearest(name.strip("-+ ").split(" ")[0], table.columns)
        hint = " (a part that falls has - before it, and no word behind)" if re.search(r"(?i) (asc|desc)", name) else ""
        causes.append(f'{what} has {named(it)}, which is no column of table "{table.name}"{hint}: {unknown_column(table, close)}')
        if close:
            mended.append(("-" if re.search("(?i) desc", name) else sign) + close)
    return mended


# Definitions of indices.


def advise_definition(session, command):
    table = session.machine.tables[command["t"]]
    if command["op"] == "drop_index":
        index = table.indices[0]
        why = f'"{index.name}" is the only index of table "{table.name}", and a table keeps one: add another first'
        return [why], {"op": "add_index", "t": table.name, "i": free_name(table, "in_sequence"), "kind": "sequenced"}
    if len(table.indices) == MAX_INDICES:
        why = f'table "{table.name}" has {MAX_INDICES} indices, and may have no more: drop one first'
        return [why], {"op": "drop_index", "t": table.name, "i": table.indices[-1].name}
    causes, changed = [], dict(command)
    mend_index_name(table, causes, changed)
    if command["kind"] in SEQUENCES:
        for key in ("key", "unique"):
            if changed.pop(key, False) is not False:
                what = f"an index that is {OF_KIND[command['kind']]}"
                causes.append(f"{what} has no key" if key == "key" else f"{what} is not unique: it has no key")
    else:
        mend_definition_key(table, causes, changed)
    return causes, changed


def mend_index_name(table, causes, changed):
    name = changed["i"]
    if not re.fullmatch("[A-Za-z0-9_]{1,32}", name):
        causes.append(f"{named(name)} can't be an index's name, which is 1 to 32 ASCII letters, digits or _")
        changed["i"] = free_name(table, re.sub("[^A-Za-z0-9_]+", "_", name).strip("_")[:32] or "by_" + first_column(table))
    elif name in [it.name for it in table.indices]:
        causes.append(f'table "{table.name}" has an index "{name}" already')
        changed["i"] = free_name(table, name)


def mend_definition_key(table, causes, changed):
    kind, parts = changed["kind"], changed.get("key", [])
    if not parts:
        missing = "is empty" if "key" in changed else "is missing"
        causes.append(f'"key" {missing}: an index that is {OF_KIND[kind]} has 1 to {MAX_PARTS} columns as its key')
    if len(parts) > MAX_PARTS:
        causes.append(f'"key" has {len(parts)} columns, and may have {MAX_PARTS} at most')
    if kind == "hashed" and any(it.startswith("-") for it in parts):
        causes.append("a part of a hashed key has no - before it: a hashed index has no order")
        parts = [it.removeprefix("-") for it in parts]
    mended = []
    for it in mend_parts(table, parts, causes, '"key"'):
        if it.removeprefix("-") in [other.removeprefix("-") for other in mended]:
            causes.append(f'"key" has the column "{it.removeprefix("-")}" twice')
        else:
            mended.append(it)
    changed["key"] = mended[:MAX_PARTS] or [first_column(table)]
