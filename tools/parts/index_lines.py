"""What comes of the lines `add_index` and `drop_index` on the tables that a schema file declares."""
import json

from parts.schema_rules import KEYS, called, index_faults, key_faults, limit_faults, name_faults, quoted
from parts.toml_places import placeless

# The keys of the two lines beside `op` and `t`.
ON_INDICES = {"add_index": ("i", "kind", "unique", "key"), "drop_index": ("i",)}


class Refused(Exception):
    """A line is refused: the name of its fault, and a sentence."""

    def __init__(self, name, sentence):
        super().__init__(sentence)
        self.name, self.sentence = name, sentence


def refuse_first(faults, name):
    for it in faults:
        raise Refused(name, it.sentence)


def said_by(line):
    """What a line says that adds or drops an index."""
    try:
        said = json.loads(line)
    except (ValueError, RecursionError) as why:
        raise Refused("json", f"it is no JSON: {why}")
    op = said.get("op") if isinstance(said, dict) else None
    if op not in ON_INDICES:
        raise Refused("command", f"its op is none of {', '.join(ON_INDICES)}")
    test_keys(said, op)
    return said


def test_keys(said, op):
    """Tests the keys of a line, and what each holds; what an index may be is the schema's."""
    keys = ("op", "t", *ON_INDICES[op])
    for key in said:
        if key not in keys:
            raise Refused("command", f"the line {op} has a key {quoted(key)}, which is none of {', '.join(keys)}")
    for key in ("t", "i"):
        if not isinstance(said.get(key), str):
            raise Refused("command", f'"{key}" of the line {op} is not a text' if key in said else f'the line {op} has no "{key}"')
    if op == "add_index":
        refuse_first(key_faults("index", placeless(index_of(said)), f"the line {op}"), "command")


def index_of(said):
    """The index that a line declares, as a schema file would have it."""
    return {"name": said["i"]} | {it: said[it] for it in KEYS["index"] if it in said}


def changed(tables, said):
    """The tables with an index more or one less."""
    at = next((at for at, it in enumerate(tables) if it["name"] == said["t"]), None)
    if at is None:
        raise Refused("table", f"there is no table {quoted(said['t'])}")
    others = [it for it in tables[at]["index"] if it["name"] != said["i"]]
    if said["op"] == "drop_index" and others == tables[at]["index"]:
        raise Refused("index", f"table {quoted(said['t'])} has no index {quoted(said['i'])}")
    indices = others if said["op"] == "drop_index" else [*tables[at]["index"], index_of(said)]
    table = tables[at] | {"index": indices}
    refuse_first(definition_faults(placeless(table), said), "definition")
    return [*tables[:at], table, *tables[at + 1 :]]


def definition_faults(table, said):
    """The faults of a table whose last index is new, or one of whose indices has gone."""
    yield from limit_faults([table], table)
    yield from name_faults([table])
    if said["op"] == "add_index":
        index = table.held["index"].value.held[-1]
        yield from index_faults(table, index, f'{called("index", 0, index)} of {called("table", 0, table)}')


def explain_lines(tables, lines):
    """Says what comes of each line. Returns whether one is refused."""
    refused = False
    for line in lines:
        try:
            said = said_by(line)
            tables = changed(tables, said)
        except Refused as why:
            refused = True
            print(f"{why.name}: {why.sentence}")
        else:
            names = next([it["name"] for it in table["index"]] for table in tables if table["name"] == said["t"])
            clash = ", unless two of its records have one key: clash" if said.get("unique") else ""
            print(f'ok: the indices of table "{said["t"]}" are {", ".join(names)}{clash}')
    return refused
