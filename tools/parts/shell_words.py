"""What may stand next in a line for the server, by the text before the cursor and the tables: what tools/shell completes.

`completions` gives the word at the text's end and the texts that may take its place. It reads no terminal and changes nothing.
"""
import dataclasses
import json
import re

from reference.plain_machine import BOUNDS, KINDS, MAX_PARTS, MORE_KEYS, OPS, SEQUENCES

# The words of the shell itself.
OWN_WORDS = (".explain", ".help", ".quit", ".raw off", ".raw on", ".schema")
TOKEN = re.compile(r'\s+|"(?:[^"\\]|\\.)*"|"(?:[^"\\]|\\.)*\Z|[][{}:,]|[^][{}:,"\s]+')
ENDS = {"{": "}", "[": "]"}
# With what the value of a key begins, where that is the same in each table.
BEGINS = {"h": '"', "hs": '["', "by": '["', "key": '["', "i": '"', "kind": '"', "r": '{"', "set": '{"', "add": '{"', "rollback": "true", "unique": "true"}
ROWS = ("r", "set", "add")
KEYS = ("k", *BOUNDS)
EXCLUDED = {"ge": "gt", "gt": "ge", "le": "lt", "lt": "le"}


@dataclasses.dataclass
class Part:
    """An object or an array that the text has begun and not ended, and what comes next in it: a key, a colon, a value or a comma."""

    sign: str
    wants: str
    key: str | None = None
    members: dict = dataclasses.field(default_factory=dict)

    def take(self, value):
        """Puts a value in that is whole."""
        self.members[self.key if self.sign == "{" else len(self.members)] = value
        self.wants = "comma"


class NoFront(Exception):
    """The text is no front of a command."""


def step(parts, token):
    """Takes one token that is whole."""
    at = parts[-1]
    if at.wants == "value" and token in ENDS:
        parts.append(Part(token, "key" if token == "{" else "value"))
    elif token == ENDS.get(at.sign) and (at.wants == "comma" or not at.members and at.wants in ("key", "value")):
        parts.pop()
        parts[-1].take(at.members if at.sign == "{" else list(at.members.values()))
    elif at.wants == "colon" and token == ":":
        at.wants = "value"
    elif at.wants == "comma" and token == "," and at.sign in ENDS:
        at.wants = "key" if at.sign == "{" else "value"
    elif at.wants == "key" and token.startswith('"'):
        at.key, at.wants = value_of(token), "colon"
    elif at.wants == "value" and token not in (*"}],:",):
        at.take(value_of(token))
    else:
        raise NoFront


def value_of(token):
    try:
        return json.loads(token)
    except ValueError as why:
        raise NoFront from why


def read_front(text):
    """What the text leaves open, the outermost first, and the word at its end that may go on."""
    parts, tokens = [Part("", "value")], TOKEN.findall(text)
    if "".join(tokens) != text:
        raise NoFront
    word = tokens.pop() if tokens and is_unended(tokens[-1]) else ""
    for token in tokens:
        if not token.isspace():
            step(parts, token)
    return parts, word


def is_unended(token):
    """Whether a word may go on where the text ends: a text without its closing quote, a number, or a part of `true`."""
    return re.fullmatch(r'"(?:[^"\\]|\\.)*|[^][{}:,"\s]+', token) is not None


def completions(text, tables):
    """The word at the text's end, and what may stand in its place: bare where there are several, and where there is one with what comes next."""
    if text.startswith("."):
        return text, [it for it in OWN_WORDS if it.startswith(text)]
    try:
        parts, word = read_front(text)
        found = [it for it in offered(parts, word, tables) if it[0].startswith(word)]
        if word[:1] not in ("", '"') and found in ([], [(word, "")]):
            # A number, or a whole `true`: what stands behind it.
            step(parts, word)
            found = [(word + bare, more) for bare, more in offered(parts, "", tables)]
    except NoFront:
        return "", []
    return word, ["".join(it) for it in found] if len(found) == 1 else [bare for bare, _ in found]


def offered(parts, word, tables):
    """What may stand next: each with what follows it."""
    if len(parts) == 1:
        return [('{"op":"', "")] if parts[0].wants == "value" else []
    said, at = parts[1].members, parts[-1]
    table = tables.get(said.get("t")) if isinstance(said.get("t"), str) else None
    if len(parts) == 2:
        return of_command(at, tables, table)
    name = parts[1].key
    if len(parts) == 3 and table and name in ROWS:
        return of_row(at, said, name, table)
    if len(parts) == 3 and table and name in KEYS:
        return of_key(at, said, table)
    if len(parts) == 3 and table and name in ("by", "key"):
        return of_parts(at, word, table)
    return []


def quoted(names, more=""):
    return [(f'"{it}"', more) for it in names]


# The command itself.


def of_command(at, tables, table):
    if at.wants == "value":
        return of_member(at.key, at.members, tables, table)
    needed, may = missing(at.members, table)
    if at.wants == "key":
        return [(f'"{it}"', f":{begin_of(it, at.members, table)}") for it in [*needed, *may]]
    if at.wants == "comma" and needed:
        return [(f',"{needed[0]}":', begin_of(needed[0], at.members, table))]
    if at.wants == "comma":
        ends = at.members["op"] != "modify" or at.members.keys() & {"set", "add"}
        return [("}", "")] * bool(ends) + [(f',"{it}":', begin_of(it, at.members, table)) for it in may]
    return []


def missing(said, table):
    """The keys that a command still needs, and those that it may have."""
    op = said.get("op")
    if op is None or not isinstance(op, str) or op not in OPS:
        return [it for it in ("op", "t") if it not in said], []
    needs, joined, _ = OPS[op]
    needed, may = ["t", *needs.split()], joined.split()
    if any(it in said for it in may):
        needed, may = needed + may, []
    may += sorted(MORE_KEYS.get(op, ()))
    may = [it for it in may if not table or it not in ("set", "add") or columns_left(said, it, table)]
    if op == "add_index" and "kind" in said:
        needed += ["key"] * (said["kind"] not in SEQUENCES)
        may = ["unique"] * (said["kind"] not in SEQUENCES)
    if table and op in ("insert", "erase") and not fitting(table, op):
        may = []
    stands = said.keys() | {EXCLUDED.get(it) for it in said}
    return [it for it in needed if it not in stands], [it for it in may if it not in stands and it not in needed]


def fitting(table, op):
    """The table's indices that the op takes."""
    kinds = OPS[op][2]
    return [it for it in table.indices if kinds is None or it.kind in kinds]


def begin_of(name, said, table):
    """With what the value of a key begins."""
    if name in KEYS:
        columns = key_columns(said, table)
        return f"[{begin_of_cell(columns[0])}" if columns else "["
    if name == "r" and table:
        first, column = next(iter(table.columns.items()))
        return f'{{"{first}":{begin_of_cell(column)}'
    return BEGINS.get(name, '"' if name in ("op", "t") else "")


def of_member(name, said, tables, table):
    """The values of a key."""
    if name == "op":
        return quoted(OPS, ',"t":"')
    if name == "t":
        return quoted(tables)
    if name == "i":
        op = said.get("op")
        if op == "add_index":
            return []
        around = [table] if table else tables.values()
        return quoted(dict.fromkeys(it.name for one in around for it in (fitting(one, op) if op in OPS else one.indices)))
    if name == "kind":
        return quoted(KINDS)
    if name in ("rollback", "unique"):
        return [("true", ""), ("false", "")]
    begin = begin_of(name, said, table)
    return [(begin, "")] if begin else []


# Rows, keys and lists of columns.


def columns_left(said, name, table):
    """The columns that may stand in a row, in `set` or in `add`, where the other of these two has none twice."""
    others = {it for other in ("set", "add") if other != name and isinstance(said.get(other), dict) for it in said[other]} if name != "r" else set()
    return [it for it, column in table.columns.items() if it not in others and (name != "add" or column.cell == "int")]


def of_row(at, said, name, table):
    """The columns of a row, and their cells."""
    left = [it for it in columns_left(said, name, table) if it not in at.members]
    if at.wants == "key":
        return [(f'"{it}"', f":{begin_of_cell(table.columns[it])}") for it in left]
    if at.wants == "comma":
        next_ones = [(f',"{it}":', begin_of_cell(table.columns[it])) for it in left]
        return (next_ones[:1] or [("}", "")]) if name == "r" else [("}", ""), *next_ones]
    column = table.columns.get(at.key)
    # (a null is no term, and what is added to a cell that is null leaves it so)
    return cells_of(column) if at.wants == "value" and column and name != "add" else []


def begin_of_cell(column):
    return '"' if column.cell == "text" and not column.null else ""


def cells_of(column):
    """What a cell of the column may be, as far as that is known."""
    found = {"bool": [("true", ""), ("false", "")], "text": [('"', "")], "int": []}[column.cell]
    return found + [("null", "")] * column.null


def key_columns(said, table):
    """The columns of the key of the index that a command names."""
    index = next((it for it in table.indices if it.name == said.get("i")), None) if table else None
    return [table.columns[it] for it, _ in index.parts] if index else []


def of_key(at, said, table):
    """The parts of a key."""
    columns, so_far = key_columns(said, table), len(at.members)
    if at.wants == "value":
        return cells_of(columns[so_far]) if so_far < len(columns) else []
    is_hashed = any(it.name == said.get("i") and it.kind == "hashed" for it in table.indices)
    needs_all = is_hashed or said.get("op") == "modify_key"
    goes_on = [(",", begin_of_cell(columns[so_far]))] if so_far < len(columns) else []
    return goes_on if goes_on and needs_all else [("]", ""), *goes_on]


def of_parts(at, word, table):
    """The columns of a list of them, where a `-` may stand before each."""
    named = {str(it).removeprefix("-") for it in at.members.values()}
    left = [it for it in table.columns if it not in named]
    if at.wants == "value":
        return quoted(f"-{it}" if word.startswith('"-') else it for it in left)
    return [("]", "")] + [(',"', "")] * bool(left and len(at.members) < MAX_PARTS)
