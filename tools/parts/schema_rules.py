"""What a schema file may hold: finds its faults in the order in which the server tests them, each with its place and with what would be right."""
import dataclasses
import difflib
import re

from parts import toml_places
from reference.plain_machine import KINDS, MAX_INDICES, MAX_PARTS, SEQUENCES

CELLS = ("int", "text", "bool")
# The keys of a table, a column and an index, and of what kind the value of each is.
KEYS = {
    "table": {"name": "text", "max": "int", "column": "array", "index": "array"},
    "column": {"name": "text", "cell": "text", "null": "bool"},
    "index": {"name": "text", "kind": "text", "unique": "bool", "key": "array"},
}
OPTIONAL = {"max", "unique", "key", "null"}
TEXTS = {"cell": CELLS, "kind": KINDS}
MOST = {"tables": 16, "columns": 16, "indices": MAX_INDICES, "parts": MAX_PARTS, "max": 2**32 - 1}

WORDS = {
    "text": "a text in quotes",
    "int": "a whole number",
    "float": "a number with a fraction or an exponent",
    "bool": "true or false",
    "array": "an array",
    "table": "a table of keys",
    "date": "a date or a time",
    "null": "null",
}
# What a value of another kind should have been written as, by the key.
RIGHT = {
    "max": "max = 1000",
    "column": 'column = [{name = "id", cell = "int"}]',
    "index": 'index = [{name = "by_id", kind = "ordered", key = ["id"]}]',
    "cell": 'cell = "int"',
    "null": "null = true",
    "kind": 'kind = "ordered"',
    "unique": "unique = true",
    "key": 'key = ["id"]',
}
NAMES = {"table": "people", "column": "id", "index": "by_id"}
# Words that are often written for another, which is not near by its letters.
MEANT = {
    "table": {"columns": "column", "fields": "column", "field": "column", "indices": "index", "indexes": "index", "keys": "index", "size": "max"}
    | {"limit": "max", "capacity": "max", "most": "max", "rows": "max"},
    "column": {"type": "cell", "kind": "cell", "nullable": "null", "optional": "null"},
    "index": {"type": "kind", "columns": "key", "column": "key", "on": "key", "by": "key", "fields": "key"},
    "cell": {"integer": "int", "i64": "int", "number": "int", "long": "int", "string": "text", "str": "text", "varchar": "text", "boolean": "bool"},
    "kind": {"hash": "hashed", "sorted": "ordered", "tree": "ordered", "btree": "ordered"}
    | {"list": "sequenced", "sequence": "sequenced", "array": "random", "vector": "random", "random_access": "random", "rank": "ranked"},
}


@dataclasses.dataclass(frozen=True)
class Fault:
    """A fault: its name, a sentence, from where to where it stands in the file, and the place of what it contradicts, if there is such."""

    name: str
    sentence: str
    begin: int = 0
    end: int = 0
    first: int | None = None

    def told(self, text):
        """The sentence with the line of what it contradicts."""
        return self.sentence + ("" if self.first is None else f"; the first stands in line {toml_places.line_column(text, self.first)[0]}")


def fault(name, sentence, where, first=None):
    return Fault(name, sentence, where.begin, where.end, None if first is None else first.begin)


def quoted(word):
    return f'"{toml_places.shown(word)}"'


def nearest(word, what, words):
    """The one of the words that was probably meant, or None."""
    low = word.lower().strip()
    meant = MEANT.get(what, {}).get(low)
    found = difflib.get_close_matches(low, [it.lower() for it in words], 1, 0.6)
    return meant if meant in words else next((it for it in words if found and it.lower() == found[0]), None)


def name_of(value):
    """The name that a table, a column or an index has, or None."""
    name = value.held.get("name") if value.kind == "table" else None
    return name.value.held if name and name.value.kind == "text" else None


def called(what, at, value):
    name = name_of(value)
    return f"{what} {at + 1}" if name is None else f"{what} {quoted(name)}"


def held(value, key):
    """The value at a key, or None."""
    return value.held[key].value if key in value.held else None


def parts_of(at, table):
    """The columns and indices of a table: what each is, its value, and what it is called."""
    where = called("table", at, table)
    for what in ("column", "index"):
        found = held(table, what)
        for place, part in enumerate(found.held if found and found.kind == "array" else []):
            yield what, part, f"{called(what, place, part)} of {where}"


# The faults of shape.


def shape_faults(document):
    yield from document_faults(document)
    tables = held(document, "table")
    if tables is None:
        return
    if tables.kind != "array":
        hint = ": each table begins with the line [[table]]" if tables.kind == "table" else ""
        yield fault("shape", f'"table" is {WORDS[tables.kind]}, and has to be an array of tables{hint}', tables)
        return
    outside = document.held.keys() & KEYS["table"].keys()
    for at, table in enumerate(tables.held):
        yield from key_faults("table", table, called("table", at, table), outside)
        if table.kind == "table":
            for what, part, name in parts_of(at, table):
                yield from key_faults(what, part, name)


def document_faults(document):
    """The keys of the file beside `table`, and whether that is there."""
    others = {key: it for key, it in document.held.items() if key != "table"}
    for key, member in others.items():
        yield fault("shape", f"the file has a key {quoted(key)}, and may have \"table\" alone: {hint_outside(key, member.value)}", member)
    if "table" not in document.held and not others:
        yield fault("shape", "the file has no table: each begins with the line [[table]]", document)


def hint_outside(key, value):
    if key in ("column", "index") and value.kind in ("array", "table") and value.origin:
        return f"those of a table are [[table.{key}]] below its [[table]]"
    if key in KEYS["table"]:
        return "each table begins with the line [[table]], and its keys stand below that"
    if nearest(key, None, ["table"]):
        return 'did you mean "table"?'
    return "each table begins with the line [[table]], and its name is a key of it"


def key_faults(what, value, name, guessed=frozenset()):
    """Whether a value is a table of the keys that it should have, each with a value of its kind; guessed are keys that seem to stand elsewhere."""
    keys = KEYS[what]
    if value.kind != "table":
        right = RIGHT[what].partition("[")[2][:-1] if what in RIGHT else '{name = "people", ..}'
        yield fault("shape", f"{name} is {WORDS[value.kind]}, and has to be a table of keys, as {right}", value)
        return
    guessed = set(guessed)
    for key, member in value.held.items():
        if key not in keys:
            near = nearest(key, what, [it for it in keys if it not in value.held])
            guessed.add(near)
            yield fault("shape", f"{name} has a key {quoted(key)}, which is none of {', '.join(keys)}{hint_key(key, near, what)}", member)
    for key, kind in keys.items():
        if key not in value.held and key not in OPTIONAL and key not in guessed:
            yield fault("shape", f'{name} has no "{key}", as {example(what, key)}', value)
        elif key in value.held:
            yield from value_faults(what, key, held(value, key), name)


def hint_key(key, near, what):
    if near:
        return f'; did you mean "{near}"?'
    owner = next((it for it in KEYS if key in KEYS[it] and it != what), None)
    return f'; "{key}" is a key of a{"n" * (owner == "index")} {owner}' if owner else ""


def example(what, key):
    """How a key of a table, a column or an index may be written."""
    return f'name = "{NAMES[what]}"' if key == "name" else RIGHT[key]


def value_faults(what, key, value, name):
    """Whether a value is of its key's kind, and one of its texts where there are such."""
    kind = KEYS[what][key]
    if value.kind != kind:
        right = as_right(key, kind, value) or example(what, key)
        yield fault("shape", f'"{key}" of {name} is {WORDS[value.kind]}, and has to be {WORDS[kind]}, as {right}', value)
    elif key in TEXTS and value.held not in TEXTS[key]:
        near = hint_text(key, value.held)
        yield fault("shape", f'"{key}" of {name} is {quoted(value.held)}, which is none of {", ".join(TEXTS[key])}{near}', value)
    elif key == "key":
        for part in value.held:
            if part.kind != "text":
                yield fault("shape", f'"key" of {name} has {WORDS[part.kind]} in it, and has to have names of columns in quotes', part)


def as_right(key, kind, value):
    """What is there, written as the kind that it has to be; None where that can't be."""
    if key == "key" and value.kind == "text":
        return f"key = [{quoted(value.held)}]"
    if kind == "array" and value.kind == "table":
        return f"{key} = [{{..}}], or [[table.{key}]]" if value.origin else f"{key} = [{{..}}]"
    if value.kind == "text" and (kind == "bool" and value.held in ("true", "false") or kind == "int" and re.fullmatch("[1-9][0-9]*", value.held)):
        return f"{key} = {value.held}, without quotes"
    if kind == "int" and value.kind == "float" and value.held == value.held // 1 and 1 <= value.held <= MOST["max"]:
        return f"{key} = {int(value.held)}"
    if kind == "bool" and value.kind == "int" and value.held in (0, 1):
        return f"{key} = {'true' if value.held else 'false'}"
    return None


def hint_text(key, text):
    """What was meant by a text that is no cell or no kind."""
    both = re.fullmatch(r"(ordered|ranked|hashed)?[ _-]*(unique|non_unique|primary)", text.lower())
    if key == "kind" and both:
        more = "" if both[2] == "non_unique" else ", unique = true"
        return f'; did you mean kind = "{both[1] or "ordered"}"{more}?'
    if key == "cell" and text.lower() in ("float", "double", "decimal", "real"):
        return "; no cell holds a fraction"
    near = nearest(text, key, TEXTS[key])
    return f'; did you mean "{near}"?' if near else ""


# The faults of limits.


def limit_faults(tables, where):
    """`tables` are the tables of a file, and `where` is their array."""
    yield from count_faults(tables, "tables", "the file", where)
    for at, table in enumerate(tables):
        name, most = called("table", at, table), held(table, "max")
        if most and not 1 <= most.held <= MOST["max"]:
            yield fault("limit", f'"max" of {name} is {most.held}, and has to be 1 to {MOST["max"]}', most)
        for key, what in (("column", "columns"), ("index", "indices")):
            yield from count_faults(held(table, key).held, what, name, held(table, key))
        for what, part, of in parts_of(at, table):
            if what == "index" and "key" in part.held:
                yield from count_faults(held(part, "key").held, "parts", f"the key of {of}", held(part, "key"))


def count_faults(found, what, name, where):
    """Whether there are as many as there may be: a fault stands at the first that is too many, or where none is."""
    if not 1 <= len(found) <= MOST[what]:
        may = "may have" if found else "needs"
        yield fault("limit", f"{name} has {len(found) or 'no'} {what}, and {may} 1 to {MOST[what]}", found[MOST[what]] if found else where)


# The faults of names.


def name_faults(tables):
    yield from distinct_faults(((it, called("table", at, it)) for at, it in enumerate(tables)), "the tables")
    for at, table in enumerate(tables):
        for what, others in (("column", "the columns"), ("index", "the indices")):
            parts = ((part, name) for kind, part, name in parts_of(at, table) if kind == what)
            yield from distinct_faults(parts, f"{others} of {called('table', at, table)}")


def distinct_faults(parts, others):
    """Whether each name is one, and is none of those before it."""
    before = {}
    for part, name in parts:
        value = held(part, "name")
        why = name_fault(value.held)
        if why:
            yield fault("name", f"the name of {name} {why}", value)
        elif value.held in before:
            yield fault("name", f"the name of {name} stands twice among {others}", value, before[value.held])
        before.setdefault(value.held, value)


def name_fault(name):
    """Why a text is no name, or None."""
    if re.fullmatch("[A-Za-z0-9_]{1,32}", name):
        return None
    other = re.search("[^A-Za-z0-9_]", name)
    if not name:
        return "is empty, and needs 1 to 32 ASCII letters, digits or _"
    if other:
        right = re.sub("[^A-Za-z0-9_]", "_", name)
        hint = f'; did you mean "{right}"?' if re.fullmatch("(?!_+$)[A-Za-z0-9_]{1,32}", right) and name.isascii() else ""
        return f"has {quoted(other[0])}, and may have only ASCII letters, digits and _{hint}"
    return f"has {len(name)} characters, and may have 1 to 32"


# The faults of keys.


def key_rule_faults(tables):
    for at, table in enumerate(tables):
        for what, part, name in parts_of(at, table):
            if what == "index":
                yield from index_faults(table, part, name)


def index_faults(table, index, name):
    """Whether an index has the key that its kind has."""
    kind, key, unique = held(index, "kind").held, held(index, "key"), held(index, "unique")
    if kind in SEQUENCES:
        others = "leave it out, or take the kind ordered, ranked or hashed"
        if key:
            yield fault("key", f'{name}: an index of the kind "{kind}" has no key; {others}', index.held["key"])
        if unique and unique.held:
            yield fault("key", f'{name}: an index of the kind "{kind}" is never unique; {others}', index.held["unique"])
    elif key is None:
        column = name_of(held(table, "column").held[0])
        yield fault("key", f'{name}: an index of the kind "{kind}" needs a key, as key = ["{column}"]', index)
    else:
        yield from part_faults([name_of(it) for it in held(table, "column").held], kind, key, name)


def part_faults(columns, kind, key, name):
    before = {}
    for part in key.held:
        column = part.held.removeprefix("-")
        if column not in columns:
            yield fault("key", f"{name}: its key has {quoted(part.held)}, which is no column of the table{hint_part(part.held, columns)}", part)
        elif column in before:
            yield fault("key", f"{name}: its key has the column {quoted(column)} twice", part, before[column])
        elif kind == "hashed" and column != part.held:
            yield fault("key", f'{name}: a part of a hashed key has no - before it; did you mean "{column}"?', part)
        before.setdefault(column, part)


def hint_part(text, columns):
    """What column was meant by a part of a key."""
    several = re.split(r"[\s,]+", text)
    if len(several) > 1 and all(it.removeprefix("-") in columns for it in several):
        return f"; did you mean {', '.join(map(quoted, several))}?"
    words = text.lower().split()
    falls = text.startswith("-") or words[-1:] in (["desc"], ["descending"])
    bare = re.sub(r"(?i)\s+(asc|desc|ascending|descending)$", "", text).lstrip("+- ")
    found = bare if bare in columns else nearest(bare, None, columns)
    return f'; did you mean {quoted("-" * falls + found)}?' if found else f": its columns are {', '.join(columns)}"


# All of them.


def faults_of(data):
    """All faults of the first name that a file's bytes have, in the order of their places; its text; and its tables, where it has no fault."""
    text = data.decode("utf-8", "replace").removeprefix("\ufeff")
    try:
        text = toml_places.decoded(data)
        document = toml_places.read(text)
    except toml_places.Refused as why:
        return [Fault("toml", why.sentence, why.begin, why.end)], text, []
    found = list(shape_faults(document))
    if not found:
        where = held(document, "table")
        tests = (lambda: limit_faults(where.held, where), lambda: name_faults(where.held), lambda: key_rule_faults(where.held))
        found = next((faults for faults in (list(test()) for test in tests) if faults), [])
    return sorted(found, key=lambda it: it.begin), text, [] if found else [toml_places.plain(it) for it in where.held]
