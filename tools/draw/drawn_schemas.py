"""Draws schema files: written in all ways of TOML 1.1, whole or with one fault at a known place; and changed ones, of which most are no TOML."""
import dataclasses
import glob
import os
import re

from parts.schema_rules import CELLS, KEYS
from reference.plain_machine import KINDS, SEQUENCES

HERE = os.path.dirname(os.path.abspath(__file__))
WRITTEN = 300
CHANGED = 400
SCALARS = 200

# What changes put into schemas: words and signs of schemas and of TOML.
PUT = [it for keys in KEYS.values() for it in keys] + [f'"{it}"' for it in (*CELLS, *KINDS, "id", "-id", "a b", "")]
PUT += "[ ] { } , . = # \n \r\n ' \" \"\"\" ''' \\ \t \r \x01 \x7f \ufeff é - _ [[table]] [table] [[table.column]] [table.index] {} []".split(" ")
PUT += ["true", "0", "1", "17", "4294967296", "1979-05-27", "1979-05-27 07:32", '"\\e\\x41"', '"\\ud800"', '"\\q"', "'''\n'''"]
TOKENS = re.compile(r"\w+|\s+|\"\"\"|'''|.", re.S)
# What scalars are put together of.
SCALAR = ["0", "1", "9", "10", "12", "30", "31", "60", "_", "+", "-", ".", ":", "e", "E", "x", "o", "b", "f", "T", "t", "Z", " ", "inf", "nan"]
SCALAR += ["true", "0x", "0b", "1979-", "02-", "2000-02-29", "07:32", ":00", "T07:32:00", "+01:30", "9223372036854775807", "8000000000000000"]


@dataclasses.dataclass
class Drawn:
    """A file, its fault and the fault's place in the text without the byte order mark, as far as they are known."""

    text: str
    fault: str | None = None
    place: int | None = None


@dataclasses.dataclass
class Mark:
    """A key, a value or a table that a fault is about."""

    held: object


def keys_of(pairs):
    return [it.held if isinstance(it, Mark) else it for it, _ in pairs]


class Writer:
    """Writes a schema in drawn ways: a table is a tuple of pairs, an array a list."""

    def __init__(self, draw):
        self.draw, self.text, self.place = draw, "", None
        # (whether it keeps to TOML 1.0, which tomllib reads)
        self.is_old = draw.randrange(3) == 0

    def put(self, *pieces):
        self.text += "".join(pieces)

    def opened(self, it):
        """What a mark marks, whose place is here."""
        if not isinstance(it, Mark):
            return it
        self.place = len(self.text)
        return it.held

    def gap(self, old):
        """Blank space, in an inline table of TOML 1.0 without an end of line."""
        self.put(self.draw.choice(("", "", "", " ", "\t ") if old else ("", "", "", " ", "\n  ", ' # "id", {name = "town"}\n', "\n\n\t")))

    def text_of(self, word):
        quotes = self.draw.choice(('"', '"', "'", '"""', "'''"))
        if quotes[0] == '"' and word and not self.is_old and self.draw.randrange(4) == 0:
            word = f"\\x{ord(word[0]):02x}{word[1:]}"
        return f"{quotes}{word}{quotes}"

    def key(self, key):
        key = self.opened(key)
        self.put(key if self.draw.randrange(5) else self.draw.choice((f'"{key}"', f"'{key}'")))

    def value(self, it):
        it = self.opened(it)
        if isinstance(it, bool):
            self.put("true" if it else "false")
        elif isinstance(it, int):
            self.put(self.draw.choice((str(it), f"+{it}", f"0x{it:X}")) if it > 0 else str(it))
        elif isinstance(it, str):
            self.put(self.text_of(it))
        else:
            self.members(it)

    def members(self, it):
        """An inline table or an array."""
        old = self.is_old and isinstance(it, tuple)
        self.put("{" if isinstance(it, tuple) else "[")
        for place, member in enumerate(it):
            self.gap(old)
            if isinstance(it, tuple):
                self.pair(*member)
            else:
                self.value(member)
            self.gap(old)
            self.put("," if place + 1 < len(it) or not old and self.draw.randrange(3) == 0 else "")
        self.gap(old)
        self.put("}" if isinstance(it, tuple) else "]")

    def pair(self, key, value):
        self.key(key)
        self.put(self.draw.choice((" = ", "=", "\t=  ")))
        self.value(value)

    def section(self, header, pairs):
        """A table by its header, below it the pairs, and behind these some arrays as tables of their own."""
        pairs, later = self.headed(header, pairs), []
        for key, value in pairs:
            if isinstance(value, list) and value and isinstance(value[0], (tuple, Mark)) and key in KEYS["table"] and self.draw.randrange(3) == 0:
                later.append((key, value))
                continue
            self.put(self.draw.choice(("", "  ")))
            self.pair(key, value)
            self.put(self.draw.choice(("\n", " # = [[table]]\n", "\n\n")))
        for key, value in later:
            for it in value:
                self.section(f"{header}.{key}", it)

    def headed(self, header, pairs):
        if self.draw.randrange(3) == 0:
            self.put("# ", header, " {[\n")
        self.put(self.draw.choice(("", " ")))
        pairs = self.opened(pairs)
        self.put("[[", self.draw.choice((header, f" {header}\t")), "]]\n")
        return pairs

    def file(self, tables):
        if self.draw.randrange(4) == 0:
            self.pair("table", tables)
        else:
            for it in tables:
                self.section("table", it)


def table_of(draw, name):
    """A table that has no fault: 2 to 4 columns, and 2 to 4 indices."""
    columns = draw.sample(["id", "town", "name", "cell", "key", "x_1", "Y"], draw.randint(2, 4))
    made = [(("name", it), ("cell", draw.choice(CELLS)), *((("null", True),) * draw.randrange(2))) for it in columns]
    indices = [index_of(draw, it, columns) for it in draw.sample(["q", "u", "id", "by_town", "index"], draw.randint(2, 4))]
    pairs = [("name", name), ("column", made), ("index", indices)] + [("max", draw.choice((1, 40, 2**32 - 1)))] * draw.randrange(2)
    draw.shuffle(pairs)
    return tuple(pairs)


def index_of(draw, name, columns):
    kind = draw.choice(KINDS)
    pairs = [("name", name), ("kind", kind)]
    if kind not in SEQUENCES:
        parts = draw.sample(columns, draw.randint(1, 2))
        pairs += [("key", [it if kind == "hashed" or draw.randrange(2) else f"-{it}" for it in parts]), ("unique", draw.choice((True, False)))]
    draw.shuffle(pairs)
    return tuple(pairs)


def get(pairs, key):
    return next((value for name, value in pairs if name == key), None)


def with_pair(pairs, key, value):
    """The pairs with another value at a key, or with one more pair."""
    if key in keys_of(pairs):
        return tuple((name, value if name == key else old) for name, old in pairs)
    return (*pairs, (key, value))


# Faults: each makes of a table's pairs such with one fault, which is marked; or None where it can't.


def bad_column(pairs, draw, change):
    columns = list(get(pairs, "column"))
    at = draw.randrange(1, len(columns))
    columns[at] = change(columns[at], columns)
    return with_pair(pairs, "column", columns)


def bad_index(pairs, draw, change):
    indices = list(get(pairs, "index"))
    at = draw.randrange(1, len(indices))
    indices[at] = change(indices[at], indices)
    return with_pair(pairs, "index", indices) if indices[at] else None


def bad_part(pairs, part):
    """An index whose key has a marked part last."""
    if get(pairs, "kind") in SEQUENCES:
        return None
    return with_pair(pairs, "key", [*get(pairs, "key"), Mark(part)])


def in_sequence(pairs, key, value):
    return (*pairs, (Mark(key), value)) if get(pairs, "kind") in SEQUENCES else None


def falling_in_hashed(pairs):
    return with_pair(pairs, "key", [Mark("-" + get(pairs, "key")[0])]) if get(pairs, "kind") == "hashed" else None


FAULTS = [
    ("shape", lambda pairs, draw: bad_column(pairs, draw, lambda it, _: with_pair(it, "cell", Mark(draw.choice(("Int", "txt", "", "float")))))),
    ("shape", lambda pairs, draw: bad_column(pairs, draw, lambda it, _: with_pair(it, "null", Mark(draw.choice((0, 1, "true")))))),
    ("shape", lambda pairs, draw: bad_column(pairs, draw, lambda it, _: (it[0], (Mark("unique"), True), *it[1:]))),
    ("shape", lambda pairs, draw: bad_column(pairs, draw, lambda it, _: Mark((it[0], *it[2:])))),
    ("shape", lambda pairs, draw: bad_index(pairs, draw, lambda it, _: with_pair(it, "kind", Mark(draw.choice(("hash", "tree", "Ranked")))))),
    ("shape", lambda pairs, draw: bad_index(pairs, draw, lambda it, _: with_pair(it, "key", Mark("id")))),
    ("shape", lambda pairs, draw: with_pair(pairs, "max", Mark("40"))),
    ("limit", lambda pairs, draw: with_pair(pairs, "max", Mark(draw.choice((0, -1, 2**32))))),
    ("limit", lambda pairs, draw: bad_index(pairs, draw, lambda it, _: with_pair(it, "key", Mark([])))),
    ("limit", lambda pairs, draw: bad_index(pairs, draw, lambda it, _: with_pair(it, "key", ["a", "b", "c", "d", Mark("e"), "f"]))),
    ("name", lambda pairs, draw: bad_column(pairs, draw, lambda it, all_of: with_pair(it, "name", Mark(get(all_of[0], "name"))))),
    ("name", lambda pairs, draw: bad_index(pairs, draw, lambda it, all_of: with_pair(it, "name", Mark(get(all_of[0], "name"))))),
    ("name", lambda pairs, draw: with_pair(pairs, "name", Mark(draw.choice(("first", "a b", "", "k" * 33, "é"))))),
    ("key", lambda pairs, draw: bad_index(pairs, draw, lambda it, _: bad_part(it, draw.choice(("twon", "ID", "", "-"))))),
    ("key", lambda pairs, draw: bad_index(pairs, draw, lambda it, _: bad_part(it, get(it, "key")[0].removeprefix("-") if get(it, "key") else ""))),
    ("key", lambda pairs, draw: bad_index(pairs, draw, lambda it, _: in_sequence(it, "unique", True))),
    ("key", lambda pairs, draw: bad_index(pairs, draw, lambda it, _: in_sequence(it, "key", ["id"]))),
    ("key", lambda pairs, draw: bad_index(pairs, draw, lambda it, _: falling_in_hashed(it))),
    (None, lambda pairs, draw: pairs),
]


def written(draw):
    """A schema of two or three tables, with one fault or none, in drawn ways of TOML."""
    tables = [table_of(draw, it) for it in ("first", "second", "third")[: draw.randint(2, 3)]]
    fault, change = draw.choice(FAULTS)
    at = draw.randrange(1, len(tables))
    tables[at] = change(tables[at], draw)
    if tables[at] is None:
        return written(draw)
    writer = Writer(draw)
    writer.file(tables)
    text, place = writer.text, writer.place
    if draw.randrange(4) == 0:
        place = None if place is None else place + text.count("\n", 0, place)
        text = text.replace("\n", "\r\n")
    return Drawn("\ufeff" * (draw.randrange(4) == 0) + text, fault or "valid", place)


def changed(draw, text):
    """A text with one to three changes of its tokens."""
    tokens = TOKENS.findall(text)
    for _ in range(draw.choice((1, 1, 2, 3))):
        at, how = draw.randrange(len(tokens)), draw.randrange(6)
        if how == 0:
            del tokens[at : at + draw.choice((1, 1, 2, 8))]
        elif how == 1:
            tokens.insert(at, draw.choice(PUT))
        elif how == 2:
            tokens[at] = draw.choice(PUT)
        elif how == 3:
            tokens[at:at] = draw.choice(tokens), draw.choice(("", " ", "\n", ", "))
        elif how == 4:
            other = draw.randrange(len(tokens))
            tokens[at], tokens[other] = tokens[other], tokens[at]
        else:
            tokens[at] = draw.choice(tokens)
    return "".join(tokens)


def drawn_schemas(draw):
    texts = []
    for it in sorted(glob.glob(f"{HERE}/../../examples/*/schema.toml")):
        with open(it, encoding="utf-8") as file:
            texts.append(file.read())
            yield Drawn(texts[-1], "valid")
    for _ in range(WRITTEN):
        it = written(draw)
        texts.append(it.text)
        yield it
    for _ in range(CHANGED):
        yield Drawn(changed(draw, draw.choice(texts)))
    for _ in range(SCALARS):
        yield Drawn("x = " + "".join(draw.choice(SCALAR) for _ in range(draw.randrange(1, 6))))
