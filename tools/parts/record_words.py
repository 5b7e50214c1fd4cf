"""The tables that `tools/new_record` writes records of: read from a schema file or from words, with each fault at its place."""
import dataclasses
import re

from parts import toml_places
from parts.schema_rules import Fault, faults_of, key_rule_faults, limit_faults, name_faults, shape_faults
from parts.toml_places import Member, Value

# The words of Rust, of Rattle's clauses and of what is written beside them: a name that is one of them gets a `_` behind it.
TAKEN = frozenset(
    """Self abstract as async await become box break const continue crate do dyn else ensures enum extern false final fn for gen ghost
    if impl in let loop macro match mod move mut override priv pub ref requires return self static struct super trait true try type typeof
    unsafe unsized use virtual where while yield
    data record deriving module package open unfoldable abbrev axiom unfold unfolding ruleset mutual infix infixl infixr elim coe fcoe tcoe hcom com
    simp omega cc rw grw hlevel search grind assumption ground cap first_of refl yes no tt absurd vin vproj in_s out_s
    main lib alloc result column row copy found leading cells now old new entry exit field text signed truth if_some indices most
    sequenced random ordered ranked hashed unique_ordered unique_ranked unique_hashed""".split()
)
# The names of types that the written file uses.
TAKEN_TYPES = frozenset("Search Index Field Fields Tag Sequenced Random Ordered Ranked Hashed Text Value Option Some None Result Ok Err AllocError Global Self Debug Drop Clone Copy Lib Prim".split())
IRREGULAR = {"people": "person", "children": "child", "men": "man", "women": "woman", "mice": "mouse", "indices": "index", "vertices": "vertex"}
LEADING = ("_leading", "_leading_two", "_leading_three")
DEFAULT_MOST = 2**32 - 1


@dataclasses.dataclass(frozen=True)
class Column:
    """A column: its name in the schema, and the field that it is in the record."""

    name: str
    cell: str
    null: bool

    @property
    def field(self):
        return not_taken(in_small(self.name))

    @property
    def constant(self):
        return in_small(self.name).upper()


@dataclasses.dataclass(frozen=True)
class Index:
    """An index, and the columns of its key, each with whether it falls."""

    name: str
    kind: str
    unique: bool
    parts: tuple

    @property
    def function(self):
        return not_taken(in_small(self.name))

    @property
    def constant(self):
        return self.function.upper()

    @property
    def spec(self):
        return ("unique_" if self.unique else "") + self.kind

    @property
    def searches(self):
        """The functions that make searches of it, each with how many parts it takes."""
        whole = [(self.function, len(self.parts))] if self.parts else []
        if self.kind == "hashed":
            return whole
        return whole + [(f"{self.function}{LEADING[at]}", at + 1) for at in range(len(self.parts) - 1)]


@dataclasses.dataclass(frozen=True)
class Table:
    """A table, and what its record is called."""

    name: str
    record: str
    most: int
    columns: tuple
    indices: tuple

    @property
    def module(self):
        return not_taken(in_small(self.name))

    @property
    def numbered(self):
        """The columns by their numbers. At the number 2 the check finds no proof for a value that may be absent behind values of another type: that is the number of
        a column that is never absent, or where there is none of no column at all (None)."""
        found = list(self.columns)
        always = [at for at, it in enumerate(found) if not it.null]
        if len(found) < 3 or not found[2].null:
            return found
        if not always:
            return [*found[:2], None, *found[2:]]
        nearest = min(always, key=lambda at: (abs(at - 2), -at))
        found[2], found[nearest] = found[nearest], found[2]
        return found


class Wrong(Exception):
    """A sentence that says why no record can be written."""


class Faults(Exception):
    """The faults of a text, in the order of their places."""

    def __init__(self, text, faults):
        super().__init__(text, faults)
        self.text, self.faults = text, faults


def in_small(name):
    """A name in small letters, with `_` between its words."""
    return re.sub("(?<=[a-z0-9])(?=[A-Z])", "_", name).lower()


def not_taken(name):
    return f"{name}_" if name in TAKEN else name


def in_capitals(name):
    """A name as types have it."""
    return "".join(it.capitalize() for it in in_small(name).split("_"))


def one_of(name):
    """The name of one record of a table of that name."""
    before, cut, last = name.rpartition("_")
    low = last.lower()
    if low in IRREGULAR:
        last = IRREGULAR[low]
    elif low.endswith("ies") and len(low) > 4:
        last = last[:-3] + "y"
    elif re.search("(ss|sh|ch|x)es$", low):
        last = last[:-2]
    elif low.endswith("s") and not re.search("(ss|us|is)$", low) and len(low) > 2:
        last = last[:-1]
    return in_capitals(before + cut + last)


# From words.


def table_in(words):
    """The table that words say: its name, its columns as NAME:CELL, its indices as "NAME: KIND [unique] [PART..]", and max=NUMBER."""
    text, values = "", []
    for word in words:
        quote = '"' * (" " in word)
        values.append((word, len(text + quote)))
        text += f"{quote}{word}{quote} "
    try:
        document = document_of(values)
    except toml_places.Refused as why:
        raise Faults(text, [Fault("words", why.sentence, why.begin, why.end)]) from None
    return table_of(text.rstrip(), document, words[0])


def document_of(values):
    """The schema that words mean, each part of it with its place among the words."""
    (name, begin), *others = values
    end = others[-1][1] + len(others[-1][0]) if others else begin + len(name)
    table = Value("table", {}, begin, begin + len(name))
    table.held["name"] = member("text", name.partition("/")[0], begin, begin + len(name.partition("/")[0]))
    columns, indices = [], []
    for word, at in others:
        if re.match(r"\s*max\s*=", word):
            table.held["max"] = most_of(word, at)
        elif re.fullmatch(r"[^\s:]*:[^\s:]+", word):
            columns.append(column_of(word, at))
        elif re.match(r"[^\s:]*:(\s|$)", word):
            indices.append(index_of(word, at))
        else:
            refuse_word(word, at)
    table.held["column"] = Member(Value("array", columns, begin, end), begin, end)
    table.held["index"] = Member(Value("array", indices, begin, end), begin, end)
    return Value("table", {"table": Member(Value("array", [table], begin, end), begin, end)}, begin, end)


def refuse_word(word, at):
    hint = 'a column is NAME:int, NAME:text or NAME:bool, with ? behind it where it may be null; an index is "NAME: KIND [unique] [PART..]", in quotes'
    raise toml_places.Refused(f"`{toml_places.shown(word)}` is neither a column nor an index: {hint}", at, at + len(word))


def member(kind, held, begin, end):
    return Member(Value(kind, held, begin, end), begin, end)


def most_of(word, at):
    digits = word.partition("=")[2].strip()
    if not re.fullmatch("[0-9]{1,18}", digits):
        raise toml_places.Refused("max is a whole number, as max=1000", at, at + len(word))
    return member("int", int(digits), at, at + len(word))


def column_of(word, at):
    name, _, cell = word.partition(":")
    behind = at + len(name) + 1
    held = {"name": member("text", name, at, at + len(name)), "cell": member("text", cell.removesuffix("?"), behind, at + len(word))}
    if cell.endswith("?"):
        held["null"] = member("bool", True, at + len(word) - 1, at + len(word))
    return Value("table", held, at, at + len(word))


def index_of(word, at):
    """An index by its word: the parts of its key may stand behind the word `by`."""
    name, _, rest = word.partition(":")
    found = [(it[0], at + len(name) + 1 + it.start()) for it in re.finditer(r"[^\s,]+", rest)]
    held = {"name": member("text", name, at, at + len(name))}
    for first in [it for it in found if it[0] == "unique"][:1]:
        held["unique"] = member("bool", True, first[1], first[1] + len("unique"))
        found.remove(first)
    if found:
        (kind, begin), *found = found
        held["kind"] = member("text", kind, begin, begin + len(kind))
    if found:
        parts = [Value("text", part, begin, begin + len(part)) for part, begin in found]
        held["key"] = Member(Value("array", parts, parts[0].begin, parts[-1].end), parts[0].begin, parts[-1].end)
    return Value("table", held, at, at + len(word))


# From a schema file.


def tables_of(data):
    """The names of the tables that a schema file declares."""
    faults, text, tables = faults_of(data)
    if faults:
        raise Faults(text, faults)
    return [it["name"] for it in tables]


def table_at(data, named=None):
    """A table of a schema file: the one that is named, or its only one."""
    names = tables_of(data)
    if named is None and len(names) > 1:
        raise Wrong(f"the file has {len(names)} tables: name one of {', '.join(names)}")
    named = named or names[0]
    if named.partition("/")[0] not in names:
        raise Wrong(f"the file has no table {named.partition('/')[0]}: it has {', '.join(names)}")
    text = toml_places.decoded(data)
    return table_of(text, toml_places.read(text), named)


# Of both.


def faults_in(document):
    """The faults of the first name that a schema has, as the server tests them."""
    found = list(shape_faults(document))
    if not found:
        where = document.held["table"].value
        tests = (lambda: limit_faults(where.held, where), lambda: name_faults(where.held), lambda: key_rule_faults(where.held))
        found = next((faults for faults in (list(test()) for test in tests) if faults), [])
    return sorted(found, key=lambda it: it.begin)


def table_of(text, document, named):
    """A table of a document, where it has no fault and each name is one of a program. Behind its name may stand a / and what its record is called."""
    name, _, record = named.partition("/")
    faults = faults_in(document)
    if not faults:
        value = next(it for it in document.held["table"].value.held if it.held["name"].value.held == name)
        table = plain_table(toml_places.plain(value), record)
        faults = list(program_faults(value, table))
    if faults:
        raise Faults(text, faults)
    return table


def plain_table(it, record):
    columns = {held["name"]: Column(held["name"], held["cell"], held.get("null", False)) for held in it["column"]}
    indices = []
    for held in it["index"]:
        parts = tuple((columns[part.removeprefix("-")], part.startswith("-")) for part in held.get("key", ()))
        indices.append(Index(held["name"], held["kind"], held.get("unique", False), parts))
    return Table(it["name"], record or one_of(it["name"]), it.get("max", DEFAULT_MOST), tuple(columns.values()), tuple(indices))


def program_faults(value, table):
    """Whether each name is one that a program can have."""
    name = value.held["name"].value
    if not re.fullmatch("[A-Z][A-Za-z0-9]*", table.record) or table.record in TAKEN_TYPES:
        yield fault_at(name, f"the record of table \"{table.name}\" can't be called {table.record}: say another name, as {table.name}/Record")
    for what, own in (("column", table.columns), ("index", table.indices)):
        places = [it.held["name"].value for it in value.held[what].value.held]
        yield from letter_faults(what, own, places)
    yield from same_faults("column", [(it.field, it.name, at.held["name"].value) for it, at in zip(table.columns, value.held["column"].value.held)], {})
    functions = []
    for it, at in zip(table.indices, value.held["index"].value.held):
        functions += [(function, it.name, at.held["name"].value) for function in dict.fromkeys([it.function, *(one for one, _ in it.searches)])]
    yield from same_faults("index", functions, {table.record.lower(): f"the record {table.record}"})


def fault_at(value, sentence):
    return Fault("name", sentence, value.begin, value.end)


def letter_faults(what, own, places):
    for it, place in zip(own, places):
        if not it.name[0].isalpha():
            yield fault_at(place, f'the name of {what} "{it.name}" begins with {it.name[0]}, and in a program it begins with a letter')


def same_faults(what, names, before):
    """Whether two names are one in the program: there capital and small letters are not told apart."""
    for name, of, place in names:
        if name in before:
            yield fault_at(place, f'{what} "{of}" is `{name}` in the program, as is {before[name]}')
        before.setdefault(name, f'{what} "{of}"')


# Back to words.


def words_of(table):
    """The words that say a table: a line for its name and its columns, one for each index, and one for its most records."""
    columns = [f"{it.name}:{it.cell}{'?' if it.null else ''}" for it in table.columns]
    name = table.name if table.record == one_of(table.name) else f"{table.name}/{table.record}"
    lines = [" ".join([name, *columns])]
    for it in table.indices:
        parts = [f"-{column.name}" if falls else column.name for column, falls in it.parts]
        lines.append(" ".join([f"{it.name}:", *(["unique"] if it.unique else []), it.kind, *parts]))
    return lines + ([] if table.most == DEFAULT_MOST else [f"max={table.most}"])


def words_in(lines):
    """The words that such lines hold."""
    return [*lines[0].split(), *lines[1:]]
