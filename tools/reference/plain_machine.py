"""The server in plain Python: tables that keep a list of records for each index. Answers one line at a time."""
import dataclasses
import functools
import json
import math
import re
import tomllib

MEMORY = b'{"err":"memory"}'

BUILT_IN = """
[[table]]
name = "f"
column = [{name = "id", cell = "int"}, {name = "g", cell = "text"}]
index = [{name = "q", kind = "sequenced"}, {name = "u", kind = "ordered", unique = true, key = ["id"]}]
"""

MAX_LINE = 65536
MAX_LEVELS = 127
MAX_WRITES = 2**64 - 1
MAX_INDICES = 8
MAX_PARTS = 4

SEQUENCES = {"sequenced", "random"}
SORTED = {"ordered", "ranked"}
KEYED = SORTED | {"hashed"}
LISTED = SEQUENCES | SORTED
KINDS = ("sequenced", "random", "ordered", "ranked", "hashed")

# Each op: the keys that it needs, those that it has all of or none, and the kinds of index that it has.
OPS = {
    "insert": ("r", "i p", SEQUENCES),
    "replace": ("h r", "", None),
    "modify": ("h", "", None),
    "modify_key": ("i h k", "", KEYED),
    "erase": ("h", "i", LISTED),
    "erase_key": ("i k", "", KEYED),
    "clear": ("", "", None),
    "move": ("i h p", "", SEQUENCES),
    "rearrange": ("i hs", "", SEQUENCES),
    "reverse": ("i", "", SEQUENCES),
    "sort": ("i by", "", SEQUENCES),
    "add_index": ("i kind", "", None),
    "drop_index": ("i", "", LISTED | KEYED),
    "get": ("h", "", None),
    "size": ("", "", None),
    "find": ("i k", "", KEYED),
    "count": ("i k", "", KEYED),
    "lower": ("i k", "", SORTED),
    "upper": ("i k", "", SORTED),
    "range": ("i", "", SORTED),
    "nth": ("i n", "", {"ranked", "random"}),
    "rank": ("i h", "", {"ranked"}),
    "place": ("i h", "", {"random"}),
    "find_rank": ("i k", "", {"ranked"}),
    "lower_rank": ("i k", "", {"ranked"}),
    "upper_rank": ("i k", "", {"ranked"}),
    "next": ("i h", "", LISTED),
    "prev": ("i h", "", LISTED),
    "list": ("i", "", LISTED | KEYED),
}

# Those that may change a table.
WRITES = {"insert", "replace", "modify", "modify_key", "erase", "erase_key", "clear", "move", "rearrange", "reverse", "sort", "add_index", "drop_index"}

# The keys that an op may have beside those, each by itself.
MORE_KEYS = {
    "modify": {"set", "add", "rollback"},
    "modify_key": {"rollback"},
    "add_index": {"unique", "key"},
    "range": {"ge", "gt", "le", "lt"},
}

# The bounds of a range: where a row may stand to the bound's key.
BOUNDS = {"ge": (0, 1), "gt": (1,), "le": (-1, 0), "lt": (-1,)}

# The ops in which null stands for the end of a list.
ENDED = {"rank", "next", "prev"}


class Fault(Exception):
    """A fault by its name, and what its answer says beside it."""

    def __init__(self, name, **said):
        super().__init__(name)
        self.answer = said | {"err": name}


@dataclasses.dataclass(frozen=True)
class Record:
    """A row under its handle."""

    slot: int
    stamp: int
    row: dict


@dataclasses.dataclass(frozen=True)
class Column:
    """The type of a column's cells, and whether they may be null."""

    cell: str
    null: bool = False


class Index:
    """What is said of an index, and how records stand to one another in it."""

    def __init__(self, said):
        self.name, self.kind = said["name"], said["kind"]
        self.unique = said.get("unique", False)
        self.parts = [(it.removeprefix("-"), it.startswith("-")) for it in said.get("key", [])]

    def key_of(self, row):
        return [row[column] for column, _ in self.parts]

    def order(self, one, other):
        """-1, 0 or 1: how one record's key stands to another's."""
        return self.side(one.row, self.key_of(other.row))

    def in_order(self, records):
        """The records in the order of their keys, where equals stay as they stand."""
        return sorted(records, key=functools.cmp_to_key(self.order))

    def side(self, row, key):
        """-1, 0 or 1: how a row stands to the key, a value for each of the first parts."""
        for (column, falls), cell in zip(self.parts, key):
            mine, other = weight(row[column]), weight(cell)
            if mine != other:
                return (-1 if mine < other else 1) * (-1 if falls else 1)
        return 0

    def matches(self, records, key):
        return [it for it in records if self.side(it.row, key) == 0]

    def below(self, records, key):
        return sum(self.side(it.row, key) < 0 for it in records)

    def not_above(self, records, key):
        return sum(self.side(it.row, key) <= 0 for it in records)

    def entered(self, records, new, place=None):
        """The records with a new one before a place, or where it goes if none is asked for."""
        if place is None:
            place = self.not_above(records, self.key_of(new.row)) if self.kind in SORTED else len(records)
        return [*records[:place], new, *records[place:]]

    def settled(self, records, changed):
        """The records with the row of one changed: it stays if it is in order between its neighbours."""
        at = place_in(records, changed)
        before, after, key = records[:at], records[at + 1 :], self.key_of(changed.row)
        fits = all(self.side(it.row, key) <= 0 for it in before[-1:]) and all(self.side(it.row, key) >= 0 for it in after[:1])
        if self.kind in SORTED and not fits:
            return self.entered(before + after, changed)
        return [*before, changed, *after]


@dataclasses.dataclass
class Asked:
    """A command on a table in which nothing is wrong so far."""

    said: dict
    index: Index | None
    records: list
    row: dict | None
    key: list | None
    record: Record | None
    order: list | None


class Table:
    """A list of the same records for each index, and how many writes the table took."""

    def __init__(self, said):
        self.name, self.max = said["name"], said.get("max", 2**32 - 1)
        self.columns = {it["name"]: Column(it["cell"], it.get("null", False)) for it in said["column"]}
        self.lists = {Index(it): [] for it in said["index"]}
        self.writes = 0

    @property
    def indices(self):
        """The indices in their order."""
        return list(self.lists)

    @property
    def records(self):
        """The records, in the order of some index."""
        return next(iter(self.lists.values()))

    def answer(self, command):
        """Returns the answer, and the lists that it leaves where it is a write, or else None."""
        said, lists = getattr(self, command["op"])(self.asked(command))
        if lists is None:
            return said | {"at": self.writes, "ok": True}, None
        if self.writes == MAX_WRITES:
            raise Fault("spent")
        return said | {"at": self.writes + 1} | ({} if "err" in said else {"ok": True}), lists

    def keep(self, lists):
        self.lists = lists
        self.writes += 1

    # The faults that stand before the op is looked at, in their order.

    def asked(self, command):
        index = self.index_of(command)
        records = [] if index is None else self.lists[index]
        self.test_edit(command)
        row, key = self.row_of(command), self.key_of(command, index)
        for bound in BOUNDS.keys() & command.keys():
            self.test_key(command[bound], index, 1)
        asked = Asked(command, index, records, row, key, self.record_of(command), self.order_of(command))
        if command.get("p", 0) > len(self.records):
            raise Fault("place")
        return asked

    def index_of(self, command):
        if "i" not in command or OPS[command["op"]][2] is None:
            return None
        found = [it for it in self.indices if it.name == command["i"]]
        if not found:
            raise Fault("index")
        if found[0].kind not in OPS[command["op"]][2]:
            raise Fault("kind")
        return found[0]

    def row_of(self, command):
        row = command.get("r")
        if row is not None and (row.keys() != self.columns.keys() or not all(is_cell(row[it], self.columns[it]) for it in row)):
            raise Fault("row")
        return row

    def test_edit(self, command):
        given, added = command.get("set", {}), command.get("add", {})
        if given.keys() & added.keys() or not (given.keys() | added.keys()) <= self.columns.keys():
            raise Fault("row")
        if not all(is_cell(given[it], self.columns[it]) for it in given):
            raise Fault("row")
        if not all(self.columns[it].cell == "int" and is_cell(added[it], Column("int")) for it in added):
            raise Fault("row")

    def key_of(self, command, index):
        key = command.get("k")
        if key is not None:
            whole = index.kind == "hashed" or command["op"] == "modify_key"
            self.test_key(key, index, len(index.parts) if whole else 1)
        return key

    def test_key(self, key, index, least):
        cells = [self.columns[column] for column, _ in index.parts]
        if not least <= len(key) <= len(cells) or not all(map(is_cell, key, cells)):
            raise Fault("key")

    def record_of(self, command):
        text = command.get("h")
        return None if text is None else self.record_spelled(text)

    def record_spelled(self, text):
        found = [it for it in self.records if spelled(it) == text]
        if not found:
            raise Fault("handle")
        return found[0]

    def order_of(self, command):
        """The records in the order that is asked for."""
        texts = command.get("hs")
        return None if texts is None else [self.record_spelled(it) for it in texts]

    def ban(self, row, but=None):
        """The first unique index in which another record has the row's key, with that record, or None."""
        for index, records in self.lists.items():
            others = [it for it in records if it is not but]
            blockers = index.matches(others, index.key_of(row)) if index.unique else []
            if blockers:
                return {"by": index.name, "h": spelled(blockers[0])}
        return None

    def test_ban(self, row, but=None):
        ban = self.ban(row, but)
        if ban:
            raise Fault("banned", at=self.writes, **ban)

    # The writes.

    def insert(self, asked):
        self.test_ban(asked.row)
        if len(self.records) >= self.max:
            raise Fault("full")
        slots = {it.slot for it in self.records}
        new = Record(min(set(range(len(slots) + 1)) - slots), self.writes + 1, asked.row)
        place = lambda index: asked.said["p"] if index is asked.index else None
        return {"h": spelled(new)}, {it: it.entered(records, new, place(it)) for it, records in self.lists.items()}

    def replace(self, asked):
        self.test_ban(asked.row, asked.record)
        return {}, self.with_row(asked.record, asked.row)

    def modify(self, asked):
        row = asked.record.row | asked.said.get("set", {})
        for name, term in asked.said.get("add", {}).items():
            if row[name] is not None:
                row[name] += term
            if not is_cell(row[name], self.columns[name]):
                raise Fault("overflow")
        return self.modified(asked, row)

    def modify_key(self, asked):
        columns = [column for column, _ in asked.index.parts]
        return self.modified(asked, asked.record.row | dict(zip(columns, asked.key)))

    def modified(self, asked, row):
        if asked.said.get("rollback"):
            self.test_ban(row, asked.record)
        ban = self.ban(row, asked.record)
        if ban:
            return ban | {"err": "erased"}, self.without([asked.record])
        return {}, self.with_row(asked.record, row)

    def erase(self, asked):
        said = {"next": spelled(after(asked.records, asked.record))} if asked.index else {}
        return said, self.without([asked.record])

    def erase_key(self, asked):
        gone = asked.index.matches(asked.records, asked.key)
        return {"n": len(gone)}, self.without(gone)

    def clear(self, _asked):
        return {}, {it: [] for it in self.lists}

    def move(self, asked):
        at, place = place_in(asked.records, asked.record), asked.said["p"]
        others = without(asked.records, [asked.record])
        return {}, self.with_list(asked.index, asked.index.entered(others, asked.record, place if place <= at else place - 1))

    def rearrange(self, asked):
        if sorted(it.stamp for it in asked.order) != sorted(it.stamp for it in asked.records):
            raise Fault("order")
        return {}, self.with_list(asked.index, asked.order)

    def sort(self, asked):
        order = Index({"name": "", "kind": "ordered", "key": asked.said["by"]})
        if not 1 <= len(order.parts) <= MAX_PARTS or not all(column in self.columns for column, _ in order.parts):
            raise Fault("key")
        return {}, self.with_list(asked.index, order.in_order(asked.records))

    def reverse(self, asked):
        return {}, self.with_list(asked.index, asked.records[::-1])

    def add_index(self, asked):
        if len(self.lists) == MAX_INDICES or not self.is_definition(asked.said):
            raise Fault("definition")
        index = Index(asked.said | {"name": asked.said["i"]})
        records = by_age(self.records)
        clash = first_clash(index, records) if index.unique else None
        if clash:
            raise Fault("clash", at=self.writes, by=index.name, **clash)
        return {}, self.lists | {index: index.in_order(records) if index.kind in SORTED else records}

    def is_definition(self, said):
        """Whether an index may be as a command says it: its name is good and free, and it has the key of its kind."""
        if not re.fullmatch("[A-Za-z0-9_]{1,32}", said["i"]) or said["i"] in [it.name for it in self.lists]:
            return False
        if said["kind"] in SEQUENCES:
            return "key" not in said and not said.get("unique")
        parts = said.get("key", [])
        columns = [it.removeprefix("-") for it in parts]
        if not 1 <= len(parts) <= MAX_PARTS or len(set(columns)) < len(columns) or not set(columns) <= self.columns.keys():
            return False
        return said["kind"] in SORTED or columns == parts

    def drop_index(self, asked):
        if len(self.lists) == 1:
            raise Fault("definition")
        return {}, {it: records for it, records in self.lists.items() if it is not asked.index}

    def without(self, gone):
        return {it: without(records, gone) for it, records in self.lists.items()}

    def with_row(self, record, row):
        changed = dataclasses.replace(record, row=row)
        return {it: it.settled(records, changed) for it, records in self.lists.items()}

    def with_list(self, index, changed):
        return self.lists | {index: changed}

    # The reads.

    def get(self, asked):
        return shown(asked.record), None

    def size(self, _asked):
        return {"n": len(self.records)}, None

    def find(self, asked):
        return {"h": spelled(member(asked.index.matches(asked.records, asked.key), 0))}, None

    def count(self, asked):
        return {"n": len(asked.index.matches(asked.records, asked.key))}, None

    def lower(self, asked):
        return {"h": spelled(member(asked.records, asked.index.below(asked.records, asked.key)))}, None

    def upper(self, asked):
        return {"h": spelled(member(asked.records, asked.index.not_above(asked.records, asked.key)))}, None

    def range(self, asked):
        bounds = [(BOUNDS[it], asked.said[it]) for it in BOUNDS if it in asked.said]
        within = lambda row: all(asked.index.side(row, key) in sides for sides, key in bounds)
        return {"rs": [shown(it) for it in asked.records if within(it.row)]}, None

    def nth(self, asked):
        return {"h": spelled(member(asked.records, asked.said["n"]))}, None

    def rank(self, asked):
        return {"n": len(asked.records) if asked.record is None else place_in(asked.records, asked.record)}, None

    def place(self, asked):
        return {"n": place_in(asked.records, asked.record)}, None

    def find_rank(self, asked):
        matches = asked.index.matches(asked.records, asked.key)
        return {"n": place_in(asked.records, matches[0]) if matches else len(asked.records)}, None

    def lower_rank(self, asked):
        return {"n": asked.index.below(asked.records, asked.key)}, None

    def upper_rank(self, asked):
        return {"n": asked.index.not_above(asked.records, asked.key)}, None

    def next(self, asked):
        return {"h": spelled(after(asked.records, asked.record))}, None

    def prev(self, asked):
        return {"h": spelled(after(asked.records[::-1], asked.record) if asked.record else member(asked.records[::-1], 0))}, None

    def list(self, asked):
        return {"rs": [shown(it) for it in asked.records]}, None


class Machine:
    """The tables of a schema."""

    def __init__(self, schema=BUILT_IN):
        self.tables = {it["name"]: Table(it) for it in tomllib.loads(schema)["table"]}

    def answer(self, line):
        """Returns the answer, and what is to be called if it is given, or None."""
        change = None
        try:
            command = read(line)
            if command["t"] not in self.tables:
                raise Fault("table")
            table = self.tables[command["t"]]
            answer, lists = table.answer(command)
            if lists is not None:
                change = functools.partial(table.keep, lists)
        except Fault as fault:
            answer = fault.answer
        return json.dumps(answer, separators=(",", ":"), ensure_ascii=False, sort_keys=True).encode(), change

    @staticmethod
    def keep(change):
        if change:
            change()


def read(line):
    """The command of a line."""
    if len(line) > MAX_LINE:
        raise Fault("line")
    try:
        command = read_json(line)
    except (ValueError, RecursionError):
        raise Fault("json")
    if not isinstance(command, dict) or not all(isinstance(command.get(it), str) for it in ("op", "t")):
        raise Fault("command")
    if command["op"] not in OPS:
        raise Fault("command")
    needed, joined, _ = OPS[command["op"]]
    given = command.keys() - {"op", "t"}
    if given - MORE_KEYS.get(command["op"], set()) not in (set(needed.split()), set(needed.split() + joined.split())):
        raise Fault("command")
    if command["op"] == "modify" and not given & {"set", "add"} or {"ge", "gt"} <= given or {"le", "lt"} <= given:
        raise Fault("command")
    if not all(has_shape(command["op"], it, command[it]) for it in given):
        raise Fault("command")
    return command


def has_shape(op, key, value):
    if key in ("p", "n"):
        return type(value) is int and 0 <= value < 2**64
    if key == "h" and op in ENDED and value is None:
        return True
    if key in ("hs", "by", "key"):
        return isinstance(value, list) and all(isinstance(it, str) for it in value)
    if key == "kind":
        return value in KINDS
    shapes = {"rollback": bool, "unique": bool} | dict.fromkeys(("r", "set", "add"), dict) | dict.fromkeys(("k", *BOUNDS), list)
    return isinstance(value, shapes.get(key, str))


def read_json(line):
    """The value of a line; a number that is no whole number of 64 bits is a float. Members that others of their name override have to be JSON too."""
    text = line.decode()
    whole = value_of(text, list)
    json.dumps(whole, ensure_ascii=False).encode()
    if levels(whole) > MAX_LEVELS:
        raise ValueError
    return value_of(text, dict)


def value_of(text, objects):
    return json.loads(text, parse_int=read_int, parse_float=read_float, parse_constant=read_float, object_pairs_hook=objects)


def read_int(text):
    return int(text) if text != "-0" and len(text) <= 20 and -(2**63) <= int(text) < 2**64 else read_float(text)


def read_float(text):
    if not math.isfinite(float(text)):
        raise ValueError
    return float(text)


def levels(value):
    """How deep arrays and objects stand in one another, where each object is a list of its pairs."""
    if isinstance(value, tuple):
        return levels(value[1])
    return 1 + max(map(levels, value), default=0) if isinstance(value, list) else 0


def is_cell(value, column):
    if value is None:
        return column.null
    if column.cell == "int":
        return type(value) is int and -(2**63) <= value < 2**63
    if column.cell == "text":
        return isinstance(value, str) and len(value.encode()) <= 4096
    return isinstance(value, bool)


def weight(cell):
    """What cells of one column are compared by: null comes first."""
    return (cell is not None, cell.encode() if isinstance(cell, str) else cell)


def spelled(record):
    return None if record is None else f"{record.slot}:{record.stamp}"


def shown(record):
    return {"h": spelled(record), "r": record.row}


def place_in(records, record):
    return [it.stamp for it in records].index(record.stamp)


def member(records, place):
    return records[place] if place < len(records) else None


def after(records, record):
    return None if record is None else member(records, place_in(records, record) + 1)


def by_age(records):
    """The records in the order of their insertion."""
    return sorted(records, key=lambda it: it.stamp)


def first_clash(index, records):
    """The first of the records that has the key of one before it, behind that one, or None."""
    for at, later in enumerate(records):
        for earlier in index.matches(records[:at], index.key_of(later.row)):
            return {"h": spelled(earlier), "h2": spelled(later)}
    return None


def without(records, gone):
    stamps = {it.stamp for it in gone}
    return [it for it in records if it.stamp not in stamps]


def lines_of(text):
    """The lines that have an answer."""
    lines = text.split(b"\n")
    return [it for it in lines[:-1] + [it for it in lines[-1:] if it] if len(it) > MAX_LINE or it.strip(b" \t\r")]


def judge(text, answers, schema=BUILT_IN):
    """Returns what is wrong with the answers to the lines of the text, or None."""
    machine = Machine(schema)
    lines, answered = lines_of(text), answers.split(b"\n")
    if answered.pop() != b"":
        return "the last answer has no newline"
    if len(answered) != len(lines):
        return f"{len(answered)} answers to {len(lines)} lines"
    for line, answer in zip(lines, answered):
        wanted, change = machine.answer(line)
        if answer == wanted:
            machine.keep(change)
        elif answer != MEMORY:
            return f"{line[:80]!r} is answered {answer[:200]!r}, and not {wanted[:200]!r}"
    return None
