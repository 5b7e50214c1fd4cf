"""Draws lines of all ops."""
import json
import random

from reference.plain_machine import BOUNDS, ENDED, KEYED, KINDS, MAX_INDICES, MORE_KEYS, OPS, SORTED, WRITES, Column, Machine

# How often each op is drawn; the others once.
WEIGHTS = {"add_index": 2, "drop_index": 2, "insert": 12, "replace": 6, "modify": 6, "modify_key": 3, "range": 3, "erase": 3, "move": 3, "list": 2, "clear": 0.05, "erase_key": 0.5}

BAD_NAMES = ["", "a b", "k" * 33, "\u00e9"]

# What an index may not be, and what no line may say of one, by the columns of its table.
BAD_PARTS = [
    lambda columns: {"kind": "ordered", "key": []},
    lambda columns: {"kind": "ranked", "key": [columns[0], "zz"]},
    lambda columns: {"kind": "ordered", "key": [columns[0], "-" + columns[0]]},
    lambda columns: {"kind": "hashed", "key": ["-" + columns[0]]},
    lambda columns: {"kind": "ranked", "key": (columns * 5)[:5]},
    lambda columns: {"kind": "random", "key": columns[:1]},
    lambda columns: {"kind": "sequenced", "unique": True},
    lambda columns: {"kind": "tree"},
    lambda columns: {"key": columns[0]},
    lambda columns: {"unique": 1},
    lambda columns: {"k": []},
]


def names_for(table):
    """The names of a table's indices, in capitals too, and some more: few, so that they come again."""
    names = [it.name for it in table.indices]
    return [*names, *(it.upper() for it in names), "k1", "k_2", "k" * 32]


class Drawer:
    """Draws lines by what the plain machine has so far. Each table is drawn as often as it stands among `tables`."""

    def __init__(self, seed, schema, tables):
        self.draw = random.Random(seed)
        self.machine = Machine(schema)
        self.tables = tables
        self.later = []
        self.names = {name: names_for(table) for name, table in self.machine.tables.items()}
        self.grows = dict.fromkeys(self.machine.tables, True)

    def one_in(self, times):
        return self.draw.randrange(times) == 0

    def cell(self, column):
        if column.null and self.one_in(4):
            return None
        wide = self.draw.choice((3, 8, 40))
        drawn = {"int": self.draw.randrange(wide) - 1, "text": "ab\u00e9"[self.draw.randrange(3)] * self.draw.randrange(3), "bool": self.one_in(2)}
        return self.draw.choice((1.5, None, True, "1", 7)) if self.one_in(60) else drawn[column.cell]

    def row(self, table):
        return {name: self.cell(column) for name, column in table.columns.items() if not self.one_in(80)}

    def key(self, table, index, whole=False):
        parts = [table.columns[name] for name, _ in index.parts] or [Column("int")]
        count = len(parts) if whole and not self.one_in(8) else self.draw.randint(0 if self.one_in(20) else 1, len(parts))
        return [self.cell(it) for it in parts[:count]]

    def terms(self, table):
        numbers = [name for name, column in table.columns.items() if column.cell == "int" or self.one_in(40)]
        return {it: self.draw.choice((-1, 1, 3, 2**63 - 1, 0.5 if self.one_in(9) else 2)) for it in numbers if self.one_in(2)}

    def cells(self, table):
        return {name: value for name, value in self.row(table).items() if self.one_in(3)} | ({"zz": 1} if self.one_in(60) else {})

    def more_keys(self, op):
        """Those that the op may have: mostly such as fit together."""
        drawn = [it for it in sorted(MORE_KEYS.get(op, ())) if self.one_in(2)]
        return [it for it in drawn if it not in ("gt", "lt") or {"gt": "ge", "lt": "le"}[it] not in drawn or self.one_in(20)]

    def handle(self, table):
        if self.one_in(12) or not table.records:
            return f"{self.draw.randrange(9)}:{self.draw.randrange(table.writes + 2)}"
        record = self.draw.choice(table.records)
        return f"{record.slot}:{record.stamp}"

    def order(self, table):
        handles = [f"{it.slot}:{it.stamp}" for it in table.records]
        self.draw.shuffle(handles)
        if self.one_in(4):
            handles = handles[1:] + [self.handle(table)]
        return handles

    def columns(self, table):
        names = [*table.columns] + ["zz"] * self.one_in(20)
        return [self.draw.choice(("", "-")) + self.draw.choice(names) for _ in range(self.draw.randint(0 if self.one_in(10) else 1, 4 + self.one_in(10)))]

    def index(self, table, kinds):
        fitting = [it for it in table.indices if it.kind in kinds]
        return self.draw.choice(fitting if fitting and not self.one_in(15) else table.indices)

    def line(self):
        """A line that was put by for later, or a new one."""
        if self.later:
            return self.later.pop(0)
        table = self.machine.tables[self.draw.choice(self.tables)]
        op = self.draw.choices(list(OPS), [WEIGHTS.get(it, 1) for it in OPS])[0]
        if op not in ("add_index", "drop_index"):
            return self.line_of(table, op)
        line = self.added(table) if self.is_added(table) else self.dropped(table)
        if self.one_in(15):
            self.later.append(line)
            return self.line_of(table, "clear")
        return line

    # Indices that come and go: a table gets them up to the most and loses them down to one, by turns.

    def is_added(self, table):
        """Whether an index is to be added next, and not dropped."""
        grows = self.grows[table.name]
        if len(table.indices) == (MAX_INDICES if grows else 1):
            turns = self.one_in(2)
        else:
            turns = self.one_in(40 if grows else 12)
        self.grows[table.name] = grows != turns
        return self.grows[table.name] != self.one_in(6)

    def added(self, table):
        """A line that adds an index: mostly one that may be there, under a name that is free."""
        taken = [it.name for it in table.indices]
        free = [it for it in self.names[table.name] if it not in taken]
        name = self.draw.choice(free if free and not self.one_in(15) else taken + BAD_NAMES)
        kind = self.draw.choice(KINDS)
        said = {"i": name, "kind": kind}
        if kind in KEYED:
            columns = self.draw.sample(list(table.columns), self.draw.randint(1, min(3, len(table.columns))))
            said["key"] = [("-" if kind in SORTED and self.one_in(3) else "") + it for it in columns]
        if self.one_in(2):
            said["unique"] = kind in KEYED and not self.one_in(6)
        if self.one_in(12):
            said |= self.draw.choice(BAD_PARTS)(list(table.columns))
        return self.spelled(table, "add_index", said)

    def dropped(self, table):
        name = "zz" if self.one_in(20) else self.draw.choice(table.indices).name
        return self.spelled(table, "drop_index", {"i": name})

    def looks(self, table, index, count):
        """Lines that read through an index: its list, and so many others."""
        fitting = [op for op, (needed, _, kinds) in OPS.items() if "i" in needed.split() and op not in WRITES and index.kind in kinds]
        return [self.line_of(table, it, index) for it in ["list", *self.draw.choices(fitting, k=count)]]

    def line_of(self, table, op, index=None):
        """A line of an op on a table, through an index where it has one: through this, where one is given."""
        needed, joined, kinds = OPS[op]
        index = index or self.index(table, kinds or ())
        end = len(table.records)
        values = {
            "i": lambda: index.name,
            "r": lambda: self.row(table),
            "set": lambda: self.cells(table),
            "add": lambda: self.terms(table),
            "rollback": lambda: self.one_in(2),
            "k": lambda: self.key(table, index, index.kind == "hashed" or op == "modify_key"),
            **dict.fromkeys(BOUNDS, lambda: self.key(table, index)),
            "h": lambda: None if op in ENDED and self.one_in(6) else self.handle(table),
            "hs": lambda: self.order(table),
            "by": lambda: self.columns(table),
            "p": lambda: self.draw.randint(0, end + self.one_in(10)),
            "n": lambda: self.draw.randint(0, end + 1),
        }
        keys = needed.split() + (joined.split() if self.one_in(2) else []) + self.more_keys(op)
        return self.spelled(table, op, {it: values[it]() for it in keys})

    @staticmethod
    def spelled(table, op, said):
        return json.dumps({"op": op, "t": table.name} | said).encode()
