"""Explains lines one after another, on the plain machine's tables as the lines before left them."""
import dataclasses
import json

from parts.line_commands import advise_command, from_words
from parts.line_examples import cut, days_of
from parts.line_reading import meant
from parts.line_states import STATES, History, advise_banned, advise_erased, is_of_state
from parts.line_tables import advise_definition, advise_index, advise_key, advise_kind, advise_row, advise_table
from parts.line_words import nearest, spelled
from reference.plain_machine import BUILT_IN, MAX_LINE, Machine, lines_of, read, read_json
from reference.plain_machine import spelled as handle_of

ROUNDS = 12
MOST_BROKEN = 200
MENDED = {
    "command": advise_command,
    "table": advise_table,
    "index": advise_index,
    "kind": advise_kind,
    "row": advise_row,
    "key": advise_key,
    "definition": advise_definition,
}


@dataclasses.dataclass
class Explained:
    """What a line is answered, the name of its fault, and the faults with their causes that lie between it and the right line."""

    answer: bytes
    name: str | None = None
    steps: list = dataclasses.field(default_factory=list)
    right: bytes | None = None
    then: tuple | None = None
    is_guess: bool = False
    is_way_out: bool = False
    is_open: bool = False

    def causes_of_first(self):
        return self.steps[0][1]

    def causes(self):
        return [it for _, causes in self.steps for it in causes]


class Session:
    """The tables of a schema, what their writes did, and the number of the last line."""

    def __init__(self, schema=BUILT_IN):
        self.machine, self.number, self.broken = Machine(schema), 0, []
        self.histories = {it: History() for it in self.machine.tables}

    @staticmethod
    def line_called(number):
        return f"line {number}"

    @staticmethod
    def lines_called(first, last):
        return f"lines {first} to {last}"

    def table_near(self, name, said=None):
        """The table that was meant by a name, or by what else is said."""
        tables = self.machine.tables
        if name in tables:
            return tables[name]
        close = nearest(name, tables)
        if close:
            return tables[close]
        return max(tables.values(), key=lambda it: fit(it, said or {}))

    # Lines.

    def explain(self, line):
        """Carries a line out, and explains its answer; None where it has none."""
        self.number += 1
        if not lines_of(line + b"\n"):
            return None
        answer, change = self.machine.answer(line)
        said = json.loads(answer)
        name = said.get("err")
        if name in (None, "erased"):
            self.broken = []
            return self.accepted(line, answer, said, change)
        explained = Explained(answer, name)
        self.mend(self.read(line, explained), line, explained)
        self.note_refused(name, line)
        if name in ("json", "command"):
            self.join(line, explained)
        return explained

    def note_refused(self, name, line):
        if name not in ("line", "json", "command"):
            command = read(line)
            if command["op"] == "insert" and command["t"] in self.histories:
                self.histories[command["t"]].refused.append(self.number)

    def join(self, line, explained):
        """Finds a command that newlines broke into several lines."""
        begins = line.strip().startswith(b"{")
        self.broken = [] if begins else self.broken
        self.broken += [(self.number, line)] if self.broken or begins and explained.is_open else []
        whole = b" ".join(it for _, it in self.broken)
        if len(whole) > MAX_LINE or len(self.broken) > MOST_BROKEN:
            self.broken = []
        if len(self.broken) > 1 and self.fault_of(whole)[0] != "json":
            why = f"{self.lines_called(self.broken[0][0], self.number)} are one value, and a command stands on one line"
            explained.steps, explained.then, self.broken = [(explained.name, [why])], None, []
            self.mend(read_json(whole), whole, explained)

    def accepted(self, line, answer, said, change):
        command = read(line)
        table, explained = self.machine.tables[command["t"]], Explained(answer, said.get("err"))
        # (a write that leaves as many records as there were has taken none out)
        before = table.records
        self.machine.keep(change)
        if change:
            gone = {handle_of(it): it.row for it in before} if len(table.records) < len(before) else {}
            self.histories[table.name].take(self.number, command, gone.keys() - {handle_of(it) for it in table.records if gone})
        if explained.name:
            causes, ways = advise_erased(self, command, said, gone[command["h"]])
            explained.steps, explained.right, explained.is_way_out = [("erased", causes)], self.first_accepted(ways, command), True
        return explained

    def fault_of(self, line):
        """The name of the fault that a line would have now, or None, and its answer."""
        said = json.loads(self.machine.answer(line)[0])
        return said.get("err"), said

    def safe(self, command):
        """A line that is always answered."""
        name = command.get("t") if isinstance(command, dict) else None
        return spelled({"op": "size", "t": self.table_near(name if isinstance(name, str) else None).name})

    def first_accepted(self, ways, command):
        lines = [spelled(it) for it in ways] + [self.safe(command)]
        return next(it for it in lines if self.fault_of(it)[0] is None)

    # The way from a line to a right one.

    def mend(self, command, line, explained):
        """Finds the faults between the command of a line and a right one, one after another, and the right one."""
        for _ in range(ROUNDS):
            spelling = spelled(command) if explained.steps else line
            name, said = self.fault_of(spelling)
            if name is None:
                explained.right = spelled(command)
                return
            if name in ("line", "json"):
                break
            if name == "erased":
                # (a line that is shown takes no record out unasked)
                command = command | {"rollback": True}
                continue
            if name not in MENDED and is_of_state(self, command, name) and explained.steps:
                explained.right, explained.then = spelled(command), (name, self.causes_of_state(name, command, said)[0])
                return
            if name in MENDED:
                causes, command = MENDED[name](self, command)
            else:
                causes, ways = self.causes_of_state(name, command, said)
                explained.is_way_out = is_of_state(self, command, name)
                command = json.loads(self.first_accepted(ways, command))
            explained.steps.append((name, causes))
        explained.right, explained.is_guess = self.safe(command), True

    def causes_of_state(self, name, command, said):
        return advise_banned(self, command, said) if name == "banned" else STATES[name](self, command)

    def read(self, line, explained):
        """The value of a line, or that which it means."""
        if explained.name not in ("line", "json"):
            return read_json(line)
        found = meant(line)
        if explained.name == "line":
            explained.steps.append(("line", [too_long(line)]))
            found.values = [in_limits(it) for it in found.values]
        else:
            explained.steps.append(("json", [f"column {it.at + 1}: {it.sentence}" for it in found.slips]))
            explained.is_open = found.is_open
            if any(it.kind == "number" and "a date" in it.sentence for it in found.slips):
                found.values = [self.with_days(it) for it in found.values]
            if self.broken and not line.strip().startswith(b"{"):
                explained.causes_of_first().append(f"perhaps it goes on from {self.line_called(self.broken[0][0])}: a command stands on one line")
        if found.values and isinstance(found.values[0], (dict, list)):
            return found.values[0]
        return from_words(self, found.text)

    def with_days(self, value):
        """A command with the days since 1970 for each date that stands in a column of ints."""
        if not isinstance(value, dict):
            return value
        columns = self.table_near(value.get("t") if isinstance(value.get("t"), str) else None, value).columns
        is_int = lambda name: name in columns and columns[name].cell == "int"
        rows = {key: value[key] for key in ("r", "set") if isinstance(value.get(key), dict)}
        return value | {key: {name: days_of(it) if is_int(name) and days_of(it) is not None else it for name, it in row.items()} for key, row in rows.items()}


def too_long(line):
    """Why a line is too long."""
    blanks = len(line) - len(b"".join(line.split()))
    where = f", of which {blanks:,} are blank" if blanks * 2 > len(line) else ""
    return f"the line has {len(line):,} bytes{where}, and may have {MAX_LINE:,}"


def in_limits(value):
    """A value with its texts as long as cells may be."""
    if isinstance(value, dict):
        return {name: in_limits(it) for name, it in value.items()}
    return [in_limits(it) for it in value] if isinstance(value, list) else cut(value) if isinstance(value, str) else value


def fit(table, said):
    """How well a table fits what a command says."""
    words = [it for key in ("r", "set", "add") if isinstance(said.get(key), dict) for it in said[key]]
    return sum(it in table.columns for it in [*words, *said]) + 2 * (said.get("i") in [it.name for it in table.indices])
