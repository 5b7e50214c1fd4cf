"""Drawn lines as typed calls on the container of one table, in a form that is read easily, and what has to be told.

A call is its name, then a handle or numbers, then cells, with a blank between them:

    insert CELL.. | insert_all CELL.. / CELL.. / | modify ROLLBACK HANDLE CELL.. | erase HANDLE | clear | size | get HANDLE | list INDEX | nth INDEX PLACE | rank INDEX HANDLE
    find INDEX CELL.. | lower INDEX CELL.. | upper INDEX CELL.. | next INDEX HANDLE | previous INDEX HANDLE | first INDEX | last INDEX
    count INDEX CELL.. | erase_key INDEX CELL.. | place INDEX HANDLE | move INDEX HANDLE PLACE | sort INDEX PART..

A cell is n, i and its number, b and 0 or 1, or t and the bytes of its text in hexadecimal. A part is a column's number, with - before it where it falls. What is told is the status by its number in thwartcornel.h, and where it
is 0 what the call tells; where a record is in the way, the index and that record.
"""
import json
import random

from draw.drawing import Drawer
from reference.plain_machine import Fault, read

STATUSES = {"row": 10, "key": 11, "kind": 12, "handle": 13, "banned": 14, "erased": 15, "full": 16, "spent": 17, "place": 19}
NONE = 9
KEYED = ("find", "lower", "upper", "count", "erase_key")
WALKED = ("list", "nth", "rank", "place", "move", "sort", "next", "previous", "first", "last")

# What is no cell of any column, as a kind and a number or as a text that is none, and bytes that no cell has.
WRONG = ("k4:0", "k255:1", "k3:2", "k3:-1", "k2:-1", "k2:99999", f"k2:{2**63 - 1}", "tff", "tc3", "+61", "+c3a9")


def spelled(cell):
    """A cell, or None for what can't be handed in as one."""
    if cell is None:
        return "n"
    if isinstance(cell, bool):
        return f"b{int(cell)}"
    if isinstance(cell, int):
        return f"i{cell}" if -(2**63) <= cell < 2**63 else None
    return f"t{cell.encode().hex()}" if isinstance(cell, str) else None


class Typed:
    """The calls on one table of a schema, drawn by a number, with what is told."""

    def __init__(self, seed, schema, table):
        self.drawer = Drawer(seed, schema, [table])
        self.machine = self.drawer.machine
        self.table = self.machine.tables[table]

    def pairs(self, lines):
        """Of so many drawn lines those that are typed calls, with what each has to be told."""
        for _ in range(lines):
            line = self.drawer.line()
            try:
                said = read(line)
            except Fault:
                continue
            answer, change = self.machine.answer(line)
            answer = json.loads(answer)
            words = self.words(said, answer)
            if words is not None and None not in words:
                yield " ".join(words), self.told(said["op"], answer)
                self.machine.keep(change)

    def row(self, handle):
        return next((it.row for it in self.table.records if f"{it.slot}:{it.stamp}" == handle), None)

    def cells(self, row):
        """The cells of a row in the order of the columns, without those that it lacks."""
        return [spelled(row[it]) for it in self.table.columns if it in row]

    def changed(self, said, answer):
        """The whole row that a modification makes, or None where it can't be told."""
        row = self.row(said["h"])
        if row is None or answer.get("err") in ("row", "overflow"):
            return None
        sums = {name: row[name] + term for name, term in said.get("add", {}).items() if row[name] is not None}
        return row | said.get("set", {}) | sums

    def words(self, said, answer):
        """The words of a typed call, or None where the command is none."""
        op, index = said["op"], None
        if "i" in said:
            index = next((str(k) for k, it in enumerate(self.table.indices) if it.name == said["i"]), None)
        if op == "insert" and "p" not in said:
            return ["insert", *self.cells(said["r"])]
        if op == "replace":
            return ["modify", "1", said["h"], *self.cells(said["r"])]
        if op == "modify":
            row = self.changed(said, answer)
            return None if row is None else ["modify", str(int(said.get("rollback", False))), said["h"], *self.cells(row)]
        if op in ("clear", "size"):
            return [op]
        if op == "get" or op == "erase" and index is None:
            return [op, said["h"]]
        if op == "list" and answer.get("err") or op == "list" and self.table.indices[int(index)].kind != "hashed":
            return ["list", index]
        if op in KEYED:
            return [op, index, *map(spelled, said["k"])]
        if op == "move":
            return [op, index, said["h"], str(said["p"])]
        if op == "sort":
            return [op, index, *map(self.part, said["by"])]
        if op == "nth":
            return [op, index, str(said["n"])]
        if op in ("next", "prev", "rank", "place"):
            return self.along(op, index, said["h"])
        return None

    def part(self, name):
        """A part of an order; of a name that no column has, a number that none has."""
        bare = name.removeprefix("-")
        number = next((k for k, it in enumerate(self.table.columns) if it == bare), len(self.table.columns))
        return f"-{number}" if name.startswith("-") else str(number)

    @staticmethod
    def along(op, index, handle):
        if handle is None:
            return ["last", index] if op == "prev" else None
        return ["previous" if op == "prev" else op, index, handle]

    def told(self, op, answer):
        """What a call has to tell, by the answer to its command."""
        if "err" in answer:
            status = STATUSES[answer["err"]]
            number = [str(k) for k, it in enumerate(self.table.indices) if it.name == answer.get("by")]
            return " ".join([str(status), *number, *([answer["h"]] if "h" in answer else [])])
        if op == "get":
            return " ".join(["0", *self.cells(answer["r"])])
        if op == "list":
            return " ".join(["0", *(word for it in answer["rs"] for word in (it["h"], *self.cells(it["r"])))])
        if "h" in answer:
            return str(NONE) if answer["h"] is None else f"0 {answer['h']}"
        return f"0 {answer['n']}" if "n" in answer else "0"


def typed_calls(seed, schema, table, lines):
    """A text of drawn calls, and one of what they are told."""
    pairs = list(Typed(seed, schema, table).pairs(lines))
    return tuple("".join(f"{it}\n" for it in texts).encode() for texts in zip(*pairs))


def batched(seed, calls, wanted):
    """The same calls, some of those that follow one another and put records in as one; and what is told: how many are in, their handles, and what is in the way."""
    draw, pairs, rows, handles = random.Random(seed), [], [], []

    def end(status, told):
        if rows:
            pairs.append((" ".join(["insert_all", *(word for row in rows for word in [*row, "/"])]), " ".join([status, str(len(handles)), *handles, *told])))
        rows.clear()
        handles.clear()

    for line, told in zip(calls.decode().splitlines(), wanted.decode().splitlines()):
        (op, *words), (status, *more) = line.split(), told.split()
        if op != "insert":
            end("0", [])
            pairs.append((line, told))
            continue
        rows.append(words)
        if status == "0":
            handles += more
        else:
            if status != str(STATUSES["row"]):
                # (they are not put in; a row with a cell too many has to be the last)
                rows += draw.choices(rows, k=draw.randrange(3))
            end(status, more)
        if draw.randrange(8) == 0:
            end("0", [])
    end("0", [])
    return tuple("".join(f"{it}\n" for it in texts).encode() for texts in zip(*pairs))


def spoiled(seed, calls, wanted):
    """The same calls, each that has cells behind one with something wrong among them, and each that names an index behind one that names none; and what is told."""
    draw, pairs = random.Random(seed), []
    for line, told in zip(calls.decode().splitlines(), wanted.decode().splitlines()):
        op, *words = line.split()
        if op in ("insert", "modify", *KEYED):
            at = draw.randint({"insert": 0, "modify": 2}.get(op, 1), len(words))
            status = STATUSES["row"] if op in ("insert", "modify") else STATUSES["kind"] if told == str(STATUSES["kind"]) else STATUSES["key"]
            pairs.append((" ".join([op, *words[:at], draw.choice(WRONG), *words[at:]]), str(status)))
        if op == "sort" and told != str(STATUSES["kind"]):
            pairs += [(f"{op} {words[0]}", str(STATUSES["key"])), (" ".join([line, str(2**64 - 1)]), str(STATUSES["key"])), (" ".join([op, words[0], *"00000"]), str(STATUSES["key"]))]
        if op in (*KEYED, *WALKED):
            pairs.append((" ".join([op, str(2**64 - 1), *words[1:]]), str(STATUSES["kind"])))
        pairs.append((line, told))
    return tuple("".join(f"{it}\n" for it in texts).encode() for texts in zip(*pairs))
