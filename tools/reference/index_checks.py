"""Checks of the plain machine by itself while indices come and go, and counts of what was met.

An index that was added has to answer every look-up as the one index of a table that was made with it, and that was given the same rows in the
order of their insertion. Where it is refused for a clash, that table has to ban one of the rows, for the same two records. What was dropped
is gone, and after both changes every other index stands as it stood.
"""
import collections
import json

from reference.histories import Wrong
from reference.plain_machine import BOUNDS, ENDED, KEYED, MAX_INDICES, OPS, SORTED, WRITES, Fault, Table, by_age

KEYS = 5
SOME_CELLS = {"int": 7, "text": "b", "bool": True}


def made(table, command):
    """A table with the index of a command alone."""
    columns = [{"name": name, "cell": it.cell, "null": it.null} for name, it in table.columns.items()]
    index = {"name": command["i"]} | {it: command[it] for it in ("kind", "unique", "key") if it in command}
    return Table({"name": table.name, "max": table.max, "column": columns, "index": [index]})


def filled(table, records):
    """Gives a table the rows of records, one after another; the two that clash, where one is banned, or else None."""
    for it in records:
        try:
            _, left = table.answer({"op": "insert", "t": table.name, "r": it.row})
        except Fault as fault:
            return {"h": records[int(fault.answer["h"].split(":")[0])], "h2": it}
        table.keep(left)
    return None


def keys_of(table, index, records):
    """Some keys to look for: those of some records, and one of no record in particular; leading parts too, where these may be looked for."""
    rows = [it.row for it in records[:: max(1, len(records) // KEYS)]]
    keys = [index.key_of(it) for it in rows] + [[SOME_CELLS[table.columns[name].cell] for name, _ in index.parts]]
    least = 1 if index.kind in SORTED else len(index.parts)
    return [key[:count] for key in keys for count in range(least, len(key) + 1)]


def look_ups(table, index, records):
    """Commands through an index: of every read that its kind has. A record is named by its place among all in the order of their insertion."""
    places = [*range(len(records))][:: max(1, len(records) // KEYS)]
    keys = keys_of(table, index, records) if index.kind in KEYED else []
    values = {"k": keys, "h": places, "n": [*places, len(records), len(records) + 1]}
    for op, (needed, _, kinds) in OPS.items():
        if "i" not in needed.split() or op in WRITES or index.kind not in kinds:
            continue
        last = needed.split()[-1]
        if op == "range":
            yield from ({"op": op, bound: key} for bound in BOUNDS for key in keys)
            yield from ({"op": op, "ge": low, "lt": high} for low, high in zip(keys, keys[1:]))
        yield from ({"op": op, last: it} for it in values[last]) if last in values else [{"op": op}]
        if op in ENDED:
            yield {"op": op, "h": None}


def answered(table, index, command, records):
    """What a table answers to a command through an index, with each record as its place among these."""
    places = {f"{it.slot}:{it.stamp}": at for at, it in enumerate(records)}
    asked = command | {"t": table.name, "i": index.name}
    if command.get("h") is not None:
        asked["h"] = f"{records[command['h']].slot}:{records[command['h']].stamp}"
    said, _ = table.answer(asked)
    if "rs" in said:
        return [places[it["h"]] for it in said["rs"]]
    return said["n"] if "n" in said else said["h"] and places[said["h"]]


def check_added(table, command):
    """Compares an index that a command added with that of a table which was made with it."""
    index, other = table.indices[-1], made(table, command)
    records = by_age(table.records)
    if index.name != command["i"] or filled(other, records):
        raise Wrong(f"{command} is accepted")
    others = by_age(other.records)
    for it in look_ups(table, index, records):
        found, wanted = answered(table, index, it, records), answered(other, other.indices[0], it, others)
        if found != wanted:
            raise Wrong(f"after {command} {it} is answered {found}, and {wanted} in a table that was made so")


def check_clash(table, command, said):
    found = filled(made(table, command), by_age(table.records))
    wanted = found and {it: f"{record.slot}:{record.stamp}" for it, record in found.items()}
    if wanted != {it: said[it] for it in ("h", "h2")}:
        raise Wrong(f"{command} is answered {said}, and a table that was made so bans {wanted}")


class Watch:
    """A plain machine whose indices come and go: each such change is checked, and counted."""

    def __init__(self, machine):
        self.machine, self.counts = machine, collections.Counter()
        self.cleared, self.dropped = set(), collections.defaultdict(set)

    def take(self, line):
        """Answers a line, and keeps what it leaves."""
        answer, change = self.machine.answer(line)
        said = json.loads(answer)
        if b'_index"' not in line or said.get("err") in ("json", "command", "table"):
            self.machine.keep(change)
            self.see_clear(line, change)
            return answer
        command = json.loads(line)
        table = self.machine.tables[command["t"]]
        before, writes = table.lists, table.writes
        self.machine.keep(change)
        if change and (said != {"at": writes + 1, "ok": True} or table.writes != writes + 1):
            raise Wrong(f"{command} is answered {said}")
        getattr(self, "see_" + command["op"])(command, said, table, before)
        return answer

    def see_clear(self, line, change):
        """Notes which tables were cleared by the last of their writes."""
        if change:
            command = json.loads(line)
            (self.cleared.add if command["op"] == "clear" else self.cleared.discard)(command["t"])

    def see_refusal(self, command, said, table, before):
        if table.lists is not before:
            raise Wrong(f"{command} is refused, and something has changed")
        at_bound = len(before) == (MAX_INDICES if command["op"] == "add_index" else 1)
        self.counts[f"{command['op']}: {said['err']}{' at its bound' if at_bound and said['err'] == 'definition' else ''}"] += 1

    def see_add_index(self, command, said, table, before):
        if said.get("err") == "clash":
            check_clash(table, command, said)
        if "err" in said:
            return self.see_refusal(command, said, table, before)
        if list(table.lists.items())[:-1] != list(before.items()):
            raise Wrong(f"{command} changes another index")
        check_added(table, command)
        self.counts[f"added {command['kind']}{' unique' if command.get('unique') else ''}"] += 1
        self.counts["added to an empty table"] += not table.records
        self.counts["added to a table that was cleared"] += table.name in self.cleared
        self.counts["added as the eighth"] += len(table.lists) == MAX_INDICES
        self.counts["added under a name that was dropped"] += command["i"] in self.dropped[table.name]
        self.cleared.discard(table.name)
        return None

    def see_drop_index(self, command, said, table, before):
        if "err" in said:
            return self.see_refusal(command, said, table, before)
        names = [it.name for it in before]
        if list(table.lists.items()) != [it for it in before.items() if it[0].name != command["i"]] or len(table.lists) + 1 != len(before):
            raise Wrong(f"{command} changes another index")
        self.counts["dropped"] += 1
        self.counts["dropped from an empty table"] += not table.records
        self.counts["dropped with others after it"] += names.index(command["i"]) + 1 < len(names)
        self.counts["dropped down to one"] += len(table.lists) == 1
        self.dropped[table.name].add(command["i"])
        self.cleared.discard(table.name)
        return None


def told(counts):
    """The counts of several watches, in words."""
    return "; ".join(f"{count} {name}" for name, count in sorted(counts.items()))
