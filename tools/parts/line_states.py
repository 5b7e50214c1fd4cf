"""Why a command that is right is refused on a table as it is, as tools/explain_line says it: the faults that come of the lines before it.

Each function gives the causes, and commands of which the first that is accepted is shown.
"""
import dataclasses
import re

from parts.line_examples import HANDLE, handle_near, is_handle, value_for
from parts.line_tables import parts_in_words, plural
from parts.line_words import in_words, named, shown
from reference.plain_machine import ENDED, Index, by_age, first_clash, is_cell, spelled

# The faults that come of the lines before, beside handles that are spelled well.
OF_STATE = {"place", "order", "overflow", "banned", "clash", "full", "spent"}


@dataclasses.dataclass
class History:
    """What the accepted writes of a table did, and which lines were refused."""

    writes: list = dataclasses.field(default_factory=list)
    gone: dict = dataclasses.field(default_factory=dict)
    dropped: dict = dataclasses.field(default_factory=dict)
    refused: list = dataclasses.field(default_factory=list)

    def take(self, number, command, gone):
        """Takes an accepted write: the number of its line, its command, and the handles of the records that it took out."""
        self.writes.append((number, command["op"]))
        self.gone |= dict.fromkeys(gone, len(self.writes))
        if command["op"] == "drop_index":
            self.dropped[command["i"]] = number
        if command["op"] == "add_index":
            self.dropped.pop(command["i"], None)


def key_of(index, row):
    return shown([row[name] for name, _ in index.parts], 50)


# Handles.


def bad_handles(table, command):
    texts = command["hs"] if "hs" in command else [command["h"]]
    live = {spelled(it) for it in table.records}
    return [it for it in texts if it not in live]


def is_of_state(session, command, name):
    """Whether a fault comes of the lines before, and not of the line's own words."""
    if name == "handle":
        return all(map(is_handle, bad_handles(session.machine.tables[command["t"]], command)))
    return name in OF_STATE


def handle_form(text, op):
    """Why a text spells no handle."""
    if op in ENDED and re.search("[a-z]", text, re.I):
        return "a handle is a slot, a colon and a stamp, and null, without quotes, is the end"
    found = re.fullmatch(r"\s*([-+]?\d+)\s*:\s*([-+]?\d+)\s*", text, re.ASCII)
    if found and (text != text.strip() or re.search(r"\s", text)):
        return "a handle has no blanks"
    if found and re.search("[-+]", text):
        return "the numbers of a handle have no sign"
    if found and not HANDLE.fullmatch(text):
        return "the numbers of a handle have no leading zeros"
    if found:
        return "a slot is below 2^32, and a stamp below 2^64"
    if re.fullmatch(r"\d+", text, re.ASCII):
        return "that is one number: a handle is the slot, a colon and the stamp"
    return "a handle is a slot, a colon and a stamp, both decimal, as answers give it"


def unknown_handle(session, table, text):
    """Why no record has a handle that is spelled well."""
    history, stamp = session.histories[table.name], int(text.partition(":")[2])
    if text in history.gone:
        number, op = history.writes[history.gone[text] - 1]
        return f'record "{text}" is gone: the {op} of {session.line_called(number)}, write {history.gone[text]}, took it out'
    others = [name for name, it in session.machine.tables.items() if it is not table and text in [spelled(record) for record in it.records]]
    hint = f'; table "{others[0]}" has a record "{text}"' if others else ""
    if stamp == 0:
        return f'no record ever had the handle "{text}": stamps begin with 1{hint}'
    if stamp > table.writes:
        refused = f" ({session.line_called(history.refused[-1])}, an insert, was refused)" if history.refused else ""
        count = f"accepted {plural(table.writes, 'write')}" if table.writes else "accepted no write yet"
        return f'no record ever had the handle "{text}": its stamp is a write\'s number, and table "{table.name}" has {count}{refused}{hint}'
    number, op = history.writes[stamp - 1]
    if op != "insert":
        return f'no record ever had the handle "{text}": write {stamp}, of {session.line_called(number)}, is {an(op)}{hint}'
    made = [it for it in [*map(spelled, table.records), *history.gone] if it.endswith(f":{stamp}")]
    return f'no record ever had the handle "{text}": the insert of {session.line_called(number)} was answered "{made[0]}"{hint}'


def an(op):
    return f"{'an' if op[0] in 'aeiou' else 'a'} {op}"


def advise_handle(session, command):
    table = session.machine.tables[command["t"]]
    bad = bad_handles(table, command)
    text = next((it for it in bad if not is_handle(it)), bad[0])
    causes = [unknown_handle(session, table, text) if is_handle(text) else f"{named(text)} is no handle: {handle_form(text, command['op'])}"]
    if not table.records:
        causes[0] += f'; table "{table.name}" is empty, so insert a record'
    if "hs" in command:
        return causes, [command | {"hs": order_near(table, command)}]
    near = handle_near(table, None if is_handle(text) else text)
    is_end = command["op"] in ENDED and re.search("[a-z]", text, re.I)
    live = [*([None] if is_end else []), near, *(spelled(it) for it in table.records[:3])]
    return causes, [command | {"h": it} for it in live] + ways_without(table, command, live[-1])


def ways_without(table, command, handle):
    """What may be asked where no record has a handle that would do."""
    if table.records:
        return [{"op": "get", "t": table.name, "h": handle}]
    fresh = value_for(table, "insert", "r", {})
    return [{"op": "insert", "t": table.name, "r": it} for it in (command.get("r", fresh), fresh)]


def order_near(table, command):
    """The handles that are asked for and live, each once, and behind them the others in the index's order."""
    index = next(it for it in table.indices if it.name == command["i"])
    every = [spelled(it) for it in table.lists[index]]
    return [*dict.fromkeys([*(it for it in command["hs"] if it in every), *every])]


# Other states.


def advise_place(session, command):
    table = session.machine.tables[command["t"]]
    most = len(table.records)
    why = f'"p" is {command["p"]}, and table "{table.name}" has {plural(most, "record")}: the places are 0 to {most}, the last of them behind all'
    return [why], [command | {"p": most}]


def advise_order(session, command):
    table, texts = session.machine.tables[command["t"]], command["hs"]
    missing = [it for it in map(spelled, by_age(table.records)) if it not in texts]
    twice = [it for it in dict.fromkeys(texts) if texts.count(it) > 1]
    causes = []
    if missing:
        are = "is" if len(missing) == 1 else "are"
        causes.append(f'"hs" has to have each record of the table once: {in_words(map(named, missing[:4]))} {are} missing')
    causes += [f'"hs" has {in_words(map(named, twice[:4]))} more than once'] if twice else []
    return causes, [command | {"hs": order_near(table, command)}]


def advise_overflow(session, command):
    table = session.machine.tables[command["t"]]
    record = next(it for it in table.records if spelled(it) == command["h"])
    cells, causes, added = record.row | command.get("set", {}), [], dict(command["add"])
    for name, term in command["add"].items():
        if cells[name] is not None and not is_cell(cells[name] + term, table.columns[name]):
            causes.append(f'"{name}" is {cells[name]}, and {cells[name]} + {term} is no int of 64 bits, from -2^63 to 2^63-1')
            added[name] = max(-(2**63), min(2**63 - 1, cells[name] + term)) - cells[name]
    ways = [command | {"add": added}, command | {"add": {it: added[it] for it in added if added[it] == command["add"][it]}}]
    return causes, [*ways, {"op": "get", "t": table.name, "h": command["h"]}]


def blocking(table, ban):
    """The index of a ban, and the record that stands in the way."""
    index = next(it for it in table.indices if it.name == ban["by"])
    return index, next(it for it in table.records if spelled(it) == ban["h"])


def advise_banned(session, command, answer):
    table, op = session.machine.tables[command["t"]], command["op"]
    index, record = blocking(table, answer)
    handle, key = answer["h"], key_of(index, record.row)
    why = f'record "{handle}" has the key {key} already at "{index.name}", which holds each key once ({parts_in_words(index)})'
    get = {"op": "get", "t": table.name, "h": handle}
    if op == "insert":
        replace = {"op": "replace", "t": table.name, "h": handle, "r": command["r"]}
        return [f'{why}: replace gives that record the row, modify some of its cells'], [replace, modified(table, record, command["r"]), get]
    own = f'; or give "{command["h"]}" another key'
    return [f"{why}: change or erase that one first, or send the {op} for it{own}"], [command | {"h": handle}, get]


def modified(table, record, row):
    """A command that gives a record those cells of a row that no unique index has."""
    keys = {name for it in table.indices if it.unique for name, _ in it.parts}
    return {"op": "modify", "t": table.name, "h": spelled(record), "set": {it: row[it] for it in row if it not in keys}}


def advise_clash(session, command):
    table = session.machine.tables[command["t"]]
    index = Index(command | {"name": command["i"]})
    clash = first_clash(index, by_age(table.records))
    record = next(it for it in table.records if spelled(it) == clash["h"])
    why = f'records "{clash["h"]}" and "{clash["h2"]}" both have the key {key_of(index, record.row)} ({parts_in_words(index)})'
    plain = {it: command[it] for it in command if it != "unique"}
    return [f"{why}, and a unique index holds each key once: change or erase one of them, or leave unique out"], [plain]


def advise_full(session, command):
    table = session.machine.tables[command["t"]]
    oldest = spelled(by_age(table.records)[0])
    why = f'table "{table.name}" holds {plural(table.max, "record")}, as many as its schema allows (max = {table.max})'
    return [f'{why}: erase one first; the oldest is "{oldest}"'], [{"op": "erase", "t": table.name, "h": oldest}]


def advise_spent(session, command):
    return [f'table "{command["t"]}" has accepted 2^64-1 writes, and takes no more: only reads are answered'], []


def advise_erased(session, command, answer, row):
    """What came of a modification that was carried out, and took the record out."""
    table = session.machine.tables[command["t"]]
    index, record = blocking(table, answer)
    why = (
        f'it was carried out, and erased record "{command["h"]}": its new key {key_of(index, record.row)} at "{index.name}" is that of record "{answer["h"]}"; '
        'with "rollback":true it is refused as banned, and the record stays'
    )
    back = {"op": "insert", "t": table.name, "r": row}
    return [f"{why}. To have it back, insert it again"], [back, {"op": "size", "t": table.name}]


# The faults that need no more than the command to be told.
STATES = {
    "handle": advise_handle,
    "place": advise_place,
    "order": advise_order,
    "overflow": advise_overflow,
    "clash": advise_clash,
    "full": advise_full,
    "spent": advise_spent,
}
