"""Commands as calls of the package for Python, and what these return as answers."""
import random

from reference.plain_machine import Fault as PlainFault
from reference.plain_machine import read
from thwartcornel import Fault, Handle


def handle(text):
    return None if text is None else Handle.of(text)


def bounds(said):
    """The bounds of a range: two that are among the records by their places, and others by their names."""
    keys = {name: (list if name == "gt" else tuple)(said[name]) for name in ("ge", "gt", "le", "lt") if name in said}
    if keys.keys() == {"ge", "le"}:
        return [keys["ge"], keys["le"]], {}
    return [], keys


def ranged(records, said):
    places, names = bounds(said)
    return records.range(said["i"], *places, **names)


def inserted(records, said):
    return records.insert_at(said["i"], said["p"], said["r"]) if "i" in said else records.insert(said["r"])


def modified(records, said):
    return records.modify(Handle.of(said["h"]), set=said.get("set"), add=said.get("add"), rollback=said.get("rollback", False))


def keyed(name):
    return lambda records, said: getattr(records, name)(said["i"], *said["k"])


def along(name):
    return lambda records, said: getattr(records, name)(said["i"], handle(said["h"]))


# Each op: which member of an answer tells what its call returns, and the call.
CALLS = {
    "insert": ("h", inserted),
    "replace": (None, lambda records, said: records.replace(Handle.of(said["h"]), said["r"])),
    "modify": (None, modified),
    "modify_key": (None, lambda records, said: records.modify_key(said["i"], Handle.of(said["h"]), *said["k"], rollback=said.get("rollback", False))),
    "erase": (None, lambda records, said: records.erase(Handle.of(said["h"]))),
    "erase_next": ("next", along("erase_next")),
    "erase_key": ("n", keyed("erase_key")),
    "clear": (None, lambda records, said: records.clear()),
    "move": (None, lambda records, said: records.move(said["i"], Handle.of(said["h"]), said["p"])),
    "rearrange": (None, lambda records, said: records.rearrange(said["i"], map(Handle.of, said["hs"]))),
    "reverse": (None, lambda records, said: records.reverse(said["i"])),
    "sort": (None, lambda records, said: records.sort(said["i"], *said["by"])),
    "add_index": (None, lambda records, said: records.add_index(said["i"], said["kind"], *said.get("key", []), unique=said.get("unique", False))),
    "drop_index": (None, lambda records, said: records.drop_index(said["i"])),
    "get": ("r", lambda records, said: records.get(Handle.of(said["h"]))),
    "size": ("n", lambda records, said: records.size()),
    "range": ("rs", ranged),
    "nth": ("h", lambda records, said: records.nth(said["i"], said["n"])),
    "rank": ("n", along("rank")),
    "place": ("n", along("place")),
    "next": ("h", along("next")),
    "prev": ("h", along("prev")),
    "list": ("rs", lambda records, said: records.walk(said["i"])),
    **dict.fromkeys(("find", "lower", "upper"), "h"),
    **dict.fromkeys(("count", "find_rank", "lower_rank", "upper_rank"), "n"),
}
CALLS |= {name: (it, keyed(name)) for name, it in CALLS.items() if isinstance(it, str)}
# The same calls as a program may write them.
OTHERS = {
    "replace": lambda records, said: records.__setitem__(Handle.of(said["h"]), said["r"]),
    "erase": lambda records, said: records.__delitem__(Handle.of(said["h"])),
    "get": lambda records, said: records[Handle.of(said["h"])],
    "size": lambda records, said: len(records),
}


def call_of(line):
    """The command of a line, and the name of its call; or None where no call makes it."""
    try:
        said = read(line)
    except PlainFault:
        return None
    if said["op"] == "add_index" and said.get("key") == []:
        return None
    return said, "erase_next" if said["op"] == "erase" and "i" in said else said["op"]


def edited(said, row):
    """Whether a `with` block makes this modification: it has the cells that it sets, and changes one at least."""
    changes = said["op"] == "modify" and said.get("rollback") and "add" not in said and row
    return bool(changes) and any(name in row and (type(it) is not type(row[name]) or it != row[name]) for name, it in said["set"].items())


def roll_back(records, said):
    with records.rollback(Handle.of(said["h"])) as record:
        for name, it in said["set"].items():
            setattr(record, name, it)


def way_of(said, name, row, draw):
    """A call that carries the command out, in one of the ways that a program may write it."""
    if edited(said, row) and draw.randrange(2):
        return roll_back
    if name == "modify" and said.get("rollback") and ("set" in said) != ("add" in said) and draw.randrange(2):
        word = "update" if "set" in said else "add"
        return lambda records, said: getattr(records, word)(Handle.of(said["h"]), **said.get("set", {}), **said.get("add", {}))
    if name in OTHERS and draw.randrange(2):
        return OTHERS[name]
    return CALLS[name][1]


def answer(name, value):
    """What a call returns, as the members of an answer."""
    member = CALLS[name][0]
    if member in ("h", "next"):
        return {member: value and str(value)}
    if member == "rs":
        return {"rs": [{"h": str(it), "r": dict(record)} for it, record in value]}
    return {member: value if member == "n" else dict(value)} if member else {}


def answered(records, said, name, row, draw=random):
    """What a call tells: its value, or its fault, as an answer."""
    try:
        return answer(name, way_of(said, name, row, draw)(records, said))
    except Fault as why:
        return why.answer


def wanted(told, name):
    """What the plain machine's answer says beside its write number: of a record that is shown, the row."""
    shown = {"r"} if name == "get" else told.keys() - {"at", "ok"}
    return {it: told[it] for it in (told.keys() - {"at", "ok"} if "err" in told else shown)}


def row_of(table, text):
    """The row of a handle in the plain machine, or None."""
    return next((it.row for it in table.records if f"{it.slot}:{it.stamp}" == text), None)
