"""How tools/shell shows an answer of the server to a person: records as an aligned table, all else as one line. Pure functions."""
import json
import unicodedata

MOST_ROWS = 200
MOST_WIDTH = 48
# What each fault says, by docs/PROTOCOL.md.
FAULTS = {
    "line": "the line is longer than 65,536 bytes",
    "json": "the line is no JSON value",
    "command": "a key of the command is missing, one too many, or of another shape",
    "table": "no table has this name",
    "index": "no index of the table has this name",
    "kind": "the op takes an index of another kind",
    "row": "the row needs each column of the table, no other, and a value of each column's type",
    "key": "the key's values do not fit the index's key",
    "definition": "the index can't be added, or dropped, as the line says it",
    "handle": "no record has this handle",
    "place": "the place is behind the index's end",
    "order": "each record's handle has to stand once",
    "overflow": "the sum is no int of 64 bits",
    "full": "the table has as many records as its schema allows",
    "spent": "the table's write number is at its end",
    "memory": "memory was refused; nothing has changed",
}
ENDS = ("lower", "upper", "next", "prev")


def shown(answer, command=None, columns=()):
    """The text that a person reads for an answer line; the command is the line's value where it is one, and columns those of its table."""
    try:
        said = json.loads(answer)
    except ValueError:
        return answer
    if "err" in said:
        return fault(said)
    if "rs" in said:
        return listed(said["rs"], columns)
    if "r" in said:
        return table([said], columns)
    if "next" in said:
        return f"ok, before {position(said['next'])}"
    if "n" in said:
        return str(said["n"])
    if "h" in said:
        op = command.get("op") if isinstance(command, dict) else None
        return position(said["h"]) if said["h"] or op in ENDS else "none"
    return "ok"


def position(handle):
    return f"record {handle}" if handle else "the end"


def fault(said):
    """A fault in one line."""
    name = said["err"]
    if name == "banned":
        return f'banned: record {said["h"]} has this key already in the unique index "{said["by"]}"'
    if name == "erased":
        return f'erased: the changed record is gone: record {said["h"]} has its new key in the unique index "{said["by"]}"'
    if name == "clash":
        return f'clash: records {said["h"]} and {said["h2"]} have one key, and the index "{said["by"]}" would be unique'
    return f"{name}: {FAULTS[name]}" if name in FAULTS else name


def listed(records, columns):
    """The records of a list, as a table with their number below it."""
    count = f"{len(records)} record{'' if len(records) == 1 else 's'}"
    if not records:
        return count
    if len(records) > MOST_ROWS:
        count += f", of which the first {MOST_ROWS} are shown (.raw on shows all)"
    return f"{table(records[:MOST_ROWS], columns)}\n{count}"


def table(records, columns):
    """Records below one another: the handle, and then the columns in the schema's order."""
    row = records[0]["r"]
    names = [*(it for it in columns if it in row), *(it for it in row if it not in columns)]
    kinds = [{type(it["r"][name]) for it in records} for name in names]
    is_number = [False, *(int in it and it <= {int, type(None)} for it in kinds)]
    lines = [["handle", *names], *([it["h"], *(cell(it["r"][name]) for name in names)] for it in records)]
    widths = [max(width(line[at]) for line in lines) for at in range(len(lines[0]))]
    lines.insert(1, ["-" * it for it in widths])
    return "\n".join("  ".join(map(padded, line, widths, is_number)).rstrip() for line in lines)


def cell(value):
    """A cell's text: texts without quotes, unless they would be taken for something else."""
    if not isinstance(value, str):
        return json.dumps(value)
    is_plain = value.isprintable() and value == value.strip() and value not in ("", "null") and not value.startswith('"')
    return cut(value if is_plain else json.dumps(value, ensure_ascii=not value.isprintable()))


def cut(text):
    """A text that is no wider than a column may be."""
    if width(text) <= MOST_WIDTH:
        return text
    while width(text) > MOST_WIDTH - 2:
        text = text[: min(len(text) - 1, MOST_WIDTH)]
    return f"{text}.."


def width(text):
    """How many places of a terminal a text takes."""
    return sum(0 if unicodedata.combining(it) else 2 if unicodedata.east_asian_width(it) in "WF" else 1 for it in text)


def padded(text, places, is_number):
    blanks = " " * (places - width(text))
    return blanks + text if is_number else text + blanks
