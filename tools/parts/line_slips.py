"""Puts one slip into a right line, of which it is known what has to be said: the fault, a phrase, and that the right line is the line before the slip.

Each slip is a function of a command, its line, its table and a source of draws. It gives the line with the slip, its fault and the phrase, or None where the
command has no place for it.
"""
import json
import re

from parts.line_words import MEANT_KEYS, keys_of, spelled
from reference.plain_machine import OPS


# Slips of the text.


def single_quotes(_command, text, _table, _draw):
    if "'" in text or "\\" in text:
        return None
    return text.replace('"', "'"), "json", "column 2: texts and names stand in double quotes, and not in '"


def trailing_comma(_command, text, _table, _draw):
    return text[:-1] + ",}", "json", f"column {len(text)}: a comma stands before }}"


def no_last_brace(_command, text, _table, _draw):
    return text[:-1], "json", f"column {len(text)}: the {{ of column 1 is never closed"


def no_first_brace(_command, text, _table, _draw):
    return text[1:], "json", "column 1: the { at the beginning is missing"


def brace_too_many(_command, text, _table, _draw):
    return text + "}", "json", f"column {len(text) + 1}: a }} too many"


def comment(_command, text, _table, draw):
    sign = draw.choice(("//", "#", "/*"))
    return f"{text} {sign} so", "json", f"column {len(text) + 2}: a line has no comments"


def twice(_command, text, _table, draw):
    between = draw.choice(("", " ", ",", "  "))
    return text + between + text, "json", f"column {len(text) + 1 + between.count(' ')}: a second value begins here"


def names_without_quotes(_command, text, _table, _draw):
    if re.search(r'":"[^"]*":', text):
        return None
    return re.sub(r'"([A-Za-z_]\w*)":', r"\1:", text), "json", 'column 2: a name stands in double quotes: "op"'


def no_comma(_command, text, _table, _draw):
    at = text.index(",")
    return f"{text[:at]} {text[at + 1 :]}", "json", f'column {at + 2}: a " stands where a comma or }} has to stand'


def equals_sign(_command, text, _table, _draw):
    return text.replace(":", "=", 1), "json", f'column {text.index(":") + 1}: "=" stands where a colon has to stand'


def prompt(_command, text, _table, _draw):
    return "> " + text, "json", 'column 1: ">" before the line'


def other_blank(_command, text, _table, draw):
    return text.replace(",", "," + draw.choice("\u00a0\u3000"), 1), "json", f"column {text.index(',') + 2}: "


def python_words(_command, text, _table, _draw):
    found = re.search(r"(?<=[:,\[])(true|false|null)(?=[,}\]])", text)
    word = found and {"true": "True", "false": "False", "null": "None"}[found[0]]
    return found and (text[: found.start()] + word + text[found.end() :], "json", f"column {found.start() + 1}: {word} is no JSON: write {found[0]}")


def zeros_before(_command, text, _table, _draw):
    found = re.search(r"(?<=[:,\[])[1-9]\d*(?=[,}\]])", text)
    return found and (f"{text[: found.start()]}00{text[found.start() :]}", "json", f"column {found.start() + 1}: 00{found[0][:22]}")


# Slips of the command.


def changed(command, **members):
    return spelled(command | members).decode()


def another_word(command, _text, table, draw):
    """A key under another word that people have for it."""
    op = command["op"]
    needed, more = keys_of(op)
    taken = {"op", "t", *needed, *more}
    pairs = [(key, word) for key in command if key != "op" for word in MEANT_KEYS if is_word_for(word, key, {*command} - {key}, taken, table)]
    if not pairs:
        return None
    key, word = draw.choice(pairs)
    renamed = {word if it == key else it: value for it, value in command.items()}
    return spelled(renamed).decode(), "command", f'"{word}" is no key of {op}'


def is_word_for(word, key, others, taken, table):
    meant = [it for it in MEANT_KEYS[word].split() if it in taken and it not in others]
    return meant[:1] == [key] and word not in taken and word not in table.columns


def capital_op(command, _text, _table, _draw):
    return changed(command, op=command["op"].upper()), "command", f'it is "{command["op"]}"'


def capital_table(command, _text, _table, _draw):
    return changed(command, t=command["t"].upper()), "table", f'perhaps "{command["t"]}"'


def capital_index(command, _text, table, _draw):
    name = command.get("i")
    if name is None or command["op"] == "add_index" or name.upper() in [it.name for it in table.indices] or not name.islower():
        return None
    return changed(command, i=name.upper()), "index", f'perhaps "{name}"'


def another_key(command, _text, _table, _draw):
    return changed(command, limit=10), "command", f'{command["op"]} takes no "limit"'


def key_without_array(command, _text, _table, _draw):
    if len(command.get("k", [])) != 1:
        return None
    return changed(command, k=command["k"][0]), "command", '"k" is '


def place_as_text(command, _text, _table, _draw):
    key = next((it for it in ("p", "n") if it in command), None)
    if key is None or command[key] >= 2:
        return None
    return changed(command, **{key: str(command[key])}), "command", f'"{key}" is "{command[key]}"'


def rollback_as_text(command, _text, _table, _draw):
    return "rollback" in command and command["rollback"] and (changed(command, rollback="true"), "command", '"rollback" is "true"') or None


def columns_as_text(command, _text, _table, _draw):
    return (changed(command, by=",".join(command["by"])), "command", '"by" is ') if command.get("by") else None


def in_an_array(_command, text, _table, _draw):
    return f"[{text}]", "command", "the line is an array of 1"


def in_a_text(_command, text, _table, _draw):
    return json.dumps(text), "command", "it was turned into JSON twice"


# Slips of a row and a key.


def capital_column(command, _text, table, draw):
    return in_row(command, draw, lambda row, name: {it.upper() if it == name else it: value for it, value in row.items()}, lambda name: f'perhaps "{name}"')


def another_column(command, _text, _table, draw):
    return in_row(command, draw, lambda row, name: row | {"colour": 1}, lambda name: 'the row has "colour", which is no column')


def int_as_text(command, _text, table, draw):
    return in_cell(command, table, draw, "int", str, "without quotes")


def int_with_point(command, _text, table, draw):
    return in_cell(command, table, draw, "int", lambda cell: float(cell) if 0 < abs(cell) < 2**50 else None, "no point")


def bool_as_text(command, _text, table, draw):
    return in_cell(command, table, draw, "bool", lambda cell: json.dumps(cell), "without quotes")


def in_row(command, draw, change, phrase):
    if "r" not in command:
        return None
    name = draw.choice([*command["r"]])
    return changed(command, r=change(command["r"], name)), "row", phrase(name)


def in_cell(command, table, draw, cell, change, phrase):
    names = [it for it, value in command.get("r", {}).items() if table.columns[it].cell == cell and value is not None]
    if not names:
        return None
    name = draw.choice(names)
    value = change(command["r"][name])
    return None if value is None else (changed(command, r=command["r"] | {name: value}), "row", phrase)


# Slips that lose something, behind which another right line may stand.


def lost_key(command, _text, _table, draw):
    key = draw.choice(["t", *keys_of(command["op"])[0]])
    lost = {it: value for it, value in command.items() if it != key}
    return spelled(lost).decode(), "command", f'"{key}"'


def lost_column(command, _text, _table, draw):
    if "r" not in command:
        return None
    name = draw.choice([*command["r"]])
    return changed(command, r={it: value for it, value in command["r"].items() if it != name}), "row", f'the row has no "{name}"'


def key_too_long(command, _text, table, _draw):
    if not command.get("k"):
        return None
    longer = command["k"] + command["k"][:1] * 4
    return changed(command, k=longer), "key", f'"k" has {len(longer)} values'


def empty_key(command, _text, _table, _draw):
    return (changed(command, k=[]), "key", '"k" is empty') if command.get("k") else None


def handle_not_there(command, _text, table, _draw):
    if command.get("h") is None:
        return None
    handle = f"0:{table.writes + 1}"
    return changed(command, h=handle), "handle", f'no record ever had the handle "{handle}"'


KEPT = [single_quotes, trailing_comma, no_last_brace, no_first_brace, brace_too_many, comment, twice, names_without_quotes, no_comma, equals_sign, prompt]
KEPT += [other_blank, python_words, zeros_before, another_word, capital_op, capital_table, capital_index, another_key, key_without_array, place_as_text]
KEPT += [rollback_as_text, columns_as_text, in_an_array, in_a_text, capital_column, another_column, int_as_text, int_with_point, bool_as_text]
LOST = [lost_key, lost_column, key_too_long, empty_key, handle_not_there]


def slipped(command, table, draw):
    """The name of a slip, the line with it, its fault, a phrase, and whether the right line has to be the line before it."""
    text = spelled(command).decode()
    for slip in draw.sample(KEPT + LOST, len(KEPT + LOST)):
        found = slip(command, text, table, draw)
        if found:
            line, fault, phrase = found
            return slip.__name__.replace("_", " "), line.encode(), fault, phrase, slip in KEPT
    return None
