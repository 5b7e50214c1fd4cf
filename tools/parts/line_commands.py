"""What is wrong with a JSON value that is no command, as tools/explain_line says it, and the command that was meant."""
import json
import re

from parts.line_examples import cell_near, fits_key, fresh_row, handle_near, index_near, is_handle, key_near, set_sample, value_for, whole_number
from parts.line_words import (
    DOES,
    MEANT_KEYS,
    MEANT_KINDS,
    MEANT_OPS,
    NAMES_OF_OP,
    OTHER_OPS,
    SHORT,
    SIBLINGS,
    WHAT,
    in_words,
    keys_of,
    named,
    nearest,
    shown,
    spelled,
)
from reference.plain_machine import ENDED, KINDS, OPS, has_shape
from reference.plain_machine import spelled as handle_of

DROPPED = object()
KEYS = ("k", "ge", "gt", "le", "lt")
OBJECTS = ("r", "set", "add")
TEXTS = ("hs", "by", "key")

# Ops that take a handle, each with the one that does the same by a key.
BY_KEY = {"get": "find", "erase": "erase_key"}

# The ops in whose place none stands, the safest first: no line that is shown takes out records unasked.
RISKY = ("erase", "erase_key", "reverse", "clear", "drop_index")
GUESSED = ["size", "list", "get", "find", "range", "insert", *(it for it in OPS if it not in RISKY), *RISKY[:2]]


def plain(word):
    return re.sub(r"[\s-]+", "_", word.strip().casefold())


def renamed(op, key, given):
    """The key of an op that was meant by another word, or None."""
    needed, more = keys_of(op)
    free = [it for it in ["t", *needed, *more] if it not in given]
    if plain(key) in free:
        return plain(key)
    return next((it for it in MEANT_KEYS.get(plain(key), "").split() if it in free), None)


def misfits(op, said):
    """How many keys an op lacks, how many it does not take, and how many stand under another word."""
    needed, more = keys_of(op)
    given = {it for it in said if it in ("op", "t", *needed, *more)}
    unknown = words = 0
    for key in said.keys() - given:
        meant = renamed(op, key, given)
        unknown += meant is None
        words += meant is not None
        given |= {meant} if meant else set()
    lacking = len({*needed} - given)
    if op == "modify":
        lacking += not given & {"set", "add"}
    if op == "insert":
        lacking += len(given & {"i", "p"}) == 1
    return lacking, unknown, words


def best_op(ops, said):
    """The op that the keys fit best, the first of equals."""
    return min(ops, key=lambda op: weight(misfits(op, said)))


def weight(counts):
    lacking, unknown, words = counts
    return 10 * (lacking + unknown) + words


class Advice:
    """Finds what is wrong with a value, and mends it on the way."""

    def __init__(self, session, said):
        self.session, self.said, self.causes = session, dict(said), []

    def advise(self):
        self.unwrap()
        self.mend_op()
        self.mend_table()
        self.table = self.session.table_near(self.said.get("t"))
        self.gather_columns()
        self.mend_sibling()
        self.find_handle()
        self.rename_keys()
        self.mend_pairs()
        self.mend_shapes()
        self.add_missing()
        return self.causes, self.said

    # The op and the table.

    def unwrap(self):
        """Takes an op and a table out of an object that stands within the line's own."""
        for key, value in [*self.said.items()]:
            if key not in ("r", "set", "add") and isinstance(value, dict) and value.keys() & {"op", "t"} and plain(key) not in OPS:
                self.said = self.without(key) | value
                self.causes.append(f"the op and its keys stand in the line's own object, and not within {named(key)}")

    def mend_op(self):
        op = self.said.get("op")
        if "op" not in self.said:
            self.find_op()
        elif not isinstance(op, str):
            self.causes.append(f'"op" is {shown(op, 30)}, and has to be a text, the name of an op')
            inner = op[0] if isinstance(op, list) and op else None
            self.said["op"] = inner if isinstance(inner, str) and inner in OPS else best_op(GUESSED, self.without("op"))
        elif op not in OPS:
            self.causes.append(self.unknown_op(op))

    def without(self, key):
        return {it: value for it, value in self.said.items() if it != key}

    def find_op(self):
        """Finds the op of a command that has none under its name."""
        alias = next((it for it in self.said if plain(it) in {"op", *NAMES_OF_OP} and isinstance(self.said[it], str)), None)
        as_key = next((it for it in self.said if plain(it) in OPS and plain(it) not in MEANT_KEYS and plain(it) not in ("add", "set")), None)
        if alias and (plain(alias) != "type" or plain(self.said[alias]) in {*OPS, *MEANT_OPS}):
            self.causes.append(f'the op stands under "op", and not under {named(alias)}')
            op = self.said.pop(alias)
            self.said["op"] = op
            if op not in OPS:
                self.causes.append(self.unknown_op(op))
        elif as_key:
            self.causes.append(f'an op is no key: "op":"{plain(as_key)}" stands in its place')
            inner = self.said.pop(as_key)
            self.said |= inner if isinstance(inner, dict) else {}
            self.said["op"] = plain(as_key)
        elif "at" in self.said and {"ok", "err"} & self.said.keys() or [*self.said] == ["err"]:
            self.causes.append("it is an answer of the server, and no command")
            self.said = {"op": "size", "t": self.session.table_near(None).name}
        else:
            self.causes.append('it has no "op", the name of what is asked')
            self.said["op"] = best_op(GUESSED, self.said) if self.said else "insert"

    def unknown_op(self, op):
        """Says which op was meant, and takes it."""
        word, others = plain(op), self.without("op")
        if word in OPS:
            self.said["op"] = word
            return f'no op is called {named(op)}: it is "{word}", with small letters and no blanks'
        options = MEANT_OPS.get(word, "").split()
        if options:
            self.said["op"] = best_op(options, others)
            if options == ["insert", "replace"]:
                return f'no op is called {named(op)}: "insert" {DOES["insert"]}; where it is banned, "replace" gives the row to the record that the answer names'
            return f"no op is called {named(op)}: " + "; ".join(f'"{it}" {DOES[it]}' for it in options)
        if word in OTHER_OPS:
            self.said["op"] = best_op(GUESSED, others)
            return f"no op is called {named(op)}: {OTHER_OPS[word]}"
        close = nearest(op, OPS)
        self.said["op"] = close or best_op(GUESSED, others)
        if close:
            return f'no op is called {named(op)}: perhaps "{close}", which {DOES[close]}'
        return f"no op is called {named(op)}: the ops are {in_words(OPS)}"

    def mend_table(self):
        name, op = self.said.get("t"), self.said["op"]
        if isinstance(name, str):
            return
        if "t" in self.said:
            self.causes.append(f'"t" is {shown(name, 30)}, and has to be a text, the table\'s name')
            inner = name[0] if isinstance(name, list) and name else name
            self.said["t"] = self.session.table_near(inner if isinstance(inner, str) else None).name
            return
        alias = next((it for it in self.said if renamed(op, it, self.said) == "t" and isinstance(self.said[it], str)), None)
        if alias:
            self.causes.append(f"{named(alias)} is no key of {op}: the table's name stands under \"t\"")
            self.said["t"] = self.said.pop(alias)
            return
        self.causes.append(f'"t", the table\'s name, is missing')
        self.said["t"] = self.session.table_near(None, self.said).name

    # The keys.

    def mend_sibling(self):
        """Takes another op, where the keys are just those of it."""
        op = self.said["op"]
        if not any(misfits(op, self.said)[:2]):
            return
        found = [it for it in SIBLINGS.get(op, "").split() if not any(misfits(it, self.said)[:2])]
        if found:
            given = in_words(f'"{it}"' for it in self.said if it not in ("op", "t"))
            needs = in_words(f'"{it}"' for it in keys_of(op)[0]) or "no more than the table"
            with_them = f"with {given}" if given else "with no more than the table"
            self.causes.append(f'{op} takes {needs} (it {DOES[op]}); {with_them} it is "{found[0]}", which {DOES[found[0]]}')
            self.said["op"] = found[0]

    def gather_columns(self):
        """Puts columns that stand beside the op's keys where they belong."""
        op = self.said["op"]
        needed, more = keys_of(op)
        loose = {it: value for it, value in self.said.items() if it in self.table.columns and it not in ("op", "t", *needed, *more)}
        if not loose or any(isinstance(it, (list, dict)) or isinstance(it, str) and is_handle(it) for it in loose.values()):
            return
        names, by_key = in_words(map(named, loose)), op in BY_KEY and "h" not in self.said
        target = "set" if op == "modify" else "k" if by_key else next((it for it in ("r", "k") if it in needed), None)
        if target is None or target in self.said:
            return
        self.said = {it: value for it, value in self.said.items() if it not in loose} | {target: loose}
        if target == "k":
            self.said["k"] = [*loose.values()]
            index = next((it for it in self.table.indices if it.parts and [name for name, _ in it.parts][: len(loose)] == [*loose]), None)
            self.said |= {"i": index.name} if index and "i" not in self.said else {}
            what = f"the key stands under \"k\", an array of its values{f', with the name of its index' if index else ''}"
        else:
            what = "columns stand in the row" if target == "r" else "columns stand in the object of cells"
        if by_key:
            self.said["op"] = BY_KEY[op]
            what = f'"{BY_KEY[op]}" {DOES[BY_KEY[op]]}, and {what}'
        takes = f"{op} takes a handle, and no {names}" if by_key else f"{op} takes no {names} beside its keys"
        self.causes.append(f'{takes}: {what}: "{target}":{shown(self.said[target], 40)}')

    def find_handle(self):
        """Takes the handle of a record for a key that stands in place of it."""
        op = self.said["op"]
        needed, more = keys_of(op)
        key = self.said.get("k", self.said.get("key"))
        if "h" not in needed or "k" in needed or any(renamed(op, it, self.said) == "h" for it in self.said) or "h" in self.said or not isinstance(key, list):
            return
        index = index_near(self.table, "find", self.said.get("i", self.said.get("index")), key)
        found = index.matches(self.table.lists[index], key) if index and fits_key(self.table, index, key) else []
        gone = [it for it in ("k", "key", "i", "index") if it in self.said and it not in (*needed, *more)]
        self.said = {it: value for it, value in self.said.items() if it not in gone} | ({"h": handle_of(found[0])} if found else {})
        answered = f', which is "{handle_of(found[0])}"' if found else ""
        self.causes.append(f'{op} takes a handle, "h", and no key: find answers the handle of a key{answered}')

    def rename_keys(self):
        op = self.said["op"]
        needed, more = keys_of(op)
        taken = ["op", "t", *needed, *more]
        for key in [it for it in self.said if it not in taken]:
            target = renamed(op, key, self.said)
            value = self.said.pop(key)
            if target and plain(key) == target:
                self.causes.append(f'{named(key)} is no key of {op}: it is "{target}", with small letters and no blanks')
            elif target:
                self.causes.append(f'{named(key)} is no key of {op}: {SHORT[target]} stands under "{target}"')
            else:
                self.causes.append(f"{op} takes no {named(key)}: its keys are {in_words(taken)}")
            if target:
                self.said[target] = value

    def add_missing(self):
        op = self.said["op"]
        for key in keys_of(op)[0]:
            if key not in self.said:
                self.causes.append(f'{op} needs "{key}", {WHAT[key]}')
                self.said[key] = value_for(self.table, op, key, self.said)
        if op == "modify" and not {"set", "add"} & self.said.keys():
            self.causes.append('modify needs "set" or "add", or both: the cells that change')
            self.said["set"] = set_sample(self.table)

    def mend_pairs(self):
        op, said = self.said["op"], self.said
        if op == "insert" and len({"i", "p"} & said.keys()) == 1:
            given, other = ("i", "p") if "i" in said else ("p", "i")
            self.causes.append(f'insert has both "i" and "p", to put the record at a place of a sequence, or neither: "{other}" is missing')
            sequences = [it for it in self.table.indices if it.kind in OPS["insert"][2]]
            if given == "i" and said["i"] in [it.name for it in sequences]:
                said["p"] = len(self.table.records)
            elif given == "p" and sequences:
                said["i"] = sequences[0].name
            else:
                del said[given]
        for one, other in (("ge", "gt"), ("le", "lt")):
            if op == "range" and {one, other} <= said.keys():
                self.causes.append(f'range takes one of "{one}" and "{other}", and not both')
                del said[other]

    # The shapes.

    def mend_shapes(self):
        for key in [it for it in self.said if it not in ("op", "t")]:
            value, op = self.said[key], self.said["op"]
            if has_shape(op, key, value):
                continue
            why, mended = self.shaped(key, value)
            self.causes.append(f'"{key}" is {shown(value, 40)}, and {why}')
            if mended is DROPPED:
                del self.said[key]
            else:
                self.said[key] = mended

    def shaped(self, key, value):
        """Says what has to stand under a key, and what was meant by a value of another shape."""
        op = self.said["op"]
        if key in KEYS:
            return self.shaped_key(value)
        if key in OBJECTS:
            many = " (one row: each has a line of its own)" if key == "r" and isinstance(value, list) and len(value) > 1 and isinstance(value[0], dict) else ""
            return f"has to be an object of columns and their values{many}", self.shaped_object(key, value)
        if key in TEXTS:
            return f"has to be an array of texts, {'the handles' if key == 'hs' else 'the names of columns'}", self.shaped_texts(key, value)
        if key in ("p", "n"):
            return self.shaped_place(value)
        if key == "h":
            end = "" if op in ENDED or value is not None else f" ({op} takes no null; it is the end in next, prev and rank)"
            end = " (one record: each has a line of its own)" if isinstance(value, list) and len(value) > 1 and isinstance(value[0], str) else end
            return f'has to be a text as "0:1", as answers give it{end}', handle_near(self.table, value)
        if key in ("rollback", "unique"):
            truth = {"true": True, "yes": True, "1": True}.get(str(value).casefold())
            return "has to be true or false, without quotes", truth if truth is not None else DROPPED
        if key == "kind":
            near = MEANT_KINDS.get(plain(value)) or nearest(value, KINDS) if isinstance(value, str) else None
            return f"has to be one of {in_words((named(it) for it in KINDS), 'or')}", near or value_for(self.table, op, "kind", self.said)
        inner = value[0] if isinstance(value, list) and value and isinstance(value[0], str) else None
        return "has to be a text, the index's name", inner or value_for(self.table, op, "i", self.said)

    def shaped_key(self, value):
        if isinstance(value, dict):
            return "has to be an array: the values of the key, in the order of its parts, without names", [*value.values()] or [1]
        if isinstance(value, str) and value.strip().startswith("["):
            try:
                inner = json.loads(value)
            except (ValueError, RecursionError):
                inner = None
            if isinstance(inner, list):
                return "has to be an array, without quotes round it", inner
        return f"has to be an array, also where the key has one part: [{shown(value, 30)}]", [value]

    def shaped_object(self, key, value):
        if isinstance(value, str):
            try:
                value = json.loads(value)
            except (ValueError, RecursionError):
                pass
        if isinstance(value, list) and value and isinstance(value[0], dict):
            value = value[0]
        if isinstance(value, dict):
            return value
        if isinstance(value, list) and key == "r" and len(value) == len(self.table.columns):
            return dict(zip(self.table.columns, value))
        return {} if key == "add" else value_for(self.table, self.said["op"], key, self.said)

    def shaped_texts(self, key, value):
        parts = value if isinstance(value, list) else re.split(r"[\s,]+", value.strip()) if isinstance(value, str) else []
        if key == "hs":
            return [it if isinstance(it, str) else handle_near(self.table, it) for it in parts] or value_for(self.table, "rearrange", "hs", self.said)
        return [it for it in parts if isinstance(it, str)] or value_for(self.table, self.said["op"], key, self.said)

    def shaped_place(self, value):
        most, number = len(self.table.records), whole_number(value)
        if number is not None and number < 0:
            return "places are counted from 0, from the front", 0
        why = "has to be a whole number, without quotes" if isinstance(value, str) else "has to be a whole number from 0 to 2^64-1"
        return why, 0 if number is None else min(number, most)


def inner_command(text):
    """The object that a text holds as JSON, or None."""
    try:
        value = json.loads(text)
    except (ValueError, RecursionError):
        return None
    return value if isinstance(value, dict) else None


def advise_command(session, value):
    """The causes for which a value is no command, and the command that was meant."""
    if isinstance(value, dict):
        return Advice(session, value).advise()
    objects = [it for it in value if isinstance(it, dict)] if isinstance(value, list) else []
    inner = inner_command(value) if isinstance(value, str) else None
    if objects:
        rest = "each command stands on a line of its own" if len(value) > 1 else "a command stands on its line without [ and ]"
        causes, said = inner_advice(session, objects[0])
        return [f"the line is an array of {len(value)}, and {rest}", *causes], said
    if inner:
        causes, said = inner_advice(session, inner)
        return ["the line is a text that holds a command: it was turned into JSON twice", *causes], said
    what = "an empty array" if value == [] else {list: "an array", str: "a text", bool: "true or false", type(None): "null"}.get(type(value), "a number")
    return [f"the line is {what}, and a command is an object, in {{ and }}"], from_words(session, value if isinstance(value, str) else "")


def inner_advice(session, said):
    """The causes for which an object within the line is no command, if any, and the command that was meant."""
    return ([], said) if session.fault_of(spelled(said))[0] != "command" else Advice(session, said).advise()


def from_words(session, text):
    """A command made of words: an op, a table and an index, where they are named."""
    words = [plain(it) for it in re.findall(r"[A-Za-z_][\w-]*", text[:2000])]
    op = next((it if it in OPS else MEANT_OPS[it].split()[0] for it in words if it in OPS or it in MEANT_OPS), "insert")
    op = BY_KEY[op] if op in BY_KEY and "where" in words else "modify" if op == "replace" and "set" in words else op
    table = session.table_near(next((it for it in words if it in session.machine.tables), None))
    said = {"op": op, "t": table.name}
    index = next((it.name for it in table.indices if plain(it.name) in words), None)
    if "i" in keys_of(op)[0] and index:
        said["i"] = index
    numbers = [int(it) for it in re.findall(r"(?<![\w.:-])-?\d{1,18}(?![\w.:-])", text[:2000])]
    if "k" in keys_of(op)[0] and numbers:
        found = next((it for it in table.indices if it.name == index), None)
        said["k"] = key_near(table, found, numbers[:1], False) if found and found.parts else numbers[:1]
    if op == "insert":
        said["r"] = row_of_words(table, text)
    for key in keys_of(op)[0]:
        if key not in said:
            said[key] = value_for(table, op, key, said)
    if op == "modify":
        said["set"] = set_sample(table)
    return said


def row_of_words(table, text):
    """A row of the last words of a text, where each is a cell, or a fresh one."""
    row = fresh_row(table)
    words = [it.strip("'\"") for it in re.findall(r"\"[^\"]*\"|'[^']*'|[^\s,()\[\]{};]+", text[:2000])][-len(row) :]
    cells = {it: cell_near(word, table.columns[it], None) for it, word in zip(row, words)}
    return row if len(cells) < len(row) or None in cells.values() else cells
