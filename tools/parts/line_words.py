"""The words in which tools/explain_line speaks: what ops and keys are called, what else people call them, and how values are shown."""
import difflib
import json

from reference.plain_machine import MORE_KEYS, OPS

# What each op does.
DOES = {
    "insert": "puts a record in",
    "replace": "gives a record another row",
    "modify": "changes some cells of a record",
    "modify_key": "changes the cells of a record's key",
    "erase": "takes a record out, by its handle",
    "erase_key": "takes out all records of a key",
    "clear": "takes out all records",
    "move": "moves a record in a sequence",
    "rearrange": "puts a sequence into an order of handles",
    "reverse": "turns a sequence round",
    "sort": "sorts a sequence by columns",
    "add_index": "adds an index",
    "drop_index": "drops an index",
    "get": "shows a record, by its handle",
    "size": "counts all records",
    "find": "finds the first record of a key",
    "count": "counts the records of a key",
    "lower": "finds the first record whose key is not less",
    "upper": "finds the first record whose key is greater",
    "range": "lists the records between two keys",
    "nth": "finds the record at a place",
    "rank": "says a record's place in a ranked index",
    "place": "says a record's place in a random access index",
    "find_rank": "says the rank of a key's first record",
    "lower_rank": "says the rank of what lower finds",
    "upper_rank": "says the rank of what upper finds",
    "next": "finds the record after another",
    "prev": "finds the record before another",
    "list": "lists all records in an index's order",
}

# What else people call an op, each with the ops that they may mean: the most likely first.
MEANT_OPS = {
    "update": "replace modify",
    "patch": "modify",
    "edit": "modify replace",
    "change": "modify replace",
    "set": "modify",
    "incr": "modify",
    "increment": "modify",
    "upsert": "insert replace",
    "put": "insert replace",
    "save": "insert replace",
    "add": "insert modify",
    "create": "insert",
    "new": "insert",
    "push": "insert",
    "append": "insert",
    "store": "insert",
    "write": "insert",
    "delete": "erase erase_key",
    "del": "erase erase_key",
    "remove": "erase erase_key",
    "delete_key": "erase_key",
    "remove_key": "erase_key",
    "delete_by_key": "erase_key",
    "truncate": "clear",
    "empty": "clear",
    "reset": "clear",
    "drop": "drop_index erase",
    "create_index": "add_index",
    "new_index": "add_index",
    "index": "add_index",
    "delete_index": "drop_index",
    "remove_index": "drop_index",
    "select": "find range list",
    "query": "find range list",
    "search": "find range list",
    "lookup": "find",
    "read": "get find",
    "fetch": "get find",
    "get_by_key": "find",
    "exists": "find count",
    "contains": "find count",
    "has": "find count",
    "all": "list",
    "dump": "list",
    "show": "get list",
    "scan": "list range",
    "iterate": "list",
    "find_all": "range list",
    "len": "size",
    "length": "size",
    "total": "size",
    "count_all": "size",
    "between": "range",
    "lower_bound": "lower",
    "upper_bound": "upper",
    "equal_range": "range",
    "first": "next list",
    "last": "prev",
    "previous": "prev",
    "before": "prev",
    "after": "next",
    "at": "nth",
    "index_of": "rank place",
    "position": "rank place",
    "order_by": "sort",
    "order": "sort rearrange",
    "relocate": "move",
    "swap": "move",
    "upsert_key": "modify_key",
    "change_key": "modify_key",
}

# Words that people take for ops, and what there is in their place.
OTHER_OPS = dict.fromkeys(("create_table", "drop_table", "alter_table", "tables"), "tables and columns stand in the schema file, and no op makes or shows them")
OTHER_OPS |= dict.fromkeys(("begin", "commit", "transaction", "rollback", "abort"), "each line is carried out whole or not at all; there are no transactions")
OTHER_OPS |= dict.fromkeys(("quit", "exit", "close", "bye", "stop"), "the server stops at the end of its input (Ctrl-D at a terminal)")
OTHER_OPS |= dict.fromkeys(("help", "info", "describe", "schema"), "docs/PROTOCOL.md has the ops, and the schema file the tables")

# What an op's name may stand under in place of "op".
NAMES_OF_OP = {"operation", "command", "cmd", "action", "method", "do", "verb", "type"}

# What stands under each key.
WHAT = {
    "op": "the name of what is asked",
    "t": "the table's name",
    "i": "the index's name",
    "r": "the row, an object with each column",
    "set": "cells in place of a record's, an object",
    "add": "ints to be added to a record's cells, an object",
    "rollback": "true or false",
    "k": "the key, an array",
    "ge": "the least key, an array",
    "gt": "a key below the least, an array",
    "le": "the greatest key, an array",
    "lt": "a key above the greatest, an array",
    "h": 'a record\'s handle, a text as "0:1"',
    "hs": "all handles, an array of texts",
    "by": "the columns, an array of texts",
    "p": "a place, a whole number from 0",
    "n": "a place, a whole number from 0",
    "kind": 'the index\'s kind, as "ordered"',
    "unique": "true or false",
    "key": "the columns of the key, an array of texts",
}

# The same in a word or two.
SHORT = {
    "t": "the table's name",
    "i": "the index's name",
    "r": "the row",
    "set": "what is set",
    "add": "what is added",
    "rollback": "true, to have a banned edit undone,",
    "k": "the key",
    "ge": "the least key",
    "gt": "a lower bound",
    "le": "the greatest key",
    "lt": "an upper bound",
    "h": "the record's handle",
    "hs": "the array of handles",
    "by": "the array of columns",
    "p": "the place",
    "n": "the place",
    "kind": "the index's kind",
    "unique": "true, for an index that has each key once,",
    "key": "the array of the key's columns",
}

# What else people call a key, each with the keys that they may mean.
MEANT_KEYS = {
    "table": "t",
    "tbl": "t",
    "tab": "t",
    "into": "t",
    "collection": "t",
    "table_name": "t",
    "index": "i",
    "idx": "i",
    "ix": "i",
    "index_name": "i",
    "using": "i",
    "name": "i t",
    "row": "r",
    "record": "r",
    "rows": "r",
    "records": "r",
    "rec": "r",
    "data": "r set",
    "doc": "r",
    "document": "r",
    "object": "r",
    "fields": "r set",
    "columns": "by key r",
    "cells": "set r",
    "changes": "set",
    "new": "r set",
    "value": "r set k",
    "values": "r set k",
    "v": "r set k",
    "r": "set",
    "set": "r",
    "handle": "h",
    "handles": "hs",
    "h": "hs",
    "hs": "h",
    "id": "h",
    "ref": "h",
    "rid": "h",
    "record_id": "h",
    "key": "k",
    "keys": "k hs key",
    "k": "key",
    "by": "key i",
    "inc": "add",
    "increment": "add",
    "plus": "add",
    "place": "p n",
    "pos": "p n",
    "position": "p n",
    "at": "p n",
    "offset": "p n",
    "index_at": "p n",
    "to": "p le",
    "p": "n",
    "n": "p",
    "number": "n p",
    "nth": "n",
    "order": "hs by",
    "order_by": "by",
    "sort": "by",
    "from": "ge t",
    "min": "ge",
    "low": "ge",
    "start": "ge",
    "begin": "ge",
    "lower": "ge",
    "gte": "ge",
    ">=": "ge",
    ">": "gt",
    "max": "le",
    "high": "le",
    "end": "le",
    "upper": "le",
    "lte": "le",
    "<=": "le",
    "<": "lt",
    "until": "lt",
    "type": "kind",
    "undo": "rollback",
    "atomic": "rollback",
}

MEANT_KINDS = {
    "sequence": "sequenced",
    "seq": "sequenced",
    "list": "sequenced",
    "linked": "sequenced",
    "queue": "sequenced",
    "random_access": "random",
    "array": "random",
    "vector": "random",
    "order": "ordered",
    "sorted": "ordered",
    "tree": "ordered",
    "btree": "ordered",
    "rank": "ranked",
    "hash": "hashed",
    "unordered": "hashed",
    "map": "hashed",
}

# Ops that are taken for one another: what another is meant where the keys fit it.
SIBLINGS = {
    "get": "find",
    "find": "get nth list",
    "erase": "erase_key",
    "erase_key": "erase",
    "replace": "modify modify_key",
    "modify": "replace modify_key",
    "modify_key": "modify",
    "insert": "replace",
    "count": "size",
    "size": "count",
    "list": "range",
    "range": "list find",
    "rank": "find_rank",
    "place": "rank",
    "find_rank": "rank",
    "lower": "range",
    "upper": "range",
    "sort": "rearrange",
    "rearrange": "sort",
    "clear": "erase_key erase",
    "nth": "find",
}

# The order in which a shown line has its keys.
ORDER = ["op", "t", "i", "h", "r", "set", "add", "k", "ge", "gt", "le", "lt", "p", "n", "hs", "by", "kind", "key", "unique", "rollback"]

OF_KIND = {
    "sequenced": "sequenced",
    "random": "random access",
    "ordered": "ordered",
    "ranked": "ranked",
    "hashed": "hashed",
}


def keys_of(op):
    """The keys that an op needs, and those that it may have."""
    needed, joined, _ = OPS[op]
    return needed.split(), joined.split() + sorted(MORE_KEYS.get(op, ()))


def in_words(words, last="and"):
    """The words as a list: `a, b and c`."""
    words = [*words]
    return f"{', '.join(words[:-1])} {last} {words[-1]}" if len(words) > 1 else "".join(words)


def kinds_in_words(kinds):
    return in_words([it for it in OF_KIND if it in kinds], "or")


def shown(value, most=60):
    """A value as JSON, short, and with nothing in it that does not print."""
    text = json.dumps(value, ensure_ascii=False, separators=(",", ":"), default=str)
    text = "".join(it if it.isprintable() else f"\\u{ord(it):04x}" if ord(it) < 65536 else f"U+{ord(it):X}" for it in text)
    return text if len(text) <= most else text[: most - 12] + ".." + text[-10:]


def named(name):
    return shown(name, 40)


def nearest(name, names):
    """The one of the names that was meant by another, or None."""
    if not isinstance(name, str):
        return None
    plain = name.casefold().strip(" \t\"'`")
    by_plain = {it.casefold(): it for it in reversed([*names])}
    if plain in by_plain:
        return by_plain[plain]
    close = difflib.get_close_matches(plain, [*by_plain], 1, 0.6)
    inside = [it for it in by_plain if len(it) > 2 and (it in plain or len(plain) > 2 and plain in it)]
    return by_plain[(close or inside)[0]] if close or inside else None


def spelled(command):
    """A command as a line, its keys in an order that is easy to read."""
    if isinstance(command, dict):
        place = lambda key: ORDER.index(key) if key in ORDER else len(ORDER)
        command = {key: command[key] for key in sorted(command, key=place)}
    return json.dumps(command, ensure_ascii=False, separators=(",", ":")).encode("utf-8", "replace")
