"""What the word `.help` of tools/shell prints: the ops by groups, and of one op its keys and an example line. Pure functions."""
from parts.line_examples import value_for
from parts.line_words import DOES, MEANT_OPS, nearest, spelled
from reference.plain_machine import MORE_KEYS, OPS

HELP = """\
A line is a command, as {example}
Tab completes ops, tables, indices, columns and keys; arrows bring back earlier lines; Ctrl-C clears the line, Ctrl-D ends.
.help [OP]     this, or the keys of an op
.schema        the tables with their columns and indices
.explain       what was wrong with the last line that was refused
.raw on|off    answers as the server gives them, or for a person
.quit          ends, as Ctrl-D does
The ops, of which docs/PROTOCOL.md has the keys, the answers and the faults:"""
GROUPS = {
    "records": "insert replace modify modify_key erase erase_key clear get size",
    "by a key": "find count lower upper range",
    "in order": "list next prev",
    "by a place": "nth rank place find_rank lower_rank upper_rank",
    "sequences": "move rearrange reverse sort",
    "indices": "add_index drop_index",
}
# Words that are no lines, each with the word of the shell that was meant.
MEANT_WORDS = {"help": ".help", "?": ".help", "quit": ".quit", "exit": ".quit"}


def help_in_words(more, tables):
    """What `.help` says, alone or with the name of an op behind it."""
    if more in OPS:
        return op_in_words(more, tables)
    if more:
        return no_op(more)
    groups = [f"  {name + ':':<12}{', '.join(ops.split())}" for name, ops in GROUPS.items()]
    return "\n".join([HELP.format(example=example("insert", tables) or '{"op":"size","t":"TABLE"}'), *groups])


def no_op(word):
    """Which ops were meant by a word that is none."""
    meant = MEANT_OPS.get(word.casefold(), "").split() or [it for it in [nearest(word, OPS)] if it]
    near = "; ".join(f"{it} {DOES[it]}" for it in meant)
    return f"no op is called {word}: {near or '.help names them'}"


def op_in_words(op, tables):
    needs, joined, kinds = OPS[op]
    said = f"{op}: {', '.join(['op', 't', *needs.split()])}"
    said += f"; with {' and '.join(joined.split())} or without" if joined else ""
    said += f"; perhaps {', '.join(sorted(MORE_KEYS[op]))}" if op in MORE_KEYS else ""
    said += f"; indices that are {', '.join(sorted(kinds))}" if kinds else ""
    line = example(op, tables)
    return f"{op} {DOES[op]}\n{said}" + (f"\nas {line}" if line else "")


def example(op, tables):
    """A line with the op, on the first table that has an index for it; None where none has."""
    needs, joined, kinds = OPS[op]
    more = {"modify": "set", "range": "ge", "add_index": "kind key"}.get(op, "")
    for table in tables.values():
        # (of a served table no index may be known)
        if not table.indices or "i" in needs.split() and kinds and not any(it.kind in kinds for it in table.indices):
            continue
        said = {"op": op, "t": table.name}
        for key in sorted([*needs.split(), *more.split()], key=["i", "key"].__contains__, reverse=True):
            said[key] = value_for(table, op, key, said)
        return spelled(said | ({"hs": ["0:1", "1:2"]} if "hs" in said else {})).decode()
    return None


def hint(line):
    """What is said of a line that is a word of the shell without its dot; None of another."""
    word = line.strip().rstrip("();").casefold()
    meant = MEANT_WORDS.get(word.split(" ")[0] if word.startswith("help ") else word)
    return meant and f"a word of the shell begins with a dot: {meant}"
