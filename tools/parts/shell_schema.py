"""Which indices the tables of a serving program have, as far as lines can ask, and what `.schema` of tools/shell prints of tables.

An index is asked for by its name: lines that change nothing are refused for another reason by each kind, and where their key has not the index's columns.
What other clients added has a name that is not known here. The key of an index that they made anew is not known either, and where kind and types are as before
that can't be seen.
"""
from reference.plain_machine import SEQUENCES, Index

NO_RECORD = "0:0"
# How an index that is there refuses a line: the line, and by the name of its fault the kind, or the line that tells more.
OF_SEQUENCES = ({"op": "place", "h": NO_RECORD}, {"handle": "random", "kind": "sequenced"})
OF_SORTED = ({"op": "rank", "h": NO_RECORD}, {"handle": "ranked", "kind": "ordered"})
OF_KEYED = ({"op": "lower", "k": []}, {"kind": "hashed", "key": OF_SORTED})
OF_EVERY = ({"op": "count", "k": []}, {"kind": OF_SEQUENCES, "key": OF_KEYED, "index": None})
SAMPLES = {"int": 0, "text": "", "bool": False}


def kind_now(fault_of, table, name):
    """The kind of the index that has a name now, or None; fault_of sends a command, and gives the name of its fault."""
    asked = OF_EVERY
    while isinstance(asked, tuple):
        line, found = asked
        asked = found.get(fault_of({"t": table, "i": name, **line}))
    return asked


def has_key_of(fault_of, table, index):
    """Whether the index of this one's name and kind has a key of as many parts as this one, and of their types."""
    key = [SAMPLES[table.columns[name].cell] for name, _ in index.parts]
    return not key or fault_of({"op": "modify_key", "t": table.name, "i": index.name, "h": NO_RECORD, "k": key}) == "handle"


class ServedIndices:
    """The names that indices of a table had, each with what was said of it last, and those that are there."""

    def __init__(self, table):
        self.table = table
        self.said = {it.name: it for it in table.indices}
        self.changed, self.is_there = set(), True

    def note(self, command):
        """Keeps what an accepted line did to the indices."""
        name = command["i"]
        self.table.lists = {it: records for it, records in self.table.lists.items() if it.name != name}
        self.changed.discard(name)
        self.said.pop(name, None)
        if command["op"] == "add_index":
            self.said[name] = Index(command | {"name": name})
            self.table.lists[self.said[name]] = []

    def learn(self, fault_of):
        """Asks for the index of each name."""
        were, found = [it.name for it in self.table.indices], {}
        for name, said in self.said.items():
            kind = kind_now(fault_of, self.table.name, name)
            if kind and (name not in were or kind != said.kind or not has_key_of(fault_of, self.table, said)):
                self.changed.add(name)
            if kind:
                found[Index({"name": name, "kind": kind}) if name in self.changed else said] = []
        self.table.lists = found

    def known(self):
        """The indices that are there, but for those whose key is not known."""
        return [it for it in self.table.indices if it.name not in self.changed or it.kind in SEQUENCES]

    def in_words(self):
        """The table with its columns and its indices."""
        table = self.table
        if not self.is_there:
            return f"{table.name}: the server has no such table"
        columns = ", ".join(f"{name} {it.cell}{' or null' if it.null else ''}" for name, it in table.columns.items())
        there = {it.name: it for it in table.indices}
        lines = [f"  {name}: {self.index_in_words(there.get(name))}" for name in [*there, *(it for it in self.said if it not in there)]]
        return "\n".join([f"{table.name}: {columns}", *lines])

    def index_in_words(self, it):
        if it is None:
            return "dropped: the server has no index of this name now"
        if it.name in self.changed:
            return f"{it.kind} now, and another client's{'' if it.kind in SEQUENCES else ': its key is not known here'}"
        key = ", ".join(("-" if falls else "") + name for name, falls in it.parts)
        return f"{it.kind}{', unique' if it.unique else ''}{f', by {key}' if key else ''}"
