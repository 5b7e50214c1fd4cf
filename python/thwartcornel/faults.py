"""What calls raise: an exception for each fault of docs/PROTOCOL.md, and some of this package's own."""
from __future__ import annotations

import json
from typing import Any, ClassVar

from .values import Handle


SCHEMAS = {
    "toml": "the text is no TOML (a file is handed in as a pathlib.Path, or as its text)",
    "shape": "a key is missing or unknown, or its value is of another type",
    "limit": "a number of tables, columns, indices, parts or records is outside its limits",
    "name": "a name is not 1 to 32 letters, digits or _, or stands twice",
    "key": "an index has a key that its kind or its columns do not allow, or lacks one",
    "table": "there is no table of the name",
}


class SchemaError(ValueError):
    """A text that is no schema file: `fault` is toml, shape, limit, name or key. Or one without a table that was named: table.
    `tools/explain_schema FILE` tells the line and what would be right."""

    def __init__(self, fault: str) -> None:
        super().__init__(fault)
        self.fault = fault

    def __str__(self) -> str:
        return f"{self.fault}: {SCHEMAS[self.fault]}"


FOLDERS = {
    "device": "a file or the folder can't be opened, read, made, written or synced",
    "taken": "another program has the folder, or other tables of this one",
    "other": "the folder has a table of this name that is declared otherwise, and `table_keeper --alter` changes it",
    "hurt": "what the folder has is not whole, or not of these tables, and `table_keeper --compact` tells which file and why",
    "log": "a log can't be written or synced: see to the disk, and open the folder again",
}


class FolderError(OSError):
    """Tables that a folder keeps can't be opened, or written any more: `fault` is device, taken, other, hurt or log, and `filename` the folder."""

    def __init__(self, fault: str, folder: str | None = None) -> None:
        super().__init__(fault)
        self.fault = fault
        self.filename = folder

    def __str__(self) -> str:
        return f"{self.fault}: {self.filename}: {FOLDERS[self.fault]}"


class Closed(ValueError):
    """A call of tables that are closed, or whose connection has ended."""


class Fault(Exception):
    """A command that was not done as it was asked for. `answer` is its answer, and `err` what that tells, as "banned". Of an `insert_all`
    `inserted` has the handles of the records before it."""

    told: ClassVar[str] = ""

    def __init__(self, answer: dict[str, Any]) -> None:
        super().__init__(answer)
        self.answer = answer
        self.inserted: list[Handle] = []

    @property
    def err(self) -> str:
        """The fault by its name in docs/PROTOCOL.md."""
        return str(self.answer["err"])

    def __str__(self) -> str:
        return f"{self.err}: {self.told}" if self.told else json.dumps(self.answer)


class Refused(Fault):
    """A command that changed nothing."""


class InTheWay(Fault):
    """A record that has the key at a unique index: `index` is the index, and `handle` the record."""

    __match_args__ = ("index", "handle")

    @property
    def index(self) -> str:
        """The name of the unique index."""
        return str(self.answer["by"])

    @property
    def handle(self) -> Handle:
        """The record that has the key."""
        return Handle.of(self.answer["h"])

    def __str__(self) -> str:
        return f"{self.err}: in the unique index {self.index} the record {self.handle} has the key{self.told}"


class Banned(InTheWay, Refused):
    """Another record has the key at a unique index, and nothing has changed: `index` is the index, and `handle` that record."""


class Erased(InTheWay):
    """A modification without rollback took its record out: at the unique index `index` the record `handle` has the new key."""

    told = ", and the modified one is gone"


class Clash(InTheWay, Refused):
    """A unique index can't be added, as two records have one key: `handle` is the earlier one, and `other` the later one."""

    @property
    def other(self) -> Handle:
        """The first record that has the key of an earlier one."""
        return Handle.of(self.answer["h2"])


class BadLine(Refused):
    """The line of a command is longer than 65,536 bytes."""

    told = "a command has at most 65,536 bytes"


class BadJson(Refused):
    """The line is no JSON value."""

    told = "the line is no JSON value"


class BadCommand(Refused):
    """The command has an unknown op, or lacks a word of its op, or has one too many or of another shape."""

    told = "a word is missing, unknown, or of another shape"


class NoTable(Refused, LookupError):
    """There is no table of the name."""

    told = "there is no table of the name"


class NoIndex(Refused, LookupError):
    """The table has no index of the name."""

    told = "the table has no index of the name"


class WrongKind(Refused):
    """The index is of a kind that has no such call."""

    told = "the index is of a kind that has no such call"


class BadRow(Refused, ValueError):
    """The record has not exactly the table's columns, or a value that its column can't hold."""

    told = "a record has a value for each column, and no other, and each value is one of its column's"


class BadKey(Refused, ValueError):
    """The key has no value, too many, or one that is no value of its part's column; or a hashed index has not got all of it."""

    told = "a key has the values of the index's first columns, and of a hashed index of all"


class BadDefinition(Refused, ValueError):
    """The index that would be added is none, or the last one would be dropped."""

    told = "the table can't have this index, or it is its last one"


class Stale(Refused, KeyError):
    """The handle names no record, or none any more."""

    told = "the handle names no record"


class BadPlace(Refused, IndexError):
    """The place is greater than the number of records."""

    told = "the place is greater than the number of records"


class BadOrder(Refused, ValueError):
    """The order has not each record's handle exactly once."""

    told = "an order has each record's handle exactly once"


class Overflow(Refused, OverflowError):
    """A sum is no whole number of 64 bits."""

    told = "a sum is no whole number of 64 bits"


class Full(Refused):
    """The table has as many records as its schema allows."""

    told = "the table has as many records as its schema allows"


class Spent(Refused):
    """The table has taken 2^64-1 writes."""

    told = "the table has taken 2^64-1 writes"


class NoMemory(Refused, MemoryError):
    """Memory was refused, and nothing has changed."""

    told = "memory was refused"


FAULTS: dict[str, type[Fault]] = {
    "banned": Banned,
    "erased": Erased,
    "clash": Clash,
    "line": BadLine,
    "json": BadJson,
    "command": BadCommand,
    "table": NoTable,
    "index": NoIndex,
    "kind": WrongKind,
    "row": BadRow,
    "key": BadKey,
    "definition": BadDefinition,
    "handle": Stale,
    "place": BadPlace,
    "order": BadOrder,
    "overflow": Overflow,
    "full": Full,
    "spent": Spent,
    "memory": NoMemory,
}


def fault_of(answer: dict[str, Any]) -> Fault:
    """The exception of an answer that has an `err`."""
    return FAULTS.get(answer["err"], Refused)(answer)
