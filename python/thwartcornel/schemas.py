"""Declarations of tables: columns with types, indices with keys, and the text of a schema file that they make."""
from __future__ import annotations

import dataclasses
import json
import types
import typing
from collections.abc import Mapping
from typing import Any, Union

CELLS = {int: "int", str: "text", bool: "bool"}
NAME = "records"
LONGEST_TEXT = 4096


@dataclasses.dataclass(frozen=True)
class Index:
    """An index: its kind, the columns of its key, each with `-` before it where it falls, and whether each key comes once at the most."""

    kind: str
    key: tuple[str, ...] = ()
    unique: bool = False


def ordered(*key: str, unique: bool = False) -> Index:
    """Records in the order of a key: `ordered("side", "-price")`."""
    return Index("ordered", key, unique)


def ranked(*key: str, unique: bool = False) -> Index:
    """An order that also tells the place of a record, and the record at a place."""
    return Index("ranked", key, unique)


def hashed(*key: str, unique: bool = False) -> Index:
    """Records by their whole key, without an order: the quickest to find one by."""
    return Index("hashed", key, unique)


def sequenced() -> Index:
    """The order of insertion."""
    return Index("sequenced")


def random_access() -> Index:
    """The order of insertion, that also tells the record at a place."""
    return Index("random")


def is_number(value: Any) -> bool:
    """Whether this is a whole number of 64 bits. (A truth value is none.)"""
    return isinstance(value, int) and not isinstance(value, bool) and -(2**63) <= value < 2**63


@dataclasses.dataclass(frozen=True)
class Column:
    """A column: its cells are of `int`, `text` or `bool`, and may be null or not."""

    name: str
    cell: str
    null: bool = False

    def holds(self, value: Any) -> bool:
        """Whether this may be a cell of the column."""
        if value is None:
            return self.null
        if self.cell == "text":
            return isinstance(value, str) and len(value.encode(errors="surrogatepass")) <= LONGEST_TEXT
        return is_number(value) if self.cell == "int" else type(value) is bool


def column_of(name: str, kind: Any) -> Column:
    """The column of a type: int, str or bool, or one of these and None."""
    parts = typing.get_args(kind) if typing.get_origin(kind) in (Union, types.UnionType) else (kind,)
    cells = [it for it in parts if it is not type(None)]
    if len(cells) != 1 or cells[0] not in CELLS:
        raise TypeError(f"the column {name} is {kind!r}, and has to be int, str or bool, or one of these and None")
    return Column(name, CELLS[cells[0]], len(parts) > 1)


def columns_of(columns: type | Mapping[str, Any]) -> list[Column]:
    """The columns of a dataclass, or of types by their names."""
    if isinstance(columns, Mapping):
        return [column_of(name, kind) for name, kind in columns.items()]
    if not dataclasses.is_dataclass(columns):
        raise TypeError(f"{columns!r} is no dataclass, and no mapping of names to types")
    kinds = typing.get_type_hints(columns)
    return [column_of(it.name, kinds[it.name]) for it in dataclasses.fields(columns)]


def inline(words: Mapping[str, Any]) -> str:
    """A table of TOML on one line. (Its texts are written as in JSON.)"""
    return "{" + ", ".join(f"{name} = {json.dumps(it)}" for name, it in words.items()) + "}"


def schema_text(name: str, columns: type | Mapping[str, Any], indices: Mapping[str, Index], most: int | None = None) -> str:
    """The text of a schema file with a table of this name, as a server takes it: of a dataclass, or of types by their names, with at most
    `most` records."""
    lines = ["[[table]]", f"name = {json.dumps(name)}"] + ([] if most is None else [f"max = {most}"])
    lines.append("column = [")
    lines += [f"    {inline({'name': it.name, 'cell': it.cell} | ({'null': True} if it.null else {}))}," for it in columns_of(columns)]
    lines += ["]", "index = ["]
    for index, it in indices.items():
        more = ({"unique": True} if it.unique else {}) | ({"key": list(it.key)} if it.key else {})
        lines.append(f"    {inline({'name': index, 'kind': it.kind} | more)},")
    return "\n".join([*lines, "]", ""])
