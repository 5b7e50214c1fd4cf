"""What records are: their handles, their cells, and how they look to the program."""
from __future__ import annotations

import dataclasses
import operator
from collections.abc import Callable, Mapping, Sequence
from typing import Any, Generic, NamedTuple, TypeVar, Union

Cell = Union[int, str, bool, None]
R = TypeVar("R")


class Handle(NamedTuple):
    """A record's handle. It names its record until that is taken out, and no record afterwards. `str` gives it as lines have it."""

    slot: int
    stamp: int

    @classmethod
    def of(cls, text: str) -> Handle:
        """The handle that a text spells, as "0:1"."""
        slot, _, stamp = text.partition(":")
        return cls(int(slot), int(stamp))

    def __str__(self) -> str:
        return f"{self.slot}:{self.stamp}"


def handle_at(slot: int, stamp: int) -> Handle:
    """A handle. (It is made in half the time of `Handle(slot, stamp)`.)"""
    return tuple.__new__(Handle, (slot, stamp))


class Row(dict[str, Any]):
    """A record as a dict, whose cells are attributes too: `row.age` is `row["age"]`, where a dict has no attribute of that name."""

    def __getattr__(self, name: str) -> Any:
        try:
            return self[name]
        except KeyError:
            raise AttributeError(f"the record has no column {name}") from None

    def __setattr__(self, name: str, value: Any) -> None:
        self[name] = value


class RecordType(Generic[R]):
    """How the records of a table look to the program: as a dataclass, or as a `Row` where none is named."""

    def __init__(self, made: type[R]) -> None:
        if made is not Row and not dataclasses.is_dataclass(made):
            raise TypeError(f"{made!r} is no dataclass")
        # (a type checker does not know that it makes records of a row's cells)
        self.made: Callable[..., R] = made
        self._kind, self._is_row = made, made is Row
        self._fields = dataclasses.fields(made) if dataclasses.is_dataclass(made) else ()
        self._names = [it.name for it in self._fields]

    def record(self, row: dict[str, Any]) -> R:
        """The record of a row."""
        return self.made(row) if self._is_row else self.made(**row)

    def reader(self, names: Sequence[str]) -> Callable[[Sequence[Any]], R]:
        """Makes records of the values of these columns."""
        made = self.made
        if self._is_row:
            return lambda values: made(zip(names, values))
        if self._names == list(names) and not any(it.kw_only for it in self._fields):
            return lambda values: made(*values)
        return lambda values: made(**dict(zip(names, values)))

    def writer(self, names: Sequence[str]) -> Callable[[Any, Mapping[str, Cell]], Sequence[Any] | None]:
        """Tells the values of these columns of a record, as `row` takes it; or None where it has not just these columns."""
        picked = operator.attrgetter(*names) if len(names) > 1 else None
        is_whole = set(self._names) == set(names)

        def written(record: Any, cells: Mapping[str, Cell]) -> Sequence[Any] | None:
            if picked and is_whole and type(record) is self.made and not cells:
                return picked(record)
            row = cells if record is None and self._is_row else self.row(record, cells)
            try:
                return [row[it] for it in names] if len(row) == len(names) else None
            except KeyError:
                return None

        return written

    def row(self, record: Any, cells: Mapping[str, Cell]) -> dict[str, Any]:
        """The row of a record, which is handed in as one, as a mapping, or as its cells by their names."""
        if record is None:
            record = cells if self._is_row else self.made(**cells)
        elif cells:
            raise TypeError("a record is handed in as one, or as its cells by their names, and not as both")
        if not self._is_row and isinstance(record, self._kind):
            return {name: getattr(record, name) for name in self._names}
        return dict(record)


def changes(before: Mapping[str, Cell], after: Mapping[str, Cell]) -> dict[str, Any]:
    """The cells of a row that have other values. (True is another one than 1.)"""
    return {name: it for name, it in after.items() if name not in before or type(it) is not type(before[name]) or it != before[name]}
