"""What the records of a table have in common, wherever they are kept."""
from __future__ import annotations

import abc
import contextlib
from collections.abc import Iterable, Iterator, Mapping
from typing import Any, Generic, Union

from .faults import Fault, Stale
from .values import Cell, Handle, R, RecordType, changes

# A bound of a range: a key's first value, or a tuple or list of its first values.
Bound = Union[Cell, tuple[Cell, ...], list[Cell]]
OPEN: Any = ...


def bounds_of(low: Bound, high: Bound, said: Mapping[str, Bound]) -> dict[str, list[Cell]]:
    """The bounds of a range by the names that they have in lines: ge or gt, and le or lt."""
    given = {"ge": low, "le": high} | {name: it for name, it in said.items() if it is not OPEN}
    for name, (positional, other) in {"ge": (low, "gt"), "le": (high, "lt")}.items():
        named = [it for it in (name, other) if said[it] is not OPEN]
        if len(named) + (positional is not OPEN) > 1:
            raise TypeError(f"a range has one bound at each end, and not {name} and {other}")
        if named == [other]:
            del given[name]
    return {name: list(it) if isinstance(it, (tuple, list)) else [it] for name, it in given.items() if it is not OPEN}


class Records(abc.ABC, Generic[R]):
    """Records with several indices, each of which has all of them.

        h = people.insert(id=1, name="Ann", age=30)     # a handle
        people[h]                                       # the record
        people.find("by_id", 1)                         # its handle again, or None
        for h, person in people.range("by_age", 18, 30): ...
        with people.rollback(h) as person:              # changes the record, or raises and leaves it
            person.age += 1
        del people[h]

    An index is named by its name, and a key given by its values. A handle is good until its record is taken out; then a call with it
    raises `Stale`. Where a unique index has the key of a record already, `Banned` tells the index and the record.
    """

    _type: RecordType[R]

    # ---- one record

    @abc.abstractmethod
    def insert(self, record: R | Mapping[str, Cell] | None = None, /, **cells: Cell) -> Handle:
        """Puts a record in: `insert(id=1, name="Ann")`, or a mapping, or a record of the table's type. Raises Banned, and Full."""

    def insert_all(self, records: Iterable[R | Mapping[str, Cell]], /) -> list[Handle]:
        """Puts records in, each as `insert` does, and gives their handles in the same order. Where one is refused, those before it are in, and
        `inserted` of what is raised has their handles. A Container makes one call of them all."""
        handles: list[Handle] = []
        try:
            for it in records:
                handles.append(self.insert(it))
        except Fault as why:
            why.inserted = handles
            raise
        return handles

    @abc.abstractmethod
    def get(self, handle: Handle, /) -> R:
        """The record of a handle, as `records[handle]`. Raises Stale."""

    @abc.abstractmethod
    def replace(self, handle: Handle, record: R | Mapping[str, Cell] | None = None, /, **cells: Cell) -> None:
        """Gives a record other cells, all of them. Raises Stale, or Banned: then it is as it was."""

    @abc.abstractmethod
    def modify(self, handle: Handle, /, set: Mapping[str, Cell] | None = None, add: Mapping[str, int] | None = None, rollback: bool = False) -> None:
        """Sets cells of a record, and adds to others. Raises Stale; and Erased, where another record has its new key at a unique index: *the
        record is then gone*. With rollback it is as it was, and Banned is raised. `update` and `add` are shorter, and lose no record."""

    @abc.abstractmethod
    def erase(self, handle: Handle, /) -> None:
        """Takes a record out, as `del records[handle]`. Raises Stale."""

    @abc.abstractmethod
    def erase_key(self, index: str, /, *key: Cell) -> int:
        """Takes out all records of a key, and tells how many they were."""

    def update(self, handle: Handle, /, **cells: Cell) -> None:
        """Gives some cells of a record other values. Raises Stale, or Banned: then it is as it was."""
        self.modify(handle, set=cells, rollback=True)

    def add(self, handle: Handle, /, **numbers: int) -> None:
        """Adds to numbers of a record; a null stays null. Raises Stale, Overflow, or Banned: then it is as it was."""
        self.modify(handle, add=numbers, rollback=True)

    @contextlib.contextmanager
    def rollback(self, handle: Handle, /) -> Iterator[R]:
        """The record of a handle, to be changed in a `with` block. The cells that the block changed are set at its end, by one call.
        Where a unique index has their key already, Banned is raised, and the record is as it was; so it is where the block raises."""
        before = self._row(handle)
        record = self._type.record(dict(before))
        yield record
        if changed := changes(before, self._type.row(record, {})):
            self.modify(handle, set=changed, rollback=True)

    @abc.abstractmethod
    def _row(self, handle: Handle) -> dict[str, Any]:
        """The row of a handle."""

    # ---- all records

    @abc.abstractmethod
    def clear(self) -> None:
        """Takes all records out."""

    @abc.abstractmethod
    def size(self) -> int:
        """How many records there are, as `len(records)`."""

    @abc.abstractmethod
    def move(self, index: str, handle: Handle, place: int, /) -> None:
        """Puts a record before the one at a place of a sequence or an index of random access. Raises Stale, and BadPlace."""

    @abc.abstractmethod
    def sort(self, index: str, /, *columns: str) -> None:
        """Sorts a sequence or an index of random access by columns, each with `-` before it where it falls."""

    # ---- through an index

    @abc.abstractmethod
    def find(self, index: str, /, *key: Cell) -> Handle | None:
        """The first record of a key; in a hashed index the one that was inserted first. On an ordered or ranked index the first
        values of the key will do."""

    @abc.abstractmethod
    def count(self, index: str, /, *key: Cell) -> int:
        """How many records have the key."""

    @abc.abstractmethod
    def lower(self, index: str, /, *key: Cell) -> Handle | None:
        """The first record whose key is not less. The index is ordered or ranked."""

    @abc.abstractmethod
    def upper(self, index: str, /, *key: Cell) -> Handle | None:
        """The first record whose key is greater. The index is ordered or ranked."""

    @abc.abstractmethod
    def range(
        self, index: str, low: Bound = OPEN, high: Bound = OPEN, /, *, ge: Bound = OPEN, gt: Bound = OPEN, le: Bound = OPEN, lt: Bound = OPEN
    ) -> Iterator[tuple[Handle, R]]:
        """The records from one key to another, *both among them*, with their handles, in the order of an ordered or ranked index:
        `range("by_age", 18, 30)`, or with other ends `range("by_age", ge=18, lt=30)`. A key of several values is a tuple, and `...`
        or nothing stands for no bound. None is null, which comes before all values."""

    @abc.abstractmethod
    def walk(self, index: str, /) -> Iterator[tuple[Handle, R]]:
        """All records with their handles, in the order of an index."""

    @abc.abstractmethod
    def next(self, index: str, handle: Handle | None, /) -> Handle | None:
        """The record behind another, or None at the end. The index is not hashed."""

    @abc.abstractmethod
    def prev(self, index: str, handle: Handle | None, /) -> Handle | None:
        """The record before another; of None the last one. The index is not hashed."""

    @abc.abstractmethod
    def nth(self, index: str, place: int, /) -> Handle | None:
        """The record at a place, counted from 0. The index is ranked or of random access."""

    @abc.abstractmethod
    def rank(self, index: str, handle: Handle | None, /) -> int:
        """How many records stand before another in a ranked index; of None, how many there are."""

    @abc.abstractmethod
    def place(self, index: str, handle: Handle, /) -> int:
        """The place of a record in an index of random access, counted from 0."""

    @abc.abstractmethod
    def find_rank(self, index: str, /, *key: Cell) -> int:
        """The rank of what `find` finds in a ranked index; where it finds none, the number of records."""

    @abc.abstractmethod
    def lower_rank(self, index: str, /, *key: Cell) -> int:
        """How many records of a ranked index have a lesser key."""

    @abc.abstractmethod
    def upper_rank(self, index: str, /, *key: Cell) -> int:
        """How many records of a ranked index have a lesser key or an equal one."""

    # ---- as Python's own collections

    def __getitem__(self, handle: Handle) -> R:
        return self.get(handle)

    def __setitem__(self, handle: Handle, record: R | Mapping[str, Cell]) -> None:
        self.replace(handle, record)

    def __delitem__(self, handle: Handle) -> None:
        self.erase(handle)

    def __contains__(self, handle: object) -> bool:
        if not isinstance(handle, Handle):
            return False
        try:
            self._row(handle)
        except Stale:
            return False
        return True

    def __len__(self) -> int:
        return self.size()

    def __bool__(self) -> bool:
        return True

    __iter__ = None  # (a walk is along an index)
