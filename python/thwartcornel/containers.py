"""Containers of typed records in the program's own process, without lines of JSON."""
from __future__ import annotations

import ctypes
import tomllib
from collections.abc import Iterable, Iterator, Mapping, Sequence
from typing import Any, Generic, TypeVar, overload

from .cells import NO_CELL, SIZES, Cells, Record
from .faults import BadRow, Fault, NoIndex, Overflow, SchemaError, WrongKind, fault_of
from .library import NAMED, NONE, OK, ROW_FAULTS, ROWS, SIZE_OF_NAMED, Held, Named, Part, Schema, text_of
from .records import OPEN, Bound, Records, bounds_of
from .schemas import NAME, Column, Index, is_number, schema_text
from .values import Cell, Handle, R, RecordType, Row, handle_at

C = TypeVar("C", bound="Container[Any]")
K = TypeVar("K")


class Along:
    """An index by its number, with what is said of it."""

    def __init__(self, number: int, said: Mapping[str, Any]) -> None:
        self.number, self.kind = ctypes.c_size_t(number), said["kind"]
        self.key: tuple[str, ...] = tuple(said.get("key", ()))
        self.unique = said.get("unique", False)

    def precedes(self, one: tuple[Sequence[Cell], bool], other: tuple[Sequence[Cell], bool]) -> bool:
        """Whether one end comes before another: each before the records of a key, or behind them, which is True."""
        for part, mine, its in zip(self.key, one[0], other[0]):
            if weight(mine) != weight(its):
                return (weight(mine) < weight(its)) != part.startswith("-")
        if len(one[0]) == len(other[0]):
            return one[1] < other[1]
        # (the records of the longer key are some of those of the shorter one)
        return not one[1] if len(one[0]) < len(other[0]) else other[1]


def weight(cell: Cell) -> tuple[bool, Any]:
    """What tells how a cell stands to others of its column: null before all, and texts by their bytes."""
    return cell is not None, cell.encode() if isinstance(cell, str) else cell


def number_of(place: int) -> ctypes.c_uint64:
    """A place, as the library reads it."""
    if not 0 <= place < 2**64:
        raise IndexError(place)
    return ctypes.c_uint64(place)


class Container(Records[R], Generic[R]):
    """Records of one type with several indices, in this process.

        @dataclass
        class Person:
            id: int
            name: str
            age: int | None = None

        people = Container(Person, {"by_id": hashed("id", unique=True), "by_age": ordered("age", "id")})
        ann = people.insert(id=1, name="Ann", age=30)
        print(people[ann], people.find("by_id", 1) == ann)

    Columns are the fields of a dataclass, or types by their names as {"id": int, "age": int | None}; then records are dicts. At most `most`
    records are taken. `Container.of_schema` takes a schema file. A container is used by the thread that made it, and may be
    closed, as by a `with` block. It raises SchemaError, MemoryError, and OSError where the library is not found (see Tables).

    A walk or a range stops by RuntimeError where the container is changed meanwhile: take a `list` of it first.
    """

    @overload
    def __init__(self: Container[Row], columns: Mapping[str, Any], indices: Mapping[str, Index], most: int | None = None, library: str | None = None) -> None: ...

    @overload
    def __init__(self, columns: type[R], indices: Mapping[str, Index], most: int | None = None, library: str | None = None) -> None: ...

    def __init__(self, columns: Any, indices: Mapping[str, Index], most: int | None = None, library: str | None = None) -> None:
        self._open(schema_text(NAME, columns, indices, most).encode(), None, Row if isinstance(columns, Mapping) else columns, library)

    @overload
    @classmethod
    def of_schema(cls, schema: Schema, table: str | None = None, *, library: str | None = None) -> Container[Row]: ...

    @overload
    @classmethod
    def of_schema(cls, schema: Schema, table: str | None = None, *, kind: type[K], library: str | None = None) -> Container[K]: ...

    @classmethod
    def of_schema(cls, schema: Any, table: Any = None, *, kind: Any = Row, library: Any = None) -> Any:
        """The empty container of a table of a schema file, which is handed in as a path or as its text: of the first table, where none
        is named, and of dicts, or of a dataclass."""
        made = cls.__new__(cls)
        made._open(text_of(schema), table, kind, library)
        return made

    def _open(self, schema: bytes, table: str | None, kind: type[R], library: str | None) -> None:
        held = Held(ROWS, library)
        # (what the library takes is a schema)
        held.open(schema, 0)
        tables = tomllib.loads(schema.decode())["table"]
        names = [it["name"] for it in tables]
        if table is not None and table not in names:
            raise SchemaError("table")
        number = 0 if table is None else names.index(table)
        if number:
            held.close()
            held.open(schema, number)
        said = tables[number]
        self._held, self._calls, self._to, self._type, self._changes = held, held.calls, held.to, RecordType(kind), 0
        self._columns = {it["name"]: Column(it["name"], it["cell"], it.get("null", False)) for it in said["column"]}
        self._indices = {it["name"]: Along(k, it) for k, it in enumerate(said["index"])}
        self._record, self._written = self._type.reader(tuple(self._columns)), self._type.writer(tuple(self._columns))
        self._put, self._got = Cells(), Record(self.columns)
        # Where the library tells a handle, an index, a record's numbers of cells and of bytes, and a number.
        self._named, self._at, self._count, self._length, self._number = Named(), ctypes.c_size_t(), ctypes.c_size_t(), ctypes.c_size_t(), ctypes.c_uint64()
        self._to_named, self._to_at, self._to_number = map(ctypes.byref, (self._named, self._at, self._number))
        self._to_put = self._put.cells, SIZES[len(self._columns)]
        self._to_got = *self._got.rooms, ctypes.byref(self._count), ctypes.byref(self._length)

    @property
    def columns(self) -> list[Column]:
        """The columns, in their order."""
        return list(self._columns.values())

    @property
    def indices(self) -> list[str]:
        """The names of the indices, in their order."""
        return list(self._indices)

    def close(self) -> None:
        """Ends the container, and gives its memory back. A closed one stays closed, and another call raises Closed."""
        self._held.close()

    def __enter__(self: C) -> C:
        return self

    def __exit__(self, *_: object) -> None:
        self.close()

    def __repr__(self) -> str:
        return f"<container of {', '.join(self._columns)}, {'open' if self._held.opened.is_open else 'closed'}>"

    # ---- what the library tells

    def _fault(self, status: int) -> Fault:
        """The exception of a status."""
        answer: dict[str, Any] = {"err": ROW_FAULTS[status]}
        if answer["err"] in ("banned", "erased"):
            answer |= {"by": self.indices[self._at.value], "h": str(self._told())}
        return fault_of(answer)

    def _told(self) -> Handle:
        return handle_at(self._named.slot, self._named.stamp)

    def _name(self, handle: Handle) -> Any:
        """Puts a handle where the library reads it. (A slot or a stamp that is too great for it is of no record.)"""
        slot, stamp = handle
        if slot >> 32 or stamp >> 64:
            slot, stamp = 2**32 - 1, 2**64 - 1
        self._named.slot, self._named.stamp = slot, stamp
        return self._to_named

    def _done(self, status: int) -> None:
        if status != OK:
            self._held.look()
            raise self._fault(status)

    def _found(self, status: int) -> Handle | None:
        if status == NONE:
            return None
        self._done(status)
        return self._told()

    def _index(self, index: str) -> Along:
        self._held.look()
        try:
            return self._indices[index]
        except KeyError:
            raise NoIndex({"err": "index"}) from None

    # ---- one record

    def _values(self, record: Any, cells: Mapping[str, Cell]) -> bytes:
        """Puts a record where the library reads it, and returns its texts."""
        self._held.look()
        values = self._written(record, cells)
        texts = None if values is None else self._put.put(values)
        if texts is None:
            raise BadRow({"err": "row"})
        return texts

    def insert(self, record: R | Mapping[str, Cell] | None = None, /, **cells: Cell) -> Handle:
        texts = self._values(record, cells)
        self._changes += 1
        self._done(self._calls["insert"](self._to, *self._to_put, texts, self._put.texts_length, self._to_named, self._to_at))
        return self._told()

    def insert_all(self, records: Iterable[R | Mapping[str, Cell]], /) -> list[Handle]:
        self._held.look()
        cells, texts, count, is_bad = [], [], 0, False
        for it in records:
            values = self._written(it, {})
            if (packed := None if values is None else self._put.packed(values)) is None:
                is_bad = True
                break
            cells.append(packed[0])
            texts.append(packed[1])
            count += 1
        # (the program's own code may have run meanwhile)
        self._held.look()
        status, handles = self._put_all(b"".join(cells), b"".join(texts), count)
        if status != OK or is_bad:
            why = self._fault(status) if status != OK else BadRow({"err": "row"})
            why.inserted = handles
            raise why
        return handles

    def _put_all(self, cells: bytes, texts: bytes, count: int) -> tuple[int, list[Handle]]:
        """Puts so many records in, whose cells and texts are these, and returns the status with the handles of those that are in."""
        room = ctypes.create_string_buffer(count * SIZE_OF_NAMED or 1)
        sizes = ctypes.c_size_t(count * len(self._columns)), ctypes.c_size_t(len(texts)), ctypes.c_size_t(count)
        self._changes += 1
        put = self._calls["insert_all"]
        status = put(self._to, cells, sizes[0], texts, sizes[1], room, sizes[2], ctypes.byref(self._count), self._to_named, self._to_at)
        told = room.raw[: self._count.value * SIZE_OF_NAMED]
        return status, [handle_at(slot, stamp) for stamp, slot in NAMED.iter_unpack(told)]

    def _read(self, handle: Any) -> list[Any]:
        """The values of a record."""
        self._done(self._calls["get"](self._to, handle, *self._to_got))
        return self._got.values(self._length.value)

    def _row(self, handle: Handle) -> dict[str, Any]:
        self._held.look()
        return dict(zip(self._columns, self._read(self._name(handle))))

    def get(self, handle: Handle, /) -> R:
        self._held.look()
        return self._record(self._read(self._name(handle)))

    def _changed(self, handle: Handle, record: Any, cells: Mapping[str, Cell], rollback: bool) -> None:
        texts = self._values(record, cells)
        self._changes += 1
        named = self._name(handle)
        how = ctypes.c_bool(rollback)
        self._done(self._calls["modify"](self._to, named, *self._to_put, texts, self._put.texts_length, how, self._to_at))

    def replace(self, handle: Handle, record: R | Mapping[str, Cell] | None = None, /, **cells: Cell) -> None:
        self._changed(handle, record, cells, True)

    def modify(self, handle: Handle, /, set: Mapping[str, Cell] | None = None, add: Mapping[str, int] | None = None, rollback: bool = False) -> None:
        cells, terms = set or {}, add or {}
        self._held.look()
        if not all(it in self._columns and self._columns[it].holds(cell) for it, cell in cells.items()) or cells.keys() & terms.keys():
            raise BadRow({"err": "row"})
        if not all(it in self._columns and self._columns[it].cell == "int" and is_number(term) for it, term in terms.items()):
            raise BadRow({"err": "row"})
        row: dict[str, Any] = {**self._row(handle), **cells}
        row |= {name: row[name] + term for name, term in terms.items() if row[name] is not None}
        if not all(is_number(row[it]) for it in terms if row[it] is not None):
            raise Overflow({"err": "overflow"})
        self._changed(handle, row, {}, rollback)

    def erase(self, handle: Handle, /) -> None:
        self._held.look()
        self._changes += 1
        self._done(self._calls["erase"](self._to, self._name(handle)))

    def erase_key(self, index: str, /, *key: Cell) -> int:
        along = self._index(index)
        self._changes += 1
        return self._counted("erase_key", along, key)

    # ---- all records

    def clear(self) -> None:
        self._held.look()
        self._changes += 1
        self._done(self._calls["clear"](self._to))

    def size(self) -> int:
        self._held.look()
        self._done(self._calls["size"](self._to, self._to_number))
        return self._number.value

    def move(self, index: str, handle: Handle, place: int, /) -> None:
        along, before = self._index(index), number_of(place)
        self._changes += 1
        self._done(self._calls["move"](self._to, along.number, self._name(handle), before))

    def sort(self, index: str, /, *columns: str) -> None:
        along, parts = self._index(index), [self._part(it) for it in columns]
        self._changes += 1
        self._done(self._calls["sort"](self._to, along.number, (Part * len(parts))(*parts), ctypes.c_size_t(len(parts))))

    def _part(self, column: str) -> Part:
        """A part of an order. (A name that no column has is told by a number that none has.)"""
        names = list(self._columns)
        name = column.removeprefix("-")
        return Part(names.index(name) if name in names else len(names), column.startswith("-"))

    # ---- through an index

    def _counted(self, call: str, along: Along, key: Sequence[Cell]) -> int:
        """What a call tells of the records of a key."""
        self._done(self._calls[call](self._to, along.number, *self._keyed(key), self._to_number))
        return self._number.value

    def _search(self, call: str, index: Along, key: Sequence[Cell]) -> Handle | None:
        return self._found(self._calls[call](self._to, index.number, *self._keyed(key), self._to_named))

    def _keyed(self, key: Sequence[Cell]) -> tuple[Any, ...]:
        """A key as the library reads it. (What is no key goes as a cell that is none, since an index without keys is told first.)"""
        texts = self._put.put(key)
        if texts is None:
            return NO_CELL, SIZES[1], b"", SIZES[0]
        return self._put.cells, SIZES[len(key)], texts, self._put.texts_length

    def _along(self, call: str, index: Along) -> Handle | None:
        return self._found(self._calls[call](self._to, index.number, self._to_named))

    def find(self, index: str, /, *key: Cell) -> Handle | None:
        return self._search("find", self._index(index), key)

    def lower(self, index: str, /, *key: Cell) -> Handle | None:
        return self._search("lower", self._index(index), key)

    def upper(self, index: str, /, *key: Cell) -> Handle | None:
        return self._search("upper", self._index(index), key)

    def count(self, index: str, /, *key: Cell) -> int:
        return self._counted("count", self._index(index), key)

    def first(self, index: str, /) -> Handle | None:
        """The first record of an index that is not hashed."""
        return self._along("first", self._index(index))

    def next(self, index: str, handle: Handle | None, /) -> Handle | None:
        along = self._index(index)
        if handle is None:
            self._along("last", along)
            return None
        self._name(handle)
        return self._along("next", along)

    def prev(self, index: str, handle: Handle | None, /) -> Handle | None:
        along = self._index(index)
        if handle is None:
            return self._along("last", along)
        self._name(handle)
        return self._along("previous", along)

    def nth(self, index: str, place: int, /) -> Handle | None:
        along, at = self._index(index), number_of(place)
        return self._found(self._calls["nth"](self._to, along.number, at, self._to_named))

    def rank(self, index: str, handle: Handle | None, /) -> int:
        along = self._index(index)
        if handle is None and along.kind == "ranked":
            return self.size()
        self._done(self._calls["rank"](self._to, along.number, self._name(handle or Handle(0, 0)), self._to_number))
        return self._number.value

    def place(self, index: str, handle: Handle, /) -> int:
        along = self._index(index)
        self._done(self._calls["place"](self._to, along.number, self._name(handle), self._to_number))
        return self._number.value

    def _rank_of(self, call: str, index: str, key: Sequence[Cell]) -> int:
        """The rank of what a search finds."""
        along = self._index(index)
        if along.kind != "ranked":
            raise WrongKind({"err": "kind"})
        return self.rank(index, self._search(call, along, key))

    def find_rank(self, index: str, /, *key: Cell) -> int:
        return self._rank_of("find", index, key)

    def lower_rank(self, index: str, /, *key: Cell) -> int:
        return self._rank_of("lower", index, key)

    def upper_rank(self, index: str, /, *key: Cell) -> int:
        return self._rank_of("upper", index, key)

    def range(
        self, index: str, low: Bound = OPEN, high: Bound = OPEN, /, *, ge: Bound = OPEN, gt: Bound = OPEN, le: Bound = OPEN, lt: Bound = OPEN
    ) -> Iterator[tuple[Handle, R]]:
        along, bounds = self._index(index), bounds_of(low, high, {"ge": ge, "gt": gt, "le": le, "lt": lt})
        if along.kind not in ("ordered", "ranked"):
            raise WrongKind({"err": "kind"})
        ends: list[tuple[Sequence[Cell], bool] | None] = [None, None]
        found = [self._along("first", along), None]
        for name, key in bounds.items():
            side, is_behind = name in ("le", "lt"), name in ("gt", "le")
            ends[side], found[side] = (key, is_behind), self._search("upper" if is_behind else "lower", along, key)
        if ends[0] and ends[1] and along.precedes(ends[1], ends[0]):
            found[0] = None
        return self._steps(self._changes, along, found[0], found[1])

    def walk(self, index: str, /) -> Iterator[tuple[Handle, R]]:
        """All records with their handles, in the order of an index that is not hashed."""
        along = self._index(index)
        return self._steps(self._changes, along, self._along("first", along), None)

    def _steps(self, changes: int, along: Along, at: Handle | None, end: Handle | None) -> Iterator[tuple[Handle, R]]:
        """The records from one on, up to an end, with their handles, while there are so many changes."""
        following, number = self._calls["next"], along.number
        step = Named(at.stamp, at.slot) if at else Named()
        named, stop = ctypes.byref(step), end.stamp if end else None
        self._still(changes)
        while at is not None and step.stamp != stop:
            yield handle_at(step.slot, step.stamp), self._record(self._read(named))
            self._still(changes)
            status = following(self._to, number, named)
            if status:
                return self._done(OK if status == NONE else status)

    def _still(self, changes: int) -> None:
        self._held.look()
        if self._changes != changes:
            raise RuntimeError("the container was changed while it was walked")
