"""Tables that are called by lines of JSON, wherever they are: in process, behind a socket, or in a child process."""
from __future__ import annotations

import abc
import json
import threading
from collections.abc import Callable, Iterable, Iterator, Mapping
from typing import Any, Generic, TypeVar

from .faults import Fault, fault_of
from .records import OPEN, Bound, Records, bounds_of
from .values import Cell, Handle, R, RecordType, Row

T = TypeVar("T")
BLANK = b" \t\r"
MOST_SHOWN = 300
# The calls of a table that are one line each.
COMMANDS = frozenset(
    "insert insert_at replace modify update add modify_key erase erase_next erase_key clear move rearrange reverse sort add_index drop_index "
    "get size find count lower upper range walk nth rank place find_rank lower_rank upper_rank next prev".split()
)


def line_of(command: Mapping[str, Any]) -> bytes:
    """The line of a command, with its newline."""
    return json.dumps(command, separators=(",", ":"), ensure_ascii=False, allow_nan=False).encode() + b"\n"


def noted(fault: Fault, line: bytes) -> Fault:
    """The fault of a command, with the command's line for who reads the traceback."""
    shown = line.decode(errors="replace").rstrip()
    fault.add_note(f"the command: {shown if len(shown) <= MOST_SHOWN else shown[:MOST_SHOWN] + '..'}")
    return fault


def answer_of(line: bytes, answer_line: bytes) -> dict[str, Any]:
    """What the answer to a line says. Raises its fault."""
    answer: dict[str, Any] = json.loads(answer_line)
    if "err" in answer:
        raise noted(fault_of(answer), line)
    return answer


def text_or_null(handle: Handle | None) -> str | None:
    return None if handle is None else str(handle)


def nothing_of(_: dict[str, Any]) -> None:
    return None


def number_of(answer: dict[str, Any]) -> int:
    return int(answer["n"])


def row_of(answer: dict[str, Any]) -> dict[str, Any]:
    return dict(answer["r"])


def handle_of(answer: dict[str, Any]) -> Handle | None:
    return answer["h"] and Handle.of(answer["h"])


def new_handle_of(answer: dict[str, Any]) -> Handle:
    return Handle.of(answer["h"])


def next_of(answer: dict[str, Any]) -> Handle | None:
    return answer["next"] and Handle.of(answer["next"])


class Table(Records[R]):
    """A table of a database: `db["people"]`, or `db.table("people", Person)` for records of a dataclass."""

    def __init__(self, database: Database | Pipeline, name: str, kind: RecordType[R]) -> None:
        self._database, self.name, self._type = database, name, kind

    def _ask(self, op: str, read: Callable[[dict[str, Any]], T], **words: Any) -> T:
        return self._database._asked({"op": op, "t": self.name, **words}, read)

    def __repr__(self) -> str:
        return f"<table {self.name}>"

    # ---- writes

    def insert(self, record: R | Mapping[str, Cell] | None = None, /, **cells: Cell) -> Handle:
        return self._ask("insert", new_handle_of, r=self._type.row(record, cells))

    def insert_at(self, index: str, place: int, record: R | Mapping[str, Cell] | None = None, /, **cells: Cell) -> Handle:
        """Puts a record in, before the one at a place of a sequence or an index of random access. Raises BadPlace too."""
        return self._ask("insert", new_handle_of, r=self._type.row(record, cells), i=index, p=place)

    def replace(self, handle: Handle, record: R | Mapping[str, Cell] | None = None, /, **cells: Cell) -> None:
        return self._ask("replace", nothing_of, h=str(handle), r=self._type.row(record, cells))

    def modify(self, handle: Handle, /, set: Mapping[str, Cell] | None = None, add: Mapping[str, int] | None = None, rollback: bool = False) -> None:
        words = {name: dict(it) for name, it in (("set", set), ("add", add)) if it is not None}
        return self._ask("modify", nothing_of, h=str(handle), rollback=rollback, **words)

    def modify_key(self, index: str, handle: Handle, /, *key: Cell, rollback: bool = False) -> None:
        """Gives a record another key at an index, all of it. Raises as `modify` does."""
        return self._ask("modify_key", nothing_of, i=index, h=str(handle), k=key, rollback=rollback)

    def erase(self, handle: Handle, /) -> None:
        return self._ask("erase", nothing_of, h=str(handle))

    def erase_next(self, index: str, handle: Handle, /) -> Handle | None:
        """Takes a record out, and tells the one that stood behind it in an index."""
        return self._ask("erase", next_of, h=str(handle), i=index)

    def erase_key(self, index: str, /, *key: Cell) -> int:
        return self._ask("erase_key", number_of, i=index, k=key)

    def clear(self) -> None:
        return self._ask("clear", nothing_of)

    def move(self, index: str, handle: Handle, place: int, /) -> None:
        return self._ask("move", nothing_of, i=index, h=str(handle), p=place)

    def rearrange(self, index: str, handles: Iterable[Handle], /) -> None:
        """Puts a sequence or an index of random access into the order of these handles, which are all of the table's."""
        return self._ask("rearrange", nothing_of, i=index, hs=[str(it) for it in handles])

    def reverse(self, index: str, /) -> None:
        """Turns the order of a sequence or an index of random access round."""
        return self._ask("reverse", nothing_of, i=index)

    def sort(self, index: str, /, *columns: str) -> None:
        return self._ask("sort", nothing_of, i=index, by=columns)

    def add_index(self, index: str, kind: str, /, *key: str, unique: bool = False) -> None:
        """Adds an index: sequenced, random, ordered, ranked or hashed, and its columns. Raises Clash and BadDefinition."""
        return self._ask("add_index", nothing_of, i=index, kind=kind, unique=unique, **({"key": key} if key else {}))

    def drop_index(self, index: str, /) -> None:
        """Drops an index. Its records stay."""
        return self._ask("drop_index", nothing_of, i=index)

    # ---- reads

    def get(self, handle: Handle, /) -> R:
        return self._ask("get", lambda answer: self._type.record(answer["r"]), h=str(handle))

    def _row(self, handle: Handle) -> dict[str, Any]:
        return self._ask("get", row_of, h=str(handle))

    def size(self) -> int:
        return self._ask("size", number_of)

    def find(self, index: str, /, *key: Cell) -> Handle | None:
        return self._ask("find", handle_of, i=index, k=key)

    def count(self, index: str, /, *key: Cell) -> int:
        return self._ask("count", number_of, i=index, k=key)

    def lower(self, index: str, /, *key: Cell) -> Handle | None:
        return self._ask("lower", handle_of, i=index, k=key)

    def upper(self, index: str, /, *key: Cell) -> Handle | None:
        return self._ask("upper", handle_of, i=index, k=key)

    def range(
        self, index: str, low: Bound = OPEN, high: Bound = OPEN, /, *, ge: Bound = OPEN, gt: Bound = OPEN, le: Bound = OPEN, lt: Bound = OPEN
    ) -> Iterator[tuple[Handle, R]]:
        return self._ask("range", self._listed, i=index, **bounds_of(low, high, {"ge": ge, "gt": gt, "le": le, "lt": lt}))

    def walk(self, index: str, /) -> Iterator[tuple[Handle, R]]:
        return self._ask("list", self._listed, i=index)

    def _listed(self, answer: dict[str, Any]) -> Iterator[tuple[Handle, R]]:
        """The records of an answer: they are as they were when it was given."""
        return ((Handle.of(it["h"]), self._type.record(it["r"])) for it in answer["rs"])

    def next(self, index: str, handle: Handle | None, /) -> Handle | None:
        return self._ask("next", handle_of, i=index, h=text_or_null(handle))

    def prev(self, index: str, handle: Handle | None, /) -> Handle | None:
        return self._ask("prev", handle_of, i=index, h=text_or_null(handle))

    def nth(self, index: str, place: int, /) -> Handle | None:
        return self._ask("nth", handle_of, i=index, n=place)

    def rank(self, index: str, handle: Handle | None, /) -> int:
        return self._ask("rank", number_of, i=index, h=text_or_null(handle))

    def place(self, index: str, handle: Handle, /) -> int:
        return self._ask("place", number_of, i=index, h=str(handle))

    def find_rank(self, index: str, /, *key: Cell) -> int:
        return self._ask("find_rank", number_of, i=index, k=key)

    def lower_rank(self, index: str, /, *key: Cell) -> int:
        return self._ask("lower_rank", number_of, i=index, k=key)

    def upper_rank(self, index: str, /, *key: Cell) -> int:
        return self._ask("upper_rank", number_of, i=index, k=key)


class Database(abc.ABC):
    """Tables by their names, in process or behind a connection. A `with` block closes them at its end. Several threads may call one
    that is behind a connection, and tables in process are those of the thread that opened them."""

    def __init__(self) -> None:
        self._lock = threading.Lock()

    def __getitem__(self, name: str) -> Table[Row]:
        """The table of a name, with records as dicts. Nothing is asked, so a wrong name is told by the first call (NoTable)."""
        return Table(self, name, RecordType(Row))

    def table(self, name: str, kind: type[R]) -> Table[R]:
        """The table of a name, with records of a dataclass, whose fields are the columns."""
        return Table(self, name, RecordType(kind))

    def call(self, op: str, table: str, **words: Any) -> dict[str, Any]:
        """Carries out a command, and returns its answer: `call("find", "people", i="by_id", k=[7])`. docs/PROTOCOL.md has the commands.
        Raises a Fault where the answer has an `err`."""
        return self._answer({"op": op, "t": table, **words})

    def ask(self, line: bytes) -> bytes:
        """The answer to one line of JSON, both as bytes, and both without their newline."""
        if b"\n" in line:
            raise ValueError("more than one line")
        if not line.strip(BLANK):
            raise ValueError("a blank line has no answer")
        return self._exchange(line + b"\n", 1)[0]

    def pipeline(self, raises: bool = True) -> Pipeline:
        """Commands that are sent together, before their answers are read: see Pipeline."""
        return Pipeline(self, raises)

    @abc.abstractmethod
    def close(self) -> None:
        """Closes the tables, or their connection. Closed ones stay closed, and another call raises Closed."""

    @abc.abstractmethod
    def _exchange(self, lines: bytes, count: int) -> list[bytes]:
        """The answers to so many lines, without their newlines."""

    def _answer(self, command: dict[str, Any]) -> dict[str, Any]:
        line = line_of(command)
        return answer_of(line, self._exchange(line, 1)[0])

    def _asked(self, command: dict[str, Any], read: Callable[[dict[str, Any]], T]) -> T:
        return read(self._answer(command))

    def __enter__(self: T) -> T:
        return self

    def __exit__(self, *_: object) -> None:
        self.close()


class Later(Generic[T]):
    """What a command of a pipeline answers, once that is sent."""

    def __init__(self, line: bytes, read: Callable[[dict[str, Any]], T]) -> None:
        self._line, self._read = line, read
        self._answer: dict[str, Any] | None = None

    @property
    def value(self) -> T:
        """What the call would return. Raises its fault; and RuntimeError where the pipeline has not been sent."""
        if fault := self.fault:
            raise fault
        return self._read(self._said())

    @property
    def fault(self) -> Fault | None:
        """The fault that `value` raises, or None."""
        answer = self._said()
        return noted(fault_of(answer), self._line) if "err" in answer else None

    def _said(self) -> dict[str, Any]:
        if self._answer is None:
            raise RuntimeError("the pipeline has not been sent")
        return self._answer


class PipelinedTable:
    """The calls of a table that are one line each. Each gives a Later in the place of its value, as `many["people"].insert(id=1)`."""

    def __init__(self, table: Table[Any]) -> None:
        self._table = table

    def __getattr__(self, name: str) -> Callable[..., Later[Any]]:
        if name not in COMMANDS:
            raise AttributeError(f"{name} is no call of one line, and has no place in a pipeline")
        call: Callable[..., Later[Any]] = getattr(self._table, name)
        return call


class Pipeline:
    """Commands that are sent together at the end of a `with` block, and then all their answers are read.

        with db.pipeline() as many:
            handles = [many["people"].insert(id=n, name="x") for n in range(1000)]
        print(handles[0].value)

    Where some are refused, all others are carried out, and the first fault is raised at the end; with `pipeline(raises=False)` the
    faults are left to each Later. Where the block raises, nothing is sent.
    """

    def __init__(self, database: Database, raises: bool = True) -> None:
        self._database, self._raises = database, raises
        self._waits: list[Later[Any]] = []

    def __getitem__(self, name: str) -> PipelinedTable:
        return self.table(name, Row)

    def table(self, name: str, kind: type[Any]) -> PipelinedTable:
        """The table of a name, with records of a dataclass."""
        return PipelinedTable(Table(self, name, RecordType(kind)))

    def send(self) -> None:
        """Sends what waits, and reads the answers. The pipeline is then empty, and may be used again."""
        waits, self._waits = self._waits, []
        for later, line in zip(waits, self._database._exchange(b"".join(it._line for it in waits), len(waits))):
            later._answer = json.loads(line)
        faults = (later.fault for later in waits) if self._raises else ()
        if fault := next(filter(None, faults), None):
            raise fault

    def _asked(self, command: dict[str, Any], read: Callable[[dict[str, Any]], Any]) -> Any:
        self._waits.append(Later(line_of(command), read))
        return self._waits[-1]

    def __enter__(self) -> Pipeline:
        return self

    def __exit__(self, kind: type[BaseException] | None, *_: object) -> None:
        if kind is None:
            self.send()
