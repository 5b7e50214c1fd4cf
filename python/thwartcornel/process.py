"""Tables in the program's own process, that are called by lines as those of a server."""
from __future__ import annotations

import ctypes
import os

from .library import LINES, MEMORY, ROOM, Held, Schema, text_of
from .tables import Database

FIRST_ROOM = 4096


class Tables(Database):
    """The tables of a schema file in this process, empty at first. The file is handed in as a path, or as its text.

        with Tables(pathlib.Path("schema.toml")) as tables:
            people = tables["people"]
            people.insert(id=7, name="Ann")

    They are used by the thread that opened them, and end with the process. Raises SchemaError, MemoryError, and OSError where the
    library is not found: it is `library`, or what THWARTCORNEL_LIBRARY names, or the one that was installed.
    """

    def __init__(self, schema: Schema, library: str | None = None) -> None:
        self._prepare(library)
        self._held.open(text_of(schema))

    def _prepare(self, library: str | None) -> None:
        super().__init__()
        self._held = Held(LINES, library)
        self._length, self._is_broken_off = ctypes.c_size_t(), False
        self._told = ctypes.byref(self._length)
        self._room = ctypes.create_string_buffer(FIRST_ROOM)

    def _exchange(self, lines: bytes, count: int) -> list[bytes]:
        self._held.look()
        if self._is_broken_off:
            # A call that an exception broke off may have left a line that is not ended, and answers that wait.
            # (what waits is taken first, so there is room for the answer to that line)
            self._taken()
            self._held.check(self._held.calls["end"](self._held.to))
            self._taken()
        self._is_broken_off = True
        answers, rest = b"", lines
        while status := self._held.calls["call"](self._held.to, rest, ctypes.c_size_t(len(rest)), self._told):
            if status != MEMORY:
                self._held.check(status)
            # (once no answer waits there is room for one, so a later call takes a byte or more)
            rest = rest[self._length.value :]
            answers += self._taken()
        answers += self._taken()
        self._is_broken_off = False
        return answers.split(b"\n")[:count]

    def _taken(self) -> bytes:
        """The answers that wait."""
        take = self._held.calls["take"]
        while status := take(self._held.to, self._room, ctypes.c_size_t(len(self._room)), self._told):
            if status != ROOM:
                self._held.check(status)
            self._room = ctypes.create_string_buffer(max(self._length.value, 2 * len(self._room)))
        return ctypes.string_at(self._room, self._length.value)

    def close(self) -> None:
        self._held.close()

    def __repr__(self) -> str:
        return f"<tables in process, {'open' if self._held.opened.is_open else 'closed'}>"


class FolderTables(Tables):
    """The tables of a schema file that a folder keeps, with the files of table_keeper: see open_folder."""

    def __init__(self, folder: str | os.PathLike[str], schema: Schema, synced: bool = True, library: str | None = None) -> None:
        self._prepare(library)
        self._held.open_folder(text_of(schema), os.fspath(folder), synced)

    @property
    def folder(self) -> str:
        """The folder that has the tables."""
        return self._held.folder

    def sync(self) -> None:
        """Syncs the logs: no crash takes away what was written until now. It is for tables that are not `synced`."""
        self._held.look()
        self._held.check(self._held.calls["sync"](self._held.to))

    def __repr__(self) -> str:
        return f"<tables of the folder {self.folder}, {'open' if self._held.opened.is_open else 'closed'}>"


def open_folder(folder: str | os.PathLike[str], schema: Schema, synced: bool = True, library: str | None = None) -> FolderTables:
    """The tables of a schema file that a folder keeps. It is made where it is absent, and table_keeper may serve it once they are closed.

        with open_folder("data", pathlib.Path("schema.toml")) as tables:
            tables["people"].insert(id=7, name="Ann")

    A program has the folder for itself until it closes the tables or ends. Where `synced`, an answer comes once the disk has what it rests on: a
    pipeline waits once for all of its lines. Else the system writes it in time, or `sync` at once. Raises FolderError, SchemaError and MemoryError. After
    a FolderError of the fault `log` close the tables, and open the folder again: it has each write that was answered.
    """
    return FolderTables(folder, schema, synced, library)
