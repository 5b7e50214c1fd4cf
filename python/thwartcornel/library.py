"""The library libthwartcornel.so, and its calls. include/thwartcornel.h says what each does."""
from __future__ import annotations

import ctypes
import functools
import os
import struct
import threading
from typing import Union

from .faults import Closed, FolderError, SchemaError

FILE = "libthwartcornel.so"
HERE = os.path.dirname(os.path.abspath(__file__))
# Where the library is sought, if the environment names none: in the package, and in the folder of docs/EMBED.md of a clone.
PLACES = [f"{HERE}/{FILE}", f"{HERE}/../../out/{FILE}"]
# What a call answers.
OK, MEMORY, HANDLE, ROOM, NONE, LOG = 0, 1, 7, 8, 9, 24
SCHEMA_FAULTS = {2: "toml", 3: "shape", 4: "limit", 5: "name", 6: "key"}
FOLDER_FAULTS = {20: "device", 21: "taken", 22: "other", 23: "hurt", LOG: "log"}
# The faults of calls on typed records, by their names in docs/PROTOCOL.md.
ROW_FAULTS = {MEMORY: "memory", 10: "row", 11: "key", 12: "kind", 13: "handle", 14: "banned", 15: "erased", 16: "full", 17: "spent", 18: "table", 19: "place"}

class Opened(ctypes.Structure):
    """The library's handle of tables, or of typed records. It begins as zeros, and is never copied."""

    _fields_ = [("at", ctypes.c_void_p), ("is_open", ctypes.c_bool)]


class Named(ctypes.Structure):
    """A record's handle, as the library has it."""

    _fields_ = [("stamp", ctypes.c_uint64), ("slot", ctypes.c_uint32)]


# Many of these, one after another.
NAMED, SIZE_OF_NAMED = struct.Struct("=QI4x"), 16


class Part(ctypes.Structure):
    """A column of an order, as the library has it."""

    _fields_ = [("column", ctypes.c_size_t), ("falls", ctypes.c_bool)]


# The calls on tables by lines, and on typed records, by their names behind the prefix.
LINES = ("tc_", "open open_folder sync call end take close")
ROWS = ("tc_rows_", "open insert insert_all modify erase erase_key clear size move sort get find lower upper count first last next previous nth rank place close")


# A schema file, or its text.
Schema = Union[str, bytes, os.PathLike[str]]


def text_of(schema: Schema) -> bytes:
    """The text of a schema, which is handed in as it is or by the path of its file."""
    if isinstance(schema, os.PathLike):
        with open(schema, "rb") as file:
            return file.read()
    return schema.encode() if isinstance(schema, str) else bytes(schema)


def path_of(named: str | None) -> str:
    """The path of the library: as it is named here, or by the environment, or where it is found."""
    if said := named or os.environ.get("THWARTCORNEL_LIBRARY"):
        return said
    return next((it for it in PLACES if os.path.exists(it)), FILE)


@functools.cache
def loaded(path: str) -> ctypes.PyDLL:
    """The library. (PyDLL keeps Python's lock, so no other thread runs amid a call.)"""
    try:
        library = ctypes.PyDLL(path)
    except OSError as why:
        raise OSError(f"{why}: `tools/c_library out` makes {FILE}, and `pip install ./python` takes it in; or THWARTCORNEL_LIBRARY names it") from why
    for prefix, names in (LINES, ROWS):
        for name in names.split():
            try:
                getattr(library, prefix + name).restype = None if name == "close" else ctypes.c_uint8
            except AttributeError:
                raise OSError(f"{path} has no call {prefix}{name}: it is of another version, and `tools/c_library out` makes it anew") from None
    return library


class Held:
    """A handle of the library, that one thread uses and that closes itself.

    Its calls take what ctypes has for each argument: bytes, and numbers, places and rooms as objects of ctypes. (None is converted, which would take
    longer than most calls.)
    """

    def __init__(self, calls: tuple[str, str], named: str | None) -> None:
        self.opened, self._thread, self.folder = Opened(), threading.get_ident(), ""
        self.to = ctypes.byref(self.opened)
        library = loaded(path_of(named))
        prefix, names = calls
        self.calls = {name: getattr(library, prefix + name) for name in names.split()}

    def open(self, text: bytes, *more: int) -> None:
        """Opens what a schema file's text tells. Raises SchemaError and MemoryError."""
        self.check(self.calls["open"](self.to, text, *map(ctypes.c_size_t, (len(text), *more))))

    def open_folder(self, text: bytes, folder: str, is_synced: bool) -> None:
        """Opens the tables of a schema file's text that a folder keeps. Raises FolderError too."""
        self.folder, path, size = folder, os.fsencode(folder), ctypes.c_size_t
        self.check(self.calls["open_folder"](self.to, text, size(len(text)), path, size(len(path)), ctypes.c_bool(is_synced)))

    def check(self, status: int) -> None:
        """Raises what the status of an open or of a log tells."""
        if status == MEMORY:
            raise MemoryError
        if status in FOLDER_FAULTS:
            raise FolderError(FOLDER_FAULTS[status], self.folder)
        if status != OK:
            raise SchemaError(SCHEMA_FAULTS.get(status, "table"))

    def look(self) -> None:
        """Raises Closed, or RuntimeError in another thread."""
        if not self.opened.is_open:
            raise Closed("these tables are closed")
        if threading.get_ident() != self._thread:
            raise RuntimeError("these tables are another thread's")

    def close(self) -> None:
        """Gives all memory back. What is closed stays closed."""
        if self.opened.is_open:
            self.look()
            self.calls["close"](self.to)

    def __del__(self) -> None:
        # (whoever lets go of tables last may be another thread: then they end with the process)
        if getattr(self, "calls", None) and threading.get_ident() == self._thread:
            self.close()
