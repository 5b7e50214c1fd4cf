"""Records as the library's arrays of cells: a number and a kind each, and the bytes of all texts one after another."""
from __future__ import annotations

import ctypes
import struct
from collections.abc import Sequence
from typing import Any

from .schemas import LONGEST_TEXT, Column

NULL, INTEGER, TEXT, BOOLEAN = range(4)
KINDS: dict[type, int] = {type(None): NULL, int: INTEGER, str: TEXT, bool: BOOLEAN}
# A tc_cell of thwartcornel.h.
CELL, SIZE_OF_CELL = "q B 7x ", 16
MOST_CELLS = 16
# A cell of no kind.
NO_CELL = struct.pack("=" + CELL, 0, 255)
# Numbers of cells, as the library takes them.
SIZES = [ctypes.c_size_t(it) for it in range(MOST_CELLS + 1)]


def kind_of(value: Any) -> int | None:
    """The kind of a value whose type is none of those, such as a number with a name; or None where it is no cell."""
    return next((kind for base, kind in KINDS.items() if isinstance(value, base)), None)


def spelled(values: Sequence[Any]) -> tuple[list[int], bytes] | None:
    """The numbers and kinds of values, and the bytes of their texts; or None where a value is no cell."""
    said: list[int] = []
    texts = b""
    for it in values:
        kind = KINDS[type(it)] if type(it) in KINDS else kind_of(it)
        if kind == TEXT:
            try:
                text = it.encode()
            except UnicodeEncodeError:
                return None
            texts += text
            said += (len(text), TEXT)
        elif kind is None:
            return None
        else:
            said += (it or 0, kind)
    return said, texts


class Cells:
    """Room for the cells of one record or key."""

    def __init__(self) -> None:
        self.cells = ctypes.create_string_buffer(MOST_CELLS * SIZE_OF_CELL)
        self.texts_length = ctypes.c_size_t()
        self._forms = [struct.Struct("=" + CELL * count) for count in range(MOST_CELLS + 1)]

    def put(self, values: Sequence[Any]) -> bytes | None:
        """Puts values in, and returns the bytes of their texts, of which `texts_length` is the number; or None where a value is no cell, or
        there are too many."""
        if (read := spelled(values)) is None:
            return None
        said, texts = read
        try:
            self._forms[len(values)].pack_into(self.cells, 0, *said)
        except (struct.error, IndexError):
            return None
        self.texts_length.value = len(texts)
        return texts

    def packed(self, values: Sequence[Any]) -> tuple[bytes, bytes] | None:
        """The bytes of the values' cells, and those of their texts; or None where `put` gives it."""
        if (read := spelled(values)) is None:
            return None
        said, texts = read
        try:
            return self._forms[len(values)].pack(*said), texts
        except (struct.error, IndexError):
            return None


class Record(Cells):
    """Room for a record of these columns that is read."""

    def __init__(self, columns: Sequence[Column]) -> None:
        super().__init__()
        count = len(columns)
        self._texts = [at for at, it in enumerate(columns) if it.cell == "text"]
        self._truths = [at for at, it in enumerate(columns) if it.cell == "bool"]
        self._has_nulls = any(it.null for it in columns)
        self.texts = ctypes.create_string_buffer(LONGEST_TEXT * len(self._texts) or 1)
        self._texts_at = ctypes.addressof(self.texts)
        self._numbers, self._kinds = (struct.Struct("=" + form * count).unpack_from for form in ("q 8x ", "8x B 7x "))
        # The rooms, as `get` takes them.
        self.rooms = self.cells, SIZES[count], self.texts, ctypes.c_size_t(len(self.texts))

    def values(self, length: int) -> list[Any]:
        """The values that were put here, of which the texts have so many bytes."""
        values: list[Any] = [*self._numbers(self.cells)]
        if self._texts:
            texts, begin = ctypes.string_at(self._texts_at, length), 0
            for at in self._texts:
                end = begin + values[at]
                values[at] = texts[begin:end].decode()
                begin = end
        for at in self._truths:
            values[at] = values[at] == 1
        if self._has_nulls:
            return [None if kind == NULL else it for it, kind in zip(values, self._kinds(self.cells))]
        return values
