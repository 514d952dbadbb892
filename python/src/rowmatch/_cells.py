"""Cells on their way to the program, as CSV, and those of its answer, from CSV or lines of JSON."""

from __future__ import annotations

import functools
import io
import json
import re
from collections.abc import Callable, Iterator, Mapping
from dataclasses import dataclass
from typing import Any

import numpy as np
import pandas as pd

from ._program import Ran
from ._ways import Array, Cells, Numbers, Words

_CHUNK = 65_536
_SPECIAL = re.compile('[",\r\n]|^\ufeff')  # a byte order mark at the input's begin is none of it
SkipFaults = list[tuple[list[Any], str]]


@dataclass(frozen=True)
class Read:
    """An answer as it was read: how many rows it has, the columns that were wanted, by their
    places, as object texts and Int64, the keys of partitions that a skip fault ended, with its
    name, and what was reported of the rows."""

    rows: int
    columns: Mapping[int, pd.Series]
    faults: SkipFaults
    notes: list[str]


@dataclass(frozen=True)
class Sheet:
    """The cells of a table, by the names of its columns, and the word for null in its texts.

    An empty text is an empty field, and a null is that word, which is none of the texts."""

    cells: Mapping[str, Cells]
    rows: int

    @functools.cached_property
    def null(self) -> str:
        words = (cells.words for cells in self.cells.values() if isinstance(cells, Words))
        taken = set().union(*words)
        word = "\\N"
        while word in taken:
            word += "N"
        return word

    def fits_csv(self, name: str) -> bool:
        """Whether pandas can read the cells of a column from CSV again: it takes an empty text for
        a null, and a text's first NUL for its end."""
        cells = self.cells[name]
        if isinstance(cells, Numbers):
            return True
        return not any(word == "" or "\0" in word for word in cells.words)

    def options(self) -> list[str]:
        """What the program has to know of the CSV: with texts it has no header, since two names in
        one may not differ by case alone."""
        return ["--no-header", "--null", self.null] if self._has_texts() else []

    def csv(self) -> Iterator[bytes]:
        """The CSV, in parts."""
        if not self._has_texts():
            yield (",".join(_quoted(name) for name in self.cells) + "\n").encode()
        fields = [_fields(cells, self.null) for cells in self.cells.values()]
        alone = len(fields) == 1  # an empty line is no record
        for begin in range(0, self.rows, _CHUNK):
            end = min(begin + _CHUNK, self.rows)
            texts = [part(begin, end) for part in fields]
            lines = (text or '""' for text in texts[0]) if alone else map(",".join, zip(*texts))
            yield ("\n".join(lines) + "\n").encode()

    def _has_texts(self) -> bool:
        return any(isinstance(cells, Words) for cells in self.cells.values())


def kinds_of_sheet(sheet: Sheet) -> dict[str, str]:
    """The kinds of its columns, by their names."""
    return {
        name: "text" if isinstance(cells, Words) else "int" for name, cells in sheet.cells.items()
    }


def row_numbers(rows: int) -> Numbers:
    return Numbers(np.arange(rows), np.zeros(rows, dtype=bool))


def _quoted(text: str) -> str:
    return '"' + text.replace('"', '""') + '"'


def _written(word: str) -> str:
    """A text as a field, in quotes where it has to be."""
    return _quoted(word) if _SPECIAL.search(word) else word


def _fields(cells: Cells, null: str) -> Callable[[int, int], list[str]]:
    """The fields of a column, from one row to another."""
    if isinstance(cells, Numbers):
        values, missing = cells.values, cells.missing
        return lambda begin, end: _numbers(values[begin:end], missing[begin:end])
    codes, words = cells.codes, [*map(_written, cells.words), null]  # null's code is -1, the last
    return lambda begin, end: [words[code] for code in codes[begin:end].tolist()]


def _numbers(values: Array, missing: Array) -> list[str]:
    texts = list(map(str, values.tolist()))
    for row in np.flatnonzero(missing).tolist():
        texts[row] = ""
    return texts


def from_csv(ran: Ran, kinds: Mapping[int, str]) -> Read:
    """Reads an answer in CSV without skip faults, of which some column is wanted."""
    if ran.status != 0:
        raise ran.failed()
    texts = {at: "str" for at in kinds}
    try:
        # Most answers have no null among their numbers, which are read several times as fast then.
        numbers = {at: "int64" for at, kind in kinds.items() if kind == "int"}
        read = _read_csv(ran.printed, {**texts, **numbers})
    except ValueError:
        read = _read_csv(ran.printed, texts)
    columns = {at: _column(read[at], kind) for at, kind in kinds.items()}
    return Read(len(next(iter(read.values()))), columns, [], ran.notes())


def _read_csv(printed: bytes, dtypes: Mapping[int, str]) -> Mapping[int, pd.Series]:
    try:
        read: pd.DataFrame = pd.read_csv(
            io.BytesIO(printed),
            header=None,
            skiprows=1,
            usecols=list(dtypes),
            dtype=dict(dtypes),
            na_filter=False,
            skip_blank_lines=False,
        )
    except pd.errors.EmptyDataError:
        return {at: pd.Series([], dtype=dtype) for at, dtype in dtypes.items()}
    return {at: read[at] for at in dtypes}


def _column(read: pd.Series, kind: str) -> pd.Series:
    if kind == "text":
        return read.astype(object).mask(read == "", None)
    if read.dtype == "int64":
        missing = np.zeros(len(read), dtype=bool)
    else:
        missing = (read == "").to_numpy(dtype=bool)
        read = read.mask(missing, "0")
    return pd.Series(pd.arrays.IntegerArray(read.to_numpy().astype("int64"), missing))


def from_lines(ran: Ran, kinds: Mapping[int, str]) -> Read:
    """Reads an answer in lines of JSON, which have empty texts apart from nulls, and skip faults
    with their keys letter for letter."""
    if ran.status != 0:
        raise ran.failed()
    lines = ran.printed.decode().split("\n")
    cells = '{"cells":'
    decode = json.JSONDecoder().raw_decode
    rows = [decode(line, len(cells))[0] for line in lines if line.startswith(cells)]
    said = [json.loads(line) for line in lines if line.startswith('{"fault":')]
    columns = {
        at: pd.Series([row[at] for row in rows], dtype=object if kind == "text" else "Int64")
        for at, kind in kinds.items()
    }
    faults = [(fault["key"], fault["fault"]) for fault in said]
    return Read(len(rows), columns, faults, ran.notes())
