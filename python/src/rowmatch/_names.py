"""The columns of a frame by the names that a clause has for them."""

from __future__ import annotations

import re
from collections import Counter
from collections.abc import Hashable, Iterable, Iterator, Mapping
from dataclasses import dataclass
from functools import partial

import pandas as pd

from ._clause import quoted
from ._ways import kind_of
from .errors import DataError

_PLAIN = re.compile(r"[A-Za-z_][A-Za-z0-9_]*", re.ASCII)
_OF_A_COLUMN = re.compile(
    r"(?<![\w.])\.[a-z]|pandas\.to_"
)  # methods of columns, what makes columns
MOST_BYTES = 128  # of a name in a table


@dataclass(frozen=True)
class Source:
    """A column of a frame, or a named level of its index: its label, the text of that, where it is,
    its kind (int or text), and what is said of the way in which it is handed over."""

    label: Hashable
    text: str
    position: int
    is_level: bool
    kind: str
    said: str | None

    @property
    def called(self) -> str:
        """What a message calls it."""
        return f"level {self.text} of the index" if self.is_level else f"column {self.text}"

    def told(self, message: str) -> str:
        """A message about a column, or of a level of the index one that can be followed: what makes
        something of a column makes nothing of it."""
        if not self.is_level:
            return message
        message = message.replace(
            f"column {self.label!r} ", f"level {self.label!r} of the index ", 1
        )
        first = f"; reset_index() makes a column of {self.text} first"
        return message + (first if _OF_A_COLUMN.search(message) else "")

    def values(self, frame: pd.DataFrame) -> pd.Series:
        if self.is_level:
            level = frame.index.get_level_values(self.position)
            return level.to_series(index=frame.index)
        return _at(frame, self.position)


def _at(frame: pd.DataFrame, position: int) -> pd.Series:
    return frame.iloc[:, position]


class Names:
    """The columns of a frame that can be named, and those named levels of its index that can.

    A plain name in a clause is a column in any case, where one column alone has it. A name
    in double quotes is taken letter for letter."""

    def __init__(self, frame: pd.DataFrame, said: Mapping[Hashable, str], clause: str) -> None:
        self.sources = [*_columns(frame, said, clause), *_levels(frame, said, clause)]
        self._count = Counter(source.text for source in self.sources)
        self._alike = Counter(folded(text) for text in self._count)

    def plain(self) -> dict[str, Source]:
        """One name for each column: the upper case of a plain one, so that it may be written in any
        case, where no other column has the same; the text letter for letter of all others."""
        names = {}
        for source in self.sources:
            upper = folded(source.text)
            names[upper if self._alike[upper] == 1 else source.text] = source
        return names

    def exact(self) -> dict[str, Source]:
        """These names, and behind them those letter for letter."""
        return {**self.plain(), **{source.text: source for source in self.sources}}

    def look_at_double(self, source: Source) -> None:
        """A column that a clause names has a label of its own."""
        if self._count[source.text] > 1:
            message = f"more than one column has the name {source.text!r}: give each one of its own"
            raise DataError(message, source.label)

    def others(self, name: str) -> list[str]:
        """The columns that a plain name might mean too, where ``name`` is the upper case of one."""
        if folded(name) != name or self._alike[name] < 2:
            return []
        return [text for text in self._count if folded(text) == name]

    def refuse(self, name: str) -> DataError:
        """The error of a plain name that several columns have."""
        may_be = ", ".join(map(quoted, self.others(name)))
        message = f"{name} may be any of the columns {may_be}: write the one in double quotes"
        return DataError(message, name)


def _columns(frame: pd.DataFrame, ways: Mapping[Hashable, str], clause: str) -> Iterator[Source]:
    for at, (label, dtype) in enumerate(zip(frame.columns, frame.dtypes)):
        if _can_be_named(str(label)):
            rows = frame if _may_name(clause, str(label)) else frame.iloc[:0]
            kind = kind_of(dtype, partial(_at, rows, at), ways.get(label))
            yield Source(label, str(label), at, False, kind, ways.get(label))


def _levels(frame: pd.DataFrame, ways: Mapping[Hashable, str], clause: str) -> Iterator[Source]:
    columns = set(frame.columns)
    for at, label in enumerate(frame.index.names):
        if label is not None and label not in columns and _can_be_named(str(label)):
            rows = frame if _may_name(clause, str(label)) else frame.iloc[:0]
            values = rows.index.get_level_values(at)
            kind = kind_of(values.dtype, values.to_series, ways.get(label))
            yield Source(label, str(label), at, True, kind, ways.get(label))


def written(text: str) -> str:
    """A name as a clause has it, in quotes where it has to be in some."""
    return text if _PLAIN.fullmatch(text) else quoted(text)


def _may_name(clause: str, text: str) -> bool:
    """Whether a column's name is anywhere in a clause. Of one that isn't the kind doesn't count, and
    no row is looked at."""
    return folded(text) in clause.upper() or text.replace('"', '""') in clause


def kinds_of(sources: Mapping[str, Source]) -> dict[str, str]:
    """The kind of each column: int or text."""
    return {name: source.kind for name, source in sources.items()}


def unused(name: str, names: Iterable[Hashable]) -> str:
    """A name that isn't among others."""
    taken = set(names)
    while name in taken:
        name += "_"
    return name


def _can_be_named(text: str) -> bool:
    try:
        return 0 < len(text.encode()) <= MOST_BYTES
    except UnicodeEncodeError:
        return False


def folded(text: str) -> str:
    return text.upper() if _PLAIN.fullmatch(text) else text
