"""A clause over a frame: what it asks of which columns, and the answer."""

from __future__ import annotations

import contextlib
import json
import re
from collections.abc import Hashable, Iterator, Mapping
from dataclasses import dataclass, replace
from typing import Any, Union

import pandas as pd

from ._cells import Read, Sheet, SkipFaults, from_csv, from_lines, kinds_of_sheet, row_numbers
from ._clause import Clause, Measure, quoted, read, table_of
from ._helps import in_python
from ._names import Names, Source, kinds_of, unused
from ._orders import notes_on_orders
from ._program import NO_LIMIT, Limit, Ran, run
from ._units import notes_on_units, values_of
from ._ways import Cells, Way, look_at_ways, way_of
from .errors import ClauseError, DataError, Fault

_ROW = "row of the frame"
_NO_COLUMN = {_ROW: "int"}
_OF_NO_CSV = re.compile("''|\0")  # a clause in which an empty text may be, or one with NUL in it
Ways = Mapping[Any, str]  # the labels of columns, each with its way
Wanted = Mapping[int, Union[str, Measure]]
Columns = list[tuple[Union[str, Measure], pd.Series]]


def understand(
    frame: pd.DataFrame, text: str, ways: Ways, times: str, limit: Limit = NO_LIMIT
) -> Question:
    """What a clause asks of a frame. Faults of the clause and of names are raised here."""
    look_at_ways(ways, {*frame.columns, *frame.index.names}, times)
    names = Names(frame, ways, str(text))
    try:
        sources, clause = _read(names, text, limit) if names.sources else _read_without(text, limit)
    except ClauseError as error:
        raise in_python(error, frame, names.plain(), times) from None
    for name in clause.reads:
        names.look_at_double(sources[name])
        if names.others(name):
            _look_at_plain(names, sources, text, name, limit)
    reads = {name: sources[name] for name in clause.reads}
    question = Question(frame, text, clause, reads, kinds_of(sources) or _NO_COLUMN, times)
    question.look_at_labels()
    return question


def _read(names: Names, text: str, limit: Limit) -> tuple[Mapping[str, Source], Clause]:
    """Reads a clause over the columns as they are named plainly, and where it has a fault then,
    letter for letter too. A fault that stays is reported over the former, whose list of columns is
    the shorter.
    """
    plain, exact = names.plain(), names.exact()
    try:
        return plain, read(kinds_of(plain), text, limit)
    except ClauseError as error:
        if len(exact) == len(plain):
            raise
        first = error
    try:
        return exact, read(kinds_of(exact), text, limit)
    except ClauseError as error:
        if (error.kind, error.offset) != (first.kind, first.offset):
            raise
    raise first


def _read_without(text: str, limit: Limit) -> tuple[Mapping[str, Source], Clause]:
    """The same where the frame has no column that a clause can name."""
    try:
        clause = read(_NO_COLUMN, text, limit)
    except ClauseError as error:
        raise ClauseError(text, [_without_columns(fault) for fault in error.faults]) from None
    if clause.reads:
        raise DataError("the data have no column that a clause can name", None)
    return {}, clause


def _without_columns(fault: Fault) -> Fault:
    """A fault without the help that lists the column that stands in for none."""
    return replace(fault, help=tuple(line for line in fault.help if _ROW not in line))


def _look_at_plain(
    names: Names, sources: Mapping[str, Source], text: str, name: str, limit: Limit
) -> None:
    """Refuses a plain name that several columns have, one of which is ``name``, in upper case.

    A clause that has it in quotes is as good with another name in these quotes."""
    other = unused(name, sources)
    renamed = {other if own == name else own: source for own, source in sources.items()}
    try:
        read(kinds_of(renamed), text.replace(quoted(name), quoted(other)), limit)
    except ClauseError:
        raise names.refuse(name) from None


@contextlib.contextmanager
def _told_of(source: Source) -> Iterator[None]:
    """An error of a level of the index says so."""
    try:
        yield
    except DataError as error:
        raise DataError(source.told(str(error)), error.column, error.row) from None


@dataclass(frozen=True)
class Question:
    """A clause over a frame, with the columns that it names, by their names in it, and the kinds of
    all that it might have named."""

    frame: pd.DataFrame
    text: str
    clause: Clause
    sources: Mapping[str, Source]
    kinds: Mapping[str, str]
    times: str

    def look_at_labels(self) -> None:
        """Refuses a measure whose name, as it is written, another column of the answer or a level of
        its index has, and a column that comes twice. In the clause two names may differ by case alone, as ``P`` that is
        written ``p``, and ``"p"``."""
        names = [*self.clause.partition_by, *(self.clause.order_by if self.clause.all_rows else ())]
        first = [self.sources[name] for name in names]
        for at, source in enumerate(first):
            if source in first[:at]:
                raise self._double(source.label, "name each column once")
        taken: set[Hashable] = {source.label for source in first}
        if self.clause.all_rows:
            taken.update(self.frame.columns)
            taken.update(self.frame.index.names)
        for measure in self.clause.measures:
            if measure.written in taken:
                raise self._double(measure.written, "write another name after AS")
            taken.add(measure.written)

    def _double(self, label: Hashable, write: str) -> ClauseError:
        message = f"two columns of the answer have the name {label!r}"
        return ClauseError(self.text, [Fault("DoubleName", message, (write,))])

    def units(self, limit: Limit) -> list[str]:
        """What is to be known of columns whose numbers don't count the same, where the clause
        compares, adds or subtracts them as they are."""
        return notes_on_units(self.frame, self.sources, self.text, self.times, limit)

    def orders(self) -> list[str]:
        """What is to be known of columns of texts that are numbers or dates, where the clause takes
        them by their order."""
        return notes_on_orders(self.frame, self.sources, self.clause, self.text)

    def counts(self) -> list[str]:
        """In which unit each column of times counts that the clause names."""
        return [
            f"{source.text} counts in {source.said or self.times}"
            for source in self.sources.values()
            if values_of(source, self.frame).dtype.kind in "mM"
        ]

    def answer(self, limit: Limit) -> tuple[pd.DataFrame, SkipFaults, list[str]]:
        """The answer, the skip faults in it, and what is to be known of the rows."""
        ways, given = self._given()
        hidden = self._row_number()
        if hidden is not None:
            given[hidden] = row_numbers(len(self.frame))
        wanted = {
            at: column
            for at, column in enumerate(self.clause.output(list(given)))
            if not self.clause.all_rows or isinstance(column, Measure) or column == hidden
        }
        found = self._run(Sheet(given, len(self.frame)), wanted, limit)
        columns = [(wanted[at], cells) for at, cells in found.columns.items()]
        make = self._all_rows if self.clause.all_rows else self._one_row
        return make(columns, ways, found.rows), found.faults, found.notes

    def rows(self) -> list[str]:
        """What the program says of the rows that the clause sees; where `match` refuses them, why.
        It takes them all."""
        if not self.sources:
            return []
        try:
            sheet = Sheet(self._given()[1], len(self.frame))
        except DataError as error:
            return [str(error)]
        words = ["check", "--format", "json", *sheet.options()]
        ran = run(words, table_of(kinds_of_sheet(sheet)), self.text, sheet.csv())
        if ran.status != 0:
            raise ran.failed()
        return [note["message"] for note in json.loads(ran.printed).get("notes", [])]

    def _given(self) -> tuple[Mapping[str, Way], dict[str, Cells]]:
        """The columns that the clause names, each in its way, and the cells that are handed over."""
        values = {name: source.values(self.frame) for name, source in self.sources.items()}
        ways: dict[str, Way] = {}
        cells: dict[str, Cells] = {}
        for name, source in self.sources.items():
            with _told_of(source):
                ways[name] = way_of(source.label, values[name], source.said, self.times)
        for name, source in self.sources.items():
            with _told_of(source):
                cells[name] = ways[name].cells(values[name])
        return ways, cells

    def _row_number(self) -> str | None:
        """The name of a column of row numbers, by which whole rows of the answer are picked from
        the frame. It is there too where the clause names no column, since a table has one."""
        if self.sources and not self.clause.all_rows:
            return None
        measures = [measure.written for measure in self.clause.measures]
        return unused(_ROW, [*self.sources, *measures])

    def _run(self, sheet: Sheet, wanted: Wanted, limit: Limit) -> Read:
        """Runs the program, and reads what is wanted of its answer: from CSV where that can be."""
        kinds = kinds_of_sheet(sheet)
        wanted_kinds = {
            at: column.kind if isinstance(column, Measure) else kinds[column]
            for at, column in wanted.items()
        }
        arguments = sheet.options() + ([] if limit.until is None else ["--progress"])

        def ran(kind: str) -> Ran:
            words = ["whole", "--format", kind, *arguments]
            return run(words, table_of(kinds), self.text, sheet.csv(), limit)

        if wanted and all(self._fits_csv(sheet, column) for column in wanted.values()):
            answer = ran("csv")
            if answer.status != 1:  # of a skip fault, which lines report letter for letter
                return from_csv(answer, wanted_kinds)
        return from_lines(ran("lines"), wanted_kinds)

    def _fits_csv(self, sheet: Sheet, column: str | Measure) -> bool:
        """Whether pandas can read a column of the answer from CSV. A text that is no column's value
        is one of the clause."""
        source = column.source if isinstance(column, Measure) else column
        return sheet.fits_csv(source) if source is not None else not _OF_NO_CSV.search(self.text)

    def _one_row(self, columns: Columns, ways: Mapping[str, Way], rows: int) -> pd.DataFrame:
        made: list[tuple[Hashable, pd.Series]] = []
        for column, cells in columns:
            if isinstance(column, Measure):
                made.append((column.written, self._measured(column, cells, ways)))
            else:
                # A value of PARTITION BY is one of the column: null here as there.
                way = ways[column]
                made.append((way.label, way.back(cells).astype(way.dtype)))
        return self._frame(made, pd.RangeIndex(rows))

    def _all_rows(self, columns: Columns, ways: Mapping[str, Way], rows: int) -> pd.DataFrame:
        *measures, (_, numbers) = columns  # the row number is the table's last column
        picked = self.frame.iloc[numbers.to_numpy("int64")]
        first = [self.sources[name] for name in (*self.clause.partition_by, *self.clause.order_by)]
        # A level of the index is in the answer as one already.
        made = [(source.label, source.values(picked)) for source in first if not source.is_level]
        for column, cells in measures:
            assert isinstance(column, Measure)
            made.append((column.written, self._measured(column, cells, ways)))
        taken = {source.position for source in first if not source.is_level}
        made += [
            (label, picked.iloc[:, at])
            for at, label in enumerate(self.frame.columns)
            if at not in taken
        ]
        return self._frame(made, picked.index)

    def _measured(self, of: Measure, cells: pd.Series, ways: Mapping[str, Way]) -> pd.Series:
        return cells if of.source is None else ways[of.source].back(cells)

    def _frame(self, columns: list[tuple[Hashable, pd.Series]], index: pd.Index) -> pd.DataFrame:
        arrays = {at: series.array for at, (_, series) in enumerate(columns)}
        made = pd.DataFrame(arrays, index=index)
        labels = [label for label, _ in columns]
        levels = self.frame.columns.nlevels
        if levels > 1 and all(isinstance(it, tuple) and len(it) == levels for it in labels):
            made.columns = pd.MultiIndex.from_tuples(labels, names=self.frame.columns.names)
        else:
            made.columns = pd.Index(labels, tupleize_cols=False)
        return made
