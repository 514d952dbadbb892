"""What to write where a clause has a fault, in the words of Python and pandas."""

from __future__ import annotations

from collections.abc import Iterator, Mapping
from dataclasses import dataclass, replace

import pandas as pd

from ._fractions import comparison_at, helps_of
from ._names import MOST_BYTES, Source, written
from ._times import STEPS, number_of, of_time
from ._units import unit_of, values_of
from ._ways import first_known
from ._wordings import Wording
from ._words import columns_of, words_near
from .errors import ClauseError, Fault

# What the program says of commands and files, from where on it isn't true of frames.
_OF_COMMANDS = "--columns"
_OF_TABLES = "; the kinds of columns are in the table"
_NO_FRACTIONS = "there are no fractions"
_OF_WHOLE = "where it has whole numbers"
_SMALLER = (
    "take a smaller unit, as cents by columns={'price': 'decimal(2)'}, and whole numbers of it"
)
_OF_QUOTES = "a text is written in single quotes"


def in_python(
    error: ClauseError, frame: pd.DataFrame, sources: Mapping[str, Source], times: str
) -> ClauseError:
    """A clause's faults over a frame, with a help that can be followed there."""
    helper = _Helper(error.clause, frame, sources, times)
    return ClauseError(error.clause, [helper.helped(fault) for fault in error.faults])


@dataclass(frozen=True)
class _Helper:
    clause: str
    frame: pd.DataFrame
    sources: Mapping[str, Source]
    times: str

    def helped(self, fault: Fault) -> Fault:
        """A fault with the help that it has over a frame."""
        if fault.byte is None:
            return fault
        if fault.message == _NO_FRACTIONS:
            return replace(fault, help=self._of_fraction(fault))
        words = self._words_near(fault)
        columns = columns_of(words, self.sources)
        texts = [it for it in columns if it.kind == "text" and it.said is None]
        own = [*self._of_bools(fault, columns), *self._of_times(fault, columns, words)]
        if own and not texts:
            return replace(fault, help=tuple(own))
        lines = [*self._in_pandas(fault, words, columns)]
        if fault.kind != "KindMismatch" or "whole number" not in fault.message:
            return replace(fault, help=tuple(lines))
        empty = [it for it in texts if first_known(values_of(it, self.frame)) is None]
        if empty:
            lines = [line for line in lines if not line.startswith(_OF_QUOTES)]
        return replace(fault, help=(*lines, *(_of_text(it, it in empty) for it in texts)))

    def _place(self, fault: Fault) -> tuple[int, int]:
        """The characters of the clause at which a fault begins and ends."""
        assert fault.byte is not None
        encoded = self.clause.encode(errors="surrogatepass")
        begin, end = (
            len(encoded[:at].decode(errors="replace"))
            for at in (fault.byte, fault.byte + fault.length)
        )
        return begin, end

    def _words_near(self, fault: Fault) -> list[str]:
        return words_near(self.clause, *self._place(fault))

    def _in_pandas(self, fault: Fault, words: list[str], columns: list[Source]) -> tuple[str, ...]:
        """What the program says to write, in the words of pandas."""
        lines = [line.replace(_OF_TABLES, "") for line in fault.help if _OF_COMMANDS not in line]
        begin, end = self._place(fault)
        is_near = any(line.startswith("write ") for line in lines)  # to another name
        if fault.kind == "UnknownColumn" and not is_near:
            word = self.clause[begin:end]
            lines = [*_of_long_name(word, self.frame), *_of_no_name(word, self.frame.index), *lines]
        place = Wording(self.clause, begin, words, columns, self.sources, self.frame, self.times)
        return place.lines(tuple(lines))

    def _of_fraction(self, fault: Fault) -> tuple[str, ...]:
        """What to write for a fraction. Of two ways of the program one is of commands, and what the
        other one is for can't be told without it."""
        comparison = comparison_at(self.clause, self._place(fault)[0], self.sources)
        own = helps_of(comparison, self.frame) if comparison is not None else []
        if own:
            return tuple(own)
        if comparison is not None:
            texts = [it for it in comparison.columns if it.kind == "text" and it.said is None]
            if texts:
                return tuple(
                    _of_text(it, first_known(values_of(it, self.frame)) is None) for it in texts
                )
        others = tuple(
            line
            for line in fault.help
            if _OF_COMMANDS not in line and not line.startswith(_OF_WHOLE)
        )
        return others or (_SMALLER,)

    def _of_bools(self, fault: Fault, columns: list[Source]) -> Iterator[str]:
        """What to write for a column of bools as a condition, or compared with TRUE or a text."""
        of_truth = fault.kind == "UnknownColumn" and fault.message.upper().endswith(
            (" TRUE", " FALSE")
        )
        if not of_truth and fault.kind != "KindMismatch":
            return
        for source in columns:
            if _are_bools(values_of(source, self.frame)):
                name = written(source.text)
                yield f"{name} is 1 where it is true, and 0: write {name} = 1, or {name} = 0"

    def _of_times(self, fault: Fault, columns: list[Source], words: list[str]) -> Iterator[str]:
        """What to write for a column of times next to a text or a length of time."""
        is_length = fault.message == "there are no intervals"
        is_text = fault.message == "there are no dates and times" or fault.kind == "KindMismatch"
        texts = [word[1:-1] for word in words if word.startswith("'")]
        if not texts or not (is_length or is_text):
            return
        for source in columns:
            values = values_of(source, self.frame)
            unit = unit_of(values, source, self.times)
            if unit in STEPS:
                number = None if is_length else number_of(texts[0], values, STEPS[unit])
                yield of_time(written(source.text), unit, number, texts[0])


def _of_long_name(word: str, frame: pd.DataFrame) -> Iterator[str]:
    """What to do with a column whose name is too long for a clause."""
    name = word[1:-1].replace('""', '"') if word.startswith('"') else word
    size = len(name.encode(errors="surrogatepass"))
    labels = [*frame.columns, *frame.index.names]
    if size > MOST_BYTES and any(str(label).upper() == name.upper() for label in labels):
        yield (
            f"a name has {MOST_BYTES} bytes at most, and this one {size}: "
            "frame.rename(columns={..: ..}) gives the column another"
        )


def _of_no_name(word: str, index: pd.Index) -> Iterator[str]:
    """What gives an index a name, where a clause may mean it by a word that is no column's."""
    if any(name is not None for name in index.names) or isinstance(index, pd.RangeIndex):
        return
    name = word.strip('"')
    if index.nlevels > 1:
        yield "the levels of the index have no names: frame.rename_axis([..]) gives them some"
    elif index.dtype.kind in "mM" or "period" in str(index.dtype) or name.lower() == "index":
        way = f"frame.rename_axis({name!r})"
        yield f"the index has no name: {way} gives it one, frame.reset_index() makes a column of it"


def _are_bools(values: pd.Series) -> bool:
    """Whether a column has bools, as its dtype or, with nulls among them, as objects."""
    of_objects = values.dtype == object and pd.api.types.infer_dtype(values, skipna=True)
    return bool(values.dtype.kind == "b" or of_objects == "boolean")


def _of_text(source: Source, is_empty: bool) -> str:
    label = source.label
    if is_empty:
        way = f"columns={{{label!r}: 'int'}}"
        return f"{source.called} has no value here, so that it is text: {way} says what it is"
    make = "pandas.to_numeric(..) makes numbers of it, pandas.to_datetime(.., format=..) times"
    return source.told(f"{source.called} has texts: {make}")
