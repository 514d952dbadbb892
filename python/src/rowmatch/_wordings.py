"""The program's helps that speak of commands, of files or of seconds, in the words of pandas."""

from __future__ import annotations

import re
from collections.abc import Callable, Iterator, Mapping
from dataclasses import dataclass

import pandas as pd

from ._names import Source
from ._times import bound, column_of_times, length_at
from ._units import values_of
from ._ways import UNITS
from ._words import columns_of

# What stands for values that a clause can't compute; {} is the column, {n} a number of the clause.
_VALUES = {
    "LOWER": "{}.str.lower()",
    "UPPER": "{}.str.upper()",
    "LENGTH": "{}.str.len()",
    "LEN": "{}.str.len()",
    "TRIM": "{}.str.strip()",
    "SUBSTR": "{}.str[..]",
    "SUBSTRING": "{}.str[..]",
    "ROUND": "{}.round({n})",
    "MOD": "{} % {n}",
    "%": "{} % {n}",
    "SQRT": "numpy.sqrt({})",
    "FLOOR": "numpy.floor({})",
    "CEIL": "numpy.ceil({})",
    "CEILING": "numpy.ceil({})",
}
_PARTS = ("year", "month", "day", "hour", "minute", "second")
_OF_PARTS = {"EXTRACT", "STRFTIME", "DATE_TRUNC", "DATE", "TIME", *map(str.upper, _PARTS)}
_BOUND = re.compile(
    r"t - (FIRST|PREV)\(t\) <= 3600\b( is an hour where t is in seconds|, where t counts in seconds)?"
)
_IN_UNITS = re.compile(r"write [0-9]+ where .* is in ")
_LIKE = re.compile(r"(%?)([^%_]*)(%?)")


@dataclass(frozen=True)
class Wording:
    """A place of a clause at which there is a fault, the words and columns near it, and the frame
    that it is over."""

    clause: str
    begin: int
    words: list[str]
    near: list[Source]
    sources: Mapping[str, Source]
    frame: pd.DataFrame
    times: str

    def lines(self, helps: tuple[str, ...]) -> tuple[str, ...]:
        """The helps in the words of pandas. One that isn't known stays as it is."""
        return tuple(said for line in helps for said in self._said(line))

    def _said(self, line: str) -> Iterator[str]:
        for beginning, say in self._rules():
            if line.startswith(beginning):
                yield from say(line)
                return
        if _IN_UNITS.match(line):
            yield from self._in_units(line)
            return
        if "3600" in line:
            yield from self._of_length(line)
            return
        line = line.replace("was its file found? ", "")
        line = line.replace("one more column of the file", "one more column, by frame.assign(..),")
        line = line.replace("what is printed can be filtered", "the answer is a frame to filter")
        yield line.replace("what is printed", "what is answered").replace(
            "prints every row", "gives every row"
        )

    def _rules(self) -> list[tuple[str, Callable[[str], Iterator[str]]]]:
        """What a help of the program begins with, and what is said in place of it."""
        return [
            ("cut what is printed", self._head),
            ("put the condition into DEFINE", self._rows),
            ("let one more column of the file have the value", self._value),
            ("let one more column of the file say", self._fits),
            ("a column's kind", self._cast),
            ("if the file's column is one of texts", self._texts),
            ("in a column of text, dates", self._dates),
            ("dates as 2024-01-05 are ordered and compared where the table", self._texts_of_dates),
            ("to subtract, let the column", self._subtracted),
            ("to subtract them let the file", self._subtracted),
        ]

    def _head(self, line: str) -> Iterator[str]:
        number = self._number() or "10"
        if self._word() == "OFFSET":
            yield f"leave the first rows of the answer out: .iloc[{number}:]"
        else:
            yield f"take the first rows of the answer: .head({number})"

    def _rows(self, line: str) -> Iterator[str]:
        than = "== 'x'" if self.near and self.near[0].kind == "text" else "> 5"
        column = f"{self._column()} {than}" if self.near else ".."
        yield f"put the condition into DEFINE, or match the rows alone that meet it: frame[{column}]"

    def _value(self, line: str) -> Iterator[str]:
        column, word = self._column(), self._word()
        number = self._number() or ("" if word == "ROUND" else "..")
        form = _VALUES.get(word)
        value = form.format(column, n=number) if form and column else ".."
        yield f"let one more column have the value: frame.assign(value={value})"

    def _fits(self, line: str) -> Iterator[str]:
        texts = [word[1:-1].replace("''", "'") for word in self.words if word.startswith("'")]
        known = texts and self.near
        fits = f"{self._column()}{_fit(self._word(), texts[0])}" if known else ".."
        yield (
            "let one more column say whether the text fits: "
            f"frame.assign(fits={fits}), and write fits = 1"
        )

    def _cast(self, line: str) -> Iterator[str]:
        source = self.near[0] if self.near else None
        if source is None:
            yield "a column counts as its dtype has it: let frame.assign(..) make another of it"
            return
        column = taken(source)
        if source.kind == "text":
            make = f"pandas.to_numeric({column}) makes numbers of its texts"
        elif values_of(source, self.frame).dtype.kind == "M":
            date = "date" if source.is_level else "dt.date"
            make = f"{column}.{date} makes days of its times"
        else:
            make = f"{column}.map(str, na_action='ignore') makes texts of its numbers"
        yield f"a column counts as its dtype has it: {make}, for frame.assign(..)"

    def _texts(self, line: str) -> Iterator[str]:
        for source in self.near:
            if source.kind == "int":
                make = f"{taken(source)}.map(str, na_action='ignore') makes texts of its numbers"
                yield f"where texts are meant, {make}, for frame.assign(..)"

    def _dates(self, line: str) -> Iterator[str]:
        """What to write for a function of times; of texts where there is no column of times."""
        found = column_of_times(self.clause, self.near, self.sources, self.frame, self.times)
        if found is None:
            yield line
            return
        source, unit = found
        if self._word() in ("NOW", "CURRENT_TIMESTAMP") and unit in UNITS:
            zone = getattr(values_of(source, self.frame).dtype, "tz", None)
            now = f"pandas.Timestamp.now({'' if zone is None else repr('UTC')}).value"
            yield f"put its number into the clause: {now} // {UNITS[unit]}"
            return
        if self._word() not in _OF_PARTS:
            return
        others = [word for word in self.words if not columns_of([word], self.sources)]
        words = [word.lower() for word in [self._word(), *others]]
        part = next((word for word in words if word in _PARTS), "hour")
        yield (
            "let one more column have a part of the time: "
            f"frame.assign({part}={_parts_of(source, unit)}.{part})"
        )

    def _texts_of_dates(self, line: str) -> Iterator[str]:
        yield "dates as 2024-01-05 are ordered and compared in a column of texts"

    def _subtracted(self, line: str) -> Iterator[str]:
        found = column_of_times(self.clause, self.near, self.sources, self.frame, self.times)
        if found is not None:
            source, unit = found
            length = length_at(self.clause, self.begin, unit)
            yield f"times are subtracted as numbers: {bound(source, unit, 'PREV', length)}"
            return
        make = "pandas.to_datetime makes times of texts, and times='seconds' counts them"
        yield f"to subtract, {make}: t - PREV(t) <= 3600"

    def _of_length(self, line: str) -> Iterator[str]:
        """A help that has an hour of seconds, with the unit that a column of times counts in."""
        found = column_of_times(self.clause, [], self.sources, self.frame, self.times)
        line = re.sub(" (of seconds|(of|in) the column's unit)(?=:)", "", line)
        if found is None:
            yield _BOUND.sub(r"t - \1(t) <= 3600 is an hour where t counts in seconds", line)
            return
        source, unit = found
        length = self._length(unit)
        said = _BOUND.sub(lambda it: bound(source, unit, it[1], length), line)
        yield said if said != line else f"{line}; {bound(source, unit, 'FIRST', length)}"

    def _in_units(self, line: str) -> Iterator[str]:
        """A help that has a length of time in several units, in the one that a column counts in."""
        found = column_of_times(self.clause, self.near, self.sources, self.frame, self.times)
        if found is None:
            yield line
            return
        source, unit = found
        yield f"write a whole number: {bound(source, unit, 'FIRST', self._length(unit))}"

    def _length(self, unit: str) -> int:
        """The length of time at the place, in a unit."""
        before = re.search(r"[0-9]+\s*\Z", self.clause[: self.begin])  # of 5 MINUTES
        return length_at(self.clause, before.start() if before else self.begin, unit)

    def _column(self) -> str:
        """The column near the place as Python has it; nothing where there is none."""
        return taken(self.near[0]) if self.near else ""

    def _word(self) -> str:
        """The word at the place or, of a function, before its bracket."""
        before = re.search(r"(\w+)\s*\Z", self.clause[: self.begin])
        if self.clause[self.begin : self.begin + 1] == "(" and before:
            return before[1].upper()
        found = re.match(r"\w+|.?", self.clause[self.begin :], re.DOTALL)
        return found[0].upper() if found else ""

    def _number(self) -> str:
        """The number behind the word at the place, or behind the comma in its bracket."""
        rest = self.clause[self.begin :]
        found = re.match(r"\([^()]*,\s*([0-9]+)\s*\)|[A-Za-z%]*[^0-9()'\"]*([0-9]+)", rest)
        return str(found[1] or found[2]) if found else ""


def taken(source: Source) -> str:
    """A column of a frame, or a level of its index, as Python has it."""
    if source.is_level:
        return f"frame.index.get_level_values({source.label!r})"
    return f"frame[{source.label!r}]"


def _parts_of(source: Source, unit: str) -> str:
    """What has the parts of a column's times."""
    column = taken(source)
    column = f"pandas.to_datetime({column})" if unit == "date" else column
    return column if source.is_level else f"{column}.dt"


def _fit(word: str, pattern: str) -> str:
    """What says of a column of texts whether each is like a pattern."""
    if word not in ("LIKE", "ILIKE", "NOT"):
        return f".str.contains({pattern!r})"
    lower = ".str.lower()" if word == "ILIKE" else ""
    found = _LIKE.fullmatch(pattern.lower() if lower else pattern)
    if found is None:
        return f"{lower}.str.fullmatch(..)"
    text = repr(str(found[2]))
    if found[1] and found[3]:
        return f"{lower}.str.contains({text}, regex=False)"
    if found[1] or found[3]:
        return f"{lower}.str.{'startswith' if found[3] else 'endswith'}({text})"
    return f"{lower} == {text}"
