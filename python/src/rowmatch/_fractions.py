"""A comparison with a fraction as one of whole numbers, by how the column is handed over."""

from __future__ import annotations

import decimal
import re
from collections.abc import Mapping
from dataclasses import dataclass

import pandas as pd

from ._names import Source
from ._units import values_of
from ._ways import places_in, places_needed
from ._words import columns_of, operands_near, values_among, words_with_places

_COMPARISONS = {"=", "<>", "<", "<=", ">", ">="}
_ADDED = {*_COMPARISONS, "+", "-"}
_MIRRORED = {"=": "=", "<>": "<>", "<": ">", "<=": ">=", ">": "<", ">=": "<="}
# What a value may go through that counts as its column does.
_FUNCTIONS = {"SUM", "MIN", "MAX", "FIRST", "LAST", "PREV", "NEXT", "FINAL", "RUNNING"}
_LONGEST = 18  # characters of a fraction that is written as a whole number
_CENTS = 2  # the least places that are proposed
_NUMBER = re.compile(r"[0-9]*\.[0-9]+", re.ASCII)


@dataclass(frozen=True)
class Comparison:
    """A comparison of a value with a fraction: the value's text and columns, the sign between, and
    the fraction as it is written. Where that is a part of a sum there is no value and no sign."""

    value: str
    columns: list[Source]
    sign: str
    written: str

    @property
    def fraction(self) -> decimal.Decimal:
        return decimal.Decimal(self.written)

    @property
    def places(self) -> int:
        """How many places the fraction has."""
        return len(self.written.partition(".")[2])

    def in_units(self, places: int, factor: int = 1) -> str:
        """The comparison where the value counts in units of the last one of so many places, and is
        multiplied by a factor."""
        number = int((self.fraction * factor).scaleb(places))
        if not self.sign:
            return f"{number} for {self.written}"
        is_sum = re.search(r"[+-]", self.value)
        value = f"({self.value})" if is_sum and factor > 1 else self.value
        return f"{value}{f' * {factor}' if factor > 1 else ''} {self.sign} {number}"


def comparison_at(clause: str, point: int, sources: Mapping[str, Source]) -> Comparison | None:
    """The comparison of which a side is the fraction with this point; None where it is another, or
    the other side isn't counted as its columns are."""
    words = words_with_places(clause)
    begin = max(
        (at for word, at in words if word.isdigit() and at + len(word) == point), default=point
    )
    found = _NUMBER.match(clause, begin)
    if (
        found is None
        or len(found[0]) > _LONGEST
        or re.match("[A-Za-z0-9_.]", clause[found.end() : found.end() + 1])
    ):
        return None
    left, right = operands_near(clause, begin, found.end())
    minus = left[-1:] == ["-"] and (len(left) == 1 or left[-2] in _COMPARISONS)
    left = left[:-1] if minus else left
    number = f"-{found[0]}" if minus else found[0]
    if left and left[-1] in _COMPARISONS and not right:
        return _comparison(left[:-1], left[-1], number, sources)
    if right and right[0] in _COMPARISONS and not left:
        return _comparison(right[1:], _MIRRORED[right[0]], number, sources)
    if {*left[-1:], *right[:1]} <= _ADDED:
        terms = ["+" if word in _COMPARISONS else word for word in [*left, *right]]
        return _comparison(terms, "", found[0], sources)
    return None


def _comparison(
    words: list[str], sign: str, number: str, sources: Mapping[str, Source]
) -> Comparison | None:
    columns = columns_of(values_among(words), sources)
    if not columns or not _counts_alike(words, sources):
        return None
    return Comparison(_joined(words) if sign else "", columns, sign, number)


def _counts_alike(words: list[str], sources: Mapping[str, Source]) -> bool:
    """Whether a value counts as its columns do: it is one, an aggregate or another row's value of
    one, or a sum or difference of such."""
    for at, word in enumerate(words):
        then, before = "".join(words[at + 1 : at + 2]), "".join(words[at - 1 : at]) if at else ""
        if word.isdigit():
            if before != "," or then != ")":
                return False
        elif then == "(" and word != "(" and word not in "+-":
            if word.upper() not in _FUNCTIONS:
                return False
        elif word not in ("(", ")", ",", ".", "+", "-") and then != ".":
            if word.upper() not in _FUNCTIONS and not columns_of([word], sources):
                return False
    return True


def _joined(words: list[str]) -> str:
    """Words as one writes them."""
    text = " ".join(words)
    text = re.sub(r"\s*\.\s*", ".", text)
    return re.sub(r"(?<=\w) \(", "(", text).replace("( ", "(").replace(" )", ")").replace(" ,", ",")


def helps_of(comparison: Comparison, frame: pd.DataFrame) -> list[str]:
    """What to write for a comparison with a fraction."""
    ways = {source.text: places_in(source.said or "") for source in comparison.columns}
    places = set(ways.values())
    if len(places) > 1 or any(source.kind == "text" for source in comparison.columns):
        return []
    known = places.pop()
    if known is None:
        line = _without_reading(comparison, frame)
    elif comparison.sign or comparison.places <= known:
        line = _by_reading(comparison, known)
    else:
        line = None
    return [] if line is None else [line]


def _by_reading(comparison: Comparison, places: int) -> str:
    """What to write where the columns are read as decimals of so many places."""
    said = f"by decimal({places}) {comparison.columns[0].text} is counted so that"
    if comparison.places <= places:
        number = int(comparison.fraction.scaleb(places))
        return f"{said} {comparison.written} is {number}: write {comparison.in_units(places)}"
    factor = 10 ** (comparison.places - places)
    return f"{said} 1 is {10**places}: write {comparison.in_units(places, factor)}"


def _without_reading(comparison: Comparison, frame: pd.DataFrame) -> str | None:
    """What to write where nothing is said of how many places the columns have. A sum of whole
    numbers and a fraction isn't rewritten."""
    of_values = [places_needed(values_of(source, frame)) for source in comparison.columns]
    whole = comparison.in_units(0, 10**comparison.places)
    known = [it for it in of_values if it is not None]
    if not known or any(source.said for source in comparison.columns):
        if not comparison.sign:
            return None
        names = " and ".join(source.text for source in comparison.columns)
        return f"{names} is counted in whole numbers: write {whole}"
    places = max(_CENTS, comparison.places, *known)
    ways = ", ".join(f"{it.label!r}: 'decimal({places})'" for it in comparison.columns)
    return f"give columns={{{ways}}}, and write {comparison.in_units(places)} then"
