"""Columns of texts that are numbers or dates, where a clause takes them by their order."""

from __future__ import annotations

import re
from collections.abc import Mapping

import pandas as pd

from ._clause import Clause
from ._names import Source
from ._units import values_of
from ._words import columns_by_order

_NUMBER = re.compile(r"\s*[+-]?([0-9]+(\.[0-9]*)?|\.[0-9]+)\s*", re.ASCII)
_DATE = re.compile(r"[0-9]{1,2}([/.-])[0-9]{1,2}\1[0-9]{4}([ T].*)?", re.ASCII)
_ROWS, _MOST = 1_000, 100  # so many rows are looked at, and so many texts among them


def notes_on_orders(
    frame: pd.DataFrame, sources: Mapping[str, Source], clause: Clause, text: str
) -> list[str]:
    """What is to be known of columns of texts that ORDER BY or a comparison takes by their order,
    letter by letter, where all the first texts are numbers or dates."""
    columns = [sources[name] for name in clause.order_by] + columns_by_order(text, sources)
    texts = {it.text: it for it in columns if it.kind == "text" and it.said is None}
    notes = ((it, _note(it.text, values_of(it, frame))) for it in texts.values())
    return [source.told(note) for source, note in notes if note is not None]


def _note(name: str, values: pd.Series) -> str | None:
    first = [it for it in values.iloc[:_ROWS].dropna().iloc[:_MOST] if isinstance(it, str)]
    says = f"{name} is text and is ordered letter by letter"
    if first and all(map(_DATE.fullmatch, first)):
        make = "pandas.to_datetime(.., format=..) makes times of it"
        return f"{says}, and has dates as {first[0]!r}: {make}"
    if first and all(map(_NUMBER.fullmatch, first)):
        for less, more in _otherwise(first):
            before = f"{more!r} comes before {less!r}"
            return f"{says}, so that {before}: pandas.to_numeric(..) makes numbers of it"
    return None


def _otherwise(texts: list[str]) -> list[tuple[str, str]]:
    """The first two texts, by their numbers, of which the greater one comes first as a text."""
    ordered = sorted(set(texts), key=lambda it: (float(it), it))
    pairs = zip(ordered, ordered[1:])
    return [(less, more) for less, more in pairs if float(less) < float(more) and more < less][:1]
