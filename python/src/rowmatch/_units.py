"""Columns whose numbers don't count the same, where a clause takes them as if they did."""

from __future__ import annotations

import datetime
from collections.abc import Callable, Hashable, Mapping
from typing import Any

import pandas as pd

from ._clause import noted, quoted
from ._names import Source, folded
from ._program import Limit
from ._ways import first_known, places_in

# The units of times that the program has, and what it calls them.
_TIMES = {
    "date": "days since 1970",
    "seconds": "seconds since 1970",
    "millis": "thousandths of a second since 1970",
    "micros": "millionths of a second since 1970",
}
# Two units by which the program tells two groups of columns from each other, and its words there.
_ONE, _OTHER = "seconds", "millis"
_BETWEEN, _BEHIND = f" is in {_TIMES[_ONE]} and ", f" in {_TIMES[_OTHER]}, and they are "
_AS_THEY_ARE = "and they are compared or added as they are"


def notes_on_units(
    frame: pd.DataFrame, sources: Mapping[str, Source], text: str, times: str, limit: Limit
) -> list[str]:
    """What is to be known of columns that are counted in different units, or of which some have a
    time zone and some have none, where the clause compares, adds or subtracts them as they are."""
    values = {name: values_of(source, frame) for name, source in sources.items()}
    units = {name: unit_of(values[name], source, times) for name, source in sources.items()}

    def apart(is_one: Callable[[str], bool], is_other: Callable[[str], bool]) -> list[list[str]]:
        """The columns of which the first is one of some, the second one of others, and both are
        taken alike."""
        if not any(map(is_one, units)) or not any(map(is_other, units)):
            return []
        groups = {
            name: _ONE if is_one(name) else _OTHER if is_other(name) else _kind(unit)
            for name, unit in units.items()
        }
        return [_names(note) for note in _noted(groups, text, limit) if _BETWEEN in note]

    notes = _noted(units, text, limit) if _are_mixed(set(units.values())) else []
    for unit, word in _TIMES.items():
        for one, other in apart(lambda it: units[it] == unit, lambda it: units[it] == "nanos"):
            finest = "billionths of a second since 1970"
            note = f"{one} is in {word} and {other} in {finest}, {_AS_THEY_ARE}: read both by nanos"
            notes.append(note)
    for one, other in apart(lambda it: _zone(values[it]) == "", lambda it: bool(_zone(values[it]))):
        levels = [
            it.label for it in sources.values() if it.is_level and folded(it.text) == folded(one)
        ]
        make = _localized(frame, levels[0]) if levels else ".dt.tz_localize"
        notes.append(
            f"{one} has no time zone and counts as its clock shows it, and {other} has one and "
            f"counts in UTC, {_AS_THEY_ARE}: {make} gives {one} its zone"
        )
    return notes


def _localized(frame: pd.DataFrame, level: Hashable) -> str:
    """What gives a level of the index its time zone."""
    return f"frame.tz_localize(..{f', level={level!r}' if frame.index.nlevels > 1 else ''})"


def values_of(source: Source, frame: pd.DataFrame) -> pd.Series:
    """The values of a column; of one of categories these."""
    values = source.values(frame)
    if isinstance(values.dtype, pd.CategoricalDtype):
        return pd.Series(values.dtype.categories)
    return values


def unit_of(values: pd.Series, source: Source, times: str) -> str:
    """What the numbers of a column count, by the word of ``columns=``: one of times, ``date`` or
    ``decimal(PLACES)``. Nothing is known of whole numbers, which are ``int``."""
    if source.kind == "text":
        return "text"
    if source.said is not None:
        return source.said
    dtype: Any = values.dtype
    if dtype.kind in "mM":
        return times
    if dtype == object and type(first_known(values)) is datetime.date:
        return "date"
    return "int"


def _kind(unit: str) -> str:
    return "text" if unit == "text" else "int"


def _zone(values: pd.Series) -> str | None:
    """The time zone of a column of times; it is empty where there is none, and None is one of
    something else."""
    dtype: Any = values.dtype
    if dtype.kind != "M":
        return None
    zone = getattr(dtype, "tz", None)
    return "" if zone is None else str(zone)


def _are_mixed(units: set[str]) -> bool:
    """Whether times have different units that the program has, or numbers have."""
    numbers = {unit for unit in units if unit == "int" or places_in(unit) is not None}
    return len(units & set(_TIMES)) > 1 or len(numbers) > 1


def _noted(units: Mapping[str, str], text: str, limit: Limit) -> list[str]:
    """What the program says of the clause over columns that count these."""
    columns = (f"{quoted(name)} = {_reading(unit, quoted(name))}" for name, unit in units.items())
    return noted(", ".join(columns), text, limit)


def _reading(unit: str, name: str) -> str:
    """A unit as ``--columns`` has it, which has no nanoseconds."""
    places = places_in(unit)
    if places is not None:
        return f"decimal({name}, {places})"
    return f"{unit}({name})" if unit in _TIMES or unit == "text" else f"int({name})"


def _names(note: str) -> list[str]:
    """The two columns that the program says are taken alike."""
    one, _, behind = note.partition(_BETWEEN)
    return [one, behind.partition(_BEHIND)[0]]
