"""Times and lengths of time as the numbers that a clause has for them."""

from __future__ import annotations

import re
from collections.abc import Mapping

import pandas as pd

from ._names import Source, written
from ._units import unit_of, values_of
from ._ways import UNITS
from ._words import columns_of, words_with_places

_DAY = 86_400_000_000_000  # nanoseconds
STEPS = {**UNITS, "date": _DAY}  # the nanoseconds of each unit that a column of times counts in
_LENGTHS = {"SECOND": _DAY // 86_400, "MINUTE": _DAY // 1_440, "HOUR": _DAY // 24, "DAY": _DAY}
_INTERVAL = re.compile(
    rf"(?:WITHIN\s+)?(?:INTERVAL\s+)?'?\s*([0-9]{{1,9}})\s*'?\s*({'|'.join(_LENGTHS)})S?\b'?",
    re.ASCII | re.IGNORECASE,
)


def counts_in(unit: str) -> str:
    """What a column of times counts in, and how another unit is said."""
    return f"counts in {'days' if unit == 'date' else f'{unit} (times= names the unit)'}"


def of_time(name: str, unit: str, number: int | None, text: str) -> str:
    """What a column of times counts in, and what to write for a text or for a length of time."""
    if number is not None:
        return f"{name} {counts_in(unit)}: write {number} for '{text}'"
    length = "a week is 7" if unit == "date" else f"an hour is {_DAY // 24 // UNITS[unit]}"
    return f"{name} {counts_in(unit)}: write a whole number; {length}"


def number_of(text: str, values: pd.Series, step: int) -> int | None:
    """A text of a time as the number that a column of times has for it, where there is one."""
    make = pd.Timedelta if values.dtype.kind == "m" else pd.Timestamp
    try:
        moment = make(text)
        zone = getattr(values.dtype, "tz", None)
        if zone is not None and moment.tzinfo is None:
            moment = moment.tz_localize(zone)
    except (ValueError, OverflowError):
        return None
    nanos = int(moment.value)
    return None if moment is pd.NaT or nanos % step else nanos // step


def length_at(clause: str, begin: int, unit: str) -> int:
    """The length of time that a clause has at a place, in a unit; where it has none that is whole
    there, an hour, or a day."""
    found = _INTERVAL.match(clause, begin)
    step = STEPS[unit]
    nanos = int(found[1]) * _LENGTHS[found[2].upper()] if found else 0
    return nanos // step if nanos and nanos % step == 0 else max(_DAY // 24 // step, 1)


def column_of_times(
    clause: str,
    near: list[Source],
    sources: Mapping[str, Source],
    frame: pd.DataFrame,
    times: str,
) -> tuple[Source, str] | None:
    """A column that counts times, and its unit: one near a place, or else the first one that the
    clause names from ORDER BY on."""
    words = [word for word, _ in words_with_places(clause)]
    begin = next((at for at, word in enumerate(words) if word.upper() == "ORDER"), 0)
    for source in [*near, *columns_of(words[begin:], sources)]:
        unit = unit_of(values_of(source, frame), source, times)
        if unit in STEPS:
            return source, unit
    return None


def bound(source: Source, unit: str, function: str, length: int) -> str:
    """The comparison of a length of time with a number."""
    name = written(source.text)
    return f"{name} - {function}({name}) <= {length}; {name} {counts_in(unit)}"
