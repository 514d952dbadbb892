"""``match`` and ``check``: a frame and a clause to an answer, or to what is wrong."""

from __future__ import annotations

import warnings
from typing import Any, Literal

try:
    import pandas as pd
except ImportError as error:
    need = "rowmatch.match and rowmatch.check need pandas, 1.5 or later: pip install pandas"
    raise ImportError(need) from error

from ._clause import table_of
from ._program import NO_LIMIT, Limit, run
from ._question import Ways, understand
from .errors import SkipFault

__all__ = ["check", "match"]
OnSkipFault = Literal["raise", "warn", "ignore"]


def match(
    data: pd.DataFrame,
    clause: str,
    *,
    columns: Ways | None = None,
    times: str = "micros",
    on_skip_fault: OnSkipFault = "raise",
    timeout: float | None = None,
) -> pd.DataFrame:
    """Matches a clause of MATCH_RECOGNIZE against the rows of a frame.

    Only the columns that the clause names are handed over, so others may hold anything. A plain
    name in the clause means the column of that name in any case; where two columns differ by case
    alone, and for names with blanks or of reserved words, write it in double quotes. Labels that
    are no strings go by their ``str``. Named levels of the index count as columns.

    How values are handed over, by dtype:

    ===================================  ========================================================
    integers, bool, whole floats         whole numbers; bool as 0 and 1; NaN, NA, None are null
    datetime64, with a zone or without   whole numbers of ``times`` since 1970 (UTC with a zone)
    timedelta64                          whole numbers of ``times``
    str, string                          texts
    category                             as its categories, whose order doesn't count
    datetime.date                        days since 1970
    floats with fractions, Decimal       by ``columns={"price": "decimal(2)"}`` alone: whole
                                         numbers of hundredths
    ===================================  ========================================================

    What can't be handed over exactly is a `DataError` and is never rounded or cut. Where the clause
    compares, adds or subtracts columns that are counted in different units, as by ``decimal(2)``
    and ``decimal(3)``, by ``decimal(2)`` and as whole numbers, or as days and as seconds, or times
    with a time zone and without one, it warns. So it does where it compares a column with a text
    that rows have but for capitals, or for blanks at the ends, and where it takes texts by their
    order that are numbers, or dates as 1/9/2024.

    Args:
        data: the rows: a frame, what has ``to_pandas()``, or what ``pandas.DataFrame(..)`` takes.
            Without ORDER BY they are in the frame's order, and ties are so in any case.
        clause: the clause, from PARTITION BY to DEFINE, with or without ``MATCH_RECOGNIZE ( .. )``
            round it.
        columns: for single columns another way: ``int``, ``text``, ``decimal(PLACES)``, ``date``,
            ``seconds``, ``millis``, ``micros``, ``nanos``.
        times: the unit of times in the clause: ``seconds``, ``millis``, ``micros`` or ``nanos``.
        on_skip_fault: what happens where AFTER MATCH SKIP can't be followed: ``raise`` a
            `SkipFault`, ``warn``, ``ignore``.
        timeout: seconds after which the program is ended, from the beginning of the call: all that
            the program does is within them. What Python does isn't cut short.

    Returns:
        With ONE ROW PER MATCH a row for each match: the columns of PARTITION BY and the measures.
        With ALL ROWS PER MATCH a row for each row of a match, under its index in ``data``: the
        columns of PARTITION BY and ORDER BY, the measures, the others; levels of the index stay in
        it. Partitions come in the order
        of their first rows. Columns keep their labels and dtypes. A measure has its name as the
        clause writes it. Where it is the value of a column (``FIRST(A.t)``, ``MAX(p)``) it has its
        dtype, with nulls (``Int64`` for ``int64``); other texts are ``object``, and all else is
        ``Int64``.

    Raises:
        ClauseError: the clause is wrong; its text says where, and what to write.
        DataError: a column that the clause names can't be handed over.
        SkipFault: a partition's answer ended early; see ``on_skip_fault``.
        TimeoutError: there was no answer in time; says which partition was being searched, where
            that took five seconds.
        ProgramError: the program is missing or ended unexpectedly.

    Examples:
        >>> import pandas, rowmatch
        >>> ticks = pandas.DataFrame({"sym": list("xxx"), "t": [1, 2, 3], "price": [10, 6, 7]})
        >>> rowmatch.match(ticks, '''
        ...     PARTITION BY sym ORDER BY t
        ...     MEASURES A.price AS top, LAST(DOWN.price) AS low, COUNT(DOWN.*) AS falls
        ...     PATTERN (A DOWN+ UP)
        ...     DEFINE DOWN AS price < PREV(price), UP AS price > PREV(price)''')
          sym  top  low  falls
        0   x   10    6      1
    """
    if on_skip_fault not in ("raise", "warn", "ignore"):
        raise ValueError(f"on_skip_fault={on_skip_fault!r} is none of raise, warn, ignore")
    limit = Limit.of(timeout)
    question = understand(pandas_frame(data), clause, columns or {}, times, limit)
    for note in [*question.units(limit), *question.orders()]:
        warnings.warn(note, stacklevel=2)
    answer, faults, notes = question.answer(limit)
    for note in notes:
        warnings.warn(note, stacklevel=2)
    if faults and on_skip_fault == "raise":
        raise SkipFault(faults, answer)
    if faults and on_skip_fault == "warn":
        warnings.warn(str(SkipFault(faults, answer)), stacklevel=2)
    return answer


def check(
    data: pd.DataFrame, clause: str, *, columns: Ways | None = None, times: str = "micros"
) -> str:
    """Says what a clause is over the columns of a frame, as ``rowmatch check`` does; in which unit
    columns of times count; where it compares, adds or subtracts columns that aren't counted alike,
    or takes texts by their order that are numbers or dates, of which `match` warns; and what is to
    be known of the rows: texts that the clause compares a column with and no row has, or some have
    but for capitals and blanks, keys that differ so, nulls that are compared by ``<>`` or are in
    columns of PARTITION BY and ORDER BY, and rows that tie there. Where `match` refuses to hand the
    rows over, it says why.

    Raises:
        ClauseError: the clause is wrong; its text says where, and what to write.

    Examples:
        >>> import pandas, rowmatch
        >>> ticks = pandas.DataFrame({"t": [1], "price": [10]})
        >>> rowmatch.check(ticks, "PATTERN (A B) DEFINE B AS prise < PREV(price)")
        Traceback (most recent call last):
          ...
        rowmatch.errors.ClauseError: UnknownColumn in line 1, column 27
          1 | PATTERN (A B) DEFINE B AS prise < PREV(price)
            |                           ^^^^^ the table has no column prise
          help: write price
          help: the columns are t, price
    """
    question = understand(pandas_frame(data), clause, columns or {}, times)
    ran = run(["check"], table_of(question.kinds), clause)
    if ran.status != 0:
        raise ran.failed()
    notes = [
        *question.counts(),
        *question.units(NO_LIMIT),
        *question.orders(),
        *question.rows(),
    ]
    return ran.printed.decode() + "".join(f"{note}\n" for note in notes)


def pandas_frame(data: Any) -> pd.DataFrame:
    """The frame of pandas that the data are, or make."""
    if isinstance(data, pd.DataFrame):
        return data
    if data is None:
        raise TypeError("the data are None, which is no frame; a call with inplace=True gives None")
    if hasattr(data, "map_partitions"):
        raise TypeError("a frame of Dask is for rowmatch.dask.match")
    if hasattr(data, "get_chunk"):
        raise TypeError("data in chunks aren't one frame: pandas.concat makes one of them")
    if hasattr(data, "ngroups"):
        raise TypeError(
            "groups aren't one frame: give the frame, and name the keys by PARTITION BY"
        )
    if isinstance(data, (list, tuple)) and any(isinstance(it, pd.DataFrame) for it in data):
        raise TypeError("a list of frames isn't one frame: pandas.concat makes one of them")
    made = data.to_pandas() if hasattr(data, "to_pandas") else data
    return made if isinstance(made, pd.DataFrame) else pd.DataFrame(made)
