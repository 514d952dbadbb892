"""``rowmatch.match`` over frames that outgrow one machine, by Dask."""

from __future__ import annotations

from collections.abc import Hashable, Mapping
from dataclasses import dataclass
from typing import Any

try:
    from dask.dataframe import DataFrame
except ImportError as error:
    raise ImportError("rowmatch.dask needs dask: pip install 'dask[dataframe]'") from error
import numpy as np
import pandas as pd

from . import _match
from ._match import OnSkipFault
from ._names import unused
from ._program import Limit
from ._question import Question, Ways, understand
from ._ways import Array, Cells, Numbers, way_of

__all__ = ["match"]
_PLACE, _BUCKET = "place in the whole", "bucket of the key"


def match(
    data: DataFrame,
    clause: str,
    *,
    columns: Ways | None = None,
    times: str = "micros",
    on_skip_fault: OnSkipFault = "raise",
    timeout: float | None = None,
    npartitions: int | None = None,
) -> DataFrame:
    """Matches a clause against a Dask frame: `rowmatch.match` in each part, after a shuffle.

    The answer has the rows of ``rowmatch.match(data.compute(), clause)``. Those of one partition of
    the clause are together and in the same order; which partition comes first differs. Rows that
    ORDER BY leaves tied keep their order in ``data``.

    Nothing runs before the answer is asked for, but the clause is looked at at once, over no rows:
    a `ClauseError` comes here. Objects that are no texts (dates, whole numbers) aren't known then:
    say what they are, ``columns={"day": "date"}``.

    Args:
        data: the rows. Columns that the clause doesn't name aren't shuffled, unless it has ALL ROWS
            PER MATCH.
        clause: the clause. Without PARTITION BY all rows are one partition, which one process
            searches.
        npartitions: how many parts are made by the shuffle; as many as ``data`` has where nothing
            is said.
        columns, times, on_skip_fault, timeout: as in `rowmatch.match`. The time is that of one
            part, before the shuffle or after it.

    Examples:
        >>> import dask.dataframe, pandas, rowmatch.dask
        >>> ticks = pandas.DataFrame({"sym": list("xyx"), "t": [1, 1, 2], "price": [10, 5, 8]})
        >>> falls = rowmatch.dask.match(dask.dataframe.from_pandas(ticks, npartitions=2), '''
        ...     PARTITION BY sym ORDER BY t MEASURES LAST(price) AS low
        ...     PATTERN (A B) DEFINE B AS price < PREV(price)''')
        >>> falls.compute()
          sym  low
        0   x    8
    """
    if not isinstance(data, DataFrame):
        raise TypeError("a frame that is no frame of Dask is for rowmatch.match")
    options: dict[str, Any] = {"on_skip_fault": on_skip_fault, "timeout": timeout}
    question = understand(data._meta, clause, columns or {}, times, Limit.of(timeout))
    ways = dict(columns or {})
    answer = _match.match(data._meta, clause, columns=ways, times=times, **options)
    if not question.clause.all_rows:
        data = data[_wanted(question)]
    ways = {label: way for label, way in ways.items() if label in _labels(data._meta)}
    names = unused(_PLACE, data.columns), unused(_BUCKET, data.columns)
    part = _Part(clause, ways, times, timeout, *names)
    placed = data.map_partitions(part.place_rows, meta=part.place_rows(data._meta))
    if question.clause.partition_by:
        needs_index = question.clause.all_rows or any(
            it.is_level for it in question.sources.values()
        )
        shuffled = placed.shuffle(
            on=part.bucket,
            npartitions=npartitions or data.npartitions,
            ignore_index=not needs_index,
        )
    else:
        shuffled = placed.repartition(npartitions=1)
    return shuffled.map_partitions(part.match, options, meta=answer).clear_divisions()


def _wanted(question: Question) -> list[Hashable]:
    """The labels of columns that the clause names, or of some column where it names none."""
    named = [source.label for source in question.sources.values() if not source.is_level]
    return list(dict.fromkeys(named)) or list(question.frame.columns[:1])


def _labels(frame: pd.DataFrame) -> set[Hashable]:
    return {*frame.columns, *frame.index.names}


@dataclass(frozen=True)
class _Part:
    """What is done with each part of a Dask frame, before the shuffle and after it."""

    clause: str
    ways: Ways
    times: str
    timeout: float | None
    place: str
    bucket: str

    def place_rows(self, part: pd.DataFrame, partition_info: Any = None) -> pd.DataFrame:
        """Each row with its place in the whole frame, by which the shuffle is undone within a
        partition of the clause, and with a number that rows of one such partition have in common.

        That is made of the cells that are handed over, so what the clause takes for one key is one:
        0.0 and -0.0, or Decimal("1.0") and Decimal("1.00")."""
        if partition_info is None and len(part) > 0:
            raise RuntimeError("this version of Dask doesn't say which part of the frame a part is")
        number = partition_info["number"] if partition_info else 0
        places = np.arange(number << 40, (number << 40) + len(part), dtype="int64")
        limit = Limit.of(self.timeout)
        question = understand(part, self.clause, self.ways, self.times, limit)
        bucket = np.zeros(len(part), dtype="uint64")
        for name in question.clause.partition_by:
            source = question.sources[name]
            values = source.values(part)
            cells = way_of(source.label, values, source.said, self.times).cells(values)
            bucket = bucket * np.uint64(1_000_003) + _hashed(cells)
        return part.assign(
            **{self.place: places, self.bucket: (bucket >> np.uint64(1)).astype("int64")}
        )

    def match(self, part: pd.DataFrame, options: Mapping[str, Any]) -> pd.DataFrame:
        rows = part.sort_values(self.place).drop(columns=[self.place, self.bucket])
        return _match.match(rows, self.clause, columns=self.ways, times=self.times, **options)


def _hashed(cells: Cells) -> Array:
    """A number for each cell, the same for equal ones in every process, and 0 for null."""
    if isinstance(cells, Numbers):
        return np.where(cells.missing, np.uint64(0), pd.util.hash_array(cells.values))
    words = pd.util.hash_array(np.array(cells.words, dtype=object), categorize=False)
    hashed: Array = np.append(words, np.uint64(0))[cells.codes]
    return hashed
