"""Row pattern matching (MATCH_RECOGNIZE of SQL:2016) over data frames, by a program that is proved.

>>> import pandas, rowmatch
>>> logins = pandas.DataFrame({
...     "account": ["eve"] * 4, "at": pandas.to_datetime([0, 20, 40, 50], unit="s", utc=True),
...     "outcome": ["fail", "fail", "fail", "ok"]})
>>> rowmatch.match(logins, '''
...     PARTITION BY account ORDER BY at
...     MEASURES FIRST(FAIL.at) AS first_failed, GOOD.at AS got_in, COUNT(FAIL.*) AS failures
...     PATTERN (FAIL{3,} GOOD)
...     DEFINE FAIL AS outcome = 'fail',
...            GOOD AS outcome = 'ok' AND at - FIRST(FAIL.at) <= 600''', times="seconds")
  account              first_failed                    got_in  failures
0     eve 1970-01-01 00:00:00+00:00 1970-01-01 00:00:50+00:00         3
"""

from __future__ import annotations

from typing import TYPE_CHECKING, Any

from .errors import ClauseError, DataError, NodeError, ProgramError, RowmatchError, SkipFault
from .node import Item, Node, Numbering

if TYPE_CHECKING:
    from ._match import check, match

__all__ = [
    "ClauseError",
    "DataError",
    "Item",
    "Node",
    "NodeError",
    "Numbering",
    "ProgramError",
    "RowmatchError",
    "SkipFault",
    "check",
    "match",
]
__version__ = "0.1.0"


def __getattr__(name: str) -> Any:
    """``match`` and ``check`` are loaded when they are first used, since they alone need pandas."""
    if name in ("check", "match"):
        from . import _match

        return getattr(_match, name)
    raise AttributeError(f"module {__name__!r} has no attribute {name!r}")


def __dir__() -> list[str]:
    return sorted([*globals(), *__all__])
