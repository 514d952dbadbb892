"""What is said of levels of the index: it can be followed there, or begins with reset_index()."""

from __future__ import annotations

import datetime
import re

import numpy as np
import pandas as pd
import pytest

import rowmatch
from rowmatch import ClauseError, DataError

EVERY = "ORDER BY v PATTERN (A) DEFINE A AS n > 0"
FIRST = "; reset_index() makes a column of v first"


def level(values, name="v"):
    due = pd.date_range("2024-01-01", periods=len(values), tz="UTC")
    index = pd.Index(values, name=name)
    return pd.DataFrame({"n": range(len(values)), "due": due}, index=index)


@pytest.mark.parametrize(
    "values, options, said",
    [
        ([1.5, np.inf], {"columns": {"v": "decimal(2)"}}, "numpy.nan) makes nulls of them" + FIRST),
        ([1.5, 1 / 3], {}, "compare with whole numbers of that unit" + FIRST),
        ([1.5, 2.5], {}, "compare with whole numbers of that unit"),
        (
            pd.period_range("2024-01", periods=2, freq="M"),
            {},
            "makes times of a column of periods" + FIRST,
        ),
        (
            [datetime.datetime(2024, 1, 1), datetime.date(2024, 1, 2)],
            {"columns": {"v": "date"}},
            "pandas.to_datetime(..).dt.date makes dates of times" + FIRST,
        ),
        (
            pd.date_range("2024-01-01", periods=2, freq="1500ms"),
            {"times": "seconds"},
            "columns={'v': 'millis'}; the clause counts in millis then",
        ),
    ],
)
def test_what_to_write_for_a_level(values, options, said):
    with pytest.raises(DataError) as caught:
        rowmatch.match(level(values), EVERY, **options)
    assert str(caught.value).startswith("level 'v' of the index has ")
    assert str(caught.value).endswith(said) and caught.value.column == "v"
    column = level(values).reset_index()
    with pytest.raises(DataError, match="column 'v' has ") as caught:
        rowmatch.match(column, EVERY, **options)
    assert "reset_index" not in str(caught.value)


def test_texts_of_a_level():
    frame = level(["10", "9"])
    with pytest.raises(ClauseError) as caught:
        rowmatch.match(frame, "PATTERN (A) DEFINE A AS v > 5")
    line = caught.value.help[-1]
    assert line.startswith("level v of the index has texts: ") and line.endswith(FIRST)
    with pytest.warns(UserWarning, match=re.escape("numbers of it" + FIRST)):
        rowmatch.match(frame, EVERY)
    with pytest.raises(ClauseError, match="level v of the index has no value here, so that it is"):
        rowmatch.match(level([None, None]), "PATTERN (A) DEFINE A AS v > 5")


def test_a_level_without_a_time_zone():
    frame = level(pd.date_range("2024-01-01", periods=2))
    clause = "PATTERN (A) DEFINE A AS v <= due"
    with pytest.warns(UserWarning, match=re.escape(": frame.tz_localize(..) gives v its zone")):
        rowmatch.match(frame, clause)
    assert len(rowmatch.match(frame.tz_localize("UTC"), clause)) == 2
    two = frame.set_index("n", append=True)
    with pytest.warns(UserWarning, match=re.escape(": frame.tz_localize(.., level='v') gives v")):
        rowmatch.match(two, clause)
    assert len(rowmatch.match(two.tz_localize("UTC", level="v"), clause)) == 2


@pytest.mark.parametrize("name", ["date", "index", "at", "v"])
def test_an_index_without_a_name(name):
    clause = f"ORDER BY {name} MEASURES COUNT(*) AS n PATTERN (A+) DEFINE A AS n > 0"
    frame = level(pd.date_range("2024-01-01", periods=3), None)
    with pytest.raises(ClauseError) as caught:
        rowmatch.match(frame, clause)
    said = f"the index has no name: frame.rename_axis({name!r}) gives it one"
    assert any(line.startswith(said) for line in caught.value.help)
    assert rowmatch.match(frame.rename_axis(name), clause)["n"].tolist() == [2]


def test_an_index_that_is_not_meant():
    for frame in (level([5, 6], None), level([5, 6]).reset_index(drop=True), level([5, 6], "at")):
        with pytest.raises(ClauseError) as caught:
            rowmatch.match(frame, EVERY)
        assert not any("no name" in line for line in caught.value.help)
    frame = level(pd.date_range("2024-01-01", periods=3), None)
    with pytest.raises(ClauseError) as caught:
        rowmatch.match(frame, EVERY.replace("v", "dua"))
    assert "write due" in caught.value.help and not any("no name" in it for it in caught.value.help)
    both = frame.set_index([[1, 2, 3], [4, 5, 6]])
    with pytest.raises(
        ClauseError, match=re.escape("levels of the index have no names: frame.ren")
    ):
        rowmatch.match(both, EVERY)
