"""Dask frames have the answer of the whole frame."""

from __future__ import annotations

from decimal import Decimal

import numpy as np
import pandas as pd
import pytest

import rowmatch
from rowmatch import ClauseError, DataError, SkipFault

dask = pytest.importorskip("dask")
dd = pytest.importorskip("dask.dataframe")
import rowmatch.dask  # noqa: E402

FALLS = """PARTITION BY {} ORDER BY at
    MEASURES A.at AS began, LAST(D.price) AS low, COUNT(D.*) AS falls {}
    PATTERN (A D{{2,}} U) DEFINE D AS price < PREV(price), U AS price > PREV(price)"""


@pytest.fixture(autouse=True)
def one_process():
    with dask.config.set(scheduler="threads"):
        yield


@pytest.fixture
def many() -> pd.DataFrame:
    """3,000 rows of 900 seconds, so that many have the same time."""
    chance = np.random.default_rng(5)
    return pd.DataFrame(
        {
            "sym": chance.choice(list("abcdefghij"), 3000),
            "venue": chance.choice(["x", "", None], 3000),
            "at": pd.to_datetime(chance.integers(0, 900, 3000), unit="s", utc=True),
            "price": chance.integers(1, 50, 3000),
            "note": chance.random(3000),
        }
    )


def parts_of(answer, keys):
    """The rows of each key. A null is a key of its own, apart from an empty text."""
    texts = (
        answer[keys]
        .astype(object)
        .apply(lambda row: repr([None if pd.isna(v) else v for v in row]), axis=1)
    )
    return {key: part.reset_index(drop=True) for key, part in answer.groupby(texts.tolist())}


def same(left, right, keys):
    left, right = parts_of(left, keys), parts_of(right, keys)
    assert left.keys() == right.keys()
    for key, part in left.items():
        pd.testing.assert_frame_equal(part, right[key])


@pytest.mark.parametrize("keys", ["sym", "sym, venue", "venue"])
def test_one_row_per_match(many, keys):
    clause = FALLS.format(keys, "")
    whole = rowmatch.match(many, clause)
    parts = rowmatch.dask.match(dd.from_pandas(many, npartitions=7), clause)
    assert list(parts.dtypes) == list(whole.dtypes)
    answer = parts.compute()
    assert len(answer) == len(whole) > 200
    same(answer, whole, keys.split(", "))


def test_all_rows_per_match(many):
    clause = FALLS.format("sym", "ALL ROWS PER MATCH")
    many.index = [f"row {n}" for n in range(len(many))]
    whole = rowmatch.match(many, clause)
    answer = rowmatch.dask.match(dd.from_pandas(many, npartitions=7, sort=False), clause).compute()
    same(answer, whole, ["sym"])
    same(answer.rename_axis("row").reset_index(), whole.rename_axis("row").reset_index(), ["sym"])


def test_without_partition_by(many):
    clause = (
        "ORDER BY at MEASURES LAST(price) AS low PATTERN (A D{3,}) DEFINE D AS price < PREV(price)"
    )
    answer = rowmatch.dask.match(dd.from_pandas(many, npartitions=7), clause)
    assert not answer.known_divisions
    pd.testing.assert_frame_equal(answer.compute(), rowmatch.match(many, clause))


def test_another_number_of_parts(many):
    clause = FALLS.format("sym", "")
    parts = rowmatch.dask.match(dd.from_pandas(many, npartitions=3), clause, npartitions=5)
    assert parts.npartitions == 5
    same(parts.compute(), rowmatch.match(many, clause), ["sym"])


def test_the_index_is_a_column_too(many):
    clause = FALLS.format("sym", "")
    named = many.set_index("at")
    whole = rowmatch.match(named, clause)
    same(
        rowmatch.dask.match(dd.from_pandas(named, npartitions=4, sort=False), clause).compute(),
        whole,
        ["sym"],
    )
    by_time = "PARTITION BY at MEASURES COUNT(*) AS n PATTERN (A+) DEFINE A AS price > 0"
    answer = rowmatch.dask.match(
        dd.from_pandas(named, npartitions=4, sort=False), by_time
    ).compute()
    assert sorted(answer.values.tolist()) == sorted(rowmatch.match(named, by_time).values.tolist())


def test_keys_that_are_equal_and_look_different():
    clause = "PARTITION BY k MEASURES COUNT(*) AS n PATTERN (A+) DEFINE A AS 1 = 1"
    for keys, columns in [
        ([0.0, -0.0, 0.0, -0.0], {}),
        ([Decimal("1.0"), Decimal("1.00"), Decimal("1"), Decimal("1.000")], {"k": "decimal(1)"}),
        ([None, np.nan, pd.NA, None], {"k": "text"}),
    ]:
        frame = pd.DataFrame({"k": keys})
        data = dd.from_pandas(frame, npartitions=4, sort=False)
        answer = rowmatch.dask.match(data, clause, columns=columns).compute()
        assert answer["n"].tolist() == [4]


def test_a_plain_and_a_quoted_name_of_one_column(many):
    clause = """PARTITION BY sym ORDER BY at MEASURES LAST("price") AS low, "venue" AS "at last"
        PATTERN (A D{2,}) DEFINE D AS price < PREV(price) AND (venue = 'x' OR "venue" = '')"""
    answer = rowmatch.dask.match(dd.from_pandas(many, npartitions=4), clause).compute()
    whole = rowmatch.match(many, clause.replace('"price"', "price").replace('"venue"', "venue"))
    assert len(whole) > 20
    same(answer, whole, ["sym"])


def test_objects_of_decimals_come_back_as_they_were():
    frame = pd.DataFrame({"k": pd.Series([0.29, 1, Decimal("0.5"), 0.29, None] * 4, dtype=object)})
    clause = "PARTITION BY k MEASURES COUNT(*) AS n PATTERN (A+) DEFINE A AS k IS NOT NULL"
    told = {"columns": {"k": "decimal(2)"}}
    data = dd.from_pandas(frame, npartitions=3, sort=False)
    answer = rowmatch.dask.match(data, clause, **told).compute()
    same(answer, rowmatch.match(frame, clause, **told), ["k"])
    assert sorted(map(str, answer["k"])) == ["0.29", "0.5", "1"] and len(answer) == 3


def test_a_frame_of_pandas_is_for_match(many):
    with pytest.raises(TypeError, match="rowmatch.match"):
        rowmatch.dask.match(many, FALLS.format("sym", ""))


def test_faults_come_at_once(many):
    parts = dd.from_pandas(many, npartitions=3)

    def explode(part):
        raise AssertionError("nothing runs before the answer is asked for")

    parts = parts.map_partitions(explode, meta=parts._meta)
    with pytest.raises(ClauseError, match="prise"):
        rowmatch.dask.match(parts, "PARTITION BY sym PATTERN (A) DEFINE A AS prise = 1")
    with pytest.raises(DataError):
        clause = "PARTITION BY sym PATTERN (A) DEFINE A AS price = 1"
        rowmatch.dask.match(parts, clause, columns={"nothing": "int"})
    with pytest.raises(AssertionError, match="nothing runs"):
        rowmatch.dask.match(parts, FALLS.format("sym", "")).compute()


def test_faults_of_rows_come_with_the_answer(many):
    parts = dd.from_pandas(many, npartitions=3)
    halves = rowmatch.dask.match(parts, "PARTITION BY sym PATTERN (A) DEFINE A AS note < 1")
    with pytest.raises(DataError, match="fractions"):
        halves.compute()
    skip = """PARTITION BY sym MEASURES 1 AS x AFTER MATCH SKIP TO B
        PATTERN (A B?) DEFINE B AS price < 0"""
    with pytest.raises(SkipFault, match="SkipNoRow"):
        rowmatch.dask.match(parts, skip).compute()
    assert len(rowmatch.dask.match(parts, skip, on_skip_fault="ignore").compute()) == 10


def test_objects_have_to_be_told(many):
    days = many.assign(day=many["at"].dt.date)
    clause = """PARTITION BY sym ORDER BY at MEASURES LAST(day) AS day, COUNT(*) AS n
        PATTERN (A+) DEFINE A AS day >= 0"""
    whole = rowmatch.match(days, clause)
    parts = dd.from_pandas(days, npartitions=3)
    told = rowmatch.dask.match(parts, clause, columns={"day": "date", "note": "decimal(3)"})
    same(told.compute(), whole, ["sym"])
    with pytest.raises(ClauseError, match="KindMismatch"):
        rowmatch.dask.match(parts, clause)
