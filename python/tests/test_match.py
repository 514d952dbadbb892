"""Frames to answers: names, kinds, nulls, indexes."""

from __future__ import annotations

import datetime
import io
import pickle
import re
import uuid
from decimal import Decimal

import numpy as np
import pandas as pd
import pytest

import rowmatch
from rowmatch import ClauseError, DataError, SkipFault

EVERY = "MEASURES A.{0} AS value PATTERN (A) DEFINE A AS 1 = 1"


def value(series, name="v", **options):
    """A column's values after a way through the program and back."""
    return rowmatch.match(pd.DataFrame({name: series}), EVERY.format(name), **options)["value"]


def test_a_fall_and_a_rise(ticks, fall):
    answer = rowmatch.match(ticks, fall)
    assert answer.to_dict("records") == [{"sym": "x", "top": 10, "low": 6, "falls": 2}]
    assert [str(dtype) for dtype in answer.dtypes] == ["object", "Int64", "Int64", "Int64"]


def test_columns_come_back_in_their_dtypes():
    frame = pd.DataFrame(
        {
            "a": pd.Series([1], dtype="int16"),
            "b": [True],
            "c": [2.0],
            "d": pd.Series(["x"], dtype="category"),
        }
    )
    one = rowmatch.match(frame, "PARTITION BY a, b, c, d PATTERN (A) DEFINE A AS 1 = 1")
    every = rowmatch.match(
        frame, "PARTITION BY a, b ORDER BY c, d ALL ROWS PER MATCH PATTERN (A) DEFINE A AS 1 = 1"
    )
    pd.testing.assert_frame_equal(one, frame)
    pd.testing.assert_frame_equal(every, frame)


def test_a_match_without_any_column():
    answer = rowmatch.match(pd.DataFrame({"p": [1, 2, 3]}), "PATTERN (A) DEFINE A AS p > 1")
    assert answer.shape == (2, 0)


def test_no_match_gives_the_same_columns(ticks, fall):
    answer = rowmatch.match(ticks[ticks.sym == "y"], fall)
    assert len(answer) == 0 and list(answer) == ["sym", "top", "low", "falls"]
    assert answer.dtypes.equals(rowmatch.match(ticks, fall).dtypes)


def test_no_rows(ticks, fall):
    answer = rowmatch.match(ticks.head(0), fall)
    assert len(answer) == 0 and list(answer) == ["sym", "top", "low", "falls"]


def test_the_data_are_left_alone(ticks, fall):
    ticks["price"] = ticks["price"].astype("float64").mask(ticks["price"] == 6)
    before = ticks.copy(deep=True)
    rowmatch.match(ticks, fall)
    rowmatch.match(ticks, fall.replace("PATTERN", "ALL ROWS PER MATCH PATTERN"))
    pd.testing.assert_frame_equal(ticks, before)


def test_what_is_taken_for_data(ticks, fall):
    class Foreign:
        def to_pandas(self):
            return ticks

    answer = rowmatch.match(ticks, fall)
    for data in (Foreign(), ticks.to_dict("list"), ticks.to_dict("records")):
        pd.testing.assert_frame_equal(rowmatch.match(data, fall), answer)
    with pytest.raises(TypeError, match="rowmatch.dask.match"):
        rowmatch.match(type("Lazy", (), {"map_partitions": None})(), fall)
    chunks = pd.read_csv(io.StringIO(ticks.to_csv(index=False)), chunksize=2)
    with pytest.raises(TypeError, match="chunks aren't one frame: pandas.concat makes one"):
        rowmatch.match(chunks, fall)
    pd.testing.assert_frame_equal(rowmatch.match(pd.concat(chunks), fall), answer)
    column = type("Column", (), {"to_pandas": lambda self: ticks["price"]})()
    assert len(rowmatch.match(column, "PATTERN (A) DEFINE A AS price > 0")) == len(ticks)


def test_what_is_beyond_64_bits_is_null():
    frame = pd.DataFrame({"p": [2**62, 2**62]})
    answer = rowmatch.match(
        frame, "MEASURES SUM(p) AS s, p * 4 AS m, COUNT(*) AS n PATTERN (A+) DEFINE A AS p > 0"
    )
    assert answer.iloc[0].tolist() == [pd.NA, pd.NA, 2]
    assert len(rowmatch.match(frame, "PATTERN (A) DEFINE A AS p * 4 > 0")) == 0


# Names


@pytest.mark.parametrize(
    "label, written",
    [
        ("price", "price"),
        ("price", '"price"'),
        ("Price", '"Price"'),
        ("Price", "PRICE"),
        ("net price", '"net price"'),
        ("order", '"order"'),
        ('a"b', '"a""b"'),
        ("é", '"é"'),
        (7, '"7"'),
        (("a", 1), "\"('a', 1)\""),
        (" Amount (EUR) ", '" Amount (EUR) "'),
        ("a,b", '"a,b"'),
        ("a\nb", '"a\nb"'),
    ],
)
def test_labels(label, written):
    frame = pd.DataFrame([[1], [5]])
    frame.columns = pd.Index([label], tupleize_cols=False)
    answer = rowmatch.match(
        frame,
        f"PARTITION BY {written} MEASURES COUNT(*) AS n PATTERN (A) DEFINE A AS {written} > 2",
    )
    assert list(answer) == [label, "n"] and answer.iloc[:, 0].tolist() == [5]


def test_labels_that_differ_by_case_alone_are_written_in_quotes():
    frame = pd.DataFrame({"p": [1, 2], "P": [4, 3]})
    assert rowmatch.match(
        frame, 'MEASURES LAST("p") AS a, LAST("P") AS b PATTERN (A B) DEFINE B AS "p" > PREV("p")'
    ).to_dict("records") == [{"a": 2, "b": 3}]
    with pytest.raises(DataError, match='any of the columns "p", "P"'):
        rowmatch.match(frame, "PATTERN (A) DEFINE A AS p = 1")


@pytest.mark.parametrize("key", [["x", "x"], [7, 7]])
def test_a_plain_and_a_quoted_name_of_one_column(key):
    frame = pd.DataFrame({"sym": key, "price": [1, 2], "Venue": ["a", "b"]})
    answer = rowmatch.match(
        frame,
        """PARTITION BY sym MEASURES LAST("price") AS a, "Venue" AS v, LAST("sym") AS s
        PATTERN (A B) DEFINE B AS price > PREV(Price) AND venue > 'a'""",
    )
    assert answer.to_dict("records") == [{"sym": key[0], "a": 2, "v": "b", "s": key[0]}]
    every = rowmatch.match(
        frame, 'ORDER BY "price" ALL ROWS PER MATCH PATTERN (A) DEFINE A AS price = 2'
    )
    assert every.to_dict("records") == [{"price": 2, "sym": key[0], "Venue": "b"}]


def test_texts_of_columns_that_differ_by_case_alone():
    frame = pd.DataFrame({"p": ["x", None], "P": ["", "y"], "row OF the frame": [1, 2]})
    clause = """MEASURES "p" AS a, "P" AS b, "row OF the frame" AS c ALL ROWS PER MATCH
        PATTERN (A) DEFINE A AS "p" = 'x' OR "P" = 'y'"""
    answer = rowmatch.match(frame, clause)[["a", "b", "c"]].astype(object)
    assert answer.where(answer.notna(), None).values.tolist() == [["x", "", 1], [None, "y", 2]]
    assert len(rowmatch.match(frame.head(0), clause)) == 0


@pytest.mark.parametrize("word", ["\ufeff", "\ufeffa", '\ufeff"a"', "\ufeff,", "a\ufeff"])
def test_a_byte_order_mark_is_part_of_a_text(word):
    for frame in (pd.DataFrame({"v": [word, word]}), pd.DataFrame({"v": [word], "w": [1]})):
        clause = f"MEASURES v AS value PATTERN (A) DEFINE A AS v = '{word}'"
        assert rowmatch.match(frame, clause)["value"].tolist() == frame["v"].tolist()


def test_names_of_measures_are_as_they_are_written():
    answer = rowmatch.match(
        pd.DataFrame({"p": [1]}),
        'MEASURES 1 AS first_try, 2 AS "Second Try", 3 AS LOUD PATTERN (A) DEFINE A AS p = 1',
    )
    assert list(answer) == ["first_try", "Second Try", "LOUD"]


def test_a_measure_with_a_columns_name_has_its_own_kind():
    frame = pd.DataFrame({"at": pd.to_datetime([1, 2], unit="s")})
    assert rowmatch.match(frame, "MEASURES COUNT(*) AS at PATTERN (A B) DEFINE B AS at > PREV(at)")[
        "at"
    ].tolist() == [2]


@pytest.mark.parametrize(
    "clause",
    [
        'MEASURES p + 1 AS p, p AS "p" PATTERN (A) DEFINE A AS p > 0',
        'PARTITION BY p MEASURES p + 1 AS "p" PATTERN (A) DEFINE A AS p > 0',
        'MEASURES p AS "x" ALL ROWS PER MATCH PATTERN (A) DEFINE A AS p > 0',
        'ORDER BY t MEASURES p AS "t" ALL ROWS PER MATCH PATTERN (A) DEFINE A AS p > 0',
        'MEASURES p AS "t" ALL ROWS PER MATCH PATTERN (A) DEFINE A AS p > 0',
        'PARTITION BY p, "p" PATTERN (A) DEFINE A AS x > 0',
        'PARTITION BY p ORDER BY x, "p" ALL ROWS PER MATCH PATTERN (A) DEFINE A AS x > 0',
    ],
)
def test_no_two_columns_of_the_answer_have_one_name(clause):
    frame = pd.DataFrame({"p": [1], "x": [2]}, index=pd.Index([1], name="t"))
    for ask in (rowmatch.match, rowmatch.check):
        with pytest.raises(ClauseError, match="two columns of the answer have the name") as caught:
            ask(frame, clause)
        assert caught.value.kind == "DoubleName"
    # One row per match has an index of its own, without a name.
    one = rowmatch.match(frame, 'MEASURES p AS "t" PATTERN (A) DEFINE A AS p > 0')
    assert one.reset_index()["t"].tolist() == [1]


def test_names_of_the_answer_that_differ_by_case_alone():
    answer = rowmatch.match(
        pd.DataFrame({"p": [1], "P": [2]}),
        'PARTITION BY "p" MEASURES "P" AS "P", 1 AS "x", 2 AS "X" PATTERN (A) DEFINE A AS "p" > 0',
    )
    assert answer.to_dict("records") == [{"p": 1, "P": 2, "x": 1, "X": 2}]


def test_a_column_goes_before_a_level_of_its_name():
    frame = pd.DataFrame({"t": [2, 1]}, index=pd.Index([10, 20], name="t"))
    answer = rowmatch.match(frame, "ORDER BY t MEASURES t AS u PATTERN (A) DEFINE A AS t > 0")
    assert answer["u"].tolist() == [1, 2]


def test_two_columns_with_one_name():
    frame = pd.DataFrame([[1, 2, 3]], columns=["p", "p", "q"])
    for plain in ("p", '"p"'):
        with pytest.raises(DataError, match="more than one column has the name 'p': give each"):
            rowmatch.match(frame, f"PATTERN (A) DEFINE A AS {plain} = 1")
    assert len(rowmatch.match(frame, "PATTERN (A) DEFINE A AS q = 3")) == 1


def test_columns_that_the_clause_does_not_name_may_hold_anything():
    frame = pd.DataFrame({"p": [1, 2], "x": [0.5, np.nan], "y": [object(), [1]], "": [1, 2]})
    assert len(rowmatch.match(frame, "PATTERN (A B) DEFINE B AS p > PREV(p)")) == 1


def test_a_frame_without_columns():
    for frame in (pd.DataFrame(index=[1, 2, 3]), pd.DataFrame({"": [1, 2, 3]})):
        every = rowmatch.match(frame, "ALL ROWS PER MATCH PATTERN (A B) DEFINE B AS 1 = 1")
        pd.testing.assert_frame_equal(every, frame.iloc[:2])
        assert rowmatch.check(frame, "PATTERN (A B) DEFINE B AS 1 = 1")
        with pytest.raises(DataError, match="no column that a clause can name"):
            rowmatch.match(frame, 'PATTERN (A B) DEFINE B AS "row of the frame" = 1')
        with pytest.raises(ClauseError, match="UnknownColumn") as caught:
            rowmatch.match(frame, "PATTERN (A B) DEFINE B AS p = 1")
        assert caught.value.help == []


def test_a_wide_frame():
    frame = pd.DataFrame(np.zeros((3, 2000)), columns=[f"c{n}" for n in range(2000)]).assign(p=1)
    assert len(rowmatch.match(frame, "PATTERN (A B) DEFINE B AS p = 1 AND C1999 = 0")) == 1


def test_a_clause_that_names_no_column():
    assert (
        len(rowmatch.match(pd.DataFrame({"p": [1, 2, 3]}), "PATTERN (A B) DEFINE B AS 1 = 1")) == 1
    )


def test_columns_in_levels():
    frame = pd.DataFrame(
        [[1, 2, 3]],
        columns=pd.MultiIndex.from_tuples(
            [("a", "x"), ("a", "y"), ("b", "x")], names=["one", "two"]
        ),
    )
    answer = rowmatch.match(
        frame,
        """PARTITION BY "('a', 'y')" ALL ROWS PER MATCH PATTERN (A) DEFINE A AS "('b', 'x')" = 3""",
    )
    assert answer.columns.tolist() == [
        ("a", "y"),
        ("a", "x"),
        ("b", "x"),
    ] and answer.columns.names == ["one", "two"]


def test_all_rows_by_levels_of_the_index():
    index = pd.MultiIndex.from_arrays([["b", "a", "b"], [3, 1, 2]], names=["k", "t"])
    frame = pd.DataFrame({"p": [1, 2, 3]}, index=index)
    answer = rowmatch.match(
        frame, "PARTITION BY k ORDER BY t ALL ROWS PER MATCH PATTERN (A+) DEFINE A AS p > 0"
    )
    assert list(answer) == ["p"] and answer["p"].tolist() == [3, 1, 2]
    assert answer.index.equals(index.take([2, 0, 1]))
    assert answer.sort_values("t")["p"].tolist() == [2, 3, 1]
    assert list(answer.reset_index()) == ["k", "t", "p"]


def test_levels_of_the_index_are_columns():
    frame = pd.DataFrame(
        {"p": [1, 3, 2]}, index=pd.Index(pd.to_datetime([3, 1, 2], unit="s", utc=True), name="at")
    )
    answer = rowmatch.match(
        frame,
        "ORDER BY at MEASURES LAST(at) AS z, LAST(p) AS p PATTERN (A B C) DEFINE B AS p < PREV(p)",
    )
    assert answer["z"].tolist() == [pd.Timestamp(3, unit="s", tz="UTC")] and answer[
        "p"
    ].tolist() == [1]


# Kinds


@pytest.mark.parametrize("dtype", ["int8", "int64", "uint8", "uint64", "Int32", "UInt64", "Int64"])
def test_whole_numbers(dtype):
    series = pd.Series([1, 127], dtype=dtype)
    assert value(series).tolist() == [1, 127]
    assert str(value(series).dtype).lower() == dtype.lower()


def test_the_greatest_numbers():
    series = pd.Series([2**63 - 1, -(2**63)], dtype="int64")
    assert value(series).tolist() == series.tolist()
    with pytest.raises(DataError, match="64 bits") as caught:
        value(pd.Series([1, 2**63], dtype="uint64"))
    assert (caught.value.column, caught.value.row) == ("v", 1)
    for dtype in ("uint64", "UInt64"):
        assert value(pd.Series([2**63 - 1, 0], dtype=dtype)).tolist() == [2**63 - 1, 0]
        with pytest.raises(DataError, match="64 bits") as caught:
            value(pd.Series([1, 2**63], dtype=dtype))
        assert (caught.value.column, caught.value.row) == ("v", 1)
    with pytest.raises(DataError, match="64 bits"):
        value(pd.Series([1, 2**70], dtype=object))
    both = pd.DataFrame(
        {"v": pd.array([2**63 - 1, None, -(2**63)], dtype="Int64"), "s": ["", "x", ""]}
    )
    for clause in (EVERY.format("v"), EVERY.format("v").replace("value", "value, A.s AS s")):
        assert rowmatch.match(both, clause)["value"].tolist() == [2**63 - 1, pd.NA, -(2**63)]


def test_nulls_of_whole_numbers():
    assert value(pd.Series([1, None, 3])).tolist()[::2] == [
        1,
        3,
    ]  # float64 since pandas has no other for it
    assert value(pd.Series([1, None, 3])).dtype == "float64"
    assert value(pd.Series([1, pd.NA], dtype="Int64")).isna().tolist() == [False, True]
    assert value(pd.Series([1, None, pd.NA, np.nan], dtype=object)).tolist()[0] == 1
    assert value(pd.Series([None, None], dtype="float64")).isna().all()


def test_a_null_is_unknown():
    frame = pd.DataFrame({"p": pd.array([1, None, 3], dtype="Int64")})
    assert len(rowmatch.match(frame, "PATTERN (A) DEFINE A AS p <> 9")) == 2
    assert len(rowmatch.match(frame, "PATTERN (A) DEFINE A AS p IS NULL")) == 1


def test_bools():
    assert value(pd.Series([True, False])).tolist() == [True, False]
    assert value(pd.Series([True, None], dtype="boolean")).isna().tolist() == [False, True]
    assert (
        len(rowmatch.match(pd.DataFrame({"on": [True, False]}), "PATTERN (A) DEFINE A AS on = 1"))
        == 1
    )


def test_fractions_have_to_be_told():
    series = pd.Series([0.29, 10.5, None])
    with pytest.raises(DataError, match=r"fractions, as 0.29.*decimal\(2\)"):
        value(series)
    assert value(series, columns={"v": "decimal(2)"}).tolist()[:2] == [0.29, 10.5]
    assert rowmatch.match(
        pd.DataFrame({"v": series}),
        "MEASURES SUM(v) AS s PATTERN (A+) DEFINE A AS v IS NULL OR v >= 29",
        columns={"v": "decimal(2)"},
    )["s"].tolist() == [1079]
    with pytest.raises(DataError, match="no decimal of 2 places") as caught:
        value(pd.Series([0.5, 0.125]), columns={"v": "decimal(2)"})
    assert caught.value.row == 1
    for odd in (np.inf, 1e300):
        with pytest.raises(DataError):
            value(pd.Series([0.5, odd]), columns={"v": "decimal(2)"})


def test_decimals():
    series = pd.Series([Decimal("0.29"), None, Decimal("-10.5")])
    with pytest.raises(DataError, match=r"decimals of up to 2 places.*decimal\(2\)"):
        value(series)
    assert value(series, columns={"v": "decimal(2)"}).tolist() == [
        Decimal("0.29"),
        None,
        Decimal("-10.50"),
    ]
    with pytest.raises(DataError, match="no decimal of 1 places"):
        value(series, columns={"v": "decimal(1)"})
    with pytest.raises(DataError):
        value(pd.Series([Decimal("Infinity"), Decimal(1)]), columns={"v": "decimal(1)"})


@pytest.mark.parametrize("zone", [None, "UTC", "Europe/Berlin"])
@pytest.mark.parametrize(
    "times, unit", [("seconds", "s"), ("millis", "ms"), ("micros", "us"), ("nanos", "ns")]
)
def test_times(zone, times, unit):
    series = pd.Series(
        pd.to_datetime(
            [
                -5,
                0,
                1_700_000_000_123_456_789 // 10 ** {"s": 9, "ms": 6, "us": 3, "ns": 0}[unit],
                None,
            ],
            unit=unit,
        )
    )
    series = series.dt.tz_localize("UTC").dt.tz_convert(zone) if zone else series
    back = value(series, times=times)
    pd.testing.assert_series_equal(back, series, check_names=False)


def test_times_in_the_clause_are_numbers_of_the_unit():
    frame = pd.DataFrame({"at": pd.to_datetime(["2024-01-05 09:30:00", "2024-01-05 09:30:20"])})
    for times, bound in (
        ("seconds", 20),
        ("millis", 20_000),
        ("micros", 20_000_000),
        ("nanos", 20_000_000_000),
    ):
        clause = "MEASURES B.at - A.at AS took PATTERN (A B) DEFINE B AS at - A.at <= {}"
        assert rowmatch.match(frame, clause.format(bound), times=times)["took"].tolist() == [bound]
        assert len(rowmatch.match(frame, clause.format(bound - 1), times=times)) == 0


def test_a_time_is_never_cut():
    series = pd.Series(pd.to_datetime(["2024-01-05 09:30:00", "2024-01-05 09:30:00.5"]))
    with pytest.raises(DataError, match="no whole number of seconds.*millis") as caught:
        value(series, times="seconds")
    assert caught.value.row == 1


def test_the_unit_that_is_to_be_said_is_fine_enough():
    for moments, unit in [
        (["2024-01-05 09:30:00.5", "1969-12-31 23:59:59.999"], "millis"),
        (["2024-01-05 09:30:00.5", "1960-01-01 00:00:00.000001"], "micros"),
        (["2024-01-05 09:30:00.5", "2024-01-05 09:30:00.000000001", None], "nanos"),
    ]:
        series = pd.Series(pd.to_datetime(moments))
        with pytest.raises(DataError, match=f"times='{unit}', .*counts in {unit} then") as caught:
            value(series, times="seconds")
        assert caught.value.row == 0
        assert value(series, times=unit).dropna().tolist() == series.dropna().tolist()


def test_dates_of_times():
    series = pd.Series(pd.to_datetime(["2024-01-05", None]))
    for times in (series, series.dt.tz_localize("Asia/Tokyo"), series.astype(object)):
        with pytest.raises(DataError, match=r"pandas.to_datetime\(..\).dt.date makes dates"):
            value(times, columns={"v": "date"})
        days = pd.to_datetime(times).dt.date
        assert value(days, columns={"v": "date"}).tolist()[0] == datetime.date(2024, 1, 5)


def test_the_hour_that_comes_twice():
    berlin = pd.to_datetime(
        ["2024-10-27T02:30:00+02:00", "2024-10-27T02:30:00+01:00"], utc=True
    ).tz_convert("Europe/Berlin")
    answer = rowmatch.match(
        pd.DataFrame({"at": berlin}),
        "MEASURES B.at - A.at AS took, B.at AS at PATTERN (A B) DEFINE B AS at > A.at",
        times="seconds",
    )
    assert answer["took"].tolist() == [3600] and answer["at"].tolist() == [berlin[1]]


def test_other_kinds_of_time():
    assert value(pd.Series(pd.to_timedelta([1, None], unit="s"))).tolist()[0] == pd.Timedelta(
        1, unit="s"
    )
    days = pd.Series([datetime.date(2024, 2, 29), None, datetime.date(1969, 12, 31)])
    assert value(days).tolist() == days.tolist()
    assert len(rowmatch.match(pd.DataFrame({"d": days}), "PATTERN (A) DEFINE A AS d < 0")) == 1


@pytest.mark.parametrize("dtype", [object, "string", "category"])
def test_texts(dtype):
    words = [
        "plain",
        'a "quoted", word',
        "two\nlines",
        "cr\rlf\r\n",
        "0042",
        "NA",
        "null",
        " blanks ",
        "zürich",
        "\U0001f980",
        "'",
        "a\tb",
        None,
    ]
    back = value(pd.Series(words, dtype=dtype))
    assert back.dtype.name == pd.Series(words, dtype=dtype).dtype.name
    assert [None if pd.isna(word) else word for word in back] == words


def test_texts_of_the_clause_and_classifiers_are_texts():
    answer = rowmatch.match(
        pd.DataFrame({"s": ["0042"]}),
        """MEASURES CLASSIFIER() AS c, '007' AS b, MIN(A.s) AS m, (A.s) AS k
        PATTERN (A) DEFINE A AS s = '0042'""",
    )
    assert answer.to_dict("records") == [{"c": "A", "b": "007", "m": "0042", "k": "0042"}]


def test_categories_that_no_row_has():
    assert value(pd.Series(["a"]).astype(pd.CategoricalDtype(["", "a", "\0"]))).tolist() == ["a"]


@pytest.mark.parametrize("dtype", [object, "string", "category"])
def test_an_empty_text_is_no_null(dtype):
    words = ["", "a", None, "\\N", "\\NN", "a\0b", "\0"]
    if dtype == "category":
        words = words[:5]  # pandas itself takes a category up to its first NUL
    back = value(pd.Series(words, dtype=dtype))
    assert [None if pd.isna(word) else word for word in back] == words
    frame = pd.DataFrame({"t": range(len(words)), "s": pd.Series(words, dtype=dtype)})
    for condition, rows in [
        ("s <> 'a'", [0, 3, 4, 5, 6]),
        ("s = ''", [0]),
        ("s IS NULL", [2]),
        ("s >= ''", [0, 1, 3, 4, 5, 6]),
    ]:
        answer = rowmatch.match(frame, f"MEASURES t AS t PATTERN (A) DEFINE A AS {condition}")
        assert answer["t"].tolist() == [row for row in rows if row < len(words)], condition


def test_texts_that_differ_behind_nul_alone():
    frame = pd.DataFrame({"s": ["a", "a\0b", "a\0c"]})
    answer = rowmatch.match(
        frame, "PARTITION BY s MEASURES COUNT(*) AS n PATTERN (A+) DEFINE A AS 1 = 1"
    )
    assert answer.values.tolist() == [["a", 1], ["a\0b", 1], ["a\0c", 1]]


def test_texts_that_are_not_read_do_no_harm():
    words = ['a\0"b\n', "\0,", '"\0', "", None, "\0\n\0", "\r\0\n", "x"] * 3
    frame = pd.DataFrame({"s": words, "t": range(len(words))})
    clause = """ORDER BY t MEASURES COUNT(*) AS n, t AS u ALL ROWS PER MATCH
        PATTERN (A+) DEFINE A AS s IS NULL OR s <> 'q'"""
    answer = rowmatch.match(frame, clause)
    pd.testing.assert_frame_equal(answer[["s", "t"]], frame)
    assert (
        answer["n"].tolist() == [n + 1 for n in frame["t"]]
        and answer["u"].tolist() == frame["t"].tolist()
    )


def test_an_empty_text_and_a_null_are_two_keys():
    frame = pd.DataFrame({"k": ["", None, "", None, "x"]})
    answer = rowmatch.match(
        frame, "PARTITION BY k MEASURES COUNT(*) AS n, '' AS e PATTERN (A+) DEFINE A AS 1 = 1"
    )
    assert answer.values.tolist() == [["", 2, ""], [None, 2, ""], ["x", 1, ""]]


@pytest.mark.parametrize(
    "bad",
    [
        [1, "a"],
        [object()],
        [b"x"],
        [1j],
        ["\ud800"],
        [pd.Interval(0, 1)],
        [pd.Period("2024")],
        [datetime.time(1)],
        pd.arrays.SparseArray([1, 2]),
        [b"x", None],
        [[1], [2]],
    ],
)
def test_what_cannot_be_handed_over(bad):
    with pytest.raises(DataError) as caught:
        value(pd.Series(bad))
    assert caught.value.column == "v"


@pytest.mark.parametrize(
    "bad, row, message",
    [
        (["a", None, 1], 2, "several kinds, as 'a' and 1: .map(str, na_action='ignore')"),
        ([1, "a" * 100], 1, f"as 1 and '{'a' * 59}..: "),
        ([{}, {}], 0, "has {}, which is neither a number, a text nor a time"),
        ([b"x", None], 0, ": .str.decode('utf-8')"),
        ([pd.NaT, datetime.time(1)], 1, ": pandas.to_timedelta of .map(str, na_action='ignore')"),
        ([pd.Period("2024"), None], 0, ": .dt.to_timestamp()"),
        (pd.Series([], dtype="period[M]"), None, "has the dtype period[M]"),
        ([1j, 2j], 0, "has 1j, which is neither"),
        ([None, uuid.UUID(int=7)], 1, "nor a time: .map(str, na_action='ignore') makes texts of"),
        ([None, pd.Interval(0, 1)], 1, "nor a time: .map(str, na_action='ignore') makes texts"),
        ([1, None, True, 0], 2, "has bools among its whole numbers, as True: .astype('Int64')"),
        ([0.5, np.inf], 1, "has inf, which is no number that can be handed over"),
        ([Decimal(1), Decimal("-Infinity")], 1, "has -Infinity, which is no number that can be"),
    ],
)
def test_the_first_value_that_cannot_be_handed_over_is_named(bad, row, message):
    with pytest.raises(DataError) as caught:
        value(pd.Series(bad))
    assert message in str(caught.value) and caught.value.row == row


def test_what_makes_keys_of_other_values():
    frame = pd.DataFrame({"v": pd.cut([1, 20, np.nan, 2], [0, 10, 100])})
    count = "PARTITION BY v MEASURES COUNT(*) AS n PATTERN (A+) DEFINE A AS 1 = 1"
    with pytest.raises(DataError, match=r"nor a time: \.astype\(object\)\.map\(str, na_action="):
        rowmatch.match(frame, count)
    frame = frame.assign(v=frame["v"].astype(object).map(str, na_action="ignore"))
    answer = rowmatch.match(frame, count)
    assert answer["v"].tolist()[:2] == ["(0, 10]", "(10, 100]"] and answer["v"].isna()[2]
    assert answer["n"].tolist() == [2, 1, 1]
    mixed = pd.Series([1, None, True, np.bool_(False)], dtype=object).astype("Int64")
    assert value(mixed).tolist() == [1, pd.NA, 1, 0]


@pytest.mark.parametrize("name", ["n" * 129, "ä" * 65, 'a"' + "b" * 127])
def test_a_name_that_is_too_long(name):
    clause = "MEASURES {} AS v PATTERN (A) DEFINE A AS 1 = 1"
    quoted = '"' + name.replace('"', '""') + '"'
    frame = pd.DataFrame({name: [1], "x": [2]})
    for written in (quoted, name) if name.isascii() and name.isalnum() else (quoted,):
        with pytest.raises(ClauseError) as caught:
            rowmatch.match(frame, clause.format(written))
        size = len(name.encode())
        assert f"a name has 128 bytes at most, and this one {size}: " in caught.value.help[0]
    short = frame.rename(columns={name: "n" * 128})
    assert rowmatch.match(short, clause.format("n" * 128))["v"].tolist() == [1]


def test_what_is_to_be_written_makes_of_values_what_can_be_handed_over():
    mixed = pd.Series(["a", None, 1], dtype=object)
    assert value(mixed.map(str, na_action="ignore")).tolist() == ["a", None, "1"]
    times = pd.Series([None, datetime.time(1, 2)], dtype=object)
    lengths = pd.to_timedelta(times.map(str, na_action="ignore"))
    assert value(lengths).tolist()[1] == pd.Timedelta("1h2min")
    periods = pd.Series([pd.Period("2024"), None])
    assert value(periods.dt.to_timestamp()).tolist()[0] == pd.Timestamp("2024-01-01")
    texts = pd.Series([b"x", None]).str.decode("utf-8")
    assert value(texts).tolist() == ["x", None]


@pytest.mark.parametrize(
    "series, fault, said, write",
    [
        ([0.123, 0.1, None], r"fractions, as 0.123: say .*'decimal\(3\)'", "decimal(3)", None),
        ([0.5, 1.5], r"fractions, as 0.5: say .*'decimal\(2\)'", "decimal(2)", None),
        ([1e13, 0.5], r"fractions, as 0.5: say .*'decimal\(1\)'", "decimal(1)", None),
        ([0.1 + 0.2, 0.1], r"round them, .round\(2\), and .*'decimal\(2\)'", "decimal(2)", "round"),
        ([Decimal("1E+3"), Decimal(1)], r"0 places: say .*'decimal\(0\)'", "decimal(0)", None),
        ([Decimal(1), 1.25, True], r"2 places: say .*'decimal\(2\)'", "decimal(2)", None),
        ([2**60 + 1, 1.0], r"0 places: say .*'decimal\(0\)'", "decimal(0)", None),
        ([Decimal("0.00"), Decimal("1.50")], r"2 places: say .*'decimal\(2\)'", "decimal(2)", None),
        ([Decimal("1.10"), 2, 2.5], r"2 places: say .*'decimal\(2\)'", "decimal(2)", None),
        # With 2 places this one is beyond 64 bits.
        ([Decimal("922337203685477580.7")], r"up to 1 places: say ", "decimal(1)", None),
        ([Decimal(1) / 3, None], r"28 places: round them, .*'decimal\(2\)'", "decimal(2)", "map"),
    ],
)
def test_the_places_that_are_to_be_said_are_enough(series, fault, said, write):
    series = pd.Series(series, dtype="float64" if isinstance(series[0], float) else object)
    with pytest.raises(DataError, match=fault):
        value(series)
    if write:
        with pytest.raises(DataError, match=r"no decimal of 2 places .*: round them first"):
            value(series, columns={"v": said})
        rounded = series.map(lambda it: round(it, 2), na_action="ignore")
        series = series.round(2) if write == "round" else rounded
    known = series.dropna().tolist()
    assert value(series, columns={"v": said}).dropna().tolist() == known


@pytest.mark.parametrize("kind", [float, Decimal])
def test_more_places_are_named_where_they_are_enough(kind):
    series = pd.Series([kind("0.5"), None, kind("1.234")])
    with pytest.raises(DataError, match=r"has 1.234, which .*: 'decimal\(3\)' takes") as caught:
        value(series, columns={"v": "decimal(2)"})
    assert caught.value.row == 2
    assert value(series, columns={"v": "decimal(3)"}).dropna().tolist() == series.dropna().tolist()


def test_columns_says_how():
    frame = pd.DataFrame({"t": pd.to_datetime(["2024-01-05"]), "n": ["7"]})
    assert (
        len(
            rowmatch.match(
                frame, "PATTERN (A) DEFINE A AS t = 1704412800", columns={"t": "seconds"}
            )
        )
        == 1
    )
    for columns in (
        {"zip": "int"},
        {"t": "fortnights"},
        {"t": "decimal(19)"},
        {"t": 2},
        {"t": None},
        {"t": "decimal"},
        {"n": "seconds"},
        {"n": "int"},
        {"n": "decimal(2)"},
        {"n": "date"},
        {"t": "int"},
        {"t": "text"},
        {"t": "date"},
    ):
        with pytest.raises(DataError):
            rowmatch.match(
                frame, "MEASURES A.t AS t, A.n AS n PATTERN (A) DEFINE A AS 1 = 1", columns=columns
            )
    with pytest.raises(ValueError):
        rowmatch.match(frame, "PATTERN (A) DEFINE A AS t = 1", times="fortnights")
    for no_mapping in (["t"], "seconds"):
        with pytest.raises(TypeError, match="is no mapping, as {'price': 'decimal\\(2\\)'} is one"):
            rowmatch.match(frame, "PATTERN (A) DEFINE A AS t = 1", columns=no_mapping)
    with pytest.raises(DataError, match="no such column: write 't'"):
        rowmatch.match(frame, "PATTERN (A) DEFINE A AS t = 1", columns={"T": "seconds"})


def test_a_way_that_the_clause_contradicts():
    frame = pd.DataFrame({"n": ["7"]})
    with pytest.raises(ClauseError, match="KindMismatch"):
        rowmatch.match(frame, "PATTERN (A) DEFINE A AS n = 'x'", columns={"n": "seconds"})


def test_decimals_of_whole_numbers_and_small_floats():
    for dtype in ("int64", "Int64", "float32", "Float64"):
        series = pd.Series([3, 7], dtype=dtype)
        assert value(series, columns={"v": "decimal(2)"}).tolist() == [3, 7]
        assert (
            len(
                rowmatch.match(
                    pd.DataFrame({"v": series}),
                    "PATTERN (A) DEFINE A AS v = 700",
                    columns={"v": "decimal(2)"},
                )
            )
            == 1
        )
    series = pd.Series([0.29, 1234.5], dtype="float32")
    assert value(series, columns={"v": "decimal(2)"}).tolist() == series.tolist()
    with pytest.raises(DataError, match="no decimal of 2 places"):
        value(pd.Series([2**63 - 1]), columns={"v": "decimal(2)"})


def test_columns_that_are_compared_want_as_many_places():
    frame = pd.DataFrame({"amount": [99.5, 100.5], "limit": [100, 100], "paid": [True, False]})
    clause = "MEASURES amount AS a PATTERN (A) DEFINE A AS amount > {} AND paid = 0"
    places = {"amount": "decimal(2)", "limit": "decimal(2)"}
    assert rowmatch.match(frame, clause.format('"LIMIT"'), columns=places)["a"].tolist() == [100.5]


def test_a_name_in_quotes_and_upper_case_is_a_plain_one():
    every = "MEASURES A.{} AS v PATTERN (A) DEFINE A AS 1 = 1"
    assert rowmatch.match(pd.DataFrame({"p": [1]}), every.format('"P"'))["v"].tolist() == [1]
    both = pd.DataFrame({"p": [1], "P": [2]})
    assert rowmatch.match(both, every.format('"P"'))["v"].tolist() == [2]
    with pytest.raises(ClauseError, match="UnknownColumn"):
        rowmatch.match(pd.DataFrame({"Price": [1]}), every.format('"price"'))


def test_no_decimal_is_taken_for_its_neighbour():
    # above 10^13 two decimals of 2 places may have one float
    far = pd.Series([9_999_999_999_999.99, 9_999_999_999_999.98])
    assert value(far, columns={"v": "decimal(2)"}).tolist() == far.tolist()
    with pytest.raises(DataError, match="more digits, with 2 places, than the 15 that a float"):
        value(pd.Series([10_000_000_000_000.01]), columns={"v": "decimal(2)"})
    with pytest.raises(DataError, match="no decimal of 2 places"):
        value(
            pd.Series([Decimal("0.10000000000000000000000000000000000001")]),
            columns={"v": "decimal(2)"},
        )


def test_whole_floats():
    assert value(pd.Series([2.0**53, -1.0, None])).tolist()[:2] == [2.0**53, -1.0]
    assert value(pd.Series([3.0, 4.0], dtype="float32")).dtype == "float32"
    for odd in (np.inf, -np.inf, 1e300, 2.0**63):
        fault = "no number that can be" if np.isinf(odd) else "64 bits"
        with pytest.raises(DataError, match=fault):
            value(pd.Series([1.0, odd]))
    with pytest.raises(DataError, match="floats as objects"):
        value(pd.Series([1.5, 2.0], dtype=object))


def test_categories_of_other_kinds():
    for values in (
        [3, 1, None],
        [0.5, 2.0, None],
        list(pd.to_datetime(["2024-01-01", "2024-01-02", None])),
    ):
        series = pd.Series(values, dtype="category")
        back = value(series, columns={"v": "decimal(2)"} if 0.5 in values else None)
        pd.testing.assert_series_equal(back, series, check_names=False)
    for values, fault in [([1, 1, 2**64], "64 bits"), ([2.0, 2.0, 0.5], "fractions")]:
        with pytest.raises(DataError, match=fault) as caught:
            value(pd.Series(values, dtype="category"))
        assert (caught.value.column, caught.value.row) == ("v", 2)


@pytest.mark.parametrize(
    "values",
    [
        [0.29, None, 10.5],
        [3, None, -1],
        [Decimal("0.29"), Decimal("-10.5"), Decimal("1.000")],
        [0.25, 1, Decimal("0.5"), None, False],
        [np.float64(0.29), np.int64(3)],
    ],
)
def test_objects_of_decimals_come_back_as_they_were(values):
    for dtype in (object, pd.CategoricalDtype([it for it in values if it is not None])):
        series = pd.Series(values, dtype=dtype)
        known = series.dropna()
        back = value(series, columns={"v": "decimal(2)"}).dropna()
        assert back.tolist() == known.tolist()
        assert [type(it) for it in back] == [type(it) for it in known]


def test_objects_of_decimals_find_their_rows_again():
    frame = pd.DataFrame({"fee": pd.Series([0.29, 1.1, 0.29, None], dtype=object), "n": range(4)})
    clause = """PARTITION BY fee MEASURES COUNT(*) AS c, LAST(fee) AS d
        PATTERN (A+) DEFINE A AS n < 3"""
    answer = rowmatch.match(frame, clause, columns={"fee": "decimal(2)"})
    assert answer.values.tolist() == [[0.29, 2, 0.29], [1.1, 1, 1.1]]
    assert frame.merge(answer, on="fee")["n"].tolist() == [0, 2, 1]


def test_of_equal_objects_the_first_one_comes_back():
    series = pd.Series([0.5, Decimal("0.50"), 1, 1.0], dtype=object)
    back = value(series, columns={"v": "decimal(2)"})
    assert back.tolist() == [0.5, 0.5, 1, 1]
    assert [type(it) for it in back] == [float, float, int, int]


@pytest.mark.parametrize(
    "values",
    [[1, pd.NaT], [pd.NaT, "a"], [datetime.date(2024, 1, 1), pd.NaT], [True, pd.NaT], [pd.NaT]]
    + [[np.datetime64("NaT"), 7], [np.nan, pd.NaT, pd.NA, None]],
)
def test_every_null_among_objects(values):
    back = value(pd.Series(values, dtype=object))
    assert back.tolist() == [None if pd.isna(it) else it for it in values]
    frame = pd.DataFrame({"v": pd.Series(values, dtype=object), "n": range(len(values))})
    answer = rowmatch.match(frame, "MEASURES n AS n PATTERN (A) DEFINE A AS v IS NULL")
    assert answer["n"].tolist() == [n for n, it in enumerate(values) if pd.isna(it)]


@pytest.mark.parametrize("dtype", ["Float64", "Float32"])
@pytest.mark.parametrize("columns", [None, {"v": "decimal(2)"}])
def test_nan_among_numbers_that_have_nulls(dtype, columns):
    series = pd.Series([0, 4, None, 9], dtype=dtype) / pd.Series([0, 2, 1, 3], dtype=dtype)
    assert series.isna().tolist() == [False, False, True, False]  # 0/0 is no null for pandas
    back = value(series, columns=columns)
    assert back.isna().tolist() == [True, False, True, False] and back.dtype == dtype
    assert back.dropna().tolist() == [2, 3]
    frame = pd.DataFrame({"v": series, "n": range(4)})
    for condition, rows in [("v IS NULL", [0, 2]), ("v >= 0", [1, 3]), ("v <> 7", [1, 3])]:
        clause = f"MEASURES n AS n PATTERN (A) DEFINE A AS {condition}"
        assert rowmatch.match(frame, clause, columns=columns)["n"].tolist() == rows, condition


@pytest.mark.parametrize(
    "categories, number",
    [(["a"], "''"), ([7, 2**40], 0), ([datetime.date(2024, 1, 1)], 0), ([True], 0), ([0.5], 0)]
    + [(pd.to_datetime(["2024-01-01"]), 0), ([1, "a"], 0), (["a", 1], "''"), ([], "''")],
)
@pytest.mark.parametrize("rows", [2, 0])
def test_categories_of_which_no_row_has_any(categories, number, rows):
    series = pd.Series([None] * rows, dtype=pd.CategoricalDtype(categories))
    frame = pd.DataFrame({"v": series, "n": range(rows)})
    clause = f"MEASURES v AS v, n AS n PATTERN (A) DEFINE A AS v IS NULL OR v = {number}"
    answer = rowmatch.match(frame, clause)
    pd.testing.assert_frame_equal(answer, frame.astype({"n": "Int64"}))


@pytest.mark.parametrize(
    "categories", [[1, "a"], ["a", 1], ["a", datetime.date(2024, 1, 1)], [True, "a"]]
)
def test_mixed_categories(categories):
    for one in categories:
        series = pd.Series([one, None], dtype=pd.CategoricalDtype(categories))
        pd.testing.assert_series_equal(value(series), series, check_names=False)
    with pytest.raises(DataError, match="values of several kinds, as .* and ") as caught:
        value(pd.Series(categories, dtype="category"))
    assert caught.value.row in (0, 1)


def test_a_category_is_ordered_as_its_texts():
    sizes = pd.CategoricalDtype(["S", "M", "L"], ordered=True)
    frame = pd.DataFrame({"size": pd.Series(["S", "L", "M"], dtype=sizes)})
    clause = """ORDER BY size MEASURES MAX(size) AS most, FIRST(size) AS least
        PATTERN (A B C) DEFINE B AS size > PREV(size)"""
    assert rowmatch.match(frame, clause).values.tolist() == [["S", "L"]]


def test_objects_come_back_as_they_were():
    assert value(pd.Series([True, None, False], dtype=object)).tolist() == [True, None, False]
    assert value(pd.Series([2**40, None, -1], dtype=object)).tolist() == [2**40, None, -1]


# Rows


def test_all_rows_keep_index_order_and_what_was_not_handed_over():
    frame = pd.DataFrame(
        {"x": [0.5, 0.25, 0.125], "t": [3, 1, 2], "k": ["b", "a", "a"]},
        index=["three", "one", "two"],
    )
    answer = rowmatch.match(
        frame,
        """PARTITION BY k ORDER BY t MEASURES COUNT(*) AS n ALL ROWS PER MATCH
        PATTERN (A+) DEFINE A AS t > 0""",
    )
    assert list(answer) == ["k", "t", "n", "x"] and answer.index.tolist() == ["three", "one", "two"]
    assert answer["n"].tolist() == [1, 1, 2] and answer["x"].tolist() == [0.5, 0.25, 0.125]
    assert answer["t"].dtype == "int64"


def test_unmatched_rows():
    answer = rowmatch.match(
        pd.DataFrame({"p": [1, 9, 1]}),
        """MEASURES COUNT(*) AS c ALL ROWS PER MATCH WITH UNMATCHED ROWS
        PATTERN (A) DEFINE A AS p > 5""",
    )
    assert answer["c"].isna().tolist() == [True, False, True] and answer["p"].tolist() == [1, 9, 1]


def test_a_column_that_is_named_as_the_hidden_one():
    frame = pd.DataFrame({"row of the frame": [5, 6]})
    answer = rowmatch.match(
        frame, 'ALL ROWS PER MATCH PATTERN (A) DEFINE A AS "row of the frame" = 6'
    )
    assert answer.to_dict("records") == [{"row of the frame": 6}]


def test_ties_stay_in_the_frames_order():
    answer = rowmatch.match(
        pd.DataFrame({"t": [1, 1, 1], "v": [3, 1, 2]}),
        "ORDER BY t ALL ROWS PER MATCH PATTERN (A+) DEFINE A AS v > 0",
    )
    assert answer["v"].tolist() == [3, 1, 2]


def test_empty_matches():
    assert rowmatch.match(
        pd.DataFrame({"p": [1]}), "MEASURES LAST(A.p) AS z PATTERN (A*) DEFINE A AS p > 5"
    )["z"].isna().tolist() == [True]


def test_partitions_with_null_keys():
    frame = pd.DataFrame({"k": ["a", None, "a", None]})
    assert rowmatch.match(
        frame, "PARTITION BY k MEASURES COUNT(*) AS n PATTERN (A+) DEFINE A AS 1 = 1"
    ).values.tolist() == [["a", 2], [None, 2]]


# Faults


def test_a_wrong_clause_has_its_place(ticks):
    clause = "PARTITION BY sym\n  -- é\n  PATTERN (A) DEFINE A AS prise = 1"
    with pytest.raises(ClauseError) as caught:
        rowmatch.match(ticks, clause)
    error = caught.value
    assert (error.kind, error.line, error.column) == ("UnknownColumn", 3, 27)
    assert clause[error.offset :].startswith("prise")
    assert error.help == ["write price", "the columns are sym, t, price"] and "^^^^^" in str(error)


def test_a_fault_is_shown_with_its_line():
    frame = pd.DataFrame({"p": [1]})
    with pytest.raises(ClauseError) as caught:
        rowmatch.match(frame, "PATTERN (A)\n\tDEFINE A AS 'é' = q")
    assert str(caught.value).splitlines()[1:3] == [
        "  2 | \tDEFINE A AS 'é' = q",
        "    | \t                  ^ the table has no column q",
    ]
    for clause, kind, offset in [
        ("PATTERN (A", "Expected", 10),
        ("\ud800", "BadChar", 0),
        ("PATTERN (A)\n DEFINE", "Expected", 19),
    ]:
        with pytest.raises(ClauseError, match=kind) as caught:
            rowmatch.match(frame, clause)
        assert caught.value.offset == offset


def test_a_fault_in_a_very_long_line_is_shown_with_its_surroundings():
    frame = pd.DataFrame({"p": [1]})
    long = " OR ".join(["p = 1"] * 1000)
    for clause in (
        f"PATTERN (A) DEFINE A AS q = 1 OR {long}",
        f"PATTERN (A) DEFINE A AS {long} OR q = 1",
        f"PATTERN (A) DEFINE A AS {long} OR q = 1 OR {long}",
    ):
        with pytest.raises(ClauseError) as caught:
            rowmatch.match(frame, clause)
        shown, mark = str(caught.value).splitlines()[1:3]
        assert shown[mark.index("^")] == "q" and len(shown) < 200 and ".." in shown


def test_a_clause_is_a_text():
    with pytest.raises(TypeError, match="bytes"):
        rowmatch.match(pd.DataFrame({"p": [1]}), b"PATTERN (A) DEFINE A AS p = 1")


def test_errors_go_from_process_to_process(ticks):
    for clause, options in [
        ("PATTERN (A", {}),
        ("PATTERN (A) DEFINE A AS t = 1", {"columns": {"t": "text"}}),
        ("AFTER MATCH SKIP TO A PATTERN (A B) DEFINE A AS 1 = 1", {}),
    ]:
        with pytest.raises(rowmatch.RowmatchError) as caught:
            rowmatch.match(ticks, clause, **options)
        again = pickle.loads(pickle.dumps(caught.value))
        assert type(again) is type(caught.value) and str(again) == str(caught.value)
        assert again.__dict__.keys() == caught.value.__dict__.keys()


def test_check(ticks, fall):
    assert "output: sym text, top int, low int, falls int" in rowmatch.check(ticks, fall)
    with pytest.raises(ClauseError, match="Expected"):
        rowmatch.check(ticks, "PATTERN (A DEFINE A AS price = 1")


def test_skip_faults():
    frame = pd.DataFrame({"k": ["u", "v", "v"], "p": [1, 1, 2]})
    clause = """PARTITION BY k MEASURES LAST(p) AS z AFTER MATCH SKIP TO FIRST B
        PATTERN (A B?) DEFINE B AS p > PREV(p)"""
    with pytest.raises(SkipFault) as caught:
        rowmatch.match(frame, clause)
    assert caught.value.faults == [(["u"], "SkipNoRow"), (["v"], "SkipNoRow")]
    assert caught.value.answer["z"].tolist() == [1, 2, 2]
    with pytest.warns(UserWarning, match="SkipNoRow"):
        assert len(rowmatch.match(frame, clause, on_skip_fault="warn")) == 3
    assert len(rowmatch.match(frame, clause, on_skip_fault="ignore")) == 3


@pytest.mark.parametrize("key", ["a\u2028b", "a\x85b", "\x0b", 'a"], [1', "a\nb", ""])
def test_skip_faults_of_odd_keys(key):
    frame = pd.DataFrame({"k": [key, "v"], "p": [1, 1]})
    clause = "PARTITION BY k AFTER MATCH SKIP TO FIRST B PATTERN (A B?) DEFINE B AS p > PREV(p)"
    with pytest.raises(SkipFault) as caught:
        rowmatch.match(frame, clause)
    assert caught.value.faults == [([key], "SkipNoRow"), (["v"], "SkipNoRow")]


def test_a_long_clause():
    many = " OR ".join(f"p = {n}" for n in range(20_000))
    assert (
        len(rowmatch.match(pd.DataFrame({"p": [7, 30_000]}), f"PATTERN (A) DEFINE A AS {many}"))
        == 1
    )


def test_many_rows():
    frame = pd.DataFrame({"p": np.arange(200_000)})
    answer = rowmatch.match(frame, "ALL ROWS PER MATCH PATTERN (A) DEFINE A AS p >= 0")
    assert answer["p"].tolist() == frame["p"].tolist()


ABOVE = "MEASURES A.bid AS bid PATTERN (A) DEFINE A AS bid > ask"


@pytest.mark.parametrize(
    "ways, told",
    [
        (
            {"bid": "decimal(2)", "ask": "decimal(3)"},
            "bid is in units of 1/100 and ask in units of 1/1000, and they are compared",
        ),
        ({"bid": "decimal(1)"}, "ask is in units of 1 and bid in units of 1/10, and they are"),
    ],
)
def test_columns_of_different_units_are_warned_of(ways, told):
    quotes = pd.DataFrame({"bid": [1.5], "ask": [1.0]})
    with pytest.warns(UserWarning, match=told):
        rowmatch.match(quotes, ABOVE, columns=ways)


def test_times_of_different_units_are_warned_of():
    days = pd.to_datetime(["2024-01-05", "2024-01-06"])
    spans = pd.DataFrame({"bid": days[:1], "ask": days[1:]})
    told = "bid is in seconds since 1970 and ask in millionths of a second since 1970"
    with pytest.warns(UserWarning, match=told):
        rowmatch.match(spans, ABOVE, columns={"bid": "seconds"})


MIXED = [
    (
        datetime.date(2024, 1, 6),
        pd.Timestamp("2024-01-05"),
        {},
        "bid is in days since 1970 and ask in millionths of a second since 1970, and they are",
    ),
    (
        pd.Timestamp("2024-01-06"),
        pd.Timestamp("2024-01-05"),
        {"ask": "nanos"},
        "bid is in millionths of a second since 1970 and ask in billionths of a second since 1970, "
        "and they are compared or added as they are: read both by nanos",
    ),
    (
        pd.Timestamp("2024-01-06", tz="Europe/Berlin"),
        pd.Timestamp("2024-01-05"),
        {},
        "ask has no time zone and counts as its clock shows it, and bid has one and counts in UTC, "
        "and they are compared or added as they are: .dt.tz_localize gives ask its zone",
    ),
]


@pytest.mark.parametrize("dtype", [None, "category"])
@pytest.mark.parametrize("bid, ask, ways, told", MIXED)
def test_times_that_count_otherwise_are_warned_of(bid, ask, ways, told, dtype):
    spans = pd.DataFrame({"bid": [None, bid], "ask": [ask, ask], "other": [bid, bid]})
    if dtype is not None:
        spans = spans.astype({"bid": dtype, "ask": dtype})
    with pytest.warns(UserWarning, match=re.escape(told)) as warned:
        rowmatch.match(spans, ABOVE, columns=ways)
    assert len(warned) == 1


@pytest.mark.parametrize("bid, ask, ways, told", MIXED)
def test_check_says_so(bid, ask, ways, told, recwarn):
    spans = pd.DataFrame({"bid": [bid], "ask": [ask]})
    said = rowmatch.check(spans, ABOVE, columns=ways).split("\n")
    assert said[-1] == "" and said[-2].startswith(told)
    assert not any(line.startswith("bid is") for line in said[:-2])
    assert not recwarn.list


@pytest.mark.parametrize("bid, ask, ways, _", MIXED)
def test_where_they_are_not_compared_nothing_is_warned_of(bid, ask, ways, _, recwarn):
    spans = pd.DataFrame({"bid": [bid], "ask": [ask]})
    rowmatch.match(spans, "PATTERN (A) DEFINE A AS bid > 0 AND ask > 0", columns=ways)
    assert not recwarn.list


NEAR = "outcome is compared with 'fail', which no row has; 2 rows have 'FAIL', and capitals count"
FAILED = "PATTERN (A B) DEFINE A AS outcome = 'fail', B AS outcome = 'ok'"


@pytest.mark.parametrize("measures", ["", "MEASURES A.t AS t ", "MEASURES '' AS none "])
@pytest.mark.parametrize("timeout", [None, 60])
@pytest.mark.parametrize("dtype", [object, "category"])
def test_texts_that_are_nearly_equal_are_warned_of(measures, timeout, dtype):
    logins = pd.DataFrame({"t": [1, 2, 3], "outcome": ["FAIL", "FAIL", "ok"]})
    with pytest.warns(UserWarning, match=re.escape(NEAR)) as warned:
        answer = rowmatch.match(
            logins.astype({"outcome": dtype}), measures + FAILED, timeout=timeout
        )
    assert len(warned) == 1 and len(answer) == 0


def test_check_says_what_is_to_be_known_of_the_rows(recwarn):
    logins = pd.DataFrame(
        {
            "account": ["eve", "eve", "Eve", None],
            "t": pd.to_datetime(["2024-01-05", "2024-01-05", "2024-01-06", None]),
            "outcome": ["FAIL", None, "ok", "ok"],
            "unread": [1.5, 2.5, 3.5, 4.5],
        }
    )
    clause = "PARTITION BY account ORDER BY t PATTERN (A B) DEFINE A AS outcome <> 'fail', "
    said = rowmatch.check(logins, clause + "B AS outcome = 'new'").split("\n")
    assert said[-8:] == [
        "outcome is null in 1 row, and null is neither equal nor unequal (<>): to take them too "
        "write (outcome <> 'fail' OR outcome IS NULL)",
        NEAR.replace("2 rows have", "1 row has") + ": write it so",
        "outcome is compared with 'new', which no row has; rows have 'FAIL', 'ok'",
        "account is null in 1 row, and null is a key like any other",
        "t is null in 1 row, which ORDER BY puts last",
        '["eve"] and ["Eve"] are two partitions, since capitals and blanks count',
        "ORDER BY doesn't tell all rows apart: 1 row has the values of the row before, as "
        '[1704412800000000] in partition ["eve"], and stays after it in the order of the input',
        "",
    ]
    assert not recwarn.list


def test_check_says_why_rows_cannot_be_handed_over():
    prices = pd.DataFrame({"price": [1.5, 2.25]})
    clause = "PATTERN (A B) DEFINE B AS price < PREV(price)"
    said = rowmatch.check(prices, clause)
    with pytest.raises(rowmatch.DataError) as refused:
        rowmatch.match(prices, clause)
    assert said.endswith(f"\n{refused.value}\n")
    assert (
        rowmatch.check(prices, clause, columns={"price": "decimal(2)"}) + f"{refused.value}\n"
        == said
    )


def test_check_of_rows_of_which_nothing_is_to_be_known():
    ticks = pd.DataFrame({"t": [1, 2], "sym": ["x", "y"]})
    clauses = ["PATTERN (A) DEFINE A AS 1 = 1", "ORDER BY t PATTERN (A) DEFINE A AS sym = 'x'"]
    for clause in clauses:
        assert rowmatch.check(ticks, clause).endswith("no condition waits for later rows\n")
        assert "no row has" not in rowmatch.check(ticks.iloc[:0], clause)


def test_equal_texts_and_what_the_clause_names_too_are_not_warned_of(recwarn):
    logins = pd.DataFrame({"t": [1, 2, 3], "outcome": ["FAIL", "fail", None]})
    both = "PATTERN (A B) DEFINE A AS outcome = 'FAIL', B AS outcome = 'fail'"
    assert len(rowmatch.match(logins, both)) == 1
    assert len(rowmatch.match(logins, FAILED.replace("'fail'", "'failed'"))) == 0
    assert not recwarn.list


def test_zones_that_differ_and_lengths_are_not_warned_of(recwarn):
    spans = pd.DataFrame(
        {
            "bid": pd.to_datetime(["2024-01-06"]).tz_localize("Europe/Berlin"),
            "ask": pd.to_datetime(["2024-01-05"]).tz_localize("Asia/Tokyo"),
            "length": pd.to_timedelta(["1h"]),
        }
    )
    assert len(rowmatch.match(spans, ABOVE.replace("ask", "ask + length"))) == 1
    assert not recwarn.list


def test_one_unit_is_not_warned_of(recwarn):
    quotes = pd.DataFrame({"bid": [1.5], "ask": [1.4], "n": [3]})
    thousandths = {"bid": "decimal(3)", "ask": "decimal(3)"}
    assert len(rowmatch.match(quotes, ABOVE, columns=thousandths)) == 1
    other = {"bid": "decimal(2)", "ask": "decimal(3)"}
    for apart in ["* 10 > ask", "> 100 AND n = 3"]:
        assert len(rowmatch.match(quotes, ABOVE.replace("> ask", apart), columns=other)) == 1
    assert not recwarn.list
