"""What is said of a clause and of data in the words of pandas: helps, refusals, warnings."""

from __future__ import annotations

import datetime
import re
from decimal import Decimal

import numpy as np
import pandas as pd
import pytest

import rowmatch
from rowmatch import ClauseError, DataError

FRAME = pd.DataFrame(
    {
        "none": pd.Series([None, None], dtype=object),
        "word": ["10", "9"],
        "paid": [True, False],
        "n": [1, 2],
        "is it": [True, False],
        "at": pd.to_datetime(["2024-01-01", "2024-01-02"]),
        "berlin": pd.to_datetime(["2024-01-01", "2024-01-02"]).tz_localize("Europe/Berlin"),
        "day": [datetime.date(2024, 1, 1), datetime.date(2024, 1, 2)],
        "length": pd.to_timedelta(["1h", "2h"]),
    }
)
NONE = "column none has no value here, so that it is text: columns={'none': 'int'} says what it is"
WORD = (
    "column word has texts: pandas.to_numeric(..) makes numbers of it, "
    "pandas.to_datetime(.., format=..) times"
)
PAID = "paid is 1 where it is true, and 0: write paid = 1, or paid = 0"
MICROS = "counts in micros (times= names the unit): write"


@pytest.mark.parametrize(
    "condition, helps",
    [
        ("none > 5", ["none is text, 5 is int", NONE]),
        ("PREV(none, 1) > 5 AND word = 'x'", [NONE]),
        ("SUM(none) > 5", ["none is text: COUNT, MIN and MAX take it", NONE]),
        ("SUM(word) > 5", ["word is text: COUNT, MIN and MAX take it", WORD]),
        ('"word" - PREV(word) > 5', [WORD]),
        ("word > 5", ["word is text, 5 is int", WORD]),
        ("word = paid", [WORD]),
        ("n = 'x'", ["n is int, 'x' is text"]),
        ("paid = TRUE", [PAID]),
        ("n = 1 AND false = paid", [PAID]),
        ("paid = 'true'", [PAID]),
        ("paid", [PAID]),
        (
            '"is it" = TRUE',
            ['"is it" is 1 where it is true, and 0: write "is it" = 1, or "is it" = 0'],
        ),
        ("n = 1 AND NOT paid", [PAID]),
        # 2024-01-01 is day 19,723 since 1970, 1,704,067,200 seconds.
        ("at > '2024-01-01'", [f"at {MICROS} 1704067200000000 for '2024-01-01'"]),
        ("at > DATE '2024-01-01'", [f"at {MICROS} 1704067200000000 for '2024-01-01'"]),
        ("berlin > '2024-01-01'", [f"berlin {MICROS} 1704063600000000 for '2024-01-01'"]),
        ("day > '2024-01-01'", ["day counts in days: write 19723 for '2024-01-01'"]),
        ("length > '1h'", [f"length {MICROS} 3600000000 for '1h'"]),
        ("at > 'soon'", [f"at {MICROS} a whole number; an hour is 3600000000"]),
        ("at - PREV(at) > INTERVAL '1' HOUR", [f"at {MICROS} a whole number; an hour is 36000000"]),
    ],
)
def test_what_to_write_for_a_column(condition, helps):
    with pytest.raises(ClauseError) as caught:
        rowmatch.match(FRAME, f"PATTERN (A) DEFINE A AS {condition}")
    said = caught.value.help
    for text in helps:
        assert any(text in line for line in said), said
    other = {NONE, WORD, PAID} - set(helps)
    assert not any(line in other or "--columns" in line or "in the table" in line for line in said)


@pytest.mark.parametrize("condition", ["ok = TRUE", "ok", "NOT ok", "ok = 'true'"])
@pytest.mark.parametrize("values", [[True, None], [None, False], [True, np.nan], [True, pd.NA]])
@pytest.mark.parametrize("dtype", [object, "category"])
def test_bools_with_nulls_among_them_are_bools(condition, values, dtype):
    frame = pd.DataFrame({"ok": pd.Series(values, dtype=object).astype(dtype)})
    with pytest.raises(ClauseError) as caught:
        rowmatch.match(frame, f"PATTERN (A) DEFINE A AS {condition}")
    write = "ok is 1 where it is true, and 0: write ok = 1, or ok = 0"
    assert caught.value.help == [write]
    count = sum(value is True for value in values)
    assert len(rowmatch.match(frame, "PATTERN (A) DEFINE A AS ok = 1")) == count


MONEY = pd.DataFrame(
    {
        "price": [0.02, 1.0, 2.5],
        "mills": [Decimal("1.234"), 2, None],
        "whole": [1.0, 2.0, None],
        "n": [1, 2, 3],
        "net price": [1.5, 2.5, 3.0],
        "word": ["a", "b", "c"],
    }
)
CENTS = {"price": "decimal(2)"}
BY_CENTS = "by decimal(2) price is counted so that"


@pytest.mark.parametrize(
    "condition, columns, said, rows",
    [
        # 1.5 is 150 cents, of which 2.50 alone is above; 1.555 is 155.5 of them.
        ("price > 1.5", CENTS, f"{BY_CENTS} 1.5 is 150: write price > 150", 1),
        ("price > .5", CENTS, f"{BY_CENTS} .5 is 50: write price > 50", 2),
        ("1.50 > A.price", CENTS, f"{BY_CENTS} 1.50 is 150: write A.price < 150", 2),
        ("price >= -1.5", CENTS, f"{BY_CENTS} -1.5 is -150: write price >= -150", 3),
        ("price > 1.555", CENTS, f"{BY_CENTS} 1 is 100: write price * 10 > 1555", 1),
        (
            "price - PREV(A.price, 1) > 0.985",
            CENTS,
            f"{BY_CENTS} 1 is 100: write (price - PREV(A.price, 1)) * 10 > 985",
            1,
        ),
        ("(SUM(price) > 1.5 OR n > 5)", CENTS, f"{BY_CENTS} 1.5 is 150: write SUM(price) > 150", 1),
        ("price > 1.5", {}, "give columns={'price': 'decimal(2)'}, and write price > 150 then", 1),
        ("price > PREV(price) + 0.99", CENTS, f"{BY_CENTS} 0.99 is 99: write 99 for 0.99", None),
        (
            "price > PREV(price) + 0.99",
            {},
            "give columns={'price': 'decimal(2)'}, and write 99 for 0.99 then",
            None,
        ),
        ("price > 1.5", {"price": "int"}, "counted in whole numbers: write price * 10 > 15", None),
        ("mills > 1.5", {}, "give columns={'mills': 'decimal(3)'}, and write mills > 1500 then", 1),
        ("whole > 1.5", {}, "whole is counted in whole numbers: write whole * 10 > 15", 1),
        ("n > 1.5", CENTS, "n is counted in whole numbers: write n * 10 > 15", 2),
        (
            '"net price" > 1.25',
            {},
            "give columns={'net price': 'decimal(2)'}, and write \"net price\" > 125 then",
            3,
        ),
    ],
)
def test_a_fraction_is_whole_numbers_of_how_the_column_is_read(condition, columns, said, rows):
    with pytest.raises(ClauseError) as caught:
        rowmatch.match(MONEY, f"PATTERN (A) DEFINE A AS {condition}", columns=columns)
    (line,) = caught.value.help
    assert said in line
    if rows is None:
        return
    # What is said can be followed, and means what was meant.
    proposed = re.search(r"columns=(\{.*\}),", line)
    ways = eval(proposed[1]) if proposed else columns
    write = re.search("write (.*?)( then)?$", line)[1]
    assert len(rowmatch.match(MONEY, f"PATTERN (A) DEFINE A AS {write}", columns=ways)) == rows


def test_a_fraction_next_to_what_is_counted_otherwise():
    conditions = ("price * 2 > 1.5", "COUNT(price) > 1.5", "price > 1.5 + n", "price - n > 1.5")
    sums = (
        "price > PREV(price) + 0.999",
        "price > 1 + 0.5",
        "n > PREV(n) + 0.5",
        "n + 1.5 > price",
    )
    for condition in (*conditions, *sums, "prise > 1.5", "price > 1.5e3", "1 < 1.5"):
        for columns in ({}, CENTS):
            with pytest.raises(ClauseError) as caught:
                rowmatch.match(MONEY, f"PATTERN (A) DEFINE A AS {condition}", columns=columns)
            assert caught.value.help
            for line in caught.value.help:
                assert "--columns" not in line and not line.startswith("where it has")
    with pytest.raises(ClauseError, match="column word has texts: pandas.to_numeric"):
        rowmatch.match(MONEY, "PATTERN (A) DEFINE A AS word > 1.5")
    sparse = pd.DataFrame({"v": pd.arrays.SparseArray([0.5, 1.0])})
    with pytest.raises(ClauseError, match="there are no fractions"):
        rowmatch.match(sparse, "PATTERN (A) DEFINE A AS v > 1.5")
    # An empty frame, as Dask has one before anything runs, says nothing of fractions.
    with pytest.raises(ClauseError, match=re.escape("give columns={'whole': 'decimal(2)'}, and")):
        rowmatch.match(MONEY.iloc[:0], "PATTERN (A) DEFINE A AS whole > 1.5")


def test_the_unit_of_times_is_the_one_that_was_given():
    for options in ({"times": "seconds"}, {"columns": {"at": "seconds"}}):
        with pytest.raises(ClauseError, match="at counts in seconds .*: write 1704067200 for"):
            rowmatch.match(FRAME, "PATTERN (A) DEFINE A AS at > '2024-01-01'", **options)


def test_what_is_said_of_a_column_without_values_can_be_written():
    clause = "MEASURES A.none AS v PATTERN (A) DEFINE A AS none IS NULL OR none > 5"
    for way in ("int", "decimal(2)", "date", "seconds", "nanos"):
        for frame in (FRAME, FRAME.iloc[:0]):
            answer = rowmatch.match(frame, clause, columns={"none": way})
            assert len(answer) == len(frame) and answer["v"].isna().all()
    with pytest.raises(DataError, match="no times: pandas.to_datetime makes them"):
        rowmatch.match(pd.DataFrame({"none": ["x", None]}), clause, columns={"none": "seconds"})


EVERY = "PATTERN (A) DEFINE A AS v IS NULL"
ENDLESS = "which is no number that can be handed over: .replace([numpy.inf, -numpy.inf], numpy.nan)"


@pytest.mark.parametrize(
    "values, options, said",
    [
        (
            np.array([2**63], dtype="uint64"),
            {},
            "has 9223372036854775808, which is beyond the signed 64 bits: .map(str, na_action=",
        ),
        ([1e19], {}, "has 1e+19, which is beyond the signed 64 bits"),
        ([1.0, np.inf], {}, f"has inf, {ENDLESS}"),
        ([1.0, np.inf], {"columns": {"v": "decimal(2)"}}, f"has inf, {ENDLESS}"),
        (
            [Decimal("-Infinity")],
            {"columns": {"v": "decimal(2)"}},
            f"has -Infinity, {ENDLESS}",
        ),
        (
            ["10", Decimal(1)],
            {"columns": {"v": "decimal(2)"}},
            "has '10', which is no decimal of 2 places and 64 bits: pandas.to_numeric",
        ),
        (
            pd.to_datetime(["2024-01-05 09:30:00.5"]),
            {"columns": {"v": "seconds"}},
            "which is no whole number of seconds: columns={'v': 'millis'}; the clause counts",
        ),
        (
            [pd.Timestamp("2024-01-05", tz=zone) for zone in ("UTC", "Europe/Berlin")],
            {},
            "has times as objects, in several zones: pandas.to_datetime(.., utc=True) makes",
        ),
    ],
)
def test_what_to_write_for_data(values, options, said):
    with pytest.raises(DataError, match=re.escape(said)):
        rowmatch.match(pd.DataFrame({"v": values}), EVERY, **options)


@pytest.mark.parametrize("options", [{}, {"columns": {"v": "decimal(2)"}}])
def test_a_float_of_more_digits_than_floats_carry(options):
    # 16 digits, and the doubles near it are 0.002 apart.
    long = pd.DataFrame({"v": [0.25, 10000000000000.25]})
    clause = "MEASURES v + 0 AS v PATTERN (A) DEFINE A AS 1 = 1"
    said = (
        "column 'v' has 10000000000000.25, which has more digits, with 2 places, than the 15 that a "
        "float carries: .map(lambda it: decimal.Decimal(repr(it)), na_action='ignore') carries "
    )
    with pytest.raises(DataError, match=re.escape(said)) as caught:
        rowmatch.match(long, clause, **options)
    assert caught.value.row == 1
    exact = long.assign(v=long["v"].map(lambda it: Decimal(repr(it)), na_action="ignore"))
    answer = rowmatch.match(exact, clause, columns={"v": "decimal(2)"})
    assert answer["v"].tolist() == [25, 1000000000000025]
    # A float of 32 bits carries 6.
    short = pd.DataFrame({"v": np.array([12345.67], dtype="float32")})
    with pytest.raises(DataError, match=re.escape("the 6 that a float carries: .astype('float64'")):
        rowmatch.match(short, clause, **options)
    wide = short.assign(v=short["v"].astype("float64").round(2))
    answer = rowmatch.match(wide, clause, columns={"v": "decimal(2)"})
    assert answer["v"].tolist() == [1234567]


def test_a_clause_that_is_no_text():
    with pytest.raises(TypeError, match="the clause is a int and no text"):
        rowmatch.match(FRAME, 5)


def test_what_is_no_frame():
    frame = pd.DataFrame({"v": [1]})
    with pytest.raises(TypeError, match="groups aren't one frame"):
        rowmatch.match(frame.groupby("v"), EVERY)
    with pytest.raises(TypeError, match="a list of frames isn't one frame"):
        rowmatch.match([frame], EVERY)
    assert len(rowmatch.match([{"v": None}], EVERY)) == 1
    for ask in (rowmatch.match, rowmatch.check):
        for clause in (EVERY, "PATTERN (A) DEFINE A AS 1 = 1"):
            with pytest.raises(TypeError, match="the data are None, which is no frame; a call"):
                ask(frame.sort_values("v", inplace=True), clause)


@pytest.mark.parametrize(
    "text, cents",
    [
        ("92233720368547758.07", 2**63 - 1),
        ("-92233720368547758.08", -(2**63)),
        ("1E+16", 10**18),
        ("1." + "0" * 100, 100),
        ("0E+999999999", 0),
        ("0E-999999999", 0),
        ("92233720368547758.08", None),
        ("1E+17", None),
        ("0.005", None),
        ("1." + "0" * 100 + "1", None),
        ("1E+999999999", None),
        ("sNaN", None),
    ],
)
@pytest.mark.filterwarnings("ignore::pytest.PytestUnraisableExceptionWarning")  # pandas' of sNaN
def test_decimals_of_all_sizes(text, cents):
    frame = pd.DataFrame({"v": [Decimal(text)]})
    clause = "MEASURES A.v + 0 AS v PATTERN (A) DEFINE A AS 1 = 1"
    if cents is None:
        with pytest.raises(DataError, match="which is no decimal of 2 places and 64 bits"):
            rowmatch.match(frame, clause, columns={"v": "decimal(2)"})
    else:
        assert rowmatch.match(frame, clause, columns={"v": "decimal(2)"})["v"].tolist() == [cents]


BY_ORDER = "PATTERN (A B) DEFINE B AS v > PREV(v)"
NUMBERS = (
    "v is text and is ordered letter by letter, so that '10.20' comes before '9.50': pandas.to_"
)
DATES = (
    "v is text and is ordered letter by letter, and has dates as '1/10/2024': pandas.to_datetime"
)


@pytest.mark.parametrize("clause", [BY_ORDER, "ORDER BY v PATTERN (A) DEFINE A AS 1 = 1"])
@pytest.mark.parametrize("dtype", [object, "string", "category"])
@pytest.mark.parametrize(
    "values, said", [(["9.50", None, "10.20"], NUMBERS), (["1/10/2024", "1/9/2024"], DATES)]
)
def test_numbers_and_dates_that_are_texts_are_warned_of(clause, dtype, values, said):
    frame = pd.DataFrame({"v": values}).astype({"v": dtype})
    with pytest.warns(UserWarning, match=re.escape(said)) as warned:
        rowmatch.match(frame, clause)
    assert len(warned) == 1
    assert said in rowmatch.check(frame, clause)


def test_texts_in_their_order_are_not_warned_of(recwarn):
    for values in (["9", "x"], ["007", "012"], ["2024-01-05", "2024-01-10"], [None], ["1", "2"]):
        rowmatch.match(pd.DataFrame({"v": pd.Series(values, dtype=object)}), BY_ORDER)
    numbers = pd.DataFrame({"v": ["9", "10"]})
    rowmatch.match(numbers, "PATTERN (A) DEFINE A AS v = '9' AND 1 < 2")
    rowmatch.match(numbers, BY_ORDER, columns={"v": "text"})
    assert not recwarn.list


def test_columns_that_the_clause_does_not_name_are_not_looked_at(monkeypatch):
    looked = []
    known = rowmatch._ways.first_known
    monkeypatch.setattr(
        rowmatch._ways, "first_known", lambda values: looked.append(len(values)) or known(values)
    )
    frame = pd.DataFrame({"V": ["x"] * 3, "other": [None] * 3}, dtype=object)
    assert len(rowmatch.match(frame, "PATTERN (A) DEFINE A AS v = 'x'")) == 3
    assert 3 in looked and looked.count(3) == 1


def test_check_says_in_which_unit_times_count():
    clause = "PATTERN (A) DEFINE A AS at > 0 AND length > 0 AND n > 0"
    said = rowmatch.check(FRAME, clause, columns={"length": "seconds"})
    assert "\nat counts in micros\nlength counts in seconds\n" in said and "n counts" not in said
