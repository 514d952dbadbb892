"""Helps of the program that speak of commands, files and seconds, as they are said of frames."""

from __future__ import annotations

import datetime
import re

import numpy as np
import pandas as pd
import pytest

import rowmatch
from rowmatch import ClauseError
from rowmatch._names import Names
from rowmatch._wordings import Wording

FRAME = pd.DataFrame(
    {
        "at": pd.date_range("2024-01-01 10:30", periods=4, freq="30min"),
        "p": [4, 3, 2, 1],
        "s": ["Ab", "xa", None, "x"],
        "due": [datetime.date(2024, 2, 1)] * 4,
    }
)
# What is true of a command alone.
OF_COMMANDS = ("file", "| head", "in the table", "--columns", "print")


def helps_of(clause, frame=FRAME, **options):
    if "PATTERN" not in clause:
        clause = f"PATTERN (A) DEFINE A AS {clause}"
    with pytest.raises(ClauseError) as caught:
        rowmatch.match(frame, clause, **options)
    said = caught.value.help
    assert said and not any(word in line for line in said for word in OF_COMMANDS), said
    return said


def proposed(said):
    """The frame that a help proposes."""
    line = next(line for line in said if "frame.assign(" in line)
    make = re.search(r"frame\.assign\(.*\)(?=, and write|$)", line)[0]
    return eval(make, {"frame": FRAME, "pandas": pd, "numpy": np})


@pytest.mark.parametrize(
    "condition, values",
    [
        ("LOWER(s) = 'x'", ["ab", "xa", None, "x"]),
        ("A.p > 0 AND LENGTH(s) = 1", [2, 2, None, 1]),
        ("MOD(p, 3) = 1", [1, 0, 2, 1]),
        ("p % 3 = 1", [1, 0, 2, 1]),
        ("ROUND(p) = 1", [4, 3, 2, 1]),
        ("ROUND(p, 1) = 1", [4, 3, 2, 1]),
        ("s LIKE 'x%'", [False, True, None, True]),
        ("s NOT LIKE '%a'", [False, True, None, False]),
        ("s LIKE '%A%'", [True, False, None, False]),
        ("s LIKE 'x'", [False, False, False, True]),
        ("s ILIKE 'a%'", [True, False, None, False]),
        ("s RLIKE '^x.'", [False, True, None, False]),
        ("EXTRACT(HOUR FROM at) = 11", [10, 11, 11, 12]),
        ("MINUTE(at) = 30", [30, 0, 30, 0]),
        ("EXTRACT(MONTH FROM due) = 2", [2, 2, 2, 2]),
    ],
)
def test_one_more_column_has_the_value(condition, values):
    said = helps_of(condition)
    column = proposed(said).iloc[:, -1]
    assert [None if pd.isna(value) else value for value in column] == values
    assert "LIKE" not in condition or said[0].endswith(", and write fits = 1")


@pytest.mark.parametrize(
    "clause, said",
    [
        ("p > 1 LIMIT 3", "take the first rows of the answer: .head(3)"),
        ("p > 1 FETCH FIRST 3 ROWS ONLY", "take the first rows of the answer: .head(3)"),
        ("p > 1 OFFSET 3", "leave the first rows of the answer out: .iloc[3:]"),
        ("p > 1 WHERE p > 1", "or match the rows alone that meet it: frame[frame['p'] > 5]"),
        ("WHERE s = 'x' PATTERN (A) DEFINE A AS p > 1", "frame[frame['s'] == 'x']"),
        ("CAST(s AS INT) > 1", "pandas.to_numeric(frame['s']) makes numbers of its texts"),
        ("s::int > 1", "pandas.to_numeric(frame['s']) makes numbers of its texts"),
        ("p::text = 'x'", "frame['p'].map(str, na_action='ignore') makes texts of its numbers"),
        ("CAST(at AS DATE) > 1", "frame['at'].dt.date makes days of its times"),
        ("p > '1'", "frame['p'].map(str, na_action='ignore') makes texts of its numbers"),
        (
            "at - PREV(at) > 5 MINUTES",
            "write a whole number: at - FIRST(at) <= 300000000; at counts",
        ),
        ("STDDEV(p) > 1", "ALL ROWS PER MATCH gives every row"),
        ("SELECT * FROM t WHERE p > 1 -- PATTERN", "the answer is a frame to filter"),
        ("MEASURES SUM(p + 1) AS q PATTERN (A) DEFINE A AS p > 1", "frame.assign(..)"),
    ],
)
def test_what_is_said_of_commands_is_said_of_frames(clause, said):
    assert any(said in line for line in helps_of(clause)), helps_of(clause)


def test_a_clause_without_a_word():
    for clause in ("", " -- PATTERN"):
        with pytest.raises(ClauseError) as caught:
            rowmatch.match(FRAME, clause)
        assert caught.value.help and not any("file" in line for line in caught.value.help)


WITHIN = "ORDER BY at MEASURES COUNT(*) AS n PATTERN (A B+) WITHIN {} DEFINE B AS p < PREV(p)"


@pytest.mark.parametrize(
    "length, options, number, counts",
    [
        ("INTERVAL '1' HOUR", {}, 3_600_000_000, [3]),
        ("INTERVAL '30' MINUTE", {}, 1_800_000_000, [2, 2]),
        ("INTERVAL '1' DAY", {}, 86_400_000_000, [4]),
        ("INTERVAL '90 seconds'", {}, 90_000_000, []),
        ("30 MINUTES", {"times": "millis"}, 1_800_000, [2, 2]),
        ("INTERVAL '30' MINUTE", {"times": "seconds"}, 1_800, [2, 2]),
        ("INTERVAL '1' HOUR", {"columns": {"at": "nanos"}}, 3_600_000_000_000, [3]),
    ],
)
def test_a_length_of_time_is_in_the_unit_that_is_counted(length, options, number, counts):
    unit = options.get("columns", {}).get("at", options.get("times", "micros"))
    bound = f"at - FIRST(at) <= {number}"
    in_unit = f"at counts in {unit} (times= names the unit)"
    said = helps_of(WITHIN.format(length), **options)
    assert said == [f"bound the time in each condition: {bound}; {in_unit}"]
    # It means what was meant: the rows are half an hour apart.
    clause = f"ORDER BY at MEASURES COUNT(*) AS n PATTERN (A B+) DEFINE B AS {bound}"
    assert rowmatch.match(FRAME, clause, **options)["n"].tolist() == counts


@pytest.mark.parametrize(
    "condition",
    [
        "EXTRACT(HOUR FROM at) = 1",
        "at > now()",
        "DATEDIFF(at, PREV(at)) < 5",
        "UNIX_TIMESTAMP(at) > 5",
    ],
)
def test_functions_of_times_are_in_the_unit_that_is_counted(condition):
    for options, hour in (({}, "3600000000"), ({"times": "seconds"}, "3600")):
        said = helps_of(condition, **options)
        counts = f"at counts in {options.get('times', 'micros')} (times= names the unit)"
        assert f"times are subtracted as numbers: at - PREV(at) <= {hour}; {counts}" in said
    said = helps_of("due - PREV(due) > 5 AND DATEDIFF(due, PREV(due)) < 5")
    assert said == ["times are subtracted as numbers: due - PREV(due) <= 1; due counts in days"]


def test_now_is_a_number():
    berlin = FRAME.assign(at=FRAME["at"].dt.tz_localize("Europe/Berlin"))
    for frame, now in ((FRAME, "pandas.Timestamp.now()"), (berlin, "pandas.Timestamp.now('UTC')")):
        assert f"put its number into the clause: {now}.value // 1000" in helps_of(
            "at > now()", frame
        )


def test_a_length_of_time_where_no_column_has_times():
    numbers = FRAME[["p", "s"]]
    said = helps_of(WITHIN.format("INTERVAL '1' HOUR").replace("at ", "p "), numbers)
    hour = "t - FIRST(t) <= 3600 is an hour where t counts in seconds"
    assert said == [f"bound the time in each condition: {hour}"]
    assert any("times='seconds' counts them" in line for line in helps_of("HOUR(p) = 1", numbers))


BOUND = "at - FIRST(at) <= 3600000000; at counts in micros (times= names the unit)"
HOUR = "t - FIRST(t) <= 3600"


@pytest.mark.parametrize(
    "line, said, without",
    [
        (f"bound the time: {HOUR}", f"bound the time: {BOUND}", None),
        (
            f"bound the time: {HOUR} is an hour where t is in seconds",
            f"bound the time: {BOUND}",
            f"bound the time: {HOUR} is an hour where t counts in seconds",
        ),
        (f"write a whole number of seconds: {HOUR}", f"write a whole number: {BOUND}", None),
        (
            f"write a whole number in the column's unit: {HOUR} is an hour where t is in seconds",
            f"write a whole number: {BOUND}",
            f"write a whole number: {HOUR} is an hour where t counts in seconds",
        ),
        ("3600 are an hour", f"3600 are an hour; {BOUND}", "3600 are an hour"),
        ("write AND", "write AND", "write AND"),
        (
            "to subtract them let the file have seconds, and write a number",
            "times are subtracted as numbers: " + BOUND.replace("FIRST", "PREV"),
            "to subtract, pandas.to_datetime makes times of texts, and times='seconds' counts them: "
            "t - PREV(t) <= 3600",
        ),
        (
            "dates as 2024-01-05 are ordered and compared where the table has the column as text",
            "dates as 2024-01-05 are ordered and compared in a column of texts",
            "dates as 2024-01-05 are ordered and compared in a column of texts",
        ),
    ],
)
def test_helps_of_other_programs(line, said, without):
    clause = "ORDER BY at PATTERN (A) WITHIN INTERVAL '1' HOUR DEFINE A AS p > 0"
    for frame, wanted in ((FRAME, said), (FRAME[["p", "s"]], without)):
        sources = Names(frame, {}, clause).plain()
        place = Wording(clause, clause.index("WITHIN"), [], [], sources, frame, "micros")
        if wanted is not None:
            assert place.lines((line,)) == (wanted,)
