"""What the package knows of a clause: names, measures and their kinds, faults and their places."""

from __future__ import annotations

import pandas as pd
import pytest

import rowmatch
from rowmatch._clause import Measure, read

FRAME = pd.DataFrame({"t": pd.to_datetime([1, 2, 3], unit="s"), "s": list("abc"), "p": [3, 1, 2]})
KINDS = {"SYM": "text", "Card No": "int", "T": "int", "Z": "int", "Q": "text", "P": "int"}


def test_the_parts():
    known = read(
        KINDS,
        """MATCH_RECOGNIZE (PARTITION BY sym, "Card No" ORDER BY t DESC -- MEASURES x AS y
        MEASURES FINAL LAST(A.t) AS "last", 'AS, b' AS C, -A.p AS d ALL ROWS PER MATCH
        PATTERN (A) DEFINE A AS q = 'ORDER BY z')""",
    )
    assert known.partition_by == ("SYM", "Card No") and known.order_by == ("T",) and known.all_rows
    assert known.reads == ("SYM", "Card No", "T", "Q", "P")
    assert known.measures == (
        Measure("last", "int", "T"),
        Measure("C", "text", None),
        Measure("d", "int", None),
    )


def test_a_column_is_read_wherever_it_is_named():
    for clause in (
        "PARTITION BY p PATTERN (A) DEFINE A AS 1 = 1",
        "ORDER BY p DESC PATTERN (A) DEFINE A AS 1 = 1",
        "MEASURES PREV(LAST(A.p, 1), 2) AS x PATTERN (A) DEFINE A AS 1 = 1",
        "PATTERN (A) DEFINE A AS NOT COUNT(A.p) = 1",
    ):
        assert read(KINDS, clause).reads == ("P",), clause
    # a variable, a union and a measure of a column's name are no columns
    clause = "MEASURES 1 AS q PATTERN (P T) SUBSET Z = (P, T) DEFINE P AS P.sym = 'x'"
    assert read(KINDS, clause).reads == ("SYM",)


def test_the_columns_of_the_answer():
    clause = "PARTITION BY q ORDER BY t MEASURES 1 AS m {} PATTERN (A) DEFINE A AS p = 1"
    table = list(KINDS)
    (m,) = read(KINDS, clause.format("")).measures
    assert read(KINDS, clause.format("ONE ROW PER MATCH")).output(table) == ["Q", m]
    for shown in ("", "SHOW EMPTY MATCHES", "OMIT EMPTY MATCHES", "WITH UNMATCHED ROWS"):
        known = read(KINDS, clause.format(f"ALL ROWS PER MATCH {shown}"))
        assert known.output(table) == ["Q", "T", m, "SYM", "Card No", "Z", "P"]


TIMES = """t, A.t, (A.t), ((A.t)), FIRST(A.t), LAST(t, 1), PREV(LAST(A.t, 1), 2), NEXT(FIRST(t)),
    FINAL LAST(t), PREV(RUNNING LAST(t)), MAX(A.t), MIN(t), FINAL MIN(U.t)"""
OBJECTS = "MIN(s), A.s, CLASSIFIER(), 'x', ('x')"
NUMBERS = """LAST(t) - FIRST(t), t - A.t, (LAST(t)) - (FIRST(t)), COUNT(*), COUNT(A.s), SUM(p),
    MATCH_NUMBER(), 42, -p, p + 1, p, (-7)"""


def expressions(texts):
    """Texts with commas in brackets, apart."""
    found, depth = [""], 0
    for sign in texts:
        depth += {"(": 1, ")": -1}.get(sign, 0)
        if sign == "," and depth == 0:
            found.append("")
        else:
            found[-1] += sign
    return [text.strip() for text in found]


@pytest.mark.parametrize("rows", [3, 0])
@pytest.mark.parametrize(
    "texts, dtype", [(TIMES, "datetime64[ns]"), (OBJECTS, "object"), (NUMBERS, "Int64")]
)
def test_the_kind_of_a_measure(texts, dtype, rows):
    measures = [f"{text} AS m{n}" for n, text in enumerate(expressions(texts))]
    assert len(measures) > 4
    clause = f"MEASURES {', '.join(measures)} PATTERN (A+) SUBSET U = (A) DEFINE A AS p > 0"
    answer = rowmatch.match(FRAME.head(rows), clause)
    assert {str(it) for it in answer.dtypes} == {dtype} and answer.shape == (
        rows // 3,
        len(measures),
    )


@pytest.mark.parametrize(
    "clause",
    [
        "",
        "PATTERN",
        "MEASURES AS",
        "MEASURES ( AS x",
        "PATTERN (A) DEFINE A AS 'x",
        'PARTITION BY "x',
    ]
    + ["\x00", "ö", "MEASURES 1 AS", "PATTERN (A) DEFINE A AS p = 1;", "\ud800", "é \udfff"],
)
def test_a_clause_that_is_refused(clause):
    with pytest.raises(rowmatch.ClauseError) as caught:
        rowmatch.match(FRAME, clause)
    assert caught.value.offset is not None and caught.value.offset <= len(clause)
    assert caught.value.clause == clause and caught.value.message
    assert str(caught.value).encode()
