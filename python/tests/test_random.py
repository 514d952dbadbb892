"""Random clauses over random frames: the answer of `match` and that of `dask.match` are what the
program prints of the same rows, which are written for it here by hand.

CASES in the environment is how many are tried, 60 where nothing is said, SEED of which seed they
are, 1, and EVERY of how many one is tried on Dask, 3."""

from __future__ import annotations

import csv
import io
import json
import os
import random
import subprocess
from decimal import Decimal

import pandas as pd
import pytest

import rowmatch
from rowmatch._program import command

CASES = int(os.environ.get("CASES", "60"))
SEED = int(os.environ.get("SEED", "1"))
EVERY = int(os.environ.get("EVERY", "3"))
NULL = "(null)"
pytestmark = pytest.mark.filterwarnings("ignore:.* compared or added as they are")


def moments(numbers, zone=None):
    made = [pd.NaT if n is None else pd.Timestamp(n, unit="us", tz="UTC") for n in numbers]
    series = pd.Series(made, dtype="datetime64[ns, UTC]")
    return series.dt.tz_convert(zone) if zone else series.dt.tz_localize(None)


def lengths(numbers):
    made = [pd.NaT if n is None else pd.Timedelta(n, unit="us") for n in numbers]
    return pd.Series(made, dtype="timedelta64[ns]")


def floats(numbers, places=0):
    return pd.Series(
        [float("nan") if n is None else n / 10**places for n in numbers], dtype="float64"
    )


# How a column of whole numbers or of texts may stand in a frame, and what `columns=` has to say of
# it.
WAYS = {
    "int": [
        (lambda numbers: pd.Series(numbers, dtype="Int64"), None),
        (lambda numbers: pd.Series(numbers, dtype=object), "int"),
        (lambda numbers: pd.Series(numbers, dtype="Int64").astype("category"), "int"),
        (floats, None),
        (lambda numbers: floats(numbers, 2), "decimal(2)"),
        (
            lambda numbers: pd.Series(
                [None if n is None else Decimal(n) / 1000 for n in numbers], dtype=object
            ),
            "decimal(3)",
        ),
        (moments, None),
        (lambda numbers: moments(numbers, "Europe/Berlin"), "micros"),
        (lengths, "micros"),
    ],
    "text": [
        (lambda texts: pd.Series(texts, dtype=object), None),
        (lambda texts: pd.Series(texts, dtype="string"), None),
        (lambda texts: pd.Series(texts, dtype="category"), "text"),
    ],
}
TEXTS = ["x", "y", "y", "", None, 'a "b", c', "é\n", "\\N", "N\\", " x", "NA", "0042"]
KINDS = {"k": "text", "K 2": "int", "t": "int", "p": "int", "q": "int", "s": "text", "n": "int"}


class Case:
    """A clause and rows, each column of which stands in a frame in one of the ways."""

    def __init__(self, seed):
        self.chance = chance = random.Random(seed)
        rows = chance.choice([0, 1, 5, 20, 40, 60])
        self.rows = [self.row(number) for number in range(rows)]
        self.measures = []
        self.clause = self.clause_of()
        picked = {name: chance.choice(WAYS[kind]) for name, kind in KINDS.items()}
        picked["n"] = WAYS["int"][0]
        self.ways = {name: said for name, (_, said) in picked.items() if said}
        made = {name: make([row[name] for row in self.rows]) for name, (make, _) in picked.items()}
        self.frame = pd.DataFrame(made).set_index(
            pd.Index([f"row {n}" for n in range(rows)], dtype=object)
        )

    def row(self, number):
        chance = self.chance
        small = lambda: chance.choice([None, *range(-3, 6)])  # noqa: E731
        return {
            "k": chance.choice(TEXTS[:6]),
            "K 2": chance.choice([0, 1, None]),
            "t": chance.choice([number // 3, chance.randrange(50), None]),
            "p": small(),
            "q": chance.choice([small(), 10**12 + 1, -(10**12)]),
            "s": chance.choice(TEXTS),
            "n": number,
        }

    def name(self, column):
        if column == "K 2":
            return '"K 2"'
        return self.chance.choice([column, column.upper(), f'"{column.upper()}"'])

    def column(self, *kinds):
        """A column, and how a clause writes it, behind a variable or not."""
        column = self.chance.choice(
            [name for name, kind in KINDS.items() if kind in kinds and name != "n"]
        )
        return column, self.chance.choice(["", "", "A.", "B.", "U."]) + self.name(column)

    def value(self):
        """An expression, the column whose value it is, and its kind."""
        chance = self.chance
        column, written = self.column("int", "text")
        number = self.column("int")[1]
        return chance.choice(
            [
                (written, column),
                (f"({written})", column),
                (f"{chance.choice(['FIRST', 'LAST', 'MIN', 'MAX'])}({written})", column),
                (
                    f"{chance.choice(['PREV', 'NEXT', 'LAST'])}({written}, {chance.randrange(3)})",
                    column,
                ),
                (f"PREV(FIRST({written}), 1)", column),
                (f"FINAL LAST({written})", column),
                (f"COUNT({written})", None),
                (f"SUM({number})", None),
                (f"{number} - FIRST({number})", None),
                ("MATCH_NUMBER()", None),
                ("CLASSIFIER()", None),
                (chance.choice(["''", "'it''s'", "'x'", "7"]), None),
            ]
        )

    def condition(self):
        chance = self.chance
        if chance.random() < 0.3:
            right = chance.choice(["PREV(s)", "'x'", "''"])
            return f"{self.column('text')[1]} {chance.choice(['=', '<>', '<'])} {right}"
        if chance.random() < 0.15:
            return f"{self.column('int', 'text')[1]} IS {chance.choice(['', 'NOT '])}NULL"
        right = chance.choice([f"PREV({self.column('int')[1]})", "2", "FIRST(p)", "COUNT(*)"])
        return f"{self.column('int')[1]} {chance.choice(['<', '>', '<=', '<>'])} {right}"

    def pattern(self):
        part = lambda: self.chance.choice("ABC") + self.chance.choice(
            ["", "", "+", "*", "?", "{2}", "*?"]
        )  # noqa: E731
        parts = [part() for _ in range(self.chance.randint(1, 3))]
        return " ".join(["A", "B?", *parts] if self.chance.random() < 0.7 else ["(A | B)", *parts])

    def clause_of(self):
        chance = self.chance
        keys = chance.choice([[], ["k"], ["k", "K 2"], ["K 2"]])
        order = chance.choice([[], ["t"], ["t DESC"], ["p", "t"]])
        shown = chance.choice(
            [
                "",
                "ONE ROW PER MATCH",
                "ALL ROWS PER MATCH",
                "ALL ROWS PER MATCH OMIT EMPTY MATCHES",
                "ALL ROWS PER MATCH WITH UNMATCHED ROWS",
            ]
        )
        measures = [(*self.value(), f"m{n}") for n in range(chance.randint(0, 4))]
        self.measures, self.all_rows, self.keys, self.order = measures, "ALL" in shown, keys, order
        skip = chance.choice(["", "", "AFTER MATCH SKIP TO NEXT ROW", "AFTER MATCH SKIP TO LAST B"])
        parts = [
            keys and "PARTITION BY " + ", ".join(map(self.name, keys)),
            order and "ORDER BY " + ", ".join(map(str, order)),
            measures
            and "MEASURES " + ", ".join(f"{value} AS {name}" for value, _, name in measures),
            shown,
            skip,
            f"PATTERN ({self.pattern()} C?)",
            "SUBSET U = (A, B)",
            f"DEFINE A AS {self.condition()}, B AS {self.condition()} OR {self.condition()}",
        ]
        return "\n".join(part for part in parts if part)

    def printed(self):
        """The rows of the answer as the program prints them, and the faults."""
        text = io.StringIO(newline="")
        writer = csv.writer(text, lineterminator="\n", quoting=csv.QUOTE_ALL)
        writer.writerow(name.upper() for name in KINDS)
        for row in self.rows:
            null = {"text": NULL, "int": ""}
            writer.writerow(
                null[KINDS[name]] if value is None else value for name, value in row.items()
            )
        table = ", ".join(f'"{name.upper()}" {kind}' for name, kind in KINDS.items())
        words = ["whole", "--null", NULL, "--table", table, "--clause", self.clause]
        ran = subprocess.run(command(words), input=text.getvalue().encode(), capture_output=True)
        assert ran.returncode == 0, (self.clause, ran.stderr)
        items = [json.loads(line) for line in ran.stdout.splitlines()]
        faults = [(item["key"], item["fault"]) for item in items if "fault" in item]
        return [item["cells"] for item in items if "cells" in item], faults

    def columns(self):
        """The columns of the answer, each with the column of the frame whose values it has."""
        if not self.all_rows:
            return [(key, key) for key in self.keys] + [(name, of) for _, of, name in self.measures]
        first = [*self.keys, *(column.split(" ")[0] for column in self.order)]
        first = list(dict.fromkeys(first))
        rest = [name for name in KINDS if name not in first]
        return [
            *zip(first, first),
            *((name, of) for _, of, name in self.measures),
            *zip(rest, rest),
        ]

    def number_of(self, column, value):
        """A value of the answer as the number or text that the program has for it."""
        if value is None or value is pd.NaT or pd.isna(value):
            return None
        said = self.ways.get(column, "")
        if isinstance(value, pd.Timestamp):
            return int(value.value // 1000)
        if isinstance(value, pd.Timedelta):
            return int(value.value // 1000)
        if said.startswith("decimal"):
            return round(value * 10 ** int(said[8:-1]))
        return value if isinstance(value, str) else int(value)

    def cells(self, answer):
        columns = self.columns()
        assert list(answer) == [label for label, _ in columns]
        values = [
            [self.number_of(of, value) for value in answer.iloc[:, at]]
            for at, (_, of) in enumerate(columns)
        ]
        return [list(row) for row in zip(*values)] if values else [[] for _ in range(len(answer))]


@pytest.mark.parametrize("number", range(CASES))
def test_match(number):
    case = Case(f"{SEED} {number}")
    rows, faults = case.printed()
    found = []
    try:
        answer = rowmatch.match(case.frame, case.clause, columns=case.ways)
    except rowmatch.SkipFault as error:
        answer, found = error.answer, error.faults
    assert case.cells(answer) == rows, case.clause
    assert found == faults
    if case.all_rows:
        assert list(answer.index) == [f"row {n}" for n in answer["n"]]


def by_key(rows, width):
    parts = {}
    for row in rows:
        parts.setdefault(tuple(row[:width]), []).append(row)
    return parts


@pytest.mark.parametrize("number", range(0, CASES, EVERY))
def test_dask(number):
    dask = pytest.importorskip("dask.dataframe")
    case = Case(f"{SEED} {number}")
    rows, _ = case.printed()
    data = dask.from_pandas(case.frame, npartitions=3, sort=False)
    match = pytest.importorskip("rowmatch.dask").match
    answer = match(data, case.clause, columns=case.ways, on_skip_fault="ignore").compute(
        scheduler="sync"
    )
    assert by_key(case.cells(answer), len(case.keys)) == by_key(rows, len(case.keys)), case.clause
