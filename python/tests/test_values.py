"""Random values under random labels: each comes back as it was, by a measure, by ALL ROWS PER MATCH
and as a key.

CASES in the environment is how many frames are tried, 30 where nothing is said, and SEED of which
seed they are, 1."""

from __future__ import annotations

import datetime
import os
import random
from decimal import Decimal

import pandas as pd
import pytest

import rowmatch
from rowmatch._clause import quoted

CASES = int(os.environ.get("CASES", "30"))
SEED = int(os.environ.get("SEED", "1"))
LABELS = [
    "price",
    "Price",
    "PRICE",
    "net price",
    'a"b',
    "é",
    "order",
    "a,b",
    "a\nb",
    " x ",
    "7",
    8,
    ("a", 1),
    "x" * 128,
]
SIGNS = [
    "a",
    "B",
    "é",
    '"',
    ",",
    "\n",
    "\r",
    " ",
    "\\",
    "N",
    "0",
    "'",
    "\t",
    "\u2028",
    "\U0001f980",
    "\ufeff",
    ";",
]


def texts(chance):
    return "".join(chance.choices(SIGNS, k=chance.choice([0, 1, 1, 2, 3, 9])))


def numbers(chance):
    return chance.choice(
        [0, 1, -1, 2**63 - 1, -(2**63), chance.getrandbits(40), -chance.getrandbits(20)]
    )


def small(chance):
    return chance.randint(-100, 100)


def moments(chance):
    return pd.Timestamp(
        chance.choice([-1, 0, 1_700_000_000_000_000, chance.getrandbits(50)]), unit="us"
    )


def series(make, dtype, nulls=True, said=None):
    """A way to make a column: of so many values, some of them null, of a dtype."""

    def column(chance, rows):
        values = [None if nulls and chance.random() < 0.2 else make(chance) for _ in range(rows)]
        return pd.Series(values, dtype=dtype), said

    return column


COLUMNS = [
    series(texts, object),
    series(texts, "string"),
    series(texts, "category", said="text"),
    series(lambda chance: texts(chance) + "\0" * chance.randint(0, 2), object),
    series(numbers, "int64", nulls=False),
    series(numbers, "Int64"),
    series(numbers, object, said="int"),
    series(small, "int8", nulls=False),
    series(lambda chance: chance.getrandbits(63), "uint64", nulls=False),
    series(small, "float64"),
    series(small, "Float64"),
    series(lambda chance: chance.random() < 0.5, "bool", nulls=False),
    series(lambda chance: chance.random() < 0.5, "boolean"),
    series(lambda chance: small(chance) / 100, "float64", said="decimal(2)"),
    series(lambda chance: round(small(chance) / 8, 3), "float32", said="decimal(3)"),
    series(lambda chance: Decimal(small(chance)) / 100, object, said="decimal(2)"),
    series(lambda chance: small(chance) / 100, object, said="decimal(2)"),
    series(moments, "datetime64[ns]"),
    series(lambda chance: moments(chance).tz_localize("UTC"), "datetime64[ns, Europe/Berlin]"),
    series(lambda chance: pd.Timedelta(numbers(chance) % 10**15, unit="us"), "timedelta64[ns]"),
    series(
        lambda chance: datetime.date(1970, 1, 1) + datetime.timedelta(small(chance)),
        object,
        said="date",
    ),
]


def plain(values):
    return [None if pd.isna(value) else value for value in values]


@pytest.mark.parametrize("number", range(CASES))
def test_values(number):
    chance = random.Random(f"{SEED} {number}")
    labels = chance.sample(LABELS, 3)
    rows = chance.choice([1, 3, 8, 30])
    made = [chance.choice(COLUMNS)(chance, rows) for _ in labels]
    frame = pd.concat([column for column, _ in made], axis=1)
    frame.columns = pd.Index(labels, tupleize_cols=False)
    options = {"columns": {label: said for label, (_, said) in zip(labels, made) if said}}
    for label in labels:
        name, values = quoted(str(label)), plain(frame.iloc[:, labels.index(label)])
        clause = f"MEASURES A.{name} AS value PATTERN (A) DEFINE A AS 1 = 1"
        answer = rowmatch.match(frame, clause, **options)
        assert plain(answer["value"]) == values
        clause = f"PARTITION BY {name} MEASURES COUNT(*) AS n PATTERN (A+) DEFINE A AS 1 = 1"
        answer = rowmatch.match(frame, clause, **options)
        keys = list(dict.fromkeys(values))
        assert [plain(row) for row in answer.values.tolist()] == [
            [key, values.count(key)] for key in keys
        ]
        assert answer.dtypes.iloc[0] == frame.dtypes.iloc[labels.index(label)]
        clause = f"ALL ROWS PER MATCH PATTERN (A) DEFINE A AS {name} IS NULL OR {name} IS NOT NULL"
        pd.testing.assert_frame_equal(rowmatch.match(frame, clause, **options), frame)
