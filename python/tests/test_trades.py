"""Four trades from the raw file by a few lines of pandas to the answer: that of plain loops.

ROWS in the environment is how many rows each raw file has, 3,000 where nothing is said."""

from __future__ import annotations

import io
import os

import pandas as pd
import pytest

import rowmatch
from trades import loops, raw

ROWS = int(os.environ.get("ROWS", "3000"))
SEEDS = [1, 2, 3]

FRAUD = """
    -- card testing: three or more declined tries below 5.00, then 100.00 or more, in 30 minutes
    PARTITION BY "Card No"
    ORDER BY t
    MEASURES FIRST(T."Booked At") AS first_try, COUNT(T.*) AS tries, BIG.cents AS cents,
             BIG."Booked At" AS hit, BIG."Txn Id" AS txn
    PATTERN (T{3,} BIG)
    DEFINE T AS cents < 500 AND status = 'declined',
           BIG AS cents >= 10000 AND t - FIRST(T.t) <= 1800"""
FUNNEL = """
    -- a view, then something in the cart, then a purchase, within an hour of the view
    PARTITION BY "session id" ORDER BY at
    MEASURES V."event time" AS viewed, C."event time" AS carted, B."event time" AS bought,
             B.at - V.at AS took
    PATTERN (V X*? C Y*? B)
    DEFINE V AS "event name" = 'page_view',
           X AS at - V.at <= 3600000,
           C AS "event name" = 'add_to_cart' AND at - V.at <= 3600000,
           Y AS at - V.at <= 3600000,
           B AS "event name" = 'purchase' AND at - V.at <= 3600000"""
FLAPPING = """
    -- four changes of state or more within five minutes, one report each
    PARTITION BY host ORDER BY t
    MEASURES A.at AS since, LAST(C.at) AS until, COUNT(C.*) AS changes, LAST(C.state) AS ends
    PATTERN (A C{4,})
    DEFINE C AS state <> PREV(state) AND t - A.t <= 300"""
REBOUND = """
    -- a fall of five ticks or more in a row, by 0.20 % at least in all, within four seconds, and
    -- then a rise by half of it within three
    PARTITION BY Symbol ORDER BY t
    MEASURES A."TradeTime" AS began, A.Price AS top, LAST(D.Price) AS low, U.Price AS back,
             COUNT(D.*) AS falls, U.t - A.t AS took
    AFTER MATCH SKIP PAST LAST ROW
    PATTERN (A D{5,} R*? U)
    DEFINE D AS Price < PREV(Price) AND t - A.t <= 4000000,
           R AS t - LAST(D.t) <= 3000000,
           U AS (A.Price - LAST(D.Price)) * 500 >= A.Price
                AND (Price - LAST(D.Price)) * 2 >= A.Price - LAST(D.Price)
                AND t - LAST(D.t) <= 3000000"""


def rows_of(answer: pd.DataFrame) -> list[tuple[object, ...]]:
    return list(answer.itertuples(index=False, name=None))


@pytest.mark.parametrize("seed", SEEDS)
def test_payments(seed):
    file = raw.raw("payments", seed, ROWS)
    payments = pd.read_csv(
        io.BytesIO(file), encoding="utf-8-sig", thousands=",", dtype={"Card No": "string"}
    )
    payments["cents"] = payments[" Amount (EUR) "]
    payments["t"] = pd.to_datetime(payments["Booked At"], utc=True)
    payments["Status"] = payments["Status"].str.lower()
    answer = rowmatch.match(payments, FRAUD, columns={"cents": "decimal(2)"}, times="seconds")
    answer["cents"] = (answer["cents"] * 100).round().astype(int)
    assert rows_of(answer) == loops.payments(file)
    assert len(answer) > ROWS // 200


@pytest.mark.parametrize("seed", SEEDS)
def test_clicks(seed):
    file = raw.raw("clicks", seed, ROWS)
    clicks = pd.read_csv(io.BytesIO(file))
    clicks["at"] = pd.to_datetime(clicks["event time"], utc=True)
    answer = rowmatch.match(clicks, FUNNEL, times="millis")
    assert rows_of(answer) == loops.clicks(file)
    assert len(answer) > ROWS // 60


@pytest.mark.parametrize("seed", SEEDS)
def test_alarms(seed):
    file = raw.raw("alarms", seed, ROWS)
    lines = pd.Series(file.decode().splitlines())
    alarms = lines.str.extract(
        r"^(?P<at>\S+) .*host=(?P<host>\S+) .* state=(?P<state>\S+)"
    ).dropna()
    alarms["t"] = pd.to_datetime(alarms["at"], utc=True)
    answer = rowmatch.match(alarms, FLAPPING, times="seconds")
    assert rows_of(answer) == loops.alarms(file)
    assert len(answer) > ROWS // 120


@pytest.mark.parametrize("seed", SEEDS)
def test_ticks(seed):
    file = raw.raw("ticks", seed, 5 * ROWS)
    ticks = pd.read_csv(io.BytesIO(file), sep=";", thousands=",", na_values=["n/a"])
    ticks["t"] = pd.to_datetime(ticks["TradeTime"], format="%Y%m%d-%H:%M:%S.%f")
    answer = rowmatch.match(ticks, REBOUND, columns={"Price": "decimal(2)"})
    for price in ("top", "low", "back"):
        answer[price] = (answer[price] * 100).round().astype(int)
    assert rows_of(answer) == loops.ticks(file)
    assert len(answer) > ROWS // 100
