"""The answers of the four trades by plain loops, over raw files that are read by the standard
library alone.

Nothing here is shared with the package: times by datetime, amounts by decimal. Each gives the rows
of its answer, partition by partition in the order of their first rows."""

from __future__ import annotations

import csv
import datetime
import decimal
import io
import re
from collections.abc import Iterator
from typing import Any

EPOCH = datetime.datetime(1970, 1, 1, tzinfo=datetime.timezone.utc)
MICRO = datetime.timedelta(microseconds=1)
Rows = list[dict[str, Any]]


def parts(rows: Rows, key: str, order: str) -> Iterator[tuple[str, Rows]]:
    """Rows by a key, in order; those that are equal there as they came."""
    apart: dict[str, Rows] = {}
    for row in rows:
        apart.setdefault(row[key], []).append(row)
    for name, own in apart.items():
        yield name, sorted(own, key=lambda row: row[order])


def cents_of(text: str) -> int | None:
    try:
        return int(decimal.Decimal(text.replace(",", "")) * 100)
    except decimal.InvalidOperation:
        return None


def payments(raw: bytes) -> list[tuple[Any, ...]]:
    """card, first try, tries, cents, hit, txn"""
    rows = list(csv.DictReader(io.StringIO(raw.decode("utf-8-sig"), newline="")))
    for row in rows:
        moment = datetime.datetime.fromisoformat(row["Booked At"].replace("Z", "+00:00"))
        row["t"] = int(moment.timestamp())
        row["cents"] = cents_of(row[" Amount (EUR) "])
        row["status"] = row["Status"].lower()
    found = []
    for card, own in parts(rows, "Card No", "t"):
        run: Rows = []
        for row in own:
            cents = row["cents"]
            if cents is not None and cents >= 10_000:
                near = [tried for tried in run if row["t"] - tried["t"] <= 1_800]
                if len(near) >= 3:
                    hit = (cents, row["Booked At"], row["Txn Id"])
                    found.append((card, near[0]["Booked At"], len(near), *hit))
            small = cents is not None and cents < 500 and row["status"] == "declined"
            run = run + [row] if small else []
    return found


def clicks(raw: bytes) -> list[tuple[Any, ...]]:
    """session, viewed, carted, bought, took in milliseconds"""
    rows = list(csv.DictReader(io.StringIO(raw.decode(), newline="")))
    for row in rows:
        moment = datetime.datetime.strptime(
            row["event time"] + "+0000", "%Y-%m-%d %H:%M:%S.%f UTC%z"
        )
        row["ms"] = (moment - EPOCH) // MICRO // 1_000
    found = []
    for session, own in parts(rows, "session id", "ms"):
        at = 0
        while at < len(own):
            reached = funnel_from(own, at)
            if reached:
                cart, buy = reached
                times = [own[place]["event time"] for place in (at, cart, buy)]
                found.append((session, *times, own[buy]["ms"] - own[at]["ms"]))
                at = buy
            at += 1
    return found


def funnel_from(rows: Rows, view: int) -> tuple[int, int] | None:
    """The first thing in the cart after a view, and the first purchase after that, in the hour."""
    if rows[view]["event name"] != "page_view":
        return None
    cart = None
    for place in range(view + 1, len(rows)):
        if rows[place]["ms"] - rows[view]["ms"] > 3_600_000:
            return None
        event = rows[place]["event name"]
        if cart is None and event == "add_to_cart":
            cart = place
        elif cart is not None and event == "purchase":
            return cart, place
    return None


def alarms(raw: bytes) -> list[tuple[Any, ...]]:
    """host, since, until, changes, the state in which it ends"""
    rows: Rows = []
    for line in raw.decode().splitlines():
        told = re.match(r"(\S+) .*host=(\S+) .*severity=(\S*) state=(\S+)", line)
        if told:
            at, host, _, state = told.groups()
            seconds = int(datetime.datetime.fromisoformat(at).timestamp())
            rows.append({"host": host, "t": seconds, "state": state, "at": at})
    found = []
    for host, own in parts(rows, "host", "t"):
        at = 0
        while at < len(own):
            last = at
            while (
                last + 1 < len(own)
                and own[last + 1]["state"] != own[last]["state"]
                and own[last + 1]["t"] - own[at]["t"] <= 300
            ):
                last += 1
            if last - at >= 4:
                found.append((host, own[at]["at"], own[last]["at"], last - at, own[last]["state"]))
                at = last
            at += 1
    return found


def ticks(raw: bytes) -> list[tuple[Any, ...]]:
    """symbol, began, top, low, back, falls, took in microseconds"""
    rows = list(csv.DictReader(io.StringIO(raw.decode(), newline=""), delimiter=";"))
    for row in rows:
        moment = datetime.datetime.strptime(row["TradeTime"] + "+0000", "%Y%m%d-%H:%M:%S.%f%z")
        row["us"] = (moment - EPOCH) // MICRO
        row["cents"] = cents_of(row["Price"])
    found = []
    for symbol, own in parts(rows, "Symbol", "us"):
        cents, times = [row["cents"] for row in own], [row["us"] for row in own]
        at = 0
        while at < len(own):
            reached = rebound_from(cents, times, at)
            if reached:
                low, back = reached
                prices = (cents[at], cents[low], cents[back])
                found.append(
                    (symbol, own[at]["TradeTime"], *prices, low - at, times[back] - times[at])
                )
                at = back
            at += 1
    return found


def rebound_from(cents: list[int | None], times: list[int], top: int) -> tuple[int, int] | None:
    """The low of the longest fall from a tick on that a rise follows, and the first such rise."""
    first, last = cents[top], top
    while (
        last + 1 < len(cents)
        and is_below(cents[last + 1], cents[last])
        and times[last + 1] - times[top] <= 4_000_000
    ):
        last += 1
    for low in range(last, top + 4, -1):
        fall = (first or 0) - (cents[low] or 0)
        if fall * 500 < (first or 0):
            continue
        for back in range(low + 1, len(cents)):
            if times[back] - times[low] > 3_000_000:
                break
            price = cents[back]
            if price is not None and (price - (cents[low] or 0)) * 2 >= fall:
                return low, back
    return None


def is_below(price: int | None, before: int | None) -> bool:
    return price is not None and before is not None and price < before
