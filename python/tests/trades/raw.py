"""Makes the raw file of a trade, as it comes before any preparation: the same for the same seed.

payments  CSV with a byte order mark and CR LF: a padded name, 1,234.56, three offsets from UTC,
          mixed case, missing amounts
clicks    CSV: names with blanks, milliseconds, missing events
alarms    log lines through the night in which summer time ends: WARN and warning, lines of others
ticks     CSV with semicolons: microseconds, 4,501, n/a

Each card, session, host or symbol has a history of its own, in which episodes are planted: what its
question looks for, and as often what misses it by little. One line in ten is three seconds late."""

from __future__ import annotations

import csv
import datetime
import io
import itertools
import random
import zoneinfo
from collections.abc import Iterator

BEGIN = datetime.datetime(2024, 10, 26, 20, tzinfo=datetime.timezone.utc)
BERLIN = zoneinfo.ZoneInfo("Europe/Berlin")
Line = tuple[datetime.datetime, list[str]]


def after(moment: datetime.datetime, seconds: float) -> datetime.datetime:
    return moment + datetime.timedelta(microseconds=round(seconds * 1_000_000))


def payments_of(number: int, moment: datetime.datetime, chance: random.Random) -> Iterator[Line]:
    """Card testing: three declined tries below 5.00 or more, then 100.00 or more, in 30 minutes."""
    zone = datetime.timezone(datetime.timedelta(hours=chance.choice([1, 0, -5])))

    def payment(moment: datetime.datetime, cents: int | str, status: str) -> Line:
        return moment, [
            f"tx{chance.getrandbits(40):010x}",
            f"4{number // 10_000:03} **** **** {number % 10_000:04}",
            moment.astimezone(zone).isoformat().replace("+00:00", "Z"),
            f"{cents / 100:,.2f}" if isinstance(cents, int) and cents else "",
            chance.choice(["DE", "FR", ""]),
            f"Shop, No {chance.randint(1, 400)}",
            chance.choice([status, status.title(), status.upper()]),
        ]

    while True:
        for _ in range(chance.randint(5, 40)):
            moment = after(moment, chance.randint(60, 20_000))
            usual = [chance.randint(500, 9_999), chance.randint(500, 900_000), ""]
            yield payment(moment, chance.choice(usual), "approved")
        misses = ["", "", "", "", "late", "few", "approved", "cheap", "dear try", "missing"]
        miss = chance.choice(misses)
        first = moment = after(moment, chance.randint(3_600, 20_000))
        for n in range({"": chance.randint(3, 6), "few": 2}.get(miss, 3)):
            own = {"dear try": 500, "missing": ""}.get(miss, 499)
            cents = own if n == 1 else chance.randint(1, 499)
            status = "approved" if miss == "approved" and n == 1 else "declined"
            yield payment(moment, cents, status)
            moment = after(moment, chance.randint(1, 250))
        moment = after(first, 1801 if miss == "late" else chance.choice([1790, 1800]))
        yield payment(
            moment, 9_999 if miss == "cheap" else chance.choice([10_000, 123_456]), "approved"
        )


def clicks_of(number: int, moment: datetime.datetime, chance: random.Random) -> Iterator[Line]:
    """A funnel: a view, then something in the cart, then a purchase, within an hour of the view."""

    def click(moment: datetime.datetime, event: str) -> Line:
        millis = f"{moment.microsecond // 1000:03}"
        return moment, [f"s-{number:06}", f"{moment:%Y-%m-%d %H:%M:%S}.{millis} UTC", event]

    while True:
        miss = chance.choice(["", "", "late", "no cart", "cart last", "no purchase"])
        viewed = moment = after(moment, chance.randint(4_000, 30_000))
        yield click(viewed, "page_view")
        others = ["search", "", "search" if miss == "late" else "page_view"]
        steps = {"no cart": ["search"], "cart last": ["purchase", "add_to_cart"]}
        for event in steps.get(miss, ["add_to_cart"]):
            for step in chance.choices(others, k=chance.randint(0, 9)) + [event]:
                moment = after(moment, chance.randint(1, 100_000) / 1_000)
                yield click(moment, step)
        if miss in ("", "late", "no cart"):
            moment = after(viewed, 3_600.001 if miss == "late" else chance.choice([3_600, 3_100.5]))
            yield click(moment, "purchase")


def alarms_of(number: int, moment: datetime.datetime, chance: random.Random) -> Iterator[Line]:
    """Flapping: four changes of state or more within five minutes."""

    def alarm(moment: datetime.datetime, firing: bool) -> Line:
        severity = chance.choice(["WARN", "warning", "critical", ""])
        text = f"severity={severity} state={'firing' if firing else 'resolved'}"
        told = f"alarm host=edge-{number:04} check=disk {text}"
        told = told if chance.random() < 0.99 else "-- MARK --"
        return moment, [
            f"{moment.astimezone(BERLIN).isoformat(timespec='seconds')} mond[812]: {told}"
        ]

    for episode in itertools.count():
        for _ in range(chance.randint(10, 30)):
            moment = after(moment, chance.randint(30, 700))
            yield alarm(moment, chance.random() < 0.2)
        first = after(moment, 400)
        kinds = [(4, 300), (4, 301), (3, 299), (chance.randint(5, 9), 290)]
        changes, seconds = chance.choice(kinds)
        for n in range(changes + 1):
            moment = after(first, seconds * n // changes)
            yield alarm(moment, bool((n + episode) % 2))


def ticks_of(number: int, moment: datetime.datetime, chance: random.Random) -> Iterator[Line]:
    """A fall of five ticks or more in a row, by 0.20 % or more, within 4 seconds, then a rise by
    half of it within 3."""

    def tick(moment: datetime.datetime, cents: int | None) -> Line:
        price = f"{cents / 100:.2f}" if cents else "n/a"
        return moment, [
            f"{moment:%Y%m%d-%H:%M:%S.%f}",
            f"SYM{number:03}",
            price,
            f"{chance.randint(1, 9_000):,}",
            chance.choice("BS"),
        ]

    top = chance.randint(3_000, 90_000)
    while True:
        for _ in range(chance.randint(40, 300)):
            moment = after(moment, chance.uniform(0.001, 0.9))
            top = max(2_000, top + chance.choice([-1, 0, 1]))
            yield tick(moment, top if chance.random() < 0.99 else None)
        miss = chance.choice(["", "", "", "few", "small", "plateau", "late", "weak"])
        falls = 4 if miss == "few" else chance.randint(5, 9)
        fall = max(falls, top // 500 + (0 if miss == "small" else chance.randint(1, 20)))
        for n in range(falls + 1):
            moment = after(moment, chance.uniform(0.001, 0.4))
            yield tick(moment, top - fall * (n - (miss == "plateau" and n == 3)) // falls)
        moment = after(moment, 3.000_001 if miss == "late" else chance.choice([3, 0.9]))
        top = top - fall // 2 - (miss == "weak")
        yield tick(moment, top)


# Of each trade: the lines of one card, session, host or symbol; how many of them; the file's first
# line, its delimiter, the ends of its lines.
PAYMENTS = "\ufeffTxn Id,Card No,Booked At, Amount (EUR) ,Country,Merchant,Status\r\n"
TRADES = {
    "payments": (payments_of, 50, PAYMENTS, ",", "\r\n"),
    "clicks": (clicks_of, 50, "session id,event time,event name\n", ",", "\n"),
    "alarms": (alarms_of, 100, "", "\t", "\n"),
    "ticks": (ticks_of, 2_000, "TradeTime;Symbol;Price;Qty;Side\n", ";", "\n"),
}


def raw(trade: str, seed: int, rows: int) -> bytes:
    """The raw file of a trade with so many rows."""
    chance = random.Random(seed)
    lines_of, each, first_line, delimiter, line_end = TRADES[trade]

    def histories() -> Iterator[Iterator[Line]]:
        for number in itertools.count():
            begin = after(BEGIN, chance.randint(0, 3_600))
            yield itertools.islice(lines_of(number, begin, chance), each)

    made = list(itertools.islice(itertools.chain.from_iterable(histories()), rows))
    made.sort(key=lambda line: after(line[0], chance.choice([0] * 9 + [3])))
    text = io.StringIO(newline="")
    text.write(first_line)
    writer = csv.writer(text, delimiter=delimiter, lineterminator=line_end)
    writer.writerows(fields for _, fields in made)
    return text.getvalue().encode()
