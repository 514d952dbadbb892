#!/usr/bin/env python3
"""The steps of a notebook, from a raw file of payments to the cards that were tested before use.

Each part below a `# %%` is a cell. It prints what a notebook shows; `answer` has that."""

# %% The file as it came: a byte order mark, padded names, 1,234.56, three offsets, mixed case.
from pathlib import Path

import pandas as pd

import rowmatch

raw = Path(__file__).with_name("payments.csv")
payments = pd.read_csv(raw, encoding="utf-8-sig", thousands=",")
print(payments.head(3).to_string())

# %% Columns that a clause can speak of: times in one zone, texts in one case, short names.
payments["t"] = pd.to_datetime(payments["Booked At"], utc=True)
payments["Status"] = payments["Status"].str.lower()
payments = payments.rename(columns={" Amount (EUR) ": "amount", "Card No": "card", "Txn Id": "txn"})

# %% The question: three declined tries or more below 5.00, then 100.00 or more, in 30 minutes.
question = """
    PARTITION BY card ORDER BY t
    MEASURES FIRST(TRY.t) AS first_try, COUNT(TRY.*) AS tries, BIG.amount AS amount, BIG.txn AS txn
    PATTERN (TRY{3,} BIG)
    DEFINE TRY AS amount < 500 AND status = 'declined',
           BIG AS amount >= 10000 AND t - FIRST(TRY.t) <= 1800"""
tested = rowmatch.match(payments, question, columns={"amount": "decimal(2)"}, times="seconds")
print(tested.to_string())

# %% By how much? Loosen one demand at a time.
for what, old, new in [
    ("two tries are enough", "{3,}", "{2,}"),
    ("an hour is enough", "1800", "3600"),
    ("whatever the status", " AND status = 'declined'", ""),
]:
    loosened = question.replace(old, new)
    answer = rowmatch.match(payments, loosened, columns={"amount": "decimal(2)"}, times="seconds")
    print(f"{what}: {len(answer)} episodes instead of {len(tested)}")

# %% All rows of each episode, back in the frame: ALL ROWS PER MATCH keeps the index.
every = question.replace("PATTERN", "ALL ROWS PER MATCH PATTERN")
every = every.replace("BIG.amount AS amount, BIG.txn AS txn", "MATCH_NUMBER() AS episode")
rows = rowmatch.match(payments, every, columns={"amount": "decimal(2)"}, times="seconds")
payments["episode"] = rows["episode"]
one = payments[payments["card"] == tested["card"].iloc[0]].sort_values("t")
print(one.loc[one["episode"].notna(), ["t", "amount", "Status", "Merchant", "episode"]].to_string())

# %% A slip is reported with its place.
try:
    rowmatch.match(payments, question.replace("COUNT(TRY.*)", "COUNT(TRIES.*)"))
except rowmatch.ClauseError as error:
    print(error)
