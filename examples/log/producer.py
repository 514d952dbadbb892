#!/usr/bin/python3
"""Appends the rows of a CSV to the log, each with its number within its partition, and then a close of each partition.
Usage: producer.py PORT FILE"""
import csv
import sys

from log import APPEND, connect, lasting, shard_of, text

BATCH = 100


def events(path):
    """For each row and each close: its key, its cells, and which of the two it is."""
    keys = {}
    with open(path, encoding="utf-8", newline="") as file:
        rows = csv.reader(file)
        next(rows)
        for sym, t, p in rows:
            keys[sym] = None
            yield sym, text([sym, int(t), int(p)]), "row"
    for sym in keys:
        yield sym, "", "close"


def append(log, batch):
    """Appends a batch as it stands, also where a part of it is there already."""
    pipe = log.pipeline(transaction=False)
    for number, (key, cells, kind) in batch:
        shard = shard_of(key)
        pipe.eval(APPEND, 3, f"shard:{shard}", f"numbers:{shard}", "appended", number, text(key), cells, kind)
    pipe.execute()


def main():
    log = connect(int(sys.argv[1]))
    batch = []
    for event in enumerate(events(sys.argv[2]), 1):
        batch.append(event)
        if len(batch) == BATCH:
            lasting(lambda: append(log, batch))
            batch = []
    lasting(lambda: append(log, batch))


if __name__ == "__main__":
    main()
