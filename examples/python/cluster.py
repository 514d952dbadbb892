#!/usr/bin/env python3
"""Millions of ticks on Dask: one call on one process, then workers of 1, 2 and 4 processes, then
one of four killed in the middle. Each answer has to be that of the one call. Prints the seconds of
each, and the processor seconds of the busiest process with the programs that it ran: what the real
ones come to where no other work is in the way.

Usage: cluster.py [--ticks N] [--processes N ..]"""

from __future__ import annotations

import argparse
import os
import resource
import signal
import time

import dask
import dask.dataframe as dd
import numpy as np
import pandas as pd
from distributed import Client, LocalCluster, as_completed, futures_of

import rowmatch.dask

CLAUSE = """
    PARTITION BY sym ORDER BY us
    MEASURES A.us AS began, A.price AS top, LAST(D.price) AS low, U.price AS back,
             COUNT(D.*) AS falls
    PATTERN (A D{5,} U)
    DEFINE D AS price < PREV(price), U AS price > PREV(price)"""
PART = 100_000


def ticks(number: int) -> pd.DataFrame:
    """A part of the ticks: 1,500 symbols, and one tick in ten three seconds late."""
    chance = np.random.default_rng(number)
    us = (number * PART + np.arange(PART)) * 40
    us[chance.random(PART) < 0.1] -= 3_000_000
    symbol = chance.integers(0, 1_500, PART)
    price = 10_000 + symbol + chance.integers(-60, 60, PART)
    names = np.array([f"SYM{n:04}" for n in range(1_500)], dtype=object)
    return pd.DataFrame(
        {"sym": names[symbol], "us": us, "price": price, "qty": chance.random(PART)}
    )


def in_order(answer: pd.DataFrame) -> pd.DataFrame:
    """An answer with its partitions by name, each in the order that it has."""
    return answer.sort_values("sym", kind="stable").reset_index(drop=True)


def used() -> float:
    """Processor seconds of this process and of the programs that it ran."""
    own, ran = map(resource.getrusage, (resource.RUSAGE_SELF, resource.RUSAGE_CHILDREN))
    return own.ru_utime + own.ru_stime + ran.ru_utime + ran.ru_stime


def report(
    what: str, real: float, busiest: float, answer: pd.DataFrame, wanted: pd.DataFrame
) -> None:
    load = f"load {os.getloadavg()[0]:.1f}"
    print(
        f"{what:30} {real:5.1f} s, busiest {busiest:5.1f} s, {load}, {len(answer)} answers",
        flush=True,
    )
    if not in_order(answer).equals(in_order(wanted)):
        raise SystemExit("another answer")


def ask(data: dd.DataFrame, processes: int, wanted: pd.DataFrame) -> None:
    with LocalCluster(n_workers=processes, threads_per_worker=1, dashboard_address=None) as cluster:
        with Client(cluster) as client:
            client.wait_for_workers(processes)
            began, before = time.monotonic(), client.run(used)
            answer = rowmatch.dask.match(data, CLAUSE).compute()
            real, after = time.monotonic() - began, client.run(used)
            busiest = max(after[worker] - before[worker] for worker in after)
            report(f"Dask, {processes} processes", real, busiest, answer, wanted)


def ask_and_kill(data: dd.DataFrame, processes: int, wanted: pd.DataFrame) -> None:
    """Kills a worker once a part of the answer is there."""
    with LocalCluster(n_workers=processes, threads_per_worker=1, dashboard_address=None) as cluster:
        with Client(cluster) as client:
            client.wait_for_workers(processes)
            began = time.monotonic()
            answer = client.persist(rowmatch.dask.match(data, CLAUSE))
            next(as_completed(futures_of(answer)))
            victim = sorted(client.run(os.getpid).values())[0]
            os.kill(victim, signal.SIGKILL)
            found = answer.compute()
            real, busiest = time.monotonic() - began, max(client.run(used).values())
            report(f"Dask, {processes} processes, one killed", real, busiest, found, wanted)


def main() -> None:
    parser = argparse.ArgumentParser(description=__doc__)
    parser.add_argument("--ticks", type=int, default=4_000_000)
    parser.add_argument("--processes", type=int, nargs="*", default=[1, 2, 4])
    options = parser.parse_args()
    numbers = range(options.ticks // PART)
    whole = pd.concat(map(ticks, numbers), ignore_index=True)
    began, before = time.monotonic(), used()
    wanted = rowmatch.match(whole, CLAUSE)
    report("one call without Dask", time.monotonic() - began, used() - before, wanted, wanted)
    data = dd.from_map(ticks, numbers, meta=ticks(0).head(0))
    try:
        rowmatch.dask.match(data, CLAUSE.replace("D.price", "D.prise"))
        raise SystemExit("a wrong clause wasn't refused")
    except rowmatch.ClauseError as error:
        print(f"a wrong clause is refused before anything runs: {error.message}")
    for processes in options.processes:
        ask(data, processes, wanted)
    ask_and_kill(data, max(options.processes), wanted)


if __name__ == "__main__":
    with dask.config.set({"distributed.comm.timeouts.connect": "120s"}):
        main()
