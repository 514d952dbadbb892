"""Holds the program to the plain evaluation of plain.py over random cases, for `.ci/random` and `.ci/answers`. A case has a clause, its
table, its rows, the lives of a node, and says behind which packets the node is polled."""
import csv
import json
import os
import pathlib
import signal
import subprocess
import sys
import tempfile
from concurrent.futures import ThreadPoolExecutor
from typing import NamedTuple

import plain

TOP = os.path.dirname(os.path.dirname(os.path.realpath(__file__)))


class Wrong(Exception):
    """What came isn't what had to come."""


class Case:
    """What a case is where it says nothing else: lines of JSON over a CSV, of all rows, by the clause as it is."""

    format, source, where = "lines", "csv", None

    def text(self):
        return self.clause.text()


def field(value):
    text = "" if value is None else str(value)
    return '"' + text.replace('"', '""') + '"' if any(mark in text for mark in ',"\r\n') else text


def records(columns, rows):
    return "".join(",".join(map(field, record)) + "\n" for record in [columns, *(row.values() for row in rows)])


def objects(rows):
    return "".join(json.dumps(row, ensure_ascii=False) + "\n" for row in rows)


def has_match(clause, rows):
    return any(line.get("number") for key, part in clause.partitions(rows).items() for line in clause.lines(key, part))


def looked_at(case):
    """The rows that meet the condition of --where, each by itself."""
    if case.where is None:
        return case.rows
    return [row for row in case.rows if case.where.value(plain.Look([row], 1, ("",), 1)) is True]


def printed(case):
    """What `whole` prints: the lines of each partition, in the order of their first rows, or a table of what is in the matches. And the
    status that it ends with."""
    clause = case.clause
    lines = [line for key, rows in clause.partitions(looked_at(case)).items() for line in clause.lines(key, rows)]
    if case.format == "lines":
        return lines, 0
    cells = [line["cells"] for line in lines if "cells" in line]
    status = int(any("fault" in line for line in lines))
    if case.format == "objects":
        return [list(zip(clause.output_columns(), row)) for row in cells], status
    fields = [clause.output_columns(), *(["" if cell is None else str(cell) for cell in row] for row in cells)]
    return [record or [""] for record in fields], status


def read_back(case, text):
    """What was printed, as `printed` gives it. A field of CSV with a line end in it doesn't come in these cases."""
    if case.format == "csv":
        return list(csv.reader(text.split("\n")[:-1]))
    return [json.loads(line, object_pairs_hook=list if case.format == "objects" else dict) for line in text.split("\n")[:-1]]


def by_whole(program, case):
    """Holds what `whole` prints, and its status, to what it has to print."""
    words = [program, "whole", "--table", case.table, "--clause", case.text(), "--format", case.format, "--from", case.source]
    words += [] if case.where is None else ["--where", case.where.text]
    rows = objects(case.rows) if case.source == "jsonl" else records(case.clause.columns, case.rows)
    ran = subprocess.run(words, input=rows.encode(), capture_output=True, timeout=60)
    wanted, status = printed(case)
    if ran.returncode != status:
        raise Wrong(f"status {ran.returncode}: {ran.stderr.decode().strip()}")
    found = read_back(case, ran.stdout.decode())
    if found != wanted:
        raise Wrong(f"wanted {wanted}\n  found  {found}")
    return has_match(case.clause, looked_at(case))


class Partition:
    """What a node has of a partition: the numbers of its rows, whether it was closed, and how many lines it gave."""

    def __init__(self, clause, key, rows):
        self.clause, self.key, self.rows = clause, key, rows
        self.numbers, self.is_closed, self.given = set(), False, 0

    def copy(self):
        part = Partition(self.clause, self.key, self.rows)
        part.numbers, part.is_closed, part.given = set(self.numbers), self.is_closed, self.given
        return part

    def deliver(self, ask, number):
        """Hands over a row, or the close where there is no number, and holds the reply to whether the node had it before."""
        is_known = self.is_closed if number is None else number in self.numbers
        if number is None:
            self.is_closed, line = True, {"close": len(self.rows), "key": list(self.key)}
        else:
            self.numbers.add(number)
            line = {"row": number, "cells": [*self.rows[number - 1].values()]}
        reply = ask(line)
        if reply not in ([{"taken": "repeat"}, {"taken": "old"}] if is_known else [{"taken": "new"}]):
            raise Wrong(f"{line} is answered {reply}, and the node had it before: {is_known}")

    def due(self):
        """The lines that the rows up to the first missing one decide, but for those that were given."""
        front = next(number for number in range(len(self.rows) + 1) if number + 1 not in self.numbers)
        return self.clause.lines(self.key, self.rows[:front], self.is_closed and front == len(self.rows))[self.given:]

    def drain(self, ask, budget):
        """Polls the node until it is idle, and holds what it gives to what is due."""
        found = []
        while "idle" not in (reply := ask({"poll": list(self.key), "budget": budget})):
            found += [] if "paused" in reply else [reply]
        due = self.due()
        if found != due:
            raise Wrong(f"over {len(self.rows)} rows, closed: {self.is_closed}, behind {sorted(self.numbers)} wanted {due}\n  found  {found}")
        self.given += len(due)


def deliver(ask, case, parts, packets):
    for key, number in packets:
        parts[key].deliver(ask, number)
        if case.polls_behind(key, number):
            parts[key].drain(ask, case.dice.choice([1, 7, 1000, 100_000]))


class Life(NamedTuple):
    """What comes to a node while it runs: which of the files that were saved it begins from, the last one where nothing is said, the
    packets, and whether it is killed behind them in place of saving."""

    packets: list
    begins_at: int = -1
    is_killed: bool = False


class Saves:
    """The file of a node, as each life that wasn't killed left it, with what the node has by it. Before the first life there is none."""

    def __init__(self, folder, parts):
        self.file, self.saves = pathlib.Path(folder, "state"), [(None, parts)]

    def go_back(self, at):
        """Puts a file in its place, and gives what a node has that begins from it."""
        content, parts = self.saves[at]
        self.file.unlink(missing_ok=True)
        if content is not None:
            self.file.write_bytes(content)
        return {key: part.copy() for key, part in parts.items()}

    def keep(self, parts):
        self.saves.append((self.file.read_bytes() if self.file.exists() else None, parts))


def live(node, case, parts, life):
    """One connection to a node, which is killed while it is open, or saves at its end."""
    from sockets import Conversation

    try:
        with Conversation(node) as wire:
            deliver(lambda line: json.loads(wire.ask(json.dumps(line, separators=(",", ":")) + "\n")), case, parts, life.packets)
            if life.is_killed:
                node.kill()
        status, told = node.ended()
    finally:
        node.kill()
    if status != (-signal.SIGKILL if life.is_killed else 0):
        raise Wrong(f"the node ended with status {status}: {told}")


def by_node(program, case):
    """A node gives what the rows decide that it has, no line less and none more, over all its lives: each is a process of its own, which
    begins from a file that one before it saved."""
    sys.argv[1:] = [program]  # of which the edges of a node read the program
    from sockets import Node

    parts = {key: Partition(case.clause, key, rows) for key, rows in case.clause.partitions(case.rows).items()}
    with tempfile.TemporaryDirectory(dir="/dev/shm" if os.path.isdir("/dev/shm") else None) as folder:
        saves = Saves(folder, parts)
        for life in case.lives(parts):
            parts = saves.go_back(life.begins_at)
            live(Node(str(saves.file), clause=case.text(), table=case.table), case, parts, life)
            if not life.is_killed:
                saves.keep(parts)
    return has_match(case.clause, case.rows)


def play(case, ask, program):
    """Whether a case has a match, None where it takes too long, or what is wrong."""
    try:
        return ask(program, case)
    except (plain.TooLong, RecursionError):
        return None
    except Wrong as wrong:
        return f"{case.text()}\n  rows {[tuple(row.values()) for row in case.rows[-20:]]}\n  {wrong}"


def main(case_of, words, ask=by_whole):
    """Plays the cases of some seeds, and ends with status 1 where one is wrong or none has a match."""
    name = os.path.basename(words[0])
    ask = by_node if "--node" in words else ask
    words = [word for word in words[1:] if word != "--node"]
    program = os.path.realpath(words[0]) if words else os.path.join(TOP, "crates/rowmatch/out/rowmatch")
    count, seed = int(words[1]) if len(words) > 1 else 300, int(words[2]) if len(words) > 2 else 1
    sys.path.insert(1, os.path.join(TOP, ".ci/edges"))
    with ThreadPoolExecutor(os.cpu_count()) as pool:
        told = list(pool.map(lambda at: play(case_of(at), ask, program), range(seed, seed + count)))
    wrong = [(at, text) for at, text in enumerate(told, seed) if isinstance(text, str)]
    for at, text in wrong[:5]:
        print(f"case {at}: {text}")
    print(f".ci/{name}: {told.count(True)} cases with a match, {told.count(False)} without, {told.count(None)} left out as too long, {len(wrong)} wrong")
    sys.exit(1 if wrong or not told.count(True) else 0)
