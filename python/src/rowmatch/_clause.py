"""What the program says of a clause: the columns that it names, its measures, its faults."""

from __future__ import annotations

import functools
import json
from collections.abc import Mapping
from dataclasses import dataclass
from typing import Any

from ._program import NO_LIMIT, Limit, program, run
from .errors import ClauseError, Fault, ProgramError


@dataclass(frozen=True)
class Measure:
    """A measure: its name as the caller wrote it, its kind (int or text), and the column of which
    it is a value, unchanged, where it is one."""

    written: str
    kind: str
    source: str | None


@dataclass(frozen=True)
class Clause:
    """What a clause asks. Columns go by their names in the table; ``reads`` has all that it names,
    in the table's order."""

    reads: tuple[str, ...]
    partition_by: tuple[str, ...]
    order_by: tuple[str, ...]
    measures: tuple[Measure, ...]
    all_rows: bool

    def output(self, table: list[str]) -> list[str | Measure]:
        """The columns of the answer over a table: names of its columns, and measures."""
        if not self.all_rows:
            return [*self.partition_by, *self.measures]
        first = [*self.partition_by, *self.order_by]
        return [*first, *self.measures, *(name for name in table if name not in first)]


def quoted(name: str) -> str:
    """A name in double quotes, as a table and a clause have it letter for letter."""
    return '"' + name.replace('"', '""') + '"'


def table_of(kinds: Mapping[str, str]) -> str:
    """The text of ``--table``: names letter for letter, each with its kind."""
    return ", ".join(f"{quoted(name)} {kind}" for name, kind in kinds.items())


def read(kinds: Mapping[str, str], clause: str, limit: Limit = NO_LIMIT) -> Clause:
    """Asks the program what a clause is over these columns; a `ClauseError` says what is wrong."""
    if not isinstance(clause, str):
        raise TypeError(f"the clause is a {type(clause).__name__} and no text")
    try:
        clause.encode()
    except UnicodeEncodeError as error:
        raise ClauseError(clause, [_half_pair(clause, error.start)]) from None
    said = json.loads(_said(program(), table_of(kinds), clause, limit))
    faults = [fault for fault in said["faults"] if fault["text"] == "clause"]
    if len(faults) < len(said["faults"]):
        raise ProgramError(f"the program refused what this package wrote: {said['faults'][0]}", 1)
    if faults:
        raise ClauseError(clause, [_fault(fault) for fault in faults])
    return _clause(said["clause"], kinds)


def noted(columns: str, clause: str, limit: Limit = NO_LIMIT) -> list[str]:
    """What the program says of a clause over columns as ``--columns`` has them, as of columns in
    different units that it compares."""
    said = json.loads(_said(program(), columns, clause, limit, "--columns-file"))
    return [note["message"] for note in said.get("notes", ())]


@functools.lru_cache(maxsize=64)
def _said(path: str, table: str, clause: str, limit: Limit, option: str = "--table-file") -> str:
    """The line that ``check --format json`` prints."""
    ran = run(["check", "--format", "json"], table, clause, limit=limit, option=option)
    if ran.status not in (0, 1) or not ran.printed:
        raise ran.failed()
    return ran.printed.decode()


def _clause(said: dict[str, Any], kinds: Mapping[str, str]) -> Clause:
    all_rows = said["rows_per_match"] != "one"
    first = len(said["partition_by"]) + (len(said["order_by"]) if all_rows else 0)
    # With ALL ROWS PER MATCH a measure has no column's name, and what has one is a column.
    measures = [
        Measure(column["written"], column["kind"], column["from"])
        for column in said["output"][first:]
        if not (all_rows and column["name"] in kinds)
    ]
    names = [tuple(said[part]) for part in ("reads", "partition_by", "order_by")]
    return Clause(names[0], names[1], names[2], tuple(measures), all_rows)


def _fault(said: dict[str, Any]) -> Fault:
    place = (said.get("byte"), said.get("length", 0), said.get("line"), said.get("column"))
    return Fault(said["kind"], said["message"], tuple(said["help"]), *place)


def _half_pair(clause: str, at: int) -> Fault:
    """The fault of a clause that can't be written in UTF-8."""
    before = clause[:at]
    byte = len(before.encode())
    line, column = before.count("\n") + 1, at - before.rfind("\n")
    message = "half of a surrogate pair, which is no character"
    return Fault("BadChar", message, (), byte, 1, line, column)
