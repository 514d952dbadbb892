"""What can go wrong, each as an exception of its own."""

from __future__ import annotations

from collections.abc import Hashable, Sequence
from dataclasses import dataclass
from typing import TYPE_CHECKING, Any

if TYPE_CHECKING:
    import pandas

__all__ = ["ClauseError", "DataError", "NodeError", "ProgramError", "RowmatchError", "SkipFault"]
_WIDEST = 160  # characters of a line that is shown


class RowmatchError(Exception):
    """The root of all errors of this package."""


@dataclass(frozen=True)
class Fault:
    """A fault of a clause: its kind, what is wrong, what to write, and where: the byte, line and
    column at which it begins and its length in bytes, where it has a place."""

    kind: str
    message: str
    help: tuple[str, ...] = ()
    byte: int | None = None
    length: int = 0
    line: int | None = None
    column: int | None = None

    def shown(self, clause: str) -> str:
        """The fault for a reader: its line with a mark below, and what to write."""
        lines = [f"  help: {line}" for line in self.help]
        if self.line is None or self.column is None or self.byte is None:
            return "\n".join([f"{self.kind}: {self.message}", *lines])
        number = str(self.line)
        printable = clause.encode(errors="backslashreplace").decode()  # halves of surrogate pairs
        whole = [*printable.split("\n"), ""][self.line - 1]
        line, at = _around(whole, self.column - 1)
        blank = "".join("\t" if sign == "\t" else " " for sign in line[:at])
        marked = clause.encode(errors="replace")[self.byte : self.byte + self.length]
        mark = "^" * max(1, len(marked.decode(errors="ignore").split("\n")[0]))
        return "\n".join(
            [
                f"{self.kind} in line {self.line}, column {self.column}",
                f"  {number} | {line}".rstrip(),
                f"  {' ' * len(number)} | {blank}{mark} {self.message}",
                *lines,
            ]
        )


def _around(line: str, at: int) -> tuple[str, int]:
    """A line, or of a very long one the part round a place, and where that is in it."""
    if len(line) <= _WIDEST:
        return line, at
    begin = max(0, at - _WIDEST // 2)
    front = ".." if begin else ""
    part = line[begin : begin + _WIDEST]
    rest = ".." if begin + _WIDEST < len(line) else ""
    return f"{front}{part}{rest}", at - begin + len(front)


class ClauseError(RowmatchError, ValueError):
    """The clause is refused. Its text has the line, a mark below it, and what to write.

    Attributes:
        kind: what is wrong, as docs/CLAUSE.md has it (``UnknownColumn``).
        message: the same in words.
        help: what to write, line by line.
        clause: the clause.
        offset: the character of the clause at which it is, from 0; None where it has no place.
        line: its line, from 1.
        column: its column in that line, from 1, in characters.
    """

    def __init__(self, clause: str, faults: Sequence[Fault]) -> None:
        first = faults[0]
        self.clause, self.faults = clause, tuple(faults)
        self.kind, self.message, self.help = first.kind, first.message, list(first.help)
        self.line, self.column, self.offset = first.line, first.column, None
        if first.byte is not None:
            before = clause.encode(errors="surrogatepass")[: first.byte]
            self.offset = len(before.decode(errors="surrogatepass"))
        super().__init__("\n".join(fault.shown(clause) for fault in faults))

    def __reduce__(self) -> tuple[Any, ...]:
        return type(self), (self.clause, self.faults)


class DataError(RowmatchError, ValueError):
    """The data can't be handed over as they are.

    Attributes:
        column: the label of the column that is to blame.
        row: the position of the first row that is, from 0; None where it is the column as a whole.
    """

    def __init__(self, message: str, column: Hashable, row: int | None = None) -> None:
        self.column, self.row = column, row
        super().__init__(message)

    def __reduce__(self) -> tuple[Any, ...]:
        return type(self), (str(self), self.column, self.row)


class SkipFault(RowmatchError):
    """AFTER MATCH SKIP names no row of a match, or its first: there the partition's answer ends.

    Attributes:
        faults: for each such partition its key, as the program has it (times as numbers), and
            ``SkipNoRow`` or ``SkipSame``.
        answer: all that was found, that of these partitions up to the fault.
    """

    def __init__(
        self, faults: Sequence[tuple[Sequence[Any], str]], answer: pandas.DataFrame
    ) -> None:
        self.faults, self.answer = list(faults), answer
        key, kind = self.faults[0]
        more = f" and {len(self.faults) - 1} more" if len(self.faults) > 1 else ""
        super().__init__(f"{kind} in partition {list(key)}{more}")

    def __reduce__(self) -> tuple[Any, ...]:
        return type(self), (self.faults, self.answer)


class ProgramError(RowmatchError):
    """The program isn't there, is out of memory, or ended in a way that it shouldn't.

    Attributes:
        status: its exit status, negative for a signal; None where it could not be started, or where
            the status was lost: SIGCHLD is ignored, or a handler of it waits for every child.
        reported: what it wrote on standard error.
    """

    def __init__(self, message: str, status: int | None = None, reported: str = "") -> None:
        self.status, self.reported = status, reported
        super().__init__(message)

    def __reduce__(self) -> tuple[Any, ...]:
        return type(self), (str(self), self.status, self.reported)


class NodeError(RowmatchError):
    """A node refused a line, ended the connection, or has not saved.

    Attributes:
        refused: the node's reason (``Conflict``, ``BadRow kind 2``), None where it gave none.
        request: the line that was refused.
        items: where a poll was refused or its connection failed, the items of the same call that
            came. They count as given once the node saves.
    """

    def __init__(
        self,
        message: str,
        refused: str | None = None,
        request: Any = None,
        items: Sequence[Any] = (),
    ) -> None:
        self.refused, self.request, self.items = refused, request, list(items)
        super().__init__(message)

    def __reduce__(self) -> tuple[Any, ...]:
        return type(self), (str(self), self.refused, self.request, self.items)
