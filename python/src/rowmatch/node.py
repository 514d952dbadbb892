"""A client of ``rowmatch node``, and the numbering of rows that nodes want. Without pandas."""

from __future__ import annotations

import contextlib
import heapq
import json
import os
import re
import socket
import threading
from collections.abc import Iterable, Iterator, Mapping, Sequence, Set
from dataclasses import dataclass
from numbers import Integral
from operator import index
from types import TracebackType
from typing import Any, Union

from .errors import NodeError

__all__ = ["Item", "Node", "Numbering"]
Value = Union[int, str, None]
Row = Sequence[Value]
# So many bytes under way fit into the buffers between: neither side waits for the other to read.
_BYTES = 32_768
_LINES = 1_000
_AGAIN = "send again what was sent since the last commit"
_COMMITTED = "commit has ended this connection: open another Node"
_ENDED = f"this connection has ended: open another Node, and {_AGAIN}"
_LOST = "items that didn't arrive may count as given: begin with a copy of the node's file"


@dataclass(frozen=True)
class Item:
    """An item of a partition's answer. Of two with the same key and place the second is a repeat.

    ``number`` is the match's number, None for a row in no match. ``fault`` is ``SkipNoRow`` or
    ``SkipSame`` where a skip fault ended the answer; ``end`` is true where it is over.
    """

    key: tuple[Value, ...]
    place: int
    cells: tuple[Value, ...] = ()
    number: int | None = None
    fault: str | None = None
    end: bool = False


class Numbering:
    """Numbers rows as a node wants them: from 1 in each partition, in the order of ORDER BY.

    Rows may come late: each is held back until one came that is later by ``hold``. A row that comes
    later still, when one behind it has its number already, can't be put in any more: it goes to
    ``late``.

    Args:
        key: the columns of PARTITION BY, by position; none for a single partition.
        time: the column of ORDER BY, by position: whole numbers, ascending.
        hold: how far a row may come behind a later one, in the unit of the time.
        kept: what `keep` gave, to go on from there.

    Attributes:
        numbers: how many rows of each key were numbered.
        late: the rows that came too late. It only grows until you clear it, and `keep` leaves it
            out.

    Examples:
        >>> numbering = Numbering(key=[0], time=1, hold=10)
        >>> [numbering.add(row) for row in [("x", 5), ("x", 3), ("y", 20), ("x", 4)]]
        [[], [], [(1, ('x', 3)), (2, ('x', 5))], []]
        >>> numbering.rest(), numbering.late
        ([(1, ('y', 20))], [('x', 4)])
    """

    def __init__(
        self, key: Sequence[int], time: int, hold: int, kept: Mapping[str, Any] | None = None
    ) -> None:
        kept = kept or {"newest": None, "numbered": [], "held": []}
        self._key, self._time, self._hold = tuple(key), time, hold
        self._newest: int | None = kept["newest"]
        self._last = {tuple(of): last for of, _, last in kept["numbered"]}
        self.numbers: dict[tuple[Value, ...], int] = {
            tuple(of): number for of, number, _ in kept["numbered"]
        }
        held = [tuple(row) for row in kept["held"]]
        self._held: list[tuple[int, int, Row]] = [
            (self._time_of(row), at, row) for at, row in enumerate(held)
        ]
        self._arrivals = len(held)
        self.late: list[Row] = []

    def keep(self) -> dict[str, Any]:
        """All that it knows but the late rows, for `json.dumps`: store it together with the
        position in the log behind the last row that was added, and go on from both."""
        numbered = [[_plain(of), number, self._last[of]] for of, number in self.numbers.items()]
        held = [_plain(row) for _, _, row in sorted(self._held, key=lambda entry: entry[:2])]
        return {"newest": self._newest, "numbered": numbered, "held": held}

    def add(self, row: Row) -> list[tuple[int, Row]]:
        """Takes a row; gives the rows that have their numbers by now, for `Node.rows`."""
        time = self._time_of(row)
        if time < self._last.get(self._of(row), time):
            self.late.append(row)
            return []
        heapq.heappush(self._held, (time, self._arrivals, row))
        self._arrivals += 1
        self._newest = time if self._newest is None else max(self._newest, time)
        return self._numbered(self._newest - self._hold)

    def rest(self) -> list[tuple[int, Row]]:
        """The rows that are held back still, where none will come any more."""
        return self._numbered(None)

    def _numbered(self, until: int | None) -> list[tuple[int, Row]]:
        """Numbers the rows that are held up to a time."""
        ready: list[tuple[int, Row]] = []
        while self._held and (until is None or self._held[0][0] <= until):
            time, _, row = heapq.heappop(self._held)
            key = self._of(row)
            self._last[key] = time
            self.numbers[key] = self.numbers.get(key, 0) + 1
            ready.append((self.numbers[key], row))
        return ready

    def _of(self, row: Row) -> tuple[Value, ...]:
        return tuple(row[position] for position in self._key)

    def _time_of(self, row: Row) -> int:
        time = row[self._time]
        if not isinstance(time, Integral):
            raise TypeError(f"the time of {row} is no whole number")
        return int(time)


class Node:
    """A connection to a node that runs with ``--acknowledge``. What was sent is kept by the node
    once `commit` returned, and may be lost before. Threads may share one: each call gets the
    replies to its own lines.

    Examples:
        >>> with rowmatch.Node("127.0.0.1:7431") as node:               # doctest: +SKIP
        ...     node.rows([(1, ("eve", 1000, "fail")), (2, ("eve", 1050, "ok"))])
        ...     for item in node.poll(["eve"], ["bob"]):
        ...         print(item.cells)
        ...     node.commit()
    """

    def __init__(self, address: str, *, timeout: float | None = 60) -> None:
        """Connects to ``HOST:PORT``; a `NodeError` says why there is no connection. Where the node
        doesn't answer for ``timeout`` seconds, that is one too; it serves one connection after the
        other, so a second one waits for the first to end.
        """
        place = _place_of(address)
        try:
            self._socket = socket.create_connection(place, timeout=timeout)
        except OSError as error:
            raise NodeError(f"no connection to the node at {address}: {error}") from error
        self._socket.setsockopt(socket.SOL_SOCKET, socket.SO_SNDBUF, 2 * _BYTES)
        self._replies = self._socket.makefile("rb")
        self._process = os.getpid()
        self._answered = 0
        self._is_missing = False  # whether lines were sent whose replies weren't read
        self._ended: str | None = None  # what to say of calls once the connection has ended
        # Held from lines to their replies, of which each thread gets its own. A handler of a signal
        # may come in between, in the same thread.
        self._turn = threading.RLock()

    def rows(self, rows: Iterable[tuple[int, Row]]) -> int:
        """Sends rows, each with its number in its partition, from 1. Gives how many were new to the
        node: it has taken the others before."""
        requests = ({"cells": _values(cells), "row": index(number)} for number, cells in rows)
        new = 0
        for request, reply in self._ask(requests):
            _look_at_refusal(request, reply, [])
            new += reply.get("taken") == "new"
        return new

    def close(self, key: Row, count: int) -> None:
        """Says that a partition has so many rows and no more."""
        for request, reply in self._ask([{"close": index(count), "key": _values(key)}]):
            _look_at_refusal(request, reply, [])

    def poll(self, *keys: Row, budget: int = 1_000_000) -> list[Item]:
        """The items of partitions that are certain and were not given before.

        A partition's search takes ``budget`` steps at most before it is the next one's turn, and
        all go on until none has more to give. A small one lets other clients' calls in sooner and
        costs more; the items are the same.

        What a connection gave counts as given once the node saves at its end, whether or not it
        arrived: store items before you `commit`. Where a poll is refused or the connection fails,
        the error has the items that came. After a call that was interrupted, as by Ctrl-C, each
        further one is a `NodeError`, `commit` too."""
        items: list[Item] = []
        due, turns = [_values(key) for key in keys], index(budget)
        if turns < 1:
            raise ValueError(f"budget={budget!r} is less than 1, and no poll would ever end")
        self._look_at_end()
        try:
            while due:
                due = self._polled(due, turns, items)
        except NodeError:
            raise
        except BaseException as error:
            # The items that came are lost with this call; where it was interrupted some may have.
            with self._turn:
                self._is_missing |= bool(items) or not isinstance(error, Exception)
            raise
        return items

    def _polled(self, keys: list[list[Value]], budget: int, items: list[Item]) -> list[list[Value]]:
        """Polls each partition once, puts the items behind those that came before, and gives the
        keys of those that aren't idle."""
        answered: list[tuple[Any, Any]] = []
        try:
            for request, reply in self._ask({"budget": budget, "poll": key} for key in keys):
                answered.append((request, reply))
                if "place" in reply:
                    items.append(_item(reply))
        except NodeError as error:
            raise NodeError(f"{error}; {_LOST}", items=items) from error
        for request, reply in answered:
            _look_at_refusal(request, reply, items)
        return [asked["poll"] for asked, reply in answered if "paused" in reply or "cells" in reply]

    def commit(self) -> None:
        """Ends the connection, and returns once the node has written that all that was sent on it
        is saved. Where it doesn't write that, it was killed, its disk is full, or it runs without
        ``--acknowledge``: a `NodeError`, and nothing can be relied on that was sent. To send more
        open another `Node`."""
        try:
            with self._turn:
                self._look_at_state()
                self._ended = _COMMITTED
                self._socket.shutdown(socket.SHUT_WR)
                line = self._replies.read()
        except OSError as error:
            raise NodeError(f"the connection to the node failed ({error}): {_AGAIN}") from error
        finally:
            self._end()
        if not line:
            message = "the node hasn't written that it saved, or runs without --acknowledge"
            raise NodeError(f"{message}: {_AGAIN}")
        if _parsed(line) != {"saved": self._answered}:
            message = f"the node wrote {line[:100]!r}, and {self._answered} lines were answered"
            raise NodeError(f"{message}: {_AGAIN}")

    def disconnect(self) -> None:
        """Ends the connection without a `commit`, as the end of ``with`` does: what was sent may be
        kept by the node or lost. Nothing happens where it has ended."""
        self._end()

    def __enter__(self) -> Node:
        return self

    def __exit__(
        self,
        kind: type[BaseException] | None,
        error: BaseException | None,
        trace: TracebackType | None,
    ) -> None:
        self._end()

    def _end(self) -> None:
        """Ends the connection, also where a process that was forked meanwhile has it open too. There
        it only goes."""
        if os.getpid() == self._process:
            with contextlib.suppress(OSError):
                self._socket.shutdown(socket.SHUT_RDWR)
        self._ended = self._ended or _ENDED
        self._replies.close()
        self._socket.close()

    def _ask(self, requests: Iterable[dict[str, Any]]) -> Iterator[tuple[Any, Any]]:
        """Sends lines, as many at once as may be under way, and gives each with its reply. All
        replies to the lines of one time are read before the first is given, so none is left for the
        next call. Where the connection fails, those that came are given first.
        """
        asked: list[dict[str, Any]] = []
        lines: list[bytes] = []
        size = 0
        for request in requests:
            line = _line_of(request)
            if lines and (len(lines) == _LINES or size + len(line) > _BYTES):
                yield from self._exchange(asked, lines)
                asked, lines, size = [], [], 0
            asked.append(request)
            lines.append(line)
            size += len(line)
        yield from self._exchange(asked, lines)

    def _exchange(
        self, requests: list[dict[str, Any]], lines: list[bytes]
    ) -> Iterator[tuple[Any, Any]]:
        """Requests, whose lines are sent, each with its reply; where the connection fails, those
        whose replies came, and then the error."""
        replies, failed = self._replies_to(lines)
        for request, reply in zip(requests, replies):
            yield request, _reply_to(request, reply)
        if failed:
            raise NodeError(f"the connection to the node failed ({failed}): {_AGAIN}") from failed
        if len(replies) < len(lines):
            raise NodeError(f"the node ended the connection: {_AGAIN}")

    def _replies_to(self, lines: list[bytes]) -> tuple[list[bytes], OSError | None]:
        """Sends lines, and gives what came back, and the error with which that ended."""
        replies: list[bytes] = []
        with self._turn:
            self._look_at_state()
            self._is_missing = True
            try:
                self._socket.sendall(b"".join(lines))
                while len(replies) < len(lines):
                    reply = self._replies.readline()
                    if not reply.endswith(b"\n"):
                        return replies, None
                    replies.append(reply)
            except OSError as error:
                return replies, error
            finally:
                self._answered += len(replies)
            self._is_missing = False
        return replies, None

    def _look_at_end(self) -> None:
        """Nothing can be sent once the connection has ended."""
        if self._ended and not self._is_missing:
            raise NodeError(self._ended)

    def _look_at_state(self) -> None:
        """Replies that are still to come would be taken for those of a later call."""
        self._look_at_end()
        if self._is_missing:
            message = "an earlier call failed or was interrupted, and replies to it are missing"
            raise NodeError(f"{message}: {_AGAIN}; {_LOST}")


def _place_of(address: str) -> tuple[str, int]:
    """The host and the port of an address."""
    host, _, port = address.rpartition(":")
    if not host or not re.fullmatch("[0-9]{1,5}", port) or not 0 < int(port) < 65_536:
        raise ValueError(f"{address!r} is no HOST:PORT, as 127.0.0.1:7431 is one")
    return host.strip("[]"), int(port)


def _line_of(request: dict[str, Any]) -> bytes:
    text = json.dumps(request, ensure_ascii=False, separators=(",", ":"), sort_keys=True)
    return text.encode() + b"\n"


def _parsed(line: bytes) -> Any:
    """What a line of JSON says; None where it is none."""
    try:
        return json.loads(line)
    except ValueError:
        return None


def _reply_to(request: dict[str, Any], line: bytes) -> dict[str, Any]:
    """The reply that a line is to a request. Where it is none, the one to the request is missing."""
    reply = _parsed(line)
    kinds = ("place", "idle", "paused", "refused") if "poll" in request else ("taken", "refused")
    if isinstance(reply, dict) and any(kind in reply for kind in kinds):
        return reply
    if isinstance(reply, dict) and "saved" in reply:
        message = "the node ended the connection before, as it does with --idle"
        raise NodeError(f"{message}: {_AGAIN}")
    raise NodeError(f"the node wrote {line[:100]!r}, which is no reply to {request}: {_AGAIN}")


def _values(values: Iterable[Any]) -> list[Value]:
    """Values as lines have them: whole numbers, texts, None. One text is no list of its letters,
    and a mapping or a set has its values in no order of the table."""
    if isinstance(values, (str, bytes)):
        raise TypeError(f"{values!r} is no list of values, as [{values!r}] is one")
    if isinstance(values, (Mapping, Set)):
        write = "a list or a tuple of the cells in the table's order"
        example = "[row[name] for name in (.., ..)]"
        raise TypeError(f"{values!r} isn't in the table's order: write {write}, as {example}")
    made: list[Value] = []
    for value in values:
        if isinstance(value, Integral):
            value = int(value)
        elif value is not None and not isinstance(value, str):
            raise TypeError(f"{value!r} is neither a whole number, nor a text, nor None")
        made.append(value)
    return made


def _plain(row: Iterable[Any]) -> list[Value]:
    """A row as `json.dumps` takes it: whole numbers of numpy as Python's."""
    return [int(value) if isinstance(value, Integral) else value for value in row]


def _item(reply: Mapping[str, Any]) -> Item:
    return Item(
        key=tuple(reply["key"]),
        place=int(reply["place"]),
        cells=tuple(reply.get("cells", ())),
        number=reply.get("number"),
        fault=reply.get("fault"),
        end=reply.get("end", False),
    )


def _look_at_refusal(request: Any, reply: Mapping[str, Any], items: list[Item]) -> None:
    if "refused" in reply:
        why = reply["refused"]
        raise NodeError(f"the node refused {request}: {why}", why, request, items)
