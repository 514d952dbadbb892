#!/usr/bin/env python3
"""Random schedules of two nodes, each connection of which is a process of its own, that compiles the clause anew and begins from any file
that its node has left: the last one, an earlier one, or none. Packets of one to three keys come in any order, some twice, some never, with
polls between; a process ends, is killed, or its client resets. At last each node is sent all, from a file that may be an earlier one.

Each item that comes is held to the line of `whole` of the same rows, key and place, and each other reply to what its node has taken. At
the end each node has given, over all its lives, all that `whole` prints.

Usage: .ci/edges/schedules.py [PROGRAM [COUNT [SEED]]]    COUNT cases from SEED on, 300 from 1 where nothing is said"""
import json
import os
import random
import sys
import tempfile
from concurrent.futures import ThreadPoolExecutor

from sockets import TABLE, Conversation, Node, close, poll, row, run, talk

BY = "PARTITION BY sym ORDER BY t "
CLAUSES = [BY + text for text in (
    "MEASURES MATCH_NUMBER() AS n, FIRST(p) AS a, LAST(B.p) AS lo, LAST(C.p) AS hi PATTERN (A B+ C+) DEFINE B AS p < PREV(p), C AS p > PREV(p)",
    "MEASURES COUNT(*) AS c PATTERN (A*) DEFINE A AS p > 1",
    "MEASURES COUNT(*) AS c PATTERN (A | A B) DEFINE A AS p > 0",
    "MEASURES COUNT(*) AS c, p AS q PATTERN (A B | A) DEFINE A AS p > 0, B AS p <= LAST(A.p)",
    "MEASURES CLASSIFIER() AS k ALL ROWS PER MATCH PATTERN (PERMUTE(A, B)) DEFINE A AS p = 1, B AS p = 2",
    "MEASURES CLASSIFIER() AS k ALL ROWS PER MATCH PATTERN (A B C D) DEFINE A AS p > 0",
    "MEASURES COUNT(*) AS c AFTER MATCH SKIP TO FIRST A PATTERN (A B) DEFINE A AS p > 2",
    "MEASURES COUNT(*) AS c AFTER MATCH SKIP TO B PATTERN (A B?) DEFINE A AS p > 0, B AS p > 1",
    "MEASURES COUNT(*) AS c AFTER MATCH SKIP TO LAST B PATTERN (A B+) DEFINE B AS p >= PREV(p)",
    "MEASURES SUM(p) AS s AFTER MATCH SKIP TO NEXT ROW PATTERN (A B) DEFINE B AS p <> LAST(A.p)",
    "MEASURES NEXT(p) AS q PATTERN (A) DEFINE A AS p > 0",
    "MEASURES NEXT(p, 2) AS q, MATCH_NUMBER() AS n ALL ROWS PER MATCH WITH UNMATCHED ROWS PATTERN (A B) DEFINE A AS p = 1, B AS p IS NOT NULL",
    "MEASURES FINAL SUM(p) AS s ALL ROWS PER MATCH PATTERN (A {- B+ -} C) DEFINE B AS p < 2, C AS p >= 2",
    "MEASURES FINAL LAST(p) AS z, RUNNING COUNT(*) AS c ALL ROWS PER MATCH OMIT EMPTY MATCHES PATTERN (A*) DEFINE A AS p > 0",
    "MEASURES MATCH_NUMBER() AS n ALL ROWS PER MATCH SHOW EMPTY MATCHES PATTERN (A* | B) DEFINE A AS p > 2, B AS p = 0",
    "MEASURES COUNT(U.*) AS c, MAX(U.p) AS m PATTERN (A (B | C)+? D) SUBSET U = (A, D) DEFINE B AS p < 2, C AS p IS NULL, D AS p > 1",
    "MEASURES COUNT(*) AS c PATTERN (A+ $) DEFINE A AS p > 0",
    "MEASURES COUNT(*) AS c PATTERN (^ A+) DEFINE A AS p > 0",
    "MEASURES COUNT(*) AS c PATTERN (A B | C) DEFINE A AS p = 1 AND NEXT(p) = 2",
    "MEASURES COUNT(*) AS c PATTERN (A{2,3} B{0,1}) DEFINE A AS p >= FIRST(p), B AS SUM(A.p) > 4",
    "MEASURES FIRST(A.t) AS f, LAST(A.t, 1) AS l PATTERN (A+ B) DEFINE A AS PREV(p, 2) IS NULL OR p > 0, B AS COUNT(A.*) >= 2 AND p < 2",
)]


class Wrong(Exception):
    """What came isn't what had to come."""


def answer_of(clause, rows):
    """The lines of `whole`, by key and place. A key without a row isn't in a file: its answer is the end."""
    lines = "sym,t,p\n" + "".join(f"{key},{t},{'' if p is None else p}\n" for key in rows for t, p in enumerate(rows[key], 1))
    status, out, told = run("whole", "--table", TABLE, "--clause", clause, stdin=lines)
    if status:
        raise Wrong(f"whole ends with {status}: {told}")
    answer = {place_of(json.loads(line)): line for line in out.splitlines()}
    return {**answer, **{(key, 1): f'{{"end":true,"key":["{key}"],"place":"1"}}' for key in rows if not rows[key]}}


def place_of(item):
    return item["key"][0], int(item["place"])


class File:
    """What a process left: the bytes, and the packets that it had taken by then, as (key, number), with ("close", key) of a close."""

    def __init__(self, data=None, taken=frozenset()):
        self.data, self.taken = data, taken


class Case:
    def __init__(self, seed):
        self.dice = dice = random.Random(seed)
        self.seed, self.processes = seed, 0
        self.clause = dice.choice(CLAUSES)
        self.rows = {key: [dice.choice([0, 1, 1, 2, 2, 3, None]) for _ in range(dice.choice([0, 1, 4, 6, 8]))]
                     for key in ["x", "y", "z"][: dice.choice([1, 1, 2, 3])]}
        self.packets = [(key, number) for key in self.rows for number in range(1, len(self.rows[key]) + 1)]
        self.packets += [("close", key) for key in self.rows]
        self.answer = answer_of(self.clause, self.rows)
        self.files, self.given = {"a": [File()], "b": [File()]}, {"a": set(), "b": set()}

    def line_of(self, packet):
        first, second = packet
        if first == "close":
            return close(len(self.rows[second]), [second])
        return row(second, [first, second, self.rows[first][second - 1]])

    def requests(self):
        """Some packets and polls, each with its line."""
        dice = self.dice
        chosen = dice.sample(self.packets, dice.randint(0, len(self.packets)))
        chosen += [dice.choice(self.packets) for _ in range(dice.choice([0, 0, 2]))]
        asked = [(packet, self.line_of(packet)) for packet in chosen]
        for _ in range(dice.choice([0, 3, 10, 25])):
            key = dice.choice([*self.rows])
            asked.insert(dice.randint(0, len(asked)), (("poll", key), poll([key], dice.choice([0, 1, 2, 5, 20, 1000]))))
        return asked

    def begin(self, node, folder):
        """A new process of a node, over one of its files: its connection is the only one."""
        files = self.files[node]
        file = self.dice.choice([files[-1], files[-1], files[-1], self.dice.choice(files)])
        path = os.path.join(folder, f"{node}{self.processes}")
        if file.data is not None:
            with open(path, "wb") as state:
                state.write(file.data)
        self.processes += 1
        process = Node(path, clause=self.clause)
        if process.told:
            raise Wrong(f"at the beginning: {process.told}")
        return process, path, set(file.taken)

    def look(self, node, taken, request, reply):
        """Holds a reply to what has to come, and notes what it says."""
        first, second = request
        told = json.loads(reply)
        if first == "poll":
            if not any(second in packet for packet in taken):
                wanted = told == {"refused": "UnknownPartition"}
            elif "place" in told:
                wanted = told["key"] == [second] and self.answer.get(place_of(told)) == reply.rstrip("\n")
                self.given[node].add(place_of(told))
            else:
                wanted = told in ({"idle": [second]}, {"paused": [second]})
        else:
            wanted = told in ([{"taken": "repeat"}, {"taken": "old"}] if request in taken else [{"taken": "new"}])
            taken.add(request)
        if not wanted:
            raise Wrong(f"node {node}: {request} is answered {reply.strip()}, behind {sorted(taken)}")

    def live(self, node, folder):
        """A life of a node: one process, some lines, and one of the ways to end."""
        process, path, taken = self.begin(node, folder)
        asked, end = self.requests(), self.dice.choice(["end", "end", "end", "kill", "reset"])
        try:
            if end == "end":
                replies = talk(process, "".join(line for _, line in asked)).splitlines(keepends=True)
                if len(replies) != len(asked):
                    raise Wrong(f"{len(replies)} replies to {len(asked)} lines")
                for (request, _), reply in zip(asked, replies):
                    self.look(node, taken, request, reply)
            else:
                with Conversation(process) as conversation:
                    for request, line in asked:
                        self.look(node, taken, request, conversation.ask(line))
                    if end == "kill":
                        process.kill()
                        return
                    conversation.reset()
            self.keep(node, process, path, taken)
        finally:
            process.kill()

    def keep(self, node, process, path, taken):
        status, told = process.ended()
        if status:
            raise Wrong(f"node {node} ends with {status}: {told}")
        with open(path, "rb") as state:
            self.files[node].append(File(state.read(), frozenset(taken)))

    def finish(self, node, folder):
        """All packets, and polls until each key is idle."""
        process, path, taken = self.begin(node, folder)
        try:
            with Conversation(process) as conversation:
                for packet in self.dice.sample(self.packets, len(self.packets)):
                    self.look(node, taken, packet, conversation.ask(self.line_of(packet)))
                for key in self.rows:
                    for reply in conversation.drain([key], self.dice.choice([1, 7, 1000])):
                        self.look(node, taken, ("poll", key), reply)
            self.keep(node, process, path, taken)
        finally:
            process.kill()
        missing = self.answer.keys() - self.given[node]
        if missing:
            raise Wrong(f"node {node} has never given {sorted(missing)}")

    def play(self, folder):
        for _ in range(self.dice.randint(2, 14)):
            self.live(self.dice.choice("ab"), folder)
        for node in "ab":
            self.finish(node, folder)


def play(seed):
    """A case: its processes and items, and what is wrong, if anything is."""
    case = None
    try:
        case = Case(seed)
        with tempfile.TemporaryDirectory(dir="/dev/shm" if os.path.isdir("/dev/shm") else None) as folder:
            case.play(folder)
        return case.processes, len(case.answer), None
    except Exception as error:  # a case that breaks off is wrong like another
        where = f": {case.clause}\n  {case.rows}" if case else ""
        return 0, 0, f"case {seed}{where}\n  {type(error).__name__}: {error}"


def main(words):
    count, seed = int(words[1]) if len(words) > 1 else 300, int(words[2]) if len(words) > 2 else 1
    with ThreadPoolExecutor(os.cpu_count()) as pool:
        told = list(pool.map(play, range(seed, seed + count)))
    wrong = [text for _, _, text in told if text]
    for text in wrong[:5]:
        print(text)
    print(f"{sum(it[0] for it in told)} processes, {sum(it[1] for it in told)} items")
    print(f"{count - len(wrong)} passed, {len(wrong)} failed")
    return 1 if wrong or not count else 0


if __name__ == "__main__":
    sys.exit(main(sys.argv[1:]))
