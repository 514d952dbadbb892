#!/usr/bin/env python3
"""Kills a node at random moments behind a client that goes by `{"saved":N}`: nothing that was acknowledged is asked again, and the items
are those of `whole`. (A client that had nothing but the end of a connection to go by lost rows.)
Usage: .ci/edges/kills.py [PROGRAM [KILLS [SEED]]]"""
import json
import random
import signal
import socket
import sys
import threading

from sockets import CLAUSE, MANY, TABLE, Node, acknowledging, close, main, poll, row, run, saved

KILLS = int(sys.argv[2]) if len(sys.argv) > 2 else 60
SEED = int(sys.argv[3]) if len(sys.argv) > 3 else 1
BATCH = 40
KEYS = [f"k{number}" for number in range(10)]
ACKNOWLEDGE = acknowledging("node")
# how often a batch is handed over: seven of ten times a kill may come before it is acknowledged
ATTEMPTS = 200


def rows_of(chance, length):
    """Rows as records of CSV and as lines, in one order of arrival; the number of a row is its place in its partition."""
    records, lines, counts = [], [], {}
    for time_of in range(len(KEYS) * length):
        key = chance.choice(KEYS)
        counts[key] = counts.get(key, 0) + 1
        price = chance.randrange(6)
        records.append(f"{key},{time_of},{price}\n")
        lines.append((key, row(counts[key], [key, time_of, price])))
    return "sym,t,p\n" + "".join(records), lines + [(key, close(count, [key])) for key, count in counts.items()]


class Client:
    """Hands over batches to a node of its own, which may be killed meanwhile, and keeps each item that comes, by its place."""

    kills = acknowledged = again = 0

    def __init__(self, chance, state):
        self.chance = chance
        self.state = state
        self.node = None
        self.items = {}

    def insist(self, batch):
        """Hands a batch over until it is acknowledged."""
        for _ in range(ATTEMPTS):
            if self.node is None or self.node.process.poll() is not None:
                self.node = Node(self.state, connections=MANY, options=ACKNOWLEDGE)
            if self.hand_over(batch):
                Client.acknowledged += 1
                return
            Client.again += 1
        raise AssertionError(f"a batch isn't acknowledged, handed over {ATTEMPTS} times")

    def hand_over(self, batch):
        """Whether the batch was acknowledged: each line was answered, and then came what says that they are saved."""
        keys = list({key: None for key, _ in batch})
        lines = [line for _, line in batch] + [poll([key]) for key in keys for _ in range(3)]
        killer = self.killer()
        told = []
        try:
            with self.node.connect() as connection, connection.makefile("r", encoding="utf-8") as replies:
                killer.start()
                connection.sendall("".join(lines).encode())
                connection.shutdown(socket.SHUT_WR)
                told = [self.take(reply) for reply in replies]
            killer.join()
        except OSError:  # the node is gone
            killer.cancel()
            return False
        last = [saved(len(lines))] if ACKNOWLEDGE else []
        return len(told) == len(lines) + len(last) and told[len(lines) :] == last

    def killer(self):
        """What may kill the node while the batch is on its way, or behind it."""
        node = self.node
        if Client.kills >= KILLS or self.chance.random() >= 0.7:
            return threading.Timer(0, lambda: None)
        Client.kills += 1
        return threading.Timer(self.chance.random() ** 2 * 0.02, lambda: node.process.send_signal(signal.SIGKILL))

    def take(self, reply):
        if reply.endswith("\n"):
            told = json.loads(reply)
            if "place" in told:
                found = self.items.setdefault((tuple(told["key"]), told["place"]), reply)
                if found != reply:
                    raise AssertionError(f"another item at one place: {found} {reply}")
            if "refused" in told:
                raise AssertionError(f"refused: {reply}")
        return reply


def play(checks, chance, name, state):
    """A node from its first row to its last item."""
    text, lines = rows_of(chance, 60)
    client = Client(chance, state)
    for at in range(0, len(lines), BATCH):
        client.insist(lines[at : at + BATCH])
    known = None
    while known != len(client.items):  # until polls bring nothing more
        known = len(client.items)
        client.insist([(key, poll([key])) for key in KEYS])
    client.node.kill()
    wanted = set(run("whole", "--table", TABLE, "--clause", CLAUSE, stdin=text)[1].splitlines(keepends=True))
    found = set(client.items.values())
    counts = len(found & wanted), len(found - wanted)
    checks.same(f"{name}: how many items are those of `whole`, and how many others", counts, (len(wanted), 0))


def kills(checks, folder):
    chance = random.Random(SEED)
    rounds = 0
    while Client.kills < KILLS:
        rounds += 1
        play(checks, chance, f"round {rounds}", f"{folder}/{rounds}")
    print(f"{Client.kills} kills, {Client.acknowledged} batches acknowledged, {Client.again} times one was handed over again")


if __name__ == "__main__":
    main([kills])
