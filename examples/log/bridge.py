#!/usr/bin/python3
"""Runs a node and brings it the events of its shard, batch by batch. What a batch gives is stored in the log before the position
and the node's checkpoint are kept, together, in one file. After a crash of the node or of the bridge the node starts from that file's
checkpoint and the log is read from its position: items may come again, by place, and none is lost.
Usage: bridge.py PORT SHARD REPLICA FOLDER PROGRAM"""
import ctypes
import json
import os
import re
import signal
import socket
import subprocess
import sys
import time

from log import CLAUSE, TABLE, connect, lasting, read, replace, text

BATCH = 1_000
BUDGET = 100_000


class Lost(Exception):
    """The node is gone, or didn't save."""


class Node:
    """A node that was started from the kept checkpoint. It ends when the bridge does."""

    def __init__(self, folder, program, checkpoint):
        self.state = f"{folder}/state"
        if checkpoint:
            replace(self.state, checkpoint)
        elif os.path.exists(self.state):
            os.remove(self.state)
        words = [program, "node", "--table", TABLE, "--clause", CLAUSE, "--listen", "127.0.0.1:0", "--state", self.state]
        words += ["--acknowledge", "--idle", "60", "--verbose"]
        with open(f"{folder}/told", "w", encoding="utf-8") as told:
            self.process = subprocess.Popen(words, stderr=told, preexec_fn=end_with_bridge)
        replace(f"{folder}/node.pid", str(self.process.pid).encode())
        self.told = f"{folder}/told"

    def listen(self):
        """Waits until the node listens. A mistake, or a checkpoint that it refuses, would be the same with the next node: it ends the
        bridge, and the node with it."""
        place = None
        while not place:
            time.sleep(0.01)
            status = self.process.poll()  # first: what the node told is all there, if it has ended
            told = read(self.told).decode(errors="replace")
            place = re.search(r"^rowmatch: listening at .*:(\d+)\n", told, re.M)
            if status is not None and not place:
                sys.stderr.write(told)
                raise SystemExit(status) if status in (1, 2) else Lost(f"the node ended with status {status}")
        if "rowmatch: checkpoint refused" in told:
            told = told[:place.start()]
            raise SystemExit(f"{told}bridge: the node doesn't go on from what is kept; in another FOLDER it reads the log from its beginning")
        self.port = int(place[1])

    def batch(self, lines, keys):
        """Hands over the lines, polls the keys until all are idle, and gives the item lines. The node has said then that it has saved."""
        items, count = [], len(lines)
        with socket.create_connection(("127.0.0.1", self.port), timeout=60) as connection:
            replies = connection.makefile("r", encoding="utf-8")
            talk(connection, replies, lines, items)
            while keys:
                polls = [text({"budget": BUDGET, "poll": [json.loads(key)]}) for key in keys]
                kinds = talk(connection, replies, polls, items)
                count += len(polls)
                keys = [key for key, kind in zip(keys, kinds) if kind != "idle"]
            connection.shutdown(socket.SHUT_WR)
            # without this line the connection ended with the node, or the node couldn't save
            if replies.read() != text({"saved": count}) + "\n":
                raise Lost("the node didn't save")
        return items


def end_with_bridge(bridge=os.getpid()):
    """A node ends with its bridge, also where that was killed before this asks for it: else it would keep its state's file locked, and no
    node of the next bridge could begin."""
    ctypes.CDLL(None).prctl(1, signal.SIGKILL)
    if os.getppid() != bridge:
        os._exit(1)


def talk(connection, replies, lines, items):
    """Sends lines, reads a reply to each, adds the items, and says of each poll whether its partition is idle."""
    connection.sendall("".join(line + "\n" for line in lines).encode())
    kinds = []
    for _ in lines:
        line = replies.readline()
        if not line.endswith("\n"):
            raise Lost("the node ended")
        reply = json.loads(line)
        if "refused" in reply:
            raise SystemExit(f"refused: {line}")
        if "place" in reply:
            items.append(line.rstrip("\n"))
        kinds.append("idle" if "idle" in reply else "more")
    return kinds


def kept(folder):
    """The position in the log and the checkpoint that belongs to it."""
    if not os.path.exists(f"{folder}/kept"):
        return "0", b""
    position, checkpoint = read(f"{folder}/kept").split(b"\n", 1)
    return position.decode(), checkpoint


def store(log, name, items, position):
    pipe = log.pipeline(transaction=False)
    for item in items:
        pipe.xadd(name, {"line": item, "event": position})
    pipe.execute()


def bring(log, shard, replica, folder, node, position):
    """Brings one batch, and gives the position after it."""
    found = lasting(lambda: log.xread({f"shard:{shard}": position}, count=BATCH, block=200))
    if not found:
        return position
    events = found[0][1]
    items = node.batch([fields["line"] for _, fields in events], list({fields["key"]: None for _, fields in events}))
    position = events[-1][0]
    lasting(lambda: store(log, f"items:{shard}:{replica}", items, position))
    replace(f"{folder}/kept", position.encode() + b"\n" + read(node.state))
    return position


def main():
    port, shard, replica, folder, program = sys.argv[1:]
    log = connect(int(port))
    while True:
        position, checkpoint = kept(folder)
        node = Node(folder, program, checkpoint)
        try:
            node.listen()
            while True:
                position = bring(log, shard, replica, folder, node, position)
        except (Lost, OSError, ValueError) as fault:
            node.process.kill()
            node.process.wait()
            sys.stderr.write(f"bridge {shard} {replica}: {fault}: the batch is brought again\n")
            time.sleep(0.1)


if __name__ == "__main__":
    main()
