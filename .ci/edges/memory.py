#!/usr/bin/env python3
"""How much memory `rowmatch node` takes for what it is sent, and how long for keys that were chosen to collide. Bounds are some half
above what was measured. Usage: .ci/edges/memory.py [PROGRAM]"""
import re
import resource
import subprocess
import threading

from sockets import Node, beginning, close, main, poll, row, run, talk

TABLE = "k text, t int, v int"
CLAUSE = "PARTITION BY k ORDER BY t MEASURES LAST(A.v) AS l PATTERN (A B) DEFINE A AS v > 0, B AS v < A.v"
PAIRS = "a int, b int"
PAIRS_CLAUSE = "PARTITION BY a, b PATTERN (X) DEFINE X AS a < 0"


def launched():
    """The variables under which the launcher starts a node."""
    with open("rowmatch", encoding="utf-8") as file:
        settings = re.findall(r"settings\+?=(\S+)", file.read())
    return {"GLIBC_TUNABLES": "".join(settings)}


def resident(node):
    """The bytes of memory that a node has."""
    with open(f"/proc/{node.process.pid}/status", encoding="ascii") as file:
        return int(re.search(r"VmRSS:\s+(\d+) kB", file.read())[1]) * 1024


def measured(node, lines):
    """The bytes that a node took for these lines: once all are answered, and once it has saved too."""
    before = resident(node)
    with node.connect() as connection:
        threading.Thread(target=connection.sendall, args=("".join(lines).encode(),)).start()
        with connection.makefile("rb") as replies:
            told = [replies.readline() for _ in lines]
            answered = resident(node)
            connection.shutdown(1)
            told += replies.readlines()
    with node.connect() as connection:
        connection.sendall(b"nope\n")
        connection.recv(100)
        saved = resident(node)
    node.kill()
    return told, answered - before, saved - before


def far_rows(checks, folder):
    """A row far beyond the front takes the room of a row."""
    count = 2_000
    node = Node(f"{folder}/state", connections=2, clause=CLAUSE, table=TABLE)
    empty = resident(node)
    told, answered, _ = measured(node, [row(4096, [f"key{at}", at, 1]) for at in range(count)])
    checks.same("far rows", set(told), {b'{"taken":"new"}\n'})
    checks.true("bytes of a far row", answered < count * 2_000, answered // count)
    node = Node(f"{folder}/state", clause=CLAUSE, table=TABLE)
    again = resident(node) - empty
    node.kill()
    checks.true("bytes of a far row, after a restart", again < count * 4_000, again // count)


def single_rows(checks, folder):
    """Partitions of one row, before and after a save."""
    count = 50_000
    node = Node(f"{folder}/state", connections=2, clause=CLAUSE, table=TABLE, variables=launched())
    told, answered, saved = measured(node, [row(1, [f"key{at:07}", at, 1]) for at in range(count)])
    checks.same("single rows", set(told), {b'{"taken":"new"}\n'})
    checks.true("bytes of a partition", answered < count * 1_024, answered // count)
    checks.true("bytes of a partition after a save", saved < count * 1_024, saved // count)


def ended_partitions(checks, folder):
    """Partitions that are over hold no row and little else."""
    count = 50_000
    node = Node(f"{folder}/state", connections=2, clause=CLAUSE, table=TABLE, variables=launched())
    lines = []
    for at in range(count):
        key = [f"key{at:07}"]
        lines += [row(1, [*key, at, 1]), close(1, key), poll(key), poll(key)]
    told, answered, saved = measured(node, lines)
    checks.true("they are over", all(reply.startswith(b'{"idle":') for reply in told[3::4]), told[:4])
    checks.true("bytes of one that is over", answered < count * 560, answered // count)
    checks.true("bytes of one that is over, after a save", saved < count * 690, saved // count)


# ---- keys that collide under a hash whose seed is known: the multiply and fold that indexmap takes where it isn't given another hasher

MASK = (1 << 64) - 1
FACTOR = 0x9E3779B97F4A7C15


def folded(state, word):
    product = (state ^ word) * (FACTOR ^ 16)
    return (product & MASK) ^ (product >> 64)


def colliding(count):
    """Pairs of numbers whose hashes would be one."""
    pairs = []
    for first in range(count):
        state = 0x243F6A8885A308D3
        for word in (2, 0, first, 0):
            state = folded(state, word)
        second = state ^ 0x123456789ABCDEF1
        pairs.append((first, second - (1 << 64) if second >> 63 else second))
    return pairs


def processor_seconds():
    """The time of a processor that programs which have ended took."""
    return resource.getrusage(resource.RUSAGE_CHILDREN).ru_utime


def chosen_keys(checks, folder):
    """Keys that were chosen to collide take no longer than others: they took more than 10 seconds of a processor in each of these."""
    count = 40_000
    pairs = colliding(count)
    began = processor_seconds()
    text = "a,b\n" + "".join(f"{first},{second}\n" for first, second in pairs)
    status, out, _ = run("whole", "--table", PAIRS, "--clause", PAIRS_CLAUSE, stdin=text)
    checks.same("whole", (status, out.count("\n")), (0, count))
    checks.true("the seconds of whole", processor_seconds() - began < 4, processor_seconds() - began)
    node = Node(f"{folder}/state", clause=PAIRS_CLAUSE, table=PAIRS)
    began = processor_seconds()
    told = talk(node, "".join(row(1, list(pair)) for pair in pairs))
    checks.same("rows", told.count('{"taken":"new"}\n'), count)
    checks.same("the node's end", node.ended()[0], 0)
    checks.true("the seconds of a node", processor_seconds() - began < 4, processor_seconds() - began)
    began = processor_seconds()
    node = Node(f"{folder}/state", clause=PAIRS_CLAUSE, table=PAIRS)
    talk(node, "nope\n")
    checks.same("the end of one that began again", node.ended()[0], 0)
    checks.true("the seconds of one that began again", processor_seconds() - began < 4, processor_seconds() - began)


NO_SEED = """#include <errno.h>
#include <stddef.h>
int getentropy(void *seed, size_t count) { (void)seed; (void)count; errno = EIO; return -1; }
"""


def no_seed(checks, folder):
    """Where the system has no seed to give, that is the fault of a failed read."""
    library = f"{folder}/none.so"
    subprocess.run(["gcc", "-shared", "-fPIC", "-x", "c", "-o", library, "-"], input=NO_SEED, text=True, check=True)
    words = ["--table", PAIRS, "--clause", PAIRS_CLAUSE]
    variables, told = {"LD_PRELOAD": library}, "rowmatch: device: read\n"
    for command, more in [("whole", []), ("source", ["127.0.0.1:1"])]:
        found = run(command, *words, *more, stdin="a,b\n1,2\n", variables=variables)
        checks.same(f"{command} without a seed", found, (3, "", told))
    checks.same("node without a seed", beginning(f"{folder}/state", clause=PAIRS_CLAUSE, table=PAIRS, variables=variables), (3, told))


if __name__ == "__main__":
    main([far_rows, single_rows, ended_partitions, chosen_keys, no_seed])
