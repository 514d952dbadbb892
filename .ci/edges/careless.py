#!/usr/bin/env python3
"""What it costs a client not to have read docs/NODES.md, and that who does as the page says pays nothing. The program was never changed
for these: the page of the checkout in which this runs has to say them. Usage: .ci/edges/careless.py [PROGRAM]"""
import fcntl
import functools
import os
import random
import resource
import select
import shutil
import socket
import struct
import subprocess
import time
from collections import Counter

from sockets import CLAUSE, MANY, PROGRAM, TABLE, Conversation, Node, acknowledging, close, end, main, poll, row, run, saved, send_all, talk

NEW, REPEAT, IDLE = '{"taken":"new"}\n', '{"taken":"repeat"}\n', '{"idle":["x"]}\n'
ROWS = [row(number, ["x", number, price]) for number, price in enumerate([10, 8, 6, 7, 9, 9], 1)]
ITEM = '{"cells":["x",1,10,6,9],"key":["x"],"number":1,"place":"1"}\n'
ACKNOWLEDGE = acknowledging("node")


def last(count):
    """What a connection of so many lines ends with."""
    return saved(count) if ACKNOWLEDGE else ""


PAGE = "docs/NODES.md"


def says(sentence):
    """A case that the page has to tell in these words, however its lines are broken."""

    def told(case):
        @functools.wraps(case)
        def run_case(checks, folder):
            with open(PAGE, encoding="utf-8") as page:
                checks.true(f"{PAGE} says: {sentence}", sentence in " ".join(page.read().split()))
            case(checks, folder)

        return run_case

    return told


@says("send all of it again, also what had a reply")
def went_back(checks, folder):
    """A node that can't write its replies goes back to what it had saved: rows that had a reply are gone with the others. So all of that
    connection is sent again; who sends what had no reply gets no item."""
    for name, again, told in [("what had no reply", ROWS[3:], NEW * 3 + IDLE), ("all", ROWS, NEW * 6 + ITEM)]:
        node = Node(f"{folder}/{name}", connections=MANY, options=[*ACKNOWLEDGE, "--idle", "1"])
        checks.same("replies to three rows", flood(node, ROWS[:3]), NEW * 3)
        checks.same(f"{name} is sent again", talk(node, "".join(again) + poll(["x"])), told + last(len(again) + 1))
        end(node)
        checks.true("it went back", "went back" in "".join(node.told), node.told)


def flood(node, lines):
    """The replies to these lines; behind them come others whose replies aren't read, until the node ends the connection."""
    with socket.socket() as connection:
        connection.setsockopt(socket.SOL_SOCKET, socket.SO_RCVBUF, 4096)
        connection.settimeout(60)
        connection.connect(("127.0.0.1", node.port))
        connection.sendall("".join(lines).encode())
        told = b""
        while told.count(b"\n") < len(lines):
            told += connection.recv(1000)
        try:
            while True:
                connection.sendall(b"nope\n" * 10_000)
        except OSError:
            return told.decode()


@says("where memory was refused, in shorter connections, since what is acknowledged stays")
def without_memory(checks, folder):
    """Nor is there anything left of a connection whose lines took more memory than there is. Batches that are acknowledged stay."""
    node = Node(f"{folder}/state", connections=MANY, options=ACKNOWLEDGE,
                limit=lambda: resource.setrlimit(resource.RLIMIT_AS, (40 << 20, 40 << 20)))
    lines = [row(1, [f"key{number:02000}", 1, 1]) for number in range(30_000)]
    told = talk(node, "".join(lines))
    checks.true("too many lines at once", 1_000 < told.count(NEW) < 30_000 and "saved" not in told, told[-100:])
    checks.same("what had a reply", talk(node, lines[0]), NEW + last(1))
    for at in (1, 201, 401):
        checks.same("a batch that fits", talk(node, "".join(lines[at : at + 200])), NEW * 200 + last(200))
    checks.same("what was acknowledged", talk(node, "".join(lines[:601])), REPEAT * 601 + last(601))
    checks.same("the node serves on", (node.process.poll(), "".join(node.told).count("out of memory")), (None, 1))
    end(node)


@says("others wait in the accept queue, and nothing says so to them")
def second_client(checks, folder):
    """As long as one client stays connected a second one waits, and nothing tells it so. With --idle a first one that is silent goes."""
    for name, options in [("no limit", []), ("a limit", ["--idle", "1"])]:
        node = Node(f"{folder}/{name}", connections=MANY, options=options)
        with Conversation(node) as first, node.connect() as second:
            checks.same("the first", first.ask(ROWS[0]), NEW)
            second.sendall(ROWS[1].encode())
            second.settimeout(60 if options else 1.5)
            checks.same(f"{name}: the second, while the first stays", heard(second), NEW if options else "")
            if not options:
                first.connection.shutdown(socket.SHUT_RDWR)
                second.settimeout(60)
                checks.same("the second, once the first is gone", heard(second), NEW)
        end(node)


def heard(connection):
    """What comes, and nothing where that takes too long."""
    try:
        return connection.recv(100).decode()
    except TimeoutError:
        return ""


@says("Send at most some thousand lines before you read their replies, or write from a thread of its own")
def reads_too_late(checks, folder):
    """A client that sends on and on before it reads waits for the node, which waits for it. It may send from a thread, or some thousand
    lines at once."""
    count = 600_000
    node = Node(f"{folder}/state", connections=MANY)
    with node.connect() as connection:
        connection.settimeout(2)
        checks.true("all lines, and then the replies", not sent(connection, ROWS[0].encode() * 10_000, count // 10_000))
        connection.setsockopt(socket.SOL_SOCKET, socket.SO_LINGER, struct.pack("ii", 1, 0))
    replies = talk(node, ROWS[0] * count)
    checks.same("from a thread", (replies[: len(NEW)], replies.count(REPEAT)), (NEW, count - 1))
    with node.connect() as connection, connection.makefile("rb") as lines:
        for _ in range(10):
            connection.sendall(ROWS[0].encode() * 5_000)
            checks.same("five thousand at once", {lines.readline() for _ in range(5_000)}, {REPEAT.encode()})
    end(node)
    checks.true("the first connection is as if it had not been", "went back" in "".join(node.told), node.told)


def sent(connection, block, count):
    """Whether so many blocks can be sent, the connection taking something of each within its time-out."""
    try:
        for _ in range(count):
            at = 0
            while at < len(block):
                at += connection.send(block[at:])
    except TimeoutError:
        return False
    return True


@says("A partition that is never polled drops nothing")
def never_polls(checks, folder):
    """A partition that is never polled drops nothing, however little of it matters. Polls drop what no later match can use."""
    state, count = f"{folder}/state", 20_000
    node = Node(state, connections=MANY)
    talk(node, "".join(row(number, ["x", number, 5]) for number in range(1, count + 1)))
    checks.true("never polled", size(state) > count * 15, size(state))
    with Conversation(node) as conversation:
        checks.same("polled", conversation.drain(["x"])[-1], IDLE)
        conversation.connection.shutdown(socket.SHUT_WR)
        conversation.replies.read()
    checks.true("what is kept then", size(state) < 1_000, size(state))
    end(node)


def size(path):
    with open(path, "rb") as file:
        return len(file.read())


@says("a client that crashes after a reply and before it stored the item would miss it")
def crashes(checks, folder):
    """An item that a client had and didn't store isn't given again. A node that is started from the file of the client's last position
    gives it again, the same."""
    state, kept = f"{folder}/state", f"{folder}/kept"
    node = Node(state, connections=MANY, options=ACKNOWLEDGE)
    checks.same("a batch that is stored", talk(node, "".join(ROWS[:3]) + poll(["x"])), NEW * 3 + IDLE + last(4))
    shutil.copy(state, kept)
    with Conversation(node) as conversation:
        checks.same("a batch", [conversation.ask(line) for line in ROWS[3:]], [NEW] * 3)
        checks.same("its item", conversation.ask(poll(["x"])), ITEM)
        conversation.reset()
    checks.same("after the client's crash", talk(node, poll(["x"])), IDLE + last(1))
    end(node)
    node = Node(kept, connections=MANY, options=ACKNOWLEDGE)
    checks.same("from what was kept", talk(node, "".join(ROWS[3:]) + poll(["x"])), NEW * 3 + ITEM + last(4))
    end(node)


@says("a node whose standard error is a pipe that nobody reads waits for ever once that is full")
def unread_reports(checks, folder):
    """Who starts a node with a pipe for what it reports, and reads no further than the address, has a node that stops after some
    connections. It goes on once somebody reads."""
    ours, theirs = os.pipe()
    fcntl.fcntl(theirs, fcntl.F_SETPIPE_SZ, 4096)
    words = ["--listen", "127.0.0.1:0", "--state", f"{folder}/state", "--connections", str(MANY), "--verbose"]
    process = subprocess.Popen([PROGRAM, "node", "--table", TABLE, "--clause", CLAUSE, *words], stderr=theirs, stdin=subprocess.DEVNULL)
    os.close(theirs)
    with open(ours, "rb", buffering=0) as reports:
        port = int(reports.read(100).split(b"\n")[0].rsplit(b":", 1)[1])
        served = 0
        while served < 1000 and answers(port):
            served += 1
        checks.true("it stops", 20 < served < 1000, served)
        reports.read(4096)
        checks.true("and goes on", answers(port))
        process.kill()
        process.wait()


def answers(port):
    """Whether a node answers a line within some seconds."""
    with socket.create_connection(("127.0.0.1", port), timeout=3) as connection:
        connection.sendall(ROWS[0].encode())
        try:
            return bool(connection.recv(100))
        except TimeoutError:
            return False


@says("an item whose reply was lost on its way doesn't come again")
def lost_replies(checks, folder):
    """Nor does a node that lives on give again what was lost with a connection that failed: who goes back and sends again is told that all
    is saved, and has one item less than `whole`. A node that is started from the file of the client's last position gives it."""
    state, kept = f"{folder}/state", f"{folder}/kept"
    node = Node(state, connections=MANY, options=ACKNOWLEDGE)
    checks.same("a batch that is stored", talk(node, "".join(ROWS[:3]) + poll(["x"])), NEW * 3 + IDLE + last(4))
    shutil.copy(state, kept)
    with Conversation(node) as conversation:
        checks.same("a batch", [conversation.ask(line) for line in ROWS[3:]], [NEW] * 3)
        conversation.connection.sendall(poll(["x"]).encode())
        while not select.select([conversation.connection], [], [], 1)[0]:  # the reply is there, and is lost
            pass
        conversation.reset()
    checks.same("sent again", talk(node, "".join(ROWS[3:]) + poll(["x"])), REPEAT * 3 + IDLE + last(4))
    end(node)
    node = Node(kept, connections=MANY, options=ACKNOWLEDGE)
    checks.same("from what was kept", talk(node, "".join(ROWS[3:]) + poll(["x"])), NEW * 3 + ITEM + last(4))
    end(node)


@says("takes the rows, saves them, and gives no item, since it waits for those before")
def no_file(checks, folder):
    """A node that finds no file goes on with rows whose first ones it never had. The row before them tells whether it has them."""
    state = f"{folder}/state"
    node = Node(state, connections=MANY, options=ACKNOWLEDGE)
    checks.same("a batch", talk(node, "".join(ROWS[:3]) + poll(["x"])), NEW * 3 + IDLE + last(4))
    end(node)
    for name, told in [("state", REPEAT), ("elsewhere", NEW)]:
        node = Node(f"{folder}/{name}", connections=MANY, options=ACKNOWLEDGE)
        checks.same(f"{name}: nothing is told", node.told, [])
        item = ITEM if told == REPEAT else IDLE
        checks.same(f"{name}: the row before, and on", talk(node, "".join(ROWS[2:]) + poll(["x"])), told + NEW * 3 + item + last(5))
        end(node)


@says("None of that can be undone but by an older FILE")
def spoiled(checks, folder):
    """One line closes a partition for good. The file of before has it open."""
    state, kept = f"{folder}/state", f"{folder}/kept"
    node = Node(state, connections=MANY)
    talk(node, row(1, ["y", 1, 1]))
    shutil.copy(state, kept)
    checks.same("a close", talk(node, close(0, ["x"])), NEW)
    checks.same("a row", talk(node, ROWS[0] + poll(["x"])), '{"refused":"PastClose"}\n{"end":true,"key":["x"],"place":"1"}\n')
    end(node)
    node = Node(kept, connections=MANY)
    checks.same("the file of before", talk(node, ROWS[0] + row(1, ["y", 1, 1])), NEW + REPEAT)
    end(node)


# ---- numbers follow ORDER BY

# for how many seconds an event is held back
HOLD = 20


def events(chance):
    """A stream of events in the order of their arrival: when each comes, its key, its time and a price. One in twenty is too late."""
    stream = []
    for at in range(600):
        delay = chance.randrange(HOLD) if chance.random() < 0.95 else chance.randrange(HOLD + 1, 4 * HOLD)
        stream.append((at // 3 + delay, chance.choice("abc"), at // 3, chance.randrange(9)))
    return sorted(stream, key=lambda event: event[0])


def numbered(stream, log, position, steps):
    """Goes on from a log of numbered events and a position in the stream, for so many steps: what is kept after a crash is the log and the
    new position, that of the first event which is still held. Each event in the log has its place in the stream with it. Gives the
    position, and the places of events that came too late."""
    counts = Counter(key for _, _, (key, _, _) in log)
    known = {place for place, _, _ in log}
    held, late = {}, set()
    for place in range(position, min(position + steps, len(stream) + 1)):
        now, *event = stream[place] if place < len(stream) else [float("inf")]  # in the end none is expected any more
        if event and event[1] < now - HOLD:
            late.add(place)
        elif event and place not in known:
            held[place] = event
        for _, due in sorted((held[due][1], due) for due in held if held[due][1] < now - HOLD):
            key, *_ = held[due]
            counts[key] += 1
            log.append((due, counts[key], held.pop(due)))
        position = min(held, default=place + 1)
    return position, late


@says("holds an event back until no earlier one of its partition is expected")
def order_of_events(checks, folder):
    """A node never looks at ORDER BY. Who numbers events as they arrive gets other items than `whole`. Who holds them back, sorts and then
    numbers them gets those of `whole` over the events that weren't too late, whenever it crashes and goes on from what it has kept."""
    chance = random.Random(5)
    stream = events(chance)
    log, late, position = [], set(), 0
    while position <= len(stream):
        position, more = numbered(stream, log, position, chance.randrange(100, 200))
        late |= more
    checks.same("what is too late", late, {place for place, (now, _, t, _) in enumerate(stream) if t < now - HOLD})
    checks.true("some events are", 10 < len(late) < 100, len(late))
    arrived = [event for place, (_, *event) in enumerate(stream) if place not in late]
    data = "sym,t,p\n" + "".join(f"{key},{t},{p}\n" for key, t, p in sorted(arrived, key=lambda event: event[1]))
    wanted = sorted(run("whole", "--table", TABLE, "--clause", CLAUSE, stdin=data)[1].splitlines(keepends=True))
    checks.true("numbered as they arrive", items_of(f"{folder}/arrived", as_they_come(arrived), chance) != wanted)
    held_back = [(number, event) for _, number, event in log]
    checks.same("held back, sorted and numbered", items_of(f"{folder}/held", held_back, chance), wanted)


def as_they_come(arrived):
    """Each event behind a number of its partition, in the order of arrival."""
    counts = Counter()
    rows = []
    for event in arrived:
        counts[event[0]] += 1
        rows.append((counts[event[0]], event))
    return rows


def items_of(state, rows, chance):
    """The items of a node that gets these rows in any order, and closes of their partitions."""
    counts = Counter(event[0] for _, event in rows)
    lines = [row(number, event) for number, event in rows] + [close(count, [key]) for key, count in counts.items()]
    chance.shuffle(lines)
    node = Node(state, connections=MANY)
    told = talk(node, "".join(lines) + "".join(poll([key]) * (count + 2) for key, count in counts.items()))
    end(node)
    return sorted(line for line in told.splitlines(keepends=True) if '"place"' in line)


@says("A row that is late once its place is taken can't be put in")
def late_row(checks, folder):
    """Nor does a row that comes late find its place by `source`: the node has numbered those behind it."""
    node = Node(f"{folder}/state", connections=MANY)
    words = ["source", "--table", TABLE, "--clause", CLAUSE, f"127.0.0.1:{node.port}"]
    times = [1, 2, 4, 5]
    for found in [(0, '1 {"end":true,"key":["x"],"place":"1"}\n', ""), (1, "", "rowmatch: node 1: refused\n")]:
        checks.same(f"rows of {times}", run(*words, stdin="sym,t,p\n" + "".join(f"x,{t},{t}\n" for t in times)), found)
        times = [1, 2, 3, 4, 5]
    end(node)


if __name__ == "__main__":
    main([
        went_back, without_memory, second_client, reads_too_late, never_polls, crashes, unread_reports, lost_replies, no_file, spoiled,
        order_of_events, late_row,
    ])
