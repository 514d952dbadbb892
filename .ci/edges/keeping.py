#!/usr/bin/env python3
"""What an operator relies on of `rowmatch node`: what is kept and when, and what is told of it. Usage: .ci/edges/keeping.py [PROGRAM]"""
import errno
import json
import os
import resource
import signal
import socket
import stat
import time

from sockets import (
    BEGINS, CLAUSE, MANY, TABLE, Node, acknowledging, beginning, begun_anew, close, end, main, poll, preloaded, read_all, row, run, saved,
    talk,
)

NEW, REPEAT = '{"taken":"new"}\n', '{"taken":"repeat"}\n'
IDLE = '{"idle":["x"]}\n'
PRICES = [10, 8, 6, 7, 9, 9]
ROWS = "".join(row(number, ["x", number, price]) for number, price in enumerate(PRICES, 1))
OTHER = CLAUSE.replace("C AS p > PREV(p)", "C AS p >= PREV(p)")
AT = OTHER.index(">=") + 1
ACKNOWLEDGE = acknowledging("node")


def was_saved(last, count):
    """Whether these last words of a connection, behind its replies, say that what its lines did is saved."""
    return last == (saved(count) if ACKNOWLEDGE else "")


def read(path):
    with open(path, "rb") as file:
        return file.read()


def touch(node):
    """A connection that sends nothing, as a load balancer's check does, until the node has ended it."""
    with node.connect() as connection:
        connection.shutdown(socket.SHUT_WR)
        return read_all(connection).decode()


def refused_is_kept(checks, folder):
    """A node of another clause leaves the file as it is until it has something else to keep, and then under another name."""
    state = f"{folder}/state"
    node = Node(state)
    talk(node, ROWS)
    node.ended()
    first = read(state)
    told = f"rowmatch: checkpoint refused: ClauseDiffers\nrowmatch: clause differs from byte {AT} on\n{begun_anew(state)}"
    node = Node(state, connections=MANY, clause=OTHER)
    checks.same("another clause: told", "".join(node.told), told)
    touch(node)
    talk(node, "nope\n" + poll(["x"]))
    checks.same("nothing was taken: the file stays", (read(state), sorted(os.listdir(folder))), (first, ["state", "state.lock"]))
    end(node)
    node = Node(state)
    checks.same("the right clause again knows the rows", ("".join(node.told), talk(node, ROWS)), ("", REPEAT * 6))
    node.ended()
    node = Node(state, clause=OTHER)
    checks.same("another clause takes a row", talk(node, row(1, ["y", 1, 1])), NEW)
    checks.same("the file has it", node.ended(), (0, f"{told}rowmatch: the checkpoint that was refused is kept as {state}.refused\n"
                                                  "rowmatch: connection 1: 1 lines, saved\n"))
    checks.same("what was refused", read(f"{state}.refused"), first)
    second = read(state)
    node = Node(state)
    talk(node, row(1, ["z", 1, 1]))
    node.ended()
    checks.same("a second one", (read(f"{state}.refused"), read(f"{state}.refused.2")), (first, second))
    os.replace(f"{state}.refused", state)
    node = Node(state)
    checks.same("what was refused can be had back", ("".join(node.told), talk(node, ROWS)), ("", REPEAT * 6))
    node.ended()


def how_it_began(checks, folder):
    """A node says with --verbose whether it goes on from its file. With a mistake in the name of the file it begins with nothing."""
    state = f"{folder}/state"
    node = Node(state)
    checks.same("a first start", node.began, f"rowmatch: {state}{BEGINS}")
    talk(node, ROWS)
    node.ended()
    node = Node(state)
    checks.same("a restart", (node.began, talk(node, ROWS)), (f"rowmatch: resumed from {state}\n", REPEAT * 6))
    node.ended()
    node = Node(f"{folder}/stat")
    checks.same("another name", (node.began, talk(node, ROWS)), (f"rowmatch: {folder}/stat{BEGINS}", NEW * 6))
    node.ended()
    node = Node(state, clause=OTHER)
    checks.same("another clause", (node.began, "ClauseDiffers" in "".join(node.told)), ("", True))
    end(node)
    node = Node(f"{folder}/quiet", quiet=True)
    talk(node, ROWS)
    checks.same("without --verbose", node.ended(), (0, ""))


def blanks(checks, folder):
    """Blanks at the end of a clause or table, which a file has and `$(cat FILE)` hasn't, make no other clause."""
    state = f"{folder}/state"
    node = Node(state)
    talk(node, ROWS)
    node.ended()
    with open(f"{folder}/clause", "w", encoding="utf-8") as file:
        file.write(CLAUSE + "\n")
    texts = [
        ("a blank", {"clause": CLAUSE + " "}), ("line ends", {"clause": CLAUSE + "\r\n\n\t", "table": TABLE + "\n"}),
        ("a file", {"clause": None, "options": ["--clause-file", f"{folder}/clause"]}),
        ("blanks and a comment inside a table", {"table": TABLE.replace(", ", " ,\n  ") + " -- in this order"}),
    ]
    for name, more in texts:
        node = Node(state, connections=MANY, **more)
        told = "".join(node.told)
        touch(node)
        checks.same(f"{name} more: the rows are known", (told, talk(node, ROWS)), ("", REPEAT * 6))
        end(node)
    for name, clause in [("a blank", CLAUSE.replace(" DEFINE", "  DEFINE")), ("a comment", CLAUSE + " -- a fall")]:
        node = Node(state, connections=MANY, clause=clause)
        checks.same(f"{name} inside a clause makes another one", node.told[:1], ["rowmatch: checkpoint refused: ClauseDiffers\n"])
        end(node)


def acknowledged(checks, folder):
    """With --acknowledge the last line says how many lines are saved, and it comes only then."""
    state = f"{folder}/state"
    node = Node(state, connections=MANY, options=["--acknowledge"])
    checks.same("rows", talk(node, ROWS), NEW * 6 + saved(6))
    whole = read(state)
    checks.same("nothing new, the last without a line feed", talk(node, ROWS[:-1]), REPEAT * 6 + saved(6))
    checks.same("no line", touch(node), saved(0))
    checks.same("refused lines", talk(node, "nope\n\n"), '{"refused":"NotJson"}\n' * 2 + saved(2))
    checks.same("the file has it", read(state), whole)
    with node.connect() as connection:
        connection.sendall(row(1, ["y", 1, 1]).encode())
        checks.same("a row of a client that waits", connection.recv(100).decode(), NEW)
        time.sleep(0.3)
        connection.setblocking(False)
        try:
            checks.same("no line before the end", connection.recv(100), None)
        except BlockingIOError:
            pass
        connection.setblocking(True)
        checks.same("and no file", read(state), whole)
        connection.shutdown(socket.SHUT_WR)
        checks.same("then the line", connection.recv(100).decode(), saved(1))
        checks.true("and the file", read(state) != whole)
    end(node)
    node = Node(state, options=["--acknowledge"], limit=small_files)
    rows = "".join(row(number, ["x", number, number]) for number in range(7, 200))
    checks.same("a save that fails: no line", talk(node, rows), NEW * 193)
    checks.same("a save that fails: the end", node.ended(), (3, f"rowmatch: {state}: File too large (os error 27)\nrowmatch: device: state\n"))
    node = Node(state)
    checks.same("without the option: no line", talk(node, rows), NEW * 193)
    node.ended()


def taken_away(checks, folder):
    """A file that somebody takes away from a running node is written again, before what it had is said to be saved."""
    state = f"{folder}/state"
    node = Node(state, connections=MANY, options=ACKNOWLEDGE)
    talk(node, ROWS)
    whole = read(state)
    os.rename(state, f"{folder}/elsewhere")
    told = talk(node, ROWS)
    checks.same("the rows are known", (told[: len(REPEAT) * 6], was_saved(told[len(REPEAT) * 6 :], 6)), (REPEAT * 6, True))
    checks.same("the file is there again", read(state), whole)
    os.remove(state)
    touch(node)
    checks.same("and once more, where nothing is sent", read(state), whole)
    end(node)
    lines = [line for line in node.told if "taken away" in line]
    checks.same("told each time", lines, ["rowmatch: the file of the node was taken away: what was saved is written again\n"] * 2)
    node = Node(state, connections=MANY, clause=OTHER)
    os.remove(state)
    touch(node)
    checks.same("a refused file that is taken away", sorted(os.listdir(folder)), ["elsewhere", "state", "state.lock"])
    end(node)
    node = Node(state, clause=OTHER)
    checks.same("is one of the new clause then", ("".join(node.told), talk(node, ROWS)), ("", NEW * 6))
    node.ended()


def small_files():
    signal.signal(signal.SIGXFSZ, signal.SIG_IGN)
    resource.setrlimit(resource.RLIMIT_FSIZE, (1000, 1000))


def ended_before_it_saved(checks, folder):
    """A client that goes by the last line sends again what wasn't saved, be it that a kill ended the node or SIGTERM: neither saves."""
    state = f"{folder}/state"
    items, position, signals = [], 0, {1: signal.SIGKILL, 3: signal.SIGTERM, 5: signal.SIGKILL}
    lines = ROWS.splitlines(keepends=True) + [close(6, ["x"])]
    while position < len(lines):
        node = Node(state, connections=MANY, options=ACKNOWLEDGE)
        with node.connect() as connection, connection.makefile("rb") as replies:
            connection.sendall((lines[position] + poll(["x"]) * 3).encode())
            told = [json.loads(replies.readline()) for _ in range(4)]
            by = signals.pop(position, None)
            if by:
                end(node, by)
            else:
                connection.shutdown(socket.SHUT_WR)
            last = replies.read().decode()
        if was_saved(last, 4):
            items += [reply for reply in told if "place" in reply]
            position += 1
        if not by:
            end(node)
    checks.same("each place once", [item["place"] for item in items], ["1", "2"])
    checks.same("the item and the end", [item.get("cells", item.get("end")) for item in items], [["x", 1, 10, 6, 9], True])


def full_disk(checks, folder):
    """A source learns of a node that couldn't save."""
    node = Node(f"{folder}/state", options=ACKNOWLEDGE, limit=small_files)
    data = "sym,t,p\n" + "".join(f"k{number},1,1\n" for number in range(200))
    words = ["source", "--table", TABLE, "--clause", CLAUSE, *acknowledging("source"), f"127.0.0.1:{node.port}"]
    status, out, told = run(*words, stdin=data)
    checks.same("the node's end", node.ended(), (3, f"rowmatch: {folder}/state: File too large (os error 27)\nrowmatch: device: state\n"))
    checks.true("no file", not os.path.exists(f"{folder}/state"))
    checks.same("the source's end", (status, out.count("\n"), told), (3, 200,
                'rowmatch: the connection ended without {"saved":N}: does the node run with --acknowledge?\nrowmatch: node 1: not saved\n'))


def no_memory_to_save(checks, folder):
    """Nor does a client take for saved what a node had no memory to save."""
    state, count = f"{folder}/state", 45_000
    node = Node(state, options=ACKNOWLEDGE, limit=lambda: resource.setrlimit(resource.RLIMIT_AS, (60 << 20, 60 << 20)))
    told = talk(node, "".join(row(1, [f"key{number:040}", 1, 1]) for number in range(count)))
    checks.same("all lines were answered", told[: len(NEW) * count].count("\n"), count)
    checks.same("the node's end", node.ended(), (3, "rowmatch: out of memory\n"))
    node = Node(state)
    known = talk(node, row(1, [f"key{0:040}", 1, 1])) == REPEAT
    node.ended()
    checks.same("said and kept", (was_saved(told[len(NEW) * count :], count), known), (False, False))


def stamp(path):
    found = os.stat(path)
    return found.st_ino, found.st_mtime_ns


def unchanged(checks, folder):
    """What changes nothing writes nothing, and costs next to nothing, however much is kept: be it a health check."""
    state = f"{folder}/state"
    node = Node(state, connections=MANY)
    talk(node, "".join(row(1, [f"k{number}", 1, 1]) for number in range(20_000)))
    before = stamp(state)
    touch(node)
    began = seconds_of(node)
    for _ in range(100):
        touch(node)
    talk(node, row(1, ["k1", 1, 1]) + row(1, ["k1", 1, 2]) + "nope\n" + poll(["none"]))
    took = seconds_of(node) - began
    checks.same("connections that change nothing", stamp(state), before)
    checks.true("they cost next to nothing", took < 3, took)
    for _ in range(2):
        talk(node, poll(["k2"]))
    before = stamp(state)
    checks.same("a poll that is idle again", talk(node, poll(["k2"])), '{"idle":["k2"]}\n')
    checks.same("the file has that already", stamp(state), before)
    talk(node, row(2, ["k1", 2, 1]))
    checks.true("a row is written", stamp(state) != before)
    end(node)
    before = stamp(state)
    node = Node(state)
    touch(node)
    node.ended()
    checks.same("a node that begins, and takes nothing", stamp(state), before)


def without_a_count(checks, folder):
    """A node that has no number of connections serves until it is ended."""
    node = Node(f"{folder}/state", connections=None)
    checks.same("three connections", [talk(node, row(1, ["x", 1, 10])) for _ in range(3)], [NEW, REPEAT, REPEAT])
    checks.same("it serves on, until a signal ends it", (node.process.poll(), end(node)), (None, -signal.SIGTERM))


def seconds_of(node):
    """How long the node has used a processor."""
    with open(f"/proc/{node.process.pid}/stat", encoding="utf-8") as file:
        fields = file.read().rsplit(")", 1)[1].split()
    return (int(fields[11]) + int(fields[12])) / os.sysconf("SC_CLK_TCK")


def whose_file(checks, folder):
    """The file is its owner's alone, and no link beside it is followed."""
    state = f"{folder}/state"
    with open(f"{folder}/victim", "wb") as file:
        file.write(b"untouched")
    os.symlink(f"{folder}/victim", f"{state}.new")
    node = Node(state)
    talk(node, ROWS)
    checks.same("a link beside the file", node.ended()[0], 0)
    checks.same("what it led to", read(f"{folder}/victim"), b"untouched")
    checks.same("a file and no link", (os.path.islink(state), stat.S_IMODE(os.stat(state).st_mode)), (False, 0o600))
    checks.same("what is left", sorted(os.listdir(folder)), ["state", "state.lock", "victim"])


def flush_of_the_folder(checks, folder):
    """A folder that can't be flushed is a save that failed, unless the file system or the user can't flush any."""
    library = preloaded(folder, "flush")
    for error, wanted in [(errno.EIO, 3), (errno.EINVAL, 0), (errno.EACCES, 0)]:
        variables = {"LD_PRELOAD": library, "FLUSH": str(error)}
        node = Node(f"{folder}/{error}", options=ACKNOWLEDGE, variables=variables)
        told = talk(node, row(1, ["x", 1, 10]))
        checks.same(f"{errno.errorcode[error]}: said", (told[: len(NEW)], was_saved(told[len(NEW) :], 1)), (NEW, wanted == 0))
        status, told = node.ended()
        checks.same(f"{errno.errorcode[error]}: status", (status, "device: state" in told), (wanted, wanted == 3))


def one_file(checks, folder):
    """A second node on a file is refused, until the first has ended, be it by a kill."""
    state = f"{folder}/state"
    first = Node(state, connections=MANY)
    talk(first, ROWS)
    told = f"rowmatch: {state} is in use: another node has locked {state}.lock\nrowmatch: device: state\n"
    checks.same("a second node", beginning(state), (3, told))
    first.kill()
    node = Node(state)
    checks.same("after a kill", ("".join(node.told), talk(node, ROWS)), ("", REPEAT * 6))
    node.ended()


if __name__ == "__main__":
    main([
        refused_is_kept, how_it_began, blanks, acknowledged, taken_away, ended_before_it_saved, full_disk, no_memory_to_save, unchanged, without_a_count, whose_file,
        flush_of_the_folder, one_file,
    ])
