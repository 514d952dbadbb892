#!/usr/bin/env python3
"""Runs examples/client/client.py, and kills it and its nodes at random moments: what it has kept stays, and in the end it has the items of
`whole`, each once. Then what ends it, and what doesn't. KILLS in the environment is how often it is killed, 60 where it isn't there.
Usage: .ci/edges/client.py [PROGRAM]"""
import json
import os
import random
import re
import signal
import stat
import subprocess
import sys
import tempfile
import time

from sockets import BEGINS, CLAUSE, PROGRAM, TABLE, main, run

CLIENT = os.path.abspath("examples/client/client.py")
KILLS = int(os.environ.get("KILLS", "60"))
OTHER = CLAUSE.replace("C AS p > PREV(p)", "C AS p >= PREV(p)")
AT = OTHER.index(">=") + 1
PRICES = [10, 8, 6, 7, 9, 9, 5, 8, 8]
# two programs that run once themselves, and then are the one that is tested: the first sends this and is killed, the second ends so
CUT = """#!/usr/bin/env python3
import os, socket, sys
if os.path.exists(sys.argv[0] + ".ran"):
    os.execv({program!r}, [{program!r}, *sys.argv[1:]])
open(sys.argv[0] + ".ran", "w").close()
with socket.create_server(("127.0.0.1", 0)) as server:
    print(f"rowmatch: listening at 127.0.0.1:{{server.getsockname()[1]}}", file=sys.stderr, flush=True)
    connection = server.accept()[0]
    connection.recv(1)
    connection.sendall({sent!r})
    connection.shutdown(socket.SHUT_WR)
    connection.recv(65536)
os.kill(os.getpid(), 9)
"""
ENDED = """#!/bin/sh
[ ! -e "$0.ran" ] || exec {program} "$@"
: >"$0.ran"
echo {said} >&2
exit {status}
"""


def write_log(folder):
    """A CSV, and the same rows as numbered events in an order of their own, with a close of each partition at the end."""
    chance = random.Random(7)
    prices = {f"s{n}": [chance.randrange(12) for _ in range(chance.randrange(40, 90))] for n in range(50)}
    data = "sym,t,p\n" + "".join(f"{key},{t},{p}\n" for key, values in prices.items() for t, p in enumerate(values, 1))
    events = [{"key": [key], "line": {"cells": [key, t, p], "row": t}} for key, values in prices.items() for t, p in enumerate(values, 1)]
    chance.shuffle(events)
    events += [{"key": [key], "line": {"close": len(values), "key": [key]}} for key, values in prices.items()]
    with open(f"{folder}/log", "w", encoding="utf-8") as file:
        file.writelines(json.dumps(event) + "\n" for event in events)
    return data, len(events)


def children(process):
    try:
        with open(f"/proc/{process}/task/{process}/children", encoding="ascii") as file:
            return [int(word) for word in file.read().split()]
    except OSError:
        return []


def kill(process):
    try:
        os.kill(process, signal.SIGKILL)
    except OSError:
        pass


def position(kept):
    try:
        with open(kept, encoding="utf-8") as file:
            return json.load(file)["position"]
    except OSError:
        return 0


def under_kills(checks, folder):
    data, count = write_log(folder)
    kept, chance, kills, before = f"{folder}/kept", random.Random(11), 0, 0
    while True:
        client = subprocess.Popen([sys.executable, CLIENT, PROGRAM, TABLE, CLAUSE, f"{folder}/log", kept], stderr=subprocess.PIPE,
                                  env={**os.environ, "TMPDIR": folder})
        while client.poll() is None and kills < KILLS:
            time.sleep(chance.random() * 0.3)
            nodes = children(client.pid)
            if nodes and chance.random() < 0.7:
                kill(nodes[0])
            else:
                kill(client.pid)
                for node in nodes:
                    kill(node)
            kills += 1
        told = client.stderr.read().decode()
        now = position(kept)
        checks.true("what was kept stays", now >= before, (before, now))
        before = now
        if client.wait() != -signal.SIGKILL:
            break
    checks.same("the client's end", (client.returncode, [line for line in told.splitlines() if not is_of_kills(line)]), (0, []))
    checks.same("all events", now, count)
    found = items_in(kept)
    checks.same("the items of `whole`", found, whole(CLAUSE, data))
    print(f"{kills} kills, {len(found)} items")


def is_of_kills(line):
    """Whether a client tells a batch that is sent again, or its node how it began, or a connection that ended before."""
    if line.startswith(("rowmatch: connection 1: ", "rowmatch: resumed from ")) or line.endswith(BEGINS.rstrip()):
        return True
    return line.startswith("client: ") and line.endswith(": the batch is sent again")


def items_in(kept):
    with open(kept, encoding="utf-8") as file:
        items = json.load(file)["items"]
    return sorted(json.dumps(item, sort_keys=True, separators=(",", ":")) for item in items.values())


def whole(clause, data):
    return sorted(run("whole", "--table", TABLE, "--clause", clause, stdin=data)[1].splitlines())


def write_prices(folder, count, is_closed=False):
    """A log of so many rows of one partition, and the same as a CSV."""
    lines = [{"cells": ["x", t, p], "row": t} for t, p in enumerate(PRICES[:count], 1)]
    lines += [{"close": count, "key": ["x"]}] if is_closed else []
    with open(f"{folder}/log", "w", encoding="utf-8") as file:
        file.writelines(json.dumps({"key": ["x"], "line": line}) + "\n" for line in lines)
    return "sym,t,p\n" + "".join(f"x,{t},{p}\n" for t, p in enumerate(PRICES[:count], 1))


def bring(folder, table=TABLE, clause=CLAUSE, kept="kept", program=PROGRAM):
    """Status and standard error of a client that comes to an end."""
    words = [sys.executable, CLIENT, program, table, clause, f"{folder}/log", f"{folder}/{kept}"]
    done = subprocess.run(words, capture_output=True, timeout=60, env={**os.environ, "TMPDIR": folder}, check=False)
    told = re.sub(r"rowmatch: .*: the node begins with nothing; .*\n", "", done.stderr.decode())
    return done.returncode, told


def leaves_nothing(checks, folder):
    """A client that is ended as soon as its node is there, which has no connection yet, or up to 30 ms later: the node ends with it. By
    SIGTERM and Ctrl-C its folder goes too; what a kill leaves of that, the pages say."""
    for by, name in [(signal.SIGTERM, "ended"), (signal.SIGINT, "interrupted"), (signal.SIGKILL, "killed")]:
        os.mkdir(f"{folder}/{name}")
        write_prices(folder, 9)
        for later in range(30):
            words = [sys.executable, CLIENT, PROGRAM, TABLE, CLAUSE, f"{folder}/log", f"{folder}/kept"]
            client = subprocess.Popen(words, stderr=subprocess.DEVNULL, env={**os.environ, "TMPDIR": f"{folder}/{name}"})
            while not children(client.pid) and client.poll() is None:
                time.sleep(0.001)
            time.sleep(later / 1000)
            client.send_signal(by)
            client.wait(timeout=60)
        until = time.monotonic() + 10
        while nodes_below(f"{folder}/{name}") and time.monotonic() < until:
            time.sleep(0.1)
        nodes = nodes_below(f"{folder}/{name}")
        checks.same(f"{name}: no node is left", nodes, [])
        for node in nodes:
            kill(node)
        if by != signal.SIGKILL:
            checks.same(f"{name}: no folder is left", os.listdir(f"{folder}/{name}"), [])


def nodes_below(path):
    """The processes whose command line has a file in this folder."""
    found = []
    for process in filter(str.isdigit, os.listdir("/proc")):
        try:
            with open(f"/proc/{process}/cmdline", "rb") as file:
                if f"\0{path}/".encode() in file.read():
                    found.append(int(process))
        except OSError:  # it has ended
            pass
    return found


def bytes_of(path):
    with open(path, "rb") as file:
        return file.read()


def other_questions(checks, folder):
    """What is kept of one clause and table isn't gone on from with another one, also where nothing is to be sent."""
    write_prices(folder, 4)
    checks.same("four rows", (bring(folder), position(f"{folder}/kept")), ((0, ""), 4))
    before = bytes_of(f"{folder}/kept")
    last = f"client: the node doesn't go on from {folder}/kept; with another KEPT the log is sent from its beginning\n"
    told = f"rowmatch: checkpoint refused: ClauseDiffers\nrowmatch: clause differs from byte {AT} on\n{last}"
    checks.same("another clause, and nothing to send", bring(folder, clause=OTHER), (1, told))
    data = write_prices(folder, 9, is_closed=True)
    checks.same("another clause, and rows", bring(folder, clause=OTHER), (1, told))
    checks.same("another table", bring(folder, table=f"{TABLE}, q int"),
                (1, f"rowmatch: checkpoint refused: ClauseDiffers\nrowmatch: table differs\n{last}"))
    checks.same("what was kept stays", bytes_of(f"{folder}/kept"), before)
    checks.same("another clause, with another file", bring(folder, clause=OTHER, kept="other"), (0, ""))
    checks.same("its items", items_in(f"{folder}/other"), whole(OTHER, data))
    checks.same("the first clause, with a blank more", bring(folder, clause=f"{CLAUSE}\n"), (0, ""))
    checks.same("its items, which are others", (items_in(f"{folder}/kept"), whole(OTHER, data) != whole(CLAUSE, data)),
                (whole(CLAUSE, data), True))
    state = json.loads(bytes_of(f"{folder}/kept"))
    with open(f"{folder}/kept", "w", encoding="utf-8") as file:
        json.dump({**state, "checkpoint": state["checkpoint"][:-1]}, file)
    checks.same("a checkpoint that is cut", bring(folder), (1, f"rowmatch: checkpoint refused: Digest\n{last}"))


def mistakes(checks, folder):
    """A node that can't begin ends the client, with its own line and status."""
    write_prices(folder, 4)
    checks.same("a clause", bring(folder, clause="PATTERN (A"), (1, "rowmatch: clause: Expected at byte 10\n"))
    checks.same("a table", bring(folder, table="p"), (1, "rowmatch: table: Expected at byte 1\n"))
    said = "error: unexpected argument '--acknowledge' found"
    program = write_program(folder, ENDED.format(program=PROGRAM, said=f'"{said}"', status=2))
    checks.same("an option", bring(folder, program=program), (2, f"{said}\n"))
    checks.same("nothing is kept", os.path.exists(f"{folder}/kept"), False)


def write_program(folder, text):
    """A program in a folder of its own, where it leaves that it ran."""
    path = f"{tempfile.mkdtemp(dir=folder)}/node"
    with open(path, "w", encoding="utf-8") as file:
        file.write(text)
    os.chmod(path, 0o700)
    return path


def lost_nodes(checks, folder):
    """A device that fails, and a reply that is cut with its node: the batch is sent again."""
    data = write_prices(folder, 9, is_closed=True)
    again = "the batch is sent again\n"
    nodes = [(f"cut to {sent!r}", CUT.format(program=PROGRAM, sent=sent), f"client: the node is gone: {again}")
             for sent in [b"", b"{", b'{"taken":"n', '{"cells":["\u00e4'.encode()[:-1], b'{"taken":"new"}']]
    said = "rowmatch: device: state"
    ended = ENDED.format(program=PROGRAM, said=f'"{said}"', status=3)
    nodes.append(("a device", ended, f"{said}\nclient: the node ended with status 3: {again}"))
    for number, (name, text, told) in enumerate(nodes):
        checks.same(name, bring(folder, kept=f"kept{number}", program=write_program(folder, text)), (0, told))
        checks.same(f"{name}: the items of `whole`", items_in(f"{folder}/kept{number}"), whole(CLAUSE, data))


def owner_alone(checks, folder):
    """What is kept has the rows: it is for its owner alone, also where a file was left that isn't, and a link isn't followed."""
    write_prices(folder, 4)
    with open(f"{folder}/kept.new", "w", encoding="utf-8") as file:
        os.fchmod(file.fileno(), 0o644)
    checks.same("a file was left", (bring(folder), mode_of(f"{folder}/kept")), ((0, ""), 0o600))
    os.symlink(f"{folder}/elsewhere", f"{folder}/kept.new")
    checks.same("a link was left", (bring(folder), mode_of(f"{folder}/kept")), ((0, ""), 0o600))
    checks.same("nothing beside it", sorted(os.listdir(folder)), ["kept", "log"])


def mode_of(path):
    return stat.S_IMODE(os.lstat(path).st_mode)


if __name__ == "__main__":
    main([under_kills, other_questions, mistakes, lost_nodes, owner_alone, leaves_nothing])
