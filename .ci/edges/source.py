#!/usr/bin/env python3
"""Runs `rowmatch source` against nodes and against peers that break the rules. Usage: .ci/edges/source.py [PROGRAM]"""
import json
import os
import socket
import subprocess
import threading

from sockets import CLAUSE, PROGRAM, REFUSED, TABLE, Node, free_port, main, not_reached, poll, row, run, talk

CSV = "sym,t,p\nx,2,8\ny,1,5\nx,1,10\nx,3,6\nx,4,7\nx,6,9\nx,5,9\n"
ITEMS = [
    '{"cells":["x",1,10,6,9],"key":["x"],"number":1,"place":"1"}',
    '{"end":true,"key":["x"],"place":"2"}',
    '{"end":true,"key":["y"],"place":"1"}',
]
TEXTS = ["--table", TABLE, "--clause", CLAUSE]
ENDED = "rowmatch: node 1: the connection ended in place of a reply\nrowmatch: node 1: bad reply\n"


def source(*words, stdin=CSV):
    return run("source", *TEXTS, *words, stdin=stdin)


def two_nodes(checks, folder):
    """The items of each node are those of `whole`, after its number."""
    nodes = [Node(f"{folder}/{name}") for name in "ab"]
    wanted = "".join(f"{number} {item}\n" for number in (1, 2) for item in ITEMS)
    found = source(*(f"127.0.0.1:{node.port}" for node in nodes))
    checks.same("two nodes", found, (0, wanted, ""))
    for node in nodes:
        checks.same("the node's end", node.ended()[0], 0)
    # it waited for the end of each: what it sent is in their files
    again = Node(f"{folder}/a")
    checks.same("a second time nothing is new", source(f"127.0.0.1:{again.port}"), (0, "", ""))
    again.ended()


def examples(checks, folder):
    """The files of examples/: the items of `source` are the lines of `whole`."""
    for name in sorted(os.listdir("examples")):
        path = f"examples/{name}"
        if not os.path.isfile(f"{path}/clause"):
            continue
        texts = []
        for part in ("table", "clause"):
            with open(f"{path}/{part}", encoding="utf-8") as file:
                texts.append(file.read())
        with open(f"{path}/input.csv", "rb") as file:
            data = file.read()
        options = [f"--table={texts[0]}", f"--clause={texts[1]}"]
        whole = run("whole", *options, stdin=data)[1]
        node = Node(f"{folder}/{name}", table=texts[0], clause=texts[1])
        found = run("source", *options, f"127.0.0.1:{node.port}", stdin=data)
        checks.same(f"{name}: as `whole`", found, (0, "".join("1 " + line + "\n" for line in whole.splitlines()), ""))
        node.ended()


def killed(checks, folder):
    """A node with something saved is killed in the middle of a run and begins again from its file. The next run loses nothing."""
    data = "sym,t,p\n" + "".join(f"s{n % 7},{n},{(n * 37) % 11}\n" for n in range(1, 20_001))
    whole = run("whole", *TEXTS, stdin=data)[1].splitlines()
    state = f"{folder}/state"
    node = Node(state)
    first = [(n // 7 + 1, n + 1) for n in range(2_000) if (n + 1) % 7 == 1]
    lines = "".join(row(number, ["s1", t, (t * 37) % 11]) + poll(["s1"]) for number, t in first)
    given = [line for line in talk(node, lines).splitlines() if "place" in line]
    checks.true("some items of the first rows", given)
    node.ended()
    node = Node(state)
    runner = subprocess.Popen([PROGRAM, "source", *TEXTS, f"127.0.0.1:{node.port}"], stdin=subprocess.PIPE,
                              stdout=subprocess.PIPE, stderr=subprocess.PIPE)
    threading.Thread(target=feed, args=(runner.stdin, data), daemon=True).start()
    for _ in range(1_000):
        given.append(runner.stdout.readline().decode().strip())
    node.kill()
    given += runner.stdout.read().decode().splitlines()
    told = runner.stderr.read()
    runner.wait()
    at = f"rowmatch: node 1 at 127.0.0.1:{node.port}: "
    reset, broken = f"{at}Connection reset by peer (os error 104)\n", f"{at}Broken pipe (os error 32)\n"
    checks.true("a node that is gone: the source's fault", (runner.returncode, told.decode()) in (
        (1, ENDED), (3, reset + "rowmatch: device: read\n"), (3, reset + "rowmatch: device: write\n"),
        (3, broken + "rowmatch: device: write\n")), told)
    node = Node(state)
    status, out, told = source(f"127.0.0.1:{node.port}", stdin=data)
    checks.same("the next run", (status, told), (0, ""))
    node.ended()
    given += out.splitlines()
    # each run prints the items of a key in order, and after the kill some of them come again
    places = {}
    for line in (line.removeprefix("1 ") for line in given):
        item = json.loads(line)
        checks_once = places.setdefault((item["key"][0], item["place"]), line)
        if checks_once != line:
            checks.same("an item that comes again", line, checks_once)
    checks.same("nothing is lost, nothing is added", sorted(places.values()), sorted(whole))


def feed(pipe, data):
    try:
        pipe.write(data.encode())
        pipe.close()
    except OSError:
        pass


def peer(replies, half=False):
    """A peer that reads a line for each of these replies, and then ends."""
    server = socket.create_server(("127.0.0.1", 0))

    def serve():
        connection, _ = server.accept()
        with connection, server:
            lines = connection.makefile("rb")
            for reply in replies:
                lines.readline()
                connection.sendall(reply.encode())
            if not half:
                connection.shutdown(socket.SHUT_WR)
            lines.read()

    threading.Thread(target=serve, daemon=True).start()
    return f"127.0.0.1:{server.getsockname()[1]}"


def bad_peers(checks, folder):
    one = "sym,t,p\nx,1,10\n"
    new, idle, end = '{"taken":"new"}\n', '{"idle":["x"]}\n', '{"end":true,"key":["x"],"place":"1"}\n'
    cases = [
        ("the worked replies", [new, idle, new, end, idle], (0, "1 " + end, "")),
        ("a refusal", ['{"refused":"TooFar"}\n'], (1, "", "rowmatch: node 1: refused\n")),
        ("idle in place of taken", [idle], (1, "", "rowmatch: node 1: bad reply\n")),
        ("no reply", [], (1, "", ENDED)),
        ("no JSON", ["nope\n"], (1, "", "rowmatch: node 1: bad reply\n")),
        ("taken in place of idle", [new, new], (1, "", "rowmatch: node 1: bad reply\n")),
        ("an item, and then a refusal", [new, end, '{"refused":"UnknownPartition"}\n'],
         (1, "1 " + end, "rowmatch: node 1: refused\n")),
        ("a paused poll is made again", [new, '{"paused":["x"]}\n', idle, new, end, idle], (0, "1 " + end, "")),
    ]
    for name, replies, wanted in cases:
        checks.same(name, source(peer(replies), stdin=one), wanted)
    good = [new, idle, new, end, idle]
    gone = f"127.0.0.1:{free_port()}"
    cases = [
        ("the second node refuses", [peer(['{"refused":"TooFar"}\n'])], (1, "1 " + end, "rowmatch: node 2: refused\n")),
        ("it answers what can't be", [peer(["nope\n"])], (1, "1 " + end, "rowmatch: node 2: bad reply\n")),
        ("it ends without a reply", [peer([])], (1, "1 " + end, ENDED.replace("node 1", "node 2"))),
        ("it refuses behind an item", [peer([new, end, '{"refused":"UnknownPartition"}\n'])],
         (1, "1 " + end + "2 " + end, "rowmatch: node 2: refused\n")),
        ("it isn't there", [gone], (3, "1 " + end, not_reached(2, gone, REFUSED))),
        ("a bad reply of the third node", [peer(good), peer([idle])], (1, "1 " + end + "2 " + end, "rowmatch: node 3: bad reply\n")),
    ]
    for name, others, wanted in cases:
        checks.same(name, source(peer(good), *others, stdin=one), wanted)


def near_misses(checks, folder):
    """What `whole` reports of the rows `source` reports too, once, and hands them to each node."""
    new, idle, end = '{"taken":"new"}\n', '{"idle":["x"]}\n', '{"end":true,"key":["x"],"place":"1"}\n'
    good = [new, idle, new, end, idle]
    clause = "PARTITION BY sym ORDER BY t MEASURES A.t AS t PATTERN (A) DEFINE A AS sym = 'X'"
    words = ["source", "--table", TABLE, "--clause", clause, peer(good), peer(good)]
    told = "rowmatch: sym is compared with 'X', which no row has; 1 row has 'x', and capitals count: write it so\n"
    checks.same("a text in other letters", run(*words, stdin="sym,t,p\nx,1,10\n"), (0, "1 " + end + "2 " + end, told))


def streams(checks, folder):
    """Standard output that takes nothing, standard input that is a folder, and an input without a row."""
    node = Node(f"{folder}/state", connections=2)
    words = [PROGRAM, "source", *TEXTS, f"127.0.0.1:{node.port}"]
    with open("/dev/full", "wb") as full:
        done = subprocess.run(words, input=CSV.encode(), stdout=full, stderr=subprocess.PIPE, timeout=60)
    item = f"1 {run('whole', *TEXTS, stdin=CSV)[1].splitlines()[0]}\n"
    told = f"rowmatch: an item wasn't written, and its node doesn't give it again: keep this line\n{item}rowmatch: device: write\n"
    checks.same("items that are not taken", (done.returncode, done.stderr.decode()), (3, told))
    checks.same("no row", source(words[-1], stdin="sym,t,p\n"), (0, "", ""))
    told = node.ended()[1].splitlines()
    checks.same("nothing is sent without a row", told[-1], "rowmatch: connection 2: 0 lines, saved")
    place = os.open(folder, os.O_RDONLY)
    done = subprocess.run(words, stdin=place, capture_output=True, timeout=60)
    os.close(place)
    checks.same("a folder as input", (done.returncode, done.stdout, done.stderr), (3, b"", b"rowmatch: device: read\n"))


def faults(checks, folder):
    with socket.create_server(("127.0.0.1", 0)) as server:
        free = server.getsockname()[1]
    at = f"127.0.0.1:{free}"
    checks.same("nobody listens", source(at), (3, "", not_reached(1, at, REFUSED)))
    for at in ["", "nowhere", "127.0.0.1"]:
        checks.same(f"the address {at!r}", source(at), (3, "", not_reached(1, at, "invalid socket address")))
    at = "127.0.0.1:99999"
    checks.same("a port that is none", source(at), (3, "", not_reached(1, at, "invalid port value")))
    checks.same("a field that is no number", source("127.0.0.1:1", stdin="sym,t,p\nx,1,z\n"),
                (1, "", "rowmatch: csv: Field at record 1\n"))
    checks.same("no header", source("127.0.0.1:1", stdin=""), (1, "", "rowmatch: csv: Header\n"))
    status, out, told = source()
    checks.same("no address", (status, out, told.splitlines()[:1]),
                (2, "", ["error: the following required arguments were not provided:"]))
    for budget in ["0", "4294967296", "x"]:
        status, out, told = source("--budget", budget, "127.0.0.1:1")
        checks.same(f"the budget {budget}", (status, out), (2, ""))
    status, out, told = run("source", "--help")
    checks.same("help", (status, told), (0, ""))


def small_budget(checks, folder):
    """A budget of one turn: each poll is paused many times, and the items are the same."""
    node = Node(f"{folder}/state")
    wanted = "".join(f"1 {item}\n" for item in ITEMS)
    checks.same("a budget of 1", source("--budget", "1", f"127.0.0.1:{node.port}"), (0, wanted, ""))
    node.ended()


if __name__ == "__main__":
    main([two_nodes, examples, killed, bad_peers, near_misses, streams, faults, small_budget])
