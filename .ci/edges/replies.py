#!/usr/bin/env python3
"""Runs `rowmatch source` on replies of every length, and of nodes that are silent or gone. Usage: .ci/edges/replies.py [PROGRAM]"""
import os
import pty
import signal
import socket
import struct
import subprocess
import threading
import time

from sockets import CLAUSE, PROGRAM, REFUSED, TABLE, Node, free_port, main, not_reached, poll, row, run, talk

TEXTS = ["--table", TABLE, "--clause", CLAUSE]
ONE_ROW = "sym,t,p\nx,1,10\n"
NEW, IDLE, END = '{"taken":"new"}\n', '{"idle":["x"]}\n', '{"end":true,"key":["x"],"place":"1"}\n'
# to a row, a poll, the close and two polls
WORKED = [NEW, IDLE, NEW, END, IDLE]
PRINTED = "1 " + END
BAD_REPLY = "rowmatch: node 1: bad reply\n"
UNASKED = "rowmatch: node 1: a reply came to nothing that was asked\n" + BAD_REPLY
ENDED = "rowmatch: node 1: the connection ended in place of a reply\n" + BAD_REPLY
ACKNOWLEDGES = "rowmatch: the node runs with --acknowledge: give source --acknowledge, too\n"
NOT_SAVED = "rowmatch: node 1: not saved\n"
NO_LINE = 'rowmatch: the connection ended without {"saved":N}: does the node run with --acknowledge?\n' + NOT_SAVED
READ = "rowmatch: device: read\n"
RESET = "rowmatch: node 1 at ADDR: Connection reset by peer (os error 104)\n"
LONGEST = 16_777_216


def peer(replies, behind="", after=None, last=""):
    """A peer that replies to each line by the next of these. `behind` goes out together with the last one, `after` once the source
    has ended its side; a peer without it stays silent from there on. `last` goes out after a while."""
    server = socket.create_server(("127.0.0.1", 0))

    def serve():
        connection, _ = server.accept()
        with connection, server, connection.makefile("rb") as lines:
            for place, reply in enumerate(replies):
                lines.readline()
                connection.sendall((reply + (behind if place == len(replies) - 1 else "")).encode())
            lines.read()
            if after is None:
                time.sleep(30)
            try:
                connection.sendall((after or "").encode())
                if last:
                    time.sleep(0.2)
                    connection.sendall(last.encode())
            except OSError:  # the source is gone
                pass

    threading.Thread(target=serve, daemon=True).start()
    return f"127.0.0.1:{server.getsockname()[1]}"


def source(*words, stdin=ONE_ROW):
    return run("source", *TEXTS, *words, stdin=stdin)


def long_items(checks, folder):
    """A node writes an item whatever its length, and `source` prints what `whole` prints. A reply of 16 MiB is read, no longer one."""
    table, clause = "k text", "PARTITION BY k MEASURES LAST(k) AS l PATTERN (A) DEFINE A AS k IS NOT NULL"
    texts = ["--table", table, "--clause", clause]
    for size in (21_828, 21_830, 60_000):
        data = f"k\n{'x' * size}\n"
        whole = run("whole", *texts, stdin=data)[1]
        node = Node(f"{folder}/{size}", clause=clause, table=table)
        found = run("source", *texts, f"127.0.0.1:{node.port}", stdin=data)
        wanted = "".join(f"1 {line}\n" for line in whole.splitlines())
        checks.true(f"two items of a key of {size} bytes", found == (0, wanted, ""), (found[0], len(found[1]), found[2]))
        node.ended()
    for over in (0, 1):
        key = "x" * (65_503 + over)
        node = Node(f"{folder}/poll{over}", clause=clause, table=table)
        found = talk(node, row(1, [key]) + poll([key], 4_294_967_295))
        wanted = '{"taken":"new"}\n' + ('{"refused":"TooLong"}\n' if over else f'{{"cells":["{key}","{key}"],"key":["{key}"],"number":1,"place":"1"}}\n')
        checks.true(f"a poll of a key of {len(key) + 4} bytes", found == wanted, found[:100])
        node.ended()
        item = '{"end":true,"key":["' + "x" * (LONGEST + over - len(END) + 2) + '"],"place":"1"}\n'
        checks.same("the length of the line", len(item) - 1, LONGEST + over)
        found = source(peer([NEW, IDLE, NEW, item, IDLE], after=""))
        wanted = (1, "", BAD_REPLY) if over else (0, "1 " + item, "")
        checks.true(f"a reply of {len(item) - 1} bytes", found == wanted, (found[0], len(found[1]), found[2]))


def surplus(checks, folder):
    """A reply that nothing was asked for is a bad one, whenever it comes."""
    cases = [
        ("none", "", "", (0, PRINTED, "")),
        ("with the last one", NEW, "", (1, PRINTED, UNASKED)),
        ("a part of one", NEW[:5], "", (1, PRINTED, UNASKED)),
        ("an empty line", "\n", "", (1, PRINTED, UNASKED)),
        ("after the end", "", IDLE, (1, PRINTED, UNASKED)),
        ("what was saved, unasked for", "", '{"saved":5}\n', (1, PRINTED, ACKNOWLEDGES + BAD_REPLY)),
    ]
    for name, behind, after, wanted in cases:
        checks.same(f"surplus: {name}", source(peer(WORKED, behind, after)), wanted)
    checks.same("a last reply without its line feed", source(short_peer()), (0, PRINTED, ""))


def short_peer():
    """A peer whose last reply has no line feed."""
    server = socket.create_server(("127.0.0.1", 0))

    def serve():
        connection, _ = server.accept()
        with connection, server, connection.makefile("rb") as lines:
            for reply in [*WORKED[:-1], IDLE.strip()]:
                lines.readline()
                connection.sendall(reply.encode())
            connection.shutdown(socket.SHUT_WR)
            lines.read()

    threading.Thread(target=serve, daemon=True).start()
    return f"127.0.0.1:{server.getsockname()[1]}"


def acknowledged(checks, folder):
    """With --acknowledge the line that says that all five lines are saved has to come, alone."""
    good, lacks = (0, PRINTED, ""), (3, PRINTED, NOT_SAVED)
    cases = [
        ('{"saved":5}\n', "", good),
        ('{ "saved" : 5 }\n', "", good),
        ('{"saved"', ':5}\n', good),
        ('{"saved":4}\n', "", lacks),
        ('{"saved":6}\n', "", lacks),
        ('{"saved":18446744073709551621}\n', "", lacks),
        ('{"saved":5.0}\n', "", lacks),
        ('{"saved":"5"}\n', "", lacks),
        ('{"saved":5,"more":1}\n', "", lacks),
        ('{"saved":5}', "", lacks),
        ('{"saved":5}\n\n', "", lacks),
        ('{"saved":5}\n', '{"saved":5}\n', lacks),
        (IDLE, '{"saved":5}\n', lacks),
        ("\n", "", lacks),
        ("", "", (3, PRINTED, NO_LINE)),
    ]
    for after, last, wanted in cases:
        checks.same(f"saved by {after + last!r}", source("--acknowledge", peer(WORKED, "", after, last)), wanted)
    checks.same("before the end", source("--acknowledge", peer(WORKED, '{"saved":5}\n', "")), (1, PRINTED, UNASKED))
    checks.same("no row", source("--acknowledge", peer([], "", '{"saved":0}\n'), stdin="sym,t,p\n"), (0, "", ""))
    node = Node(f"{folder}/state")
    found = source("--acknowledge", f"127.0.0.1:{node.port}")
    checks.same("a node that wasn't asked to", found, (3, PRINTED, NO_LINE))
    node.kill()


def gone_peer(replies, part="", resets=False):
    """A peer that replies to each line by the next of these, and ends its connection at the next line, perhaps behind a part of a reply,
    and perhaps by a reset."""
    server = socket.create_server(("127.0.0.1", 0))

    def serve():
        connection, _ = server.accept()
        with connection, server, connection.makefile("rb") as lines:
            for reply in [*replies, part]:
                lines.readline()
                connection.sendall(reply.encode())
            if resets:
                connection.setsockopt(socket.SOL_SOCKET, socket.SO_LINGER, struct.pack("ii", 1, 0))

    threading.Thread(target=serve, daemon=True).start()
    return f"127.0.0.1:{server.getsockname()[1]}"


def gone(checks, folder):
    """With --acknowledge a node whose connection ends or fails before it said that it saved hasn't saved. Without, what came is judged."""
    ended = ENDED.removesuffix(BAD_REPLY)
    cases = [
        ("in place of the first reply", gone_peer, ([],), "", (1, ended, BAD_REPLY)),
        ("in place of a later reply", gone_peer, ([NEW, IDLE],), "", (1, ended, BAD_REPLY)),
        ("behind an item", gone_peer, ([NEW, IDLE, NEW, END],), PRINTED, (1, ended, BAD_REPLY)),
        ("within a reply", gone_peer, ([NEW], IDLE[:7]), "", (1, ended, BAD_REPLY)),
        ("by a reset", gone_peer, ([NEW], "", True), "", (3, RESET, READ)),
        ("by a reset within a reply", gone_peer, ([], NEW[:7], True), "", (3, RESET, READ)),
    ]
    for name, make, given, printed, (status, why, told) in cases:
        at = make(*given)
        checks.same(f"gone {name}", source("--acknowledge", at), (3, printed, why.replace("ADDR", at) + NOT_SAVED))
        at = make(*given)
        checks.same(f"gone {name}, without --acknowledge", source(at), (status, printed, why.replace("ADDR", at) + told))
    checks.same("a whole line that is no reply", source("--acknowledge", gone_peer([], "nope\n")), (1, "", BAD_REPLY))
    checks.same("a refusal", source("--acknowledge", gone_peer([], '{"refused":"TooFar"}\n')), (1, "", "rowmatch: node 1: refused\n"))
    at = f"127.0.0.1:{free_port()}"
    checks.same("nobody listens", source("--acknowledge", at), (3, "", not_reached(1, at, REFUSED)))


def unconnected(checks, folder):
    """With --idle a node that takes no connection ends the source: more wait for it already than the system keeps."""
    with socket.socket() as server:
        server.bind(("127.0.0.1", 0))
        server.listen(0)
        waiting = [socket.socket() for _ in range(4)]
        for one in waiting:
            one.setblocking(False)
            one.connect_ex(server.getsockname())
        begun = time.monotonic()
        at = f"127.0.0.1:{server.getsockname()[1]}"
        checks.same("no connection is taken", source("--idle", "1", at), (3, "", not_reached(1, at, "connection timed out")))
        checks.true("after a second", 0.9 < time.monotonic() - begun < 20)
        for one in waiting:
            one.close()
    checks.same("a connection in time", source("--idle", "20", peer(WORKED, "", "")), (0, PRINTED, ""))
    checks.same("by a name", source("--idle", "20", peer(WORKED, "", "").replace("127.0.0.1", "localhost")), (0, PRINTED, ""))


def silent(checks, folder):
    """With --idle a node that says nothing for a second ends the source: before a reply, before its end, and before it has saved."""
    cases = [
        ("before a reply", [], [NEW], (3, "", READ)),
        ("before its end", [], WORKED, (3, PRINTED, READ)),
        ("before it says that it saved", ["--acknowledge"], WORKED, (3, PRINTED, NOT_SAVED)),
        ("before a reply, and so before it says that it saved", ["--acknowledge"], [NEW], (3, "", NOT_SAVED)),
    ]
    for name, words, replies, (status, printed, told) in cases:
        begun, at = time.monotonic(), peer(replies)
        silence = f"rowmatch: node 1 at {at}: nothing came for 1 second\n"
        checks.same(f"silent {name}", source("--idle", "1", *words, at), (status, printed, silence + told))
        checks.true("after a second", 0.9 < time.monotonic() - begun < 20)
    for seconds in ("0", "x", "4294967296"):
        checks.same(f"--idle {seconds}", source("--idle", seconds, "127.0.0.1:1")[:2], (2, ""))


def stopped(checks, folder):
    """A source that is stopped goes on where it was, with --idle too: while it waits for a reply, and for its node's end."""
    for name, replies, after in [("before a reply", [NEW], None), ("before the end", WORKED, "")]:
        reached, goes_on = threading.Event(), threading.Event()
        address = waiting_peer(replies, after, reached, goes_on)
        words = [PROGRAM, "source", *TEXTS, "--idle", "30", address]
        with subprocess.Popen(words, stdin=subprocess.PIPE, stdout=subprocess.PIPE, stderr=subprocess.PIPE, text=True) as program:
            program.stdin.write(ONE_ROW)
            program.stdin.close()
            program.stdin = None
            reached.wait(30)
            time.sleep(0.3)  # the source waits in its call by then, most likely
            program.send_signal(signal.SIGSTOP)
            time.sleep(0.1)
            program.send_signal(signal.SIGCONT)
            time.sleep(0.3)
            goes_on.set()
            out, told = program.communicate(timeout=30)
        checks.same(f"stopped {name}", (program.returncode, out, told), (0, PRINTED, ""))


def waiting_peer(replies, after, reached, goes_on):
    """A peer that replies by these, waits at the last of them or, where it has an end, there, and goes on when it is told."""
    server = socket.create_server(("127.0.0.1", 0))

    def serve():
        connection, _ = server.accept()
        with connection, server, connection.makefile("rb") as lines:
            for place in range(len(WORKED)):
                lines.readline()
                if after is None and place == len(replies) - 1:
                    reached.set()
                    goes_on.wait(30)
                connection.sendall(WORKED[place].encode())
            lines.read()
            if after is not None:
                reached.set()
                goes_on.wait(30)

    threading.Thread(target=serve, daemon=True).start()
    return f"127.0.0.1:{server.getsockname()[1]}"


def refused(checks, folder):
    """What was refused is told behind the line that says so: with --verbose, and where standard error is a terminal."""
    data = 'sym,t,p\nx,1,10\n"y ""z""",1,10\nx,2,8\n'
    conflict = '{"refused":"Conflict"}\n'
    told = "rowmatch: node 1: refused\n"
    second = [NEW, IDLE, conflict]
    checks.same("not told", source(peer(second, after=""), stdin=data), (1, "", told))
    at_row = 'rowmatch: node 1: {"refused":"Conflict"} at row 2 of ["x"]\n'
    checks.same("a row", source("--verbose", peer(second, after=""), stdin=data), (1, "", told + at_row))
    at_poll = 'rowmatch: node 1: {"refused":"UnknownPartition"} at row 1 of ["x"]\n'
    checks.same("a poll", source("--verbose", peer([NEW, '{"refused":"UnknownPartition"}\n'], after=""), stdin=data), (1, "", told + at_poll))
    at_close = 'rowmatch: node 1: {"refused":"BadRow kind 7"} at the close of ["x"] after row 2\n'
    replies = [NEW, IDLE, NEW, IDLE, '{"refused":"BadRow kind 7"}\n']
    checks.same("a close", source("--verbose", peer(replies, after=""), stdin=data), (1, "", told + at_close))
    at_key = 'rowmatch: node 1: {"refused":"TooFar"} at row 1 of ["y \\"z\\""]\n'
    replies = [NEW, IDLE, NEW, IDLE, NEW, IDLE, '{"refused":"TooFar"}\n']
    checks.same("a key with quotes", source("--verbose", peer(replies, after=""), stdin=data), (1, "", told + at_key))
    came = "rowmatch: node 1: what came last begins with "
    cases = [
        ("a bad reply", IDLE, '{"idle":["x"]}\n'),
        ("a server of another kind", "HTTP/1.1 400 Bad Request\r\nContent-Length: 0\r\n\r\n", "HTTP/1.1 400 Bad Request\n"),
        ("a long line, with a character that would control a terminal", "\033" + 99 * "x" + "\n", "?" + 39 * "x" + "\n"),
    ]
    for name, reply, shown in cases:
        checks.same(name, source("--verbose", peer([reply], after=""), stdin=data), (1, "", came + shown + BAD_REPLY))
    checks.same("on a terminal", on_terminal(peer(second, after=""), data), (1, told + at_row))


def on_terminal(address, data):
    """Status and standard error of a source whose standard error is a terminal."""
    ours, theirs = pty.openpty()
    words = [PROGRAM, "source", *TEXTS, address]
    done = subprocess.run(words, input=data.encode(), stdout=subprocess.DEVNULL, stderr=theirs, timeout=60)
    os.close(theirs)
    parts = []
    while True:
        try:
            part = os.read(ours, 4096)
        except OSError:
            break
        if not part:
            break
        parts.append(part)
    os.close(ours)
    return done.returncode, b"".join(parts).decode().replace("\r\n", "\n")


if __name__ == "__main__":
    main([long_items, surplus, acknowledged, gone, unconnected, silent, stopped, refused])
