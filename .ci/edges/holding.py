#!/usr/bin/env python3
"""Who may hold `rowmatch node`, and what may end it: slow clients, web pages, a system without descriptors, signals.
Usage: .ci/edges/holding.py [PROGRAM]"""
import errno
import os
import pty
import resource
import shutil
import signal
import socket
import subprocess
import threading
import time

from sockets import CLAUSE, MANY, PROGRAM, TABLE, Conversation, Node, close, end, free_port, main, poll, preloaded, row, talk

NEW, REPEAT = '{"taken":"new"}\n', '{"taken":"repeat"}\n'
ONE = row(1, ["x", 1, 10])


def slow_lines(checks, folder):
    """With --idle a line has so long in all, and a client that sends a whole line now and then has not."""
    node = Node(f"{folder}/state", connections=MANY, options=["--idle", "2"])
    with node.connect() as connection:
        took = drip(connection)
    checks.true("a byte now and then", 1 < took < 10, took)
    with Conversation(node) as conversation:
        for number in range(1, 7):
            checks.same("a line now and then", conversation.ask(row(number, ["x", number, 10])), NEW)
            time.sleep(0.7)
    end(node)


def drip(connection):
    """How long it takes until the node ends a connection that sends a byte each 0.3 seconds, at most 20 seconds."""
    began = time.monotonic()
    connection.settimeout(0.3)
    while time.monotonic() - began < 20:
        try:
            connection.sendall(b"{")
            if not connection.recv(100):
                break
        except TimeoutError:
            pass
        except OSError:
            break
    return time.monotonic() - began


def stopped(checks, folder):
    """A node that is stopped and continued keeps its connection."""
    node = Node(f"{folder}/state", connections=MANY, options=["--idle", "30"])
    with Conversation(node) as conversation:
        checks.same("before", conversation.ask(ONE), NEW)
        for _ in range(3):
            time.sleep(0.1)
            node.process.send_signal(signal.SIGSTOP)
            time.sleep(0.1)
            node.process.send_signal(signal.SIGCONT)
        checks.same("after", conversation.ask(ONE), REPEAT)
    end(node)


def stopped_for_long(checks, folder):
    """With --idle the time for which a node is stopped counts where a part of a line had come, and else it doesn't."""
    node = Node(f"{folder}/state", connections=MANY, options=["--idle", "2"])
    for name, part, reply in [("between lines", "", NEW), ("within a line", ONE[:10], "")]:
        with node.connect() as connection:
            connection.sendall(part.encode())
            time.sleep(0.3)
            node.process.send_signal(signal.SIGSTOP)
            time.sleep(3)
            node.process.send_signal(signal.SIGCONT)
            time.sleep(0.3)
            checks.same(name, replied(connection, ONE[len(part) :]), reply)
    end(node)


def replied(connection, text):
    """The reply to a line, none where the connection is over."""
    try:
        connection.sendall(text.encode())
        return connection.recv(100).decode()
    except OSError:
        return ""


def no_descriptors(checks, folder):
    """A node that has no descriptor for a connection reports it, and accepts once there is one."""
    node = Node(f"{folder}/state", connections=MANY)
    talk(node, ONE)
    used = max(int(name) for name in os.listdir(f"/proc/{node.process.pid}/fd")) + 1
    limits = resource.prlimit(node.process.pid, resource.RLIMIT_NOFILE)
    resource.prlimit(node.process.pid, resource.RLIMIT_NOFILE, (used, limits[1]))
    # A node that waits for a connection has the descriptor for it already; one that still saves what it took before hasn't. So the
    # first client, which asks nothing, may be served or not; the second one isn't.
    replies = []
    clients = [threading.Thread(target=answered, args=(node, replies, text)) for text in ("", ONE)]
    for client in clients:
        client.start()
        time.sleep(0.5)
    time.sleep(2)
    served = [reply for reply in replies if reply]
    checks.same("the node lives, and nobody is served", (node.process.poll(), served), (None, []))
    if node.process.poll() is None:
        resource.prlimit(node.process.pid, resource.RLIMIT_NOFILE, limits)
    for client in clients:
        client.join(timeout=60)
    checks.same("then it accepts", sorted(replies), ["", REPEAT])
    end(node)
    checks.same("it is reported once", "".join(node.told).count("no connection can be accepted"), 1)


def answered(node, replies, text=ONE):
    try:
        replies.append(talk(node, text))
    except OSError:  # nobody listens any more
        pass


def errors_that_pass(checks, folder):
    """An error of accepting that passes (accept(2)) doesn't end the node. A connection that was given up isn't even reported."""
    library = preloaded(folder, "accept")
    errors = [
        errno.ENOMEM, errno.ENFILE, errno.EMFILE, errno.ENOBUFS, errno.EPROTO, errno.ENETDOWN, errno.ENETUNREACH, errno.EHOSTDOWN,
        errno.EHOSTUNREACH, errno.ENONET, errno.ENOPROTOOPT, errno.ECONNABORTED, errno.EINTR,
    ]
    nodes = [Node(f"{folder}/{error}", variables={"LD_PRELOAD": library, "ACCEPT": str(error)}) for error in errors]
    for error, node in zip(errors, nodes):
        replies = []
        answered(node, replies)
        status, told = node.ended()
        found = replies, status, "no connection can be accepted" in told
        checks.same(errno.errorcode[error], found, ([NEW], 0, error not in (errno.ECONNABORTED, errno.EINTR)))
    node = Node(f"{folder}/no", variables={"LD_PRELOAD": library, "ACCEPT": str(errno.EBADF)})
    told = "rowmatch: no connection can be accepted: Bad file descriptor (os error 9)\nrowmatch: device: listen\n"
    checks.same("an error that doesn't pass", node.ended(), (3, told))


def web_pages(checks, folder):
    """What a browser sends for a page isn't read as lines."""
    node = Node(f"{folder}/state", connections=MANY)
    body = ONE + close(1, ["x"])
    for method in ["POST", "GET", "HEAD", "PUT", "DELETE", "CONNECT", "OPTIONS", "TRACE", "PATCH"]:
        head = f"{method} / HTTP/1.1\r\nHost: 127.0.0.1\r\nContent-Type: text/plain\r\nContent-Length: {len(body)}\r\n\r\n"
        checks.true(f"{method} has no reply", talk(node, head + body) in ("", "(reset)"))
    checks.same("nothing was taken", talk(node, poll(["x"])), '{"refused":"UnknownPartition"}\n')
    checks.same("a word that is no method", talk(node, "POSTS\n"), '{"refused":"NotJson"}\n')
    end(node)
    checks.same("told", node.told[:2], ["rowmatch: a client that speaks HTTP was turned away\n", "rowmatch: connection 1: 0 lines, saved\n"])


def by_the_launcher(checks, folder):
    """`./rowmatch node` at a terminal is the node itself: what ends it ends the node."""
    for name in ["rowmatch", "launcher"]:
        (shutil.copytree if os.path.isdir(name) else shutil.copy)(name, f"{folder}/{name}")
    os.makedirs(f"{folder}/crates/rowmatch/out")
    open(f"{folder}/crates.txt", "w", encoding="utf-8").close()
    shutil.copy(PROGRAM, f"{folder}/crates/rowmatch/out/rowmatch")
    os.utime(f"{folder}/crates/rowmatch/out/rowmatch")
    port = free_port()
    words = [f"{folder}/rowmatch", "node", "--table", TABLE, "--clause", CLAUSE, "--listen", f"127.0.0.1:{port}"]
    ours, theirs = pty.openpty()
    words += ["--state", f"{folder}/state", "--connections", str(MANY), "--verbose"]
    process = subprocess.Popen(words, stdin=subprocess.DEVNULL, stderr=theirs, start_new_session=True)
    os.close(theirs)
    told = b""
    while b"listening" not in told:
        told += os.read(ours, 1000)
    process.send_signal(signal.SIGTERM)
    checks.same("the launcher ends", process.wait(timeout=60), -signal.SIGTERM)
    time.sleep(0.2)
    with socket.socket() as connection:
        checks.true("and the node with it", connection.connect_ex(("127.0.0.1", port)) != 0)
    os.close(ours)
    try:
        os.killpg(process.pid, signal.SIGKILL)
    except ProcessLookupError:  # nothing is left of it
        pass


if __name__ == "__main__":
    main([slow_lines, stopped, stopped_for_long, no_descriptors, errors_that_pass, web_pages, by_the_launcher])
