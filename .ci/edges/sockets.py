"""What the edges of `node` and `source` share: a node that runs, and lines over a connection."""
import hashlib
import json
import os
import shutil
import signal
import socket
import struct
import subprocess
import sys
import tempfile
import threading
import time
import weakref

TABLE = "sym text, t int, p int"
# a fall and then a rise
CLAUSE = (
    "PARTITION BY sym ORDER BY t MEASURES MATCH_NUMBER() AS n, FIRST(p) AS a, LAST(B.p) AS lo, LAST(C.p) AS hi "
    "PATTERN (A B+ C+) DEFINE B AS p < PREV(p), C AS p > PREV(p)"
)
PROGRAM = os.path.abspath(sys.argv[1] if len(sys.argv) > 1 else "crates/rowmatch/out/rowmatch")


REFUSED = "Connection refused (os error 111)"


def not_reached(number, address, why):
    """What a source tells of a node to which it has no connection."""
    return f"rowmatch: node {number} at {address}: {why}\nrowmatch: device: connect\n"


def begun_anew(path):
    """What a node tells whose file of this name is refused, behind why."""
    return f"rowmatch: {path}: the node begins with nothing; the file stays until there is something else to keep\n"


# how a node with --verbose says that its file isn't there
BEGINS = " isn't there: the node begins with nothing\n"
# connections for a node that is ended by a signal: programs of before ask for a number
MANY = 1_000_000


class Node:
    """A node of the program, listening at a port of loopback that the system chose. A quiet one, without --verbose, doesn't say which:
    it is given one that was free. With `variables` of the environment it runs under these too. With None for the connections it serves
    until it is ended; with None for the clause the options have it. A node that ends before it listens has no port. What it says of how it
    began is `began`, apart from what it told."""

    all = weakref.WeakSet()

    def __init__(self, state, connections=1, clause=CLAUSE, options=(), limit=None, table=TABLE, quiet=False, variables=None):
        self.port = free_port() if quiet else None
        words = [PROGRAM, "node", "--table", table, *([] if clause is None else ["--clause", clause])]
        words += ["--listen", f"127.0.0.1:{self.port or 0}", "--state", state]
        words += [] if connections is None else ["--connections", str(connections)]
        words += [*([] if quiet else ["--verbose"]), *options]
        self.process = subprocess.Popen(words, stdin=subprocess.DEVNULL, stderr=subprocess.PIPE, text=True, preexec_fn=limit,
                                        env={**os.environ, **(variables or {})})
        Node.all.add(self)
        self.told, self.began = [], ""
        for line in [] if quiet else self.process.stderr:
            if line.startswith("rowmatch: listening at "):
                self.port = int(line.rsplit(":", 1)[1])
                break
            self.told.append(line)
        if self.port and not quiet and not any("checkpoint refused" in line for line in self.told):
            self.began = self.process.stderr.readline()
        self.reader = threading.Thread(target=self.read_errors, daemon=True)
        self.reader.start()

    def read_errors(self):
        for line in self.process.stderr:
            self.told.append(line)

    def connect(self):
        """A connection. A node that has just begun may not listen yet."""
        until = time.monotonic() + 60
        while True:
            try:
                connection = socket.create_connection(("127.0.0.1", self.port), timeout=60)
                connection.setsockopt(socket.IPPROTO_TCP, socket.TCP_NODELAY, 1)
                return connection
            except ConnectionRefusedError:
                if self.process.poll() is not None or time.monotonic() > until:
                    raise
                time.sleep(0.01)

    def kill(self):
        self.process.send_signal(signal.SIGKILL)
        self.process.wait()

    def ended(self):
        """The status, and what was told on standard error after the address."""
        status = self.process.wait(timeout=120)
        self.reader.join(timeout=60)
        return status, "".join(self.told)


def beginning(*words, **more):
    """Status and standard error of a node that ends before it listens. One that comes to listen has no status, and is killed."""
    node = Node(*words, **more)
    if node.port is None:
        return node.ended()
    node.kill()
    return None, "".join(node.told)


def end(node, by=signal.SIGTERM):
    """The status of a node that a signal ends."""
    node.process.send_signal(by)
    status = node.process.wait(timeout=60)
    node.reader.join(timeout=60)
    return status


def free_port():
    with socket.create_server(("127.0.0.1", 0)) as server:
        return server.getsockname()[1]


def read_all(connection):
    """What comes until the other end ends."""
    parts = []
    while True:
        try:
            part = connection.recv(65536)
        except ConnectionResetError:
            parts.append(b"(reset)")
            break
        if not part:
            break
        parts.append(part)
    return b"".join(parts)


def talk(node, text):
    """Sends lines, ends the sending side, and gives what comes until the node ends the connection."""
    if isinstance(text, str):
        text = text.encode()
    with node.connect() as connection:
        sender = threading.Thread(target=send_all, args=(connection, text))
        sender.start()
        replies = read_all(connection)
        sender.join()
    return replies.decode()


def send_all(connection, text):
    try:
        connection.sendall(text)
        connection.shutdown(socket.SHUT_WR)
    except OSError:
        pass


class Conversation:
    """A connection to a node over which each line waits for its reply."""

    def __init__(self, node):
        self.connection = node.connect()
        self.replies = self.connection.makefile("rb")

    def __enter__(self):
        return self

    def __exit__(self, *_):
        self.replies.close()
        self.connection.close()

    def ask(self, line):
        self.connection.sendall(line.encode())
        return self.replies.readline().decode()

    def drain(self, key, budget=100000):
        """The replies to polls until one is idle, or refused, or none comes."""
        told = [self.ask(poll(key, budget))]
        while told[-1] and not told[-1].startswith(('{"idle":', '{"refused":')):
            told.append(self.ask(poll(key, budget)))
        return told

    def reset(self):
        """Ends the connection by a reset in place of an end."""
        self.connection.setsockopt(socket.SOL_SOCKET, socket.SO_LINGER, struct.pack("ii", 1, 0))


def run(*words, stdin=b"", variables=None):
    """Status, standard output and standard error of the program."""
    if isinstance(stdin, str):
        stdin = stdin.encode()
    done = subprocess.run([PROGRAM, *words], input=stdin, capture_output=True, timeout=300, env={**os.environ, **(variables or {})})
    return done.returncode, done.stdout.decode(), done.stderr.decode()


def preloaded(folder, name):
    """The library of .ci/NAME.c, built there, to be loaded before a program."""
    library = f"{folder}/{name}.so"
    source = os.path.join(os.path.dirname(__file__), "..", f"{name}.c")
    subprocess.run(["gcc", "-shared", "-fPIC", "-O1", "-o", library, source], check=True)
    return library


def acknowledging(command):
    """The option with which a command goes by `{"saved":N}`. A program of before has none: it is held to what it had in its place, the
    end of a connection."""
    return ["--acknowledge"] if "--acknowledge" in run(command, "--help")[1] else []


def saved(count):
    return f'{{"saved":{count}}}\n'


def row(number, cells):
    return json.dumps({"cells": cells, "row": number}, separators=(",", ":")) + "\n"


def poll(key, budget=100000):
    return json.dumps({"budget": budget, "poll": key}, separators=(",", ":")) + "\n"


def close(count, key):
    return json.dumps({"close": count, "key": key}, separators=(",", ":")) + "\n"


def sealed(text):
    """A file of a node with this object, behind its digest."""
    return hashlib.sha256(text).hexdigest().encode() + b"\n" + text


class Checks:
    """Counts what is as it is wanted, and tells what is not."""

    def __init__(self):
        self.passed = 0
        self.failed = 0
        self.folders = []

    def folder_in(self, path):
        """A folder of its own there, which goes with the case."""
        self.folders.append(tempfile.mkdtemp(dir=path))
        return self.folders[-1]

    def same(self, name, found, wanted):
        if found == wanted:
            self.passed += 1
        else:
            self.failed += 1
            print(f"{name}:\n  found  {found!r:.600}\n  wanted {wanted!r:.600}")

    def true(self, name, found, told=""):
        self.same(name + (f" ({told!r:.300})" if not found else ""), bool(found), True)


def main(cases):
    """Runs each case in a folder of its own, and ends with status 1 where one fails."""
    checks = Checks()
    for case in cases:
        folder = tempfile.mkdtemp()
        try:
            case(checks, folder)
        except Exception as fault:  # a case that breaks off is a failure like another
            checks.failed += 1
            print(f"{case.__name__}: {type(fault).__name__}: {fault}")
        finally:
            for node in Node.all:  # of a case that broke off
                node.kill()
            for path in [folder, *checks.folders]:
                shutil.rmtree(path, ignore_errors=True)
    print(f"{checks.passed} passed, {checks.failed} failed")
    sys.exit(1 if checks.failed else 0)
