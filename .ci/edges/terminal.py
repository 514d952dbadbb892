#!/usr/bin/env python3
"""What is printed on standard error for people alone: where that is a terminal. Usage: .ci/edges/terminal.py [PROGRAM]"""
import os
import pty
import subprocess

from sockets import CLAUSE, PROGRAM, TABLE, main

MORE = "rowmatch: `rowmatch check` says of the same clause, columns and input where that is, and what to write\n"
ROWS = b"sym,t,p\nx,1,10\nx,2,8\n"


def told(words, rows, on_terminal):
    """What a command prints on standard error over these rows, a terminal or a pipe."""
    if not on_terminal:
        return subprocess.run([PROGRAM, *words], input=rows, capture_output=True, check=False).stderr.decode()
    leader, follower = pty.openpty()
    with subprocess.Popen([PROGRAM, *words], stdin=subprocess.PIPE, stdout=subprocess.DEVNULL, stderr=follower) as run:
        os.close(follower)
        run.communicate(rows)
    said = b""
    try:
        while part := os.read(leader, 4096):
            said += part
    except OSError:  # a terminal that nobody has open any more ends so
        pass
    os.close(leader)
    return said.decode().replace("\r\n", "\n")


def mistakes(checks, folder):
    """A mistake in a text or an input has a second line, which says where to read more; a pipe has the first alone."""
    unknown = CLAUSE.replace("FIRST(p)", "FIRST(price)")
    table, clause = ["--table", TABLE], ["--clause", CLAUSE]
    for name, words, rows, line in [
        ("a clause", [*table, "--clause", unknown], ROWS, f"clause: UnknownColumn at byte {unknown.index('price')}"),
        ("a table", ["--table", "sym txt", *clause], ROWS, "table: Expected at byte 4"),
        ("columns", ["--columns", "sym txt", *clause], ROWS, "columns: Reading at byte 4"),
        ("a time zone", ["--columns", "t = seconds(t, 'Nowhere')", *clause], ROWS, "columns: Zone Nowhere"),
        ("a condition", [*table, *clause, "--where", "p >"], ROWS, "where: Expected at byte 3"),
        ("a header", [*table, *clause], b"sym,t\n", "csv: Header"),
        ("a record", [*table, *clause], ROWS + b"x,3\n", "csv: Record at record 3"),
        ("a field", [*table, *clause], ROWS + b"x,3,y\n", "csv: Field at record 3"),
        ("an input by columns", ["--columns", TABLE, *clause], ROWS + b"x,3,y\n", "csv: Form at record 3, column P"),
    ]:
        for job in ["whole", "why"]:
            checks.same(f"{name}, {job}", told([job, *words], rows, False), f"rowmatch: {line}\n")
            checks.same(f"{name}, {job} on a terminal", told([job, *words], rows, True), f"rowmatch: {line}\n{MORE}")
    node = ["node", "--listen", "127.0.0.1:0", "--state", f"{folder}/state", *table, "--clause", unknown]
    checks.same("a node's clause", told(node, b"", True), f"rowmatch: clause: UnknownColumn at byte {unknown.index('price')}\n{MORE}")


def others(checks, _folder):
    """Of what `check` doesn't explain nothing more is said, and `check` itself prints on standard output."""
    both = ["whole", "--table", TABLE, "--columns", TABLE, "--clause", CLAUSE]
    for name, words in [("options", both), ("a file", ["whole", "--clause", CLAUSE, "there is none.csv"])]:
        checks.same(name, told(words, ROWS, True), told(words, ROWS, False))
    checks.same("check", told(["check", "--table", TABLE, "--clause", "PATTERN"], b"", True), "")
    checks.same("no mistake", told(["whole", "--table", TABLE, "--clause", CLAUSE], ROWS, True), "")


if __name__ == "__main__":
    main([mistakes, others])
