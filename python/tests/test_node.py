"""A client and a node that runs."""

from __future__ import annotations

import json
import os
import pickle
import random
import signal
import socket
import subprocess
import threading
import time
from types import MappingProxyType

import pytest

from rowmatch import Item, Node, NodeError, Numbering
from rowmatch._program import command, environment

TABLE = "who text, t int, outcome text"
CLAUSE = """PARTITION BY who ORDER BY t MEASURES FIRST(F.t) AS a, COUNT(F.*) AS n PATTERN (F{2,} G)
    DEFINE F AS outcome = 'fail', G AS outcome = 'ok'"""
EVE = [(1, ("eve", 10, "fail")), (2, ("eve", 20, "fail")), (3, ("eve", 30, "ok"))]
OUTCOMES = ["fail", "fail", "ok"]
ROWS = [*EVE, (1, ("bob", 5, "ok"))]


@pytest.fixture
def start(tmp_path):
    """Starts nodes over one file. Each listens when its address is given."""
    started = []

    def start(*options):
        words = ["node", "--table", TABLE, "--clause", CLAUSE, "--listen", "127.0.0.1:0"]
        words += ["--state", str(tmp_path / "state"), "--connections", "9", "--verbose", *options]
        process = subprocess.Popen(
            command(words), env=environment(words), stderr=subprocess.PIPE, text=True
        )
        started.append(process)
        for line in process.stderr:
            if line.startswith("rowmatch: listening at "):
                return process, line.split()[-1]
        raise AssertionError("the node doesn't listen")

    yield start
    for process in started:
        process.kill()
        process.wait()
        process.stderr.close()


def test_rows_poll_commit(start):
    _, address = start("--acknowledge")
    with Node(address) as client:
        assert client.rows(ROWS) == 4
        assert client.rows(ROWS) == 0
        assert client.poll(["eve"]) == [Item(("eve",), 1, ("eve", 10, 2), 1)]
        assert client.poll(["bob"], ["eve"]) == [] == client.poll()
        client.close(["eve"], 3)
        assert client.poll(["eve"]) == [Item(("eve",), 2, end=True)]
        client.commit()
    with Node(address) as client:
        assert client.rows(ROWS) == 0
        client.commit()


def test_a_node_goes_on_where_it_was(start):
    first, address = start("--acknowledge")
    with Node(address) as client:
        client.rows(EVE[:2])
        client.commit()
    first.kill()
    first.wait()
    _, address = start("--acknowledge")
    with Node(address) as client:
        assert client.rows(EVE) == 1
        assert [item.cells for item in client.poll(["eve"])] == [("eve", 10, 2)]
        client.commit()


def test_many_rows_at_once(start):
    _, address = start("--acknowledge")
    with Node(address) as client:
        rows = ((n, ("x", n, "ok" if n % 3 == 0 else "fail")) for n in range(1, 3001))
        assert client.rows(rows) == 3000
        assert [item.place for item in client.poll(["x"])] == list(range(1, 1001))
        client.commit()


def test_long_rows(start):
    _, address = start("--acknowledge")
    with Node(address) as client:
        assert client.rows((n, ("x", n, "é" * 20_000)) for n in range(1, 30)) == 29
        with pytest.raises(NodeError, match="TooLong"):
            client.rows([(30, ("x", 30, "é" * 40_000))])
        client.commit()


def test_a_small_budget(start):
    _, address = start("--acknowledge")
    with Node(address) as client:
        client.rows(ROWS)
        assert [item.cells for item in client.poll(["eve"], ["bob"], budget=1)] == [("eve", 10, 2)]


def test_refusals_say_why(start):
    _, address = start("--acknowledge")
    with Node(address) as client:
        client.rows(ROWS)
        with pytest.raises(NodeError, match="Conflict") as caught:
            client.rows([(1, ("eve", 11, "fail")), (9, ("bob", 1, "ok"))])
        assert caught.value.refused == "Conflict" and caught.value.request["row"] == 1
        # what is asked after a refusal has its own reply, and items that came with one aren't lost
        with pytest.raises(NodeError, match="UnknownPartition") as caught:
            client.poll(["nobody"], ["eve"])
        assert [item.cells for item in caught.value.items] == [("eve", 10, 2)]
        assert client.poll(["eve"]) == []
        for bad in (1.5, b"x", object()):
            with pytest.raises(TypeError, match="neither a whole number"):
                client.rows([(4, ("eve", 40, bad))])
        client.commit()


def test_one_text_is_no_list_of_its_letters(start):
    _, address = start("--acknowledge")
    with Node(address) as client:
        for ask in (
            lambda: client.rows([(1, "efo")]),
            lambda: client.close("x", 1),
            lambda: client.poll("x"),
            lambda: client.poll(["eve"], b"x"),
        ):
            with pytest.raises(TypeError, match="is no list of values, as .* is one"):
                ask()
        assert client.rows(EVE) == 3
        client.commit()


@pytest.mark.parametrize(
    "address", ["localhost", "127.0.0.1", "127.0.0.1:x", ":7431", "", "127.0.0.1:70000", "[::1]:0"]
)
def test_an_address_has_a_host_and_a_port(address):
    with pytest.raises(ValueError, match="is no HOST:PORT, as 127.0.0.1:7431 is one"):
        Node(address)


def test_a_node_that_is_not_there():
    with socket.create_server(("127.0.0.1", 0)) as server:
        address = f"127.0.0.1:{server.getsockname()[1]}"
    told = f"no connection to the node at {address}: .*Connection refused"
    with pytest.raises(NodeError, match=told) as caught:
        Node(address)
    assert isinstance(caught.value.__cause__, ConnectionRefusedError)


def test_a_connection_that_is_given_up(start):
    """The node goes on with the next one."""
    _, address = start("--acknowledge")
    client = Node(address)
    client.rows(EVE[:2])
    client.disconnect()
    client.disconnect()
    with pytest.raises(NodeError, match="this connection has ended: open another Node, and send"):
        client.rows(EVE[:2])
    with Node(address, timeout=10) as client:
        client.rows(EVE)
        assert client.poll(["eve"]) == [Item(("eve",), 1, ("eve", 10, 2), 1)]
        client.commit()


def test_after_a_commit_nothing_is_sent(start):
    _, address = start("--acknowledge")
    with Node(address) as client:
        client.rows(EVE[:2])
        client.commit()
        later = [lambda: client.rows(EVE), lambda: client.poll(["eve"]), client.commit]
        for call in later:
            with pytest.raises(NodeError) as caught:
                call()
            assert str(caught.value) == "commit has ended this connection: open another Node"
    with Node(address, timeout=10) as client:
        assert client.rows(EVE) == 1


def test_a_budget_of_nothing(start):
    _, address = start("--acknowledge")
    with Node(address) as client:
        client.rows(EVE)
        for budget in (0, -1):
            with pytest.raises(ValueError, match=f"budget={budget} is less than 1"):
                client.poll(["eve"], budget=budget)
        assert client.poll(["eve"], budget=1) == [Item(("eve",), 1, ("eve", 10, 2), 1)]


def test_a_node_that_was_killed_has_not_saved(start):
    process, address = start("--acknowledge")
    with Node(address) as client:
        client.rows(EVE[:2])
        process.kill()
        process.wait()
        with pytest.raises(NodeError, match="send again"):
            client.commit()
    _, address = start("--acknowledge")
    with Node(address) as client:
        assert client.rows(EVE) == 3


def test_a_node_that_does_not_acknowledge(start):
    _, address = start()
    with Node(address) as client:
        client.rows(ROWS)
        with pytest.raises(NodeError, match="without --acknowledge"):
            client.commit()


def test_a_node_that_ended_an_idle_connection(start):
    _, address = start("--acknowledge", "--idle", "1")
    for ask in (
        lambda client: client.rows(EVE),
        lambda client: client.close(["eve"], 1),
        lambda client: client.poll(["eve"]),
    ):
        with Node(address) as client:
            client.rows(EVE[:1])
            time.sleep(1.5)
            with pytest.raises(NodeError, match="ended the connection before.*--idle: send again"):
                ask(client)
            with pytest.raises(NodeError, match="send again"):
                client.commit()


def test_threads_share_a_node(start):
    _, address = start("--acknowledge")
    found, counts = {}, {}

    def bring(client, key):
        counts[key], found[key] = 0, []
        for n in range(1, 301, 3):
            rows = [(n + at, (key, n + at, outcome)) for at, outcome in enumerate(OUTCOMES)]
            counts[key] += client.rows(rows)
            found[key] += client.poll([key])

    with Node(address, timeout=10) as client:
        threads = [threading.Thread(target=bring, args=(client, key)) for key in "abc"]
        for thread in threads:
            thread.start()
        for thread in threads:
            thread.join()
        client.commit()
    assert counts == dict.fromkeys("abc", 300)
    for key in "abc":
        assert [(item.key, item.place) for item in found[key]] == [
            ((key,), place) for place in range(1, 101)
        ]


def test_a_forked_process_holds_no_node(start):
    """A connection that is given up ends, whoever was forked meanwhile; and such a process that
    gives it up ends nothing."""
    _, address = start("--acknowledge")
    ours, theirs = os.pipe()
    with Node(address) as client:
        client.rows(EVE)
        if os.fork() == 0:
            os.close(theirs)
            os.read(ours, 1)
            os._exit(0)
    try:
        with Node(address, timeout=10) as client:
            assert client.rows(EVE) == 0
            child = os.fork()
            if child == 0:
                client.__exit__(None, None, None)
                os._exit(0)
            os.waitpid(child, 0)
            assert [item.cells for item in client.poll(["eve"])] == [("eve", 10, 2)]
            client.commit()
    finally:
        os.close(theirs)
        os.close(ours)
        os.wait()


@pytest.fixture
def interrupts():
    """Ctrl-C interrupts this process, also where a script began it in its background."""
    before = signal.signal(signal.SIGINT, signal.default_int_handler)
    yield
    signal.signal(signal.SIGINT, before)


def test_after_a_call_that_was_interrupted(start, interrupts):
    process, address = start("--acknowledge")
    with Node(address) as client:
        client.rows(EVE[:2])
        process.send_signal(signal.SIGSTOP)
        threading.Timer(0.3, os.kill, (os.getpid(), signal.SIGINT)).start()
        with pytest.raises(KeyboardInterrupt):
            client.rows(EVE[2:])
        process.send_signal(signal.SIGCONT)
        for ask in (
            lambda: client.poll(["eve"]),
            lambda: client.rows(EVE),
            lambda: client.close(["eve"], 3),
            client.commit,
        ):
            with pytest.raises(NodeError, match="an earlier call .* was interrupted.*send again"):
                ask()
    with Node(address) as client:
        client.rows(EVE)
        assert [item.cells for item in client.poll(["eve"])] == [("eve", 10, 2)]
        client.commit()


def test_after_a_poll_whose_items_are_lost(start):
    """A key that can't be sent ends a poll. What it had given by then isn't to be kept as given."""
    _, address = start("--acknowledge")
    with Node(address) as client:
        client.rows(EVE)
        with pytest.raises(UnicodeEncodeError):
            client.poll(["\ud800"])
        with pytest.raises(UnicodeEncodeError):
            client.poll(*[["eve"]] * 1001, ["\ud800"])
        with pytest.raises(NodeError, match="an earlier call failed.*send again"):
            client.commit()


@pytest.fixture
def saying():
    """Starts what answers the first line by this text, and writes that behind the end."""
    threads = []

    def serve(server, text, last):
        with server, server.accept()[0] as client, client.makefile("rb") as lines:
            lines.readline()
            client.sendall(text)
            lines.read()
            client.sendall(last)

    def start(text, last=b""):
        server = socket.create_server(("127.0.0.1", 0))
        threads.append(threading.Thread(target=serve, args=(server, text, last)))
        threads[-1].start()
        return f"127.0.0.1:{server.getsockname()[1]}"

    yield start
    for thread in threads:
        thread.join()


@pytest.mark.parametrize(
    "text", [b"nope\n", b"[1]\n", b"1\n", b"{}\n", b'{"place":\n', b"\xff\xfe\n"]
)
def test_a_line_that_is_no_reply(saying, text):
    for ask in (lambda client: client.rows(EVE[:1]), lambda client: client.poll(["x"])):
        with Node(saying(text)) as client:
            with pytest.raises(NodeError, match="send again"):
                ask(client)


def test_a_reply_to_something_else(saying):
    for text, ask in (
        (b'{"idle":["x"]}\n', lambda client: client.rows(EVE[:1])),
        (b'{"idle":["x"]}\n', lambda client: client.close(["x"], 1)),
        (b'{"taken":"new"}\n', lambda client: client.poll(["x"])),
    ):
        with Node(saying(text)) as client:
            with pytest.raises(NodeError, match="no reply to.*send again"):
                ask(client)


@pytest.mark.parametrize(
    "last",
    [
        b'{"sav',
        b"nope\n",
        b"\xff\xfe\n",
        b'{"saved":2}\n',
        b'{"idle":["x"]}\n{"saved":1}\n',
        b"[1]\n",
    ],
)
def test_what_does_not_say_that_it_saved(saying, last):
    with Node(saying(b'{"taken":"new"}\n', last)) as client:
        client.rows(EVE[:1])
        with pytest.raises(NodeError, match="the node wrote.*1 lines were answered: send again"):
            client.commit()


@pytest.fixture
def broken():
    """Starts what answers so many polls with an item each, and fails within the next reply: it ends
    the connection, or resets it, as a system does where something that came wasn't read."""
    threads = []

    def serve(server, polls, reset):
        with server, server.accept()[0] as client:
            lines = client.makefile("rb", buffering=0 if reset else -1)
            for place in range(1, polls + 1):
                key = json.loads(lines.readline())["poll"]
                item = {"cells": [place], "key": key, "number": 1, "place": str(place)}
                client.sendall(json.dumps(item).encode() + b"\n")
            lines.readline()
            client.sendall(b'{"cells":[1],"ke')
            if not reset:
                client.shutdown(socket.SHUT_WR)
                while lines.readline():
                    pass
            lines.close()

    def start(polls, reset=False):
        server = socket.create_server(("127.0.0.1", 0))
        threads.append(threading.Thread(target=serve, args=(server, polls, reset)))
        threads[-1].start()
        return f"127.0.0.1:{server.getsockname()[1]}"

    yield start
    for thread in threads:
        thread.join()


@pytest.mark.parametrize("polls", [0, 1, 2, 999, 1000, 1700, 2000, 2500])
def test_a_poll_whose_connection_fails_gives_what_came(broken, polls):
    with Node(broken(polls)) as client:
        with pytest.raises(NodeError, match="send again.*begin with a copy") as caught:
            client.poll(*(["x", n] for n in range(2000)))
    error = caught.value
    assert [item.place for item in error.items] == list(range(1, polls + 1))
    assert error.refused is None and pickle.loads(pickle.dumps(error)).items == error.items


@pytest.mark.parametrize("polls", [0, 2])
def test_a_poll_whose_connection_is_reset_gives_what_came(broken, polls):
    with Node(broken(polls, reset=True)) as client:
        with pytest.raises(NodeError, match="send again.*begin with a copy") as caught:
            client.poll(*(["x", n] for n in range(polls + 2)))
        assert [item.place for item in caught.value.items] == list(range(1, polls + 1))
        with pytest.raises(NodeError, match="send again"):
            client.commit()


def test_what_has_no_order_of_the_table_is_no_row(start):
    _, address = start("--acknowledge")
    row = {"account": "eve", "at": 10, "outcome": "fail"}
    with Node(address) as client:
        for cells in (row, row.keys(), {"eve", 10}, frozenset(["eve"]), MappingProxyType(row)):
            for ask in (
                lambda: client.rows([(1, cells)]),
                lambda: client.close(cells, 1),
                lambda: client.poll(cells),
            ):
                with pytest.raises(TypeError, match="isn't in the table's order: write a list or"):
                    ask()
        assert client.rows([(1, row.values())]) == 1
        assert client.rows([(2, [row[name] for name in ("account", "at", "outcome")])]) == 1
        client.commit()


def test_numbers_of_numpy():
    np = pytest.importorskip("numpy")
    rows = [(np.int64(7), np.int64(time)) for time in (5, 3, 20)]
    numbering = Numbering(key=[0], time=1, hold=10)
    assert [numbering.add(row) for row in rows] == [[], [], [(1, (7, 3)), (2, (7, 5))]]
    kept = json.loads(json.dumps(numbering.keep()))
    assert Numbering(key=[0], time=1, hold=10, kept=kept).rest() == [(3, (7, 20))]
    for time in (1.5, np.float64(2), None, "3"):
        with pytest.raises(TypeError, match="no whole number"):
            numbering.add((7, time))


def test_rows_with_numbers_of_numpy(start):
    np = pytest.importorskip("numpy")
    _, address = start("--acknowledge")
    with Node(address) as client:
        assert client.rows((np.int64(number), cells) for number, cells in EVE) == 3
        client.close(["eve"], np.int64(3))
        for bad in (1.5, np.float64(4), "4"):
            with pytest.raises(TypeError):
                client.rows([(bad, ("eve", 40, "ok"))])
        assert [item.place for item in client.poll(["eve"], budget=np.int64(100))] == [1, 2]
        client.commit()


def test_numbers_go_on_where_they_were():
    rows = [(chance, time) for time in range(200) for chance in ("a", "b")]
    random.Random(3).shuffle(late := rows[:])
    late.sort(key=lambda row: row[1] // 20)
    one = Numbering(key=[0], time=1, hold=30)
    wanted = [numbered for row in late for numbered in one.add(row)] + one.rest()
    found, kept = [], None
    for begin in range(0, len(late), 7):
        other = Numbering(key=[0], time=1, hold=30, kept=kept)
        found += [numbered for row in late[begin : begin + 7] for numbered in other.add(row)]
        kept = json.loads(json.dumps(other.keep()))
    other = Numbering(key=[0], time=1, hold=30, kept=kept)
    assert found + other.rest() == wanted and other.numbers == {("a",): 200, ("b",): 200}
    assert one.late == []


def test_late_rows_have_the_answer_of_the_whole(start):
    pd = pytest.importorskip("pandas")
    import rowmatch

    chance = random.Random(3)
    rows = [(chance.choice("abc"), t, chance.choice(["fail", "fail", "ok"])) for t in range(2000)]
    late = sorted(rows, key=lambda row: row[1] + chance.choice([0, 0, 0, 15]))
    whole = rowmatch.match(pd.DataFrame(rows, columns=["who", "t", "outcome"]), CLAUSE)
    _, address = start("--acknowledge")
    numbering, items = Numbering(key=[0], time=1, hold=15), []
    with Node(address) as client:
        for begin in range(0, 2000, 100):
            client.rows(
                numbered for row in late[begin : begin + 100] for numbered in numbering.add(row)
            )
            items += client.poll(*numbering.numbers)
        client.rows(numbering.rest())
        for key, count in numbering.numbers.items():
            client.close(key, count)
        items += client.poll(*numbering.numbers)
        client.commit()
    assert numbering.late == []
    found = {(item.key, item.place): item.cells for item in items if not item.end}
    for who in "abc":
        mine = [cells for (key, _), cells in sorted(found.items()) if key == (who,)]
        assert mine == [tuple(row) for row in whole[whole.who == who].itertuples(index=False)]
