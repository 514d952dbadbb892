#!/usr/bin/env python3
"""Runs `rowmatch node` with real sockets and files on loopback. Usage: .ci/edges/node.py [PROGRAM]"""
import os
import resource
import socket
from itertools import groupby

from sockets import CLAUSE, TABLE, Conversation, Node, beginning, begun_anew, close, main, poll, read_all, row, run, sealed, talk

LINES = (
    '{"row":1,"cells":["x",1,10]}\n{"poll":["x"],"budget":0}\n{"poll":["x"],"budget":1000}\n'
    '{"close":1,"key":["x"]}\n{"poll":["x"],"budget":1000}\n{"poll":["x"],"budget":1000}\n'
)
REPLIES = (
    '{"taken":"new"}\n{"paused":["x"]}\n{"idle":["x"]}\n{"taken":"new"}\n'
    '{"end":true,"key":["x"],"place":"1"}\n{"idle":["x"]}\n'
)
# a fall and a rise, which gives one row and the end
PRICES = [10, 8, 6, 7, 9, 9]
ROWS = "".join(row(number, ["x", number, price]) for number, price in enumerate(PRICES, 1))
ITEM = '{"cells":["x",1,10,6,9],"key":["x"],"number":1,"place":"1"}\n'
END = '{"end":true,"key":["x"],"place":"2"}\n'
FIRST_REFUSED = '{"refused":"UnknownPartition"}\n'


def worked_lines(checks, folder):
    node = Node(f"{folder}/state")
    checks.same("worked lines", talk(node, LINES), REPLIES)
    checks.same("the end of the node", node.ended(), (0, "rowmatch: connection 1: 6 lines, saved\n"))


def refusals(checks, folder):
    node = Node(f"{folder}/state")
    lines = (
        'nope\n{"row":1}\n{"row":1,"cells":["x",1]}\n{"row":1,"cells":["x","y",1]}\n'
        '{"row":0,"cells":["x",1,10]}\n{"poll":["x"],"budget":1}'
    )
    wanted = (
        '{"refused":"NotJson"}\n{"refused":"BadField cells"}\n{"refused":"BadRow width"}\n'
        '{"refused":"BadRow kind 2"}\n{"refused":"NumberRange"}\n{"refused":"UnknownPartition"}\n'
    )
    checks.same("refusals, the last without a line feed", talk(node, lines), wanted)
    checks.same("six lines", node.ended()[1], "rowmatch: connection 1: 6 lines, saved\n")


IDLE, PAUSED = '{"idle":["x"]}\n', '{"paused":["x"]}\n'


def paused_between(checks, folder):
    """Polls of one turn: the items are those of long polls, and each comes after polls that are paused, be it after all rows or after
    each. (Between two replies that aren't paused lie two turns at least: a row that comes is taken up, and then the next one is.)"""
    node = Node(f"{folder}/state", connections=2)
    of_y = ROWS.replace('"x"', '"y"') + close(6, ["y"])
    with Conversation(node) as conversation:
        told = []
        for line in ROWS.splitlines(keepends=True) + [close(6, ["x"])]:
            checks.same("a row, polled by turns", conversation.ask(line), '{"taken":"new"}\n')
            told.append([reply for reply, _ in groupby(conversation.drain(["x"], 1))])
    waits = [[PAUSED, IDLE]] * 5
    checks.same("paused after each row", told, waits + [[PAUSED, ITEM, PAUSED, IDLE], [PAUSED, END, IDLE]])
    with Conversation(node) as conversation:
        for line in of_y.splitlines(keepends=True):
            conversation.ask(line)
        told = [reply.replace('"y"', '"x"') for reply, _ in groupby(conversation.drain(["y"], 1))]
    checks.same("paused between the items", told, [PAUSED, ITEM, PAUSED, END, IDLE])
    checks.same("the node's end", node.ended()[0], 0)


def no_turn(checks, folder):
    """A poll without a turn is paused, and changes nothing: neither what is kept, nor how many turns are left to the next item."""
    states = [f"{folder}/a", f"{folder}/b"]
    for state, polls in zip(states, ("", poll(["x"], 0) * 2)):
        node = Node(state)
        replies = talk(node, ROWS + close(6, ["x"]) + polls)
        checks.same("polls without a turn", replies.splitlines(keepends=True)[7:], [PAUSED] * polls.count("\n"))
        node.ended()
    first, second = (open(state, "rb").read() for state in states)
    checks.same("what is kept after them", second, first)
    node = Node(states[0])
    with Conversation(node) as conversation:
        by_turns = conversation.drain(["x"], 1)
    node.ended()
    node = Node(states[1])
    with Conversation(node) as conversation:
        for number, reply in enumerate(by_turns, 1):
            checks.same(f"no turn before poll {number}", conversation.ask(poll(["x"], 0)), PAUSED)
            checks.same(f"poll {number} of one turn", conversation.ask(poll(["x"], 1)), reply)
    node.ended()


def several_connections(checks, folder):
    """What one connection sent, the next one finds, and so does another process."""
    state = f"{folder}/state"
    node = Node(state, connections=3)
    checks.same("first rows", talk(node, ROWS[: len(ROWS) // 2 + 1].rsplit("\n", 1)[0] + "\n").count("new"), 3)
    checks.same("the others", talk(node, ROWS).count("repeat"), 3)
    checks.same("an item", talk(node, poll(["x"])), ITEM)
    checks.same("three connections and the end", node.ended()[0], 0)
    node = Node(state)
    checks.same("another process", talk(node, ROWS + close(6, ["x"]) + poll(["x"]) + poll(["x"])).splitlines()[-2:],
                [END.strip(), '{"idle":["x"]}'])
    node.ended()


def killed(checks, folder):
    """A node that is killed has what it had saved: a client that sends all again loses nothing."""
    state = f"{folder}/state"
    node = Node(state, connections=2)
    talk(node, ROWS[: ROWS.index('{"cells":["x",4')])
    with node.connect() as connection:
        connection.sendall(ROWS.encode() + poll(["x"]).encode())
        given = b""
        while not given.endswith(ITEM.encode()):
            given += connection.recv(65536)
        node.kill()
    node = Node(state)
    replies = talk(node, ROWS + poll(["x"]) + close(6, ["x"]) + poll(["x"]) + poll(["x"]))
    # the front rows may be dropped by polls: they are `old` then, or `repeat`
    checks.same("rows that were saved aren't new", [r for r in replies.splitlines()[:3] if "new" in r], [])
    checks.same("rows that were not saved are new", replies.splitlines()[3:6], ['{"taken":"new"}'] * 3)
    checks.same("the item comes again, as it was", replies.splitlines()[6] + "\n", ITEM)
    checks.same("then the end", replies.splitlines()[8] + "\n", END)
    node.ended()


def broken_states(checks, folder):
    """A file that is cut, altered or of another clause is told, and the node begins with nothing."""
    state = f"{folder}/state"
    node = Node(state)
    talk(node, ROWS + poll(["x"]))
    node.ended()
    with open(state, "rb") as file:
        whole = file.read()
    for length in [0, 1, 63, 64, 65, 66, len(whole) // 2, len(whole) - 1]:
        refused(checks, state, whole[:length], f"cut to {length}", "Digest")
    refused(checks, state, whole + b" ", "longer", "Digest")
    middle = len(whole) // 2
    refused(checks, state, whole[:middle] + bytes([whole[middle] ^ 1]) + whole[middle + 1 :], "altered", "Digest")
    with open(state, "wb") as file:
        file.write(whole)
    node = Node(state, clause=CLAUSE.replace("B+ C+", "B+ C"))
    checks.same("of another clause", "".join(node.told),
                f"rowmatch: checkpoint refused: ClauseDiffers\nrowmatch: clause differs from byte {CLAUSE.index(' C+') + 2} on\n{begun_anew(state)}")
    checks.same("of another clause: the node is new", talk(node, poll(["x"])), FIRST_REFUSED)
    node.ended()
    with open(state, "wb") as file:
        file.write(whole)
    node = Node(state)
    checks.same("the file as it was", "".join(node.told), "")
    checks.same("the file as it was: known", talk(node, poll(["x"])), '{"idle":["x"]}\n')
    node.ended()


def altered_states(checks, folder):
    """Files whose digest is right and whose object isn't: the node says why, and begins with nothing."""
    state = f"{folder}/state"
    node = Node(state)
    talk(node, ROWS + poll(["x"]) * 2)
    node.ended()
    with open(state, "rb") as file:
        _, text = file.read().split(b"\n")
    refused(checks, state, sealed(b"[]"), "a list", "NotJson")
    refused(checks, state, sealed(text[:-1]), "an object that doesn't end", "NotJson")
    for old, new, kind in [
        (b'"version":2', b'"version":3', "Version"), (b',"version":2', b"", "Version"), (b'"over":false,', b"", "BadField"),
        (b'"given":"1"', b'"given":1', "BadField"), (b'"key":["x"]', b'"key":[1]', "BadState"), (b'"at":6', b'"at":9', "BadState"),
    ]:
        checks.same(f"{old} is there once", text.count(old), 1)
        refused(checks, state, sealed(text.replace(old, new)), f"{old} as {new}", kind)
    with open(state, "wb") as file:
        file.write(sealed(text))
    node = Node(state)
    checks.same("the object as it was", ("".join(node.told), talk(node, poll(["x"]))), ("", IDLE))
    node.ended()


def refused(checks, state, data, name, kind):
    with open(state, "wb") as file:
        file.write(data)
    node = Node(state)
    checks.same(f"{name}: told", "".join(node.told), f"rowmatch: checkpoint refused: {kind}\n{begun_anew(state)}")
    checks.same(f"{name}: the node is new", talk(node, poll(["x"])), FIRST_REFUSED)
    checks.same(f"{name}: it ends well", node.ended()[0], 0)


def addresses(checks, folder):
    def listen(at):
        return run("node", "--table", TABLE, "--clause", CLAUSE, "--listen", at, "--state", f"{folder}/s", "--connections", "1")

    def told(at, why):
        return 3, "", f"rowmatch: can't listen at {at}: {why}\nrowmatch: device: listen\n"

    with socket.create_server(("127.0.0.1", 0)) as taken:
        at = f"127.0.0.1:{taken.getsockname()[1]}"
        checks.same("a port in use", listen(at), told(at, "Address already in use (os error 98)"))
    for at in ["", "nowhere", "127.0.0.1"]:
        checks.same(f"the address {at!r}", listen(at), told(at, "invalid socket address"))
    for at in ["127.0.0.1:", "127.0.0.1:99999", ":"]:
        checks.same(f"the address {at!r}", listen(at), told(at, "invalid port value"))
    status, out, error = listen("300.0.0.1:80")
    checks.same("a name of no host", (status, out, error.splitlines()[1:]), (3, "", ["rowmatch: device: listen"]))


def states_that_fail(checks, folder):
    os.mkdir(f"{folder}/folder")
    cases = [
        ("a folder as file", f"{folder}/folder", f"rowmatch: {folder}/folder is no regular file\n"),
        ("a folder that isn't there", f"{folder}/none/state",
         f"rowmatch: {folder}/none/state.lock: No such file or directory (os error 2)\n"),
    ]
    for name, state, told in cases:
        checks.same(name, beginning(state), (3, f"{told}rowmatch: device: state\n"))


def full_disk(checks, folder):
    """A file that can't grow: the node ends with its fault, and the file stays as it was."""
    state = f"{folder}/state"
    node = Node(state)
    talk(node, row(1, ["x", 1, 10]))
    node.ended()
    with open(state, "rb") as file:
        before = file.read()

    def limit():
        resource.setrlimit(resource.RLIMIT_FSIZE, (1000, 1000))
        import signal

        signal.signal(signal.SIGXFSZ, signal.SIG_IGN)

    node = Node(state, limit=limit)
    talk(node, "".join(row(n, ["x", n, n]) for n in range(2, 200)))
    checks.same("a file that can't grow", node.ended(), (3, f"rowmatch: {state}: File too large (os error 27)\nrowmatch: device: state\n"))
    with open(state, "rb") as file:
        checks.same("the file is as it was", file.read(), before)
    checks.same("nothing is left of the write that failed", sorted(os.listdir(folder)), ["state", "state.lock"])


def read_only_folder(checks, folder):
    if os.geteuid() == 0:
        return  # who may write everywhere sees nothing of it
    os.mkdir(f"{folder}/closed", 0o500)
    told = f"rowmatch: {folder}/closed/state.lock: Permission denied (os error 13)\nrowmatch: device: state\n"
    checks.same("a folder that takes no file", beginning(f"{folder}/closed/state"), (3, told))


def rude_clients(checks, folder):
    """Half a line, junk, lines as long as they may be, a reset: each ends its own connection alone."""
    state = f"{folder}/state"
    node = Node(state, connections=6)
    with node.connect() as connection:
        connection.sendall(b'{"row":1,"cells":["x",1')
    checks.same("half a line was refused", talk(node, poll(["x"])), FIRST_REFUSED)
    junk = bytes(range(256)) * 64
    replies = talk(node, junk)
    checks.same("junk", set(replies.splitlines()), {'{"refused":"NotJson"}'})
    checks.same("junk: a reply a line", len(replies.splitlines()), 65)
    text = "x" * (65536 - len('{"cells":["",1,10],"row":1}'))
    longest = row(1, [text, 1, 10])
    checks.same("the length of the longest line", len(longest), 65537)
    checks.same("the longest line and one longer", talk(node, longest + row(1, [text + "y", 1, 10]) + row(1, ["x", 1, 10])),
                '{"taken":"new"}\n{"refused":"TooLong"}\n{"taken":"new"}\n')
    with Conversation(node) as conversation:
        checks.same("a reply before the reset", conversation.ask(row(2, ["x", 2, 8])), '{"taken":"new"}\n')
        conversation.reset()
    checks.same("what came before the reset was kept", talk(node, row(2, ["x", 2, 8])), '{"taken":"repeat"}\n')
    status, told = node.ended()
    checks.same("a client that resets: status", status, 0)
    checks.true("a client that resets: told", "rowmatch: device: read\n" in told, told)


def quiet_node(checks, folder):
    """Without --verbose a node says nothing of connections, but for the error of each that has one."""
    node = Node(f"{folder}/state", connections=4, quiet=True)
    checks.same("a quiet node answers", talk(node, row(1, ["x", 1, 10])), '{"taken":"new"}\n')
    for number in (2, 3):
        with Conversation(node) as conversation:
            checks.same("a reply before the reset", conversation.ask(row(number, ["x", number, 8])), '{"taken":"new"}\n')
            conversation.reset()
    checks.same("and then", talk(node, row(3, ["x", 3, 8])), '{"taken":"repeat"}\n')
    checks.same("what a quiet node says", node.ended(), (0, "rowmatch: device: read\n" * 2))


def silent_clients(checks, folder):
    """With --idle a client that sends nothing, or takes nothing, doesn't hold the node."""
    node = Node(f"{folder}/state", connections=3, options=["--idle", "1"])
    with node.connect() as connection:
        connection.sendall(row(1, ["x", 1, 10]).encode())
        checks.same("a reply", connection.recv(100), b'{"taken":"new"}\n')
        checks.same("the node ends it", connection.recv(100), b"")
    with node.connect() as connection:
        connection.setsockopt(socket.SOL_SOCKET, socket.SO_RCVBUF, 4096)
        connection.settimeout(30)
        try:
            while True:
                connection.sendall(b"nope\n" * 10000)
        except OSError:
            pass
    checks.same("the next one is served, and knows the row", talk(node, row(1, ["x", 1, 10])), '{"taken":"repeat"}\n')
    told = node.ended()[1]
    checks.true("a client that sends nothing: told", told.startswith("rowmatch: connection 1: no line came for 1 second\nrowmatch: connection 1: 1 lines, saved\n"), told)
    checks.true("a client that takes nothing: told", "rowmatch: device: write\n" in told and "went back" in told, told)


def many_connections(checks, folder):
    """Ten thousand connections, one after the other, then the end. Their file is in memory: it is written as often."""
    count = 10_000
    if os.path.isdir("/dev/shm"):
        folder = checks.folder_in("/dev/shm")
    node = Node(f"{folder}/state", connections=count)
    wanted = b'{"taken":"new"}\n'
    for number in range(1, count + 1):
        with node.connect() as connection:
            connection.sendall(row(1, ["x", 1, 10]).encode())
            connection.shutdown(socket.SHUT_WR)
            found = read_all(connection)
        if found != wanted:
            checks.same(f"connection {number}", found, wanted)
            break
        wanted = b'{"taken":"repeat"}\n'
    status, told = node.ended()
    checks.same("ten thousand connections", (status, told.count("1 lines, saved")), (0, count))


def texts(checks, folder):
    words = ["--listen", "127.0.0.1:0", "--state", f"{folder}/s", "--connections", "1"]
    checks.same("no table", run("node", "--table", "p", "--clause", CLAUSE, *words), (1, "", "rowmatch: table: Expected at byte 1\n"))
    checks.same("no clause", run("node", "--table", TABLE, "--clause", "PATTERN (A", *words),
                (1, "", "rowmatch: clause: Expected at byte 10\n"))
    for count in ["0", "4294967296", "-1", "x", ""]:
        words[-1] = count
        status, out, told = run("node", "--table", TABLE, "--clause", CLAUSE, *words)
        checks.same(f"{count!r} connections", (status, out), (2, ""))
        checks.true(f"{count!r} connections: told", told.startswith("error: "), told)
    status, out, told = run("node", "--help")
    checks.same("help", (status, out.splitlines()[0][:6], told), (0, out.splitlines()[0][:6], ""))


if __name__ == "__main__":
    main([
        worked_lines, refusals, paused_between, no_turn, several_connections, killed, broken_states, altered_states, addresses,
        states_that_fail, full_disk, read_only_folder, rude_clients, quiet_node, silent_clients, many_connections, texts,
    ])
