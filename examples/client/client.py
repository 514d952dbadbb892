#!/usr/bin/env python3
"""Brings a log of numbered rows to a node, whatever is killed meanwhile. Usage: client.py PROGRAM TABLE CLAUSE LOG KEPT
A line of LOG is an event: {"key":["x"],"line":{"cells":["x",1,10],"row":1}}, or with {"close":1,"key":["x"]} as its line."""
import ctypes, json, os, pathlib, signal, socket, subprocess, sys, tempfile, time

ENDS = [signal.SIGINT, signal.SIGTERM]
program, table, clause, log, kept = sys.argv[1:]
node_words = [program, "node", "--table", table, "--clause", clause, "--listen", "127.0.0.1:0"]
node_words += ["--connections", "1", "--idle", "60", "--acknowledge", "--verbose", "--state"]

def end_with_client(client=os.getpid()):
    """A node ends with the client, also where that is killed before the node has a connection to wait for the end of."""
    signal.pthread_sigmask(signal.SIG_UNBLOCK, ENDS)
    ctypes.CDLL(None).prctl(1, signal.SIGKILL)
    if os.getppid() != client:
        os._exit(1)

def port_of(node):
    """Where the node listens. A mistake, or a checkpoint that it refuses, would be the same with the next node: it ends the client."""
    told = []
    for line in node.stderr:
        if line.startswith("rowmatch: listening at "):
            if any(line.startswith("rowmatch: checkpoint refused") for line in told):
                node.kill()
                told.append(f"client: the node doesn't go on from {kept}; with another KEPT the log is sent from its beginning")
                sys.exit("".join(told))
            return int(line.rsplit(":", 1)[1])
        told.append(line)
    sys.stderr.writelines(told)
    if node.wait() in (1, 2):
        sys.exit(node.returncode)
    raise OSError(f"the node ended with status {node.returncode}")

def reply_of(replies):
    """The next reply. A line without its end is what a node left that was killed while it wrote."""
    line = replies.readline()
    if not line.endswith(b"\n"):
        raise OSError("the node is gone")
    return json.loads(line)

def items_of(node, batch):
    """The items that the node gives for these events, once it has said that it saved."""
    items, asked = {}, 0
    with socket.create_connection(("127.0.0.1", port_of(node)), timeout=60) as connection, connection.makefile("rb") as replies:
        polls = {json.dumps(event["key"]): {"budget": 100000, "poll": event["key"]} for event in batch}
        due = [event["line"] for event in batch] + list(polls.values())
        while due:
            connection.sendall(json.dumps(due[0]).encode() + b"\n")
            reply = reply_of(replies)
            asked += 1
            if "refused" in reply:
                sys.exit(f"{reply} to {due[0]}")
            if "place" in reply:
                items[json.dumps([reply["key"], reply["place"]])] = reply
            elif "paused" not in reply:
                due.pop(0)
        connection.shutdown(socket.SHUT_WR)
        if reply_of(replies) != {"saved": asked}:
            raise OSError("not saved")
    return items

def keep(state):
    """Writes the three that belong together as one file, beside KEPT and renamed. It has the rows, so it is for its owner alone."""
    pathlib.Path(f"{kept}.new").unlink(missing_ok=True)
    with open(f"{kept}.new", "x", encoding="utf-8", opener=lambda path, flags: os.open(path, flags, 0o600)) as file:
        json.dump(state, file)
        file.flush()
        os.fsync(file.fileno())
    os.replace(f"{kept}.new", kept)

signal.signal(signal.SIGTERM, lambda *_: sys.exit(128 + signal.SIGTERM))
signal.pthread_sigmask(signal.SIG_BLOCK, ENDS)  # it waits until a node is asked: so the node goes first, and then its folder
events = [json.loads(line) for line in open(log, encoding="utf-8")]
state = json.load(open(kept, encoding="utf-8")) if os.path.exists(kept) else {"position": 0, "items": {}, "checkpoint": ""}
is_done = False
while not is_done:  # once also where nothing is to be sent: a node says whether KEPT is of this clause and table
    batch = events[state["position"]:state["position"] + 500]
    with tempfile.TemporaryDirectory() as folder:
        if state["checkpoint"]:  # the node begins where our position is, whatever one before it has done since
            with open(f"{folder}/node", "w", encoding="utf-8") as file:
                file.write(state["checkpoint"])
        words = [*node_words, f"{folder}/node"]
        with subprocess.Popen(words, stderr=subprocess.PIPE, text=True, preexec_fn=end_with_client) as node:
            try:
                signal.pthread_sigmask(signal.SIG_UNBLOCK, ENDS)
                items = items_of(node, batch)
            except OSError as fault:
                node.kill()
                print(f"{node.stderr.read()}client: {fault}: the batch is sent again", file=sys.stderr)
                time.sleep(0.1)
                continue
            except BaseException:
                node.kill()
                raise
            finally:
                signal.pthread_sigmask(signal.SIG_BLOCK, ENDS)
        checkpoint = open(f"{folder}/node", encoding="utf-8").read()
    state = {"position": state["position"] + len(batch), "items": {**state["items"], **items}, "checkpoint": checkpoint}
    keep(state)
    is_done = state["position"] >= len(events)
