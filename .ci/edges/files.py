#!/usr/bin/env python3
"""Which file `rowmatch node` keeps, and what it does with what lies next to it. Usage: .ci/edges/files.py [PROGRAM]"""
import errno
import os
import socket

from sockets import CLAUSE, MANY, Node, beginning, begun_anew, end, main, preloaded, row, talk

NEW, REPEAT = '{"taken":"new"}\n', '{"taken":"repeat"}\n'
ONE, TWO = row(1, ["x", 1, 10]), row(2, ["x", 2, 8])
OTHER = CLAUSE.replace("C AS p > PREV(p)", "C AS p >= PREV(p)")
REFUSED = f"rowmatch: checkpoint refused: ClauseDiffers\nrowmatch: clause differs from byte {OTHER.index('>=') + 1} on\n"
SAVED = "rowmatch: connection 1: 1 lines, saved\n"
DEVICE = "rowmatch: device: state\n"
TAKEN = "a name that ends in .new, .lock, .refused or .refused.N belongs to another FILE"


def read(path):
    with open(path, "rb") as file:
        return file.read()


def kept(path):
    """The bytes of a file that a node has kept there."""
    node = Node(path)
    talk(node, ONE)
    node.ended()
    return read(path)


def names_of_another(checks, folder):
    """What a node may write, rename or remove next to its own file is no other node's file."""
    node = Node(f"{folder}/state", connections=MANY)
    checks.same("a node", talk(node, ONE), NEW)
    for name in ["state.new", "state.lock", "state.refused", "state.refused.2", "state.refused.10", "other.new", ".lock"]:
        path = f"{folder}/{name}"
        checks.same(name, beginning(path), (3, f"rowmatch: {path}: {TAKEN}\n{DEVICE}"))
    os.symlink("later.new", f"{folder}/link")
    checks.same("a link to such a name", beginning(f"{folder}/link"), (3, f"rowmatch: {folder}/link: {TAKEN}\n{DEVICE}"))
    checks.same("nothing was made", sorted(os.listdir(folder)), ["link", "state", "state.lock"])
    end(node)
    for name in ["new", "x.news", "x.new.state", "x.refused.a", "x.refused2", "refused.2", "x.LOCK"]:
        node = Node(f"{folder}/{name}")
        checks.same(name, (talk(node, ONE), node.ended()), (NEW, (0, SAVED)))


def no_name(checks, folder):
    checks.same("an empty name", beginning(""), (3, f"rowmatch: --state names no file\n{DEVICE}"))


def links(checks, folder):
    """A link is followed when the node begins: the file that it leads to is kept, locked and replaced, and the link stays."""
    real, link, way = f"{folder}/real", f"{folder}/link", f"{folder}/way/link"
    os.mkdir(f"{folder}/way")
    os.symlink("../link", way)
    os.symlink(real, link)
    node = Node(way, connections=MANY)
    checks.same("links that lead nowhere yet", talk(node, ONE), NEW)
    checks.same("their file is made", sorted(os.listdir(folder)), ["link", "real", "real.lock", "way"])
    for path in [real, link, way]:
        told = f"rowmatch: {path} is in use: another node has locked {real}.lock\n{DEVICE}"
        checks.same("a second node, by any of the names", beginning(path), (3, told))
    end(node)
    for path, replies in [(real, REPEAT + NEW), (link, REPEAT * 2), (way, REPEAT * 2)]:
        node = Node(path)
        checks.same("each name is one of the same file", talk(node, ONE + TWO), replies)
        node.ended()
    checks.same("the links stay", (os.readlink(way), os.readlink(link)), ("../link", real))
    first = read(real)
    node = Node(link, clause=OTHER)
    checks.same("another clause", talk(node, ONE), NEW)
    told = f"{REFUSED}{begun_anew(link)}rowmatch: the checkpoint that was refused is kept as {real}.refused\n{SAVED}"
    checks.same("is kept next to the file", (node.ended(), read(f"{real}.refused"), os.path.islink(link)), ((0, told), first, True))


def many_links(checks, folder):
    """As many links as the system follows are followed, and no more."""
    for number in range(1, 42):
        os.symlink(f"link{number - 1}", f"{folder}/link{number}")
    node = Node(f"{folder}/link40")
    checks.same("forty", (talk(node, ONE), node.ended()[0], os.path.islink(f"{folder}/link0")), (NEW, 0, False))
    os.symlink("round", f"{folder}/round")
    for path in [f"{folder}/link41", f"{folder}/round"]:
        checks.same("more", beginning(path), (3, f"rowmatch: {path} leads over more than 40 links\n{DEVICE}"))


def no_regular_files(checks, folder):
    """What is there and no regular file is refused before anything is made, renamed or opened."""
    os.mkdir(f"{folder}/folder")
    os.mkfifo(f"{folder}/pipe")
    os.symlink("/dev/null", f"{folder}/device")
    with socket.socket(socket.AF_UNIX) as listener:
        listener.bind(f"{folder}/socket")
        found = sorted(os.listdir(folder))
        for path in [f"{folder}/{name}" for name in found] + ["/dev/null", f"{folder}/folder/."]:
            checks.same(path, beginning(path), (3, f"rowmatch: {path} is no regular file\n{DEVICE}"))
    checks.same("nothing was made", (sorted(os.listdir(folder)), os.path.exists("/dev/null.lock")), (found, False))


def locks(checks, folder):
    """A link in the place of the lock isn't followed, nor is anything else opened there."""
    lock = f"{folder}/state.lock"
    for place in [lambda: os.symlink(f"{folder}/target", lock), lambda: os.mkfifo(lock), lambda: os.mkdir(lock)]:
        place()
        checks.same("no lock", beginning(f"{folder}/state"), (3, f"rowmatch: {lock} is no regular file\n{DEVICE}"))
        checks.same("nothing was made", os.listdir(folder), ["state.lock"])
        (os.rmdir if os.path.isdir(lock) else os.remove)(lock)


def taken_away(checks, folder):
    """A refused file that somebody has taken away by then needn't be kept."""
    state = f"{folder}/state"
    first = kept(state)
    node = Node(state, clause=OTHER)
    os.rename(state, f"{folder}/backup")
    checks.same("a row", (talk(node, ONE), node.ended()), (NEW, (0, REFUSED + begun_anew(state) + SAVED)))
    checks.same("the files", sorted(os.listdir(folder)), ["backup", "state", "state.lock"])
    checks.same("what was taken away", read(f"{folder}/backup"), first)


def never_without(checks, folder):
    """While a refused file is put aside it is there: a node that ends in the midst leaves it under its own name too."""
    library, state = preloaded(folder, "flush"), f"{folder}/state"
    first = kept(state)
    node = Node(state, clause=OTHER, variables={"LD_PRELOAD": library, "FLUSH": str(errno.EIO)})
    talk(node, ONE)
    checks.same("a flush that fails behind the second name", node.ended()[0], 3)
    checks.same("both names", (read(state), read(f"{state}.refused")), (first, first))
    checks.same("nothing else", sorted(os.listdir(folder)), ["flush.so", "state", "state.lock", "state.refused"])


def without_second_names(checks, folder):
    """Where a file can have no second name, it is renamed, under a name that is free."""
    library, state = preloaded(folder, "link"), f"{folder}/state"
    for number, name in enumerate([f"{state}.refused", f"{state}.refused.2"]):
        first = kept(state)
        node = Node(state, clause=OTHER, variables={"LD_PRELOAD": library})
        told = f"{REFUSED}{begun_anew(state)}rowmatch: the checkpoint that was refused is kept as {name}\n{SAVED}"
        checks.same(f"file {number}", (talk(node, ONE), node.ended(), read(name)), (NEW, (0, told), first))
        os.remove(state)


if __name__ == "__main__":
    main([
        names_of_another, no_name, links, many_links, no_regular_files, locks, taken_away, never_without, without_second_names,
    ])
