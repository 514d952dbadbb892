"""The program that comes with the package: where it is, and how it is run."""

from __future__ import annotations

import contextlib
import fcntl
import os
import signal
import subprocess
import threading
import time
from collections.abc import Callable, Iterable, Iterator, Sequence
from dataclasses import dataclass, field
from pathlib import Path
from typing import IO, Any

from .errors import ProgramError

# A pattern is read and dropped by recursion over its parts, so the program is given all the stack
# that it may have. A shell does it: between fork and exec nothing else is safe under threads.
_RAISE_STACK = 'ulimit -S -s "$(ulimit -H -s)" 2>/dev/null; exec "$0" "$@"'
# Large pages of memory, since the rows of one partition lie apart in that of all.
_LARGE_PAGES = "glibc.malloc.hugetlb=1"
# A node lives long: what a save took and left is given back to the system.
_GIVE_BACK = (
    "glibc.malloc.tcache_count=0:glibc.malloc.mxfast=0"
    ":glibc.malloc.mmap_threshold=1048576:glibc.malloc.trim_threshold=1048576"
)
_NEAR = " is compared with '"  # it begins what is reported of near misses
_LOST = (
    "the program's exit status was lost, so its answer may be a part of one: SIGCHLD is ignored in "
    "this process, or a handler of it waits for every child"
)


def program() -> str:
    """The path of the program: that of ``$ROWMATCH_PROGRAM``, or the one that was installed."""
    chosen = os.environ.get("ROWMATCH_PROGRAM")
    path = os.path.abspath(chosen or Path(__file__).parent / "_bin" / "rowmatch")
    if os.path.isfile(path) and os.access(path, os.X_OK):
        return path
    if chosen:
        raise ProgramError(f"ROWMATCH_PROGRAM names {path}, which is no program")
    raise ProgramError(
        f"{path} is missing: install the wheel, or name a program by ROWMATCH_PROGRAM"
    )


def command(arguments: Sequence[str]) -> list[str]:
    """The command line that runs the program with its settings."""
    return ["/bin/sh", "-c", _RAISE_STACK, program(), *arguments]


def environment(arguments: Sequence[str]) -> dict[str, str]:
    """The environment in which the program runs, with its settings of memory."""
    tunables = [os.environ.get("GLIBC_TUNABLES"), _LARGE_PAGES]
    if arguments[:1] == ["node"]:
        tunables.append(_GIVE_BACK)
    return {**os.environ, "GLIBC_TUNABLES": ":".join(word for word in tunables if word)}


@dataclass(frozen=True)
class Ran:
    """How a run ended: with which status, what it printed, and what it wrote on standard error."""

    status: int
    printed: bytes
    reported: str

    def lines(self) -> list[str]:
        """The lines on standard error but those of progress. Only a line feed ends one: keys may
        have what else str.splitlines takes for an end."""
        lines = self.reported.split("\n")
        return [line for line in lines if line and not is_progress(line)]

    def notes(self) -> list[str]:
        """What is to be known of texts of the rows that are nearly what the clause compares them
        with."""
        return [line.replace("rowmatch: ", "", 1) for line in self.lines() if _NEAR in line]

    def failed(self) -> ProgramError:
        """The error of a run that ended in a way that it shouldn't."""
        if self.status < 0:
            message = f"the program was ended by {signal.Signals(-self.status).name}"
        elif self.status == 2 and self.lines():
            message = f"the program is another one than this package knows: {self.lines()[0]}"
        else:
            lines = self.lines() or [f"the program ended with status {self.status}"]
            message = lines[-1].replace("rowmatch: ", "", 1)
        return ProgramError(message, self.status, self.reported)


def is_progress(line: str) -> bool:
    """Whether a line of standard error is one of ``--progress``: ``rowmatch: 5 s: ..``."""
    words = line.split(" ", 3)
    return words[0] == "rowmatch:" and words[2:3] == ["s:"] and words[1].isdigit()


@contextlib.contextmanager
def _file(text: str) -> Iterator[int]:
    """A text as a file without a name: it may have any length, no list of processes shows it (a
    clause may have somebody's card number in it), and nothing of it is left behind."""
    with os.fdopen(os.memfd_create("rowmatch"), "wb") as stream:
        stream.write(text.encode())
        stream.flush()
        # Where a standard stream is closed the file has its number, and in the program that is the
        # number of a stream of its own.
        file = fcntl.fcntl(stream, fcntl.F_DUPFD_CLOEXEC, 3)
    try:
        yield file
    finally:
        os.close(file)


@dataclass(frozen=True)
class Limit:
    """How many seconds a call may take, and when they are over. Limits are all equal, since what
    the program says doesn't depend on them."""

    seconds: float | None = field(default=None, compare=False)
    until: float | None = field(default=None, compare=False)

    @classmethod
    def of(cls, timeout: float | None) -> Limit:
        """The limit of a call that begins now."""
        return cls(timeout, None if timeout is None else time.monotonic() + timeout)

    def left(self) -> float | None:
        """The seconds that are left, as a timer takes them."""
        if self.until is None:
            return None
        return min(max(0.0, self.until - time.monotonic()), threading.TIMEOUT_MAX)


NO_LIMIT = Limit()


def run(
    arguments: Sequence[str],
    table: str,
    clause: str,
    chunks: Iterable[bytes] | None = None,
    limit: Limit = NO_LIMIT,
    option: str = "--table-file",
) -> Ran:
    """Runs the program over a table, a clause and chunks of its input, or over no input. With the
    option ``--columns-file`` the table is a text of columns.

    Chunks are made while the program reads. An exception of theirs ends the program and is raised.
    """
    starting = _Starting()
    try:
        try:
            with _file(table) as table_file, _file(clause) as clause_file:
                words = [*arguments, option, f"/dev/fd/{table_file}"]
                words += ["--clause-file", f"/dev/fd/{clause_file}"]
                files = (table_file, clause_file)
                child = starting.child(lambda: _Child(words, files, chunks is not None))
        except OSError as error:
            raise ProgramError(f"the program can't be started: {error}") from error
        return _Run(child, limit).to_end(chunks or ())
    finally:
        starting.leave_nothing()


# Held while a program gets its pipes or its input is closed, and while a process is forked.
_forking = threading.RLock()
_inputs: set[IO[bytes]] = set()


def _be_forked() -> None:
    """Lets a process that was forked go of the inputs of programs, which would wait for their end
    for as long as it lives."""
    for stream in _inputs:
        stream.close()
    _inputs.clear()
    _forking.release()


os.register_at_fork(
    before=_forking.acquire, after_in_parent=_forking.release, after_in_child=_be_forked
)


class _Child:
    """A program that runs. Its end is awaited here and not by Popen, which takes a status that
    somebody else has taken for 0."""

    def __init__(self, words: Sequence[str], files: Sequence[int], is_fed: bool) -> None:
        with _forking:
            child = subprocess.Popen(
                command(words),
                env=environment(words),
                bufsize=0,
                stdin=subprocess.PIPE if is_fed else subprocess.DEVNULL,
                stdout=subprocess.PIPE,
                stderr=subprocess.PIPE,
                pass_fds=files,
            )
            assert child.stdout and child.stderr
            self.stdin: IO[bytes] | None = child.stdin
            self.stdout: IO[bytes] = child.stdout
            self.stderr: IO[bytes] = child.stderr
            if self.stdin:
                _inputs.add(self.stdin)
        self._child = child
        # Held while it is ended or its number is given back, so that no other process is ended.
        self._ending = threading.Lock()
        self._status: int | None = None

    def wait(self) -> int | None:
        """Its exit status, negative for a signal; None where that was lost: where SIGCHLD is
        ignored, or a handler of it waits for every child."""
        if self._child.returncode is None:
            with contextlib.suppress(ChildProcessError):
                # Its number isn't given back yet, so an interrupt loses nothing.
                ended = os.waitid(os.P_PID, self._child.pid, os.WEXITED | os.WNOWAIT)
                if ended:
                    by_itself = ended.si_code == os.CLD_EXITED
                    self._status = ended.si_status if by_itself else -ended.si_status
            with self._ending:
                with contextlib.suppress(ChildProcessError):
                    os.waitpid(self._child.pid, 0)
                self._child.returncode = self._status or 0
            if self.stdin:
                _inputs.discard(self.stdin)
        return self._status

    def end_input(self) -> None:
        """Closes its input, which only the thread does that writes there."""
        assert self.stdin
        with _forking:  # in the midst of it a forked process would have it open and not know it
            self.stdin.close()
            _inputs.discard(self.stdin)

    def kill(self) -> None:
        """Ends it where it still runs."""
        with self._ending, contextlib.suppress(ProcessLookupError):
            if self._child.returncode is None:
                os.kill(self._child.pid, signal.SIGKILL)


class _Starting:
    """A program that is started in a thread of its own. An interrupt is raised in the main thread
    alone, and so never where the program runs already and nobody knows of it yet."""

    def __init__(self) -> None:
        self._child: _Child | None = None
        self._failed: BaseException | None = None
        self._thread: threading.Thread | None = None
        # Set by the thread: where a wait for its end is interrupted, Python 3.11 takes it as ended.
        self._is_done = threading.Event()

    def child(self, start: Callable[[], _Child]) -> _Child:
        self._thread = threading.Thread(target=self._begin, args=(start,), daemon=True)
        self._thread.start()
        self._is_done.wait()
        if self._failed:
            raise self._failed
        assert self._child
        return self._child

    def leave_nothing(self) -> None:
        """Ends the program where it still runs."""
        if self._thread:
            # A thread whose start was interrupted may run all the same, and is done in a moment.
            self._is_done.wait(1 if self._thread.ident is None else None)
        if self._child:
            self._child.kill()
            self._child.wait()

    def _begin(self, start: Callable[[], _Child]) -> None:
        try:
            self._child = start()
        except BaseException as error:
            self._failed = error
        finally:
            self._is_done.set()


class _Run:
    """A run that was started: what goes in and what comes out, each in a thread of its own, which
    closes its stream."""

    def __init__(self, child: _Child, limit: Limit) -> None:
        self._child, self._limit = child, limit
        self._reported: list[bytes] = []
        self._failed: list[BaseException] = []
        self._late = threading.Event()

    def to_end(self, chunks: Iterable[bytes]) -> Ran:
        """Feeds it and reads it until it ends, or ends it."""
        child, left = self._child, self._limit.left()
        threads = [threading.Thread(target=self._listen, args=(child.stderr,), daemon=True)]
        if child.stdin:
            feeding = threading.Thread(target=self._feed, args=(child.stdin, chunks), daemon=True)
            threads.append(feeding)
        alarm = threading.Timer(left or 0, self._end)
        try:
            for thread in threads:
                thread.start()
            if left is not None:
                alarm.start()
            with child.stdout as answer:
                printed = answer.read()
            status = child.wait()
            for thread in threads:
                thread.join()
        finally:
            alarm.cancel()
            child.kill()
            child.wait()
        if self._failed:
            raise self._failed[0]
        reported = b"".join(self._reported).decode(errors="replace")
        if self._late.is_set():
            raise self._timed_out(reported)
        if status is None:
            raise ProgramError(_LOST, reported=reported)
        return Ran(status, printed, reported)

    def _listen(self, stream: IO[bytes]) -> None:
        with stream:
            self._reported.append(stream.read())

    def _feed(self, stream: IO[bytes], chunks: Iterable[bytes]) -> None:
        try:
            for chunk in chunks:
                view = memoryview(chunk)
                while view:
                    view = view[stream.write(view) :]
        except BrokenPipeError:
            pass  # it ended before its input did: its status says why
        except BaseException as error:
            self._failed.append(error)
            self._child.kill()
        finally:
            self._child.end_input()

    def _end(self) -> None:
        self._late.set()
        self._child.kill()

    def _timed_out(self, reported: str) -> TimeoutError:
        lines = [line for line in reported.split("\n") if is_progress(line)]
        where = f"; it was at {lines[-1].split(': ', 2)[-1]}" if lines else ""
        return TimeoutError(f"no answer within {self._limit.seconds} seconds{where}")
