"""The program that comes with the package: found, run, ended."""

from __future__ import annotations

import contextlib
import os
import resource
import shutil
import signal
import subprocess
import sys
import threading
import time
from concurrent.futures import ThreadPoolExecutor

import pandas as pd
import pytest

import rowmatch
from rowmatch import ProgramError
from rowmatch._program import command, environment, is_progress, program

CLAUSE = "MEASURES COUNT(*) AS n PATTERN (A+) DEFINE A AS p > 0"
SAID = (
    '{"clause":{"order_by":[],"output":[{"from":null,"kind":"int","name":"N","written":"n"}],'
    '"partition_by":[],"reads":["P"],"rows_per_match":"one"},'
    '"columns":[{"kind":"int","name":"P"}],"faults":[]}'
)


@pytest.fixture
def stand_in(monkeypatch, tmp_path):
    """A program in the place of the real one that does what a script says once it is asked to
    match."""

    def make(script):
        fake = tmp_path / "fake"
        fake.write_text(f"#!/bin/sh\nif [ $1 = check ]; then echo '{SAID}'; exit 0; fi\n{script}\n")
        fake.chmod(0o755)
        monkeypatch.setenv("ROWMATCH_PROGRAM", str(fake))

    return make


def run_command(*words, **options):
    words = [sys.executable, "-m", "rowmatch", *words]
    return subprocess.run(words, capture_output=True, text=True, **options)


def test_the_command_is_the_program():
    words = ["whole", "--format", "csv", "--table", "p int", "--clause", CLAUSE]
    made = run_command(*words, input="p\n1\n2\n")
    assert (made.returncode, made.stdout, made.stderr) == (0, "N\n2\n", "")
    assert run_command("whole").returncode == 2
    made = run_command("whole", "--table", "p int", "--clause", "PATTERN", input="")
    assert (made.returncode, made.stdout) == (1, "") and "rowmatch: clause: " in made.stderr


def test_a_signal_that_is_sent_to_the_command_ends_the_program():
    words = ["whole", "--table", "p int", "--clause", CLAUSE]
    with subprocess.Popen(
        [sys.executable, "-m", "rowmatch", *words], stdin=subprocess.PIPE
    ) as process:
        until = time.monotonic() + 60
        while (
            b"whole" not in cmdline_of(process.pid).split(b"\0")[1:2] and time.monotonic() < until
        ):
            time.sleep(0.01)
        process.send_signal(signal.SIGTERM)
        assert process.wait() == -signal.SIGTERM


def cmdline_of(pid):
    with open(f"/proc/{pid}/cmdline", "rb") as file:
        return file.read()


def test_settings_of_memory(monkeypatch):
    monkeypatch.setenv("GLIBC_TUNABLES", "glibc.malloc.arena_max=1")
    whole = environment(["whole"])["GLIBC_TUNABLES"]
    assert whole == "glibc.malloc.arena_max=1:glibc.malloc.hugetlb=1"
    assert environment(["node"])["GLIBC_TUNABLES"].startswith(
        f"{whole}:glibc.malloc.tcache_count=0:"
    )


def test_the_stack_is_what_it_may_be(stand_in, tmp_path):
    stand_in(f'ulimit -S -s >{tmp_path}/soft; ulimit -H -s >{tmp_path}/hard; printf "N\\n1\\n"')
    assert rowmatch.match(pd.DataFrame({"p": [1]}), CLAUSE)["n"].tolist() == [1]
    assert (tmp_path / "soft").read_text() == (tmp_path / "hard").read_text()


def test_no_program(monkeypatch, tmp_path):
    (tmp_path / "text").write_text("no program")
    for path in (tmp_path / "none", tmp_path / "text", tmp_path):
        monkeypatch.setenv("ROWMATCH_PROGRAM", str(path))
        with pytest.raises(ProgramError, match="ROWMATCH_PROGRAM names"):
            rowmatch.match(pd.DataFrame({"p": [1]}), CLAUSE)
        assert run_command("--version").stderr.startswith("rowmatch: ROWMATCH_PROGRAM names")


@pytest.mark.parametrize(
    "script, status, told",
    [
        ("kill -SEGV $$", -signal.SIGSEGV, "the program was ended by SIGSEGV"),
        ("cat >/dev/null; echo 'rowmatch: out of memory' >&2; exit 3", 3, "out of memory"),
        ("exit 3", 3, "the program ended with status 3"),
        ("head -c 10; exit 77", 77, "the program ended with status 77"),
        ("cat >/dev/null; echo 'rowmatch: csv: Header' >&2; exit 1", 1, "csv: Header"),
    ],
)
def test_a_program_that_fails(stand_in, script, status, told):
    stand_in(script)
    with pytest.raises(ProgramError) as caught:
        rowmatch.match(pd.DataFrame({"p": range(300_000)}), CLAUSE)
    assert caught.value.status == status and str(caught.value) == told


def test_no_file_can_be_opened():
    """As where the process has as many open as it may."""
    frame = pd.DataFrame({"p": [1, 2]})
    before = resource.getrlimit(resource.RLIMIT_NOFILE)
    resource.setrlimit(resource.RLIMIT_NOFILE, (3, before[1]))
    try:
        with pytest.raises(ProgramError, match="can't be started: .*Too many open files") as caught:
            rowmatch.match(frame, CLAUSE.replace("0", "17"))
    finally:
        resource.setrlimit(resource.RLIMIT_NOFILE, before)
    assert caught.value.status is None
    assert rowmatch.match(frame, CLAUSE).n.tolist() == [2]


def test_a_table_that_is_refused(monkeypatch, tmp_path):
    said = '{"columns":[],"faults":[{"kind":"BadName","message":"","help":[],"text":"table"}]}'
    fake = tmp_path / "fake"
    fake.write_text(f"#!/bin/sh\necho '{said}'; exit 1\n")
    fake.chmod(0o755)
    monkeypatch.setenv("ROWMATCH_PROGRAM", str(fake))
    with pytest.raises(ProgramError, match="refused what this package wrote.*BadName"):
        rowmatch.match(pd.DataFrame({"p": [1]}), CLAUSE)


def test_a_program_that_does_not_know_what_it_is_asked(monkeypatch, tmp_path):
    fake = tmp_path / "fake"
    fake.write_text(
        "#!/bin/sh\necho \"error: unexpected argument '--format' found\" >&2\n"
        "echo 'Usage: ..' >&2; exit 2\n"
    )
    fake.chmod(0o755)
    monkeypatch.setenv("ROWMATCH_PROGRAM", str(fake))
    with pytest.raises(
        ProgramError,
        match="another one than this package knows: error: unexpected argument '--format' found$",
    ):
        rowmatch.match(pd.DataFrame({"p": [1]}), CLAUSE)


def test_a_question_that_takes_too_long(stand_in):
    stand_in(
        """echo 'rowmatch: 5 s: partition 2, ["b"], row 1: 9,100,000 turns' >&2; exec sleep 60"""
    )
    begin = time.monotonic()
    with pytest.raises(TimeoutError, match='it was at partition 2, ."b"., row 1: 9,100,000 turns'):
        rowmatch.match(pd.DataFrame({"p": range(300_000)}), CLAUSE, timeout=1)
    assert time.monotonic() - begin < 30


def test_a_timeout_is_that_of_the_whole_call(stand_in):
    stand_in("sleep 1.5; exit $([ $3 = csv ] && echo 1 || echo 0)")
    begin = time.monotonic()
    with pytest.raises(TimeoutError, match="within 2 seconds"):
        rowmatch.match(pd.DataFrame({"p": [1]}), CLAUSE, timeout=2)
    assert time.monotonic() - begin < 30


def test_a_timeout_while_the_clause_is_looked_at(monkeypatch, tmp_path):
    fake = tmp_path / "fake"
    fake.write_text("#!/bin/sh\nif [ $1 = check ]; then exec sleep 20; fi\n")
    fake.chmod(0o755)
    monkeypatch.setenv("ROWMATCH_PROGRAM", str(fake))
    with pytest.raises(TimeoutError, match="within 1 seconds"):
        rowmatch.match(pd.DataFrame({"p": [1]}), CLAUSE, timeout=1)


def hear_interrupts():
    """A shell's job in the background ignores interrupts, and so does all that it starts."""
    signal.signal(signal.SIGINT, signal.SIG_DFL)


def test_an_interrupt_ends_the_program(stand_in, tmp_path):
    stand_in(f"echo $$ >{tmp_path}/pid.new; mv {tmp_path}/pid.new {tmp_path}/pid; exec sleep 60")
    script = f"import pandas, rowmatch; rowmatch.match(pandas.DataFrame({{'p': [1]}}), {CLAUSE!r})"
    with subprocess.Popen(
        [sys.executable, "-c", script], stderr=subprocess.PIPE, preexec_fn=hear_interrupts
    ) as process:
        until = time.monotonic() + 60
        while not (tmp_path / "pid").exists() and time.monotonic() < until:
            time.sleep(0.01)
        process.send_signal(signal.SIGINT)
        assert b"KeyboardInterrupt" in process.stderr.read()
        assert process.wait() != 0
    with pytest.raises(ProcessLookupError):
        os.kill(int((tmp_path / "pid").read_text()), 0)


def test_an_interrupt_while_the_program_is_started(stand_in, monkeypatch):
    stand_in("exec sleep 60")
    started = []

    class Interrupted(subprocess.Popen):
        def __init__(self, words, **options):
            super().__init__(words, **options)
            if "check" not in words:
                started.append(self.pid)
                os.kill(os.getpid(), signal.SIGINT)
                time.sleep(0.2)

    before = signal.signal(signal.SIGINT, signal.default_int_handler)
    monkeypatch.setattr(subprocess, "Popen", Interrupted)
    try:
        with pytest.raises(KeyboardInterrupt):
            rowmatch.match(pd.DataFrame({"p": [1]}), CLAUSE)
    finally:
        signal.signal(signal.SIGINT, before)
    with pytest.raises(ProcessLookupError):
        os.kill(started[0], 0)


def test_an_interrupt_leaves_nobody_reading_what_is_closed(stand_in, tmp_path, monkeypatch):
    """Standard error stays open behind the program's end, by a process of its own."""
    stand_in(f"(sleep 2; echo >&2) >/dev/null & echo $! >{tmp_path}/pid; exec sleep 60")
    noise = []
    monkeypatch.setattr(threading, "excepthook", lambda made: noise.append(made.exc_value))
    threads = threading.enumerate()
    before = signal.signal(signal.SIGINT, signal.default_int_handler)
    try:
        interrupting = threading.Thread(target=interrupt_once_there_is, args=(tmp_path / "pid",))
        interrupting.start()
        with pytest.raises(KeyboardInterrupt):
            rowmatch.match(pd.DataFrame({"p": [1]}), CLAUSE)
        for thread in {*threading.enumerate()} - {*threads}:
            thread.join(60)
    finally:
        signal.signal(signal.SIGINT, before)
    assert noise == []


def interrupt_once_there_is(path):
    wait_for(path)
    time.sleep(0.2)
    os.kill(os.getpid(), signal.SIGINT)


def wait_for(path):
    until = time.monotonic() + 60
    while not path.exists() and time.monotonic() < until:
        time.sleep(0.01)


SKIP = "MEASURES 1 AS x AFTER MATCH SKIP TO FIRST B PATTERN (A B?) DEFINE B AS p > 5"


def reap(*_):
    with contextlib.suppress(ChildProcessError):
        while os.waitpid(-1, os.WNOHANG)[0]:
            pass


@pytest.fixture(params=["ignored", "reaped"])
def lost_status(request):
    """Once it is called, the statuses of children are lost."""
    before = signal.getsignal(signal.SIGCHLD)
    handler = signal.SIG_IGN if request.param == "ignored" else reap
    yield lambda: signal.signal(signal.SIGCHLD, handler)
    signal.signal(signal.SIGCHLD, before)


def test_a_lost_status_is_no_success(lost_status):
    frame = pd.DataFrame({"p": [1, 2]})
    with pytest.raises(rowmatch.SkipFault):
        rowmatch.match(frame, SKIP)
    lost_status()
    for clause in (SKIP, SKIP.replace("1 AS", "2 AS")):  # looked at already, and not
        with pytest.raises((ProgramError, rowmatch.SkipFault)) as caught:
            rowmatch.match(frame, clause)
        if caught.type is ProgramError:
            assert "status was lost" in str(caught.value) and caught.value.status is None


def test_a_part_of_an_answer_whose_status_is_lost(stand_in, lost_status):
    stand_in('cat >/dev/null; printf "N\n1\n"; kill -KILL $$')
    frame = pd.DataFrame({"p": [1, 2]})
    with pytest.raises(ProgramError, match="ended by SIGKILL"):
        rowmatch.match(frame, CLAUSE)
    lost_status()
    with pytest.raises(ProgramError, match="ended by SIGKILL|status was lost"):
        rowmatch.match(frame, CLAUSE)


def test_a_timeout_where_the_status_is_lost(stand_in, lost_status):
    stand_in("exec sleep 60")
    frame = pd.DataFrame({"p": [1, 2]})
    for _ in range(2):
        with pytest.raises(TimeoutError):
            rowmatch.match(frame, CLAUSE, timeout=1)
        lost_status()


@pytest.mark.parametrize("closed", ["0", "1", "2", "01", "02", "12", "012"])
def test_standard_streams_that_are_closed(closed, tmp_path):
    script = f"""import pandas, pathlib, rowmatch
n = rowmatch.match(pandas.DataFrame({{'p': [1, 2]}}), {CLAUSE!r})["n"].tolist()
pathlib.Path({str(tmp_path / "found")!r}).write_text(str(n))"""
    closing = " ".join(f"{stream}>&-" for stream in closed)
    words = ["/bin/sh", "-c", f'exec "$@" {closing}', "sh", sys.executable, "-c", script]
    subprocess.run(words, timeout=60)
    assert (tmp_path / "found").read_text() == "[2]"


def test_a_process_that_is_forked_meanwhile(stand_in, tmp_path):
    """It has no part in the program's input, which ends while it lives."""
    stand_in(
        f"""echo >{tmp_path}/runs; while ! [ -e {tmp_path}/read ]; do sleep 0.05; done
        cat >/dev/null; printf "N\\n7\\n" """
    )
    with ThreadPoolExecutor(1) as pool:
        asked = pool.submit(rowmatch.match, pd.DataFrame({"p": range(300_000)}), CLAUSE)
        wait_for(tmp_path / "runs")
        forked = os.fork()
        if not forked:
            time.sleep(60)
            os._exit(0)
        try:
            (tmp_path / "read").touch()
            assert asked.result(30)["n"].tolist() == [7]
        finally:
            os.kill(forked, signal.SIGKILL)
            os.waitpid(forked, 0)


def test_a_forked_process_asks_too():
    rowmatch.match(pd.DataFrame({"p": [1]}), CLAUSE)
    forked = os.fork()
    if not forked:
        found = []
        try:
            found = rowmatch.match(pd.DataFrame({"p": [1, 2]}), CLAUSE)["n"].tolist()
        finally:
            os._exit(0 if found == [2] else 1)
    assert os.waitpid(forked, 0)[1] == 0


def test_a_program_that_is_named_from_here(monkeypatch, tmp_path):
    shutil.copy(program(), tmp_path / "own")
    monkeypatch.chdir(tmp_path)
    monkeypatch.setenv("ROWMATCH_PROGRAM", "own")
    assert rowmatch.match(pd.DataFrame({"p": [1]}), CLAUSE)["n"].tolist() == [1]


def test_a_timeout_that_is_not_reached():
    assert rowmatch.match(pd.DataFrame({"p": [1]}), CLAUSE, timeout=600)["n"].tolist() == [1]


def test_progress_is_no_fault():
    assert is_progress('rowmatch: 5 s: partition 2, ["b"], row 1: 9,100,000 turns')
    assert not is_progress("rowmatch: out of memory") and not is_progress("")


def test_many_at_once():
    frames = [pd.DataFrame({"p": range(1, n)}) for n in range(2, 40)]
    with ThreadPoolExecutor(8) as pool:
        answers = list(pool.map(lambda frame: rowmatch.match(frame, CLAUSE), frames))
    assert [answer["n"].tolist() for answer in answers] == [[len(frame)] for frame in frames]


def test_a_deep_pattern_has_the_stack_that_it_needs():
    clause = f"MEASURES COUNT(*) AS n PATTERN ({'A ' * 40_000}) DEFINE A AS p > 0"
    assert len(rowmatch.match(pd.DataFrame({"p": [1]}), clause)) == 0


def test_nothing_is_left_behind(stand_in):
    before = set(os.listdir("/proc/self/fd"))
    for _ in range(5):
        rowmatch.match(pd.DataFrame({"p": [1]}), CLAUSE)
        with pytest.raises(rowmatch.ClauseError):
            rowmatch.match(pd.DataFrame({"p": [1]}), "PATTERN")
    stand_in("exit 3")
    with pytest.raises(ProgramError):
        rowmatch.match(pd.DataFrame({"p": [1]}), CLAUSE)
    assert set(os.listdir("/proc/self/fd")) == before


def test_a_clause_is_in_no_list_of_processes(stand_in, tmp_path):
    stand_in(f'tr "\\0" " " </proc/$$/cmdline >{tmp_path}/words; printf "N\\n1\\n"')
    rowmatch.match(pd.DataFrame({"p": [1]}), CLAUSE)
    words = (tmp_path / "words").read_text()
    assert "--clause-file /dev/fd/" in words and "PATTERN" not in words


def test_the_package_without_pandas():
    script = (
        "import sys; sys.modules['pandas'] = None; import rowmatch; rowmatch.Node; rowmatch.match"
    )
    made = subprocess.run([sys.executable, "-c", script], capture_output=True, text=True)
    assert "need pandas, 1.5 or later: pip install pandas" in made.stderr


def test_the_program_is_there():
    assert os.access(program(), os.X_OK) and command(["--version"])[-2:] == [program(), "--version"]
