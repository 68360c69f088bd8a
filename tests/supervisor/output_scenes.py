"""Scenes of what services print while standard error is slow, full or gone, and of log programs that come later."""
import contextlib
import os
import signal
import threading
import time

from scenes import rests, scene
from supervisors import equal, state_of
from waiting import PATIENCE, until

LINE = "#" * 40


@contextlib.contextmanager
def standard_error(host, pause=0.0, most=1 << 16, first=None, go=None):
    """Reads the standard error of a supervisor from a pipe, at most MOST bytes between two pauses. What was read is in the list. After the
    FIRST readings it waits for the event `go`."""
    pipe, said, stops = host.home / "errors", [], threading.Event()
    os.mkfifo(pipe)
    file = os.open(pipe, os.O_RDONLY | os.O_NONBLOCK)
    host.words = ["sh", "-c", 'exec "$@" 2> "$0"', pipe, *host.words]

    def read():
        while not stops.is_set():
            if len(said) != first or go.is_set():
                with contextlib.suppress(BlockingIOError):
                    said.extend(filter(None, [os.read(file, most)]))
            stops.wait(max(pause, 0.001))

    reader = threading.Thread(target=read)
    reader.start()
    try:
        yield said
    finally:
        stops.set()
        reader.join()
        with contextlib.suppress(BlockingIOError):
            while some := os.read(file, 1 << 20):
                said.append(some)
        os.close(file)


def prints(count):
    """Returns the program of a service that prints this many lines, notes that it did, and lives."""
    return f"for it in range({count}): print(it, {LINE!r})\nsys.stdout.flush()\nnote('printed')\nlive()\n"


@scene
def no_line_is_lost_in_a_slow_pipe(host):
    """Two services print faster than standard error is read. They wait, others are served, and every line comes through, whole and in order."""
    count, go = 6000, threading.Event()
    with standard_error(host, pause=0.02, most=1 << 14, first=6, go=go) as said:
        host.start({label: ({}, prints(count)) for label in "ab"})
        until(lambda: len(said) == 6, "it is read")
        assert "printed" not in host.notes(), "a service doesn't wait"
        go.set()
        for _ in range(20):
            begun = time.monotonic()
            equal(host.ask("retrieve a label"), "found 1/16")
            assert time.monotonic() - begun < 20
        host.noted("a 1/16 printed"), host.noted("b 2/17 printed")
        until(lambda: b"".join(said).count(f": {count - 1} {LINE}\n".encode()) == 2, "the last lines come")
        host.end()
    lines = b"".join(said).decode().splitlines()
    for label in "ab":
        equal([it for it in lines if it.startswith(f"{label}: ")], [f"{label}: {it} {LINE}" for it in range(count)])
    equal([it for it in lines if "left_out" in it], [])


@scene
def a_reader_that_is_gone_holds_up_nobody(host):
    """Once nobody reads standard error, lines are left out, and services go on."""
    pipe = host.home / "errors"
    os.mkfifo(pipe)
    host.words = ["sh", "-c", 'exec "$@" 2> "$0"', pipe, *host.words]
    file = os.open(pipe, os.O_RDONLY | os.O_NONBLOCK)
    host.start({"a": ({}, prints(20000))})
    until(lambda: os.path.exists(host.path), "it serves")
    time.sleep(0.3)
    assert "printed" not in host.notes(), "it doesn't wait"
    os.close(file)
    host.noted("a 1/16 printed")
    equal(host.ask("retrieve a label"), "found 1/16")
    host.process.send_signal(signal.SIGTERM)
    equal(host.process.wait(PATIENCE), 0)


@scene
def a_reader_that_stands_still_holds_up_no_end(host):
    """Standard error is full, and nobody reads on. The supervisor ends all the same, and answers until then."""
    with standard_error(host, pause=1000):
        host.start({"a": ({}, "note('begins')\n" + prints(100000))})
        host.noted("a 1/16 begins")
        until(lambda: rests(host.process.pid), "it waits without polling")
        assert "printed" not in host.notes(), "it doesn't wait"
        begun = time.monotonic()
        host.process.send_signal(signal.SIGTERM)
        equal(host.process.wait(PATIENCE), 0)
        assert time.monotonic() - begun < 30, "it waits for its reader"


@scene
def a_flood_of_lines_delays_others_little(host):
    """Sixteen services print empty lines without end. Few of these are passed on before a command that waits is carried out."""
    floods = {f"s{number}": ({}, "#!/bin/sh\nexec yes ''\n") for number in range(16)}
    host.start({**floods, "other": ({}, "#!/bin/sh\nexec sleep 1000\n")}, options=("--grace", "0"))
    until(lambda: printed(host) > 1 << 19, "they print")
    count = 20
    each = sum(lines_before(host, "service refresh other", b"event=kill") for _ in range(count)) // count
    assert each < 20000, f"{each} lines before each command"
    host.process.send_signal(signal.SIGTERM)
    equal(host.process.wait(PATIENCE), 0)


def printed(host):
    return os.path.getsize(host.home / "log")


def lines_before(host, line, event):
    """Sends a line while the supervisor is stopped. Returns how many lines it then prints before this event."""
    host.process.send_signal(signal.SIGSTOP)
    until(lambda: state_of(host.process.pid) == "T", "it stops")
    begun = printed(host)
    host.client().sendall(line.encode() + b"\n")
    host.process.send_signal(signal.SIGCONT)
    host.answer(host.client())
    with open(host.home / "log", "rb") as log:
        log.seek(begun)
        before, found, _ = log.read().partition(event)
    assert found, f"no {event} after `{line}`"
    return before.count(b"\n")


@scene
def long_lines_are_cut(host):
    """A line of 1,024 bytes is one line, and one with a byte more is two."""
    host.start({"a": ({}, "#!/bin/sh\nhead -c 1024 /dev/zero | tr '\\0' x; echo; head -c 1025 /dev/zero | tr '\\0' y; echo; echo end\nexec sleep 1000\n")})
    until(lambda: "a: end\n" in host.log(), "it prints")
    equal([len(it) for it in host.log().splitlines() if it.startswith("a: ")], [3 + 1024, 3 + 1024, 3 + 1, 3 + 3])
    host.end()


@scene
def a_log_program_that_comes_later_is_used(host):
    """A log program is looked for at each start of its service. Once there is none, the supervisor reads the lines again."""
    host.start({"a": ({}, '#!/bin/sh\nprintf "%s prints\\nhalf" "$DS_ENDPOINT"\nexec sleep 1000\n')})  # by one write
    until(lambda: "a: 1/16 prints\n" in host.log(), "the supervisor reads")
    host.service("a/log", "#!/bin/sh\nexec cat >> out\n")
    host.ask("service refresh a")
    path = host.home / "services/a/log"
    until(lambda: (path / "out").exists() and "2/16 prints" in (path / "out").read_text(), "the log program reads")
    assert "a: half\n" in host.log() and "a: 2/16" not in host.log(), host.log()
    os.remove(path / "run")
    os.kill(host.processes_named("cat")[0], signal.SIGKILL)
    host.logged("nolog a signal 9")
    host.ask("service refresh a")
    until(lambda: "3/16 prints\n" in host.log(), "the supervisor reads again")
    host.end()
