"""How a behaviour starts the program, reads what it answers, and asserts it."""
import os
import select
import subprocess
import time

import harness

MEMORY = 64 << 10  # KiB of address space, where a behaviour limits it


def fault(behaviour, program):
    """Runs one behaviour, and returns what is wrong with it, or None."""
    try:
        behaviour(program)
    except (AssertionError, subprocess.TimeoutExpired, OSError) as wrong:
        return f"{type(wrong).__name__}: {str(wrong)[:400]}"
    return None


def expect(ran, output, status, error=None):
    """Asserts the whole answer of a run; if no standard error is given, it must explain each bad line, and nothing else."""
    wrong = harness.difference(ran.output, output)
    assert not wrong, f"output: {wrong}"
    assert ran.status == status, f"status {ran.status}, wanted {status}; standard error: {ran.error[-200:]!r}"
    if error is None:
        wrong = harness.unexplained(ran.output, ran.error)
        assert not wrong, wrong
    else:
        wrong = harness.error_fault(ran.error, error)
        assert not wrong, wrong


def begin(program, words=(), limit=None, **streams):
    """Starts the program, over pipes where no other stream is given, with `limit` KiB of address space."""
    how = {"stdin": subprocess.PIPE, "stdout": subprocess.PIPE, "stderr": subprocess.PIPE, "bufsize": 0, **streams}
    limited = ["sh", "-c", 'ulimit -v "$0" && exec "$@"', str(limit)] if limit else []
    return subprocess.Popen([*limited, program, *words], **how)


def end(started, given=None):
    """Gives the started program the rest of its input, and waits for its answer."""
    try:
        output, error = started.communicate(given, timeout=harness.SECONDS)
    finally:
        started.kill()
    return harness.Ran(output, started.returncode, error)


def next_line(started):
    """Reads one line that the program writes, which must come within ten seconds."""
    line, late = b"", time.monotonic() + harness.SECONDS
    while not line.endswith(b"\n"):
        ready, _, _ = select.select([started.stdout], [], [], max(0, late - time.monotonic()))
        assert ready, f"no answer after ten seconds; so far {line!r}"
        read = os.read(started.stdout.fileno(), 1)
        assert read, f"the output ended after {line!r}"
        line += read
    return line


def answers(started, *lines):
    """Asserts that just these lines come next, each in time."""
    got = [next_line(started) for _ in lines]
    assert got == [*lines], f"answered {got!r}, wanted {lines!r}"
