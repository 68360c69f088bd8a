"""Answers come at once, usage is judged before input, and readers and writers that fail or are closed end the program by name."""
import os
import select
import subprocess

import harness

from .running import answers, begin, end, expect
from .samples import PUT, TOMBSTONE

# ---- answers come at once ----


def answers_each_line_before_the_next(program):
    """Over a pipe, each answer comes before the next line is written."""
    steps = [
        (PUT, b"taken\n"),
        (PUT, b"known\n"),
        (b"show", b"eth0 label rs 3.0 = 3/17\n", b"shown 1\n"),
        (TOMBSTONE, b"taken\n"),
        (b"show", b"shown 0\n"),
        (b"all", b"eth0 label rs 3.1 -\n", b"shown 1\n"),
    ]
    started = begin(program)
    try:
        for line, *wanted in steps:
            started.stdin.write(line + b"\n")
            answers(started, *wanted)
    finally:
        rest = end(started)
    expect(rest, b"", 0)


def records_each_entry_before_the_next(program):
    """Over a pipe, each entry of a trace that is recorded is written before the next command is, and one of a merge after its items."""
    steps = [
        (b"ring 8\n7 " + PUT, b"trace 2 1 0 8 128 4096\n", b"> 7 " + PUT + b"\n", b"< taken\n"),
        (b"merge 1\n+ " + TOMBSTONE[6:], b"> 0 merge 1\n", b"+ " + TOMBSTONE[6:] + b"\n", b"< merged 1 1 0\n"),
        (PUT, b"> 0 " + PUT + b"\n", b"< stale\n"),
    ]
    started = begin(program, ["record"])
    try:
        for line, *wanted in steps:
            started.stdin.write(line + b"\n")
            answers(started, *wanted)
    finally:
        rest = end(started)
    expect(rest, b"", 0, b"")


def writes_each_entry_in_format_2_before_the_next(program):
    """Over a pipe, each entry of a trace that is upgraded is written before the next one is read, a sweep's merge too."""
    steps = [
        (b"trace 1 1 0 8", b"trace 2 1 0 8 64 1024\n"),
        (b"> 7 offer a u32 eth0 3.0 = 1\n< taken", b"> 7 offer a u32 eth0 3.0 = 1\n", b"< taken\n"),
        (b"> 9 sweep 0/2 eth0 3\n< swept 1", b"> 9 merge 1\n", b"+ a u32 eth0 3.4294967295 -\n", b"< merged 1 1 0\n"),
    ]
    started = begin(program, ["upgrade"])
    try:
        for line, *wanted in steps:
            started.stdin.write(line + b"\n")
            answers(started, *wanted)
    finally:
        rest = end(started, b"> 64 show\n")
    expect(rest, b"", 1, b"badline 6\n")


def waits_for_a_whole_line(program):
    """A line that comes in pieces is answered once it is whole, and a bad one without waiting for another."""
    started = begin(program)
    try:
        started.stdin.write(PUT + b"\n" + PUT[:9])
        answers(started, b"taken\n")
        assert not select.select([started.stdout], [], [], 0.2)[0], "half a line was answered"
        started.stdin.write(PUT[9:] + b"\nshow")
        answers(started, b"known\n")
        started.stdin.write(b"x\n")
        answers(started, b"badline 3 0\n")
    finally:
        rest = end(started)
    expect(rest, b"", 1, b"dsctl: line 3, byte 0: `showx` isn't a command, the nearest is `show`: see --help\n")


def judges_usage_before_input(program):
    """A usage fault ends the program while its input is still open and empty."""
    started = begin(program, ["settle"])
    try:
        status = started.wait(timeout=harness.SECONDS)
    finally:
        started.kill()
        started.communicate()
    assert status == 2, f"status {status}"


def ends_each_answer_before_the_next(program):
    """With --ends an answer's end comes before the next line is read, and the answer before that."""
    steps = [(PUT, b"taken\n", b"\n"), (b"show", b"eth0 label rs 3.0 = 3/17\n", b"shown 1\n", b"\n")]
    for words, first in ((["replay", "--ends"], b""), (["replay", "-", "--ends"], b"script 2\n# a comment\n\n")):
        started = begin(program, words)
        try:
            started.stdin.write(first)
            for line, answer, *more in steps:
                started.stdin.write(line + b"\n")
                answers(started, answer, *more)
        finally:
            rest = end(started)
        expect(rest, b"", 0, b"")


def reads_a_file_by_its_name(program):
    """Each subcommand reads a named file as it reads standard input, which it then leaves alone; `-` is standard input."""
    examples = harness.EXAMPLES
    rows = [([], "driver.ds"), (["replay"], "driver.ds"), (["settings"], "machine.toml"), (["verify"], "recorded.trace")]
    rows += [(["upgrade"], "older.trace"), (["record"], "recorded.commands")]
    for words, name in rows:
        given = (examples / name).read_bytes()
        wanted = harness.run([program, *words], given)
        for how in ([str(examples / name)], ["-"]):
            ran = harness.run([program, *words, *how], given if how == ["-"] else b"bad\n")
            assert ran == wanted and wanted.output, f"{words} {how}: {ran}"


def a_file_that_cannot_be_opened(program):
    """A file that doesn't exist is reported by its name and the system's reason, with status 2; a word like a subcommand by that one, too."""
    rows = [([], "none.ds", b"dsctl: `none.ds` can't be opened: No such file or directory (os error 2)\n")]
    rows += [(["verify"], "no/such.trace", b"dsctl: `no/such.trace` can't be opened: No such file or directory (os error 2)\n")]
    rows += [([], "repaly", b"dsctl: `repaly` is neither a command, the nearest is `replay`, nor a file: No such file or directory (os error 2)\n")]
    for words, name, sentence in rows:
        expect(harness.run([program, *words, name], b"show\n"), b"", 2, sentence)
    folder = str(harness.EXAMPLES)
    expect(harness.run([program, folder], b""), b"", 3, b"readfault\n")


# ---- reading and writing that fails ----


def a_reader_that_fails(program):
    """A folder as the input, and a file that was opened only for writing, are reads that fail."""
    folder = os.open(os.path.dirname(__file__), os.O_RDONLY)
    for stream in (folder, os.open(os.devnull, os.O_WRONLY)):
        expect(end(begin(program, stdin=stream)), b"", 3, b"readfault\n")
        os.close(stream)


def a_reader_that_is_closed(program):
    """Without standard input the first read fails."""
    words = ["sh", "-c", 'exec "$0" <&-', program]
    expect(harness.run(words, b""), b"", 3, b"readfault\n")


def a_writer_that_is_full(program):
    """Output that takes no bytes is a write that failed; a bad line can't be reported there either."""
    for script in (PUT + b"\n", b"show\n", b"bad\n", b"show"):
        with open("/dev/full", "wb") as full:
            expect(end(begin(program, stdout=full), script), None, 3, b"writefault\n")


def a_writer_that_is_gone(program):
    """A pipe whose reader has gone is a write that failed: `writefault` alone, and no signal ends the program."""
    for script in (PUT + b"\n", PUT + b"\nbad\n", b"show\n" * 100000):
        reading, writing = os.pipe()
        os.close(reading)
        started = begin(program, stdout=writing)
        os.close(writing)
        expect(end(started, script), None, 3, b"writefault\n")


def a_writer_that_goes(program):
    """A reader that goes after the first answer, while the input is still open, ends the program likewise."""
    started = begin(program)
    started.stdin.write(PUT + b"\n")
    answers(started, b"taken\n")
    started.stdout.close()
    started.stdout = None
    started.stdin.write(PUT + b"\n")
    expect(end(started), None, 3, b"writefault\n")


def a_writer_that_is_closed(program):
    """Without standard output the program fails as soon as there is something to write."""
    words = ["sh", "-c", 'exec "$0" >&-', program]
    expect(harness.run(words, PUT + b"\n"), b"", 3, b"writefault\n")
    expect(harness.run(words, b""), b"", 0)


def a_reader_that_does_not_wait(program):
    """Standard input that is set not to block, and has nothing yet, is a read that failed."""
    reader, writer = os.pipe()
    os.set_blocking(reader, False)
    try:
        ran = subprocess.run([program], stdin=reader, capture_output=True, timeout=harness.SECONDS)
    finally:
        os.close(reader)
        os.close(writer)
    assert (ran.stdout, ran.returncode) == (b"", 3) and not harness.error_fault(ran.stderr, b"readfault\n"), f"{ran}"


def a_writer_that_does_not_wait(program):
    """Standard output that is set not to block, and is full, is a write that failed."""
    reader, writer = os.pipe()
    os.set_blocking(writer, False)
    try:
        ran = subprocess.run([program], input=PUT + b"\nshow" * 100000, stdout=writer, stderr=subprocess.PIPE, timeout=harness.SECONDS)
    finally:
        os.close(reader)
        os.close(writer)
    assert ran.returncode == 3 and not harness.error_fault(ran.stderr, b"writefault\n"), f"{ran}"
