"""Reads the cases, and runs the program on one, for all test scripts."""
import multiprocessing
import os
import pathlib
import re
import subprocess
import sys
from concurrent.futures import ProcessPoolExecutor
from dataclasses import dataclass
from typing import List, Optional, Union

import tables

TESTS = pathlib.Path(__file__).resolve().parent.parent
CASES = TESTS / "dsctl" / "cases"
EXAMPLES = TESTS.parent / "examples"
DOCUMENTS = TESTS.parent / "docs"
SESSION = re.compile(r"(?<=\n\n)    > .*\n(?:    .*\n)*")  # within a document
BAD_LINE = re.compile(rb"^badline (\d+) (\d+)$", re.MULTILINE)  # within answers
BAD_SETTINGS = re.compile(rb"bad \w+( \d+)?\n")  # the whole output for settings with a fault
BAD_TRACE = re.compile(rb"(?:illegal|badline) (\d+)\n")  # the whole output for a trace that isn't legal
TOLD = b"dsctl: "  # the beginning of each sentence on standard error
WRONG_LINE = rb"dsctl: line %s(?:, byte \d+)?: "  # the beginning of the sentence about a trace; it names a byte if part of the line is bad
WORD = re.compile(rb"badline (\d+) (\d+)\n")  # the first line of standard error if commands to record can't be read
SECONDS = 300  # the longest that one run may take, even on a busy machine


@dataclass
class Case:
    """One run of the program: its input, and the output that it must have."""

    name: str
    args: List[str]
    input: Union[pathlib.Path, tables.Text]
    output: bytes
    status: int = 0
    error: Optional[bytes] = None  # None: any text if the status is above 1, else a line for each bad line, or for the one reported


@dataclass
class Session:
    """What a user types and sees, as a document shows it."""

    name: str
    typed: bytes
    answered: bytes


@dataclass
class Ran:
    """The result of one run of the program; a status below 0 is the signal that ended it."""

    output: bytes
    status: Optional[int]  # None: the program didn't end in time
    error: bytes


def cases_of(table):
    """Returns the cases of a table, named as if each had a folder beside it."""
    folder = table.parent.relative_to(CASES)
    return [Case(f"{folder}/{it.name()}", it.args, tables.Text(it.input), it.output, it.status, it.error) for it in tables.rows(table)]


def read_case(folder):
    """Reads the case that the files of a folder describe."""

    def part(name, otherwise=None):
        path = folder / name
        return path.read_bytes() if path.exists() else otherwise

    return Case(
        name=str(folder.relative_to(CASES)),
        args=[os.fsdecode(word) for word in part("args", b"").split(b"\n")[:-1]],
        input=folder / "input",
        output=part("output"),
        status=int(part("status", b"0")),
        error=part("error"),
    )


def read_cases():
    """Reads every case of tests/dsctl/cases, by its name."""
    read = [read_case(path.parent) for path in CASES.rglob("output")]
    read += [case for table in CASES.rglob("*.cases") for case in cases_of(table)]
    return sorted(read, key=lambda it: it.name)


def all_cases():
    """Reads every case of tests/dsctl/cases, and every script, settings text, trace and text of commands of examples/ as a case of its own.
    """
    words = {".ds": [], ".toml": ["settings"], ".trace": ["verify"], ".commands": ["record"]}
    files = sorted(it for it in EXAMPLES.iterdir() if it.suffix in words)
    examples = [Case(f"examples/{it.name}", words[it.suffix], it, wanted_of(it), status_beside(it)) for it in files]
    older, newer = EXAMPLES / "older.trace", EXAMPLES / "upgraded.trace"
    examples.append(Case("examples/older.trace upgraded", ["upgrade"], older, newer.read_bytes()))
    return read_cases() + examples


def wanted_of(file):
    """Returns the output that an example's file must have. For commands it is the trace beside them."""
    return file.with_suffix(".trace" if file.suffix == ".commands" else ".out").read_bytes()


def status_beside(file):
    """Returns the exit status in the file beside an example's, or 0 without one."""
    path = file.with_suffix(".status")
    return int(path.read_bytes()) if path.exists() else 0


def all_sessions():
    """Reads each session of the documents: a block of indented lines, in which typed lines begin with `>`."""
    sessions = []
    for document in sorted(DOCUMENTS.rglob("*.md")):
        blocks = [it.group().splitlines() for it in SESSION.finditer(document.read_text())]
        for number, block in enumerate(blocks, 1):
            lines = [it[4:].encode() for it in block]
            typed = b"".join(it[2:] + b"\n" for it in lines if it.startswith(b"> "))
            answered = b"".join(it + b"\n" for it in lines if not it.startswith(b"> "))
            sessions.append(Session(f"docs/{document.relative_to(DOCUMENTS)}: session {number}", typed, answered))
    return sessions


class Section(str):
    """The path of the program for tests, with the line that begins the section to run."""

    first = b""


def section_of(program, name):
    """Returns the program for tests at this path, with one of its sections."""
    section = Section(program)
    section.first = f"=== {name}\n".encode()
    return section


def run(words, given, environment=None):
    """Runs a command on bytes or a file. If it has a section, the section's first line comes before them."""
    first = getattr(words[0], "first", b"")
    if first:
        given = first + (given if isinstance(given, bytes) else given.read())
    how = {"input": given} if isinstance(given, bytes) else {"stdin": given}
    try:
        ran = subprocess.run(words, capture_output=True, timeout=SECONDS, env=environment, **how)
    except subprocess.TimeoutExpired as late:
        return Ran(late.stdout or b"", None, late.stderr or b"")
    return Ran(ran.stdout, ran.returncode, ran.stderr)


def run_case(program, case, environment=None):
    """Runs the program on a case."""
    with case.input.open("rb") as given:
        return run([program, *case.args], given, environment)


def difference(got, wanted):
    """Returns the first line in which two outputs differ, or None if they are equal."""
    if got == wanted:
        return None
    lines, wanted_lines = got.split(b"\n"), wanted.split(b"\n")
    pairs = enumerate(zip(lines, wanted_lines))
    at = next((at for at, (one, other) in pairs if one != other), min(len(lines), len(wanted_lines)))
    shown = [repr(it[at][:120])[1:] if at < len(it) else "nothing" for it in (lines, wanted_lines)]
    return f"line {at + 1} is {shown[0]}, wanted {shown[1]}"


def fault(case, ran):
    """Returns what is wrong with the output for a case, or None."""
    if ran.status is None:
        return f"the program hadn't ended after {SECONDS} seconds"
    wrong = difference(ran.output, case.output)
    if wrong:
        return f"output: {wrong} (status {ran.status})"
    if ran.status != case.status:
        return f"status {ran.status}, wanted {case.status}; standard error: {ran.error[-200:]!r}"
    if case.error is not None:
        return error_fault(ran.error, case.error)
    if case.status > 1:
        return None if ran.error else f"standard error is empty at status {ran.status}"
    return unexplained(ran.output, ran.error)


def error_fault(error, wanted):
    """Returns how standard error differs from what is wanted, or None. A wanted word with a line and a byte must be followed by a sentence
    about that place. A wanted word of status 3 comes alone."""
    word = WORD.fullmatch(wanted)
    if word:
        place = b"dsctl: line %s, byte %s: " % (word[1], word[2])
        is_right = error.startswith(wanted) and re.fullmatch(place + rb".*\n", error[len(wanted) :])
        return None if is_right else f"standard error is {error[:200]!r}, wanted {wanted!r} and a sentence"
    wrong = difference(error, wanted)
    return wrong and f"standard error: {wrong}"


def unexplained(output, error, has_notes=False):
    """Returns what is wrong with standard error, or None. It must have one line for each bad line of the output, or for an illegal trace,
    or lines for bad settings. In a script with notes, a line has its number in the file, which the output doesn't have.
    """
    if BAD_SETTINGS.fullmatch(output):
        are_right = error.endswith(b"\n") and all(it.startswith(TOLD) for it in error.splitlines())
        return None if are_right else f"standard error is {error[:200]!r}, wanted lines that begin with {TOLD!r}"
    trace = BAD_TRACE.fullmatch(output)
    found = [(rb"\d+" if has_notes else line, place) for line, place in BAD_LINE.findall(output)]
    wanted = [WRONG_LINE % trace[1]] if trace else [b"dsctl: line %s, byte %s: " % it for it in found]
    lines = error.splitlines()
    if len(lines) == len(wanted) and all(map(re.match, wanted, lines)):
        return None
    return f"standard error is {error[:200]!r}, wanted a line for each of {wanted[:3]}"


def ends_with(ran, word, has_notes=False):
    """Returns whether a run ended with status 3 and the word, after the sentences about bad lines."""
    found = re.fullmatch(rb"(.*)" + re.escape(word), ran.error, re.DOTALL)
    if ran.status != 3 or not found:
        return False
    is_before_any = BAD_SETTINGS.fullmatch(ran.output) and not found[1]  # memory ran out before the settings were explained
    return bool(is_before_any) or not unexplained(ran.output, found[1], has_notes)


def session_fault(program, session):
    """Returns what is wrong with the answers to a session, or None."""
    ran = run([program], session.typed)
    wrong = difference(ran.output, session.answered)
    if wrong or ran.status or ran.error:
        return wrong or f"status {ran.status}; standard error: {ran.error[-200:]!r}"
    return None


_work = None  # the function and the items of `at_once`, which its processes inherit when forked


def _done(at):
    function, items = _work
    return function(items[at])


def at_once(function, items, processes=None):
    """Calls the function on each item, and returns the results in order. Uses `processes` processes, or one per processor."""
    global _work
    items = list(items)
    _work = function, items
    with ProcessPoolExecutor(processes or os.cpu_count(), multiprocessing.get_context("fork")) as pool:
        try:
            return list(pool.map(_done, range(len(items)), chunksize=1 + len(items) // 256))
        except Exception:
            pool.shutdown(cancel_futures=True)
            raise


def report(faults):
    """Prints each fault with its name, then the counts, and returns the exit status. `faults` has pairs (name, fault or None)."""
    bad = [(name, it) for name, it in faults if it]
    for name, it in bad:
        print(f"FAILED {name}: {it}")
    print(f"{len(faults) - len(bad)} passed, {len(bad)} failed", flush=True)
    return 1 if bad else 0


def program_given(section=None):
    """Returns the absolute path of the program that the command line names, with a section if one is named."""
    if len(sys.argv) != 2:
        sys.exit(f"usage: {sys.argv[0]} PROGRAM")
    program = program_at(sys.argv[1])
    return section_of(program, section) if section else program


def program_at(path):
    """Returns the absolute path of a program, which must be executable."""
    if not os.access(path, os.X_OK):
        sys.exit(f"{sys.argv[0]}: {path} isn't a program")
    return os.path.abspath(path)
