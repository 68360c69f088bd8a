"""The program at a pseudo terminal, and the pictures of it that the documents show."""
import os
import pathlib
import pty
import re
import select
import subprocess
import time
from dataclasses import dataclass
from typing import List

import harness

PROMPT = b"> "
PICTURE = re.compile(r"(?<=\n\n)    \$ dsctl((?: [\w-]+)*)\n((?:    .*\n)*)", re.MULTILINE)  # within a document


@dataclass
class Picture:
    """A session at a terminal: what a user types and sees, as a document shows it."""

    name: str
    words: List[str]
    typed: List[bytes]
    seen: List[str]


def pictures():
    """Reads each picture of README.md and the documents: an indented block that begins with `$ dsctl`."""
    found = []
    for document in [harness.TESTS.parent / "README.md", *sorted(harness.DOCUMENTS.rglob("*.md"))]:
        for number, block in enumerate(PICTURE.finditer(document.read_text()), 1):
            lines = [it[4:] for it in block[2].splitlines()]
            typed = [it[2:].encode() + b"\n" for it in lines if it.startswith("> ")]
            found.append(Picture(f"{document.name}: picture {number}", block[1].split(), typed, lines))
    return found


def picture_fault(program, picture):
    """Returns what is wrong with a picture, or None."""
    seen = [line.rstrip() for line in session(program, picture.words, picture.typed).seen.decode().splitlines()]
    wanted = [line.rstrip() for line in picture.seen]
    at = next((at for at, pair in enumerate(zip(seen, wanted)) if pair[0] != pair[1]), min(len(seen), len(wanted)))
    return None if seen == wanted else f"line {at + 1} is {seen[at : at + 1]}, shown as {wanted[at : at + 1]}"


@dataclass
class Seen:
    """The output that the terminal showed, and the status."""

    seen: bytes
    status: int


def pieces(program, typed, words=(), settings=()):
    """Runs the program at a terminal with these settings of stty, and types the pieces in order, each once the one before was read, and
    then ^D."""
    ours, theirs = pty.openpty()
    if settings:
        subprocess.run(["stty", *settings], stdin=theirs, check=True)
    started = subprocess.Popen([program, *words], stdin=theirs, stdout=theirs, stderr=theirs)
    os.close(theirs)
    seen = b""
    for piece in [*typed, b"\x04"]:
        wait_for_reading(started.pid)
        os.write(ours, piece)
    try:
        while select.select([ours], [], [], harness.SECONDS)[0] and (read := shown(ours)):
            seen += read
        started.wait(timeout=harness.SECONDS)
    finally:
        started.kill()
        started.wait()
        os.close(ours)
    return Seen(seen.replace(b"\r\n", b"\n"), started.returncode)


def wait_for_reading(pid, late=harness.SECONDS):
    """Waits until a program has read what was typed, and sleeps, as it does only while it waits for more."""
    end = time.monotonic() + late
    time.sleep(0.2)  # in which the terminal hands over what was typed
    while time.monotonic() < end and pathlib.Path(f"/proc/{pid}/stat").read_text().rpartition(")")[2].split()[0] in "RD":
        time.sleep(0.01)


def session(program, words, typed, streams=("stdin", "stdout", "stderr"), prompt=PROMPT):
    """Runs the program with the streams at a terminal, and types each line once the program prompts for one, and then ^D."""
    ours, theirs = pty.openpty()
    others = {it: subprocess.PIPE for it in ("stdout", "stderr") if it not in streams}
    started = subprocess.Popen([program, *words], **{it: theirs for it in streams}, **others)
    os.close(theirs)
    seen, before, late, waiting = b"", 0, time.monotonic() + harness.SECONDS, [*typed, b"\x04"]
    try:
        while time.monotonic() < late:
            if waiting and seen[before:].replace(b"\r\n", b"\n").endswith(prompt):
                before = len(seen)
                os.write(ours, waiting.pop(0))
            elif select.select([ours], [], [], 0.1)[0]:
                read = shown(ours)
                if not read:
                    break
                seen += read
        started.wait(timeout=harness.SECONDS)
    finally:
        started.kill()
        started.wait()
        os.close(ours)
        for it in (started.stdout, started.stderr):
            if it:
                it.close()
    return Seen(seen.replace(b"\r\n", b"\n"), started.returncode)


def shown(terminal):
    """Returns what the terminal shows next, or nothing once no process holds its other side."""
    try:
        return os.read(terminal, 65536)
    except OSError:
        return b""
