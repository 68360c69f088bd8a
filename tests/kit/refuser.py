"""Runs a program under tests/kit/refuse.c, which refuses it one growth of memory, one read or one write."""
import os
import pathlib
import re
import struct
import subprocess
import tempfile

import askers
import harness

CALLS = ("growth", "read", "write")
ROW = struct.Struct("8Q")  # what tests/kit/refuse.c tells of a copy
# Names of functions that take memory, read or write. A program that calls one which tests/kit/refuse.c lacks bypasses it.
MOVES = re.compile(
    "alloc|memalign|mmap|mremap|brk$|strn?dup|getline|getdelim|read|recv|scanf|getc|gets|write|send|printf|put[sc]|splice|syscall"
)
# A waiting thread sleeps, and is woken, by `syscall`.
HARMLESS = re.compile(r"^pthread_|^v?sn?printf$|^readlink$|^syscall$")
# Functions that may be refused a growth while no answer changes: `clap`, which looks for a similar word; `regex`, which reads a
# pattern, also if its reader is compiled into `tree_of`, which takes no memory itself; `toml`, which reads a number; a world that
# packs a message, which is then unchanged; and a holder's table of guesses, which keeps its size.
DOES_WITHOUT = re.compile(
    r"^((strsim|regex_(class|syntax)|toml(_[a-z]+)?|ds_packed)::|ds_pattern::pattern::tree_of$|ds_world::replies::keep$|ds_held::guesses::)"
)
EXPLAINS = "ds_explain"  # its sentences on standard error may be less exact
# Memory may run out while a Since's pattern is matched. The cursor is still judged, since its refusals come before NoRoom.
SEARCH = "regex_vm::pikevm::PikeVm::new"
CURSOR_REFUSED = re.compile(rb"^refused (oldcursor|ahead|behind)$|: refused: the journal doesn't reach back to the cursor$", re.MULTILINE)


class Refuser:
    """Runs a program with one call refused, and returns how many calls of each kind it made."""

    def __init__(self, program, room):
        self.program = program
        self.askers = askers.Askers(program)
        self.room = room
        self.stack = b""  # at the growth that was refused last
        self.library = os.path.join(room, "refuse.so")
        words = [os.environ.get("CC", "cc"), "-O2", "-shared", "-fPIC", "-o", self.library, str(harness.TESTS / "kit" / "refuse.c"), "-ldl"]
        subprocess.run(words, check=True)

    def run(self, case, **refused):
        """Runs a case with `growth=n`, `read=n` or `write=n` refused, or with `short=k` or `again=k`."""
        stack = pathlib.Path(self.room, f"stack-{os.getpid()}")
        stack.write_bytes(b"")
        environment = self.environment(REFUSE_STACK=stack, **{f"REFUSE_{name.upper()}": number for name, number in refused.items()})
        ran = harness.run_case(self.program, case, environment)
        counts = struct.unpack("5Q", pathlib.Path(environment["REFUSE_TALLY"]).read_bytes())
        self.stack = stack.read_bytes()
        return ran, dict(zip((*CALLS, "bytes", "early"), counts))

    def environment(self, **words):
        """Returns the environment of a run, with these words more, and makes the file that gets its tally."""
        tally = pathlib.Path(self.room, f"tally-{os.getpid()}")
        tally.write_bytes(bytes(40))
        named = {name: str(word) for name, word in words.items()}
        return {**os.environ, "LD_PRELOAD": self.library, "REFUSE_TALLY": str(tally), **named}

    def copies(self, case, first, last):
        """Runs a case once, and refuses each growth from `first` to `last` to a copy of the process. Yields each copy's run, and how many
        bytes it read, in order, up to the first growth that wasn't made.
        """
        with tempfile.TemporaryDirectory(dir=self.room) as folder:
            told, *outputs = [pathlib.Path(folder, it) for it in ("told", "out", "error")]
            told.touch()
            environment = self.environment(REFUSE_EACH=told, REFUSE_FROM=first, REFUSE_TO=last)
            with case.input.open("rb") as given, outputs[0].open("wb") as out, outputs[1].open("wb") as error:
                words = [self.program, *case.args]
                subprocess.run(words, stdin=given, stdout=out, stderr=error, env=environment, timeout=10 * harness.SECONDS)
            written = [it.read_bytes() for it in outputs]
            with told.open("rb") as rows:
                while head := rows.read(ROW.size):
                    _number, status, read, *counts, stack = ROW.unpack(head)
                    output, error = [it[:before] + rows.read(count) for it, before, count in zip(written, counts[:2], counts[2:])]
                    self.stack = rows.read(stack)
                    yield harness.Ran(output, os.waitstatus_to_exitcode(status), error), read

    def counted(self, case):
        """Runs a case with ample memory. Returns what is wrong, or None, and the number of growths."""
        ran, counts = self.run(case)
        wrong = harness.fault(case, ran)
        if not wrong and not counts["growth"]:
            wrong = "no growth of memory was counted"
        return wrong, counts["growth"]

    def each_growth(self, case, fault):
        """Refuses each growth of a case, one per run, and judges each run. Returns what is wrong with the first bad one, or None."""
        wrong, count = self.counted(case)
        if wrong:
            return wrong
        for n in range(1, count + 1):
            wrong = fault(self.run(case, growth=n)[0])
            if wrong:
                return f"growth {n}: {wrong}"
        return None

    def unseen_fault(self, output=b""):
        """Returns what is wrong if the last refused growth changed nothing in the output, or None if its asker can do without it."""
        asker = self.askers.asker(self.stack)
        is_explained = self.askers.is_within(self.stack, EXPLAINS)
        does_without = DOES_WITHOUT.search(asker) or asker == SEARCH and CURSOR_REFUSED.search(output) or is_explained
        return None if does_without else f"no answer reports it, and {asker} asked for it"

    def names_passed_by(self):
        """Returns the names that the program imports to take memory, read or write, and that the library lacks."""

        def names(file, which):
            listed = subprocess.run(["nm", "-D", which, file], stdout=subprocess.PIPE, text=True, check=True).stdout
            return {line.split()[-1].partition("@")[0] for line in listed.splitlines()}

        asked = names(self.program, "--undefined-only") - names(self.library, "--defined-only")
        return sorted(it for it in asked if MOVES.search(it) and not HARMLESS.search(it))
