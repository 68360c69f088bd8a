"""The run of a script: each line with its answer, and what every holder holds after it.

The program runs once, on more than the script: each line is followed by lines that show what both stores and all maps hold. These make
no message and change nothing, so only the program's answers are needed.
"""
import re
import subprocess
from dataclasses import dataclass
from typing import Dict, List

SHOWN = re.compile(r"shown \d+")
OWED = re.compile(r"owed [0-9a-f]{32}")
REFUSED = re.compile(r"refused \w+")
BAD_LINE = re.compile(r"badline \d+ (\d+)")
STORES = ("a", "b")


@dataclass
class Row:
    """A line of a script, its answer, and what is held after it."""

    number: int
    line: str
    answer: List[str]
    held: Dict[str, List[str]]  # by holder, `a`, `b`, `m0`, ..: the lines of its items
    side: str  # the store that lines are for

    @property
    def words(self):
        return self.line.split(" ")

    @property
    def last(self):
        """Returns the line of the answer that says what the result was."""
        return [it for it in self.answer if not OWED.fullmatch(it)][-1]

    @property
    def is_refused(self):
        return self.last.startswith(("refused ", "badline "))


class Unanswered(Exception):
    """Why there is nothing to draw."""


def lines_of(script):
    """Returns the lines of a script with their numbers: of one of format 2, without comments and empty lines."""
    lines = list(enumerate(script.splitlines(), 1))
    if lines[:1] != [(1, "script 2")]:
        return lines
    return [(number, line) for number, line in lines[1:] if line and not line.startswith("#")]


def run(program, script):
    """Returns the rows of a script; an unreadable line is the last one."""
    lines, asked, maps, side = lines_of(script), [], [], "a"
    for number, (_, line) in enumerate(lines):
        words = line.split(" ")
        side = words[1] if words[0] == "side" and words[1:] in (["a"], ["b"]) else side
        maps.append((maps[-1] if maps else 0) + (words[0] == "map"))
        asked += [line, "side a", "all", "side b", "all", *(f"entries {it}" for it in range(maps[number])), f"side {side}"]
    ran = subprocess.run(program, input="".join(it + "\n" for it in asked), capture_output=True, text=True)
    if ran.returncode not in (0, 1):
        raise Unanswered(f"{program[0]} ended with status {ran.returncode}: {ran.stderr.strip()}")
    return list(rows_of(lines, maps, iter(ran.stdout.splitlines())))


def rows_of(lines, maps, said):
    """Returns the rows, from the program's output."""
    side, held = "a", {"a": [], "b": []}
    for place, (number, line) in enumerate(lines):
        answer = [next(said)]
        bad = BAD_LINE.fullmatch(answer[0])
        if bad:
            yield Row(number, line, [f"badline {place + 1} {bad[1]}"], held, side)  # which counts only commands
            return
        answer += iter(lambda: next(said), "side a")
        side = line.split(" ")[1] if answer[0] in ("side a", "side b") else side
        held = {"a": items(said), "b": next(said) and items(said)}
        for at in range(maps[place]):
            found = items(said)
            if found is not None:
                held[f"m{at}"] = found
        next(said)
        yield Row(number, line, answer, held, side)


def items(said):
    """Returns the items that a holder shows, or None if that is refused."""
    found = []
    for line in said:
        if SHOWN.fullmatch(line):
            return found
        if REFUSED.fullmatch(line):
            return None
        found.append(line)
    raise Unanswered("the program's answers ended early")
