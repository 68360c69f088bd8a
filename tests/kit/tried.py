"""The table of the wrong bodies that were tried, tests/verdicts.tsv: the last verdict on each, and a sum of what it was tried on."""
import dataclasses
import hashlib
import pathlib
import re
import threading

import verdicts
from edits import PARTS

ROOT = pathlib.Path(__file__).resolve().parent.parent.parent
TABLE = ROOT / "tests" / "verdicts.tsv"
COLUMNS = ("edit", "verdict", "sum", "date")
FOLDERS = ("must-fail", "wrong-bodies")
ROW = re.compile(r"tried (\S+)\t([a-z ]+)\t([0-9a-f]{16})\t(\d{4}-\d\d-\d\d)")  # as a run prints it
# Estimated minutes of a processor: of a crate's proof for each byte of its files, and for each edit, several of which share a check.
MINUTES_A_BYTE, MINUTES_AN_EDIT = 1e-5, 0.25
WRITING = threading.Lock()


class Twice(Exception):
    """An edit that is in both folders of its crate."""


@dataclasses.dataclass(frozen=True)
class Row:
    """A verdict on an edit, named CRATE/EDIT; the sum of what it was tried on; the date on which it was tried."""

    edit: str
    verdict: str
    sum: str
    date: str

    def __str__(self):
        return "\t".join(dataclasses.astuple(self))


def edits_of(name, word=""):
    """Returns the paths of a crate's edits whose names contain a word, in order."""
    folders = [ROOT / "crates" / name / folder for folder in FOLDERS]
    found = sorted(path for folder in folders for path in folder.glob("*.edit"))
    twice = {path.name for path in found if sum(it.name == path.name for it in found) > 1}
    if twice:
        raise Twice(f"{name}: {sorted(twice)[0]} is in both folders")
    return [path for path in found if word in path.stem]


def texts_of(name):
    """Returns the files that a crate's proof reads of its own, in order."""
    folders = [ROOT / "crates" / name / part for part in PARTS]
    return sorted(path for folder in folders for path in folder.glob("**/*") if path.is_file())


def sums(name, edits):
    """Returns for each edit of a crate the sum of what it is tried on: the edit, and the crate's src, specs and proofs."""
    whole = hashlib.sha256()
    for path in texts_of(name):
        whole.update(f"{path.relative_to(ROOT)}\n".encode() + path.read_bytes())
    return {edit: hashlib.sha256(whole.digest() + edit.read_bytes()).hexdigest()[:16] for edit in edits}


def title(edit):
    """Returns the name of an edit: CRATE/EDIT."""
    return f"{edit.parent.parent.name}/{edit.stem}"


def read():
    """Returns the rows of the table by edit."""
    lines = TABLE.read_text().splitlines()[1:] if TABLE.is_file() else []
    return {row.edit: row for row in (Row(*line.split("\t")) for line in lines)}


def write(rows):
    """Adds rows to the table, and drops those whose edit is gone."""
    there = {title(path) for folder in FOLDERS for path in ROOT.glob(f"crates/*/{folder}/*.edit")}
    with WRITING:
        known = {edit: row for edit, row in (read() | {row.edit: row for row in rows}).items() if edit in there}
        TABLE.write_text("".join(f"{line}\n" for line in ("\t".join(COLUMNS), *(known[edit] for edit in sorted(known)))))


def printed(text):
    """Returns the rows that a run has printed."""
    return [Row(*it.groups()) for it in map(ROW.fullmatch, text.splitlines()) if it]


def last_tried(edit, sum, rows):
    """Returns the date of an edit's verdict; nothing if it has none, or one on other texts."""
    row = rows.get(title(edit))
    return row.date if row and row.sum == sum else ""


def minutes(name, count):
    """Returns about how many processor minutes it takes to prove a crate and to try some of its edits. No figure of the machine is in it.
    """
    return MINUTES_A_BYTE * sum(path.stat().st_size for path in texts_of(name)) + MINUTES_AN_EDIT * count


def by_age(name, rows):
    """Returns a crate's edits, those first that weren't tried for the longest time, each with the date of its verdict."""
    edits = edits_of(name)
    dates = {edit: last_tried(edit, sum, rows) for edit, sum in sums(name, edits).items()}
    return sorted(dates.items(), key=lambda it: (it[1], it[0].stem))


def stalest(names, most):
    """Returns by crate the edits that weren't tried for the longest time, as many as `most` minutes are enough for, and at least one. Of
    crates whose oldest edits have the same date, the one with the shortest proof comes first: a crate is proved before its edits are tried.
    """
    rows, chosen, left = read(), {}, most
    aged = {name: edits for name in names if (edits := by_age(name, rows))}
    oldest = {name: (edits[0][1], minutes(name, 0), name) for name, edits in aged.items()}
    for name in sorted(aged, key=oldest.get):
        count = int((left - minutes(name, 0)) / MINUTES_AN_EDIT)
        if chosen and count < 1:
            break
        chosen[name] = [edit for edit, _ in aged[name][: max(1, count)]]
        left -= minutes(name, len(chosen[name]))
    return chosen


def tally():
    """Returns how many edits have each verdict, how many have one on other texts, and how many have none."""
    rows, counts = read(), dict.fromkeys((verdicts.REFUTED, verdicts.UNDECIDED, verdicts.ACCEPTED, "stale", "not tried"), 0)
    for folder in sorted(ROOT.glob("crates/*")):
        for edit, sum in sums(folder.name, edits_of(folder.name)).items():
            row = rows.get(title(edit))
            counts["not tried" if row is None else "stale" if row.sum != sum else row.verdict] += 1
    return counts
