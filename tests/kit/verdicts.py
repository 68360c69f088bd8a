"""Judges what a check of a crate reports about the wrong bodies in it."""
import re

import answers

# What a check shows of a wrong body. REFUTED: the prover finds a goal false, or searched for it to the end, though no answer to it broke.
# UNDECIDED: an answer broke, or a search gave up, which shows nothing by itself. ACCEPTED: the wrong body is proved. BAD: it isn't an edit.
# NAMED: a proof names what the edit removed.
REFUTED, UNDECIDED, ACCEPTED, NAMED, BAD = "refuted", "not proved", "accepted", "for a name alone", "bad"
# A goal that isn't proved, with its name; and what rattle adds if it found values at which the goal is false, or if its search gave up.
UNPROVED = re.compile(r"it is not proved that .*?\(`([^`]+)`\)")
FALSE = "values at which this goal is false"
GAVE_UP = "gave up at one of its limits"
# A message of rattle's that has a place: '[note: ]FILE:LINE:COLUMN: ..'.
PLACED = re.compile(r"(?:note: )?(?:\./)?([\w./+-]+\.(?:rt|antt)):(\d+):\d+: (.*)")
# A proof that fails because it names what the edit removed shows nothing about the contract.
NAMES_ALONE = re.compile(r"has no field|` \(nearest: |is not in scope|has no `|was not admitted")
# An answer to a goal that the edit renamed. The goal's new name has no answer, so its failure shows nothing either.
RENAMED = re.compile(r"module `[^`]*\.Goals` has no `")
# A text that can't be read. An edit that only makes a statement false leaves it readable.
UNREAD = re.compile(r"is not in scope|has no field|is no name|operand is missing|expected the end|cannot continue")


def whole(output):
    """Returns the lines of an output. The first indented line after one that has a place is joined to it."""
    lines, may_continue = [], False
    for line in output.splitlines():
        if may_continue and line.startswith(" "):
            lines[-1] += " " + line.strip()
            may_continue = False
        else:
            lines.append(line)
            may_continue = PLACED.match(line) is not None
    return lines


def refuting(lines, broken):
    """Returns the first line that reports a goal as unproved for what the edit does, or None: a goal that the prover finds false, or one
    that it searched to the end without an answer that the edit broke.
    """
    goals = [(line, UNPROVED.search(line)) for line in lines]
    false = [line for line, goal in goals if goal and FALSE in line]
    ended = [line for line, goal in goals if goal and goal[1] not in broken and GAVE_UP not in line]
    return next(iter(false + ended), None)


def judge(status, output, texts, dropped=frozenset()):
    """Judges a check of an edited crate. `dropped` are the answers that were taken out of it. Returns the verdict, and a line that reports
    why.
    """
    lines = whole(output)
    if status == 0:
        without = f" and without {len(dropped)} answers that it broke" if dropped else ""
        return ACCEPTED, f"ACCEPTED: the crate is still proved with this edit{without}"
    if status != 1 or not any(line.startswith("logic=not-proved") for line in lines):
        return BAD, f"BAD EDIT: it did not reach the prover: {next((it for it in lines if 'error' in it), '')[:160]}"
    placed = [(line, PLACED.match(line)) for line in lines]
    placed = [(line, it[1], it[3]) for line, it in placed if it and (line.startswith("note: ") or ": error" in line)]
    for line, file, said in placed:
        is_own = file in texts or file.startswith(("src/", "specs/"))
        if is_own and said.startswith("error: ") and (not re.match(r"error: `[^`]*`: ", said) or UNREAD.search(said)):
            return BAD, f"BAD EDIT: the prover can't read the edited text: {line[:160]}"
    is_renamed = any(RENAMED.search(said) for _, _, said in placed)
    content = [it for it in placed if not (it[1].startswith("proofs/") and NAMES_ALONE.search(it[2]))]
    content = [line for line, file, _ in content if not (is_renamed and file.startswith("src/"))]
    refuted = refuting([line for line in content if line.startswith("note: ")], answers.broken(lines) | {name for _, name in dropped})
    if refuted:
        return REFUTED, f"refuted: {refuted.removeprefix('note: ')[:300]}"
    if placed and not content:
        return NAMED, f"REFUSED FOR A NAME ALONE: {placed[0][0][:160]}"
    unproved = [line for line in lines if re.match(r"(fn|impl|struct|enum) .*: no proof", line)]
    return UNDECIDED, f"not proved: {(content + unproved + ['without a place'])[0].removeprefix('note: ')[:300]}"


def told(function, name, output, dropped=frozenset()):
    """Returns a check's verdict on one function, and a line that reports why; or None if the check doesn't decide."""
    lines = whole(output)
    heads = [re.match(rf"fn ({name}::\S+): (.*)", line) for line in lines]
    heads = [it for it in heads if it and re.sub(r"\+\w+", "", f"::{it[1]}").endswith(function.name)]
    if len(heads) != 1 or not re.match("not proved|no proof: expected answers", heads[0][2]):
        return None
    folder = f"proofs/{heads[0][1].removeprefix(name + '::').replace('::', '/')}/"
    is_renamed = any(it and it[1].startswith(folder) and RENAMED.search(it[3]) for it in map(PLACED.match, lines))
    content = []
    for line in lines:
        placed = PLACED.match(line)
        if not placed or not (line.startswith("note: src/") or ": error" in line):
            continue
        is_own = placed[1] == function.path and function.first <= int(placed[2]) <= function.last and not is_renamed
        if is_own or (placed[1].startswith(folder) and not NAMES_ALONE.search(placed[3])):
            content.append(line)
    broken = answers.broken(lines, folder) | {name for path, name in dropped if path.startswith(folder)}
    refuted = refuting([line for line in content if line.startswith("note: ")], broken)
    if refuted:
        return REFUTED, f"refuted: {refuted.removeprefix('note: ')[:300]}"
    return (UNDECIDED, f"not proved: {content[0].removeprefix('note: ')[:300]}") if content else None


def is_read(status, output):
    """Returns whether a check reached the proofs and could read every text."""
    lines = output.splitlines()
    unread = [it for it in map(PLACED.match, lines) if it and it[1].startswith(("src/", "specs/")) and it[3].startswith("error: ")]
    return status == 1 and any(line.startswith("logic=not-proved") for line in lines) and not unread
