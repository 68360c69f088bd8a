"""Drops the answers that an edit broke, so that the prover searches for these goals by itself."""
import re

BROKEN = re.compile(r"(?:\./)?(proofs/\S+/Answers\.antt):(\d+):\d+: error: (.*)")
CONTINUED = (" ", "}", ")", "]")  # how a line begins that belongs to the definition above
WORD = re.compile(r"[^\s(){}\[\],;]+")


def blocks(text):
    """Returns the parts of a file of answers: each with its name, empty for what isn't a definition, and its first and last line."""
    found = []
    for at, line in enumerate(text.split("\n"), 1):
        if line.startswith(CONTINUED) and found:
            found[-1][2] = at
            continue
        words = [it for it in line.split(" ") if it not in ("pub", "abbrev")]
        name = "" if not line or line.startswith(("use ", "--")) else words[0]
        if name and found and found[-1][0] == name:
            found[-1][2] = at
        else:
            found.append([name, at, at])
    return found


def without(text, errors):
    """Returns the text without the definitions that have an error or use such a one, and their names. `errors` are line numbers with
    messages.
    """
    lines, gone, unknown = text.split("\n"), set(), set()
    parts = blocks(text)
    for name, first, last in parts:
        said = [message for at, message in errors if first <= at <= last]
        if said and name:
            gone.add(name)
        elif said:
            unknown |= {it for message in said for it in re.findall(r"`([^` ]+)`", message)}
    uses = {name: set(WORD.findall(" ".join(lines[first - 1 : last]))) for name, first, last in parts if name}
    while more := {name for name, words in uses.items() if name not in gone and words & (gone | unknown) - {name}}:
        gone |= more
    kept = []
    for name, first, last in parts:
        if name not in gone:
            kept += lines[first - 1 : last] if name else [imports(line, unknown) for line in lines[first - 1 : last]]
    return "\n".join(kept), gone


def imports(line, unknown):
    """Returns a line of imports without the names that can't be imported."""
    head, brace, names = line.partition("{")
    if not brace:
        return line
    named = [it.strip() for it in names.rstrip().rstrip("}").split(",")]
    return f"{head}{{{', '.join(it for it in named if it not in unknown)}}}"


def broken(lines, folder="proofs/"):
    """Returns the names of the answers below a folder that a check's lines report as broken."""
    found = [BROKEN.match(line) for line in lines]
    return {name for it in found if it and it[1].startswith(folder) for name in re.findall(r"^`([^`]+)`: ", it[3])}


def dropped(lines, read):
    """Returns what a check's lines leave of the files of answers, by path, and the answers that go, each with its path. `read` reads a
    file.
    """
    errors = {}
    for line in lines:
        it = BROKEN.match(line.removeprefix("note: "))
        if it:
            errors.setdefault(it[1], []).append((int(it[2]), it[3]))
    texts, names = {}, set()
    for path, found in errors.items():
        texts[path], gone = without(read(path), found)
        names |= {(path, name) for name in gone}
    return texts, names
