"""Reads the edits of must-fail/ and wrong-bodies/ of a crate: what each changes, and which ones a single check can try."""
import re
from dataclasses import dataclass

PARTS = ("src", "specs", "proofs")
FUNCTION = re.compile(r'( *)(?:pub(?:\([^)]*\))? )?(?:const )?(?:unsafe )?(?:extern "C" )?fn (\w+)')
IMPL = re.compile(r"impl (?:(?:\w+::)*(\w+) for )?(?:\w+::)*(\w+)")  # after angle brackets and their contents are removed
MOST = 12  # edits tried by one check


class BadEdit(Exception):
    """Why an edit can't be tried."""


def pairs(edit, crate):
    """Returns the edit's 'old:' and 'new:' texts, each with the path of its file in the crate. Each text is the rest of one line."""
    path, old, found = None, None, []
    for number, line in enumerate(edit.read_text().split("\n"), 1):
        word, _, rest = line.partition(":")
        rest = rest.removeprefix(" ")
        if word == "file":
            path, old = rest.strip(), None
            if path.split("/")[0] not in PARTS or not (crate / path).is_file():
                raise BadEdit(f"there is no file {path}")
        elif word == "old":
            if old is not None:
                raise BadEdit(f"line {number}: the 'old:' line before it has no 'new:' line")
            old = rest
        elif word == "new":
            if path is None or not old:
                raise BadEdit("a 'new:' line comes before any 'file:' or 'old:' line")
            found.append((path, old, rest))
            old = None
        elif line.strip():
            raise BadEdit(f"line {number} begins with neither 'file:', 'old:' nor 'new:': a text is the rest of one line")
    if old is not None:
        raise BadEdit("its last 'old:' line has no 'new:' line")
    if not found:
        raise BadEdit("it has no 'old:' and 'new:' pair")
    return found


def replaced(edit, crate, texts=None):
    """Returns the texts after the edit, by path. Each 'old:' text must occur exactly once when it is replaced."""
    texts = dict(texts or {})
    for path, old, new in pairs(edit, crate):
        text = texts.get(path) or (crate / path).read_text()
        if text.count(old) != 1:
            raise BadEdit(f"an 'old:' text occurs {text.count(old)} times in {path}, not once")
        texts[path] = text.replace(old, new)
    return texts


@dataclass(frozen=True)
class Function:
    """A function of a source file: its first line with attributes, the line that opens its body, its last line, and its name's end."""

    path: str
    first: int
    opening: int
    last: int
    name: str


def functions(path, text):
    """Returns the functions of a source file. A method's name includes its type and then its trait."""
    lines, owner, found = text.split("\n"), "", []
    module = "".join(f"{part}::" for part in path.removesuffix(".rt").split("/")[1:] if part not in ("lib", "main", "mod"))
    for at, line in enumerate(lines, 1):
        if line.startswith(("impl", "trait", "pub trait")):
            header, left = line.partition("{")[0], None
            while header != left:
                header, left = re.sub(r"<[^<>]*>", "", header), header
            of = IMPL.match(header)
            owner = f"{of[2]}{of[1] or ''}::" if of else "?::"
        elif line == "}":
            owner = ""
        head = FUNCTION.match(line)
        if head:
            opening = next((it for it, end in enumerate(lines[at - 1 :], at) if end.endswith("{")), at)
            last = next((it for it, end in enumerate(lines[at:], at + 1) if end == head[1] + "}"), at)
            first = next(it for it in range(at, 0, -1) if it == 1 or not lines[it - 2].strip().startswith("#["))
            found.append(Function(path, first, opening, last, f"::{owner or module}{head[2]}"))
    return found


def function_of(edit, crate):
    """Returns the one function whose body the edit changes; None if it changes anything else, such as a clause that callers use."""
    found = set()
    for path, old, _ in pairs(edit, crate):
        text = (crate / path).read_text()
        if not path.startswith("src/") or text.count(old) != 1:
            return None
        line = text[: text.index(old)].count("\n") + 1
        found.add(next((it for it in functions(path, text) if it.opening < line <= it.last), None))
    return found.pop() if len(found) == 1 else None


def groups(edits, crate):
    """Groups edits so that a group changes each function at most once. An edit of several functions has a group of its own."""
    alone, shared = [], []
    for edit in edits:
        try:
            function = function_of(edit, crate)
        except BadEdit:
            function = None
        if not function:
            alone.append([edit])
            continue
        free = next((it for it in shared if function not in it.values() and len(it) < MOST), None)
        if free is None:
            free = {}
            shared.append(free)
        free[edit] = function
    return [list(it) for it in shared] + alone
