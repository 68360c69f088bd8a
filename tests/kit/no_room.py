"""Finds where the crates' sources report that memory ran out, for tests/house.

No contract can say whether memory ran out: a body may report it instead of any work (docs/proof/tested.md). So each place that makes the
report is one of these, or a row of no_room.tsv, which says why: an arm of an error, or of another such report; an `impl From`; what follows
a refused growth. The sizes of growths are rows of the table, too, since a growth of too much is always refused. The test reads the text
alone: it sees neither a `None` nor a report that a function outside this repository makes up.
"""
import collections
import pathlib
import re

ROOT = pathlib.Path(__file__).resolve().parent.parent.parent
TABLE = "tests/kit/no_room.tsv"
WORDS = 6  # of the text before a place
REPORT = re.compile(r"\b(?:\w+::)*(?:NoRoom|NO_ROOM|AllocError|AllocFailed)\b|(?<!fn )\bno_(?:room|text)\(\)|\.refuse\(answer\)")
GROWTH = re.compile(r"(?<!fn )\b(?:reserve|reserve_exact|with_capacity)\(([^()]*(?:\([^()]*\)[^()]*)*)\)")
COMMENT = re.compile(r"//[^\n]*|^(?:ghost |pub )*use [^;]*;|\"(?:[^\"\\\n]|\\.)*\"", re.MULTILINE)
TYPE = re.compile(r"->[^{;\n]*|\b(?:Result|AllocFailed)<[^;{}=]*>|(?<=AllocFailed) \{[^{}]*\}")
CLAUSE = re.compile(r"^\s+(?:ensures|requires|ghost|model)\b[^{\n]*(?=\{)|^#\[[^\n]*", re.MULTILINE)
ERROR = re.compile(r"\b(?:Err\(|NoRoom\b|NO_ROOM\b|AllocError\b|AllocFailed\b|OutOfMemory\b)(?!.* if )")  # not under a condition
REFUSED = re.compile(r"\.is_err\(\)$|\blet Ok\(.*\belse$|\blet Err\(|\.is_memory\(\)$|\bOutOfMemory\)?$", re.DOTALL)
DECLARED = re.compile(r"^(?:pub(?:\(\w+\))? )?(?:enum|struct|const)\b")


def blanked(text, begin, end):
    return text[:begin] + re.sub(r"[^\n]", " ", text[begin:end]) + text[end:]


def code(text):
    """Returns the text without comments, imports, strings, clauses and types of results; each line keeps its place."""
    text = COMMENT.sub(lambda it: re.sub(r"[^\n]", " ", it[0]), text)
    for it in reversed(list(CLAUSE.finditer(text))):
        text = blanked(text, it.start(), it.end() if it[0].startswith("#") else closing(text, it.end()) + 1)
    return TYPE.sub(lambda it: re.sub(r"[^\n]", " ", it[0]), text)


def closing(text, at):
    """Returns the place of the brace that closes the one at `at`."""
    depth = 0
    for it in re.compile("[{}]").finditer(text, at):
        depth += 1 if it[0] == "{" else -1
        if depth == 0:
            return it.start()
    return len(text)


def context(text, at):
    """Returns what encloses a place: the text before each open brace, the innermost last, and then what precedes the place itself."""
    frames, begin, inner = [], 0, 0
    for it in re.compile(r"[][(){},;]").finditer(text, 0, at):
        if it[0] == "{":
            frames.append((text[begin:it.start()], inner))
            begin, inner = it.end(), 0
        elif it[0] == "}":
            inner = frames.pop()[1] if frames else 0
            begin = it.end()
        elif it[0] in "([":
            inner += 1
        elif it[0] in ")]":
            inner -= 1
        elif it[0] == ";" or inner == 0:
            begin = it.end()
    return [" ".join(header.split()) for header, _ in frames], " ".join(text[begin:at].split())


def is_value(before, after, headers):
    """Whether the word is an expression: no type, no declaration and no pattern."""
    if "=>" not in before and re.match(r"[^;{}]*?=>", after):
        return False
    if re.search(r"\b(?:if|while)? ?let [^=]*$|matches!\([^)]*$|\bfn \w+[^{]*$|\blet \w+: $|\b(?:for|impl)\b[^{]*$", before):
        return False
    return not (DECLARED.match(before) or DECLARED.match(headers[-1] if headers else ""))


def is_from_a_fault(headers, before):
    """Whether the place is reached only after an error or a refused growth."""
    if "=>" in before:
        return bool(ERROR.search(before.rpartition("=>")[0]))
    header = headers[-1] if headers else ""
    if re.match(r"\w+:( |$)", before) and len(headers) > 1:  # a member of a struct
        return is_from_a_fault(headers[:-1], header)
    if header.endswith("=>"):
        return bool(ERROR.search(header.removesuffix("=>")))
    return bool(REFUSED.search(header) or re.search(r"\bfn from\(", header))


def row(file, headers, before, word):
    """Returns what the table says of a place: the file and the last words before it."""
    said = f"{headers[-1] if headers else ''} {{ {before}{word}"
    return f"{file}\t{' '.join(said.split()[-WORDS:])}"


def reports(file, text):
    """Yields a row for each place that reports it without an error, and for each growth."""
    text = code(text)
    for it in REPORT.finditer(text):
        headers, before = context(text, it.start())
        if is_value(f"{before} ", text[it.end():], headers) and not is_from_a_fault(headers, before):
            yield row(file, headers, f"{before} ", it[0])
    for it in GROWTH.finditer(text):
        yield f"{file}\t{it[0]}"


def found():
    rows = collections.Counter()
    for file in sorted((ROOT / "crates").glob("*/src/**/*.rt")):
        if not file.relative_to(ROOT).parts[1].startswith(("test_", "dstest")):
            rows.update(reports(file.relative_to(ROOT / "crates"), file.read_text()))
    return rows


def differences():
    """Yields each place, with what is wrong: the table lacks it, or has a place that isn't there."""
    listed = collections.Counter(it.rpartition("\t")[0] for it in (ROOT / TABLE).read_text().splitlines()[1:])
    places = found()
    for it in sorted(places | listed):
        name = " ".join(it.split("\t"))
        if places[it] > listed[it]:
            yield name, f"it reports that memory ran out, or asks for memory, and {TABLE} doesn't say why"
        else:
            yield name, f"it isn't there, and {TABLE} lists it" if places[it] < listed[it] else None
