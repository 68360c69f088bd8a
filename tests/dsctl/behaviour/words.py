"""The words of the command line, the help, and the manual and completions that are made from it."""
import re

import harness
import manual

from .running import expect
from .samples import GOOD

NAMES = ("replay", "settings", "verify", "upgrade", "record", "live")
# The answers to the six lines about two replicas, and then all that both sides hold.
SIX_ANSWERED = b"""\
taken
eth0 label rs 3.0 = 3/17
snapshot 1 1 1
merged 1 1 0
side b
eth0 label rs 3.0 = 3/17
snapshot 1 2 1
merged 1 0 0
eth0 label rs 3.0 = 3/17
shown 1
side a
eth0 label rs 3.0 = 3/17
shown 1
"""
# The answers to the five lines about a driver that dies.
FIVE_ANSWERED = b"""\
services 1 slots 64
start disk 1/16
offer disk label rs 1.0 = 1/16
taken
actions 2
offer disk label rs 1.1 -
taken
sweep disk 1
swept 0
actions 2
start disk 2/16
offer disk label rs 2.0 = 2/16
taken
actions 2
disk label rs 2.0 = 2/16
shown 1
"""


def the_manual_and_the_completions_are_current(program):
    """man/ and tools/completions/ have what the program's help makes."""
    stale = [str(path.relative_to(manual.ROOT)) for path, text in manual.made(program).items() if not path.exists() or path.read_text() != text]
    assert not stale, f"not what `tests/dsctl/manual {program}` writes: {', '.join(stale)}"


def the_manual_fits_a_terminal(program):
    """The manual page has the sections that readers look for, and no row that is shown unchanged is longer than a terminal's."""
    page = manual.made(program)[manual.ROOT / "tools" / "man" / "dsctl.1"]
    titles = re.findall(r"^\.SH (.*)$", page, re.MULTILINE)
    missing = {"NAME", "SYNOPSIS", "DESCRIPTION", "OPTIONS", "COMMANDS", "EXIT STATUS", "EXAMPLES", "SEE ALSO"} - set(titles)
    assert not missing and len(set(titles)) == len(titles), f"{missing} of {titles}"
    rows = [row for block in re.findall(r"^\.nf\n(.*?)^\.fi$", page, re.DOTALL | re.MULTILINE) for row in block.split("\n")]
    lengths = [len(re.sub(r"\\\(..|\\.", "x", row)) for row in rows]
    assert rows and max(lengths) <= 80, f"{rows[lengths.index(max(lengths))]!r}"


def tells_how_it_is_used(program):
    """`--help` names the subcommand, the lines and an answer, `--version` a version; both leave the input alone."""
    for word, wanted in (("--help", (b"dsctl", b"replay", b"offer", b"publish", b"subscribe", b"check", b"show", b"taken")), ("--version", (b"dsctl ", b"."))):
        ran = harness.run([program, word], b"bad\n")
        assert (ran.status, ran.error) == (0, b""), f"{word}: status {ran.status}, standard error {ran.error[:200]!r}"
        missing = [it for it in wanted if it not in ran.output]
        assert not missing, f"{word} doesn't name {missing}: {ran.output[:300]!r}"


def does_as_its_help_shows(program):
    """The six lines about two replicas do what `--help` says of them, and its example session is answered as it shows."""
    help_ = harness.run([program, "--help"], b"").output.decode()
    six = [re.split(" {2,}", row)[0] for row in rows_below("Two replicas, in six lines", help_)]
    assert len(six) == 6, f"the help shows {six}"
    expect(harness.run([program], script_of([*six, "all", "side a", "all"])), SIX_ANSWERED, 0)
    session = rows_below("Example session", help_)
    typed = [row[2:] for row in session if row.startswith("> ")]
    assert len(typed) == 4, f"the help shows {session}"
    expect(harness.run([program], script_of(typed)), script_of(row for row in session if not row.startswith("> ")), 0)
    five = [re.split(" {2,}", row)[0] for row in rows_below("A driver that dies and is restarted, in five lines", help_)]
    assert len(five) == 5, f"the help shows {five}"
    expect(harness.run([program], script_of(five)), FIVE_ANSWERED, 0)
    trace = rows_below("A legal trace of two entries", harness.run([program, "verify", "--help"], b"").output.decode())
    assert len(trace) == 5, f"the help shows {trace}"
    expect(harness.run([program, "verify"], script_of(trace)), b"legal 2\n", 0)
    help_ = harness.run([program, "upgrade", "--help"], b"").output.decode()
    older, newer = rows_below("A trace of format 1, with a sweep", help_), rows_below("The same in format 2", help_)
    assert (len(older), len(newer)) == (5, 6), f"the help shows {older} and {newer}"
    expect(harness.run([program, "upgrade"], script_of(older)), script_of(newer), 0, b"")
    help_ = harness.run([program, "record", "--help"], b"").output.decode()
    asked, recorded = rows_below("Two commands", help_), rows_below("The trace of their run", help_)
    assert (len(asked), len(recorded)) == (2, 5), f"the help shows {asked} and {recorded}"
    expect(harness.run([program, "record"], script_of(asked)), script_of(recorded), 0, b"")


def rows_below(title, text):
    """Returns the rows of a text below the one that begins with the title, without the two spaces before each."""
    found = re.search(rf"^{title}.*:\n((?:  .*\n)*)", text, re.MULTILINE)
    return [row[2:] for row in found[1].splitlines()] if found else []


def script_of(rows):
    """Returns rows as the bytes of a script, or of answers."""
    return "".join(row + "\n" for row in rows).encode()


def reminds_in_rows_of_eighty_columns(program):
    """`-h` and `replay --help` have each line of a script in one row, and no help has a longer row than a terminal."""
    forms = {line.split()[0].decode() for line in GOOD}
    for words in (["-h"], ["replay", "-h"], ["replay", "--help"]):
        ran = harness.run([program, *words], b"")
        rows = ran.output.decode().splitlines()
        assert (ran.status, ran.error) == (0, b""), f"{words}: status {ran.status}, standard error {ran.error[:200]!r}"
        assert forms <= {row.split()[0] for row in rows if row.startswith("  ")}, f"{words}: {ran.output!r}"
    for words in (["-h"], ["--help"], *([name, how] for name in NAMES for how in ("-h", "--help"))):
        rows = harness.run([program, *words], b"").output.decode().splitlines()
        assert max(map(len, rows)) <= 80, f"{words}: a row of {max(map(len, rows))} columns"


def explains_each_refusal(program):
    """`--help` has a row for each word that follows `refused`."""
    document = (harness.DOCUMENTS / "reference" / "refusals.md").read_text()
    words = re.findall(r"`(\w+)`", "".join(re.findall("^## .*$", document, re.MULTILINE)))
    help_ = harness.run([program, "--help"], b"").output.decode()
    missing = [word for word in words if not re.search(rf"^  {word} ", help_, re.MULTILINE)]
    assert len(words) == 41 and not missing, f"{len(words)} words; not explained: {missing}"


def says_what_is_wrong_with_its_words(program):
    """Standard error reports two files, a file for `live`, a line of a script, or an option of `replay` without that word, and only then."""
    tips = [(["a.ds", "b.ds"], b"dsctl: one file is read"), (["verify", "a.trace", "b.trace"], b"dsctl: one file is read")]
    tips += [(["live", "script.ds"], b"dsctl: live reads nothing")]
    tips += [([near, "a.trace"], b"dsctl: the nearest command is `verify`") for near in ("verfy", "Verify")]
    tips += [(["live", "--publishers", it], b"dsctl: a number in the option's range was expected") for it in ("x", "9", "")]
    tips += [(it.split(), b"dsctl: `%s` begins a line of a script" % it.split()[0].encode()) for it in ("show", "retrieve mtu u32", "publish 0/2 new")]
    tips += [([it], b"dsctl replay --ends") for it in ("--keep-going", "--stop", "--ends", "--load", "--save")]
    tips += [(["a.ds", "--save", "b.ds"], b"dsctl replay --ends")]
    for words, tip in tips:
        ran = harness.run([program, *words], b"")
        assert (ran.status, ran.output) == (2, b"") and tip in ran.error, f"{words}: {ran}"
    others = [["--hlep"], ["repaly"], ["replay", "--keep"], ["replay", "--stop", "--keep-going"], ["record", "--format", "3"]]
    for words in [*others, *([name, "--hlep"] for name in NAMES)]:
        ran = harness.run([program, *words], b"")
        assert (ran.status, ran.output) == (2, b"") and b"one file" not in ran.error, f"{words}: {ran}"


def shows_help_by_a_word(program):
    """`dsctl help` and `dsctl help WORD` print what --help prints; for an unknown word they report usage."""
    for words in ([], *([name] for name in NAMES)):
        asked, wanted = harness.run([program, "help", *words], b"bad\n"), harness.run([program, *words, "--help"], b"")
        assert (asked.status, asked.output, asked.error) == (0, wanted.output, b"") and wanted.output, f"{words}: {asked}"
    for words in (["script.ds"], ["replya"], ["replay", "more"]):
        ran = harness.run([program, "help", *words], b"")
        assert (ran.status, ran.output) == (2, b"") and ran.error, f"{words}: {ran}"


def explains_words_of_lines(program):
    """`dsctl help` explains the first word of a line, also of a whole line, and words within lines and answers."""
    line = harness.run([program, "help", "publish", "0/2", "new"], b"")
    assert line == harness.run([program, "help", "publish"], b"") and line.status == 0 and b"publish CALLER new" in line.output, f"{line}"
    for word in ("new", "over", "first", "later", "more", "last", "done", "fault"):
        ran = harness.run([program, "help", word], b"")
        assert (ran.status, ran.error) == (0, b"") and ran.output.startswith(f"  {word} ".encode()), f"{word}: {ran}"


def tells_its_version(program):
    """`--version` is the program's name and the version in the file VERSION, and nothing else."""
    version = (harness.TESTS.parent / "VERSION").read_text()
    for word in ("--version", "-V"):
        expect(harness.run([program, word], b"bad\n"), f"dsctl {version}".encode(), 0, b"")
