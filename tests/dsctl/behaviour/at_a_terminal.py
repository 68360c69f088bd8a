"""The program at a terminal: the greeting, the prompts, and the places of bad lines."""
import os
import re
import subprocess

import harness
import terminal

from .running import expect
from .samples import GOOD

NO_HEADER = b"dsctl: line 1: a header was expected, `%s`, and the trace is empty\n"
GREETING = b"dsctl: `help` shows the lines, ^D ends. Bad lines are skipped\n"


def greets_and_prompts(program):
    """A user who types the script is greeted, prompted before each line, and answered."""
    ran = terminal.session(program, [], [b"show\n", b"all\n"])
    assert (ran.seen, ran.status) == (GREETING + b"> show\nshown 0\n> all\nshown 0\n> \n", 0), f"{ran}"


def points_at_the_place(program):
    """At a terminal the sentence about an unreadable line shows that line with a caret; elsewhere it doesn't."""
    line = b'map "a" 16\n'
    sentence = b"dsctl: line 1, byte 8: KINDS was expected, 1 to 15 (label 1, u32 2, str 4, mem 8); `16` was found\n"
    ran = terminal.session(program, [], [line])
    wanted = b'> map "a" 16\nbadline 1 8\n  map "a" 16\n' + b" " * 10 + b"^\n" + sentence + b"> \n"
    assert ran.seen.endswith(wanted) and ran.status == 0, f"{ran}"
    expect(harness.run([program], line), b"badline 1 8\n", 1, sentence)


def goes_on_at_a_terminal(program):
    """At a terminal a line that can't be read is answered, and the program prompts for the next one; with --keep-going, too. Such lines don't
    count: the status is 0, where the user types `exit`, too."""
    sentence = b"dsctl: line 1, byte 0: `shwo` isn't a command, the nearest is `show`: see help\n"
    wanted = b"> shwo\nbadline 1 0\n  shwo\n  ^\n" + sentence + b"> show\nshown 0\n> \n"
    for words in ([], ["replay"], ["replay", "--keep-going"]):
        ran = terminal.session(program, words, [b"shwo\n", b"show\n"])
        assert (ran.seen, ran.status) == (GREETING + wanted, 0), f"{words}: {ran}"
    ran = terminal.session(program, [], [b"shwo\n", b"exit\n"])
    assert ran.seen.endswith(sentence + b"> exit\n") and ran.status == 0, f"{ran}"


def stops_where_it_is_asked_to(program):
    """With --stop a line that can't be read ends the script at a terminal; elsewhere it does so with and without --stop."""
    ran = terminal.session(program, ["replay", "--stop"], [b"show\n", b"shwo\n"])
    sentence = b"dsctl: line 2, byte 0: `shwo` isn't a command, the nearest is `show`: see help\n"
    wanted = b"> show\nshown 0\n> shwo\nbadline 2 0\n  shwo\n  ^\n" + sentence
    assert ran.seen.endswith(b"^D or a bad line ends\n" + wanted) and ran.status == 1, f"{ran}"
    expect(harness.run([program, "replay", "--stop"], b"show\nshwo\nshow\n"), b"shown 0\nbadline 2 0\n", 1)


def takes_words_of_its_own_at_the_prompt(program):
    """At the prompt an empty line and a comment do nothing, `help` and `?` show lines, and `quit` and `exit` end: none is a line of the script."""
    lines = harness.run([program, "-h"], b"").output.partition(b"Lines of a script")[2]
    for words, shown in (((b"help", b"?", b" help  ", b"HELP", b"help help"), b"The commonest lines:\n"), ((b"help all", b"? ALL"), lines)):
        for word in words:
            ran = terminal.session(program, [], [b"\n", b"  \n", b"# a comment\n", word + b"\n", b"shwo\n"])
            assert shown in ran.seen and b"badline 1 0" in ran.seen and ran.status == 0, f"{word}: {ran}"
    for word in (b"quit", b"exit", b"Quit", b"quit now"):
        ran = terminal.session(program, [], [b"show\n", word + b"\n"])
        assert (ran.seen, ran.status) == (GREETING + b"> show\nshown 0\n> " + word + b"\n", 0), f"{ran}"
    for word in (b"help", b"help nocaller", b"?", b"quit", b"exit", b""):
        expect(harness.run([program], word + b"\n"), b"badline 1 0\n", 1)


# A line as somebody types it, its spelling in a script, and the answer.
TYPED = [
    (b"SHOW", b"show", b"shown 0\n"),
    (b"Show   ", b"show", b"shown 0\n"),
    (b"show\t", b"show", b"shown 0\n"),
    (b"Offer X mem o 1.0 =   ", b"offer X mem o 1.0 = ", b"taken\n"),
    (b"RETRIEVE X mem ", b"retrieve X mem", b"found \n"),
    (b"retrieve x mem", b"retrieve x mem", b"refused notfound\ndsctl: notfound: there is no such live entry, label or subscription\n"),
    (b"map \"X\" 15 ", b"map \"X\" 15", b"map 0\n"),
    (b"Settings  ", b"settings ", b"services 0 slots 64\n"),
    (b"retrieve X MEM ", b"retrieve X MEM", b"badline 9 11\n"),
    (b"Shwo ", b"shwo", b"badline 10 0\n  shwo\n  ^\n"),
]


def understands_capitals_and_spaces_at_the_prompt(program):
    """At the prompt a command in capitals is understood, and so are blanks after a line: an empty value and empty settings keep their space.
    Elsewhere both are bad, and names keep their capitals. The model's prompt answers alike."""
    ran = terminal.session(program, [], [line + b"\n" for line, _, _ in TYPED])
    shown = dict(re.findall(rb"^> (.*)\n((?:(?!> ).*\n)*)", ran.seen, re.MULTILINE))
    modelled = terminal.session(harness.TESTS.parent / "tools" / "model", [], [line + b"\n" for line, _, _ in TYPED])
    assert ran.status == modelled.status == 0, f"{ran} {modelled}"
    for line, spelled, answer in TYPED:
        assert shown.get(line, b"").startswith(answer), f"{line}: {ran}"
        assert answer.partition(b"\n")[0] + b"\n" in modelled.seen.partition(b"> " + line + b"\n")[2].partition(b"> ")[0], f"{line}: {modelled}"
        if line.rstrip() not in (b"retrieve x mem", b"retrieve X MEM", b"Shwo"):
            number = b"1 %d\n" % (len(spelled) if line.startswith(spelled) else 0)
            expect(harness.run([program], line + b"\n"), b"badline " + number, 1)


def shows_the_commonest_lines_on_one_screen(program):
    """At the prompt `help` shows ten lines, and three to begin with, which work; it has fewer rows and columns than a terminal."""
    text = said_at_the_prompt(program, b"help").decode()
    rows = text.splitlines()
    assert len(rows) < 24 and max(map(len, rows)) <= 80, text
    known = {it.split()[0].decode() for it in GOOD}
    words = [it.split()[0] for it in rows[1:11]]
    assert len(set(words)) == 10 and set(words) <= known, words
    first = [re.split(" {3,}", it.strip())[0] for it in rows if it.startswith("  ")][10:]
    ran = harness.run([program], "".join(it + "\n" for it in first).encode())
    assert len(first) == 3 and ran.output == b"taken\ntaken\nfound 1500\n", f"{first}: {ran}"


# A line that is refused, and how the row of the help about it begins.
REFUSED = [
    (b"publish 3/17 new mtu u32 3.0 = 1500", b"nocaller: no live label has the endpoint CALLER: the caller is dead, or RS hasn't published it yet"),
    (b"retrieve mtu u32", b"notfound: there is no such live entry, label or subscription"),
    (b"death 3/17 1 5", b"oldendpoint: no service that is up is at ENDPOINT"),
    (b"reply file 3/17 1", b"notpending: there is no such request, or it was answered"),
    (b"settings slots = 0", b"outofrange: a value has the wrong type, or is out of range"),
    (b"entries 0", b"nomap: there is no map J: `map` makes them, and counts from 0"),
]


def explains_refusals_at_the_prompt(program):
    """At the prompt a refusal is followed by one line that explains it; elsewhere it isn't."""
    for line, row in REFUSED:
        ran = terminal.session(program, [], [line + b"\n"])
        answer = harness.run([program], line + b"\n")
        assert answer.error == b"" and answer.output.startswith(b"refused " + row.split(b":")[0]), f"{line}: {answer}"
        wanted = GREETING + b"> " + line + b"\n" + answer.output + b"dsctl: " + row + b"\n> \n"
        assert (ran.seen, ran.status) == (wanted, 0), f"{line}: {ran}"
    twice = terminal.session(program, [], [b"settings slots = 1\n"] * 2)
    assert b"refused exists\ndsctl: exists: settings were accepted already: RS begins once\n" in twice.seen, f"{twice}"


def reads_format_2_at_the_prompt(program):
    """At the prompt `script 2` is accepted as the first line, and isn't answered."""
    ran = terminal.session(program, [], [b"script 2\n", b"# a comment\n", b"show\n"])
    assert (ran.seen, ran.status) == (GREETING + b"> script 2\n> # a comment\n> show\nshown 0\n> \n", 0), f"{ran}"


# A line for help at the prompt, how the rows that explain the word begin, and what they have.
EXPLAINED = [
    (b"help publish", [b"  publish CALLER new NAME KIND EPOCH.SEQ = VALUE\n"], b"put a value in the caller's name"),
    (b"help offer", [b"  offer CHANGE ", b"  offer FLOOR "], b"merge one change, from any owner\n"),
    (b"help settings", [b"  settings REST "], b"begin RS, once, with the services of a settings text"),
    (b"help label", [b"  LABEL ", b"  label  GENERATION/SLOT, the endpoint of a driver"], b"0 for a put and 1 for a tombstone\n"),
    (b"help found", [b"  found VALUE "], b"the value of a live entry\n"),
    (b"help owed", [b"  owed MASK "], b"something changed under the queries\n"),
    (b"help start", [b"  start LABEL ENDPOINT\n", b"  start UNIT ENDPOINT\n"], b"a network driver arrived\n"),
    (b"help version", [b"  version "], b"EPOCH.SEQ: of two changes of one name and kind"),
    (b"help endpoint", [b"  ENDPOINT "], b"GENERATION/SLOT, up to 2097151/1023"),
    (b"help kind", [b"  KIND "], b"label, u32, str or mem\n"),
    (b"? mem", [b"  mem    up to 1024 bytes in lower-case hex\n"], b""),
    (b"help nocaller", [b"  nocaller "], b"RS hasn't published it yet\n"),
    (b"HELP refused nocaller", [b"  nocaller "], b"RS hasn't published it yet\n"),
    (b"help noroom", [b"  noroom "], b"takes far less than `\\w`\n"),
    (b"help oldendpoint", [b"  oldendpoint ", b"  oldendpoint "], b"the request wasn't last sent to ENDPOINT\n"),
    (b"help stale", [b"  stale ", b"  stale "], b"it comes too late\n"),
    (b"help refused", [b"  refused WORD "], b""),
]
# The answer for a word that help doesn't have.
UNEXPLAINED = [
    (b"help nocallr", b"dsctl: `nocallr` isn't a line, an answer, a refusal or a kind, the nearest is `nocaller`: see help\n"),
    (b"help retreive", b"dsctl: `retreive` isn't a line, an answer, a refusal or a kind, the nearest is `retrieve`: see help\n"),
    (b"help verify", b"dsctl: `verify` is for the command line: see dsctl verify --help\n"),
    (b"help xyzzy", b"dsctl: `xyzzy` isn't a line, an answer, a refusal or a kind: see help\n"),
    (b"help get", b"dsctl: `get` isn't a line, an answer, a refusal or a kind, here it is `retrieve`: see help\n"),
    (b"help ret", b"dsctl: `ret` isn't a line, an answer, a refusal or a kind, it begins `retrieve`: see help\n"),
]


def explains_a_word_at_the_prompt(program):
    """At the prompt `help WORD` shows the help on a line, an answer, a refusal or a kind, or else the nearest such word."""
    rows = harness.run([program, "--help"], b"").output
    for line, begins, has in EXPLAINED:
        answer = said_at_the_prompt(program, line)
        found = [it + b"\n" for it in answer.splitlines() if not it.startswith(b"   ")]
        assert len(found) == len(begins) and all(map(bytes.startswith, found, begins)) and has in answer, f"{line}: {answer!r}"
        assert all(it in rows.splitlines() for it in answer.splitlines()), f"{line}: not all of the help: {answer!r}"
    for line, wanted in UNEXPLAINED:
        assert said_at_the_prompt(program, line) == wanted, line


def explains_each_word_at_the_prompt(program):
    """At the prompt help explains each refusal in docs/reference/refusals.md, and each line of its short help. It also explains each first
    word of an answer and each part of a line in docs/reference/lines.md."""
    document = (harness.DOCUMENTS / "reference" / "refusals.md").read_text()
    refusals = re.findall(r"`(\w+)`", "".join(re.findall("^## .*$", document, re.MULTILINE)))
    lines = sorted({it.split()[0] for it in GOOD} - {b"all"})  # `help all` shows all lines
    typed = [f"help {it}\n".encode() for it in refusals + words_of_lines()] + [b"help %s\n" % it for it in lines]
    ran = terminal.session(program, [], typed)
    assert ran.status == 0 and b"isn't" not in re.sub(rb"(?m)^ .*$", b"", ran.seen), f"{ran.seen[-600:]}"
    answers = re.split(rb"^> help (\w+)\n", ran.seen, flags=re.MULTILINE)[1:]
    silent = [word for word, answer in zip(answers[::2], answers[1::2]) if not re.search(rb"(?m)^  %s " % word, answer)]
    assert len(answers) == 2 * len(typed) and not silent, f"{silent}"


def words_of_lines():
    """Returns the parts of lines, and the words that answers begin with, as docs/reference/lines.md has them in its tables."""
    document = (harness.DOCUMENTS / "reference" / "lines.md").read_text()
    parts = re.findall(r"[A-Z]+", re.search(r"\| Part \| Spelling \|\n\|---\|---\|\n((?:\| .*\n)*?)\| VALUE", document)[1].replace("Part", ""))
    parts = [it for it in parts if it not in ("ASCII", "RS", "A", "Z")]
    answers = re.findall(r"(?:, then|\| ) ?`([a-z]+)[^`]*`[^|`]*\|$", document.partition("\n## Patterns")[0], re.MULTILINE)
    assert len(set(parts)) > 8 and len(set(answers)) > 12, f"{parts} and {answers}"
    more = "PATTERN KINDS SCOPE SUB MAX COUNT AFTER HOLDER K J INCARNATION POSITION TICK CAUSE ID MAJOR PORT UNIT REST MASK"
    return sorted({*parts, *answers, *more.split(), *"taken known stale merged stopped owed kill start ping send held".split()})


def said_at_the_prompt(program, line):
    """Returns the answer to a line at the prompt, which must leave the script alone."""
    ran = terminal.session(program, [], [line + b"\n"])
    before, after = GREETING + b"> " + line + b"\n", b"> \n"
    assert ran.status == 0 and ran.seen.startswith(before) and ran.seen.endswith(after), f"{ran}"
    return ran.seen[len(before) : -len(after)]


def takes_a_line_in_two_pieces(program):
    """A line that ^D cut in two is one line, whatever the second piece is, and not a word of the prompt."""
    ran = terminal.pieces(program, [b"sh", b"\x04", b"ow\n", b"cle", b"\x04", b"help\n"])
    assert b"shown 0\n" in ran.seen and b"badline 2 0" in ran.seen and ran.status == 0, f"{ran}"


def ends_at_one_end(program):
    """One ^D where a read begins ends the program, also after a text without a newline: the terminal isn't read again."""
    for words, of_nothing, of_show in ((), 0, 0), (("settings",), 0, 1), (("verify",), 1, 1), (("upgrade",), 1, 1), (("record",), 0, 1):
        for typed, status in ([], of_nothing), ([b"show", b"\x04"], of_show):
            ran = terminal.pieces(program, typed, words)
            assert ran.status == status, f"{words}, {typed}: {ran}"


def names_the_keys_of_a_terminal(program):
    """The bytes of a cursor key are reported by its name, anywhere in a line, and end nothing."""
    for bytes_, name, place in ((b"\x1b[A", b"Up", 0), (b"\x1bOB", b"Down", 0), (b"show\x1b[C", b"Right", 4), (b"nameof 3/1\x1b[D", b"Left", 10)):
        ran = terminal.session(program, [], [bytes_ + b"\n", b"show\n"])
        sentence = b"dsctl: line 1, byte %d: the %s key was found: `rlwrap dsctl` adds history and editing\n> show\nshown 0\n> \n" % (place, name)
        assert ran.seen.endswith(sentence) and ran.status == 0, f"{name}: {ran}"


def greets_who_types_settings(program):
    """A user who types settings sees what the program waits for."""
    ran = terminal.session(program, ["settings"], [], prompt=b"ends\n")
    assert (ran.seen, ran.status) == (b"dsctl: a TOML text, as in dsctl settings --help, ^D ends\nservices 0 slots 64\n", 0), f"{ran}"


def greets_who_types_a_trace(program):
    """A user who types a trace sees what the program waits for, and no prompt, which would look like the beginning of an entry."""
    for word, header in (("verify", b"trace 2 INCARNATION FIRST RING SUBS KEYS"), ("upgrade", b"trace 1 INCARNATION FIRST RING")):
        ran = terminal.session(program, [word], [], prompt=b"ends\n")
        wanted = b"dsctl: a trace, as in dsctl verify --help, ^D ends\nbadline 1\n" + NO_HEADER % header
        assert (ran.seen, ran.status) == (wanted, 1), f"{word}: {ran}"


# A trace that can't be upgraded, the word for it, and the sentence that follows at a terminal.
NOT_UPGRADED = [
    ("trace 2 1 0 256 64 1024", b"already 2", b"line 1: the trace is of format 2 already"),
    ("trace 3 1 0 256", b"badline 1", b"line 1, byte 6: the format was expected, 1; `3` was found"),
    ("trace 1 1 0 0", b"badline 1", b"line 1, byte 12: RING was expected, 1 to 4096 with no leading zero; `0` was found"),
    ("show", b"badline 1", b"line 1: a header was expected; this is a script: `dsctl replay` answers it"),
    ("trace 1 1 0 256\n> 0 nameof 3/17\n< known", b"illegal 3", b"line 3: the store's reply was expected, which `dsctl verify` names, not \"known\""),
    ("trace 1 1 0 256\n> 0 show", b"badline 2", b"line 2, byte 4: `show` isn't a store's command"),
]


def explains_an_upgrade_at_a_terminal(program):
    """If standard error is a terminal, a sentence follows the word for a trace that can't be upgraded; elsewhere the word comes alone."""
    for trace, word, sentence in NOT_UPGRADED:
        ran = harness.run([program, "upgrade"], trace.encode() + b"\n")
        assert (ran.error, ran.status) == (word + b"\n", 1), f"{trace}: {ran}"
        seen = told_at_a_terminal(program, ["sh", "-c", f"echo '{trace}' | \"$0\" upgrade"])
        assert seen == word + b"\ndsctl: " + sentence + b"\n", f"{trace}: {seen}"


def takes_back_a_line_that_a_control_character_ends(program):
    """If ^C ends a line at the terminal, as dsctl-prompt sets it, that line is taken back, and the session continues."""
    ran = terminal.pieces(program, [b"publish 0/2 ne\x03", b"show\n", b"\x03", b"all\n"], settings=("intr", "undef", "eol2", "^C"))
    assert ran.status == 0 and b"badline" not in ran.seen and ran.seen.count(b"shown 0\n") == 2, f"{ran}"
    assert b"> publish 0/2 ne^C\n> show\n" in ran.seen and b"> ^C\n> all\n" in ran.seen, f"{ran}"


def greets_who_types_commands(program):
    """A user who types commands to be recorded sees what the program waits for, and the trace, and no prompt."""
    ran = terminal.session(program, ["record"], [], prompt=b"ends\n")
    assert (ran.seen, ran.status) == (b"dsctl: a command a line, as in dsctl record --help, ^D or a bad line ends\ntrace 2 1 0 256 128 4096\n", 0), f"{ran}"


def says_why(program):
    """At a terminal the system's reason follows `readfault` and `writefault`; elsewhere the word comes alone."""
    unread = b"readfault\ndsctl: the input can't be read: Is a directory (os error 21)\n"
    full = b"writefault\ndsctl: the answers can't be written: No space left on device (os error 28)\n"
    gone = b"writefault\ndsctl: the answers can't be written: Broken pipe (os error 32)\n"
    failing = [(f'"$0" {word} < /', unread) for word in ("", "settings", "verify", "upgrade", "record")]
    failing += [('echo show | "$0" > /dev/full', full), ('"$0" --help > /dev/full', full)]
    for line, wanted in failing:
        seen = told_at_a_terminal(program, ["sh", "-c", line])
        assert seen == wanted, f"{line}: {seen}"
        ran = harness.run(["sh", "-c", line, program], b"")
        assert (ran.status, ran.error) == (3, wanted.split(b"dsctl")[0]), f"{line}: {ran}"
    line = '(sleep 0.3; echo show; echo show) | "$0" | true'
    seen = told_at_a_terminal(program, ["sh", "-c", line])
    assert seen == gone, f"{line}: {seen}"
    ran = harness.run(["sh", "-c", line, program], b"")
    assert ran.error == b"writefault\n", f"{line}: {ran}"


def told_at_a_terminal(program, words):
    """Returns what a command prints on standard error, which is a terminal."""
    ours, theirs = os.openpty()
    started = subprocess.Popen([*words, program], stdin=subprocess.DEVNULL, stdout=subprocess.DEVNULL, stderr=theirs)
    os.close(theirs)
    started.wait(timeout=harness.SECONDS)
    seen = b""
    while read := terminal.shown(ours):
        seen += read
    os.close(ours)
    return seen.replace(b"\r\n", b"\n")


def is_silent_where_one_stream_is_no_terminal(program):
    """Without a terminal at both sides there is neither a greeting nor a prompt."""
    for streams in (("stdout", "stderr"), ("stdin", "stdout")):
        words = {"stdin": subprocess.PIPE} if "stdin" not in streams else {}
        ours, theirs = os.openpty()
        started = subprocess.Popen([program], **{it: theirs for it in streams}, **words, **({"stderr": subprocess.PIPE} if "stderr" not in streams else {}))
        os.close(theirs)
        if words:
            started.stdin.close()
        else:
            os.write(ours, b"\x04")
        assert started.wait(timeout=harness.SECONDS) == 0
        error = started.stderr.read() if started.stderr else b""
        shown = terminal.shown(ours) if not words else b""
        os.close(ours)
        assert error == b"" and b">" not in shown, f"{streams}: {error!r}, {shown!r}"
