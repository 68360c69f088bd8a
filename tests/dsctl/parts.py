"""The sentences by which `dsctl` reports what it expected where a line can't be read: each part as docs/reference/lines.md names it."""
import behaviour
import harness

# A first line, the byte where its first part begins that can't be read, and how the sentence about it begins.
PARTS = [
    (b"", 0, b"a command was expected; the line is empty: `script 2` as the first line allows that\n"),
    (b"# a comment", 0, b"a command was expected; a comment was found: `script 2` as the first line allows them\n"),
    (b"  # a comment", 0, b"a command was expected; a space and a comment were found: `#` is the first byte of a comment's line, after `script 2` as the first line\n"),
    (b"show # a comment", 4, b"the end of the line was expected; a comment was found: each has a line of its own, after `script 2` as the first line\n"),
    (b"offer a u32 o 1.0 = 1# one", 21, b"the end of the line was expected; a comment was found: each has a line of its own"),
    (b"offer a str o 1.0 = \"#\" x", 23, b"the end of the line was expected; a space was found\n"),
    (b"   ", 0, b"a command was expected; only spaces were found: an empty line has none, after `script 2` as the first line\n"),
    (b"script 2 ", 0, b"`script 2` was expected, and the end of the line; a space was found after it\n"),
    (b"script 2\r", 0, b"`script 2` was expected, and the end of the line; a carriage return was found after it\n"),
    (b"script 2 # one", 0, b"`script 2` was expected, and the end of the line; a space was found after it\n"),
    (b"script 3", 0, b"only `script 2` is allowed, as the first line\n"),
    (b"verify", 0, b"`verify` is for the command line: dsctl verify\n"),
    (b"live --for 3", 0, b"`live` is for the command line: dsctl live\n"),
    (b" show", 0, b"a command was expected; a space was found: see --help\n"),
    (b"\xef\xbb\xbfshow", 0, b"a command was expected; a byte order mark was found: see --help\n"),
    (b"/show", 0, b"a command was expected; `/show` was found: see --help\n"),
    (b"\x1b[Ashow", 0, b"the Up key was found"),
    (b"show\x1b[3~", 4, b"a key of the terminal was found"),
    (b"offer", 5, b"a space was expected, and then NAME; the end of the line was found\n"),
    (b"retrieve eth0", 13, b"a space was expected, and then KIND; the end of the line was found\n"),
    (b"check 40", 8, b"a space was expected, and then MAX; the end of the line was found\n"),
    (b"publish 3/17 new a u32 3.0", 26, b"a space was expected, and then `=` and a value; the end of the line was found\n"),
    (b"offer a u32 o 3.0", 17, b"a space was expected, and then `=` and a value or `-` for a tombstone; the end of the line was found\n"),
    (b"subscribe 4 \"a b\" 3", 19, b"a space was expected, and then `first` or `later`; the end of the line was found\n"),
    (b"service up disk", 15, b"a space was expected, and then TICK; the end of the line was found\n"),
    (b"assign", 6, b"a space was expected, and then `file` or `net`; the end of the line was found\n"),
    (b"retrieve  eth0 u32", 9, b"one space was expected between parts; two were found\n"),
    (b"retrieve eth0  u32", 14, b"one space was expected between parts; two were found\n"),
    (b"publish 3/17 new a u32 3.0 =  1", 29, b"one space was expected between parts; two were found\n"),
    (b"show ", 4, b"the end of the line was expected; a space was found\n"),
    (b"show\t", 4, b"the end of the line was expected; a tab was found\n"),
    (b"show\r", 4, b"the end of the line was expected; a carriage return was found\n"),
    (b"show\xc3\xa9", 4, b"the end of the line was expected; byte 195 was found\n"),
    (b"retrieve\teth0 label", 8, b"a space was expected, and then NAME; a tab was found\n"),
    (b"a" * 4097, 4096, b"a line has at most 4096 bytes"),
    (b"offer ?", 6, b"NAME was expected"),
    (b"page * a 1", 9, b"KIND was expected"),
    (b"offer ! ", 8, b"OWNER was expected"),
    (b"offer a u32 o 01.0 = 1", 14, b"EPOCH was expected"),
    (b"offer a u32 o 1-0 = 1", 15, b"a dot was expected"),
    (b"offer a u32 o 1.- = 1", 16, b"SEQ was expected"),
    (b"offer a u32 o 1.0 : 1", 18, b"`=` and a value or `-` for a tombstone was expected"),
    (b"offer a label rs 1.0 = 2/16", 23, b"VALUE was expected, GENERATION/SLOT"),
    (b"offer a u32 o 1.0 = x", 20, b"VALUE was expected, 0 to 4294967295"),
    (b"offer a str o 1.0 = up", 20, b"VALUE was expected, up to 256 printable characters"),
    (b"offer a mem o 1.0 = 0", 20, b"VALUE was expected, up to 1024 bytes"),
    (b"sweep rs eth0 3", 6, b"CALLER was expected"),
    (b"nameof rs", 7, b"ENDPOINT was expected"),
    (b"publish 0/2 old a u32 0.0 = 1", 12, b"`new` or `over` was expected"),
    (b"publish 0/2 new a u32 0.0 -", 26, b"`=` and a value were expected"),
    (b"offer ! eth0 03", 13, b"GENERATION was expected"),
    (b"check x 1", 6, b"SUB was expected"),
    (b"since * 1 0 4294967296", 12, b"MAX was expected"),
    (b"map a 15", 4, b"PATTERN was expected"),
    (b'snapshot ".*" 16', 14, b"KINDS was expected"),
    (b'subscribe 0 "a" 1 never new', 18, b"`first` or `later` was expected"),
    (b"clear m1", 6, b"J was expected"),
    (b"ring 4097", 5, b"N was expected"),
    (b"side ax", 5, b"`a` or `b` was expected"),
    (b"restart a -", 10, b"INCARNATION was expected"),
    (b"since * 1 - 8", 10, b"POSITION was expected"),
    (b"since a 1 0 8", 6, b"SCOPE was expected"),
    (b"page * ,", 7, b"AFTER was expected"),
    (b"deliver x a *", 8, b"K was expected"),
    (b"deliver 0 m01 *", 10, b"HOLDER was expected"),
    (b"deliver 0 a 4294967296", 12, b"COUNT was expected"),
    (b"settings", 8, b"a space was expected before the next part; the end of the line was found\n"),
    (b"service stop disk 0", 8, b"`up`, `down`, `refresh` or `restart` was expected"),
    (b"service up ? 0", 11, b"LABEL was expected"),
    (b"assign net 0 ", 13, b"LABEL was expected"),
    (b"tick 05", 5, b"TICK was expected"),
    (b"death disk 1 5", 6, b"ENDPOINT was expected"),
    (b"death 1/16 exit 5", 11, b"CAUSE was expected"),
    (b"assign disk 3", 7, b"`file` or `net` was expected"),
    (b"assign file 256 block disk", 12, b"MAJOR was expected, 0 to 255"),
    (b"assign file 3 disk", 14, b"`block` or `character` was expected"),
    (b"assign net 256 eth0", 11, b"PORT was expected, 0 to 255"),
    (b"reply file 1/16 -", 16, b"ID was expected"),
    (b"submit file 9 256 0", 14, b"UNIT was expected, 0 to 255"),
    (b"submit file 9 3 m0", 16, b"J was expected"),
]


def says_which_part_was_expected(program):
    """For each part that can't be read, standard error names the byte and what was expected there."""
    for line, place, words in PARTS:
        ran = harness.run([program], line + b"\n")
        behaviour.expect(ran, b"badline 1 %d\n" % place, 1)
        sentence = b"dsctl: line 1, byte %d: %s" % (place, words)
        assert ran.error.startswith(sentence), f"{line[:60]!r}: standard error is {ran.error!r}, wanted {sentence!r}"


# A line of commands, the byte where it is bad, and the sentence about it.
RECORDED = [
    (b"get a u32", 0, b"`get` isn't a command, here it is `retrieve`\n"),
    (b"7 retr a u32", 2, b"`retr` isn't a command, it begins `retrieve`\n"),
    (b"7 s", 2, b"`s` isn't a command, it begins `sweep` `subscribe` `since` `snapshot`\n"),
    (b"publsh", 0, b"`publsh` isn't a command, the nearest is `publish`\n"),
    (b"ls", 0, b"`ls` isn't a command\n"),
    (b"show", 0, b"`show` isn't a store's command\n"),
    (b"show x", 4, b"the end of the line was expected; a space was found\n"),
    (b"# one", 0, b"a command was expected; a comment was found, and commands have none\n"),
]


def says_what_was_wrong_with_commands(program):
    """For a line that can't be recorded, standard error names the byte, and what was expected there or what may be meant."""
    for line, place, words in RECORDED:
        sentence = b"badline 1 %d\ndsctl: line 1, byte %d: %s" % (place, place, words)
        ran = harness.run([program, "record"], line + b"\n")
        assert (ran.error, ran.status) == (sentence, 1), f"{line}: {ran}"


# Texts of each kind, the commands that expect another kind, and the sentence that they print about one.
TEXTS = [
    ((b"publish 0/2 new a label 1.0 = 1/16\n", b"script 2\nshow\n", b"# one\n\nscript 2\nshow\n", b"  # one\n show\n"), ["verify", "settings"], b"this is a script: `dsctl replay` answers it\n"),
    ((b"script 2\nshow\n",), ["record"], b"this is a script: `dsctl replay` answers it\n"),
    ((b"[[service]]\n", b"slots = 3\n", b"# one\n\n  # two\nslots = 3\n"), ["replay", "verify", "record"], b"these are settings: `dsctl settings` shows them\n"),
    ((b"trace 2 1 0 256 64 1024\n", b"# one\ntrace 1 1 0 256\n"), ["replay", "settings", "record"], b"this is a trace: `dsctl verify` judges it\n"),
    ((b"7 nameof 3/17\n", b"# one\n7 nameof 3/17\n"), ["replay", "verify", "settings"], b"these are commands: `dsctl record` writes the trace of their run\n"),
    ((b"taken\nshown 0\n", b"# one\nrefused nocaller\n"), ["replay", "verify", "settings"], b"these are answers: a script has the lines that they answer\n"),
]


def says_what_a_text_is(program):
    """A text of another kind is named for what it is, by its first line that isn't empty or a comment."""
    for texts, words, sentence in TEXTS:
        for text in texts:
            for word in words:
                ran = harness.run([program, word], text)
                assert ran.status == 1 and ran.error.endswith(b" was expected; " + sentence), f"{word}, {text}: {ran}"
    ran = harness.run([program], b"show\n7 nameof 3/17\n")
    assert ran.error == b"dsctl: line 2, byte 0: a command was expected; these are commands: `dsctl record` writes the trace of their run\n", f"{ran}"
    ran = harness.run([program], b"show\ntrace 2 1 0 256 128 4096\n")
    assert ran.error == b"dsctl: line 2, byte 0: a command was expected; this is a trace: `dsctl verify` judges it\n", f"{ran}"


ALL = [says_which_part_was_expected, says_what_was_wrong_with_commands, says_what_a_text_is]
