"""A store that outlives the program: --load and --save."""
import os
import pathlib
import stat
import tempfile

import harness
import model

from .running import expect

# eth0's first generation is dead, and its second holds a label, a number and a tombstone.
SCRIPT = b"""\
publish 0/2 new eth0 label 1.0 = 1/16
publish 1/16 new mtu u32 1.0 = 1400
publish 0/2 over eth0 label 2.0 = 2/16
sweep 0/2 eth0 1
publish 2/16 new mtu u32 2.0 = 1500
publish 2/16 new note str 2.1 = "a \\"b\\""
delete 2/16 note str 2.2
"""
# The floor comes first, then the keys by their names; nothing of generation 1 is left but the floor.
HELD = b"offer ! eth0 1\noffer eth0 label rs 2.0 = 2/16\noffer mtu u32 eth0 2.0 = 1500\noffer note str eth0 2.2 -\n"


def in_a_folder(body):
    """Runs a function of a new folder."""
    with tempfile.TemporaryDirectory() as folder:
        return body(pathlib.Path(folder))


def saves_a_store_as_a_script(program):
    """--save writes an incarnation above both stores' and an offer of each item, tombstones too; the file is a script by itself."""

    def body(folder):
        kept = folder / "kept.ds"
        ran = harness.run([program, "replay", "--save", str(kept)], SCRIPT)
        expect(ran, b"taken\n" * 3 + b"swept 1\n" + b"taken\n" * 3, 0, b"")
        assert kept.read_bytes() == b"restart a 3\n" + HELD, f"{kept.read_bytes()!r}"
        assert os.listdir(folder) == ["kept.ds"], f"{os.listdir(folder)}"
        expect(harness.run([program, str(kept)], b""), b"restarted\n" + b"taken\n" * 4, 0, b"")
        harness.run([program, "replay", "--save", str(kept)], b"")
        assert kept.read_bytes() == b"restart a 3\n", f"{kept.read_bytes()!r}"

    in_a_folder(body)


def begins_with_a_saved_store(program):
    """--load answers the file first, and prints the script's answers alone. A cursor of the earlier run is refused, and the next save
    has the next incarnation.
    """

    def body(folder):
        kept = folder / "kept.ds"
        kept.write_bytes(b"restart a 3\n" + HELD)
        script = b"since * 1 0 8\nretrieve mtu u32\npublish 1/16 over mtu u32 1.1 = 9000\nsnapshot *\n"
        items = HELD.replace(b"offer ", b"")
        wanted = b"refused oldcursor\nfound 1500\nrefused nocaller\n" + items + b"snapshot 4 3 4\n"
        expect(harness.run([program, "replay", "--load", str(kept), "--save", str(kept)], script), wanted, 0, b"")
        assert kept.read_bytes() == b"restart a 4\n" + HELD, f"{kept.read_bytes()!r}"

    in_a_folder(body)


def what_is_saved_is_loaded(program):
    """Of each example script, the store that was saved holds when it is loaded what it held at the script's end, as the model has it."""

    def body(folder):
        scripts = [it for it in sorted(harness.EXAMPLES.glob("*.ds")) if not it.read_bytes().startswith(b"script 2")]
        for script in scripts:
            given = script.read_bytes()
            held, _ = model.replay(given + b"all\n")
            before, _ = model.replay(given)
            kept = folder / script.name
            harness.run([program, "replay", "--save", str(kept), str(script)], b"")
            expect(harness.run([program, "replay", "--load", str(kept)], b"all\n"), held[len(before) :], 0, b"")
        assert len(scripts) > 5, f"{len(scripts)} scripts"

    in_a_folder(body)


def saves_the_current_store(program):
    """The store of the side that is current at the end is saved, and loaded as side a's. After the greatest incarnation there is none."""
    rows = [(b"offer a label rs 3.0 = 3/17\nside b\noffer b label rs 4.0 = 4/17\n", b"restart a 3\noffer b label rs 4.0 = 4/17\n")]
    rows += [(b"restart b 9\noffer a label rs 3.0 = 3/17\n", b"restart a 10\noffer a label rs 3.0 = 3/17\n")]
    rows += [(b"restart a 18446744073709551614\n", b"restart a 18446744073709551615\n")]
    rows += [(b"restart a 18446744073709551615\noffer a label rs 3.0 = 3/17\n", b"offer a label rs 3.0 = 3/17\n")]

    def body(folder):
        for script, wanted in rows:
            kept = folder / "kept.ds"
            harness.run([program, "replay", "--save", str(kept)], script)
            assert kept.read_bytes() == wanted, f"{script!r}: {kept.read_bytes()!r}"

    in_a_folder(body)


def counts_the_lines_of_a_loaded_script(program):
    """`badline` counts the loaded lines, too, and standard error the script's alone; `ring` is allowed on the first line of all alone."""
    sentence = b"dsctl: line 2, byte 0: `shwo` isn't a command, the nearest is `show`: see --help\n"

    def body(folder):
        kept, other = folder / "kept.ds", folder / "other.ds"
        kept.write_bytes(b"script 2\n# one label\noffer a label rs 3.0 = 3/17\nshow\n")
        shown = b"a label rs 3.0 = 3/17\nshown 1\n"
        ran = harness.run([program, "replay", "--load", str(kept), "--save", str(other)], b"show\nshwo\nshow\n")
        expect(ran, shown + b"badline 4 0\n", 1, sentence)
        assert not other.exists()
        ran = harness.run([program, "replay", "--keep-going", "--load", str(kept), "--save", str(other)], b"show\nshwo\nshow\n")
        expect(ran, shown + b"badline 4 0\n" + shown, 1, sentence)
        assert other.read_bytes() == b"restart a 3\noffer a label rs 3.0 = 3/17\n", f"{other.read_bytes()!r}"
        ran = harness.run([program, "replay", "--load", str(kept)], b"ring 4\n")
        expect(ran, b"badline 3 0\n", 1, b"dsctl: line 1, byte 0: `ring` is allowed on the first line only\n")
        other.write_bytes(b"")
        expect(harness.run([program, "replay", "--load", str(other)], b"ring 4\n"), b"ring 4\n", 0, b"")

    in_a_folder(body)


def loads_only_what_is_answered(program):
    """A script to load that has a bad or a refused line, or that isn't there, ends the program before other input is read."""
    rows = [(b"show\nshwo\n", 1, b" can't be loaded, it has a bad line:\ndsctl: line 2, byte 0: `shwo` isn't a command")]
    rows += [(b"script 2\n\n\nshwo\n", 1, b" can't be loaded, it has a bad line:\ndsctl: line 4, byte 0: `shwo` isn't a command")]
    rows += [(b"show\nnameof 1/16\nshow\n", 1, b" can't be loaded, one of its lines is refused: dsctl ")]
    rows += [(None, 2, b" can't be opened: No such file or directory")]

    def body(folder):
        for script, status, sentence in rows:
            kept = folder / "kept.ds"
            if script is None:
                kept.unlink()
            else:
                kept.write_bytes(script)
            ran = harness.run([program, "replay", "--load", str(kept), "--save", str(folder / "other.ds")], b"show\n")
            assert (ran.status, ran.output) == (status, b"") and sentence in ran.error, f"{script!r}: {ran}"
            assert not (folder / "other.ds").exists(), f"{script!r}"

    in_a_folder(body)


def replaces_a_file_and_writes_a_device(program):
    """A save that fails is `writefault`, with status 3, and the file is unchanged. A link or a device is written, and stays what it is."""

    def body(folder):
        kept, link = folder / "kept.ds", folder / "link.ds"
        kept.write_bytes(b"older\n")
        (folder / "kept.ds.new").mkdir()
        expect(harness.run([program, "replay", "--save", str(kept)], b"show\n"), b"shown 0\n", 3, b"writefault\n")
        assert kept.read_bytes() == b"older\n", f"{kept.read_bytes()!r}"
        for name in (str(folder / "no" / "kept.ds"), str(folder), "/dev/full"):
            expect(harness.run([program, "replay", "--save", name], b"show\n"), b"shown 0\n", 3, b"writefault\n")
        link.symlink_to(kept)
        expect(harness.run([program, "replay", "--save", str(link)], b"show\n"), b"shown 0\n", 0, b"")
        assert link.is_symlink() and kept.read_bytes() == b"restart a 3\n", f"{kept.read_bytes()!r}"
        expect(harness.run([program, "replay", "--save", "/dev/null"], b"show\n"), b"shown 0\n", 0, b"")
        assert stat.S_ISCHR(os.stat("/dev/null").st_mode)

    in_a_folder(body)


ALL = [
    saves_a_store_as_a_script,
    begins_with_a_saved_store,
    what_is_saved_is_loaded,
    saves_the_current_store,
    counts_the_lines_of_a_loaded_script,
    loads_only_what_is_answered,
    replaces_a_file_and_writes_a_device,
]
