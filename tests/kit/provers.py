"""Proves a crate, and copies of it with wrong bodies in them: as `rt check` does, or over the libraries that `rt ci` left in this tree."""
import functools
import os
import pathlib
import shutil
import subprocess
import tempfile

import toolchain
from edits import PARTS

ROOT = pathlib.Path(__file__).resolve().parent.parent.parent


@functools.cache
def dependencies():
    """Returns the crates of crates.txt, each with those of this repository that it names."""
    lines = (ROOT / "crates.txt").read_text().splitlines()
    named = {}
    for line in lines:
        head, colon, rest = line.partition("#")[0].partition(":")
        if colon:
            named[head.split()[0]] = rest.split()
    return {name: [it for it in rest if it in named] for name, rest in named.items()}


def closure(name):
    """Returns the crate and all crates below it."""
    found = {name}
    for dependency in dependencies()[name]:
        found |= closure(dependency)
    return found


def linked(source, target):
    """Makes a tree of links to another's files, since a check replaces files and changes none; or of copies, if it can't make links."""
    try:
        shutil.copytree(source, target, copy_function=os.link)
    except (OSError, shutil.Error):
        shutil.rmtree(target, ignore_errors=True)
        shutil.copytree(source, target)


class Prover:
    """Proves a crate by `rt check`, which proves first what it hasn't kept of the crates below."""

    def __init__(self, name):
        self.name, self.folder = name, ROOT / "crates" / name
        self.kept = self.folder / "out"  # what a check of the crate itself has proved

    def __enter__(self):
        return self

    def __exit__(self, *_):
        pass

    def words(self, jobs):
        """Returns the command that checks the crate in the working directory, over what its folder out/ keeps."""
        return ["rt", "check", "--jobs", str(jobs)]

    def run(self, folder, jobs):
        how = {"stdin": subprocess.DEVNULL, "stdout": subprocess.PIPE, "stderr": subprocess.STDOUT, "errors": "replace"}
        return subprocess.run(self.words(jobs), cwd=folder, **how)

    def prove(self, jobs):
        """Returns whether the crate itself is proved."""
        return self.run(self.folder, jobs).returncode == 0

    def copy(self, room):
        """Makes a tree with the crate and what was built of the crates below it. Returns the crate's folder there."""
        inside = closure(self.name)
        lines = (ROOT / "crates.txt").read_text().splitlines(keepends=True)
        (room / "crates.txt").write_text("".join(it for it in lines if it.partition(":")[0].partition(" ")[0] in inside))
        shutil.copy(ROOT / "HANDLES", room)
        for crate in inside:
            for part in PARTS if crate == self.name else [*PARTS, "out/rlib"]:
                if (ROOT / "crates" / crate / part).is_dir():
                    shutil.copytree(ROOT / "crates" / crate / part, room / "crates" / crate / part)
        return room / "crates" / self.name

    def check(self, crate, texts):
        """Checks a copy of the crate with these texts in place of its own, over what was kept."""
        were = {path: (crate / path).read_text() for path in texts}
        linked(self.kept, crate / "out")
        try:
            for path, text in texts.items():
                (crate / path).write_text(text)
            return self.run(crate, 1)
        finally:
            for path, text in were.items():
                (crate / path).write_text(text)
            shutil.rmtree(crate / "out")


class ProverAfterCi(Prover):
    """Proves a crate over the libraries that `rt ci` has just proved in this tree. It proves the crate itself once more, to keep that."""

    def __enter__(self):
        self.room = tempfile.TemporaryDirectory(prefix="wrong-bodies-seed-")
        self.kept = pathlib.Path(self.room.name) / self.name / "out"
        return self

    def __exit__(self, *_):
        self.room.cleanup()

    def words(self, jobs):
        crate = toolchain.crate(ROOT, self.name)
        return [toolchain.program(), "check", *crate.words(["--jobs", str(jobs)], keeps=False), "--incremental", "out"]

    def prove(self, jobs):
        self.copy(pathlib.Path(self.room.name))
        self.kept.mkdir()
        return self.run(self.kept.parent, 1).returncode == 0

    def copy(self, room):
        for part in PARTS:
            if (self.folder / part).is_dir():
                shutil.copytree(self.folder / part, room / self.name / part)
        return room / self.name


@functools.cache
def left_by_ci():
    """Returns the crates whose libraries `rt ci` left in this tree."""
    return {name for name in dependencies() if toolchain.is_left_by_ci(ROOT, name)}


def prover(name, is_after_ci):
    """Returns what proves a crate: over what `rt ci` left, if it left every library below that crate."""
    return (ProverAfterCi if is_after_ci and closure(name) - {name} <= left_by_ci() else Prover)(name)
