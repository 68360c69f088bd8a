"""The toolchain's own knowledge of its compiler's arguments."""
import functools
import os
import pathlib
import subprocess
import sys


@functools.cache
def kit():
    """Returns the folder of the toolchain."""
    return pathlib.Path(subprocess.run(["rt", "doc"], capture_output=True, text=True, check=True).stdout.split()[0]).parent


@functools.cache
def library():
    """Returns the toolchain's module for its command `rt`."""
    sys.path.insert(0, str(kit() / "bin"))
    import rtlib

    return rtlib


def program():
    """Returns the path of the compiler and prover."""
    return library().RATTLE


def crate(root, name):
    """Returns a crate of a repository as the toolchain knows it: `words` has the compiler's arguments for it."""
    return library().Crate(str(root / "crates" / name), str(root), {})


def try_program(root, name, words):
    """Compiles a program of a repository, with no proof, and runs it with these words, as `rt try` does. Returns its status.

    `rt try` also begins a check, only to find names that a proof would refuse. That takes about as long as the compiler, so it is left out.
    """
    library().RATTLE = "true"  # what would check
    program = crate(root, name)
    os.chdir(program.folder)
    return program.try_unproved([], words)


def is_left_by_ci(root, name):
    """Returns whether `rt ci` left the library of a crate in a repository. A stamp is an earlier check's."""
    left = root / "crates" / name / "out" / "rlib"
    return (left / f"{name}.rlib").is_dir() and not (left / "stamp").exists()
