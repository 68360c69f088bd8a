"""Lists what the gate needs besides the repository, what is missing, and how to install it on Debian."""
import os
import shutil
import subprocess
import sys
import tempfile
from dataclasses import dataclass
from typing import Callable

CC = os.environ.get("CC", "cc")
SANITIZERS = "-fsanitize=address,undefined"


@dataclass
class Need:
    """A program or a library that some part of the gate uses."""

    name: str
    package: str  # Debian's; empty if no package has it
    serves: str  # what is tested with it
    is_there: Callable[[], bool]
    is_vital: bool = False  # without it nothing is tested


def program(name, package, serves, is_vital=False):
    return Need(name, package, serves, lambda: shutil.which(name) is not None, is_vital)


def compiles(source, *flags):
    """Returns whether the C compiler builds a program from this text."""
    if not shutil.which(CC):
        return False
    with tempfile.TemporaryDirectory() as room:
        words = [CC, *flags, "-x", "c", "-o", f"{room}/program", "-"]
        return subprocess.run(words, input=source.encode(), stdout=subprocess.DEVNULL, stderr=subprocess.DEVNULL).returncode == 0


NEEDS = (
    Need("python3 3.11 or newer", "python3", "every test", lambda: sys.version_info >= (3, 11), True),
    program("rt", "", "the proofs: the Rattle toolchain", True),
    Need(
        "a C compiler", "gcc", "everything in C, and refused memory (CC may name one other than cc)", lambda: shutil.which(CC) is not None,
        True
    ),
    program("nm", "binutils", "which functions a program calls", True),
    program("bash", "bash", "its completions"),
    program("zsh", "zsh", "its completions"),
    program("fish", "fish", "its completions"),
    program("pkg-config", "pkg-config", "the installed library for C"),
    program("cargo", "cargo", "the crate for Rust"),
    program("dpkg-architecture", "dpkg-dev", "Debian's packages"),
    program("lintian", "lintian", "what is wrong with Debian's packages"),
    program("valgrind", "valgrind", "memory errors of the programs in C"),
    Need(
        "sanitizers of the C compiler", "gcc", "the programs in C, a second time",
        lambda: compiles("int main(void) { return 0; }\n", SANITIZERS)
    ),
    program("redis-server", "redis-server", "dsfleet"),
    program("stunnel", "stunnel4", "dsfleet over TLS"),
    Need("hiredis", "libhiredis-dev", "dsfleet", lambda: compiles("#include <hiredis/hiredis.h>\n", "-fsyntax-only")),
    Need("OpenSSL", "libssl-dev", "dsfleet over TLS", lambda: compiles("#include <openssl/ssl.h>\n", "-fsyntax-only")),
)


def missing():
    return [it for it in NEEDS if not it.is_there()]


def table(lacking):
    """Returns a line for each need: what it is, whether it is there, and what it is for."""
    width = max(len(it.name) for it in NEEDS)
    return [f"{it.name:<{width}}  {'missing' if it in lacking else 'there  '}  {it.serves}" for it in NEEDS]


def how_to_install(lacking):
    """Returns the command that installs what is missing on Debian, or None."""
    packages = sorted({it.package for it in lacking if it.package})
    return f"apt-get install {' '.join(packages)}" if packages else None


def install(lacking):
    """Installs what is missing, if this runs as root on Debian. Starts no service."""
    command = how_to_install(lacking)
    if not command or os.geteuid() or not shutil.which("apt-get"):
        return
    quiet = {
        "stdin": subprocess.DEVNULL, "stdout": subprocess.DEVNULL,
        "env": {**os.environ, "RUNLEVEL": "1", "DEBIAN_FRONTEND": "noninteractive"}
    }
    subprocess.run(["apt-get", "update", "-qq"], **quiet)
    subprocess.run([*command.split()[:2], "-y", "-qq", "--no-install-recommends", *command.split()[2:]], **quiet)
