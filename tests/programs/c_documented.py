"""Runs the lines by which docs/guide/c.md builds over the library, just as they are written, for tests/programs/c."""
import pathlib
import re
import shutil
import subprocess

ROOT = pathlib.Path(__file__).resolve().parent.parent.parent
MAKES_THE_LIBRARY = "tools/build ds_c"


def shown():
    """Returns what is typed in the document's section on building."""
    section = re.search(r"^## Build\n(.*?)^## ", (ROOT / "docs/guide/c.md").read_text(), re.DOTALL | re.MULTILINE)[1]
    return re.findall(r"^    \$ (.*)$", section, re.MULTILINE)


def copy(library, shared, root):
    """Lays out what the lines need as at the repository's root, with the libraries where their line puts them."""
    for it in ("c", "examples"):
        (root / it).symlink_to(ROOT / it)
    out = root / "crates/ds_c/out"
    out.mkdir(parents=True)
    shutil.copy(library, out / "libds_c.a")
    shutil.copy(shared, out / "libds_c.so")


def run(library, shared, root):
    """Runs the lines, and compares what the programs print with the text beside them."""
    first, *lines = shown()
    assert first == MAKES_THE_LIBRARY, f"the library is made by `{first}`"
    copy(library, shared, root)
    words = ["sh", "-eu", "-c", "\n".join(lines)]
    ran = subprocess.run(words, cwd=root, stdin=subprocess.DEVNULL, capture_output=True, text=True)
    driver = (ROOT / "examples/c/driver.out").read_text()
    wanted = driver * sum(it.startswith("./") for it in lines) + (ROOT / "examples/names.out").read_text()
    assert (ran.returncode, ran.stderr) == (0, ""), f"status {ran.returncode}: {ran.stderr[:2000]}"
    assert ran.stdout == wanted, f"they printed\n{ran.stdout}instead of\n{wanted}"
