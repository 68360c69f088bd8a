"""What is written for users: docstrings, docs/guide/python.md, the examples, types, and what pip installs."""
import ast
import contextlib
import doctest
import importlib
import importlib.util
import os
import pathlib
import queue
import re
import shutil
import subprocess
import sys
import tempfile
import threading
import unittest

import support  # noqa: I001: it finds the package
import c_examples
import pengtawis
import servers

PACKAGE = support.ROOT / "python" / "pengtawis"
PAGE = support.ROOT / "docs" / "guide" / "python.md"
RS_PAGE = support.ROOT / "docs" / "guide" / "rs.md"
THREADS_PAGE = support.ROOT / "docs" / "guide" / "threads.md"
BLOCK = re.compile(r"(?<=\n\n)(?:    .*\n)+")
EXAMPLES = support.ROOT / "examples" / "python"
WATCH = EXAMPLES / "watch.py"
AS_IN_C = ("fileserver", "supervisor", "threads")  # the examples that print what those in C print
PATIENCE = 60  # seconds
TO_INSTALL = ("pip", "setuptools", "wheel")
CALLER = """\
from pengtawis import Endpoint, Items, Map, Store
with Store() as store, Map() as drivers:
    where: Endpoint = store.retrieve("eth0", Endpoint)
    mtu: int = store.retrieve("mtu", int)
    mac: bytes = store.retrieve("mac", bytes)
    name: str = store.retrieve("name", bytes)
    items: Items = store.snapshot().items
    for items, cursor in store.since((1, 0)):
        drivers.take(items)
    store.publish(where, "mtu", 1.5, (1, 0))
"""
# What mypy has to say of it: a line and its fault.
WRONG = [
    (6, 'Incompatible types in assignment (expression has type "bytes", variable has type "str")  [assignment]'),
    (10, 'Argument 3 to "publish" of "Commands" has incompatible type "float"; expected "Union[Endpoint, int, str, bytes]"  [arg-type]'),
]


@contextlib.contextmanager
def served(real):
    """Yields the path of a socket named `one`, of a dsfleet or of a server by the model, in its folder."""
    before = os.getcwd()
    server = servers.Real(0) if real else servers.Fake(name="one")
    with server:
        path = server.fleet.start(at="one").socket if real else server.path
        os.chdir(os.path.dirname(path))
        try:
            yield path
        finally:
            os.chdir(before)


def kinds_of_servers():
    return (False, True) if "PENGTAWIS_DSFLEET" in os.environ else (False,)


class Pages(unittest.TestCase):
    def test_docstrings(self):
        tried = 0
        for file in PACKAGE.glob("*.py"):
            module = importlib.import_module("pengtawis" if file.stem == "__init__" else f"pengtawis.{file.stem}")
            found = doctest.testmod(module, extraglobs=vars(pengtawis))
            self.assertEqual(found.failed, 0, file.name)
            tried += found.attempted
        self.assertGreater(tried, 5)

    def test_each_session_of_the_page(self):
        for real in kinds_of_servers():
            with self.subTest(real=real), served(real):
                runner = doctest.DocTestRunner()
                test = doctest.DocTestParser().get_doctest(PAGE.read_text(), {}, PAGE.name, str(PAGE), 0)
                self.assertGreater(len(test.examples), 15)
                self.assertEqual(runner.run(test).failed, 0)

    def test_the_sessions_of_other_pages(self):
        for page, least in ((RS_PAGE, 6), (THREADS_PAGE, 1)):
            test = doctest.DocTestParser().get_doctest(page.read_text(), dict(vars(pengtawis)), page.name, str(page), 0)
            self.assertGreaterEqual(len(test.examples), least)
            self.assertEqual(doctest.DocTestRunner().run(test).failed, 0)

    def test_each_block_of_the_page_is_tried(self):
        """Runs each block that isn't a session of Python's in a shell at the root of the repository. It prints nothing."""
        blocks = BLOCK.findall(PAGE.read_text())
        shell = [it for it in blocks if not it.startswith("    >>> ")]
        self.assertTrue(shell and all(line.startswith("    $ ") for it in shell for line in it.splitlines()), shell)
        for it in shell:
            commands = re.sub(r"^    \$ ", "", it, flags=re.MULTILINE)
            environment = {name: value for name, value in os.environ.items() if name != "PYTHONPATH"}
            ran = subprocess.run(["sh", "-e"], input=commands, cwd=support.ROOT, env=environment, capture_output=True, text=True)
            self.assertEqual((ran.returncode, ran.stdout, ran.stderr), (0, "", ""))

    def test_the_page_is_short(self):
        self.assertLessEqual(len(PAGE.read_text().splitlines()), 80)


class Examples(unittest.TestCase):
    def test_they_print_what_those_in_c_print(self):
        environment = {**os.environ, "PYTHONPATH": str(support.ROOT / "python")}
        for name in AS_IN_C:
            for words, wanted in c_examples.runs(name):
                with self.subTest(name=name, words=words):
                    command = [sys.executable, EXAMPLES / f"{name}.py", *words]
                    ran = subprocess.run(command, env=environment, capture_output=True, text=True)
                    self.assertEqual((ran.returncode, ran.stdout, ran.stderr), (0, wanted, ""))


class Keep(unittest.TestCase):
    def played(self, page, path):
        """Runs the commands of a page's session, whose file is this one, and returns each with what it printed and what the page shows."""
        session = re.search(r"(?:^    .*\n)+", page[page.index("    $ printf") :], re.MULTILINE)[0]
        environment = {**os.environ, "PYTHONPATH": str(support.ROOT / "python")}
        for part in re.split(r"^\$ ", re.sub("^    ", "", session, flags=re.MULTILINE), flags=re.MULTILINE)[1:]:
            command, _, wanted = part.partition("\n")
            words = ["sh", "-c", command.replace("/tmp/kept", path)]
            ran = subprocess.run(words, cwd=support.ROOT, env=environment, capture_output=True, text=True)
            yield command, ran.stdout + ran.stderr, wanted

    def test_the_session_of_its_page(self):
        with tempfile.TemporaryDirectory() as folder:
            played = list(self.played((support.ROOT / "docs/guide/keep.md").read_text(), f"{folder}/kept"))
            self.assertEqual(os.listdir(folder), ["kept"])
        self.assertEqual(len(played), 3)
        for command, printed, wanted in played:
            self.assertEqual(printed, wanted, command)

    def test_what_is_kept(self):
        """A store from a file holds the same, refuses the same late changes, and takes its items as lines of a script, too."""
        sys.path.insert(0, str(EXAMPLES))
        import keep

        lines = ["publish 0/2 new eth0 label 3.0 = 3/17", "publish 3/17 new mtu u32 3.1 = 1500", "publish 3/17 new s str 3.2 = \"a \\\"b\\\"\"",
                 "delete 3/17 mtu u32 3.3", "publish 0/2 new tty label 4.0 = 4/18", "publish 4/18 new m mem 4.1 = 00ff0a", "sweep 0/2 tty 4"]
        with tempfile.TemporaryDirectory() as folder, pengtawis.Store() as store:
            for line in lines:
                store.line(line)
            keep.save(store, f"{folder}/kept")
            text = store.line("all")
            with keep.load(f"{folder}/kept") as kept, pengtawis.Store() as typed:
                self.assertEqual(kept.line("all"), text)
                for line in pathlib.Path(f"{folder}/kept").read_text().splitlines():
                    self.assertEqual(typed.line(f"offer {line}"), "taken\n")
                self.assertEqual(typed.line("all"), text)
                for late in ("offer mtu u32 eth0 3.1 = 1500", "offer m mem tty 4.1 = 00ff0a"):
                    self.assertEqual((kept.line(late), store.line(late)), ("stale\n", "stale\n"))
            with keep.load(f"{folder}/none") as empty:
                self.assertEqual(len(empty), 0)


class Watch(unittest.TestCase):
    def test_it_prints_each_change(self):
        for real in kinds_of_servers():
            with self.subTest(real=real), served(real) as path:
                self.watch(path)

    def watch(self, path):
        """Sees that it prints what is held before, too, but no floor and no other label."""
        environment = {**os.environ, "PYTHONPATH": str(support.ROOT / "python")}
        with pengtawis.Client(path, PATIENCE) as client:
            client.ask("publish 0/2 new eth0 label 3.0 = 3/16")
            program = subprocess.Popen([sys.executable, WATCH, path], env=environment, stdout=subprocess.PIPE, text=True)
            said = queue.Queue()
            reader = threading.Thread(target=lambda: [said.put(it) for it in program.stdout])
            reader.start()
            try:
                self.assertEqual(said.get(timeout=PATIENCE), "eth0 is at 3/16\n")
                client.ask("publish 0/2 new tty label 1.0 = 1/17")
                client.ask("delete 0/2 eth0 label 3.1")
                self.assertEqual(said.get(timeout=PATIENCE), "eth0 is gone\n")
                client.ask("sweep 0/2 eth0 3")
                client.ask("publish 0/2 new eth0 label 4.0 = 4/16")
                self.assertEqual(said.get(timeout=PATIENCE), "eth0 is at 4/16\n")
            finally:
                program.terminate()
                program.wait()
                reader.join()
                program.stdout.close()
            self.assertTrue(said.empty())

    def test_no_server(self):
        environment = {**os.environ, "PYTHONPATH": str(support.ROOT / "python")}
        for words, status in (([], 1), (["/nowhere/at/all"], 1)):
            ran = subprocess.run([sys.executable, WATCH, *words], env=environment, capture_output=True, text=True)
            self.assertEqual((ran.returncode, ran.stdout), (status, ""))
            self.assertNotIn("Traceback", ran.stderr)
            self.assertTrue(ran.stderr.startswith("watch.py"), ran.stderr)


class Package(unittest.TestCase):
    def test_python_3_9_reads_it(self):
        for file in (*PACKAGE.glob("*.py"), *EXAMPLES.glob("*.py")):
            ast.parse(file.read_text(), feature_version=(3, 9))

    @unittest.skipUnless(shutil.which("mypy"), "mypy isn't found")
    def test_types(self):
        """Checks the package's types, and those that a caller sees."""
        with tempfile.TemporaryDirectory() as room:
            caller = pathlib.Path(room, "caller.py")
            caller.write_text(CALLER)
            words = ["mypy", "--strict", "--python-version", "3.9", "--cache-dir", os.devnull, PACKAGE, caller]
            ran = subprocess.run(words, env={**os.environ, "MYPYPATH": str(PACKAGE.parent)}, capture_output=True, text=True)
            self.assertEqual(ran.stdout.splitlines()[:-1], [f"{caller}:{line}: error: {what}" for line, what in WRONG], ran.stdout)

    @unittest.skipUnless(all(map(importlib.util.find_spec, TO_INSTALL)), f"one of {', '.join(TO_INSTALL)} isn't found")
    def test_pip_installs_it(self):
        with tempfile.TemporaryDirectory() as room:
            shutil.copytree(support.ROOT / "python", f"{room}/python")
            words = ["install", "--quiet", "--no-index", "--no-build-isolation", "--no-deps", "--target", f"{room}/to", f"{room}/python"]
            subprocess.run([sys.executable, "-m", "pip", *words], check=True, capture_output=True)
            there = sorted(it.name for it in pathlib.Path(room, "to", "pengtawis").iterdir() if it.is_file())
            self.assertEqual(there, sorted([it.name for it in PACKAGE.iterdir() if it.is_file()]))

    def test_the_library_is_found(self):
        """Looks at the argument, then at the variable, then at the places of ./install. Else the package says what to do."""
        library = os.environ["PENGTAWIS_LIBRARY"]
        with tempfile.TemporaryDirectory() as home:
            self.assertEqual(self.opened({"HOME": home}), "FileNotFoundError")
            os.makedirs(f"{home}/.local/lib/pengtawis")
            os.symlink(library, f"{home}/.local/lib/pengtawis/libds.so.1")
            self.assertEqual(self.opened({"HOME": home}), "opened")
            self.assertEqual(self.opened({"HOME": home, "PENGTAWIS_LIBRARY": "/nowhere/libds.so"}), "OSError")
            self.assertEqual(self.opened({"HOME": home, "PENGTAWIS_LIBRARY": "/nowhere/libds.so"}, library), "opened")

    def opened(self, variables, *library):
        """Returns what a process with these variables prints, which opens a store."""
        program = "import sys, pengtawis\nwith pengtawis.Store(library=(sys.argv[1:] or [None])[0]):\n    print('opened')"
        environment = {"PATH": os.environ["PATH"], "PYTHONPATH": str(support.ROOT / "python"), **variables}
        ran = subprocess.run([sys.executable, "-c", program, *library], env=environment, capture_output=True, text=True)
        return ran.stdout.strip() or ran.stderr.splitlines()[-1].partition(":")[0]
