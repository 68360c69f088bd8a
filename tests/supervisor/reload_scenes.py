"""Scenes of settings that are reloaded by SIGHUP while services run."""
import os
import pathlib
import re
import signal

from log_scenes import lines
from scenes import LIVES, scene
from supervisors import equal
from waiting import until

STAYS = "signal.signal(signal.SIGTERM, lambda *_: note('asked'))\nwhile True: time.sleep(1)\n"  # until SIGKILL


def described(label, unit, more=""):
    """Returns the settings of a driver."""
    return f'[[service]]\nlabel = "{label}"\nclass = "block"\nunit = {unit}\n{more}\n'


def reload(host, text):
    """Writes other settings, and lets the supervisor reload them."""
    (host.home / "settings.toml").write_text(text)
    host.process.send_signal(signal.SIGHUP)


def in_force(host, times=1):
    host.logged(f"settings {host.home}/settings.toml: in force", times)


def order(host, *words):
    """Returns the events that begin with these words, each with its label."""
    return [" ".join(it.split()[:2]) for it in host.events() if it.startswith(words)]


def catches(host, label):
    """Waits until the service has a handler of SIGTERM."""

    def does():
        caught = re.search(r"SigCgt:\s*(\w+)", pathlib.Path(f"/proc/{host.pid(label)}/status").read_text())
        return int(caught[1], 16) >> signal.SIGTERM - 1 & 1

    until(does, f"{label} is ready")


@scene
def unchanged_services_keep_their_process(host):
    """Unchanged services keep endpoint and failures; their order in the file may change. New ones start, unless a file keeps them down."""
    for label in "abcd":
        host.service(label, LIVES)
    host.start(settings=described("a", 0, "limit = 5") + described("b", 1, "period = 3000"))
    host.logged("began b 2/17")
    os.kill(host.pid("a"), signal.SIGKILL)
    host.logged("began a 3/16")
    equal(host.ask('subscribe 120 ".*" 15 later new').split()[0], "subscribed")
    before = {label: host.pid(label) for label in "ab"}
    (host.home / "services/d/down").touch()
    reload(host, described("d", 4) + described("c", 3) + described("b", 1, "period = 3000") + described("a", 0, "limit = 9"))
    host.logged("began c 4/18")
    in_force(host)
    equal(list(host.status()), ["d", "c", "b", "a"])
    equal({label: host.pid(label) for label in "ab"}, before)
    equal([host.status()[label][1] for label in "dcba"], ["-", "4/18", "2/17", "3/16"])
    equal((host.status()["a"][4], host.status()["d"][0]), ("1", "down"))
    equal(host.ask("check 120 8").split("\n")[0], "c label rs 4.0 = 4/18")
    equal(order(host, "kill", "gone"), ["gone a"])
    os.kill(before["a"], signal.SIGKILL)
    host.logged("began a 5/16")
    equal(host.status()["a"][4], "2")
    host.end()
    equal(order(host, "kill"), ["kill a", "kill b", "kill c"])


@scene
def changed_services_get_another_instance(host):
    """A service gets another instance if its period, class or unit changes. Other changes apply to the running instance."""
    body = 'note("usec " + os.environ.get("WATCHDOG_USEC", "none") + " sub " + os.environ.get("DS_SUB", "none"))\n'
    says = body + 'while ask(f"publish {me} over {label}.n u32 {generation}.1 = 5") != "taken": time.sleep(0.01)\nnote("published")\nlive()\n'
    for label in "abcd":
        host.service(label, says if label == "d" else body + LIVES)
    host.start(settings=described("a", 0) + described("b", 1) + described("c", 2) + described("d", 3, "limit = 3"))
    for label in "abcd":
        host.noted(f"{label} {'abcd'.index(label) + 1}/{'abcd'.index(label) + 16} usec none sub none")
    pid = host.pid("d")
    changed = described("a", 0, "period = 3000") + described("b", 7) + '[[service]]\nlabel = "c"\nclass = "server"\n'
    reload(host, changed + described("d", 3, 'publishes = ["d.n"]'))
    host.noted("a 5/16 usec 60000000 sub none")
    host.noted("b 6/17 usec none sub none")
    host.noted("c 7/18 usec none sub 0")
    host.noted("d 4/19 published")
    equal(host.pid("d"), pid)
    equal(sorted(it for it in host.events() if it.startswith("kill")), [f"kill {it} cause 6" for it in ("a 1/16", "b 2/17", "c 3/18")])
    host.end()


@scene
def removed_services_go_down_first(host):
    """Removed services have their grace, and their log programs read everything. New services start once nothing is left of them."""
    host.service("a", STAYS.replace("note('asked')", "(note('asked'), print('bye', flush=True))"))
    host.service("a/log", "#!/bin/sh\ncat > out\necho end >> out\n")
    host.service("n", LIVES)
    host.start({"a": ({}, None), "b": ({}, LIVES)}, options=("--grace", "4000"))
    catches(host, "a")
    reload(host, described("b", 1) + described("n", 0))
    host.logged("began n 3/16")
    in_force(host)
    equal(order(host, "kill", "gone", "began"), ["began a", "began b", "kill a", "gone a", "began n"])
    assert "asked" in host.notes(), host.notes()
    equal([host.ask(f"retrieve {it} label") for it in "abn"], ["refused notfound", "found 2/17", "found 3/16"])
    equal(host.ask("service up a"), "refused unknownlabel")
    until(lambda: lines(host)[-1:] == ["end"], "its log program ends")
    equal(lines(host), ["bye", "end"])
    reload(host, "service = []\n")
    in_force(host, 2)
    equal(host.status(), {})
    reload(host, described("a", 0))
    host.logged("began a 4/")
    equal(list(host.status()), ["a"])
    host.end()


@scene
def settings_that_change_nothing(host):
    """Settings with a fault, too few slots, or no change stop no service. A fault is logged with its line or service."""
    host.start({"a": ({}, LIVES), "b": ({}, LIVES)})
    host.logged("began b 2/17")
    path = host.home / "settings.toml"
    good = path.read_text()
    pids = [host.pid(it) for it in "ab"]
    for text, why in (
        ("slots = 4\nservice\n", "line 2: toml"),
        (described("c", 1) + "[[service]]\n", "service 1, counted from 0: missing"),
        (described(".c", 1), "a label begins with a dot"),
        ("slots = 63\n" + described("c", 1), "noslot"),
        (good, "they are in use"),
        ("", "no service"),
    ):
        reload(host, text)
        host.logged(f"settings {path}: {why}")
    reload(host, "slots = 64\n# service = []\n")
    host.logged(f"settings {path}: no service", 2)
    path.unlink()
    host.process.send_signal(signal.SIGHUP)
    host.logged(f"settings {path}: No such file")
    assert not order(host, "kill", "gone") and not host.has_logged(f"settings {path}: in force"), host.log()
    equal(([host.pid(it) for it in "ab"], list(host.status())), (pids, ["a", "b"]))
    host.end()


@scene
def reloads_in_a_row(host):
    """The next reload replaces one that isn't done. A service that it took down starts again if it is in the settings again."""
    host.service("c", LIVES)
    host.start({"a": ({}, STAYS), "b": ({}, LIVES)}, options=("--grace", "5000"))
    host.logged("began b 2/17")
    good = (host.home / "settings.toml").read_text()
    pid = host.pid("b")
    catches(host, "a")
    reload(host, described("b", 1))
    host.logged("kill a 1/16")
    reload(host, described("b", 1) + described("a", 0) + described("c", 2))
    host.logged("began a 3/")
    host.logged("began c 4/")
    in_force(host)
    equal(order(host, "kill", "gone", "settings"), ["kill a", f"settings {host.home}/settings.toml:", "gone a"])
    catches(host, "a")
    now = (host.home / "settings.toml").read_text()
    reload(host, good.replace('"a"', '"d"'))
    host.logged("kill a 3/")
    reload(host, now)
    host.logged("began a 5/")
    equal((list(host.status()), host.pid("b")), (["b", "a", "c"], pid))
    reload(host, described("c", 2))
    host.process.send_signal(signal.SIGHUP)
    in_force(host, 2)
    equal(list(host.status()), ["c"])
    host.end()


@scene
def servers_keep_their_numbers(host):
    """A server keeps its subscription numbers, and a new server gets others."""
    server = 'note("sub " + os.environ["DS_SUB"])\nnote(ask(f\'subscribe {os.environ["DS_SUB"]} "b" 1 later new\'))\nlive()\n'
    describe = '[[service]]\nlabel = "{}"\nclass = "server"\n'.format
    for label in "fgh":
        host.service(label, server)
    host.service("b", LIVES)
    host.start(settings=describe("f") + describe("g"))
    host.noted("f 1/16 subscribed")
    host.noted("g 2/17 subscribed")
    reload(host, describe("h") + describe("g") + described("b", 0))
    host.noted("h 3/16 sub 16")
    host.noted("h 3/16 subscribed")
    host.ask("service refresh g")
    host.noted("g 5/17 sub 8")
    equal(sorted(it for it in host.notes().splitlines() if "sub " in it)[:2], ["f 1/16 sub 0", "g 2/17 sub 8"])
    host.end()
