"""Scenes of what a supervisor does with cgroups. They need a cgroup of version 2 in which this user may make others."""
import contextlib
import os
import pathlib
import signal
import subprocess
import time

from scenes import LIVES, scene
from supervisors import Skipped, equal, lives
from waiting import until

# Starts processes that leave the service's group, session and environment: a chain of sessions, whose last process notes its number.
CHAIN = """
import os, sys, time
if os.fork(): os._exit(0)
for _ in range(40):
    os.setsid()
    if os.fork(): time.sleep(1000)
open("../../notes", "a").write(f"{sys.argv[1]} left {os.getpid()}\\n")
time.sleep(1000)
"""
LEAVES = f"""
def leave():
    subprocess.run(["/usr/bin/env", "-i", sys.executable, "-c", {CHAIN!r}, label + " " + me])
"""
SOON = 20  # seconds, too few to kill a chain link by link


def mounted():
    """Returns where cgroups of version 2 are mounted."""
    for line in pathlib.Path("/proc/self/mountinfo").read_text().splitlines():
        before, _, after = line.partition(" - ")
        if after.startswith("cgroup2 "):
            return pathlib.Path(before.split()[4])
    raise Skipped("no cgroup of version 2 is mounted")


def own():
    """Returns the path of this process's cgroup in its hierarchy."""
    return next(line[4:] for line in pathlib.Path("/proc/self/cgroup").read_text().splitlines() if line.startswith("0::/"))


@contextlib.contextmanager
def cgroup(host):
    """Makes a cgroup of this test's own, and removes it in the end, with all that is in it."""
    path = mounted() / own() / f"dsrs-test-{os.getpid()}-{host.home.name}"
    try:
        path.mkdir()
    except OSError as why:
        raise Skipped(f"no cgroup can be made: {why.strerror}") from None
    try:
        yield path
    finally:
        host.kill()
        for it in [*path.rglob("*/"), path]:
            if (it / "cgroup.kill").exists():
                (it / "cgroup.kill").write_text("1")
        until(lambda: removed(path), "the cgroup is empty")


def removed(path):
    try:
        for it in [*sorted((it for it in path.rglob("*") if it.is_dir()), reverse=True), path]:
            it.rmdir()
        return True
    except OSError:
        return False


def below(path):
    return sorted(it.name for it in path.iterdir() if it.is_dir())


@scene
def a_cgroup_for_each_instance(host):
    """Each instance begins in a cgroup of its own, which is removed after it."""
    body = 'note("in " + open("/proc/self/cgroup").read().split("0::")[1].split()[0])\nlive()\n'
    with cgroup(host) as path:
        host.start({"a": ({}, body), "b": ({"limit": 3}, body)}, options=("--cgroup", path))
        for endpoint, name in (("a 1/16", "1.16"), ("b 2/17", "2.17")):
            assert host.noted(f"{endpoint} in").endswith(f"{path.name}/{name}"), host.notes()
        os.kill(host.pid("b"), signal.SIGKILL)
        host.noted("b 3/17 in")
        equal(below(path), ["1.16", "3.17"])
        host.end()
        equal(below(path), [])


@scene
def nothing_gets_out_of_a_cgroup(host):
    """A process that left group, session and environment ends at once with its instance, before the next one starts, and not earlier."""
    body = LEAVES + '''
left = [int(it.split()[-1]) for it in open("../../notes").read().splitlines() if " left " in it] if os.path.exists("../../notes") else []
note("older " + str(any(os.path.exists(f"/proc/{pid}/exe") and os.readlink(f"/proc/{pid}/exe") for pid in left)))
leave()
live()
'''
    with cgroup(host) as path:
        host.start({"a": ({"limit": 9}, body), "b": ({"limit": 9}, LIVES)}, options=("--cgroup", path))
        pid = int(host.noted("a 1/16 left").split()[-1])
        os.kill(host.pid("b"), signal.SIGKILL)
        host.logged("began b 3/17")
        time.sleep(1.2)
        assert lives(pid) and not host.has_logged("stray"), f"it ends before its instance: {host.log()[-500:]}"
        os.kill(host.pid("a"), signal.SIGKILL)
        host.noted("a 4/16 older False")
        assert host.when("began a 4/16") - host.when("died a 1/16") < SOON, "it isn't killed at once"
        assert not lives(pid), "it outlives its instance"
        pid = int(host.noted("a 4/16 left").split()[-1])
        host.ask("service down a")
        host.logged("gone a 4/16")
        assert not lives(pid), "it outlives its instance"
        host.end()


@scene
def the_next_run_ends_what_is_left(host):
    """After a SIGKILL of the supervisor, the next run ends what the services left, before it starts any."""
    with cgroup(host) as path:
        host.start({"a": ({}, LEAVES + "leave()\nlive()\n")}, options=("--cgroup", path))
        pid = int(host.noted("a 1/16 left").split()[-1])
        host.kill()
        assert lives(pid), "it ended with the supervisor"
        host.start(options=("--cgroup", path))
        host.logged("began a", 2)
        assert not lives(pid), "it outlives the run"
        host.logged("left what an earlier run had in the cgroup 1.16 is gone")
        host.end()


@scene
def a_cgroup_that_is_refused(host):
    """A folder that isn't a cgroup, or that another supervisor uses, is reported, and nothing starts."""
    with cgroup(host) as path:
        for folder, word in ((host.home, "isn't a cgroup"), (host.home / "none", "No such file")):
            host.start({"a": ({}, LIVES)}, options=("--cgroup", folder))
            host.ended(3)
            assert word in host.log().splitlines()[-1], host.log()
        host.start(options=("--cgroup", path))
        host.ask("status")
        first, socket_path = host.process, host.path
        host.path = host.home / "other"
        host.start(options=("--cgroup", path, "--generations", host.home / "other-generation"))
        host.ended(3)
        assert "another one uses it" in host.log(), host.log()
        host.process, host.path, host.clients = first, socket_path, {}
        host.end()


@scene
def a_delegated_cgroup_is_used(host):
    """Without an option dsrs uses its own cgroup, if systemd's mark is on it."""
    with cgroup(host) as path:
        enter = ["sh", "-c", 'echo $$ > "$0/cgroup.procs" && exec "$@"', str(path)]
        words, host.words = host.words, [*enter, *host.words]
        host.start({"a": ({}, LIVES)})
        host.logged("began a")
        equal(below(path), [])
        host.end()
        if subprocess.run(["sh", "-c", "exec python3 -c 'import os, sys; os.setxattr(sys.argv[1], \"trusted.delegate\", b\"1\")' \"$0\"", path], stderr=subprocess.DEVNULL).returncode:
            raise Skipped("no mark can be set")
        host.start()
        host.logged("began a", 2)
        equal(len(below(path)), 1)
        host.end()
        host.words = words
