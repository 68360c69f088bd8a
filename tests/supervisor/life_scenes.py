"""Scenes of the life of processes: numbers, groups, graces, shortages, and what a killed supervisor left."""
import fcntl
import os
import pathlib
import resource
import signal
import subprocess
import time

import refusal_scenes
from scenes import asked, scene, used
from supervisors import Skipped, equal, lives
from waiting import PATIENCE, until

SLEEPS = "#!/bin/sh\nexec sleep 1000\n"

# Locks a file of its service without waiting, and notes whether another instance had it. Then it sleeps.
LOCKS = """
import fcntl, os, sys, time
lock = open(sys.argv[1] + "/lock", "a+")
try: fcntl.flock(lock, fcntl.LOCK_EX | fcntl.LOCK_NB); how = "alone"
except OSError: how = "TWO AT ONCE"
with open(sys.argv[1] + "/locked", "a") as notes: notes.write(f"{os.environ['DS_ENDPOINT']} {how}\\n")
"""


# ---- after a kill of the supervisor ----


def locked(host, label, times):
    """Waits until this many instances of a service have noted how they found its lock, and returns these notes."""
    path = host.home / "services" / label / "locked"
    found = lambda: path.read_text().splitlines() if path.exists() else []  # noqa: E731
    return until(lambda: found() if len(found()) >= times else None, lambda: f"{label} begins {times} times: {found()} {host.log()[-500:]}")


@scene
def a_killed_supervisor_leaves_nobody_beside_the_next(host):
    """After a SIGKILL of the supervisor, what its services left ends before the next run starts them: a child of a shell, a worker, a daemon."""
    program = f"python3 -S {host.home}/locks.py $PWD"
    (host.home / "locks.py").write_text(LOCKS + "time.sleep(1000)\n")
    shapes = {
        "plain": f"#!/bin/sh\nexec {program}\n",
        "shell": f"#!/bin/sh\n{program}\nexit 1\n",
        "worker": f"#!/bin/sh\n{program} &\nexec sleep 1000\n",
        "daemon": f"#!/bin/sh\nsetsid {program} &\nexec sleep 1000\n",
    }
    if not os.geteuid():
        shapes["user"] = f"#!/bin/sh\nexec setpriv --reuid=65534 {program}\n"
        os.chmod(host.home, 0o711)
    host.start({label: ({"limit": 9}, body) for label, body in shapes.items()})
    for label in shapes:
        (host.home / "services" / label).chmod(0o777)
    for times in (1, 2, 3):
        for label in shapes:
            notes = locked(host, label, times)
            assert "TWO" not in notes[-1], f"{label}: {notes}"
        host.kill()
        host.start()
    host.ask("status")
    host.end()


@scene
def a_child_that_has_not_begun_holds_up_no_start(host):
    """A child of a killed supervisor has its socket and its lock until it executes the program. The next run waits for that."""
    host.start({"a": ({}, SLEEPS)})
    host.logged("began a")
    lock = os.open(f"{host.path}.lock", os.O_RDWR)
    host.kill()
    fcntl.flock(lock, fcntl.LOCK_EX)
    host.start()
    time.sleep(0.3)
    assert host.process.poll() is None, host.log()
    os.close(lock)
    host.logged("began a", 2)
    host.end()


@scene
def a_process_that_takes_long_to_die_is_awaited(host):
    """A process that hides whose it is, as a dying one does, has the socket of its endpoint. The next run begins once it has ended."""
    hides = f"#!/bin/sh\nenv -i setsid sh -c 'touch {host.home}/hides; sleep 3; echo $? > {host.home}/slept' &\nexec sleep 1000\n"
    host.start({"a": ({}, hides)})
    host.logged("began a")
    until((host.home / "hides").exists, "it is there")
    host.kill()
    host.start({"a": ({}, SLEEPS)})
    host.logged("began a", 2)
    assert (host.home / "slept").exists(), "it begins beside what was left"
    host.end()


@scene
def settings_with_a_fault_end_nobody(host):
    """A start with broken settings ends nothing that an earlier run left. A start with good ones does."""
    host.start({"a": ({}, f"#!/bin/sh\nsetsid sh -c 'echo $$ > {host.home}/left; exec sleep 1000' &\nexec sleep 1000\n")})
    pid = int(until(lambda: (host.home / "left").exists() and (host.home / "left").read_text(), "it is there"))
    good = (host.home / "settings.toml").read_text()
    host.kill()
    host.start(settings="no toml\n")
    host.ended(3)
    assert lives(pid), "a start that was refused ended it"
    host.start(settings=good)
    host.logged("began a", 2)
    assert not lives(pid), "it lives beside the next run"
    host.end()


# ---- what is short ----


@scene
def what_is_short_is_waited_for(host):
    """No process, no socket, no space for one, for a while: services that can't start wait, and no failure counts."""
    short = host.home / "short"
    host.words = ["env", f"LD_PRELOAD={refusal_scenes.build(host)}", f"SHORT={short}", *host.words]
    labels = [f"s{number}" for number in range(4)]
    host.start({label: ({"limit": 2}, SLEEPS) for label in labels})
    for call in ("clone", "socketpair", "bind"):
        before = {label: host.pid(label) for label in labels}
        short.write_text(call)
        for label in labels:
            host.ask(f"service refresh {label}")
        until(lambda: all(host.status()[it][0] == "wants" for it in labels), lambda: f"they wait: {host.status()}")
        time.sleep(1)  # RS would have given them up
        equal([host.status()[it][0] for it in labels], ["wants"] * 4)
        begun = len([it for it in host.events() if it.startswith("began")])
        short.unlink()
        until(lambda: len([it for it in host.events() if it.startswith("began")]) == begun + 4, "they begin, though nobody asks")
        for label in labels:
            assert host.pid(label) != before[label], host.status()
    equal([host.status()[it][4] for it in labels], ["0"] * 4)
    host.logged("short s0")
    assert not host.has_logged("nostart") and not host.has_logged("died"), host.log()
    host.end()


@scene
def few_descriptors(host):
    """If there aren't descriptors for all, some services wait, clients are served, and no failure counts. With more descriptors all begin."""
    host.words = ["prlimit", "--nofile=70:200", *host.words]
    host.start({f"s{i}": ({"limit": 2}, SLEEPS) for i in range(12)})
    host.logged("descriptors 70 are allowed")
    host.logged("short s")
    states = {it[0] for it in host.status().values()}
    equal(states, {"up", "wants"})
    equal(asked(host, host.path, "retrieve s0 label"), (0, "found 1/16\n", ""))
    resource.prlimit(host.process.pid, resource.RLIMIT_NOFILE, (200, 200))
    until(lambda: all(it[2] != "-" for it in host.status().values()), lambda: f"all begin: {host.status()}")
    equal({it[4] for it in host.status().values()}, {"0"})
    assert not host.has_logged("nostart"), host.log()
    host.end()


@scene
def descriptors_for_lines_are_looked_for_again(host):
    """A service for whose pipe there were no descriptors gets one when it is started again. The log programs of others are still known."""
    host.words = ["prlimit", "--nofile=28:200", *host.words]
    host.service("s00/log", "#!/bin/sh\nexec cat >> out\n")
    host.start({f"s{i:02}": ({}, "#!/bin/sh\necho prints\nexec sleep 1000\n") for i in range(12)})
    host.logged("short s11")
    equal({it[0] for it in host.status().values()}, {"wants"})
    resource.prlimit(host.process.pid, resource.RLIMIT_NOFILE, (200, 200))
    host.logged("began s11")
    until(lambda: "\nprints\n" in host.log(), "it prints to the standard error of the supervisor")
    host.ask("service refresh s11")
    until(lambda: "\ns11: prints\n" in host.log(), "it prints to a pipe")
    reader = until(lambda: host.processes_named("cat"), "the log program reads")[0]
    time.sleep(1.2)  # strays are looked for at once then
    os.kill(reader, signal.SIGKILL)
    host.logged("nolog s00 signal 9")
    host.end()


# ---- a number that comes again ----

# In a namespace of its own: gives each number that is freed at once to the next process, and prints how long the supervisor takes to end.
AGAIN = """
import os, signal, subprocess, sys, time
dsrs = subprocess.Popen(sys.argv[1:])
forcing = os.fork()
if not forcing:
    last = os.open("/proc/sys/kernel/ns_last_pid", os.O_WRONLY)
    while True:
        try: os.pwrite(last, b"300", 0)
        except OSError: pass
        time.sleep(0.0005)
time.sleep(3)
end = time.monotonic() + 60
while not os.path.exists(GENERATIONS) or int(open(GENERATIONS).read() or 0) <= LEAST and time.monotonic() < end: time.sleep(0.1)
os.kill(forcing, signal.SIGKILL)
os.waitpid(forcing, 0)
begun = time.monotonic()
dsrs.send_signal(signal.SIGTERM)
try: print("ended", dsrs.wait(40), time.monotonic() - begun < 30)
except subprocess.TimeoutExpired: print("it doesn't end"), dsrs.kill()
"""


@scene
def a_number_that_comes_again_is_another_process(host):
    """The number of a process is given to the next one as soon as it is free. No service is lost by that, and the supervisor ends."""
    if os.geteuid() or subprocess.run(["unshare", "-pf", "--mount-proc", "test", "-w", "/proc/sys/kernel/ns_last_pid"]).returncode:
        raise Skipped("no namespace of numbers can be made")
    file, least = host.home / "services/.generation", 300
    text = AGAIN.replace("GENERATIONS", repr(str(file))).replace("LEAST", str(least))
    host.words = ["unshare", "-pf", "--mount-proc", "--kill-child", "python3", "-c", text, *host.words]
    host.start({f"s{number}": ({"limit": 1000}, "#!/bin/sh\nexit 1\n") for number in range(60)}, options=("--grace", "60000"))
    until(lambda: host.process.poll() is not None, "it ends", 2 * PATIENCE)
    host.ended(0)
    assert "ended 0 True\n" in host.log(), host.log()[-1000:]
    assert int(file.read_text()) > least, f"only {file.read_text()} starts"


# ---- graces ----


@scene
def a_grace_is_of_the_whole_group(host):
    """A process of the group that saves after SIGTERM may do so, though the first one ends at once. The next instance waits for it."""
    child = "import os, signal, time\ndef save(*_):\n    time.sleep(0.4)\n    open('saved', 'a').write('saved\\n')\n    os._exit(0)\nsignal.signal(signal.SIGTERM, save)\nopen('there', 'w')\nwhile True: time.sleep(1)\n"
    shapes = {"shell": "#!/bin/sh\npython3 ../../child.py\nexit 0\n", "worker": "#!/bin/sh\npython3 ../../child.py &\nexec sleep 1000\n"}
    (host.home / "child.py").write_text(child)
    host.start({label: ({}, body) for label, body in shapes.items()}, options=("--grace", "60000"))
    folder = host.home / "services"
    for label in shapes:
        until((folder / label / "there").exists, f"{label} is there")
        (folder / label / "there").unlink()
        begun = time.monotonic()
        host.ask(f"service refresh {label}")
        host.logged(f"began {label}", 2)
        assert (folder / label / "saved").exists(), "the next instance doesn't wait for it"
        assert time.monotonic() - begun < 30, "the whole grace is waited for"
        until((folder / label / "there").exists, f"{label} is there again")
    host.end()
    equal([(folder / label / "saved").read_text().count("saved") for label in shapes], [2, 2])


@scene
def a_group_that_stays_is_killed_after_its_grace(host):
    """What stays in a group without its first process is killed once the grace has passed."""
    host.start({"a": ({}, "#!/bin/sh\n(trap '' TERM; touch there; while :; do sleep 1; done) &\nexec sleep 1000\n")}, options=("--grace", "700"))
    until((host.home / "services/a/there").exists, "it is there")
    host.ask("service down a")
    host.logged("gone a")
    took = host.when("gone a") - host.when("kill a")
    assert 0.6 < took < 50, f"{took:.2f} s"
    host.end()


@scene
def a_service_that_is_stopped_sees_that_it_is_to_end(host):
    """SIGCONT comes with SIGTERM, so a stopped service ends itself within its grace."""
    host.start({"a": ({}, "signal.signal(signal.SIGTERM, lambda *_: (note('saves'), os._exit(0)))\nnote('there')\nwhile True: time.sleep(1)\n")}, options=("--grace", "60000"))
    host.noted("there")
    os.kill(host.pid("a"), signal.SIGSTOP)
    begun = time.monotonic()
    host.ask("service down a")
    host.noted("saves")
    host.logged("gone a")
    assert time.monotonic() - begun < 30, "it waits for the grace"
    host.end()


@scene
def all_services_have_one_grace(host):
    """Ten services that ignore SIGTERM, and a log program that stays, end within less than two graces."""
    ignores = "#!/bin/sh\ntrap '' TERM\ntouch there\nwhile :; do sleep 1000; done\n"
    host.service("s0/log", "#!/bin/sh\nwhile :; do sleep 1000; done\n")
    host.start({f"s{number}": ({}, ignores) for number in range(10)}, options=("--grace", "15000"))
    until(lambda: all((host.home / f"services/s{number}/there").exists() for number in range(10)), "all are there")
    begun = time.monotonic()
    host.end()
    took = time.monotonic() - begun
    assert 14.9 < took < 29, f"{took:.2f} s"


# ---- heartbeats ----


@scene
def a_start_that_waits_misses_no_heartbeat(host):
    """The next instance waits for the grace of the older one, longer than two periods. It isn't judged before it begins."""
    beats = "if me == '1/16': signal.signal(signal.SIGTERM, signal.SIG_IGN)\nnote('there')\nwhile True: notify('WATCHDOG=1'), time.sleep(0.05)\n"
    host.start({"a": ({"period": 800}, beats)}, options=("--grace", "20000"))
    host.noted("a 1/16 there")
    host.ask("service refresh a")
    equal(host.status()["a"][0], "wants")
    host.noted("a 2/16 there")
    time.sleep(1)
    equal([it for it in host.events() if it.startswith("kill")], ["kill a 1/16 cause 6"])
    state, _, _, _, failures, *_ = host.status()["a"]
    equal([state, failures], ["up", "0"])
    host.end()


# ---- what left a group ----


@scene
def a_daemon_ends_before_the_next_instance(host):
    """A process that left the group by a session of its own ends with its instance, however that ends, and the next one begins after it."""
    (host.home / "locks.py").write_text(LOCKS + "time.sleep(1000)\n")
    daemon = f"#!/bin/sh\nsetsid setsid python3 -S {host.home}/locks.py $PWD &\nexec sleep 1000\n"
    host.start({label: ({"limit": 99}, daemon) for label in "ab"})
    for times in range(1, 8):
        for label in "ab":
            notes = locked(host, label, times)
            assert "TWO" not in notes[-1], f"{label}: {notes}"
        host.ask("service refresh a")
        os.kill(host.pid("b"), signal.SIGKILL)
    host.end()


# A marked process, whose parent hides for a while whose it is. So it becomes a child of the supervisor after the end of its instance.
LATE = "#!/bin/sh\nsetsid sh -c 'setsid sh -c \"echo \\$\\$ > late; exec sleep 1000\" & echo $$ > parent; exec env -i sleep SECONDS' &\nexec sleep 1000\n"


def late_stray(host, seconds, others="b"):
    """Starts a service with a process like that, kills the service once they are there, and returns the process after its parent has ended."""
    host.start({"a": ({}, LATE.replace("SECONDS", str(seconds))), **{label: ({}, SLEEPS) for label in others}})
    folder = host.home / "services" / "a"
    late, parent = (int(until(lambda: (folder / it).exists() and (folder / it).read_text(), f"{it} is there")) for it in ("late", "parent"))
    os.kill(host.pid("a"), signal.SIGKILL)
    host.logged("gone a")
    until(lambda: not lives(parent), "its parent ends")
    return late


@scene
def a_late_stray_is_killed(host):
    """A process that becomes a child of the supervisor after the end of its instance is killed within a second."""
    pid = late_stray(host, 1)
    until(lambda: not lives(pid), "it is killed")
    host.logged(f"stray pid {pid} is killed")
    host.end()


@scene
def a_late_stray_ends_before_the_supervisor(host):
    """The supervisor gets its signal before it looks for strays again."""
    late_stray(host, 0.4)
    host.end()


@scene
def a_late_stray_ends_before_a_supervisor_of_nothing(host):
    """No service runs any more, so nothing but the end of the supervisor has strays looked for."""
    late_stray(host, 0.4, others="")
    host.end()


# ---- how often it looks ----


@scene
def stops_and_continuations_cost_little(host):
    """A process that stops and continues its service reports each of that to the supervisor, which doesn't look for strays each time."""
    stops = "#!/bin/sh\n(while :; do kill -STOP $$; kill -CONT $$; sleep 0.002; done) &\nexec sleep 1000\n"
    host.start({"a": ({}, stops)})
    host.logged("began a")
    time.sleep(1)
    before, turns = read_calls(host.process.pid), used(host.process.pid)[1]
    time.sleep(2)
    until(lambda: used(host.process.pid)[1] - turns > 50, "it is woken")
    count, turns = read_calls(host.process.pid) - before, used(host.process.pid)[1] - turns
    assert count < 3 * turns + 100, f"{count} readings in {turns} turns"
    host.end()


def read_calls(pid):
    return int(pathlib.Path(f"/proc/{pid}/io").read_text().split("syscr: ")[1].split()[0])


# ---- what is left out of settings ----


@scene
def descendants_that_print_without_end_hold_up_no_reload(host):
    """A service is left out of the settings, and processes that it started, and that hide whose they are, print without end."""
    chain = "setsid sh -c 'setsid sh -c \"setsid yes & exec sleep 200\" & exec sleep 200'"
    prints = f"#!/bin/sh\nenv -i {chain} &\nexec sleep 1000\n"
    host.start({"keep": ({"limit": 9}, SLEEPS), "leave": ({}, prints)}, options=("--grace", "300"))
    until(lambda: "leave: y\n" in host.log()[-100:], "it prints")
    kept = (host.home / "settings.toml").read_text().split("[[service]]")[1]
    (host.home / "settings.toml").write_text(f"[[service]]{kept}")
    pid = host.pid("keep")
    host.process.send_signal(signal.SIGHUP)
    in_force = f'text="{host.home}/settings.toml: in force"'
    until(lambda: tail(host, in_force), "the settings are in force")
    os.kill(pid, signal.SIGKILL)
    until(lambda: host.pid("keep") != pid, "it serves")
    host.end()


def tail(host, text):
    """Whether a text is in the last megabyte of the log."""
    with open(host.home / "log", "rb") as log:
        log.seek(max(0, os.path.getsize(host.home / "log") - (1 << 20)))
        return text.encode() in log.read()
