"""Scenes of what a supervisor must do. A scene gets a Host, and starts its supervisor."""
import json
import os
import pathlib
import re
import shutil
import signal
import socket
import subprocess
import sys
import time

from supervisors import ROOT, Skipped, equal, lives, name_of
from waiting import PATIENCE, until

LIVES = "live()\n"
SCENES = []


def scene(function):
    SCENES.append(function)
    return function


# ---- rights ----


@scene
def who_holds_the_socket_is_the_instance(host):
    """An instance publishes only under its own endpoint, and only what its settings name. No client publishes, and none acts as RS."""
    body = '''
note("own " + ask(f"publish {me} new {label}.n u32 {generation}.1 = 5"))
note("other " + ask("publish 1/16 over a.n u32 1.2 = 6" if label == "b" else "publish 2/17 new b.n u32 2.2 = 6"))
note("rs " + ask("publish 0/2 new x label 9.0 = 9/20"))
note("unnamed " + ask(f"publish {me} new {label}.m u32 {generation}.1 = 5"))
note("label " + ask(f"publish {me} new {label}.n label {generation}.0 = {me}"))
for line in ("sweep 0/2 a 1", "offer x u32 a 1.5 = 5", "side b", "death 1/16 1 5", "tick 9", "settings slots = 1"):
    note(line.split()[0] + " " + ask(line))
note("service " + ask("service down a"))
live()
'''
    host.start({label: ({"publishes": [f"{label}.n"]}, body) for label in "ab"})
    for of in ("a 1/16", "b 2/17"):
        host.noted(f"{of} service refused notallowed")
        for line in ("own taken", "other refused notsender", "rs refused notsender", "unnamed refused notallowed", "label refused notallowed"):
            assert f"{of} {line}" in host.notes(), f"{of} {line}: {host.notes()}"
        for word in ("sweep", "offer", "side", "death", "tick", "settings"):
            assert f"{of} {word} norequest" in host.notes(), host.notes()
    equal(host.ask("publish 1/16 over a.n u32 1.2 = 6"), "refused notsender")
    equal(host.ask("retrieve a.n u32"), "found 5")
    equal(host.ask("beat"), "norequest")
    host.end()


@scene
def another_user_may_read_and_no_more(host):
    if os.geteuid():
        raise Skipped("only root may become another user")
    host.start({"d": ({}, LIVES)})
    equal(host.ask("retrieve d label"), "found 1/16")
    script = '''
import os, socket, sys
os.setuid(65534)
it = socket.socket(socket.AF_UNIX)
it.connect(sys.argv[1])
it.sendall(b"retrieve d label\\nservice down d\\ncomplain 1/16\\n")
it.shutdown(1)
while some := it.recv(9999): print(some.decode(), end="")
'''
    os.chmod(host.home, 0o711)
    said = subprocess.run(["python3", "-c", script, host.path], capture_output=True, text=True)
    equal(said.stdout, "found 1/16\n\nrefused notallowed\n\nrefused notallowed\n\n")
    assert host.ask("service down d").startswith("kill 1/16")
    host.end()


@scene
def complaints(host):
    """A server complains about a driver's instance by its endpoint, so a late complaint hits no newer instance."""
    server = '''
while not os.path.exists("../../notes") or "driver" not in open("../../notes").read(): time.sleep(0.01)
note("self " + ask("complain 2/17"))
note("first " + ask("complain 1/16").replace("\\n", "|"))
while ask("retrieve d label") != "found 3/16": time.sleep(0.01)
note("late " + ask("complain 1/16"))
note("label " + ask("complain d"))
live()
'''
    driver = 'if me == "1/16": note("driver " + ask("complain 1/16"))\nlive()\n'
    host.start({"d": ({"limit": 5}, driver), "f": ({"class": "server"}, server)})
    host.noted("d 1/16 driver refused notallowed")
    host.noted("label refused oldendpoint")
    for line in ("self refused notallowed", "first kill 1/16|offer d label rs 1.1 -|taken", "late refused oldendpoint"):
        assert f"f 2/17 {line}" in host.notes(), host.notes()
    host.logged("began d 3/16")
    equal(host.status()["d"][5], "5")
    equal(host.ask("complain 3/16"), "refused notallowed")
    host.end()


def last_lines(host, lines):
    """An instance sends lines and a complaint, and dies while the supervisor is stopped, which then sees both at once."""
    body = f"""
note(f"pid {{os.getpid()}}")
while not os.path.exists("../../go"): time.sleep(0.01)
dsrs.setsockopt(socket.SOL_SOCKET, socket.SO_SNDBUF, 1 << 20)
dsrs.sendall({lines} + b"complain 1/16\\n")
os._exit(0)
"""
    host.start({"d": ({"limit": 1}, LIVES), "f": ({"class": "server"}, body)})
    pid = int(host.noted("f 2/17 pid").split()[-1])
    host.process.send_signal(signal.SIGSTOP)
    (host.home / "go").touch()
    until(lambda: not lives(pid), "it ends")
    host.process.send_signal(signal.SIGCONT)
    host.logged("complaint d 1/16 by f")
    host.logged("began d 3/")
    host.end()


@scene
def last_lines_are_answered(host):
    """All lines that an instance sent before it died are carried out."""
    last_lines(host, 'b"show\\n" * 900')


@scene
def last_lines_that_fill_each_reading_are_answered(host):
    """Each reading of the supervisor takes whole lines, and leaves no bytes for the next."""
    last_lines(host, '(b"#" * 63 + b"\\n") * 3072')


@scene
def notices_and_subscriptions(host):
    server = '''
note("other " + ask('subscribe 8 ".*" 15 first new'))
note("own " + ask('subscribe 0 "d" 1 first new').split("\\n")[0])
note(ask("listen 0"))
note("check " + ask("check 0 8").replace("\\n", "|"))
while True:
    if hear() == "notice 0": note("noticed " + ask("check 0 8").replace("\\n", "|"))
'''
    host.start({"d": ({"limit": 5}, LIVES), "f": ({"class": "server"}, server)})
    host.noted("check d label rs 1.0 = 1/16|checked 1 1 2")
    assert "other refused notallowed" in host.notes() and "own subscribed 1" in host.notes(), host.notes()
    host.ask("service refresh d")
    host.noted("noticed ! d 1|d label rs 3.0 = 3/16|checked 2 2 3")
    equal(host.ask('subscribe 120 ".*" 15 later new', 1).split()[0], "subscribed")
    equal(host.ask('subscribe 120 ".*" 15 later over', 2), "refused notallowed")
    equal(host.ask('subscribe 0 ".*" 15 later over', 2), "refused notallowed")
    host.clients.pop(1).close()
    until(lambda: host.ask('subscribe 120 ".*" 15 later over', 2).startswith("subscribed"), "the lease ends")
    equal(host.ask("listen 120", 2), "listening 120")
    equal(host.ask("listen 120 1", 2).split()[0], "badline")
    host.end()


@scene
def a_sixteenth_server_has_no_subscriptions(host):
    """Fifteen servers have eight subscriptions each, and the public the last eight. A further server has none."""
    body = 'note(f"sub {os.environ.get(\'DS_SUB\')} " + ask("subscribe 0 \\"d\\" 1 first new").split("\\n")[0])\nlive()\n'
    host.start({f"s{number:02}": ({"class": "server"}, body) for number in range(16)})
    host.noted("s15 16/31 sub None refused notallowed")
    subs = {line.split()[3] for line in (host.noted(f"s{number:02} ") for number in range(15))}
    equal(subs, {str(8 * number) for number in range(15)})
    host.end()


@scene
def lines_that_are_none(host):
    host.start({"a": ({}, LIVES)})
    equal(host.ask("retrieve a"), "badline 1 10")
    equal(host.ask("x" * 5000), "badline 2 4096")
    equal(host.ask(""), "norequest")
    equal(host.ask("show 1"), "badline 4 4")
    equal(host.ask("service up nobody"), "refused unknownlabel")
    equal(host.ask("service up " + 65 * "x"), "norequest")
    equal(host.ask("service up a 5"), "norequest")
    assert host.ask("service over a").startswith("badline"), "an unknown verb is accepted"
    equal(host.ask("retrieve a label"), "found 1/16")
    it = host.client("half")
    it.sendall(b"retrieve a label\nservice down a")
    it.shutdown(socket.SHUT_WR)
    said = b""
    while some := it.recv(9999):
        said += some
    equal(said, b"found 1/16\n\n")
    host.end()


# ---- processes ----


@scene
def inherits_nothing(host):
    body = '''
note("blocked " + str(signal.pthread_sigmask(signal.SIG_BLOCK, [])))
note("ignored " + open("/proc/self/status").read().split("SigIgn:")[1].split()[0])
note("group " + str(os.getpid() == os.getpgid(0) == os.getsid(0)))
note("files " + " ".join(sorted(it for it in os.listdir("/proc/self/fd") if os.path.exists(f"/proc/self/fd/{it}"))))
live()
'''
    host.start({"a": ({}, body)})
    host.noted("files 0 1 2 3 4 5")  # 5: Python's own copy of 3
    for line in ("blocked set()", "ignored 0000000001001000", "group True"):  # Python itself ignores SIGPIPE and SIGXFSZ
        assert line in host.notes(), host.notes()
    host.end()


@scene
def tells_how_it_died(host):
    how = {"exit": "os._exit(7)", "done": "os._exit(0)", "abort": "os.abort()", "segv": "os.kill(os.getpid(), signal.SIGSEGV)",
           "ill": "os.kill(os.getpid(), signal.SIGILL)", "term": "os.kill(os.getpid(), signal.SIGTERM)", "kill": "os.kill(os.getpid(), signal.SIGKILL)"}
    causes = {"exit": "1 status 7", "done": "1 status 0", "abort": "1 signal 6", "segv": "2 signal 11", "ill": "2 signal 4", "term": "3 signal 15", "kill": "3 signal 9"}
    host.start({label: ({}, f"#!/usr/bin/env python3\nimport os, signal\n{body}\n") for label, body in how.items()})
    for label, cause in causes.items():
        assert host.logged(f"died {label} ").endswith(f"cause {cause}"), host.log()
        host.logged(f"givenup {label}")
        state, *_, number, _ = host.status()[label]
        equal([state, number], ["givenup", cause[0]])
    host.end()


@scene
def kills_the_whole_group_and_waits_for_it(host):
    body = '''
child = subprocess.Popen(["sh", "-c", "trap '' TERM; sleep 1000 & sleep 1000"])
note(f"child {child.pid}")
live()
'''
    host.start({"a": ({"limit": 1}, body)}, options=("--grace", "100"))
    child = int(host.noted("child").split()[-1])
    group = os.getpgid(child)
    found = lambda: [int(pid) for pid in os.listdir("/proc") if pid.isdigit() and is_in_group(pid, group)]  # noqa: E731
    members = until(lambda: found() if len(found()) == 4 else None, lambda: f"four are there: {found()}")
    assert host.ask("service refresh a").endswith("actions 5")
    host.logged("began a 2/16")
    assert not any(map(lives, members)), "an older instance still runs"
    child = int(host.noted("a 2/16 child").split()[-1])
    os.kill(host.pid("a"), signal.SIGKILL)
    host.logged("began a 3/16")
    assert not lives(child), "a dead process's child still runs"
    host.end()


def is_in_group(pid, group):
    try:
        return os.getpgid(int(pid)) == group
    except ProcessLookupError:
        return False


@scene
def what_is_told_to_go_down_may_end_itself(host):
    """`service down` sends SIGTERM, and SIGKILL after the grace."""
    body = '''
signal.signal(signal.SIGTERM, lambda *_: (note("asked to end"), os._exit(0) if label == "kind" else None))
note("there")
while True: time.sleep(1)
'''
    for label, grace, least, most in (("kind", 60000, 0, 50), ("rude", 8000, 7.8, 50)):  # Python may see a signal after its sleep only
        host.start({label: ({}, body)}, options=("--grace", str(grace)))
        endpoint = host.status()[label][1]
        host.noted(f"{label} {endpoint} there")
        host.ask(f"service down {label}")
        host.logged(f"gone {label}")
        took = host.when(f"gone {label}") - host.when(f"kill {label}")
        assert least <= took <= most, f"{label} took {took:.2f} s"
        host.noted(f"{label} {endpoint} asked to end")
        host.end()


@scene
def who_leaves_the_group_has_no_voice_and_is_killed(host):
    body = '''
if me == "1/16":
    first = os.getpid()
    if not os.fork():
        os.setsid()
        if not os.fork():
            note(f"stray {os.getpid()}")
            while os.path.exists(f"/proc/{first}/exe"): time.sleep(0.01)
            time.sleep(0.2)
            try: said = ask("publish 1/16 new a.late u32 1.7 = 5")
            except BaseException as why: said = repr(why)
            note("said " + said)
            time.sleep(1000)
        os._exit(0)
    os.wait()
    while not os.path.exists("../../notes") or "stray" not in open("../../notes").read(): time.sleep(0.01)
    os._exit(3)
live()
'''
    host.start({"a": ({"limit": 3, "publishes": ["a.late"]}, body)})
    host.logged("began a 2/16")
    stray = int(host.noted("stray").split()[-1])
    until(lambda: not lives(stray), "the stray is killed")
    host.logged(f"stray pid {stray} is killed")
    equal(host.ask("retrieve a.late u32"), "refused notfound")
    assert "said taken" not in host.notes(), host.notes()
    host.end()


@scene
def a_helper_of_a_living_instance_lives(host):
    """A helper that a service starts in a session of its own lives as long as its instance, whatever else dies."""
    helper = '''
if not os.fork():
    os.setsid()
    if not os.fork():
        note(f"helper {os.getpid()}")
        time.sleep(1000)
    os._exit(0)
os.wait()
live()
'''
    host.start({"a": ({}, helper), "b": ({"limit": 9}, LIVES)})
    pid = int(host.noted("helper").split()[-1])
    host.logged("began b 2/17")
    os.kill(host.pid("b"), signal.SIGKILL)
    host.logged("began b 3/17")
    time.sleep(0.7)
    assert lives(pid), host.log()
    host.ask("service down a")
    until(lambda: not lives(pid), "the helper ends with its instance")
    host.end()


@scene
def a_helper_lives_through_the_grace_of_its_instance(host):
    """A helper of an instance that goes down lives through its grace, though another service dies meanwhile."""
    helped = '''
def stop(*_):
    note("stops")
    while not os.path.exists("../../go"): time.sleep(0.01)
    os._exit(0)
signal.signal(signal.SIGTERM, stop)
if not os.fork():
    os.setsid()
    if not os.fork(): note(f"helper {os.getpid()}"), time.sleep(1000)
    os._exit(0)
os.wait()
while True: time.sleep(1)
'''
    leaves = "#!/bin/sh\nsetsid sleep 1000 &\nexec sleep 1000\n"
    host.start({"a": ({}, helped), "b": ({"limit": 9}, leaves)}, options=("--grace", "60000"))
    pid = int(host.noted("helper").split()[-1])
    until(lambda: len(host.processes_named("sleep")) == 2, "b and its stray are there")
    host.ask("service down a")
    host.noted("stops")
    os.kill(host.pid("b"), signal.SIGKILL)
    host.logged("stray")
    host.ask("status")  # after the turn in which strays are killed
    assert lives(pid) and not host.has_logged(f"stray pid {pid} "), host.log()
    (host.home / "go").touch()
    until(lambda: not lives(pid), "the helper ends with its instance")
    host.end()


@scene
def orphans_that_end_are_reaped(host):
    """Processes that a living instance left to the supervisor, and that have ended, don't stay as zombies."""
    host.start({"a": ({}, "#!/bin/sh\nfor i in $(seq 50); do (sleep 0.05 &); done\nsleep 0.3\ntouch ../../ended\nexec sleep 1000\n")})
    until((host.home / "ended").exists, "all have ended")
    until(lambda: "Z" not in states_of_children(host.process.pid), lambda: f"they are reaped: {states_of_children(host.process.pid)}")
    host.end()


def states_of_children(pid):
    """Returns the states of the children of a process, a letter for each, as the kernel has them."""
    found = ""
    for path in pathlib.Path("/proc").glob("[0-9]*/stat"):
        try:
            state, parent = path.read_text().rpartition(")")[2].split()[:2]
        except OSError:  # it ended meanwhile
            continue
        found += state if int(parent) == pid else ""
    return found


@scene
def children_from_before_the_supervisor_live(host):
    """A shell starts a process and then becomes the supervisor, which must not kill it."""
    file = host.home / "sidecar"
    host.words = ["sh", "-c", f'sleep 1000 & echo $! > {file}; exec "$@"', "sh", *host.words]
    host.start({"a": ({"limit": 9}, LIVES)})
    os.kill(host.pid("a"), signal.SIGKILL)
    host.logged("began a 2/16")
    time.sleep(0.7)
    pid = int(file.read_text())
    assert lives(pid), host.log()
    os.kill(pid, signal.SIGKILL)
    until(lambda: not lives(pid), "it ends")
    host.end()


@scene
def a_death_is_noticed_though_its_signal_was_ignored(host):
    """A supervisor that was started with SIGCHLD ignored notices deaths nevertheless."""
    host.words = ["env", "--ignore-signal=CHLD", *host.words]
    host.start({"a": ({"limit": 9}, LIVES)})
    os.kill(host.pid("a"), signal.SIGKILL)
    host.logged("began a 2/16")
    host.end()


@scene
def a_child_of_no_instance_lives(host):
    """A process that hides which instance began it becomes a child of the supervisor. It lives, whatever instance dies."""
    hides = "#!/bin/sh\nenv -i setsid sh -c 'sleep 1000 & echo $! > ../../hidden'\nexec sleep 1000\n"
    host.start({"a": ({"limit": 9}, hides), "b": ({"limit": 9}, LIVES)})
    pid = int(until(lambda: (host.home / "hidden").exists() and (host.home / "hidden").read_text(), "it is there"))
    time.sleep(0.1)
    assert lives(pid), host.log()
    for label in "ba":
        os.kill(host.pid(label), signal.SIGKILL)
        host.logged(f"began {label}", 2)
        time.sleep(0.6)  # strays are killed meanwhile
        assert lives(pid) and not host.has_logged("stray"), host.log()
    host.end()
    assert lives(pid), host.log()
    os.kill(pid, signal.SIGKILL)


@scene
def a_stray_as_old_as_its_supervisor_is_killed(host):
    """The kernel's clock ticks each 10 milliseconds. A supervisor and a process that its service hides often begin in one tick."""
    hides = "#!/bin/sh\nsetsid sleep 1000 &\necho $! > ../../hidden\nexec sleep 1000\n"
    for _ in range(8):
        host.start({"a": ({"limit": 1}, hides)})
        pid = int(until(lambda: (host.home / "hidden").exists() and (host.home / "hidden").read_text(), "it is there"))
        until(lambda: name_of(pid) == "sleep", "it sleeps")  # one that executes a program has no environment meanwhile
        os.kill(host.pid("a"), signal.SIGKILL)
        until(lambda: not lives(pid), "it is killed")
        host.end()
        (host.home / "hidden").unlink()


@scene
def a_stray_of_another_user_is_left_alone(host):
    """A stray that became root's can't be killed by another user's supervisor, which doesn't report that, and ends all the same."""
    if os.geteuid():
        raise Skipped("only root may become another user")
    for name, mode in ((host.words[0], "755"), (shutil.which("setpriv"), "4755")):
        subprocess.run(["install", "-m", mode, name, host.home], check=True)
    if os.statvfs(host.home).f_flag & os.ST_NOSUID:
        raise Skipped("programs can't become root's there")
    host.words = ["setpriv", "--reuid=65534", "--regid=65534", "--clear-groups", host.home / "dsrs"]
    host.service("a", "#!/bin/sh\n../../setpriv --reuid=0 setsid sleep 1000 &\nuntil grep -q sleep /proc/$!/comm; do sleep 0.01; done\nexit 1\n")
    for path in (host.home, host.home / "services", host.home / "services" / "a"):
        shutil.chown(path, 65534)
    host.start({"a": ({"limit": 1}, None)})
    host.logged("givenup a")
    host.process.send_signal(signal.SIGTERM)
    host.ended(0)
    equal([host.has_logged("stray"), [pathlib.Path(f"/proc/{pid}/comm").read_text() for pid in host.processes()]], [False, ["sleep\n"] * 2])


@scene
def strays_of_strays_end_before_their_supervisor(host):
    """Each of twelve processes began the next, in a session of its own. So it becomes a child of the supervisor when the one before ends."""
    body = """
for _ in range(12):
    if os.fork(): os.wait(), os._exit(0)
    os.setsid()
note("nested")
time.sleep(1000)
"""
    host.start({"a": ({}, body)})
    host.noted("nested")
    host.end()


@scene
def a_program_that_is_not_there_is_a_death(host):
    host.start({"a": ({"limit": 2}, None), "b": ({}, LIVES)})
    host.logged("died a", 3)
    host.logged("givenup a")
    equal(host.status()["a"][0], "givenup")
    host.service("a", LIVES)
    assert host.ask("service restart a").startswith("start a")
    host.logged("began a", 4)
    equal(host.ask("retrieve b label"), "found 2/17")
    host.end()


@scene
def an_endpoint_is_connected_to_and_refused_afterwards(host):
    """A client that finds a label may connect at once, and waits until the process accepts. An old endpoint is refused."""
    body = '''
time.sleep(0.3)
listener = socket.socket(fileno=int(os.environ["DS_LISTEN"]))
it, _ = listener.accept()
it.sendall(f"here is {me}".encode())
live()
'''
    host.start({"d": ({}, body)})
    said = host.ask("retrieve d label")
    equal(said, "found 1/16")
    it = socket.socket(socket.AF_UNIX, socket.SOCK_SEQPACKET)
    it.connect(f"{host.path}.d/1.16")
    it.settimeout(PATIENCE)
    equal(it.recv(99), b"here is 1/16")
    host.ask("service refresh d")
    old = socket.socket(socket.AF_UNIX, socket.SOCK_SEQPACKET)
    assert old.connect_ex(f"{host.path}.d/1.16"), "an old endpoint answers"
    host.end()


# ---- time ----


@scene
def heartbeats_by_line_and_by_notify(host):
    watchdog = '''
note("watchdog " + os.environ["WATCHDOG_USEC"] + " " + str(os.environ["WATCHDOG_PID"] == str(os.getpid())))
notify("READY=1")
while True:
    time.sleep(int(os.environ["WATCHDOG_USEC"]) / 4e6)
    notify("STATUS=as ever\\nWATCHDOG=1")
'''
    foreign = 'if not os.fork():\n    while True: notify("WATCHDOG=1"), time.sleep(0.05)\ntime.sleep(1000)\n'
    host.start({"line": ({"period": 800}, LIVES), "notify": ({"period": 800}, watchdog), "mute": ({"period": 800}, "live(False)\n"),
                "child": ({"period": 800}, foreign)})
    host.logged("kill mute 3/18 cause 4"), host.logged("kill child 4/19 cause 4")
    host.noted("watchdog 16000000 True")
    host.logged("ready notify 2/17")
    time.sleep(3)
    assert not host.has_logged("kill line") and not host.has_logged("kill notify"), host.log()
    status = host.status()
    equal([status["notify"][0], status["notify"][6], status["line"][0]], ["ready", "as ever", "up"])
    host.end()


@scene
def a_service_that_stands_still(host):
    host.start({"a": ({"period": 300, "limit": 5}, LIVES)})
    host.logged("began a 1/16")
    os.kill(host.pid("a"), signal.SIGSTOP)
    host.logged("kill a 1/16 cause 4")
    host.logged("began a 2/16")
    host.end()


@scene
def a_supervisor_that_stood_still_kills_nobody(host):
    host.start({"a": ({"period": 600}, LIVES), "b": ({"period": 620}, LIVES)})
    host.logged("began b 2/17")
    time.sleep(7)
    host.process.send_signal(signal.SIGSTOP)
    time.sleep(18)
    host.process.send_signal(signal.SIGCONT)
    host.logged("late")
    time.sleep(1)
    assert not host.has_logged("kill"), host.log()
    host.end()


@scene
def idle_is_idle(host):
    """A supervisor with nothing due uses no processor time."""
    host.start({f"s{i}": ({}, "#!/bin/sh\nexec sleep 1000\n") for i in range(16)}, tick=1)
    host.logged("began s15")
    until(lambda: rests(host.process.pid), "it rests")
    before, calls = used(host.process.pid)
    time.sleep(2)
    after, more = used(host.process.pid)
    assert after - before <= 1 and more - calls <= 2, f"{after - before} hundredths of a second, {more - calls} turns"
    host.end()


def rests(pid):
    before = used(pid)
    time.sleep(0.5)
    return used(pid) == before


def used(pid):
    """Returns a process's processor time in hundredths of a second, and how often it waited."""
    parts = pathlib.Path(f"/proc/{pid}/stat").read_text().rpartition(")")[2].split()
    waits = next(int(it.split()[1]) for it in pathlib.Path(f"/proc/{pid}/status").read_text().splitlines() if it.startswith("voluntary"))
    return int(parts[11]) + int(parts[12]), waits


@scene
def waits_longer_after_each_failure(host):
    host.start({"a": ({"limit": 4}, "#!/bin/sh\nexit 1\n")}, tick=500)
    host.logged("givenup a")
    began = [float(it.split()[0]) for it in host.ask("log").splitlines() if " began a " in it]
    died = [float(it.split()[0]) for it in host.ask("log").splitlines() if " died a " in it]
    pauses = [begin - end for begin, end in zip(began[1:], died)]
    for ticks, pause in zip((1, 2, 4, 8), pauses):
        assert 0.5 * (ticks - 1) <= pause < 0.5 * ticks + 3.5, pauses
    host.end()


# ---- start and end ----


@scene
def goes_down_in_reverse_order(host):
    host.start({label: ({}, LIVES) for label in "abcd"})
    for label in "abcd":
        host.logged(f"began {label}")
    host.end()
    equal([it.split()[1] for it in host.events() if it.startswith("kill")], list("dcba"))


def ends_at_a_second_signal(host, line):
    """Ends a supervisor by two signals. It logs the line after the first one, and then waits for a grace."""
    host.process.send_signal(signal.SIGTERM)
    host.logged(line)
    time.sleep(0.3)
    assert host.process.poll() is None, "it doesn't wait for its grace"
    host.end()


@scene
def a_second_signal_waits_for_nobody(host):
    host.start({"a": ({}, "signal.signal(signal.SIGTERM, signal.SIG_IGN)\nnote('there')\nwhile True: time.sleep(1)\n")}, options=("--grace", "60000"))
    host.noted("there")
    ends_at_a_second_signal(host, "kill a")


@scene
def a_second_signal_waits_for_no_log_program(host):
    host.service("a/log", "#!/bin/sh\nexec sleep 1000\n")
    host.start({"a": ({}, LIVES)}, options=("--grace", "600000"))
    host.ask("status")
    ends_at_a_second_signal(host, "gone a")


@scene
def ends_with_its_supervisor_however_that_ends(host):
    """SIGKILL of the supervisor ends its services, and the next run's generations are above all earlier ones."""
    body = "note(f'pid {os.getpid()}')\ntime.sleep(1000)\n"
    host.start({label: ({"limit": 9}, body) for label in "ab"})
    pids = [int(host.noted(f"{label} {endpoint} pid").split()[-1]) for label, endpoint in (("a", "1/16"), ("b", "2/17"))]
    host.ask("service refresh a")
    equal(host.ask("retrieve a label"), "found 3/16")
    host.kill()
    until(lambda: not any(map(lives, pids)), "the services end")
    host.start()
    first = int(host.ask("retrieve a label").split()[1].split("/")[0])
    assert first > 3, f"generation {first} again"
    host.end()
    host.start()
    equal(int(host.ask("retrieve a label").split()[1].split("/")[0]), first + 2)  # an orderly end skips none
    host.end()


@scene
def a_file_down_keeps_it_down(host):
    host.service("a", LIVES)
    (host.home / "services" / "a" / "down").touch()
    host.start({"a": ({}, LIVES), "b": ({}, LIVES)})
    equal(host.ask("retrieve b label"), "found 1/16")
    equal(host.status()["a"][:3], ["down", "-", "-"])
    assert host.ask("service up a").startswith("start a 2/17")
    host.end()


@scene
def a_start_that_is_refused(host):
    """Bad settings, arguments and files are reported, with a status, and nothing is left."""
    cases = (
        ('[[service]]\nlabel = "a"\nclass = "block"\n', "missing"),
        ('[[service]]\nlabel = ".."\nclass = "server"\n', "begins with a dot"),
        ("no toml", "toml"),
    )
    for text, word in cases:
        host.start(settings=text)
        host.ended(3)
        assert word in host.log().splitlines()[-1], host.log()
    host.start({"a": ({}, LIVES)})
    host.ask("status")
    first = host.process
    host.start()
    host.ended(3)
    assert "another one serves it" in host.log(), host.log()
    host.process = first
    host.clients = {}
    host.end()
    (host.home / "services" / ".generation").write_text("many\n")
    host.start()
    host.ended(3)
    assert "holds no generation" in host.log(), host.log()
    for words in (["--tick", "0"], ["--tick", "1x"], ["--slot", "15"], ["--nothing"], ["a", "b"], ["a", "b", "c" * 200]):
        ran = subprocess.run([*host.words, *words], capture_output=True, text=True)
        equal((ran.returncode, ran.stdout), (2, ""))
    for word in ("--help", "--version"):
        equal(subprocess.run([*host.words, word], capture_output=True).returncode, 0)


@scene
def settings_that_are_no_file_are_refused(host):
    """Settings that are a FIFO, which nobody writes, are refused at the start, and when they are read again. Nothing waits for them."""
    settings = host.home / "settings.toml"
    os.mkfifo(settings)
    host.start()
    host.ended(3)
    settings.unlink()
    host.start({"a": ({}, LIVES)})
    host.logged("began a")
    pid = host.pid("a")
    settings.unlink()
    os.mkfifo(settings)
    host.process.send_signal(signal.SIGHUP)
    host.logged(f"settings {settings}: Invalid argument", 2)
    equal([host.status()["a"][0], host.pid("a")], ["up", pid])
    host.end()


@scene
def the_folder_of_sockets_may_be_passed_through(host):
    """Services of other users reach the sockets in SOCKET.d, whatever the umask of the supervisor is."""
    host.words = ["sh", "-c", 'umask 077; exec "$@"', "sh", *host.words]
    host.start({"a": ({}, LIVES)})
    host.ask("status")
    equal(oct(os.stat(f"{host.path}.d").st_mode & 0o777), "0o711")
    host.end()


@scene
def a_file_of_generations_has_one_supervisor(host):
    """A second supervisor that would use the same generations doesn't start. The first one isn't touched."""
    host.start({"a": ({}, LIVES)})
    equal(host.ask("retrieve a label"), "found 1/16")
    first, path = host.process, host.path
    host.path = host.home / "other"
    host.start()
    host.ended(3)
    assert "busy" in host.log(), host.log()  # the first one logs, too
    host.process, host.path, host.clients = first, path, {}
    host.ask("service refresh a")
    equal(host.ask("retrieve a label"), "found 2/16")
    host.end()


def first_generation(host):
    """Starts a supervisor once more, and returns the generation of the first instance."""
    host.start()
    return int(host.ask("retrieve a label").split()[1].split("/")[0])


@scene
def a_removed_file_of_generations_is_made_again(host):
    """If the file of generations is removed while a supervisor runs, the next run's are nevertheless above all earlier ones."""
    file = host.home / "services" / ".generation"
    host.start({"a": ({}, "#!/bin/sh\nexec sleep 1000\n")}, options=("--grace", "0"))
    host.ask("status")
    for used in (3, 200):  # fewer than are reserved at a time, and more
        file.unlink()
        for _ in range(used):
            host.ask("service refresh a")
        last = int(host.ask("retrieve a label").split()[1].split("/")[0])
        host.end()
        equal(first_generation(host), last + 1)
    host.end()


@scene
def a_folder_that_others_may_write_is_left_alone(host):
    """The folder of sockets is this user's alone, and nothing but sockets is removed from it."""
    folder, other = pathlib.Path(f"{host.path}.d"), host.home / "other"
    other.mkdir()
    (other / "kept").touch()
    folder.symlink_to(other)
    host.start({"a": ({}, LIVES)})
    host.ended(3)
    folder.unlink()
    folder.mkdir()
    for harm in [lambda: folder.chmod(0o777)] + [lambda: (folder.chmod(0o711), shutil.chown(folder, "nobody"))] * (os.geteuid() == 0):
        harm()
        host.start()
        host.ended(3)
        assert "left alone" in host.log(), host.log()
    shutil.rmtree(folder)
    folder.mkdir(0o711)
    (folder / "kept").touch()
    host.start()
    host.ask("status")
    host.process.send_signal(signal.SIGTERM)
    host.ended(0)
    equal([it.name for it in folder.iterdir()], ["kept"])
    assert (other / "kept").exists()


@scene
def one_that_talks_without_end_holds_up_nobody(host):
    flood = 'while True: dsrs.sendall(b"show\\n" * 1000)\n'
    host.start({"flood": ({"period": 800}, flood), "a": ({"period": 800}, LIVES)})
    host.logged("kill flood")
    equal(host.ask("retrieve a label"), "found 2/17")
    assert not host.has_logged("kill a"), host.log()
    host.end()


@scene
def descendants_that_write_without_end_hold_up_nobody(host):
    """An instance dies, and its descendants write to its socket without end and without a newline. About a megabyte of that is read."""
    body = """
if me == "2/17":
    note(f"pid {os.getpid()}")
    while not os.path.exists("../../go"): time.sleep(0.01)
    try: dsrs.setsockopt(socket.SOL_SOCKET, 32, 64 << 20)  # SO_SNDBUFFORCE, for root alone
    except PermissionError: pass
    dsrs.send(b"x" * (8 << 20) + b"\\ncomplain 1/16\\n", socket.MSG_DONTWAIT)
for _ in range(6):
    if not os.fork():
        while True: dsrs.sendall(b"x" * 60000)
os._exit(1)
"""
    host.start({"a": ({}, LIVES), "bad": ({"class": "server", "limit": 2}, body)})
    pid = int(host.noted("bad 2/17 pid").split()[-1])
    host.process.send_signal(signal.SIGSTOP)
    (host.home / "go").touch()
    until(lambda: not lives(pid), "it ends")
    host.process.send_signal(signal.SIGCONT)
    host.logged("died bad")
    assert not host.has_logged("complaint"), host.log()
    equal(host.ask("retrieve a label"), "found 1/16")
    host.logged("givenup bad")
    host.end()


@scene
def clients_that_read_nothing_cost_little(host):
    """A client that sends lines without end and reads nothing costs about a megabyte. Others are served."""
    host.start({"a": ({}, "#!/bin/sh\nexec sleep 1000\n")}, options=("--grace", "0"))
    for _ in range(200):
        host.ask("service refresh a")
    assert len(host.ask("log")) > 9000
    before, deaf = memory(host), []
    for _ in range(12):
        it = socket.socket(socket.AF_UNIX)
        it.connect(str(host.path))
        it.sendall(b"log\n" * 400)
        deaf.append(it)
    for _ in range(20):
        equal(host.ask("retrieve nobody label"), "refused notfound")
        time.sleep(0.05)
    grown = memory(host) - before
    assert grown < 40 << 20, f"{grown >> 20} MB"
    for it in deaf:
        it.close()
    until(lambda: len(os.listdir(f"/proc/{host.process.pid}/fd")) < 20, "the clients' descriptors are closed")
    host.end()


def memory(host):
    with open(f"/proc/{host.process.pid}/status") as status:
        return next(int(it.split()[1]) * 1024 for it in status if it.startswith("VmRSS:"))


@scene
def many_clients_that_read_nothing_cost_little(host):
    """All clients together leave no more than some 64 megabytes of answers unread."""
    host.start({"a": ({}, "#!/bin/sh\nexec sleep 1000\n")}, options=("--grace", "0"))
    for _ in range(200):
        host.ask("service refresh a")
    before, most = memory(host), 0
    deaf = [socket.socket(socket.AF_UNIX) for _ in range(200)]
    for it in deaf:
        it.connect(str(host.path))
        it.sendall(b"log\n" * 400)
    for _ in range(40):
        equal(host.ask("retrieve nobody label"), "refused notfound")
        most = max(most, memory(host) - before)
    assert most < 150 << 20, f"{most >> 20} MB"  # with what buffers have besides
    for it in deaf:
        it.close()
    host.end()


# A client of another user: it connects as often as it may, waits for a line, sends as much as its sockets hold, and hangs up.
OTHERS = """
import os, socket, sys
os.setgroups([])
os.setgid(65534)
os.setuid(65534)
all = []
for _ in range(int(sys.argv[2])):
    it = socket.socket(socket.AF_UNIX)
    it.setblocking(False)
    try: it.connect(sys.argv[1])
    except BlockingIOError: break
    all.append(it)
print("there", flush=True)
sys.stdin.readline()
for it in all:
    try: it.send(b"status\\n" * 30000)
    except OSError: pass
"""


def others(host, count):
    """Starts a client of another user, with this many connections."""
    if os.geteuid():
        raise Skipped("only root may become another user")
    os.chmod(host.home, 0o711)
    it = subprocess.Popen(["python3", "-c", OTHERS, host.path, str(count)], stdin=subprocess.PIPE, stdout=subprocess.PIPE, text=True)
    equal(it.stdout.readline(), "there\n")
    return it


@scene
def lines_of_others_that_hung_up_hold_up_nobody(host):
    """Lines that another user sent before he hung up change nothing, and aren't carried out."""
    host.start({f"s{number:02}": ({}, "#!/bin/sh\nexec sleep 1000\n") for number in range(16)})
    host.logged("began s15")
    host.ask("status")
    files = open_files(host)
    with others(host, 120) as it:
        until(lambda: open_files(host) >= files + 120, "they are connected")
        host.process.send_signal(signal.SIGSTOP)
        it.communicate("\n")
    before = used(host.process.pid)[0]
    host.process.send_signal(signal.SIGCONT)
    until(lambda: open_files(host) <= files, "they are dropped")
    took = used(host.process.pid)[0] - before
    assert took < 300, f"{took} hundredths of a second"
    host.end()


def open_files(host):
    return len(os.listdir(f"/proc/{host.process.pid}/fd"))


@scene
def others_leave_places_for_the_user_of_the_supervisor(host):
    """While another user holds all connections that he gets, the user of the supervisor still gets some."""
    host.start({"a": ({}, LIVES)})
    host.logged("began a")
    with others(host, 450):
        equal(host.ask("retrieve a label"), "found 1/16")
        assert host.ask("service down a").startswith("kill 1/16")
    host.end()


# ---- dsask ----


def asked(host, *words, **how):
    """Returns the status, output and errors of a dsask."""
    ran = subprocess.run([host.room / "dsask", *words], capture_output=True, text=True, timeout=PATIENCE, **how)
    return ran.returncode, ran.stdout, ran.stderr


@scene
def asks_from_a_shell(host):
    host.start({"a": ({"publishes": ["a.n"]}, 'ask(f"publish {me} new a.n u32 {generation}.1 = 5")\nlive()\n')})
    until(lambda: host.ask("retrieve a.n u32") == "found 5", "a publishes")
    socket_path = str(host.path)
    equal(asked(host, socket_path, "retrieve a.n u32", "retrieve a label"), (0, "found 5\nfound 1/16\n", ""))
    equal(asked(host, socket_path, "retrieve b u32"), (1, "refused notfound\n", ""))
    equal(asked(host, socket_path, "retrieve"), (1, "badline 1 8\n", ""))
    equal(asked(host, socket_path, "-x"), (1, "norequest\n", ""))
    equal(asked(host, socket_path, input="retrieve a.n u32\nretrieve a label"), (0, "found 5\nfound 1/16\n", ""))
    equal(asked(host, socket_path, input=""), (0, "", ""))
    equal(asked(host, socket_path, input="show\n" * 2000)[1].count("shown 2\n"), 2000)
    head, row = asked(host, socket_path, "status")[1].splitlines()
    equal(head.split(), ["LABEL", "STATE", "ENDPOINT", "PID", "SINCE", "FAILURES", "LAST", "END", "STATUS"])
    equal(row.split()[:3] + row.split()[5:], ["a", "up", "1/16", "0", "-", "-"])
    status, said, wrong = asked(host, f"{socket_path}x", "show")
    assert status == 1 and not said and "No such file" in wrong, wrong
    equal(asked(host, "--help")[0], 0)
    for words in ([], ["--nothing", "s"], ["--watch", "a", "s", "show"], ["--kinds", "16", "s"], ["x" * 200]):
        status, said, wrong = asked(host, *words)
        assert status == 2 and not said and wrong.startswith("dsask: "), wrong
    host.end()


@scene
def watches_from_a_shell(host):
    """`--watch` prints what is there, then each change, to a pipe at once. Two may watch, and other clients' subscriptions aren't used up."""
    host.start({"a": ({}, LIVES), "b": ({}, LIVES)})
    host.logged("began b")
    watchers = [subprocess.Popen([host.room / "dsask", "--watch", "a", host.path], stdout=subprocess.PIPE, text=True) for _ in range(2)]
    try:
        for it in watchers:
            equal(it.stdout.readline(), "a label rs 1.0 = 1/16\n")
        host.ask("service refresh b")
        host.ask("service refresh a")
        for it in watchers:  # a sweep is shown under any pattern
            equal(sorted(it.stdout.readline() for _ in range(3)), ["! a 1\n", "! b 2\n", "a label rs 4.0 = 4/16\n"])
        status, said, wrong = asked(host, "--watch", "[", host.path)
        assert status == 1 and not said and "badpattern" in wrong, wrong
    finally:
        for it in watchers:
            it.kill()
            it.wait()
    host.end()


@scene
def hangs_up_when_the_supervisor_ends(host):
    host.start({"a": ({}, LIVES)})
    host.logged("began a")
    with subprocess.Popen([host.room / "dsask", "--watch", "a", host.path], stdout=subprocess.PIPE, stderr=subprocess.PIPE, text=True) as it:
        it.stdout.readline()
        host.end()
        equal((it.wait(PATIENCE), "it hung up" in it.stderr.read()), (1, True))


# ---- the guide ----


def shape(text):
    """Returns a text without its process numbers and times."""
    return re.sub(r" +", " ", re.sub(r"(?<=/1[67]) +\d+|\b\d+s\b", "", text)).strip()


@scene
def the_session_of_the_guide(host):
    """Each command of docs/guide/supervise.md prints what the page shows."""
    page = (ROOT / "docs/guide/supervise.md").read_text()
    session = re.search(r"(?:^    .*\n)+", page[page.index("    $ dsask") :], re.MULTILINE)[0]
    shutil.copytree(ROOT / "examples/services", host.home / "services")
    host.start(settings=(host.home / "services/settings.toml").read_text())
    host.logged("givenup flaky")
    until(lambda: host.ask("retrieve clock.time u32").startswith("found "), "the clock publishes")
    for part in re.split(r"^\$ ", re.sub(r"^    ", "", session, flags=re.MULTILINE), flags=re.MULTILINE)[1:]:
        command, _, wanted = part.partition("\n")
        ran = subprocess.run(["sh", "-c", command.replace("/tmp/socket", str(host.path)).replace("dsask", f"{host.room}/dsask")], capture_output=True, text=True)
        equal(shape(ran.stdout + ran.stderr), shape(wanted))
    host.end()


@scene
def the_clock_of_the_guide_beats(host):
    """With a `period` the clock of examples/services answers each ping, continues to publish, and prints nothing."""
    shutil.copytree(ROOT / "examples/services/clock", host.home / "services/clock")
    settings = '[[service]]\nlabel = "clock"\nclass = "server"\nlimit = 0\nperiod = 800\npublishes = ["clock.time"]\n'
    host.start(settings=settings)
    first = until(lambda: host.ask("retrieve clock.time u32").startswith("found ") and host.ask("retrieve clock.time u32"), "the clock publishes")
    until(lambda: host.ask("retrieve clock.time u32") not in (first, "refused notfound"), "it publishes again")
    time.sleep(20)  # more than two periods
    assert host.ask("retrieve clock label") == "found 1/16", host.log()
    assert "clock: " not in host.log() and "event=died" not in host.log(), host.log()
    host.end()


def found_and_died(lines):
    """Returns what examples/find/client.py printed, with its numbers of answers left out."""
    return [re.sub(r"after \d+ answers", "after N answers", it) for it in lines]


@scene
def the_session_of_the_guide_to_clients(host):
    """The client of docs/guide/find.md prints what the page shows, when the page's command kills the service."""
    page = (ROOT / "docs/guide/find.md").read_text()
    kills = re.search(r"^    \$ (kill -9 .*)$", page, re.MULTILINE)[1].replace("/tmp/socket", str(host.path)).replace("dsask", f"{host.room}/dsask")
    wanted = re.search(r"client.py /tmp/socket echo\n((?:    .*\n)+)", page)[1].replace("    ", "").splitlines()
    shutil.copytree(ROOT / "examples/find", host.home / "services")
    host.start(settings=(ROOT / "examples/find/settings.toml").read_text())
    host.logged("began echo")
    words = [sys.executable, ROOT / "examples/find/client.py", host.path, "echo"]
    environment = {**os.environ, "PYTHONPATH": str(ROOT / "python")}
    with subprocess.Popen(words, env=environment, stdout=subprocess.PIPE, stderr=subprocess.STDOUT, text=True) as client:
        seen = [client.stdout.readline().rstrip("\n")]
        while len(seen) < len(wanted) and seen[-1]:
            subprocess.run(["sh", "-c", kills], check=True)
            seen += [client.stdout.readline().rstrip("\n") for _ in range(2)]
        client.kill()
    equal(found_and_died(seen), found_and_died(wanted))
    host.end()


@scene
def no_answer_of_a_dead_instance(host):
    """bench/find gets an answer of each instance of a service that it kills, and none of one that it found dead."""
    ran = subprocess.run([ROOT / "bench/find", "--kills", "4", "--seconds", "3", host.room], capture_output=True, text=True, timeout=4 * PATIENCE)
    said = re.fullmatch(r"kills 4, answers (\d+), of [2-5] endpoints, none of a dead one, longest gap \d+ ms\n", ran.stdout)
    assert ran.returncode == 0 and said and int(said[1]) > 9, f"{ran}"


# ---- what services print ----


@scene
def labels_stand_before_lines(host):
    """The log has each line that services print, after the label: also a last line without newline, and however many there are."""
    flood = "#!/bin/sh\ni=0\nwhile [ $i -lt 3000 ]; do echo \"line $i of many\"; i=$((i + 1)); done\nexec sleep 1000\n"
    host.start({"a": ({}, "#!/bin/sh\necho one; echo two >&2; printf three\nexit 1\n"), "flood": ({}, flood)})
    host.logged("givenup a")
    until(lambda: "flood: line 2999 of many\n" in host.log(), "all lines are there")
    equal(host.log().count("flood: line "), 3000)
    host.end()
    for line in ("a: one\n", "a: two\n", "a: three\n"):
        assert line in host.log(), host.log()[-500:]


@scene
def a_log_of_objects_of_json(host):
    """With --log-format json every line of standard error is an object, a service's too, whatever bytes it prints."""
    body = r"""
os.write(1, b"a \"quote\", a \\ and \x1b\xe9\n")
live()
"""
    host.start({"a": ({}, body)}, options=("--log-format", "json"))
    until(lambda: '"output"' in host.log(), "the line of the service is passed on")
    host.end()
    lines = [json.loads(it) for it in host.log().splitlines()]
    assert {"level": "INFO", "event": "output", "service": "a", "text": 'a "quote", a \\ and \x1b\xe9'} in lines, host.log()
    assert all({"level", "event"} <= set(it) for it in lines), host.log()
    assert any(it["event"] == "began" and "a 1/16" in it["text"] for it in lines), host.log()


@scene
def lines_of_json_are_whole(host):
    """If what reads standard error is slow, lines come whole and none is left out, however long a line becomes as JSON."""
    body = r"""
for number in range(6):
    while not os.path.exists(f"../../go{number}"): time.sleep(0.01)
    sys.stdout.buffer.writelines(b"\xe9" * (700 + 29 * (it + number) % 320) + b"\n" for it in range(100))
    sys.stdout.flush()
    note(f"round {number}")
live()
"""
    pipe, said = host.home / "errors", b""
    os.mkfifo(pipe)
    host.words = ["sh", "-c", 'exec "$@" 2> "$0"', pipe, *host.words]
    with open(os.open(pipe, os.O_RDONLY | os.O_NONBLOCK), "rb", buffering=0) as errors:
        host.start({"a": ({}, body)}, options=("--log-format", "json"))
        for number in range(6):
            (host.home / f"go{number}").touch()
            while f"round {number}" not in host.notes():
                host.ask("status")
                said += errors.read(1 << 15) or b""
        end = time.monotonic() + PATIENCE
        while said.count(b'"service":"a"') < 600 and time.monotonic() < end:
            said += errors.read(1 << 15) or b""
        host.end()
        said += errors.read(1 << 20) or b""
    equal(said.count(b'"service":"a"'), 600)
    for line in said.splitlines():
        try:
            json.loads(line)
        except ValueError as why:
            raise AssertionError(f"{why}: {line}") from why
