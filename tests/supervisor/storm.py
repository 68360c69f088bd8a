"""A storm: services that act at random, and are killed at random, under locks that show two instances at once."""
import os
import pathlib
import random
import signal
import subprocess
import time

import supervisors
from supervisors import equal, lives
from waiting import until

MEMBER = supervisors.ROOT / "tests" / "supervisor" / "member.c"
LABELS = [f"s{i}" for i in range(12)]
SIGNALS = (signal.SIGKILL, signal.SIGSTOP, signal.SIGSEGV, signal.SIGTERM, signal.SIGABRT)
VERBS = ("up", "up", "down", "refresh", "refresh", "restart", "restart")
TICK = 5  # milliseconds
SILENCE = 300  # milliseconds of a period
FILES = 20  # the most that a supervisor without running services and clients has open, besides two for each service
MANY = [f"m{i}" for i in range(64)]  # the most services that there may be


def build(room):
    """Builds the storm's service beside the supervisor, and returns the folder."""
    subprocess.run([os.environ.get("CC", "cc"), "-std=c11", "-D_GNU_SOURCE", "-Wall", "-Wextra", "-O1", "-o", room / "member", MEMBER], check=True)
    return room


def victim(host, label):
    """Returns a descriptor of an instance's process, by what it published, or None."""
    found = host.ask(f"retrieve {label}.pid u32").split()
    if found[0] != "found":
        return None
    try:
        file = os.pidfd_open(int(found[1]))
        if pathlib.Path(f"/proc/{found[1]}/comm").read_text() == "member\n":
            return file
        os.close(file)
    except OSError:
        pass
    return None


def harm(host, draw):
    """Sends a command about a service, or kills one."""
    label = draw.choice(LABELS)
    if draw.random() < 0.5:
        host.ask(f"service {draw.choice(VERBS)} {label}")
        return
    file = victim(host, label)
    if file is None:
        return
    try:
        signal.pidfd_send_signal(file, draw.choice(SIGNALS))
    except ProcessLookupError:
        pass
    os.close(file)


def start(host, draw):
    run = f"#!/bin/sh\nexec {host.room}/member {draw.randrange(1 << 20)}\n"
    fields = {"class": "server", "period": SILENCE // TICK}
    services = {label: ({**fields, "limit": draw.choice((0, 3, 1000)), "publishes": [f"{label}.pid"]}, run) for label in LABELS}
    host.start(services, tick=TICK, options=("--grace", "50"))


def at_rest(host, labels=LABELS):
    """Takes all services down, and checks that nothing is left: no label, no process, no descriptor."""
    for label in labels:
        host.ask(f"service down {label}")
    until(lambda: not host.processes(), lambda: f"processes are left: {host.processes()}")
    equal(host.ask("show"), "shown 0")
    files = len(os.listdir(f"/proc/{host.process.pid}/fd"))
    assert files <= FILES + 2 * len(labels), f"{files} descriptors are open"
    zombies = [pid for pid in filter(str.isdigit, os.listdir("/proc")) if parent_of(pid) == host.process.pid and not lives(pid)]
    until(lambda: not any(os.path.exists(f"/proc/{it}") for it in zombies), "zombies are reaped")


def parent_of(pid):
    try:
        return int(pathlib.Path(f"/proc/{pid}/stat").read_text().rpartition(")")[2].split()[1])
    except (FileNotFoundError, ProcessLookupError):
        return None


def blow(host, seconds, draw: random.Random):
    """Harms services for some seconds, and returns what happened. Fails if something was wrong."""
    start(host, draw)
    end = time.monotonic() + seconds
    while time.monotonic() < end:
        harm(host, draw)
        time.sleep(draw.random() * 0.02)
    at_rest(host)
    events = host.ask("log").splitlines()[-1]
    host.end()
    return f"{starts(host)} starts, {events}"


def starts(host):
    """Returns how many instances there were. Checks that no two of a label ran at once."""
    notes = host.notes().splitlines()
    twice = [it for it in notes if "TWO AT ONCE" in it]
    assert not twice, f"two instances of a label at once: {twice[:3]}"
    return len(notes)


def kill(host, count, draw: random.Random):
    """Runs the most services that there may be, and kills one at a time, COUNT times. Each must return."""
    run = f"#!/bin/sh\nexec {host.room}/member quiet\n"
    host.start({label: ({"class": "server", "limit": 1000, "publishes": [f"{label}.pid"]}, run) for label in MANY}, tick=1)
    until(lambda: host.ask("show").endswith(f"shown {2 * len(MANY)}"), "all are there")
    begun, killed, memory = time.monotonic(), 0, resident(host)
    while killed < count:
        file = victim(host, draw.choice(MANY))
        if file is None:
            continue
        signal.pidfd_send_signal(file, signal.SIGKILL)
        os.close(file)
        killed += 1
    took, grown = time.monotonic() - begun, resident(host) - memory
    until(lambda: all(it[0] == "up" for it in host.status().values()), lambda: f"all are up: {host.status()}")
    assert grown < 4 << 20, f"memory grew by {grown >> 10} KB"
    at_rest(host, MANY)
    host.end()
    return f"{killed} kills in {took:.1f} s, {starts(host)} starts, memory grew by {grown >> 10} KB"


# Programs of services, of which the kernel ends some with their supervisor, and leaves others.
SHAPES = (
    "exec {member} {seed}", "exec {member} deaf", "{member} deaf; exit 1", "{member} deaf & exec sleep 1000", "exec setpriv --reuid=65534 {member} deaf",
    "setsid {member} deaf & exec sleep 1000",
)


def shape(host, index, draw):
    run = SHAPES[index % len(SHAPES)].format(member=f"{host.room}/member", seed=draw.randrange(1 << 20))
    return "#!/bin/sh\n" + (run if not os.geteuid() else run.replace("setpriv --reuid=65534 ", "")) + "\n"


def die(host, count, draw: random.Random):
    """Kills the supervisor itself, COUNT times, at random, and starts it again at once. No two instances of a label may run at once."""
    host.start({label: ({"class": "server", "limit": 1000}, shape(host, index, draw)) for index, label in enumerate(LABELS)}, tick=TICK, options=("--grace", "50"))
    for path in (host.home, host.room):
        path.chmod(0o711)
    for path in [host.home / "notes", *(host.home / "services" / label / "lock" for label in LABELS)]:
        path.touch()
        path.chmod(0o666)
    refused = 0
    for _ in range(count):
        end = time.monotonic() + draw.random() ** 2
        while time.monotonic() < end and host.process.poll() is None:
            if os.path.exists(host.path) and draw.random() < 0.3:
                harm_quietly(host, draw)
            time.sleep(0.01)
        refused += host.process.poll() is not None
        host.kill()
        host.start(tick=TICK, options=("--grace", "50"))
    until(lambda: served(host), "it serves")
    begun = [line.split()[1] for line in host.notes().splitlines()]
    assert len(begun) == len(set(begun)), "an endpoint comes twice"
    at_rest(host)
    host.end()
    return f"{count} kills of the supervisor, {refused} starts refused, {starts(host)} starts of services"


def harm_quietly(host, draw):
    """Harms a service, while the supervisor may not serve yet."""
    try:
        harm(host, draw)
    except (OSError, supervisors.Gone):
        host.clients.clear()


def served(host):
    """Returns whether the supervisor serves. One that was refused is started again."""
    if host.process.poll() is not None:
        host.start(tick=TICK, options=("--grace", "50"))
    return os.path.exists(host.path) and host.ask("show")


def resident(host):
    """Returns how many bytes the supervisor has in memory."""
    text = pathlib.Path(f"/proc/{host.process.pid}/status").read_text()
    return next(int(line.split()[1]) * 1024 for line in text.splitlines() if line.startswith("VmRSS:"))
