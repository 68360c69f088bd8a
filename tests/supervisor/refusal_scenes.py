"""Scenes of a supervisor whose calls fail: for memory, a process, a socket, a descriptor, a file. Each is refused in order."""
import concurrent.futures
import os
import pathlib
import signal
import subprocess
import time

from scenes import scene
from supervisors import Gone, Host, Skipped, equal, lives, toml
from waiting import until

HERE = pathlib.Path(__file__).resolve().parent
AT_ONCE = 6
LIVES = "#!/bin/sh\nexec sleep 1000\n"


def build(host):
    if b"__asan_init" in pathlib.Path(host.words[0]).read_bytes():
        raise Skipped("sanitizers replace the calls for memory")
    made = host.home / "refuse.so"
    subprocess.run([os.environ.get("CC", "cc"), "-std=c11", "-D_GNU_SOURCE", "-O1", "-w", "-shared", "-fPIC", "-o", made, HERE / "refuse.c", "-ldl"], check=True)
    return made


def run(host, library, number, count):
    """Runs a supervisor for a short while, with some calls that fail. Returns whether one did."""
    made = host.home / "refused"
    host.words = ["env", f"LD_PRELOAD={library}", f"REFUSE={number}", f"REFUSALS={count}", f"REFUSED={made}", *host.words]
    host.start({"a": ({"limit": 9}, LIVES), "b": ({"limit": 9}, LIVES)}, tick=1, options=("--grace", "100"))
    try:
        asked(host, "status")
    except Ended:
        host.ended(3)  # it reported why, and left nothing
        assert "ERROR" in host.log(), f"no error is logged: {host.log()!r}"
        equal(host.processes(), [])
        return made.exists()
    for label in "ab":  # a service for which memory ran out at the start isn't started, and the log reports it
        if host.has_logged(f"noroom {label}"):
            asked(host, f"service up {label}")
    first = until(lambda: both_up(host), lambda: f"both are up: {host.log()}")["a"]
    os.kill(first, signal.SIGKILL)
    until(lambda: both_up(host).get("a", first) != first, lambda: f"it is back: {host.log()}")
    assert not lives(first), f"process {first} lives beside its successor: {host.log()}"
    asked(host, "service refresh b")
    until(lambda: both_up(host), lambda: f"it is replaced: {host.log()}")
    reload(host)
    host.process.send_signal(signal.SIGTERM)
    host.ended(0)  # the folder of sockets may be left, if it couldn't be listed
    equal(host.processes(), [])
    return made.exists()


def reload(host):
    """Reloads settings with c in place of b, until they are in force. The process of a must stay the same."""
    host.service("c", LIVES)
    (host.home / "settings.toml").write_text(toml({"a": {"limit": 9}, "c": {"limit": 9}}))
    first, next_time = processes(host)["a"], time.monotonic()

    def is_done():
        nonlocal next_time
        if time.monotonic() >= next_time:
            host.process.send_signal(signal.SIGHUP)
            next_time = time.monotonic() + 0.3
        return "\nc up " in asked(host, "status") and both_up(host)

    until(is_done, lambda: f"it has the other settings: {host.log()}")
    equal(processes(host)["a"], first)


class Ended(Exception):
    """The supervisor doesn't run."""


def asked(host, line):
    """Returns an answer, even if the supervisor hung up on a client because memory ran out."""
    for _ in range(40):
        try:
            return host.ask(line)
        except (Gone, OSError):
            host.clients.clear()
            time.sleep(0.02)
            if host.process.poll() is not None:
                raise Ended from None
    raise AssertionError(f"it hangs up on every client: {host.log()[-500:]}")


def processes(host):
    """Returns the process of each service that is up, by its label."""
    rows = [it.split() for it in asked(host, "status").splitlines()[:-1]]
    return {it[0]: int(it[3]) for it in rows if it[1] == "up" and it[3] != "-"}


def both_up(host):
    """Returns the processes of both services if both are up and run, and otherwise none."""
    found = processes(host)
    return found if len(found) == 2 and all(map(lives, found.values())) else {}


def refused_in_turn(host, count):
    """Runs supervisors: in each `count` calls fail, from another call on, until no call is left."""
    library = build(host)

    def work(number):
        with Host(host.words, host.room) as one:
            try:
                return run(one, library, number, count)
            except AssertionError as wrong:
                raise AssertionError(f"call {number}: {wrong}") from None

    with concurrent.futures.ThreadPoolExecutor(AT_ONCE) as pool:
        number = 0
        while any(list(pool.map(work, range(number, number + AT_ONCE * 4)))):  # each result is looked at
            number += AT_ONCE * 4
    assert number, "no call is refused"


@scene
def one_call_after_another_is_refused(host):
    """Whichever call fails, either the supervisor doesn't start, or all services run, restart and end as usual."""
    refused_in_turn(host, 1)


@scene
def some_calls_at_once_are_refused(host):
    refused_in_turn(host, 12)


@scene
def nothing_starts_whose_generation_is_not_kept(host):
    """While the next generation can't be written, RS starts nothing. Once it can, what failed starts, and no generation is used twice."""
    file, readonly = host.home / "services" / ".generation", host.home / "readonly"
    host.words = ["env", f"LD_PRELOAD={build(host)}", f"READONLY={readonly}", *host.words]
    host.start({"a": ({"limit": 1000}, LIVES), "b": ({}, LIVES)})
    host.ask("status")
    kept = int(file.read_text())
    readonly.touch()
    until(lambda: host.ask("service refresh a") == "refused noroom", "the generations that are kept are used up")
    equal(int(host.ask("retrieve a label").split()[1].split("/")[0]), kept - 1)
    os.kill(until(lambda: both_up(host), "both are up")["a"], signal.SIGKILL)
    host.logged("died a")
    time.sleep(0.3)
    equal([host.status()[label][0] for label in "ab"], ["waiting", "up"])
    equal([host.ask(f"service {word} a") for word in ("up", "restart")], ["refused noroom"] * 2)
    host.logged("generations")
    assert host.log().count("event=generations") == 1, host.log()
    readonly.unlink()
    until(lambda: both_up(host), "it starts")
    equal(int(host.ask("retrieve a label").split()[1].split("/")[0]), kept)
    host.kill()
    host.start()
    assert int(host.ask("retrieve a label").split()[1].split("/")[0]) > kept, "a generation again"
    host.end()


@scene
def a_start_that_is_held_back_holds_no_kill_back(host):
    """While a start waits, since the next generation can't be written, services that hang are found and killed, and asked for heartbeats."""
    readonly = host.home / "readonly"
    host.words = ["env", f"LD_PRELOAD={build(host)}", f"READONLY={readonly}", *host.words]
    beats = "note('there')\nwhile True:\n    said = hear()\n    note('asked')\n    dsrs.sendall(b'beat\\n')\n"
    host.start({"a": ({"limit": 1000}, LIVES), "hb": ({"period": 500, "limit": 9}, beats)})
    host.noted("hb 2/17 there")
    readonly.touch()
    until(lambda: host.ask("service refresh a") == "refused noroom", "the generations that are kept are used up")
    os.kill(until(lambda: processes(host).get("a"), "it is up"), signal.SIGKILL)
    host.logged("died a")
    until(lambda: host.status()["a"][0] == "waiting", "it waits")
    asked_before = host.notes().count("asked")
    until(lambda: host.notes().count("asked") > asked_before + 2, "it is asked for heartbeats")
    equal(host.status()["hb"][0], "up")
    os.kill(host.pid("hb"), signal.SIGSTOP)
    host.logged("kill hb 2/17 cause 4")
    equal({label: host.status()[label][0] for label in ("a", "hb")}, {"a": "waiting", "hb": "waiting"})
    readonly.unlink()
    until(lambda: both_running(host, "a", "hb"), "both begin")
    host.end()


def both_running(host, *labels):
    found = processes(host)
    return all(label in found and lives(found[label]) for label in labels)
