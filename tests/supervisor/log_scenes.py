"""Scenes of the log programs of services."""
import os
import signal

from scenes import LIVES, scene
from supervisors import equal, lives
from waiting import until


def lines(host, label="a"):
    path = host.home / "services" / label / "log" / "out"
    return path.read_text().splitlines() if path.exists() else []


@scene
def a_log_program_reads_what_its_service_prints(host):
    """LABEL/log/run, in its folder, reads what its service prints, the last lines too. It gets nothing that is an instance's."""
    says = "print('bye', flush=True), os._exit(0)"
    host.service("a", f"signal.signal(signal.SIGTERM, lambda *_: ({says}))\nprint('one', flush=True)\nprint('two', file=sys.stderr, flush=True)\nwhile True: signal.pause()\n")
    host.service("a/log", '#!/bin/sh\necho "$DS_LABEL $DS_ENDPOINT$DS_FD$NOTIFY_SOCKET$(ls /proc/self/fd | wc -l)" > out\ncat >> out\necho end >> out\n')
    host.start({"a": ({}, None)})
    until(lambda: len(lines(host)) >= 3, lambda: f"it reads: {lines(host)}")
    equal(lines(host), ["a 4", "one", "two"])  # three descriptors, and that of the folder
    host.end()
    equal(lines(host), ["a 4", "one", "two", "bye", "end"])
    assert "a: one" not in host.log(), host.log()


@scene
def a_log_program_that_ends_is_started_again(host):
    """A log program that ends starts again a second later, and misses no line. Its service isn't touched."""
    host.service("a", "#!/bin/sh\necho one; echo two; echo three\nexec sleep 1000\n")
    host.service("a/log", '#!/bin/sh\nread line && echo "$line" >> out\nexit 5\n')
    host.start({"a": ({}, None)})
    until(lambda: len(lines(host)) == 3, lambda: f"it reads: {lines(host)}")
    equal(lines(host), ["one", "two", "three"])
    host.logged("nolog a status 5", 3)
    ended = [float(it.split()[0]) for it in host.ask("log").splitlines() if " nolog a " in it]
    assert all(then - before > 0.9 for before, then in zip(ended, ended[1:])), f"it starts at once: {ended}"
    assert not host.has_logged("died a") and not host.has_logged("stray"), host.log()
    host.end()


@scene
def a_log_program_that_fails_or_stays(host):
    """A log program that can't run is tried again. One that doesn't end is killed after the grace. The end of dsrs loses nothing."""
    host.service("a", "#!/bin/sh\necho one\nexec sleep 1000\n")
    host.service("a/log", "#!/no/such/shell\n")
    host.service("b", "#!/bin/sh\nexec sleep 1000\n")
    host.service("b/log", "#!/bin/sh\nsleep 1001 &\necho $$ $! >> out\nwhile :; do sleep 1000; done\n")
    host.start({"a": ({}, None), "b": ({}, None)}, options=("--grace", "300"))
    host.logged("nolog a status 127", 2)
    first = until(lambda: lines(host, "b"), "it runs")[0].split()
    os.kill(int(first[0]), signal.SIGKILL)
    until(lambda: len(lines(host, "b")) == 2, "it runs again")
    assert not lives(first[1]), "what a log program started outlives it"
    host.end()
    assert "a: one\n" in host.log(), host.log()[-500:]


@scene
def ends_of_pipes_that_do_not_wait_are_not_passed_on(host):
    """An instance, or a log program, that made its end of the pipe non-blocking doesn't make it so for the next one."""
    host.service("a", "note(f'waits {os.get_blocking(1)}')\nos.set_blocking(1, False)\nif me != '1/16': live()\n")
    reads = "#!/usr/bin/env python3\nimport os\nprint(os.get_blocking(0), file=open('out', 'a'), flush=True)\nos.set_blocking(0, False)\n"
    host.service("a/log", reads)
    host.start({"a": ({"limit": 5}, None)})
    equal(host.noted("a 2/16 waits").split()[-1], "True")
    until(lambda: len(lines(host)) > 1, lambda: f"it runs again: {lines(host)}")
    equal(set(lines(host)), {"True"})
    host.end()


@scene
def a_log_program_is_killed_with_its_supervisor(host):
    host.service("a/log", "#!/bin/sh\necho $$ > out\nexec sleep 1000\n")
    host.start({"a": ({}, LIVES)})
    pid = int(until(lambda: lines(host), "it runs")[0])
    host.kill()
    until(lambda: not lives(pid), "it ends")


@scene
def who_was_told_is_in_the_log(host):
    """`log` shows which servers got a notice of a death."""
    server = 'ask(\'subscribe 0 "d" 1 first new\')\nask("check 0 9")\nask("listen 0")\nnote("listens")\nlive()\n'
    host.start({"d": ({"limit": 5}, LIVES), "f": ({"class": "server"}, server)})
    host.noted("listens")
    assert not host.has_logged("told"), host.log()
    os.kill(host.pid("d"), signal.SIGKILL)
    host.logged("told f 2/17")
    host.logged("began d 3/16")
    host.end()
