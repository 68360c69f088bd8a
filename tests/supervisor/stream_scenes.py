"""Scenes of supervisors on two hosts over one redis server. They need redis-server, and a dsrs that was built with hiredis."""
import contextlib
import os
import shutil
import signal
import subprocess

from scenes import LIVES, memory, scene
from supervisors import Host, Skipped, equal
from waiting import PATIENCE, until


@contextlib.contextmanager
def redis(host):
    """Starts a server of this test's own, and yields its URL."""
    path = host.home / "redis"
    if not shutil.which("redis-server"):
        raise Skipped("redis-server is missing")
    words = ["redis-server", "--port", "0", "--unixsocket", path, "--save", "", "--dir", host.home]
    with subprocess.Popen(words, stdout=subprocess.DEVNULL) as server:
        try:
            until(path.exists, "redis serves")
            yield f"unix://{path}"
        finally:
            server.kill()


@contextlib.contextmanager
def in_step(host, url, services, **how):
    """Starts a supervisor whose store is in step over the server."""
    with Host(host.words, host.room) as it:
        it.start(services, options=("--stream", url, *how.get("options", ())), **{key: value for key, value in how.items() if key != "options"})
        until(lambda: it.has_logged("stream instep") or "without hiredis" in it.log(), lambda: f"it is in step: {it.log()}")
        if "without hiredis" in it.log():
            raise Skipped("dsrs was built without hiredis")
        yield it


@scene
def a_driver_is_found_from_another_host(host):
    """A server on host two finds the driver of host one, and gets notices of its restart and of its end."""
    server = '''
note(ask('subscribe 0 "d.*" 15 first over').split("\\n")[0])
note(ask("listen 0"))
at = ""
while True:
    said = ask("check 0 99")
    for it in said.split("\\n"):
        if it.startswith("d label") and it != at: note("seen " + it); at = it
    if said.endswith("checked 0 0 0") or "checked 0 " in said: note("waits"); hear()
'''
    with redis(host) as url:
        with in_step(host, url, {"d": ({"limit": 9, "publishes": ["d.n"]}, 'ask(f"publish {me} new d.n u32 {generation}.1 = 7")\nlive()\n')}) as one:
            with in_step(host, url, {"f": ({"class": "server"}, server)}, options=("--slot", "200")) as two:
                until(lambda: two.ask("retrieve d label") == "found 1/16", "the label crosses")
                until(lambda: two.ask("retrieve d.n u32") == "found 7", "what it publishes crosses")
                two.noted("f 1/200 seen d label rs 1.0 = 1/16")
                until(lambda: one.ask("nameof 1/200") == "named f", "the server's label crosses")
                os.kill(one.pid("d"), signal.SIGKILL)
                two.noted("f 1/200 seen d label rs 2.0 = 2/16")
                one.ask("service down d")
                until(lambda: two.ask("retrieve d label") == "refused notfound", "it is swept there, too")
                until(lambda: two.ask("retrieve d.n u32") == "refused notfound", "and what it published")
                equal(two.ask("service down d"), "refused unknownlabel")
                equal(one.ask("service up d").split("\n")[0], "start d 3/16")
                two.noted("seen d label rs 3.0 = 3/16")
                one.end()
                until(lambda: two.ask("retrieve d label") == "refused notfound", "an orderly end crosses")
                two.end()


@scene
def a_supervisor_does_without_its_server(host):
    """Services start and restart while there is no server. Everything reaches the other hosts once there is one."""
    with redis(host) as url:
        with in_step(host, url, {"d": ({"limit": 9}, LIVES)}) as one:
            other = f"unix://{host.home}/redis2"
            host.start({"e": ({"limit": 9}, LIVES)}, options=("--stream", other, "--slot", "200"))
            host.logged("began e 1/200")
            os.kill(host.pid("e"), signal.SIGKILL)
            host.logged("began e 2/200")
            os.symlink(host.home / "redis", host.home / "redis2")
            until(lambda: one.ask("retrieve e label") == "found 2/200", "the label crosses")
            equal(host.ask("retrieve d label"), "found 1/16")
            host.end()
            one.end()


@scene
def a_long_time_without_a_server_costs_little(host):
    """Changes of one entry without end take no more memory than a few megabytes while there is no server. It gets the last one afterwards."""
    body = """
for n in range(120):
    lines = [f"publish {me} {'over' if n or i else 'new'} e.m mem {generation}.{1000 * n + i} = {1000 * n + i:01000d}\\n" for i in range(1000)]
    for first in range(0, 1000, 50):
        dsrs.sendall("".join(lines[first:first + 50]).encode())
        for _ in range(50): hear()
note("published")
live()
"""
    with redis(host) as url:
        with in_step(host, url, {"d": ({}, LIVES)}) as one:
            other = f"unix://{host.home}/redis2"
            host.start({"e": ({"publishes": ["e.m"]}, body)}, options=("--stream", other, "--slot", "200"))
            until(lambda: host.ask("retrieve e.m mem") != "refused notfound", "it publishes")
            before = memory(host)
            host.noted("published", 10 * PATIENCE)
            grown = memory(host) - before
            assert grown < 64 << 20, f"{grown >> 20} MB"
            os.symlink(host.home / "redis", host.home / "redis2")
            until(lambda: one.ask("retrieve e.m mem") == f"found {119999:01000d}", "the last change crosses")
            host.end()
            one.end()


@scene
def a_stream_that_is_refused(host):
    """A URL that can't be read ends the supervisor. One from the environment isn't passed on to services."""
    host.start({"a": ({}, 'note("has " + str([it for it in os.environ if "STREAM" in it]))\nlive()\n')}, options=("--stream", "nonsense"))
    host.ended(3)
    assert "badurl" in host.log() or "without hiredis" in host.log(), host.log()
    with redis(host) as url:
        words, host.words = host.words, ["env", f"DSRS_STREAM={url}", *host.words]
        host.start(options=("--stream", "-"))
        until(lambda: host.has_logged("stream instep") or "without hiredis" in host.log(), "it is in step")
        if "without hiredis" in host.log():
            raise Skipped("dsrs was built without hiredis")
        host.noted("has []")
        host.end()
        host.words = words
    equal(subprocess.run([*host.words, "--stream", "-", "a", "b", "c"], capture_output=True, env={"PATH": os.environ["PATH"]}).returncode, 2)
