"""dsctl-prompt, which keeps a session at ^C; and settings as a line of a script."""
import fcntl
import os
import pathlib
import pty
import re
import select
import shutil
import struct
import tempfile
import termios
import time
import tomllib

import harness
import terminal

NEEDED = ("sh", "stty", "dirname")  # what dsctl-prompt starts, beside dsctl and perhaps rlwrap
OF_FORMAT_2 = re.compile(rb" (complains|connects|forget|startup) \d+")  # at the end of a service's line
LONGEST = 4096


def keeps_the_session_at_an_interrupt(program):
    """^C takes the line back, at the start of a line and within one, and `quit` ends; with rlwrap, if it is installed, and without it. Without
    a terminal, only dsctl is run, with the same words."""
    script = harness.TESTS.parent / "tools" / "completions" / "dsctl-prompt"
    for more in [(), *([("rlwrap",)] if shutil.which("rlwrap") else [])]:
        with tempfile.TemporaryDirectory() as folder:
            for it in (*NEEDED, *more):
                (pathlib.Path(folder) / it).symlink_to(shutil.which(it))
            (pathlib.Path(folder) / "dsctl").symlink_to(os.path.abspath(program))
            environment = {"PATH": folder, "HOME": folder, "TERM": "xterm"}
            seen, status = prompted(script, environment, [b"publish 0/2 ne", b"\x03", b"show\r", b"x", b"\x03", b"all\r", b"quit\r"])
            ran = harness.run([str(script), "replay", "--ends"], b"show\n", environment)
        assert os.WIFEXITED(status) and os.WEXITSTATUS(status) == 0, f"{more}: {status}, {seen}"
        assert seen.count(b"shown 0") == 2 and b"badline" not in seen, f"{more}: {seen}"
        assert (ran.output, ran.error, ran.status) == (b"shown 0\n\n", b"", 0), f"{more}: {ran}"


def prompted(script, environment, typed):
    """Returns what a script shows at a terminal of its own, where each piece is typed once nothing more is shown, and its status."""
    child, ours = pty.fork()
    if not child:
        fcntl.ioctl(0, termios.TIOCSWINSZ, struct.pack("HHHH", 24, 80, 0, 0))
        os.execve(script, [script], environment)
    seen, late, waiting = b"", time.monotonic() + harness.SECONDS, list(typed)
    while time.monotonic() < late:
        if select.select([ours], [], [], 0.7 if terminal.PROMPT in seen else 5)[0]:
            read = terminal.shown(ours)
            if not read:
                break
            seen += read
        elif waiting:
            os.write(ours, waiting.pop(0))
        else:
            break
    os.close(ours)
    return seen, os.waitpid(child, 0)[1]


def prints_settings_as_a_line(program):
    """`settings --line` prints a line of at most 4096 bytes that gives a script's RS the text's services, as far as format 1 can; standard error
    names what it leaves out."""
    cases = [it for it in harness.all_cases() if it.args == ["settings"] and not it.status]
    assert len(cases) > 10, cases
    for case in cases:
        given = case.input.read_bytes()
        ran = harness.run([program, "settings", "--line"], given)
        if ran.status:
            assert ran.output == b"" and b"at most 4096" in ran.error and len(given) > LONGEST // 2, f"{case.name}: {ran}"
            continue
        line, services = ran.output.rstrip(b"\n"), [OF_FORMAT_2.sub(b"", it) for it in case.output.splitlines()[:-1]]
        is_short = any(OF_FORMAT_2.search(it) for it in case.output.splitlines())
        slots = int(case.output.split()[-1])
        assert ran.output == line + b"\n" and line.startswith(b"settings ") and len(line) <= LONGEST, f"{case.name}: {ran}"
        assert (b"`slots = %d` is left out" % slots in ran.error) == bool(services and slots != 64), f"{case.name}: {ran}"
        assert (b"are left out: a line is of format 1" in ran.error) == is_short, f"{case.name}: {ran}"
        wanted = b"services %d slots %d\n" % (len(services), 64 if services else slots)
        assert harness.run([program], ran.output).output == wanted, f"{case.name}: {line}"
        rest = line.removeprefix(b"settings ")
        assert harness.run([program, "settings"], rest).output == b"".join(it + b"\n" for it in services) + wanted, f"{case.name}: {line}"
        assert published(rest) == published(given), f"{case.name}: {line}"


def published(text):
    """Returns the names that each service of a settings text publishes."""
    return [it.get("publishes", []) for it in tomllib.loads(text.decode("utf-8-sig")).get("service", [])]
