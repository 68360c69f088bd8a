"""Runs writers that change a store at a desk while followers of it are refreshed, for tests/programs/followers.

The program gives one store the writers' calls in the order of their places, and compares each map that was brought up to a place with
what that store then holds. Each line, `WRITERS FOLLOWERS CALLS`, is answered by one line, which is the same in whatever order the threads run.

If the n-th growth is refused, one of these happens. The run ends with `noroom`. Or one call of a writer has that answer, and changes nothing.
Or a refresh fails, and the follower begins again, so that its next map is compared as usual. Or a thread can't be created, and everything is
as with ample memory.
"""
import pathlib

import harness

RUNS = 5  # of each crew, since the order of turns differs from run to run
SIZES = ((1, 1, 2000), (2, 2, 500), (1, 7, 300), (8, 8, 100), (32, 32, 20))
REFUSED = ((1, 1, 3), (2, 1, 2))
UNREAD = ("", "1 1", "0 1 1", "1 0 1", "33 1 1", "1 33 1", "one 1 1", "1 1 -1", "1 1 1 ")
EQUAL = b"each map is what the store held\n"


def asked(writers, followers, calls):
    return f"{writers} {followers} {calls}\n".encode()


def shared_out(threads):
    """Shares threads out as writers and followers, at least one of each."""
    return max(1, (threads + 1) // 2), max(1, threads // 2)


def fault(program, sizes):
    """Runs a crew, and returns what is wrong with what it prints, or None."""
    ran = harness.run([program], asked(*sizes))
    wrong = harness.difference(ran.output, EQUAL)
    return wrong or (None if (ran.status, ran.error) == (0, b"") else f"status {ran.status}, standard error {ran.error[:200]!r}")


def case_of(room, sizes):
    """Returns a crew as a case in a file of its own."""
    given = pathlib.Path(room) / "_".join(["followers", *map(str, sizes)])
    given.write_bytes(asked(*sizes))
    return harness.Case(given.name, [], given, EQUAL)


def refused_fault(ran):
    """Returns what is wrong with a run in which one growth was refused, or None."""
    if (ran.status, ran.error, ran.output) in ((3, b"noroom\n", b""), (0, b"", EQUAL)):
        return None
    return f"status {ran.status}, output {ran.output[:200]!r}, standard error {ran.error[:200]!r}"


def growths(refuser, room, sizes):
    """Refuses each growth of one crew, one per run. Returns what is wrong with the first bad answer, or None."""
    ended = []

    def refused(ran):
        ended.append(ran.status)
        return refused_fault(ran)

    wrong = refuser.each_growth(case_of(room, sizes), refused)
    return wrong or (None if {0, 3} <= {*ended} else f"every run ended with status {ended[:1]}")


def input_faults(program):
    """Checks that a line that can't be read ends the program with status 1, after the answers before it. Returns a fault or None."""
    good = asked(1, 1, 2)
    for sizes in UNREAD:
        line = f"{sizes}\n".encode()
        ran = harness.run([program], good + line + good)
        if (ran.status, ran.output) != (1, EQUAL):
            return f"{line!r}: status {ran.status}, output {ran.output[:200]!r}"
    return None


def faults(refuser, room):
    """Runs each crew several times, and refuses the growths of small ones. Returns the names, each with what was wrong or None."""
    named = []
    for sizes in SIZES:
        runs = (fault(refuser.program, sizes) for _ in range(RUNS))
        named.append((f"{sizes[0]} writers and {sizes[1]} followers, {sizes[2]} times", next(filter(None, runs), None)))
    named.append(("lines that can't be read", input_faults(refuser.program)))
    for sizes in REFUSED:
        named.append((f"growths of {sizes}", growths(refuser, room, sizes)))
    return named
