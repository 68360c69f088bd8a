"""Runs callers that share RS and its store at a desk while followers of that store are refreshed, for tests/programs/sharers.

The program gives RS and a store of one thread the callers' calls in the order of their places, and compares each reply, and each map that
was brought up to a place with what that store then holds. Each line, `CALLERS FOLLOWERS CALLS`, is answered by one line, which is the same
in whatever order the threads run.

If the n-th growth is refused, one of these happens. The run ends with `noroom`. Or one call has that answer, and changes nothing. Or a
refresh fails, and the follower begins again, so that its next map is compared as usual. Or a thread can't be created, and everything is as
with ample memory.
"""
import pathlib

import harness

RUNS = 5  # of each crew, since the order of turns differs from run to run
SIZES = ((1, 0, 2000), (8, 0, 250), (32, 0, 60), (1, 1, 1000), (2, 2, 500), (1, 7, 300), (8, 8, 100), (32, 32, 20))
REFUSED = ((1, 0, 40), (2, 0, 20), (1, 1, 6), (2, 1, 3))
UNREAD = ("", "1 1", "0 1 1", "33 1 1", "1 33 1", "one 1 1", "1 1 -1", "1 1 1 ", "notices")


def asked(callers, followers, calls):
    return f"{callers} {followers} {calls}\n".encode()


def answer(callers, _followers, calls):
    return f"calls {callers * calls} history legal account exact maps equal\n".encode()


def shared_out(threads, chance):
    """Shares threads out as callers and followers: at least one caller, and in every third crew no follower."""
    callers = max(1, min(32, threads // 2 + chance % 3))
    return callers, 0 if chance % 3 == 0 else max(1, min(32, threads - callers))


def counted(callers, followers, calls):
    """Returns what such a crew does, for the sums of tests/soak. In 16 turns a caller reports three ticks and a death."""
    done = {"calls of RS and its store": calls, "ticks": sum(it % 16 in (5, 10, 13) for it in range(calls)), "deaths": (calls + 9) // 16}
    refreshed = {"refreshes of a follower of RS's store": followers * calls}
    return {**{what: callers * count for what, count in done.items()}, **refreshed, "threads": callers + followers}


def fault(program, sizes):
    """Runs a crew, and returns what is wrong with what it prints, or None."""
    ran = harness.run([program], asked(*sizes))
    wrong = harness.difference(ran.output, answer(*sizes))
    return wrong or (None if (ran.status, ran.error) == (0, b"") else f"status {ran.status}, standard error {ran.error[:200]!r}")


def case_of(room, sizes):
    """Returns a crew as a case in a file of its own."""
    given = pathlib.Path(room) / "_".join(["pairs", *map(str, sizes)])
    given.write_bytes(asked(*sizes))
    return harness.Case(given.name, [], given, answer(*sizes))


def refused_fault(ran, sizes):
    """Returns what is wrong with a run in which one growth was refused, or None."""
    if (ran.status, ran.error, ran.output) in ((3, b"noroom\n", b""), (0, b"", answer(*sizes))):
        return None
    return f"status {ran.status}, output {ran.output[:200]!r}, standard error {ran.error[:200]!r}"


def growths(refuser, room, sizes):
    """Refuses each growth of one crew, one per run. Returns what is wrong with the first bad answer, or None."""
    ended = []

    def refused(ran):
        ended.append(ran.status)
        return refused_fault(ran, sizes)

    wrong = refuser.each_growth(case_of(room, sizes), refused)
    return wrong or (None if {0, 3} <= {*ended} else f"every run ended with status {ended[:1]}")


def input_faults(program):
    """Checks that a line that can't be read ends the program with status 1, after the answers before it. Returns a fault or None."""
    good = asked(1, 1, 2)
    for sizes in UNREAD:
        line = f"{sizes}\n".encode()
        ran = harness.run([program], good + line + good)
        if (ran.status, ran.output) != (1, answer(1, 1, 2)):
            return f"{line!r}: status {ran.status}, output {ran.output[:200]!r}"
    return None


def faults(refuser, room):
    """Runs each crew several times, and refuses the growths of small ones. Returns the names, each with what was wrong or None."""
    named = []
    for sizes in SIZES:
        runs = (fault(refuser.program, sizes) for _ in range(RUNS))
        named.append((f"{sizes[0]} callers and {sizes[1]} followers, {sizes[2]} times", next(filter(None, runs), None)))
    named.append(("lines that can't be read", input_faults(refuser.program)))
    for sizes in REFUSED:
        named.append((f"growths of {sizes}", growths(refuser, room, sizes)))
    return named
