"""Runs `dsctl live` for tests/programs/live and tests/soak: threads at two desks, and one that exchanges what their stores hold.

The report for given sizes is the same in whatever order the threads run. If a growth or a thread is refused, the run ends with a word and
prints nothing, or the report is the usual one.
"""
import pathlib

import harness

DEFAULTS = (2, 2, 3)  # publishers, subscribers, and the turns of each worker
MOST_EACH, MOST_TURNS = 8, 1000
ENDS = (b"noroom\n", b"nothread\n", b"stopped\n")  # how a run may end if memory or a thread is refused


def words_of(sizes):
    """Returns the arguments for these numbers of publishers, subscribers and turns. The defaults need no options."""
    publishers, subscribers, changes = map(str, sizes)
    options = ["--publishers", publishers, "--subscribers", subscribers, "--changes", changes]
    return ["live"] + (options if sizes != DEFAULTS else [])


def report_of(sizes):
    """Returns what a run reports: a label and a number of each publisher, and that everything agrees."""
    return f"entries {2 * sizes[0]}\nmaps equal\nreplicas equal\naccount exact\n".encode()


def fault(program, sizes):
    """Runs these sizes, and returns what is wrong with the report, or None."""
    ran = harness.run([program, *words_of(sizes)], b"")
    wrong = harness.difference(ran.output, report_of(sizes))
    return wrong or (None if (ran.status, ran.error) == (0, b"") else f"status {ran.status}, standard error {ran.error[:200]!r}")


def case_of(sizes, room):
    empty = pathlib.Path(room) / "empty"
    empty.write_bytes(b"")
    return harness.Case(f"live {sizes}", words_of(sizes), empty, report_of(sizes))


def refused_fault(ran, sizes):
    """Returns what is wrong with a run in which one growth was refused, or None."""
    if (ran.status, ran.error, ran.output) == (0, b"", report_of(sizes)) or (ran.status == 3 and ran.error in ENDS and ran.output == b""):
        return None
    return f"status {ran.status}, output {ran.output[:200]!r}, standard error {ran.error[:200]!r}"
