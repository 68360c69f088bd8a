"""Runs crews of threads at one desk, over a counter or a store, and refuses them growths of memory, for tests/programs/desk.

The program compares every reply with that of one thread that gets the history, and the account with what the threads counted. In 16 calls
a store gets each command. A take follows every fourth call, and a note that another thread learns follows every eighth. Each line of input,
`counter THREADS CALLS` or `store THREADS CALLS`, is answered by one line, which is the same in whatever order the threads run.

If the n-th growth is refused, one of these happens. The run ends with `noroom`, after the lines that it had printed. Or one call of a store
has that answer: it is an entry of the history and changes nothing, or it is a Merge that stops and keeps the items before it; all other
calls have their usual answers. Or a thread can't be created, and everything is as with ample memory.
"""
import pathlib

import harness

RUNS = 5  # of each crew, since the order of turns differs from run to run
REFUSED = ((1, 16), (2, 8), (1, 0))  # threads, and the calls of each
UNREAD = ("2", "two 3", "2 3 ", "2 -1", "0 1", "65 1")  # a desk has 1 to 64 threads


class Crews:
    """Crews that share one thing. `words` are those between the numbers of an answer, the ones with ample memory first."""

    program = 0  # its place among those that tests/soak runs

    def __init__(self, shared, sizes, *words):
        self.shared, self.sizes, self.words = shared, sizes, words

    def asked(self, threads, calls):
        return f"{self.shared} {threads} {calls}\n".encode()

    def size(self, threads, calls):
        """Returns what such a crew does, for the sums of tests/soak."""
        done = {f"calls of a {self.shared}": calls, "takes of notices": calls // 4, "notes that are learnt": calls // 8}
        return {**{what: threads * count for what, count in done.items()}, "threads": threads}

    def lines_of(self, threads, calls):
        """Returns the lines that may answer a crew, the one with ample memory first."""
        return [f"threads {threads} entries {threads * calls} {words}history legal account exact\n".encode() for words in self.words]

    def fault(self, program, threads, calls):
        """Runs a crew, and returns what is wrong with what it prints, or None."""
        ran = harness.run([program], self.asked(threads, calls))
        wrong = harness.difference(ran.output, self.lines_of(threads, calls)[0])
        return wrong or (None if (ran.status, ran.error) == (0, b"") else f"status {ran.status}, standard error {ran.error[:200]!r}")

    def input_faults(self, program):
        """Checks that a line that can't be read ends the program with status 1, after the answers before it. Returns a fault or None."""
        good = self.asked(1, 2)
        for line in [b"\n", *(f"{self.shared} {sizes}\n".encode() for sizes in UNREAD)]:
            ran = harness.run([program], good + line + good)
            if (ran.status, ran.output) != (1, self.lines_of(1, 2)[0]):
                return f"{line!r}: status {ran.status}, output {ran.output[:200]!r}"
        return None

    def small_case(self, room, threads, calls):
        """Returns a case in a file of its own: a crew of one thread and one call, and one of these sizes."""
        given = pathlib.Path(room) / f"{self.shared}_{threads}_{calls}"
        given.write_bytes(self.asked(1, 1) + self.asked(threads, calls))
        return harness.Case(given.name, [], given, self.lines_of(1, 1)[0] + self.lines_of(threads, calls)[0])

    def refused_fault(self, ran, threads, calls):
        """Returns what is wrong with a run of such a case in which one growth was refused, or None."""
        first, second = self.lines_of(1, 1), self.lines_of(threads, calls)
        if ran.status == 3 and (ran.error != b"noroom\n" or ran.output not in (b"", first[0])):
            return f"it ended with {ran.output[:200]!r}, {ran.error[:200]!r}"
        wanted = {first[0] + line for line in second} | {line + second[0] for line in first}
        if ran.status != 3 and (ran.status, ran.error, ran.output in wanted) != (0, b"", True):
            return f"status {ran.status}, output {ran.output[:200]!r}, standard error {ran.error[:200]!r}"
        return None

    def growths(self, refuser, room, threads, calls):
        """Refuses each growth of one crew, one per run. Returns what is wrong with the first bad answer, or None."""
        case = self.small_case(room, threads, calls)
        ended = answered = 0

        def refused(ran):
            nonlocal ended, answered
            ended += ran.status == 3
            answered += ran.status == 0 and ran.output != case.output
            return self.refused_fault(ran, threads, calls)

        wrong = refuser.each_growth(case, refused)
        if wrong:
            return wrong
        if not ended:
            return "no refused growth ended it"
        return None if answered or len(self.words) == 1 else "no call answered a refused growth with `noroom`"

    def faults(self, refuser, room):
        """Runs each crew several times, and refuses the growths of small ones. Returns the names, each with what was wrong or None."""
        named = []
        for threads, calls in self.sizes:
            runs = (self.fault(refuser.program, threads, calls) for _ in range(RUNS))
            named.append((f"{self.shared}: {threads} threads of {calls} calls", next(filter(None, runs), None)))
        named.append((f"{self.shared}: lines that can't be read", self.input_faults(refuser.program)))
        for threads, calls in REFUSED:
            named.append((f"{self.shared}: growths of {threads} threads of {calls} calls", self.growths(refuser, room, threads, calls)))
        return named


ALL = (
    Crews("counter", ((2, 4000), (4, 2000), (8, 1000), (64, 40)), ""),
    Crews("store", ((2, 1000), (4, 500), (8, 250), (64, 20)), "noroom 0 ", "noroom 1 "),
)
