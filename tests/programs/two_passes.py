"""Runs two passes of one desk that call a store alternately, for tests/programs/desk.

The program and the model below print the rows, and must agree. Then each row runs under tests/kit/refuse.c with its n-th growth refused, for
n = 1, 2, .. up to the last. The run ends with `noroom`, after the lines that it had printed. Or one call reports it, is one entry of the
history and changes nothing, and later calls have their usual answers. Or a close is refused for it, and the desk stays open. Or a library
does without.
"""
import pathlib

import harness

END = 2**62  # the first place, and the first position, past the end
WANTED = ("refused: out of memory, owed 0, raised 0", "refused by the desk: out of memory")

# What each row does, in order: `refuse PASSES PLACE`, `open PLACE POSITION`, `follow SUB`, `start`, `front`, `take SERVER`, `stop CAUSE`, `close SUB`, which prints the row of SUB.
ROWS = {
    "notice": [
        ("open", 0, 0), ("follow", 0), ("start",), ("start",), ("take", 0), ("take", 0),
        ("stop", "a note is out"), ("front",), ("stop", "a pass is out"), ("close", 0),
    ],
    "last": [
        ("open", END - 1, 0), ("start",), ("start",), ("take", 0), ("close", 0),
        ("open", 0, END), ("follow", 0), ("start",), ("close", 0),
    ],
    "bits": [
        ("open", 0, 0), ("follow", 127), ("front",), ("start",), ("front",), ("take", 14), ("take", 15), ("take", 16), ("close", 127),
    ],
    "none": [("refuse", 0, 0), ("refuse", 65, END + 1), ("refuse", 1, END + 1)],
}
CALLED_ON = ("notice", "bits")  # rows that call a desk again after a call that may run out of memory


class Row:
    """A desk over a store, and the lines that its calls print. `lacking` has the numbers of the lines at which memory runs out."""

    def __init__(self, steps, lacking=()):
        self.lines, self.lacking = [], lacking
        for step in steps:
            getattr(self, step[0])(*step[1:])

    def open(self, place, position):
        self.place, self.position, self.stamp = place, position, position
        self.followers = self.pending = 0
        self.raises, self.takes = [0] * 128, [0] * 128

    def refuse(self, passes, place):
        cause = "not 1 to 64 passes" if not 1 <= passes <= 64 else "the first place is above 2^62"
        self.say(f"no desk: {cause}; the store is at 7")

    def say(self, line):
        self.lines.append(line)

    def runs_out(self):
        return len(self.lines) in self.lacking

    def call(self, words, owed):
        raised = owed & ~self.pending
        self.say(f"place {self.place}: {words}, owed {owed}, raised {raised}")
        self.place, self.pending = self.place + 1, self.pending | owed
        self.count(self.raises, raised)

    def count(self, rows, bits):
        for sub in range(128):
            rows[sub] += bits >> sub & 1

    def asks(self, worn):
        """Returns whether a call succeeds: the desk and the store have memory and numbers left for it. If not, prints its answer."""
        if self.place == END:
            self.say("refused by the desk: worn out")
        elif self.runs_out():
            self.call("refused: out of memory", 0)
        elif worn:
            self.call("refused: all positions or stamps are used", 0)
        else:
            return True
        return False

    def follow(self, sub):
        if self.asks(self.stamp == END):
            self.stamp, self.followers = self.stamp + 1, self.followers | 1 << sub
            self.call(f"subscribed {self.stamp}", 0)

    def start(self):
        if self.asks(self.position == END):
            self.position += 1
            self.call("changed", self.followers)

    def front(self):
        self.say(f"front {self.place}")

    def take(self, server):
        if server >= 16:
            return self.say("refused by the desk: no such server")
        bits = self.pending >> 8 * server & 255
        self.pending &= ~(bits << 8 * server)
        self.count(self.takes, bits << 8 * server)
        return self.say(f"server {server}: bits {bits}, floor {self.place}")

    def stop(self, cause):
        self.say(f"refused by the desk: {'out of memory' if self.runs_out() else cause}")

    def close(self, sub):
        if self.runs_out():
            return self.say("refused by the desk: out of memory")
        pending = "true" if self.pending >> sub & 1 else "false"
        return self.say(f"closed: position {self.position}, raises {self.raises[sub]}, takes {self.takes[sub]}, pending {pending}")


def text(lines):
    return "".join(line + "\n" for line in lines).encode()


def fault(ran, output):
    wrong = harness.difference(ran.output, output)
    return wrong or (None if (ran.status, ran.error) == (0, b"") else f"status {ran.status}, standard error {ran.error[:200]!r}")


def row_fault(program, name):
    return fault(harness.run([program], text([name])), text(Row(ROWS[name]).lines))


def input_faults(program):
    """A line that can't be read ends the program with status 1, after the answers to those before it."""
    for line in (b"Notice\n", b"notice \n", b"2 3\n", b"\n"):
        ran = harness.run([program], b"bits\n" + line + b"bits\n")
        if (ran.status, ran.output) != (1, text(Row(ROWS["bits"]).lines)):
            return f"{line!r}: status {ran.status}, output {ran.output[:200]!r}"
    return None


def judged(ran, name):
    """Returns what is wrong with a run in which one growth was refused, or None. One call or close reports it, and the others answer as usual."""
    lines = ran.output.decode().splitlines()
    lacking = [at for at, line in enumerate(lines) if line.endswith(WANTED)]
    if len(lacking) != 1:
        return f"{len(lacking)} answers are noroom"
    return fault(ran, text(Row(ROWS[name], lacking).lines))


def goes_on(lines):
    """Returns whether a call was answered noroom, and the desk was called again after it."""
    calls = [line for line in lines if line.startswith("place ")]
    return any(one.endswith(WANTED[0]) and not next_one.startswith("place 0:") for one, next_one in zip(calls, calls[1:]))


def growths(refuser, room, name):
    """Refuses each growth of a row, one per run. Returns what is wrong with the first bad answer, or None."""
    given = pathlib.Path(room) / name
    given.write_bytes(text([name]))
    case = harness.Case(name, [], given, text(Row(ROWS[name]).lines))
    answered = continued = 0

    def refused(ran):
        nonlocal answered, continued
        if ran.status == 3:
            return None if ran.error == b"noroom\n" and case.output.startswith(ran.output) else f"it ended with {ran.output[-200:]!r}, {ran.error!r}"
        if ran.output == case.output:
            return refuser.unseen_fault()
        answered += 1
        continued += goes_on(ran.output.decode().splitlines())
        return judged(ran, name)

    wrong = refuser.each_growth(case, refused)
    if wrong:
        return wrong
    if not answered and "close" in {step for step, *_ in ROWS[name]}:
        return "no line reported a refused growth"
    if not continued and name in CALLED_ON:
        return "no call that was answered noroom had another after it"
    return None


def faults(refuser, room):
    """Runs each row, and refuses its growths. Returns the names, each with what was wrong or None."""
    named = [(f"row {name}", row_fault(refuser.program, name)) for name in ROWS]
    named.append(("rows that can't be read", input_faults(refuser.program)))
    return named + [(f"growths of row {name}", growths(refuser, room, name)) for name in ROWS]
