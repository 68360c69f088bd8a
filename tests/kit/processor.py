"""Measures the processor time of `rt ci` by crate and part (proof, tests, edits), and limits how many proofs run at once.

`rt ci` starts one `rattle` for each, and doesn't report what that took. So while it runs, its descendants are
sampled each second. The time that the kernel counts for each `rattle` and all that it started is kept. What one takes after
its last sample counts as the rest of `rt ci`.
"""
import os
import re
import statistics
import threading
import time

PARTS = ("proof", "tests", "edits")
BUDGET = {"proof": 6, "tests": 1, "edits": 4}  # minutes of the reference processor that a crate may take,
BUDGET_OF_ALL = 155  # and that the whole gate may
INTERVAL = 1  # seconds between two samples
MOST = 4  # proofs at once
UNKNOWN = 2  # proofs at once, if a figure is unknown
REST = 15  # seconds between two pieces of work
REFERENCE = 0.0084  # seconds that the piece of work takes the reference processor, while a gate runs beside it
ROOM = 5 << 30  # bytes that must be free for each proof
TICK = os.sysconf("SC_CLK_TCK")


def side_by_side(processors, free):
    """Returns how many proofs run at once, given the processors and the bytes of free memory; None means unknown."""
    by_processors = UNKNOWN if processors is None else processors
    by_memory = UNKNOWN if free is None else free // ROOM
    return max(1, min(MOST, by_processors, by_memory))


def lanes(processors):
    """Returns how many tests run at once, given the processors; None means unknown. One processor is left to what the tests wait for."""
    return max(1, (UNKNOWN if processors is None else processors) - 1)


def usable_processors():
    """Returns how many processors this process may run on, or None."""
    return len(os.sched_getaffinity(0)) if hasattr(os, "sched_getaffinity") else None


def free_memory(path="/proc/meminfo"):
    """Returns how many bytes of memory are available to programs now, or None."""
    found = re.search(rb"^MemAvailable: +(\d+) kB$", read(path), re.MULTILINE)
    return int(found[1]) << 10 if found else None


def read(path):
    try:
        with open(path, "rb") as it:
            return it.read()
    except OSError:
        return b""


def worked(path="/proc/stat"):
    """Returns the minutes that all processors have worked, and those that other machines on the same hardware took from them; or None."""
    found = re.match(rb"cpu +(\d+) (\d+) (\d+) \d+ \d+ (\d+) (\d+) (\d+)", read(path))
    if not found:
        return None
    *busy, stolen = (int(it) / TICK / 60 for it in found.groups())
    return sum(busy), stolen


def beside(before, after, own):
    """Returns rows for the table: the minutes that others took while something ran that itself took `own`. They slow it down."""
    if not (before and after):
        return []
    busy, stolen = (new - old for old, new in zip(before, after))
    return [("beside it: other programs", max(0, busy - own)), ("beside it: other machines", stolen)]


def processes():
    """Returns, by process number, the parent and the seconds that the process and its ended children took."""
    found = {}
    for name in os.listdir("/proc"):
        fields = read(f"/proc/{name}/stat").rpartition(b")")[2].split() if name.isdigit() else []
        if len(fields) > 14:
            found[int(name)] = int(fields[1]), sum(map(int, fields[11:15])) / TICK
    return found


def part_of(number):
    """Returns the crate and the part that a `rattle` works on, or None if the process isn't one."""
    words = read(f"/proc/{number}/cmdline").split(b"\0")
    if not words[0].endswith(b"/rattle") or b"--crate-name" not in words:
        return None
    crate = os.fsdecode(words[words.index(b"--crate-name") + 1])
    try:
        folder = os.path.basename(os.readlink(f"/proc/{number}/cwd"))
    except OSError:
        return None
    return crate, "edits" if folder.startswith("rt-edit") else "tests" if b"--test" in words else "proof"


def piece_of_work():
    """Returns the processor's seconds for a fixed piece of work, which fills a table and sorts it."""
    begun, table = time.thread_time(), {}
    for at in range(60_000):
        table[at * 7_919 % 65_521] = at
    sorted(table.values())
    return time.thread_time() - begun


class Pace:
    """Measures how fast the processors are while something runs, by a fixed piece of work each quarter of a minute: `with Pace() as pace:
    ..`.
    """

    def __init__(self):
        self.ended = threading.Event()
        self.seconds = [piece_of_work()]
        self.working = threading.Thread(target=self.work_on)

    def __enter__(self):
        self.working.start()
        return self

    def __exit__(self, *_):
        self.ended.set()
        self.working.join()

    def work_on(self):
        while not self.ended.wait(REST):
            self.seconds.append(piece_of_work())

    def took(self):
        """Returns the median of the seconds that the piece of work took."""
        return statistics.median(self.seconds)


def of_reference(minutes, took):
    """Returns the minutes of the reference processor, given the minutes here and the seconds that the piece of work took here."""
    return minutes * REFERENCE / took


class Clock:
    """Watches the process `number` and its descendants: `with Clock(number) as clock: ..`."""

    def __init__(self, number):
        self.number = number
        self.ended = threading.Event()
        self.seconds = {}  # by the number of a `rattle`, its crate and its part: its time so far
        self.looking = threading.Thread(target=self.look_on)

    def __enter__(self):
        self.looking.start()
        return self

    def __exit__(self, *_):
        self.ended.set()
        self.looking.join()

    def look_on(self):
        while not self.ended.wait(INTERVAL):
            found = processes()
            children = {}
            for number, (parent, _) in found.items():
                children.setdefault(parent, []).append(number)
            self.look(self.number, found, children)

    def look(self, number, found, children):
        """Finds the first `rattle` on each path down from a process."""
        for child in children.get(number, ()):
            part = part_of(child)
            if part:
                took = self.taken(child, found, children)
                self.seconds[child, part] = max(took, self.seconds.get((child, part), 0))
            else:
                self.look(child, found, children)

    def taken(self, number, found, children):
        return found[number][1] + sum(self.taken(child, found, children) for child in children.get(number, ()))

    def minutes(self):
        """Returns the minutes of each crate and part."""
        sums = {}
        for (_, part), seconds in self.seconds.items():
            sums[part] = sums.get(part, 0) + seconds / 60
        return sums


def table(minutes, rest, others=(), took=REFERENCE):
    """Returns lines with the minutes of each crate and part, of the rest by name, of others, and of what is above its budget.

    The crate that took the most comes first, and the sums follow the crates. No sum includes `others`, the rows of `beside`. All are
    minutes of the reference processor, given the seconds that the piece of work took here.
    """
    minutes = {part: of_reference(it, took) for part, it in minutes.items()}
    rest, others = ([(name, of_reference(it, took)) for name, it in rows] for rows in (rest, others))
    crates = [(crate, *(minutes.get((crate, part), 0) for part in PARTS)) for crate in {crate for crate, _ in minutes}]
    crates.sort(key=lambda row: (-sum(row[1:]), row[0]))
    sums = ("all crates", *(sum(row[at] for row in crates) for at in range(1, len(PARTS) + 1)))
    total = sum(sums[1:]) + sum(it for _, it in rest)
    lines = [f"{'reference minutes':<20}" + "".join(f"{part:>8}" for part in PARTS) + f"{'sum':>8}"]
    lines += [f"{row[0]:<20}" + "".join(f"{it:8.1f}" for it in (*row[1:], sum(row[1:]))) for row in [*crates, sums]]
    lines += [f"{name:<44}{it:8.1f}" for name, it in [*rest, ("all", total), *others]]
    lines += [f"a minute is one of the reference processor: the piece of work took {took:.4f} s here, {REFERENCE:.4f} s there"]
    over = [(row[0], part) for row in crates for part, it in zip(PARTS, row[1:]) if it > BUDGET[part]]
    lines += [f"above its budget of {BUDGET[part]}: {crate}, {part}" for crate, part in over]
    return lines + [f"above its budget of {BUDGET_OF_ALL}: all"] * (total > BUDGET_OF_ALL)
