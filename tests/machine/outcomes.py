"""The results of harm: each failure of a service by how it was detected, when the next instance answered, and what was never detected."""
import re
import statistics

DIED = re.compile(r"died (\S+) (\d+)/\d+ cause (\d) (\w+) (\d+)")
KILLED = re.compile(r"kill (\S+) (\d+)/\d+ cause (\d)")
BEGAN = re.compile(r"began (\S+) (\d+)/\d+ pid (\d+)")
WORDS = {1: "exit", 2: "exception", 3: "signal", 4: "heartbeat", 5: "complaint"}
CAUSES = tuple(WORDS.values())


class Failure:
    """An instance that failed: when RS noticed, why, when the next one began, and when that one answered; None if it never did."""

    def __init__(self, at, generation, cause):
        self.at, self.generation, self.cause, self.began, self.answered = at, generation, cause, None, None


def failures_of(events, notes, label):
    """Returns the failures of a service, in order."""
    found, began, firsts = {}, {}, {}
    for at, text in events:
        if text.startswith("ends"):
            break
        for pattern in (DIED, KILLED):
            it = pattern.fullmatch(text)
            if it and it[1] == label and int(it[3]) in WORDS and int(it[2]) not in found:
                found[int(it[2])] = Failure(at, int(it[2]), WORDS[int(it[3])])
        it = BEGAN.fullmatch(text)
        if it and it[1] == label:
            began[int(it[2])] = at
    for at, word, of, generation, _ in notes:
        if word == "first" and of == label:
            firsts[generation] = at
    for generation, it in found.items():
        it.began = min((at for next_one, at in began.items() if next_one > generation), default=None)
        it.answered = min((at for next_one, at in firsts.items() if next_one > generation), default=None)
    return list(found.values())


def times_of(failures, harmed):
    """Returns the times from each failure's last harm to the next instance's first answer, and RS's pauses, all in milliseconds."""
    last = {int(endpoint.split("/")[0]): at for at, endpoint, _ in harmed}
    whole = [1000 * (it.answered - last[it.generation]) for it in failures if it.answered and it.generation in last]
    pause = [1000 * (it.began - it.at) for it in failures if it.began]
    return whole, pause


def percentile(values, share):
    ordered = sorted(values)
    return ordered[min(len(ordered) - 1, int(len(ordered) * share))] if ordered else None


def figures(values):
    """Returns the median, the 99th percentile and the maximum, or None."""
    if not values:
        return None
    return {"median": round(statistics.median(values), 1), "p99": round(percentile(values, 0.99), 1), "most": round(max(values), 1)}


def rate(rates, spans, size=4096):
    """Returns the MB a second within spans of time, or None."""
    count = taken = 0
    for (before, had), (after, has) in zip(rates, rates[1:]):
        if any(begin <= before and after <= end for begin, end in spans):
            count += has - had
            taken += after - before
    return round(size * count / taken / 1e6, 1) if taken else None


def sides(begun, end, pairs):
    """Returns the spans of a run that were undisturbed, and those that weren't."""
    quiet, harmed, at, turn = [], [], begun, 0
    while at < end:
        (harmed if turn % 2 else quiet).append((at, at + pairs))
        at, turn = at + pairs, turn + 1
    return quiet, harmed


ONLY_AT_THE_START = ("_start", "main", "confine", "line_open", "wire_open")
HANGS = 0.2  # seconds that a driver may be silent before it is missed


def flips_of(done, failures):
    """Returns the flips of each kind; and by function how many there were, and how many were the last before a failure."""
    failed, last = {it.generation: it for it in failures}, {}
    sorted_flips = {"last before a failure": 0, "into a driver that hung": 0, "into code that ran already": 0, "without effect": 0}
    rows = {}
    for at, endpoint, name in done:
        failure = failed.get(int(endpoint.split("/")[0]))
        if failure and at <= failure.at + 0.002 and not is_into_hung(at, failure):
            last[failure.generation] = at
    for at, endpoint, name in done:
        generation = int(endpoint.split("/")[0])
        failure = failed.get(generation)
        is_last = last.get(generation) == at
        row = rows.setdefault(name, [0, 0])
        row[0] += 1
        row[1] += is_last
        hung = failure and is_into_hung(at, failure)
        word = 0 if is_last else 1 if hung else 2 if name in ONLY_AT_THE_START else 3
        sorted_flips[list(sorted_flips)[word]] += 1
    return sorted_flips, rows


def is_into_hung(at, failure):
    return failure.cause == "heartbeat" and at > failure.at - HANGS
