#!/usr/bin/env python3
"""tests/bridges/history.py [--bound SECONDS] LOG ..: checks whether the answers that clients of bridges got have a legal order.

Each line of a log is a JSON object, with times in seconds of one clock, and `store` and `run` of the bridge that was called. A change has
`text`, its line; `asked`, when it was sent; and `answered`, or null if no answer came. A read has `client`, one connection; `asked` and
`answered`; and `shown`, the lines of changes and floors. A `final` read was made after all changes and shows all that its store holds. The
rules for each key:

    invented   a read shows a change that no client had sent by then
    back       a later read of the same client shows an older version
    forgotten  a read shows an older version than its own store had answered earlier in the same run
    late       a read shows an older version than some store had answered SECONDS earlier, by default 30
    lost       a final read has neither an answered version, nor a newer one, nor a floor that covers it

Prints the first faults and a line of counts. The status is 1 if there is a fault.
"""
import argparse
import bisect
import collections
import json
import sys

BOUND = 30
SHOWN = 20  # faults that are printed


class Rising:
    """The highest version at each time."""

    def __init__(self, pairs):
        self.times, self.highest = [], []
        for time, version in sorted(pairs):
            self.times.append(time)
            self.highest.append(max(version, self.highest[-1]) if self.highest else version)

    def before(self, time):
        """Returns the highest version before a time, or None."""
        at = bisect.bisect_left(self.times, time)
        return self.highest[at - 1] if at else None


def parsed(text):
    """Returns the key, owner and version of a change. The key of a floor is `!` and its owner."""
    name, kind, *rest = text.split()
    if name == "!":
        return f"! {kind}", kind, (int(rest[0]),)
    return f"{name} {kind}", rest[0], tuple(map(int, rest[1].split(".")))


class History:
    """The changes by key, and the reads."""

    def __init__(self, events, bound=BOUND):
        self.bound, self.faults, self.reads, self.changes = bound, [], [], 0
        self.asked, self.newest = {}, {}  # by line: when it was sent; by key: the newest answered version and its owner
        self.answered, self.own = collections.defaultdict(list), collections.defaultdict(list)
        for event in events:
            if "shown" in event:
                self.reads.append(event)
            else:
                self.take(event)
        self.answered = {key: Rising(pairs) for key, pairs in self.answered.items()}
        self.own = {key: Rising(pairs) for key, pairs in self.own.items()}
        self.reads.sort(key=lambda it: it["asked"])

    def take(self, change):
        text, answered = change["text"], change["answered"]
        key, owner, version = parsed(text)
        self.changes += 1
        self.asked[text] = min(change["asked"], self.asked.get(text, change["asked"]))
        if answered is None:
            return
        self.answered[key].append((answered, version))
        self.own[key, change["store"], change["run"]].append((answered, version))
        self.newest[key] = max((version, owner), self.newest.get(key, (version, owner)))

    def fault(self, rule, read, key, what):
        self.faults.append(f"{rule}: {key} at {read['store']}, {read['asked']:.3f} s: {what}")

    def judge(self):
        """Returns the faults."""
        seen = {}
        for read in self.reads:
            held = {}
            for text in read["shown"]:
                key, _, version = parsed(text)
                held[key] = version
                if self.asked.get(text, read["answered"] + 1) > read["answered"]:
                    self.fault("invented", read, key, f"no client had sent {text}")
                self.compare("back", read, key, version, seen.get((read["client"], key)))
                self.compare("forgotten", read, key, version, self.highest(self.own, (key, read["store"], read["run"]), read["asked"]))
                self.compare("late", read, key, version, self.highest(self.answered, key, read["asked"] - self.bound))
                seen[read["client"], key] = version
            if read.get("final"):
                self.judge_final(read, held)
        return self.faults

    @staticmethod
    def highest(versions, key, time):
        return versions[key].before(time) if key in versions else None

    def compare(self, rule, read, key, version, least):
        if least is not None and version < least:
            self.fault(rule, read, key, f"{version} instead of {least} or newer")

    def judge_final(self, read, held):
        for key, (version, owner) in self.newest.items():
            is_covered = version[0] <= held.get(f"! {owner}", (0,))[0] and key.split()[1] != "label"
            if not is_covered and held.get(key, (0,)) < version:
                self.fault("lost", read, key, f"{held.get(key)}, but {version} was answered")


def main():
    words = argparse.ArgumentParser(usage=__doc__)
    words.add_argument("--bound", type=float, default=BOUND)
    words.add_argument("logs", nargs="+")
    given = words.parse_args()
    count = 0
    for name in given.logs:
        with open(name, encoding="utf-8") as log:
            history = History(map(json.loads, log), given.bound)
        faults = history.judge()
        print("".join(f"{it}\n" for it in faults[:SHOWN]), end="")
        print(f"{name}: {history.changes} changes, {len(history.reads)} reads, {len(faults)} faults")
        count += len(faults)
    return count > 0


if __name__ == "__main__":
    sys.exit(main())
