"""What the tests share: the model of a store, and a Store that takes the lines of scripts, each as a call."""
import pathlib
import re
import sys
import threading

ROOT = pathlib.Path(__file__).resolve().parent.parent.parent
TESTS = ROOT / "tests"
sys.path[:0] = map(str, (ROOT / "python", TESTS, TESTS / "kit", TESTS / "dsctl", TESTS / "programs", TESTS / "bridges"))

import model
import pengtawis
from pengtawis import Endpoint

KINDS = (Endpoint, int, str, bytes)  # in the order of the model's
WORDS = dict(zip(KINDS, ("label", "u32", "str", "mem")))
STAMPS = re.compile(r"(checked \d+) .*")


def at_once(*works):
    """Runs each work in a thread, and raises what one of them raised."""
    wrong = []

    def one(work):
        try:
            work()
        except BaseException as fault:
            wrong.append(fault)

    threads = [threading.Thread(target=one, args=(it,)) for it in works]
    for it in threads:
        it.start()
    for it in threads:
        it.join()
    if wrong:
        raise wrong[0]


def value_of(kind, spelled):
    """Returns the value of a line's spelling."""
    if kind is Endpoint:
        return Endpoint(*map(int, spelled.split(b"/")))
    if kind is str:
        return re.sub(rb"\\(.)", rb"\1", spelled[1:-1]).decode()
    return int(spelled) if kind is int else bytes.fromhex(spelled.decode())


def spelled(value):
    """Returns a value as a line spells it."""
    if isinstance(value, str):
        return '"%s"' % re.sub(r'(["\\])', r"\\\1", value)
    return value.hex() if isinstance(value, bytes) else "%d/%d" % value if isinstance(value, Endpoint) else str(value)


def line_of(item):
    """Returns the line of an item, from its parts."""
    if isinstance(item, pengtawis.Floor):
        return f"! {item.owner} {item.generation}"
    body = "-" if item.value is None else f"= {spelled(item.value)}"
    return f"{item.name} {WORDS[item.kind]} {item.owner} {item.version.epoch}.{item.version.seq} {body}"


def lines_of(items):
    """Returns the lines of items, which must be those of their parts."""
    lines = items.text.decode().splitlines()
    assert [line_of(it) for it in items] == lines and len(items) == len(lines), lines
    return lines


def kinds_of(mask):
    return [kind for at, kind in enumerate(KINDS) if mask >> at & 1]


def scope_of(scope):
    return () if scope is None else (scope[0].decode("latin-1"), kinds_of(scope[1]))


def owed(subscriptions):
    return ["owed %032x" % sum(1 << it for it in subscriptions)] if subscriptions else []


def without_stamps(lines):
    """Removes the stamps of a check, which the package doesn't return."""
    return [STAMPS.sub(r"\1", it) for it in lines]


def told(refused):
    """Returns a refusal as a script prints it."""
    return refused.word + (" %d.%d" % refused.version if isinstance(refused, pengtawis.Clash) else "")


class Typed:
    """Answers each line by a call of a Store, as a script prints the answer."""

    def __init__(self, library=None):
        self.library, self.store = library, None

    def close(self):
        if self.store:
            self.store.close()

    def answer(self, line):
        command, _, rest = line.partition(b" ")
        if command == b"store":
            return self.open(*map(int, rest.split()[:3]))
        command, taken = model.read(line)
        if command == b"restart":
            self.open(taken[1], self.first, self.ring)
            return ["restarted"]
        try:
            return getattr(self, command.decode())(*taken)
        except pengtawis.Refused as refused:
            return [f"refused {told(refused)}"]

    def open(self, incarnation, first, ring):
        self.close()
        self.first, self.ring = first, ring
        self.store = pengtawis.Store(incarnation, first, ring, library=self.library)
        return ["ready"]

    def publish(self, caller, key, version, value, overwrite):
        done = self.store.publish(caller, key[0].decode(), value_of(KINDS[key[1]], value), version, overwrite=overwrite)
        return ["taken" if done.changed else "known"] + owed(done.owed)

    def delete(self, caller, key, version):
        done = self.store.delete(caller, key[0].decode(), KINDS[key[1]], version)
        return ["taken" if done.changed else "known"] + owed(done.owed)

    def sweep(self, caller, owner, generation):
        swept = self.store.sweep(caller, owner.decode(), generation)
        return [f"swept {swept.dropped}"] + owed(swept.owed)

    def retrieve(self, key):
        return [f"found {spelled(self.store.retrieve(key[0].decode(), KINDS[key[1]]))}"]

    def nameof(self, endpoint):
        return [f"named {self.store.nameof(endpoint)}"]

    def subscribe(self, sub, query, initial, overwrite):
        pattern, kinds = scope_of(query)
        told = self.store.subscribe(sub, pattern, kinds, initial=initial, overwrite=overwrite)
        return [f"subscribed {told.stamp}"] + owed(told.owed)

    def check(self, sub, most):
        items = self.store.check(sub, most)
        return lines_of(items) + [f"checked {len(items)}"]

    def since(self, incarnation, position, most, scope):
        items, cursor = next(self.store.since((incarnation, position), *scope_of(scope), most=most))
        return lines_of(items) + ["since %d %d %d" % (len(items), *cursor)]

    def snapshot(self, scope):
        items, cursor = self.store.snapshot(*scope_of(scope))
        return lines_of(items) + ["snapshot %d %d %d" % (len(items), *cursor)]

    def page(self, most, after, scope):
        key = None if after is None else (after[0].decode(), KINDS[after[1]])
        items, cursor, is_last = self.store.page(key, *scope_of(scope), most=most)
        return lines_of(items) + ["page %d %s %d %d" % (len(items), "last" if is_last else "more", *cursor)]

    def offer(self, item):
        merged = self.store.merge(items_of([item]))
        assert merged.done == 1, merged
        return ["taken" if merged.taken else "stale" if merged.stale else "known"] + owed(merged.owed)

    def merge(self, items):
        """Answers as a delivery of the items is answered."""
        try:
            merged = self.store.merge(items_of(items))
        except pengtawis.Refused as refused:
            return [f"stopped {refused.done} {told(refused)}"] + owed(refused.owed)
        return ["merged %d %d %d" % merged[:3]] + owed(merged.owed)

    def show(self):
        return self.store.line("show").splitlines()

    def all(self):
        return self.store.line("all").splitlines()


class ByLines(Typed):
    """Answers each line by `Store.line`."""

    def answer(self, line):
        if line.startswith((b"store ", b"restart ")):
            return super().answer(line)
        try:
            return self.store.line(line.decode("latin-1")).splitlines()
        except pengtawis.Refused as refused:
            return [f"refused {told(refused)}"]


def items_of(items):
    """Returns the model's items as the package's."""
    return pengtawis.Items("".join(f"{line_of_model(it)}\n" for it in items).encode())


def line_of_model(item):
    """Returns the line of the model's item."""
    if isinstance(item, model.Floor):
        return f"! {item.owner.decode()} {item.generation}"
    body = "-" if item.value is None else f"= {item.value.decode('latin-1')}"
    kind = model.KINDS[item.key[1]].decode()
    return f"{item.key[0].decode()} {kind} {item.owner.decode()} {item.version[0]}.{item.version[1]} {body}"
