"""Each growth of the library's memory is refused once, alone and with all after it.

A call that is refused by NoRoom is made again with memory, and then all answers are as ever: a refused call changed nothing, and no
item of a check was lost. The library is one that tests/programs/python links with refusing.c.
"""
import ctypes
import os
import unittest

import support
from pengtawis import RS, Endpoint, Items, Map, NoRoom, NotFound, Offer, Rs, Store, TooMany

LIBRARY = os.environ.get("PENGTAWIS_REFUSING")
ETH = Endpoint(3, 16)
ITEMS = b'! tty 1\neth0 label rs 3.0 = 3/16\neth0.s str eth0 3.1 = "a value"\neth1 label rs 4.0 = 4/17\n'
LARGE = 40  # values of 1024 bytes: more than one buffer of text
SETTINGS = 'service = [{label = "eth0", class = "server", limit = 1}]'
WANTED = [
    *["taken"] * 3,
    *["subscribed 1", 'found "a value"', "found " + "61" * 1024, "named eth0", "checked 3", "checked 0"],
    *["snapshot 3", "since 3", "page 2", "all 3", "line 5", "eth0 label rs 3.0 = 3/16\nchecked 1 3 4\n", "held 3", "label 3/16", "large 44", "checked 44"],
]
# What takes memory.
REFUSED = {"open", "publish", "subscribe", "retrieve", "check", "snapshot", "since", "page", "all", "line", "text", "merge", "map", "take", "large"}


class Memory:
    """Controls the library's memory, and counts what it was refused to."""

    def __init__(self):
        library = ctypes.PyDLL(LIBRARY)
        self.left, self.asked = (ctypes.c_long.in_dll(library, it) for it in ("growths_left", "growths_asked"))
        self.once = ctypes.c_int.in_dll(library, "growths_once")
        self.refused = {}

    def insist_on_text(self, store, line):
        """Returns the answer to a line. If it is there and memory ran out for its text alone, the text is fetched again."""
        try:
            return store.line(line)
        except NoRoom:
            self.refused["text"] = self.refused.get("text", 0) + 1
            self.left.value = -1
            text = store.text()
            return store.line(line) if text == "refused noroom\n" else text

    def insist(self, what, call):
        """Returns the answer to a call, which is made again with memory if there was none."""
        try:
            return call()
        except NoRoom:
            self.refused[what] = self.refused.get(what, 0) + 1
            self.left.value = -1
            return call()


def published(store):
    """Publishes by one call what the store holds already, and a name that it doesn't. Raises what one of them was refused by."""
    told = store.publish_all(ETH, [("eth0.s", "a value", (3, 0)), ("eth0.m", b"a" * 1024, (3, 0)), ("a.n", bytes(9), (3, 1))])
    for it in told:
        if isinstance(it, Exception):
            raise it
    return len(told)


def answers(memory):
    """Asks a store and a map, and returns what they answer."""
    said = []
    store = memory.insist("open", lambda: Store(1, ring=4096, library=LIBRARY))

    def ask(what, call, shown):
        answer = memory.insist(what, call)
        said.append(shown(answer))
        return answer

    def is_taken(done):
        return "taken" if done.changed else "known"

    with store:
        ask("publish", lambda: store.publish(RS, "eth0", ETH, (3, 0)), is_taken)
        ask("publish", lambda: store.publish(ETH, "eth0.s", "a value", (3, 0)), is_taken)
        ask("publish", lambda: store.publish(ETH, "eth0.m", b"a" * 1024, (3, 0)), is_taken)
        ask("subscribe", lambda: store.subscribe(40, "eth.*"), lambda it: f"subscribed {it.stamp}")
        ask("retrieve", lambda: store.retrieve("eth0.s", str), lambda it: f'found "{it}"')
        ask("retrieve", lambda: store.retrieve("eth0.m", bytes), lambda it: f"found {it.hex()}")
        ask("nameof", lambda: store.nameof(ETH), lambda it: f"named {it}")
        for _ in range(2):
            ask("check", lambda: store.check(40), lambda it: f"checked {len(support.lines_of(it))}")
        items, cursor = ask("snapshot", lambda: store.snapshot("eth.*"), lambda it: f"snapshot {len(support.lines_of(it.items))}")
        ask("since", lambda: list(store.since((1, 0), "eth.*")), lambda it: f"since {len(it[0].items)}")
        ask("page", lambda: store.page(("eth0", Endpoint), "eth.*"), lambda it: f"page {len(support.lines_of(it.items))}")
        ask("all", lambda: published(store), lambda it: f"all {it}")
        ask("line", lambda: store.line("snapshot *"), lambda it: f"line {len(it.splitlines())}")
        memory.insist("subscribe", lambda: store.subscribe(42, "eth0"))
        said.append(memory.insist_on_text(store, "check 42 8"))
        with memory.insist("open", lambda: Store(2, library=LIBRARY)) as other:
            memory.insist("merge", lambda: other.merge(items))
            ask("snapshot", lambda: other.snapshot(), lambda it: f"held {len(support.lines_of(it.items))}")
        with memory.insist("map", lambda: Map("eth.*", library=LIBRARY)) as drivers:
            memory.insist("take", lambda: drivers.take(Items(ITEMS)))
            ask("label", lambda: drivers.label("eth0"), lambda it: f"label {support.spelled(it)}")
        for at in range(LARGE):
            memory.insist("publish", lambda: store.publish(ETH, f"eth0.m{at}", bytes(1024), (3, 0)))
        ask("large", lambda: store.snapshot(), lambda it: f"large {len(support.lines_of(it.items))}")
        memory.insist("subscribe", lambda: store.subscribe(41, ".*"))
        ask("check", lambda: store.check(41), lambda it: f"checked {len(support.lines_of(it))}")
    return said


@unittest.skipUnless(LIBRARY, "PENGTAWIS_REFUSING names no library")
class Growth(unittest.TestCase):
    def test_each_growth(self):
        memory = Memory()
        before = memory.asked.value
        self.assertEqual(answers(memory), WANTED)
        self.assertEqual(memory.refused, {})
        count = memory.asked.value - before
        self.assertGreater(count, 50)
        for once in (0, 1):
            for left in range(count):
                memory.once.value, memory.left.value = once, left
                self.assertEqual(answers(memory), WANTED, f"growth {left}, once {once}")
                memory.left.value = -1
        self.assertEqual(set(memory.refused), REFUSED)

    def test_a_subscription_that_is_replaced(self):
        """Shows nothing of what a check was refused memory for."""
        memory, refused = Memory(), 0
        for left in range(20):
            with Store(1, library=LIBRARY) as store:
                store.subscribe(40, ".*")
                store.merge(Items(ITEMS))
                memory.once.value, memory.left.value = 0, left
                try:
                    store.check(40)
                except NoRoom:
                    refused += 1
                memory.left.value = -1
                store.subscribe(40, ".*", initial=False, overwrite=True)
                self.assertEqual(list(store.check(40)), [])
        self.assertGreater(refused, 4)

    def test_what_comes_after_a_check_that_ran_out_of_memory(self):
        """No item is lost by other settings, nor by a check that is refused."""
        memory, refused = Memory(), 0
        for left in range(80):
            with Rs(SETTINGS, library=LIBRARY) as rs:
                rs.up("eth0", tick=0)
                rs.subscribe(40, ".*")
                for at in range(LARGE):
                    rs.publish(Endpoint(1, 16), f"eth0.m{at}", bytes(1024), (1, 0))
                memory.once.value, memory.left.value = 0, left
                try:
                    items = rs.check(40)
                except NoRoom:
                    refused += 1
                    memory.left.value = -1
                    if left % 2:
                        rs.renew(SETTINGS)
                    else:
                        self.assertRaises(TooMany, rs.check, 40, most=0)
                    items = rs.check(40)
                memory.left.value = -1
                self.assertEqual(len(items), LARGE + 1)
        self.assertGreater(refused, 20)

    def test_what_the_store_refuses_rs(self):
        """RS doesn't repeat an offer or a sweep that was refused memory. Its line, as an offer, makes it."""
        memory, refused = Memory(), {"put": 0, "event": 0}
        for left in range(40):
            with Rs(SETTINGS, library=LIBRARY) as rs:
                memory.once.value, memory.left.value = 1, left
                try:
                    acted = rs.up("eth0", tick=0)
                except NoRoom:
                    refused["event"] += 1
                    memory.left.value = -1
                    acted = rs.up("eth0", tick=0)
                memory.left.value = -1
                offer = next(it for it in acted.actions if isinstance(it, Offer))
                if isinstance(offer.refused, NoRoom):
                    refused["put"] += 1
                    self.assertIsNone(rs.due)
                    self.assertEqual(rs.tick(1).actions, [])
                    self.assertRaises(NotFound, rs.retrieve, "eth0", Endpoint)
                    self.assertEqual(rs.line("offer eth0 label rs 1.0 = 1/16"), "taken\n")
                self.assertEqual(rs.retrieve("eth0", Endpoint), Endpoint(1, 16))
        self.assertEqual([it > 0 for it in refused.values()], [True, True])
