"""A publisher counts its versions, and a death ends what it published."""
import os
import random
import unittest

import support  # noqa: F401, I001: it finds the modules of tests/
import test_growth
from pengtawis import (
    RS, Change, Endpoint, Exists, Items, NoCaller, NoRoom, NotAllowed, NotFound, Publisher, Rs, Stale, Store, Version,
)

ETH = Endpoint(3, 16)
STEPS = 400


def versions(store):
    """Returns the version of each key that a store holds, labels aside, tombstones too."""
    changes = (it for it in store.snapshot(kinds=(int, str, bytes)).items if isinstance(it, Change))
    return {(it.name, it.kind): it.version for it in changes}


def started(label="eth0", endpoint=ETH, **words):
    store = Store(1, **words)
    store.rs_started(label, endpoint)
    return store


class Publishers(unittest.TestCase):
    def test_numbers(self):
        with started() as store:
            eth0 = Publisher(store, ETH)
            self.assertTrue(eth0.publish("mtu", 1500).changed)
            self.assertTrue(eth0.publish("mtu", 9000).changed)
            self.assertTrue(eth0.delete("mtu", int).changed)
            self.assertEqual(versions(store), {("mtu", int): Version(3, 2)})
            self.assertEqual(eth0.draw(), Version(3, 3))
            self.assertEqual(repr(eth0), "<Publisher of 3/16, at 4>")

    def test_a_later_one_continues(self):
        """It counts on from the tombstone of the last change, and not from those of another owner or generation."""
        with started() as store:
            store.rs_started("tty", Endpoint(4, 17))
            tty = Publisher(store, Endpoint(4, 17))
            for _ in range(9):
                tty.publish("tty.speed", 9600)
            store.merge(Items(b"old u32 eth0 2.77 = 1\nother u32 tty 3.88 = 1\n"))
            first = Publisher(store, ETH)
            first.publish("mtu", 1500)
            first.publish("mac", b"RT")
            first.delete("mac", bytes)
            second = Publisher(store, ETH)
            self.assertEqual(second.draw(), Version(3, 3))
            second.publish("mtu", 9000)
            self.assertEqual(store.retrieve("mtu", int), 9000)
            self.assertRaises(Stale, first.publish, "mtu", 1500)
            store.rs_started("eth0", Endpoint(5, 16))
            self.assertRaises(NoCaller, second.publish, "mtu", 1)
            self.assertEqual(Publisher(store, (5, 16)).draw(), Version(5, 0))

    def test_refusals(self):
        with Store(1) as store:
            self.assertRaises(NotFound, Publisher, store, ETH)
            self.assertRaisesRegex(TypeError, "`endpoint` is a pair of ints", Publisher, store, "3/16")
            store.rs_started("eth0", ETH)
            eth0 = Publisher(store, ETH)
            eth0.publish("mtu", 1500)
            self.assertRaises(Exists, eth0.publish, "mtu", 9000, overwrite=False)
            self.assertRaisesRegex(ValueError, "`name` has", eth0.publish, "a b", 1)
            eth0.publish("mtu", 9000)
            self.assertEqual(versions(store), {("mtu", int): Version(3, 3)})

    def test_by_chance(self):
        """Every change that is taken has a greater version than all before it of this process, by each publisher."""
        drawn = random.Random(1)
        with started() as store:
            eth0, last, owned = Publisher(store, ETH), Version(3, -1), 0
            for _ in range(STEPS):
                if not drawn.randrange(10):
                    eth0 = Publisher(store, ETH)
                name, value = f"n{drawn.randrange(4)}", drawn.choice((7, "a", b"b"))
                before = versions(store)
                try:
                    done = eth0.delete(name, type(value)) if drawn.randrange(3) else eth0.publish(name, value, drawn.random() < 0.5)
                except (Exists, NotFound):
                    continue
                self.assertTrue(done.changed)
                (version,) = set(versions(store).items()) - set(before.items())
                self.assertGreater(version[1], last)
                last, owned = version[1], owned + 1
            self.assertGreater(owned, STEPS // 8)


class Deaths(unittest.TestCase):
    def test_a_death(self):
        with started() as store:
            store.rs_started("ethX0", Endpoint(4, 17))
            store.subscribe(40, "eth0", kinds=[Endpoint], initial=False)
            store.subscribe(41, "mtu", initial=False)
            Publisher(store, ETH).publish("mtu", 1500)
            swept = store.rs_died("eth0")
            self.assertEqual((swept.dropped, swept.owed), (1, {40, 41}))
            self.assertEqual([(it.name, it.value) for it in store], [("ethX0", Endpoint(4, 17))])
            self.assertEqual(store.snapshot("eth0").items.text, b"! eth0 3\neth0 label rs 3.1 -\n")
            again = store.rs_died("eth0")
            self.assertEqual((again.dropped, again.owed), (0, set()))

    def test_a_name_with_a_dot(self):
        with Store(1) as store:
            store.rs_started("a-b", Endpoint(2, 16))
            self.assertRaises(NotFound, store.rs_died, "a.b")
            store.rs_started("a.b", ETH)
            store.rs_died("a.b")
            self.assertEqual([it.name for it in store], ["a-b"])
            longest = "." * 64
            store.rs_started(longest, Endpoint(5, 18))
            store.rs_died(longest)
            self.assertEqual(len(store), 1)

    def test_a_successor(self):
        """An earlier generation can't be started over a later one, nor after its death."""
        with started(endpoint=Endpoint(4, 16)) as store:
            self.assertRaises(Stale, store.rs_started, "eth0", ETH)
            store.rs_died("eth0")
            self.assertRaises(Stale, store.rs_started, "eth0", Endpoint(4, 16))
            self.assertTrue(store.rs_started("eth0", (5, 16)).changed)

    def test_refusals(self):
        with started() as store:
            self.assertRaisesRegex(ValueError, "`label` has", store.rs_died, "eth.*")
            self.assertRaisesRegex(TypeError, "`label` is a str", store.rs_died, b"eth0")
            self.assertRaisesRegex(TypeError, "`endpoint` is a pair", store.rs_started, "eth0", 3)
        with Rs(test_growth.SETTINGS) as rs:
            rs.up("eth0", tick=0)
            self.assertRaises(NotAllowed, rs.rs_died, "eth0")
            self.assertRaises(NotAllowed, rs.rs_started, "eth0", ETH)

    @unittest.skipUnless(test_growth.LIBRARY, "PENGTAWIS_REFUSING names no library")
    def test_a_death_that_runs_out_of_memory(self):
        """A repeat does what is left. One of the two calls returns the subscription that is owed a notice."""
        memory, refused = test_growth.Memory(), 0
        for left in range(40):
            with started(library=os.environ["PENGTAWIS_REFUSING"]) as store:
                Publisher(store, ETH).publish("mtu", 1500)
                store.subscribe(40, "eth0", kinds=[Endpoint], initial=False)
                memory.once.value, memory.left.value = 1, left
                owed = frozenset()
                try:
                    store.rs_died("eth0")
                except NoRoom as why:
                    refused, owed = refused + 1, why.owed
                    memory.left.value = -1
                    owed |= store.rs_died("eth0").owed
                    self.assertEqual(owed, {40})
                memory.left.value = -1
                self.assertEqual(store.snapshot().items.text, b"! eth0 3\neth0 label rs 3.1 -\n")
                self.assertRaises(NoCaller, store.publish, RS._replace(slot=16, generation=3), "mtu", 1, (3, 9))
        self.assertGreater(refused, 4)
