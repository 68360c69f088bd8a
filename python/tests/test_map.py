"""A map: what it takes, what it refuses, and that it never returns an older generation. Its answers are the model's."""
import random
import unittest

import support  # noqa: F401, I001: it finds the modules of tests/
import model
from pengtawis import RS, Endpoint, Items, Map, Store, refusals

NAMES = (b"eth0", b"eth1", b"tty")
MANY = 600  # items of one take, more than one answer of a store has


def drawn(chance):
    """Draws the line of a label, of another value or of a floor."""
    name, generation = chance.choice(NAMES), chance.randrange(1, 9)
    return chance.choice(
        [
            b"%s label rs %d.0 = %d/%d" % (name, generation, generation, 16 + NAMES.index(name)),
            b"%s label rs %d.1 -" % (name, generation),
            b"! %s %d" % (name, generation),
            b"%s.mtu u32 %s %d.%d = %d" % (name, name, generation, chance.randrange(4), generation),
        ]
    )


class Maps(unittest.TestCase):
    def test_drawn_items(self):
        chance = random.Random(1)
        for query in ((b"eth.*", 15), (b".*", 1), (b"tty", 3)):
            wanted = model.world.Map(model.store.Query(*query))
            with Map(query[0].decode(), support.kinds_of(query[1])) as drivers:
                for _ in range(200):
                    lines = [drawn(chance) for _ in range(chance.randrange(4))]
                    self.compare(drivers, wanted, lines)

    def compare(self, drivers, wanted, lines):
        told = wanted.merge([model.lines.item(it) for it in lines])[0].split()
        merged = drivers.take(Items(b"".join(it + b"\n" for it in lines)))
        self.assertEqual((b"merged", *map(int, told[1:])), (b"merged", *merged[:3]))
        for name in NAMES:
            held = wanted.held.answer(b"retrieve", ((name, 0),))[0].decode()
            self.assertEqual(label_of(drivers, name.decode()), held)
        shown = Items(b"".join(it + b"\n" for it in wanted.held.show()[:-1]))
        self.assertEqual(list(drivers), [(it.name, it.kind, it.value) for it in shown])

    def test_what_stops_it(self):
        """Sees that the items before are kept, and that the others may be taken again."""
        with Map(kinds=[Endpoint, int]) as drivers:
            drivers.take(Items(b"eth0 label rs 3.0 = 3/16\n"))
            with self.assertRaises(refusals.Clash) as raised:
                drivers.take(Items(b"eth1 label rs 1.0 = 1/17\neth0 label rs 3.0 = 3/18\neth2 label rs 1.0 = 1/18\n"))
            self.assertEqual((raised.exception.done, raised.exception.version), (1, (3, 0)))
            self.assertEqual(drivers.label("eth1"), (1, 17))
            self.assertRaises(refusals.NotFound, drivers.label, "eth2")
            drivers.take(Items(b"eth0.mtu u32 eth0 1.0 = 1\n"))
            self.assertRaises(refusals.NotOwner, drivers.take, Items(b"eth0.mtu u32 tty 1.0 = 1\n"))
            self.assertRaises(refusals.Full, drivers.take, Items(b"".join(b"! o%d 1\n" % it for it in range(65))))

    def test_what_it_refuses_to_be_made_of(self):
        self.assertRaises(refusals.BadKind, Map, ".*", [])
        self.assertRaises(refusals.TooLong, Map, "a" * 129)
        self.assertRaises(refusals.BadPattern, Map, "(")
        self.assertRaises(refusals.NoRoom, Map, "a{4000}")

    def test_values(self):
        with Map(kinds=support.kinds_of(15)) as driver:
            driver.take(Items(b"a label rs 3.0 = 3/16\na u32 a 3.0 = 7\n"))
            driver.take(Items(b"a str a 3.1 = \"x \\\"y\\\"\"\na mem a 3.2 = 00ff\nb u32 a 3.3 -\n"))
            self.assertEqual((driver["a", Endpoint], driver["a", int]), (Endpoint(3, 16), 7))
            self.assertEqual((driver["a", str], driver["a", bytes]), ('x "y"', b"\0\xff"))
            self.assertEqual([it.kind for it in driver], [Endpoint, int, str, bytes])
            for name in ("b", "c"):
                self.assertRaises(refusals.NotFound, lambda: driver[name, int])
            self.assertRaises(LookupError, lambda: driver["b", int])
            self.assertRaises(ValueError, lambda: driver["a b", int])
            for key in ("a", ("a",), (1, int), ("a", float)):
                self.assertRaises(TypeError, lambda: driver[key])
            big = bytes(range(256)) * 4
            driver.take(Items(b"big mem a 3.4 = %s\n" % big.hex().encode()))
            self.assertEqual(driver["big", bytes], big)

    def test_items_in_between(self):
        with Map(kinds=[int]) as driver:
            driver.take(Items(b"a u32 x 1.0 = 1\nb u32 x 1.1 = 2\nc u32 x 1.2 = 3\n"))
            walk = iter(driver)
            self.assertEqual(next(walk).name, "a")
            driver.take(Items(b"b u32 x 1.3 -\nbb u32 x 1.4 = 4\n"))
            self.assertEqual([(it.name, it.value) for it in walk], [("bb", 4), ("c", 3)])

    def test_what_are_no_items(self):
        with Map() as drivers:
            for text in (b"eth0 labe", b"! tty 1\n! ", b"\xff\xff"):
                self.assertRaises(ValueError, drivers.take, Items(text))
            self.assertRaises(ValueError, drivers.label, "eth 0")
            self.assertRaises(ValueError, drivers.label, "")

    def test_closed(self):
        with Map() as drivers:
            pass
        drivers.close()
        self.assertRaises(refusals.IsClosed, drivers.label, "eth0")
        self.assertRaises(refusals.IsClosed, lambda: drivers["eth0", Endpoint])
        self.assertRaises(refusals.IsClosed, list, drivers)
        self.assertRaises(refusals.IsClosed, drivers.take, Items(b""))

    def test_it_follows_a_store(self):
        """Reads a snapshot, and then the journal."""
        with Store(ring=4096) as store, Map("disk.*") as drivers:
            for at in range(MANY):
                store.publish(RS, f"disk{at}", Endpoint(1 + at, 16 + at % 1000), (1 + at, 0))
            items, cursor = store.snapshot()
            self.assertEqual(drivers.take(items).taken, MANY)
            store.publish(RS, "disk7", Endpoint(MANY + 1, 9), (MANY + 1, 0), overwrite=True)
            for later, cursor in store.since(cursor):
                drivers.take(later)
            self.assertEqual(drivers.label("disk7"), (MANY + 1, 9))
            drivers.take(items)  # late
            self.assertEqual(drivers.label("disk7"), (MANY + 1, 9))
            self.assertEqual(drivers.label(f"disk{MANY - 1}"), (MANY, 16 + MANY - 1))


def label_of(drivers, name):
    """Returns the label as a script's retrieve is answered."""
    try:
        return f"found {support.spelled(drivers.label(name))}"
    except refusals.NotFound:
        return "refused notfound"
