"""A store: every refusal, drawn scripts against the model, and texts that are larger than a buffer."""
import os
import re
import subprocess
import sys
import unittest

import support  # noqa: F401, I001: it finds the modules of tests/
import causes
import model
import stores
from pengtawis import commands
from pengtawis import RS, BadItems, Cursor, Endpoint, Floor, Items, Map, Store, read_item, refusals

DRAWN = 20  # scripts of drawn commands
COMMANDS = 300
ETH = Endpoint(3, 17)
LARGE = 400  # values of 1024 bytes, whose lines have more than ten buffers of text
LAST = 2**62


def opened(*lines, **words):
    """Opens a store that took these lines."""
    store = Store(1, **words)
    for line in lines:
        store.line(line)
    return store


LABEL = "publish 0/2 new eth0 label 3.0 = 3/17"
OTHER = "publish 0/2 new tty label 4.0 = 4/18"
MTU = "publish 3/17 new mtu u32 3.1 = 1500"
# A call for each refusal, as docs/reference/refusals.md shows them; the store took the lines before.
CALLS = {
    "badsub": ([], lambda it: it.subscribe(128, "eth.*")),
    "toomany": ([], lambda it: next(it.since((1, 0), most=257))),
    "toolong": ([], lambda it: it.subscribe(20, "a" * 129)),
    "badpattern": ([], lambda it: it.snapshot("eth(")),
    "badkind": ([], lambda it: Map(kinds=[])),
    "badlabel": ([], lambda it: it.publish(RS, "eth0", Endpoint(3, 16), (2, 0))),
    "badversion": ([LABEL], lambda it: it.publish(ETH, "mtu", 1500, (4, 0))),
    "nocaller": ([], lambda it: it.publish(ETH, "mtu", 1500, (3, 0))),
    "notallowed": ([LABEL], lambda it: it.sweep(ETH, "tty", 2)),
    "notowner": ([LABEL, OTHER, MTU], lambda it: it.publish((4, 18), "mtu", 9000, (4, 0), overwrite=True)),
    "clash": ([LABEL, MTU], lambda it: it.publish(ETH, "mtu", 9000, (3, 1), overwrite=True)),
    "stale": ([LABEL, MTU], lambda it: it.publish(ETH, "mtu", 9000, (3, 0), overwrite=True)),
    "exists": ([LABEL, MTU], lambda it: it.publish(ETH, "mtu", 9000, (3, 2))),
    "notfound": ([], lambda it: it.retrieve("mtu", int)),
    "oldcursor": ([], lambda it: next(it.since(Cursor(2, 0)))),
    "ahead": ([], lambda it: next(it.since(Cursor(1, 1)))),
    "behind": ([LABEL, OTHER], lambda it: next(it.since(Cursor(1, 0)))),
    "full": ([], lambda it: it.merge(Items(b"".join(b"! o%d 1\n" % n for n in range(65))))),
    "worn": ([], lambda it: Store(1, first=LAST).publish(RS, "eth0", ETH, (3, 0))),
    "noroom": ([], lambda it: it.subscribe(20, "a{4000}")),
    "badring": ([], lambda it: Store(ring=4097)),
    "badfirst": ([], lambda it: Store(first=LAST + 1)),
    "isclosed": ([], lambda it: (it.close(), it.snapshot())),
}


class Refusals(unittest.TestCase):
    def test_each_refusal_is_met(self):
        for word, (lines, call) in CALLS.items():
            with self.subTest(word), opened(*lines, ring=1) as store:
                with self.assertRaises(refusals.Refused) as raised:
                    call(store)
                self.assertEqual(raised.exception.word, word)
                self.assertIn(type(raised.exception), refusals.NUMBERED.values())

    def test_each_is_one_of_the_headers(self):
        """Compares them with enum ds_refusal, which numbers them. No call of the package opens an open handle, or RS."""
        text = (support.ROOT / "c" / "ds.h").read_text()
        listed = re.search(r"enum ds_refusal \{(.*?)\};", text, re.DOTALL)[1]
        words = [it.lower() for it in re.findall(r"DS_(\w+)", listed)]
        self.assertEqual([it.word for it in refusals.NUMBERED.values()], words)
        self.assertEqual(list(refusals.NUMBERED), list(range(1, len(words) + 1)))
        self.assertEqual(set(words) - set(CALLS), set(words[words.index("isopen") :]))

    def test_they_are_what_python_calls_them(self):
        self.assertTrue(issubclass(refusals.NoRoom, MemoryError))
        self.assertTrue(issubclass(refusals.NotFound, LookupError))
        self.assertTrue(issubclass(refusals.BadPattern, ValueError))

    def test_they_have_a_message_without_docstrings(self):
        words = [sys.executable, "-OO", "-c", "import pengtawis; print(pengtawis.NotFound())"]
        ran = subprocess.run(words, env={**os.environ, "PYTHONPATH": str(support.ROOT / "python")}, capture_output=True, text=True)
        self.assertEqual((ran.stdout, ran.stderr), ("notfound\n", ""))

    def test_a_clash_names_its_version(self):
        with opened(LABEL, MTU) as store, self.assertRaises(refusals.Clash) as raised:
            store.publish(ETH, "mtu", 9000, (3, 1), overwrite=True)
        self.assertEqual(raised.exception.version, (3, 1))
        with opened(LABEL, MTU) as store, self.assertRaises(refusals.Stale) as raised:
            store.publish(ETH, "mtu", 9000, (3, 0), overwrite=True)
        self.assertIsNone(raised.exception.version)

    def test_each_cause_of_each_command(self):
        """Compares each answer with that of the one order, where several causes apply."""
        tried = 0
        for it in causes.ALL:
            if is_called(it):
                with self.subTest(it.name):
                    self.assertEqual(answers_of(support.Typed(), it), support.without_stamps(it.ample))
                tried += 1
        self.assertGreater(tried, 120)


def is_called(it):
    """Leaves out a merge of too many items at once."""
    return it.name != "store: merge: toomany"


def answers_of(typed, it):
    """Returns the answer to the last command of a case. A block of a merge is one call."""
    answers = []
    for lines in blocks(it.before + it.command):
        if lines[0] == "merge":
            answers.append(typed.merge([model.read(line.encode("latin-1"))[1][0] for line in lines[1:-1]]))
        else:
            answers.append(typed.answer(lines[0].encode("latin-1")))
    typed.close()
    return sum(answers[len(blocks(it.before)) :], [])


def blocks(lines):
    """Returns each line by itself, and those of a merge together."""
    found, is_within = [], False
    for line in lines:
        if is_within:
            found[-1].append(line)
        else:
            found.append([line])
        is_within = (is_within or line == "merge") and line != "end"
    return found


class Drawn(unittest.TestCase):
    def compare(self, typed, seed, compared):
        script = stores.Script(seed, COMMANDS, True)
        for line, wanted in zip(script.lines, script.answers):
            self.assertEqual(typed.answer(line.encode()), compared(wanted), line)
        typed.close()

    def test_calls(self):
        for seed in range(DRAWN):
            with self.subTest(seed=seed):
                self.compare(support.Typed(), seed, support.without_stamps)

    def test_lines(self):
        for seed in range(DRAWN, 2 * DRAWN):
            with self.subTest(seed=seed):
                self.compare(support.ByLines(), seed, list)


class Large(unittest.TestCase):
    """Asks for texts of more than one buffer, and for more items than one answer has."""

    def setUp(self):
        self.model = model.Store(ring=4096)
        self.store = Store(1, ring=4096)
        self.addCleanup(self.store.close)
        self.both(b'subscribe 40 ".*" 15 first new')
        self.both(b"publish 0/2 new eth0 label 3.0 = 3/17")
        for at in range(LARGE):
            self.both(b"publish 3/17 new m%d mem 3.%d = %s" % (at, at, b"%02x" % (at % 256) * 1024))

    def both(self, line):
        wanted = [it.decode() for it in self.model.answer(*model.read(line))]
        self.assertEqual(self.store.line(line.decode()).splitlines(), wanted)

    def wanted(self, line):
        return [it.decode() for it in self.model.answer(*model.read(line))]

    def test_a_check_returns_all(self):
        lines = support.lines_of(self.store.check(40))
        self.assertEqual(lines, self.wanted(b"check 40 256")[:-1] + self.wanted(b"check 40 256")[:-1])
        self.assertEqual(len(lines), LARGE + 1)
        self.assertEqual(len(self.store.check(40)), 0)

    def test_a_check_of_some(self):
        for most in (3, 256, 256):
            self.assertEqual(support.lines_of(self.store.check(40, most)), self.wanted(b"check 40 %d" % most)[:-1])

    def test_a_snapshot_returns_all(self):
        items, cursor = self.store.snapshot()
        self.assertGreater(len(items.text), 10 * 65536)
        self.assertEqual(support.lines_of(items) + ["snapshot %d %d %d" % (len(items), *cursor)], self.wanted(b"snapshot *"))

    def test_the_journal_returns_all(self):
        for most in (1, 100, 256):
            pages = list(self.store.since((1, 0), most=most))
            wanted = self.wanted(b"since * 1 0 256")[:-1] + self.wanted(b"since * 1 256 256")[:-1]
            self.assertEqual(sum((support.lines_of(it) for it, _ in pages), []), wanted)
            self.assertEqual(pages[-1].cursor, (1, LARGE + 1))

    def test_the_journal_under_a_pattern(self):
        pages = list(self.store.since((1, 0), "m1.*", [bytes], most=7))
        self.assertEqual(sum((support.lines_of(it) for it, _ in pages), []), self.wanted(b'since "m1.*" 8 1 0 256')[:-1])
        self.assertEqual(pages[-1].cursor, (1, LARGE + 1))

    def test_kinds_of_an_iterator(self):
        readings = self.store.since((1, 0), kinds=iter([bytes]), most=150)
        self.assertEqual([len(it.items) for it in readings], [150, 150, 100])

    def test_kinds_alone_are_a_scope(self):
        self.assertEqual(support.lines_of(self.store.snapshot(kinds=[Endpoint]).items), ["eth0 label rs 3.0 = 3/17"])

    def test_a_line_returns_all(self):
        for line in (b"snapshot *", b"all", b"page * - 256", b"page * m7 mem 256"):
            self.both(line)

    def test_pages_return_all(self):
        for kinds, most in ((None, 256), ([bytes], 7)):
            scope = {} if kinds is None else {"pattern": "m.*", "kinds": kinds}
            after, lines, page = None, [], None
            while page is None or not page.is_last:
                page = self.store.page(after, most=most, **scope)
                lines += support.lines_of(page.items)
                self.assertEqual(page.cursor, (1, LARGE + 1))
                if page.items:
                    *_, last = page.items
                    after = last.name, last.kind
            self.assertEqual(lines, support.lines_of(self.store.snapshot(**scope).items))

    def test_a_merge_takes_all(self):
        with Store(2) as other:
            items = self.store.snapshot().items
            other.subscribe(40, "m.*", initial=False)
            other.subscribe(41, "eth0", initial=False)  # which is the first item
            self.assertEqual(other.merge(items), (LARGE + 1, LARGE + 1, 0, {40, 41}))
            self.assertEqual(other.merge(items), (LARGE + 1, 0, 0, frozenset()))
            self.assertEqual(other.snapshot().items.text, items.text)

    def test_a_merge_of_a_malformed_line_says_how_far_it_came(self):
        items = Items(self.store.snapshot().items.text + b"no item\n")
        with opened() as other:
            other.subscribe(7, ".*")
            with self.assertRaises(BadItems) as raised:
                other.merge(items)
            self.assertEqual((raised.exception.done, raised.exception.owed), (len(items) // 256 * 256, {7}))
            self.assertEqual(len(other.snapshot().items), raised.exception.done)
            with self.assertRaises(BadItems) as raised:
                other.merge(Items(b"no item\n"))
            self.assertEqual((raised.exception.done, raised.exception.owed), (0, frozenset()))

    def test_a_merge_that_is_refused_says_how_far_it_came(self):
        lines = self.store.snapshot().items.text.splitlines(keepends=True)
        lines[300] = b"m0 mem tty 9.0 = 00\n"  # m0 is eth0's
        with Store(2) as other:
            other.subscribe(40, "m.*", initial=False)
            other.subscribe(41, "eth0", initial=False)
            with self.assertRaises(refusals.NotOwner) as raised:
                other.merge(Items(b"".join(lines)))
            self.assertEqual((raised.exception.done, raised.exception.owed), (300, {40, 41}))
            self.assertEqual(len(other.snapshot().items), 300)


class Many(unittest.TestCase):
    """Publishes entries by one call, and each by its own: the answers and the stores are the same."""

    ENTRIES = [
        ("mtu", 1500, (3, 0)), ("name", 'a "name"', (3, 1)), ("mac", bytes(1024), (3, 2)), ("mtu", 1500, (3, 0)), ("mtu", 9000, (3, 0)),
        ("mtu", 9000, (3, 3)), ("other", 1, (4, 0)), ("rs", ETH, (3, 0)), ("a name", 1, (3, 0)), ("", b"", (3, 0)), ("empty", b"", (3, 0)),
    ]

    @staticmethod
    def one_by_one(store, caller, entries, overwrite):
        """Yields the answer, or the exception, of each entry's own publication."""
        for entry in entries:
            try:
                yield store.publish(caller, *entry, overwrite=overwrite)
            except ValueError as malformed:  # some refusals are a ValueError, too
                yield malformed
            except refusals.Refused as refused:
                yield refused

    def test_as_one_by_one(self):
        for overwrite in (False, True):
            with opened(LABEL) as one, opened(LABEL) as other:
                for store in (one, other):
                    store.subscribe(40, "m.*", initial=False)
                told = one.publish_all(ETH, iter(self.ENTRIES * 40), overwrite)
                wanted = list(self.one_by_one(other, ETH, self.ENTRIES * 40, overwrite))
                self.assertEqual(list(map(repr, told)), list(map(repr, wanted)))
                self.assertEqual(told[0], (True, {40}))
                self.assertEqual({type(it).__name__ for it in told}, {"Done", "Clash", "BadVersion", "BadLabel", "ValueError", "Exists", "Stale"} - ({"Exists"} if overwrite else {"Stale"}))
                self.assertEqual(one.snapshot().items.text, other.snapshot().items.text)

    def test_none_and_what_is_no_entry(self):
        with opened(LABEL) as store:
            self.assertEqual(store.publish_all(ETH, []), [])
            for entry in (("mtu", 2**32, (3, 0)), ("m" * 256, 1, (3, 0))):
                self.assertRaises(ValueError, store.publish_all, ETH, [("first", 1, (3, 0)), entry])
            self.assertRaises(TypeError, store.publish_all, ETH, [("mtu", None, (3, 0))])
            self.assertEqual(store.line("all"), "eth0 label rs 3.0 = 3/17\nshown 1\n")
        self.assertRaises(refusals.IsClosed, store.publish_all, ETH, [("mtu", 1, (3, 0))])

    def test_a_check_before_it_is_whole(self):
        """What a check left unfetched isn't lost by it; test_growth.py leaves some."""
        with opened(LABEL) as store:
            store.subscribe(40, ".*")
            items = store.check(40)
            store.publish_all(ETH, self.ENTRIES)
            self.assertEqual(support.lines_of(items), ["eth0 label rs 3.0 = 3/17"])


class Numbers(unittest.TestCase):
    """Refuses numbers that ctypes would cut: 0/65538 would be RS."""

    def test_what_is_out_of_range_is_no_request(self):
        with opened(LABEL) as store:
            for call in (
                lambda: store.publish((0, 65538), "eth1", Endpoint(4, 18), (4, 0)),
                lambda: store.publish((2**32, 2), "eth1", Endpoint(4, 18), (4, 0)),
                lambda: store.publish(RS, "eth1", Endpoint(4, 65536 + 18), (4, 0)),
                lambda: store.publish(ETH, "mtu", 2**32, (3, 0)),
                lambda: store.publish(ETH, "mtu", -1, (3, 0)),
                lambda: store.publish(ETH, "mtu", 1, (3, 2**32)),
                lambda: store.publish(RS, "eth1", Endpoint(4, 1024), (4, 0)),
                lambda: store.publish(ETH, "m" * 65, 1, (3, 0)),
                lambda: store.publish(ETH, "m" * 256, 1, (3, 0)),
                lambda: store.publish(ETH, "", 1, (3, 0)),
                lambda: store.publish(ETH, "m u", 1, (3, 0)),
                lambda: store.publish(ETH, "m\u00fc", 1, (3, 0)),
                lambda: store.publish(ETH, "mac", "a\n", (3, 0)),
                lambda: store.publish(ETH, "mac", "\u00e9", (3, 0)),
                lambda: store.publish(ETH, "mac", "a" * 257, (3, 0)),
                lambda: store.publish(ETH, "mac", bytes(1025), (3, 0)),
                lambda: store.subscribe(2**32, ".*"),
                lambda: next(store.since((2**64 + 1, 0))),
                lambda: store.check(2**32),
                lambda: store.merge(Items(b"eth0 labe")),
                lambda: Store(2**64),
                lambda: Store(ring=2**32 + 1),
                lambda: Store(first=-1),
            ):
                with self.assertRaises(ValueError) as raised:
                    call()
                self.assertNotIsInstance(raised.exception, refusals.Refused)
            self.assertEqual(store.line("all"), "eth0 label rs 3.0 = 3/17\nshown 1\n")

    def test_the_largest_numbers(self):
        with Store(2**64 - 1, first=LAST - 9, ring=4096) as store:
            store.publish(RS, "x" * 64, Endpoint(2097151, 1023), (2097151, 0))
            caller = Endpoint(2097151, 1023)
            store.publish(caller, "mtu", 2**32 - 1, (2097151, 2**32 - 2))
            store.publish(caller, "name", '"\\' * 128, (2097151, 0))
            store.publish(caller, "mac", bytes(range(256)) * 4, (2097151, 0))
            self.assertEqual(store.retrieve("x" * 64, Endpoint), (2097151, 1023))
            self.assertEqual(store.retrieve("mtu", int), 2**32 - 1)
            self.assertEqual(store.retrieve("name", str), '"\\' * 128)
            self.assertEqual(store.retrieve("mac", bytes), bytes(range(256)) * 4)
            self.assertEqual(store.nameof(caller), "x" * 64)
            self.assertEqual(store.snapshot().cursor, (2**64 - 1, LAST - 5))

    def test_lines_that_are_none(self):
        with opened(LABEL) as store:
            for line in ("retrieve eth0", 'map "eth.*" 1', "", "show\nshow"):
                self.assertRaises(refusals.BadLine, store.line, line)
            self.assertEqual(store.line("show\n"), "eth0 label rs 3.0 = 3/17\nshown 1\n")

    def test_other_types_are_no_values(self):
        with opened(LABEL) as store:
            for value in (1.5, None, [3, 17], bytearray(b"x"), (3, 17)):
                self.assertRaises(TypeError, store.publish, ETH, "mtu", value, (3, 0))

    def test_other_types_are_no_kinds(self):
        with opened(LABEL) as store:
            for kind in ("u32", float, bool, None):
                for call in (lambda: store.retrieve("mtu", kind), lambda: store.delete(ETH, "mtu", kind, (3, 0)),
                             lambda: store.subscribe(40, ".*", [kind]), lambda: store.page(("mtu", kind))):
                    self.assertRaisesRegex(TypeError, "a kind is", call)

    def test_a_line_owes_notices(self):
        with opened(LABEL) as store:
            store.subscribe(40, "mtu", initial=False)
            for line, owed in ((MTU, {40}), ("nameof 3/17", set()), (MTU.replace("new", "over").replace("3.1", "3.2"), {40})):
                store.line(line)
                self.assertEqual(store.owed, owed)
            self.assertRaises(refusals.NotFound, store.line, "nameof 9/9")
            self.assertEqual(store.owed, set())

    def test_items_are_equal_by_their_text(self):
        items = Items(b"! eth0 3\n")
        self.assertEqual((items, repr(items)), (Items(b"! eth0 3\n"), "Items(b'! eth0 3\\n')"))
        self.assertNotEqual(items, Items(b"! eth0 4\n"))
        self.assertNotEqual(items, items.text)

    def test_lines_that_are_no_items(self):
        for line in ("", "x", "a foo b 1.2 = 3", "a u32 b 1 = 3", "a u32 b 1.2 =", "a u32 b 1.2 = x", "! eth0", "! eth0 x"):
            with self.subTest(line):
                self.assertRaisesRegex(ValueError, "it isn't an item", read_item, line)

    def test_other_types_are_no_items(self):
        with opened(LABEL) as store, Map() as drivers:
            for items in ([], b"", store.snapshot()):
                self.assertRaisesRegex(TypeError, "Items are taken", store.merge, items)
                self.assertRaisesRegex(TypeError, "Items are taken", drivers.take, items)

    def test_empty_values_and_spaces(self):
        with opened(LABEL) as store:
            store.publish(ETH, "name", "", (3, 0))
            store.publish(ETH, "mac", b"", (3, 0))
            store.publish(ETH, "vendor", 'two  words, "quoted"', (3, 0))
            self.assertEqual((store.retrieve("name", str), store.retrieve("mac", bytes)), ("", b""))
            self.assertEqual([it.value for it in store.snapshot().items], [ETH, b"", "", 'two  words, "quoted"'])


class Named(unittest.TestCase):
    """A wrong argument is named, and the store is unchanged."""

    CALLS = [
        ("`version` is a pair", TypeError, lambda it: it.publish(ETH, "mtu", 1, version=3)),
        ("`version` is a pair", TypeError, lambda it: it.publish(ETH, "mtu", 1, version=(3, 1, 2))),
        ("`version`'s number is an int, and not str", TypeError, lambda it: it.publish(ETH, "mtu", 1, (3, "1"))),
        ("`version`'s number is 0 to 4294967294, and not -1", ValueError, lambda it: it.publish(ETH, "mtu", 1, (3, -1))),
        ("`version`'s epoch is 0 to 2097151, and not 2097152", ValueError, lambda it: it.publish(ETH, "mtu", 1, (2097152, 1))),
        ("`caller` is a pair", TypeError, lambda it: it.publish("3/17", "mtu", 1, (3, 1))),
        ("`caller`'s generation is 0 to 2097151", ValueError, lambda it: it.delete((2**21, 2), "mtu", int, (3, 1))),
        ("`caller`'s slot is 0 to 1023, and not 1024", ValueError, lambda it: it.publish((3, 1024), "mtu", 1, (3, 1))),
        ("`endpoint`'s slot is 0 to 1023, and not 70000", ValueError, lambda it: it.nameof((3, 70000))),
        ("`endpoint` is a pair", TypeError, lambda it: it.nameof("3/17")),
        ("`value` is 0 to 4294967295, and not 4294967296", ValueError, lambda it: it.publish(ETH, "mtu", 2**32, (3, 1))),
        ("`value`'s generation is 0 to 2097151", ValueError, lambda it: it.publish(RS, "tty", Endpoint(2**21, 1), (2**21 - 1, 0))),
        ("`value`'s slot is 0 to 1023", ValueError, lambda it: it.publish(RS, "tty", Endpoint(4, 1024), (4, 0))),
        ("`value` has at most 256 printable", ValueError, lambda it: it.publish(ETH, "mtu", "\n", (3, 1))),
        ("`value` has at most 1024 bytes, and not 1025", ValueError, lambda it: it.publish(ETH, "mtu", bytes(1025), (3, 1))),
        ("a value is an Endpoint, .* and not bool", TypeError, lambda it: it.publish(ETH, "mtu", True, (3, 1))),
        ("`name` has 1 to 64 .* isn't 'm u'", ValueError, lambda it: it.publish(ETH, "m u", 1, (3, 1))),
        ("`name` has 1 to 64 .* isn't ''", ValueError, lambda it: it.retrieve("", int)),
        ("`name` has 1 to 64", ValueError, lambda it: it.retrieve("m" * 300, int)),
        ("`name` is a str, and not bytes", TypeError, lambda it: it.retrieve(b"mtu", int)),
        ("`owner` has 1 to 64", ValueError, lambda it: it.sweep(RS, "eth 0", 3)),
        ("`generation` is 0 to 2097151, and not 2097152", ValueError, lambda it: it.sweep(RS, "eth0", 2097152)),
        ("`after` has 1 to 64", ValueError, lambda it: it.page(("m u", int))),
        ("`cursor` is a pair", TypeError, lambda it: next(it.since(1))),
        ("`cursor`'s position is 0 to", ValueError, lambda it: next(it.since((1, 2**64)))),
        ("`sub` is an int, and not str", TypeError, lambda it: it.subscribe("eth", ".*")),
        ("`sub` is 0 to 127, and not -1", ValueError, lambda it: it.check(-1)),
        ("`most` is 1 to 256, and not -1", ValueError, lambda it: it.check(4, most=-1)),
        ("`pattern` is a str, and not bytes", TypeError, lambda it: it.subscribe(4, b".*")),
        ("`pattern` is a str, and not int", TypeError, lambda it: it.snapshot(7)),
        ("`kinds` has at least one of Endpoint, int, str, bytes", ValueError, lambda it: it.subscribe(4, ".*", [])),
        ("`kinds` has at least one", ValueError, lambda it: it.snapshot("eth.*", [])),
        ("`line` is a str, and not bytes", TypeError, lambda it: it.line(b"show")),
        ("`ring` is 1 to 4096, and not -1", ValueError, lambda it: Store(ring=-1)),
        ("`incarnation` is an int, and not str", TypeError, lambda it: Store("1")),
        ("`pattern` is a str, and not NoneType", TypeError, lambda it: Map(None)),
        ("`name` has 1 to 64", ValueError, lambda it: Map().label("m u")),
    ]

    def test_each(self):
        for said, kind, call in self.CALLS:
            with self.subTest(said), opened(LABEL) as store:
                with self.assertRaisesRegex(kind, said) as raised:
                    call(store)
                self.assertIs(type(raised.exception), kind)
                self.assertIsNone(raised.exception.__cause__)
                self.assertEqual(store.line("all"), "eth0 label rs 3.0 = 3/17\nshown 1\n")

    def test_those_of_several_publications(self):
        with opened(LABEL) as store:
            told = store.publish_all(ETH, [("a b", 1, (3, 1)), ("mtu", 1, (3, 1)), ("s", "\n", (3, 1))])
            self.assertRegex(str(told[0]), "`name` has 1 to 64")
            self.assertRegex(str(told[2]), "`value` has at most 256")
            self.assertEqual(store.retrieve("mtu", int), 1)

    def test_words_of_other_stores(self):
        with Store() as store:
            for word, here in (("get", "retrieve"), ("put", "publish"), ("keys", "iteration"), ("watch", "subscribe"), ("save", "snapshot")):
                self.assertRaisesRegex(AttributeError, f"a Store has no `{word}`: here it is {here}", getattr, store, word)
            self.assertRaisesRegex(AttributeError, "a Store has no `xyzzy`$", getattr, store, "xyzzy")
            self.assertFalse(hasattr(store, "_other"))
        self.assertTrue(all(not hasattr(Store, it) for it in commands.ELSEWHERE))

    def test_endpoints_from_text(self):
        for text in ("0/2", "3/16", "2097151/1023"):
            self.assertEqual(str(Endpoint.parse(text)), text)
        for text in ("", "3", "3/", "/3", "3/16/1", "03/16", "3/1024", "2097152/1", "-3/16", "3 /16", "3/16\n", "\u0663/16"):
            with self.subTest(text):
                self.assertRaisesRegex(ValueError, "GENERATION/SLOT", Endpoint.parse, text)


class Entries(unittest.TestCase):
    """A store is a collection of its live entries."""

    def test_those_that_live(self):
        with opened(LABEL, MTU) as store:
            store.publish(ETH, "mac", b"RT", (3, 2))
            store.publish(ETH, "gone", 1, (3, 3))
            store.delete(ETH, "gone", int, (3, 4))
            self.assertEqual((len(store), [(it.name, it.value) for it in store]), (3, [("eth0", ETH), ("mac", b"RT"), ("mtu", 1500)]))
            self.assertEqual(list(store), list(iter(store)))
            store.sweep(RS, "eth0", 3)
            self.assertEqual([it.name for it in store], ["eth0"])

    def test_none(self):
        with Store(7) as store:
            self.assertEqual((len(store), list(store), bool(store)), (0, [], True))
            self.assertEqual(repr(store), "<Store of incarnation 7>")
        self.assertEqual(repr(store), "<Store of incarnation 7, closed>")
        self.assertTrue(store)
        self.assertRaises(refusals.IsClosed, len, store)
        self.assertRaises(refusals.IsClosed, iter, store)

    def test_many_and_a_check_that_goes_on(self):
        """A store with more than one buffer's text, and a check whose text isn't lost by it."""
        with opened(LABEL, ring=4096) as store:
            store.subscribe(40, ".*")
            for at in range(LARGE):
                store.publish(ETH, f"m{at:04}", bytes(1024), (3, at))
            self.assertEqual([it.name for it in store], ["eth0"] + [f"m{at:04}" for at in range(LARGE)])
            self.assertEqual((len(store), len(store.check(40))), (LARGE + 1, LARGE + 1))

    def test_a_map_has_a_repr(self):
        with Map("eth.*") as drivers:
            self.assertEqual(repr(drivers), "<Map of 'eth.*'>")
        self.assertEqual(repr(drivers), "<Map of 'eth.*', closed>")


class Closing(unittest.TestCase):
    def test_closed_once_or_more(self):
        with opened(LABEL) as store:
            store.close()
        store.close()
        self.assertRaises(refusals.IsClosed, store.retrieve, "eth0", Endpoint)
        self.assertRaises(refusals.IsClosed, store.line, "show")
        self.assertRaises(refusals.IsClosed, store.text)
        self.assertRaises(refusals.IsClosed, store.merge, Items(b"! tty 1\n"))

    def test_one_that_nobody_closes(self):
        """Frees its memory when Python drops it: 500 stores of 200 kB would be 100 MB."""
        program = """if True:
            import resource, pengtawis
            def most_memory():
                return resource.getrusage(resource.RUSAGE_SELF).ru_maxrss
            for number in range(550):
                if number == 50:
                    before = most_memory()
                store = pengtawis.Store()
                store.publish(pengtawis.RS, "eth0", pengtawis.Endpoint(1, 16), (1, 0))
                for at in range(100):
                    store.publish((1, 16), f"m{at}", bytes(1024), (1, 0))
            print(most_memory() - before)"""
        environment = {**os.environ, "PYTHONPATH": str(support.ROOT / "python")}
        ran = subprocess.run([sys.executable, "-c", program], env=environment, capture_output=True, text=True, check=True)
        self.assertLess(int(ran.stdout), 20000)

    def test_each_has_another_incarnation(self):
        with Store() as one, Store() as other:
            self.assertNotEqual(one.snapshot().cursor.incarnation, other.snapshot().cursor.incarnation)

    def test_a_floor_of_a_dead_owner(self):
        with opened(LABEL, MTU) as store:
            self.assertEqual(store.sweep(RS, "eth0", 3), (1, frozenset()))
            self.assertEqual(list(store.snapshot(kinds=[int]).items), [Floor("eth0", 3)])
