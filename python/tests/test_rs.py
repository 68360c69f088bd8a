"""RS beside a store: drawn events against the model, each refusal, and what a service is."""
import random
import unittest

import support  # noqa: F401, I001: it finds the modules of tests/
import model
from model.pairs import Pair
from pengtawis import RS, Cause, Class, Endpoint, GiveUp, Kill, Offer, Ping, Refused, Rs, Start, State, Store, Sweep, refusals
from service_scripts import Services
from support import value_of

DRAWN = 20  # runs of drawn events
EVENTS = 300
SETTINGS = """
slots = 2
[[service]]
label = "eth0"
class = "network"
unit = 0
period = 10
limit = 1
publishes = ["eth0.mtu"]
[[service]]
label = "log"
class = "server"
"""
ETH0 = '[[service]]\nlabel = "eth0"\nclass = "network"\nunit = 1\nlimit = 9\n'
TTY = '[[service]]\nlabel = "tty"\nclass = "character"\nunit = 4\n'
FIRST = Endpoint(1, 16)
MOST_CAUSE = 2**32 - 1  # for which an event has room


def opened(**words):
    return Rs(SETTINGS, incarnation=1, **words)


class Asked:
    """Lines to RS, each answered by the model and by a call of Rs."""

    def __init__(self, seed):
        self.chance, self.session, self.rs = random.Random(seed), Pair(), None
        self.drawn = Services(self, [b"eth0", b"tty", b"disk"], 0)
        settings = self.drawn.settings()
        while self.model(settings)[0].startswith(b"refused"):
            settings = self.drawn.settings()
        self.rs = Rs(settings.decode().partition(" ")[2], incarnation=1)

    def model(self, line):
        return self.session.answer(*model.read(line, False))

    def ask(self, line):
        """Compares both answers to a line, and returns the model's."""
        answer = self.model(line)
        wanted, found = wanted_of(answer, self.session), found_of(self.rs, line)
        assert wanted == found, f"{line}: {wanted} and {found}"
        assert spelled(self.session.read(b"due")) == number(self.rs.due)
        assert spelled(self.session.read(b"next")) == str(self.rs.next_generation)
        self.drawn.learn(answer)
        return answer

    def line(self):
        return self.chance.choice([self.drawn.time, self.drawn.request, self.drawn.death, self.drawn.beat])()


def spelled(answer):
    return answer[0].decode().split()[-1]


def number(tick):
    return "none" if tick is None else str(tick)


def wanted_of(answer, session):
    """Returns what a call has to return, or the word of its refusal, by the lines that a script prints."""
    lines = [it.decode().split() for it in answer]
    if lines[0][0] == "refused":
        return lines[0][1]
    actions = [action_of(it, after) for it, after in zip(lines, [*lines[1:], None]) if it[0] in ACTIONS]
    gone = [GiveUp(session.gone)] if session.gone else []
    return actions + gone


ACTIONS = {
    "kill": lambda told, _: Kill(endpoint_of(told[0])),
    "start": lambda told, _: Start(told[0], endpoint_of(told[1])),
    "ping": lambda told, _: Ping(endpoint_of(told[0])),
    "offer": lambda told, after: Offer(told[0], endpoint_of(told[-1]) if told[-2] == "=" else None, refused_by(after)),
    "sweep": lambda told, after: Sweep(told[0], int(told[1]), refused_by(after)),
}


def action_of(told, after):
    return ACTIONS[told[0]](told[1:], after)


def endpoint_of(spelled):
    return value_of(Endpoint, spelled.encode())


def refused_by(after):
    return after[1] if after[0] == "refused" else None


def found_of(rs, line):
    """Returns what the call for a line returned, with words in place of exceptions, or the word of its refusal."""
    word, *told, tick = line.decode().split()
    try:
        if word == "service":
            acted = getattr(rs, told[0])(told[1], tick=int(tick))
        elif word == "tick":
            acted = rs.tick(int(tick))
        else:
            causes = [min(int(it), MOST_CAUSE) for it in told[1:]]  # one is bad as any other
            acted = getattr(rs, word)(endpoint_of(told[0]), *causes, tick=int(tick))
    except Refused as refused:
        return refused.word
    return [it._replace(refused=it.refused and it.refused.word) if hasattr(it, "refused") else it for it in acted.actions]


class Drawn(unittest.TestCase):
    def test_events(self):
        for seed in range(DRAWN):
            with self.subTest(seed=seed):
                asked = Asked(seed)
                for _ in range(EVENTS):
                    asked.ask(asked.line())


class Calls(unittest.TestCase):
    def test_a_service_from_its_start_to_its_end(self):
        with opened() as rs:
            rs.subscribe(7, ".*", initial=False)
            acted = rs.up("eth0", tick=0)
            self.assertEqual(acted, ([Start("eth0", FIRST), Offer("eth0", FIRST, None)], {7}))
            self.assertEqual((rs.nameof(FIRST), rs.due), ("eth0", 10))
            self.assertEqual(rs.tick(10).actions, [Ping(FIRST)])
            self.assertEqual(rs.beat(FIRST, tick=11).actions, [])
            rs.publish(FIRST, "eth0.mtu", 1500, version=(1, 0))
            self.assertEqual(rs.death(FIRST, Cause.KILLED, tick=12).actions, [Offer("eth0", None, None), Sweep("eth0", 1, None)])
            self.assertRaises(refusals.NotFound, rs.retrieve, "eth0.mtu", int)
            self.assertEqual(rs.tick(13).actions, [Start("eth0", (2, 16)), Offer("eth0", (2, 16), None)])
            self.assertEqual(rs.death(Endpoint(2, 16), Cause.EXIT, tick=14).actions[-1], GiveUp("eth0"))

    def test_what_a_service_is(self):
        with opened() as rs:
            rs.up("eth0", tick=3)
            eth, log = rs.services()
            self.assertEqual(eth, ("eth0", Class.NETWORK, 0, 10, 1, State.UP, 0, FIRST, None))
            self.assertEqual(log, ("log", Class.SERVER, None, 0, 0, State.DOWN, 0, None, None))
            rs.death(FIRST, Cause.EXCEPTION, tick=4)
            self.assertEqual(rs.services()[0][5:], (State.WAITING, 1, None, 5))

    def test_a_store_knows_no_service_before_rs_is_open(self):
        with Store() as store:
            self.assertEqual(store.line("publish 0/2 new eth0 label 1.0 = 1/16"), "taken\n")

    def test_who_may_publish(self):
        with opened() as rs:
            rs.up("eth0", tick=0)
            self.assertTrue(rs.may_publish(FIRST, "eth0.mtu", int))
            self.assertFalse(rs.may_publish(FIRST, "eth0.mac", bytes))
            self.assertFalse(rs.may_publish(FIRST, "eth0.mtu", Endpoint))
            self.assertFalse(rs.may_publish(Endpoint(2, 16), "eth0.mtu", int))

    def test_no_caller_passes_for_rs(self):
        with opened() as rs:
            self.assertRaises(refusals.NotAllowed, rs.publish, RS, "eth0", FIRST, (1, 0))

    def test_a_run_continues_the_generations_of_the_last(self):
        with opened() as rs:
            rs.up("eth0", tick=0)
            kept = rs.next_generation
        with opened(next=kept, slot=40) as rs:
            self.assertEqual(rs.up("eth0", tick=0).actions[0], Start("eth0", Endpoint(2, 40)))

    def test_other_settings_keep_what_runs(self):
        with opened() as rs:
            rs.subscribe(7, ".*", initial=False)
            rs.up("eth0", tick=0), rs.up("log", tick=0)
            rs.death(Endpoint(2, 17), Cause.EXIT, tick=1)
            rs.renew("slots = 2\n" + TTY + ETH0)
            tty, eth = rs.services()
            self.assertEqual((tty.label, tty.state), ("tty", State.DOWN))
            self.assertEqual(eth, ("eth0", Class.NETWORK, 1, 0, 9, State.UP, 0, FIRST, None))
            self.assertEqual(rs.up("tty", tick=1), ([Start("tty", Endpoint(3, 17)), Offer("tty", Endpoint(3, 17), None)], {7}))
            self.assertFalse(rs.may_publish(FIRST, "eth0.mtu", int))
            self.assertEqual(rs.retrieve("eth0", Endpoint), FIRST)
            self.assertRaises(refusals.UnknownLabel, rs.up, "log", tick=1)

    def test_other_settings_that_are_refused(self):
        with opened() as rs:
            rs.up("log", tick=0)
            before = rs.services()
            for text, word, service, has_line in (*TEXTS_REFUSED, ("slots = 1", "noslot", None, False), ("slots = 2\n" + ETH0, "alreadyup", 1, False)):
                with self.subTest(word):
                    with self.assertRaises(Refused) as told:
                        rs.renew(text)
                    fault = told.exception
                    self.assertEqual((fault.word, fault.service, fault.line is not None), (word, service, has_line))
                    self.assertEqual(rs.services(), before)

    def test_after_a_close_nothing_is_known(self):
        rs = opened()
        rs.close()
        for call in (lambda: rs.due, lambda: rs.next_generation, rs.services, lambda: rs.tick(1), lambda: rs.renew(SETTINGS)):
            self.assertRaises(refusals.IsClosed, call)


# A call for each refusal of an event.
EVENTS_REFUSED = {
    "tickback": lambda rs: (rs.tick(5), rs.tick(4)),
    "worn": lambda rs: rs.tick(2**62 + 1),
    "unknownlabel": lambda rs: rs.up("tty", tick=0),
    "badcause": lambda rs: (rs.up("eth0", tick=0), rs.death(FIRST, 7, tick=0)),
    "alreadyup": lambda rs: (rs.up("eth0", tick=0), rs.up("eth0", tick=0)),
    "notup": lambda rs: rs.down("eth0", tick=0),
    "oldendpoint": lambda rs: rs.beat(FIRST, tick=0),
    "badfirst": lambda rs: opened(next=0),
    "generationsspent": lambda rs: opened(next=2097152).up("eth0", tick=0),
}
# Settings, the refusal, its service, and whether it has a line.
TEXTS_REFUSED = (
    ("[[service", "toml", None, True),
    ("slots = 2\nlast = 3", "unknownfield", None, False),
    ("slots = 0", "outofrange", None, False),
    ('[[service]]\nlabel = "a"', "missing", 0, False),
    ('[[service]]\nlabel = "a"\nclass = "server"\n[[service]]\nlabel = "a"\nclass = "server"', "twolabels", 1, False),
)


class Refusals(unittest.TestCase):
    def test_each_of_an_event(self):
        for word, call in EVENTS_REFUSED.items():
            with self.subTest(word), opened() as rs:
                with self.assertRaises(Refused) as told:
                    call(rs)
                self.assertEqual(told.exception.word, word)

    def test_settings(self):
        for text, word, service, has_line in TEXTS_REFUSED:
            with self.subTest(word):
                with self.assertRaises(Refused) as told:
                    Rs(text)
                fault = told.exception
                self.assertEqual((fault.word, fault.service, fault.line is not None), (word, service, has_line))

    def test_no_slot_is_left(self):
        text = "slots = 1\n" + "".join(f'[[service]]\nlabel = "{it}"\nclass = "server"\n' for it in "ab")
        with Rs(text) as rs:
            rs.up("a", tick=0)
            self.assertRaises(refusals.NoSlot, rs.up, "b", tick=0)

    def test_what_is_out_of_range_is_no_call(self):
        with opened() as rs:
            for call in (lambda: rs.tick(-1), lambda: rs.tick(2**64), lambda: rs.beat((2**32, 0), 0), lambda: rs.death(FIRST, -1, 0)):
                self.assertRaises(ValueError, call)
        self.assertRaises(ValueError, Rs, SETTINGS, next=2**32)


if __name__ == "__main__":
    unittest.main()
