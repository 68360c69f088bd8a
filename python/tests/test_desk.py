"""Threads at a desk: their answers are those of one thread at a store of its own, in the order of their places."""
import random
import sys
import threading
import time
import unittest

import support  # noqa: I001: it finds the package
from pengtawis import (
    RS, BadFirst, BadRing, BadSub, Desk, Endpoint, IsBusy, IsClosed, Items, NoSeat, NotFound, Refused, Store, TooMany,
)

THREADS, TURNS, RING = 8, 300, 64
SERVER = 5
SUB = 8 * SERVER
PATIENCE = 60  # seconds


def endpoint(at):
    return Endpoint(1, 100 + at)


def begin(asked):
    """Makes the first calls: a label for each thread, and a subscription."""
    for at in range(THREADS):
        asked.publish(RS, f"t{at}", endpoint(at), (1, 0))
    asked.subscribe(SUB, ".*")


def drawn(at):
    """Yields a thread's calls: the name of each, and its words."""
    by = random.Random(at)
    for seq in range(TURNS):
        own, other = f"t{at}.n{by.randrange(8)}", f"t{by.randrange(THREADS)}.n{by.randrange(8)}"
        value = by.choice((seq, f"{seq:x}" * 9, bytes(seq % 99)))
        yield by.choice((
            ("publish", endpoint(at), own, value, (1, seq), True), ("publish", endpoint(at), own, seq, (1, seq), True),
            ("delete", endpoint(at), own, int, (1, seq)), ("retrieve", other, by.choice((int, str, bytes))), ("check", SUB, 8),
            ("snapshot", "t[0-3].*", [str]), ("page", None, ".*", [int], 5), ("nameof", endpoint(at)), ("sweep", endpoint(at), "t0", 1),
            ("merge", Items(b"x%d.n u32 x%d 1.%d = 1\n" % (at, at, seq))), ("check", 127, 8),
        ))


def answer(asked, name, *words):
    """Makes a call of a store or at a seat, and returns what it returns or raises."""
    try:
        said = getattr(asked, name)(*words)
    except (Refused, ValueError) as fault:
        return f"{fault!r} {getattr(fault, 'done', 0)}"
    return [getattr(it, "text", it) for it in said] if isinstance(said, tuple) else getattr(said, "text", said)


class Threads(unittest.TestCase):
    def test_as_one_thread(self):
        made, over, taken = [], threading.Event(), []
        with Desk(THREADS + 2, 7, ring=RING) as desk, desk.seat() as home:
            begin(home)
            first = home.place + 1

            def call(at):
                with desk.seat() as seat:
                    for it in drawn(at):
                        before = seat.place
                        told = answer(seat, *it)
                        if before is not None and seat.place is not None:
                            self.assertGreater(seat.place, before)
                        made.append((seat.place, it, told))

            def listen():
                floor = 0
                with desk.seat() as seat:
                    while True:
                        was_over = over.is_set()
                        notices = seat.take(SERVER)
                        self.assertTrue(notices.floor >= floor and notices.owed <= {SUB}, notices)
                        floor = notices.floor
                        taken.extend(notices.owed)
                        if was_over and not notices.owed:
                            return
                        time.sleep(0)

            listener = threading.Thread(target=listen)
            listener.start()
            try:
                support.at_once(*(lambda at=at: call(at) for at in range(THREADS)))
            finally:
                over.set()
                listener.join()
            held = home.snapshot()
        self.assertEqual(len(made), THREADS * TURNS)
        self.replay(first, made, held)
        self.assertTrue(taken)

    def replay(self, first, made, held):
        """Makes the calls again, in the order of their places, at a store of one thread."""
        with Store(7, ring=RING) as store:
            begin(store)
            for at, (place, call, told) in enumerate(sorted(made, key=lambda it: it[0])):
                self.assertEqual(place, first + at)
                self.assertEqual(told, answer(store, *call), call)
            self.assertEqual(held, store.snapshot())

    def test_a_call_that_does_not_wait(self):
        """It is busy at last while other threads call, and changes nothing then."""
        over = threading.Event()
        with Desk(3) as desk, desk.seat() as seat:
            seat.merge(Items(b"".join(b"n%d u32 eth1 1.0 = 1\n" % at for at in range(2000))))  # a snapshot of these takes a long turn

            def call():
                with desk.seat() as other:
                    while not over.is_set():
                        other.snapshot()

            def try_it():
                seat.waits, end = False, time.monotonic() + PATIENCE
                while time.monotonic() < end:
                    place = seat.place
                    try:
                        seat.publish(RS, "eth0", Endpoint(1, 16), (1, 0))
                    except IsBusy:
                        over.set()
                        self.assertEqual(seat.place, place)
                        return
                over.set()
                self.fail("no call was busy")

            support.at_once(call, call, try_it)

    def test_two_threads_at_a_seat(self):
        """A call of one thread is refused while another thread's is carried out at the same seat. Nothing of it is called."""
        wrong, over = [], threading.Event()
        with Desk(1) as desk, desk.seat() as seat:
            seat.publish(RS, "eth0", Endpoint(1, 16), (1, 0))

            def call():
                end = time.monotonic() + PATIENCE
                while not over.is_set() and time.monotonic() < end:
                    try:
                        seat.retrieve("eth0", Endpoint)
                    except RuntimeError as fault:
                        wrong.append(str(fault))
                        over.set()

            every = sys.getswitchinterval()
            sys.setswitchinterval(1e-6)
            try:
                support.at_once(call, call, call)
            finally:
                sys.setswitchinterval(every)
        self.assertIn("a seat of its own", wrong[0])


class Desks(unittest.TestCase):
    def test_refusals(self):
        past = 2**62 + 1
        for wrong, words in ((TooMany, (0,)), (TooMany, (65, 1, past, 0)), (BadRing, (1, 1, past, 0)), (BadFirst, (1, 1, past))):
            self.assertRaises(wrong, Desk, *words)
        self.assertRaises(ValueError, Desk, 2**32)
        self.assertRaises(TypeError, Desk, "2")
        with Desk(1) as desk:
            with desk.seat() as seat:
                self.assertRaises(NoSeat, desk.seat)
                self.assertRaises(BadSub, seat.take, 16)
                self.assertRaises(ValueError, seat.take, -1)
                self.assertRaises(IsBusy, desk.close)
                self.assertIsNone(seat.place)
                self.assertRaises(NotFound, seat.retrieve, "mtu", int)
                self.assertEqual(seat.place, 0)
                self.assertRaises(ValueError, seat.retrieve, "a name", int)
                self.assertIsNone(seat.place)
                self.assertRaises(AttributeError, lambda: seat.line)
                with self.assertRaisesRegex(AttributeError, "a Seat has no `get`: here it is retrieve"):
                    seat.get("mtu")
            for _ in range(2):
                seat.close()
            self.assertRaises(IsClosed, seat.retrieve, "mtu", int)
            self.assertRaises(IsClosed, seat.take, 0)
        desk.close()
        self.assertRaises(IsClosed, desk.seat)
        self.assertEqual((repr(desk)[-9:], repr(seat)[-9:]), (", closed>",) * 2)

    def test_an_open_seat_at_the_end(self):
        with self.assertRaises(IsBusy):
            with Desk(1) as desk:
                seat = desk.seat()
        with self.assertRaises(KeyError):
            with Desk(1) as desk:
                seat = desk.seat()  # which isn't closed either
                raise KeyError
        seat.close()
        desk.close()
