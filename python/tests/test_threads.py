"""Threads: each with a store of its own, and all with one under a lock of the caller's."""
import functools
import threading
import unittest

import support  # noqa: I001: it finds the modules of tests/
import stores
from pengtawis import RS, Endpoint, Store

THREADS = 8
TURNS = 300


class Threads(unittest.TestCase):
    def test_a_store_per_thread(self):
        """Compares the answers to each thread's drawn script with the model's."""
        scripts = [stores.Script(100 + at, TURNS, True) for at in range(THREADS)]

        def work(at):
            typed = support.Typed()
            for line, wanted in zip(scripts[at].lines, scripts[at].answers):
                self.assertEqual(typed.answer(line.encode()), support.without_stamps(wanted), line)
            typed.close()

        support.at_once(*(functools.partial(work, at) for at in range(THREADS)))

    def test_one_store_under_a_lock(self):
        """Publishes numbers of each thread's own, and reads them back while the others publish theirs."""
        lock = threading.Lock()
        with Store(1, ring=4096) as store:
            store.subscribe(0, ".*")

            def work(at):
                caller, name = Endpoint(1 + at, 16 + at), f"d{at}"
                with lock:
                    store.publish(RS, name, caller, (1 + at, 0))
                for turn in range(TURNS):
                    with lock:
                        done = store.publish(caller, f"{name}.n", turn, (1 + at, turn), overwrite=True)
                    self.assertEqual((done.changed, done.owed), (True, {0}))
                    with lock:
                        self.assertEqual(store.retrieve(f"{name}.n", int), turn)

            support.at_once(*(functools.partial(work, at) for at in range(THREADS)))
            items, cursor = store.snapshot(kinds=[int])
            self.assertEqual([(it.name, it.value) for it in items], [(f"d{at}.n", TURNS - 1) for at in range(THREADS)])
            self.assertEqual(cursor, (1, THREADS * (1 + TURNS)))
            self.assertEqual(sum(len(it.items) for it in store.since((1, 0))), THREADS * (1 + TURNS))
