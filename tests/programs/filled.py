"""Fills a store, for tests/programs/store: each growth of memory of each line is refused once, and nothing held may change.

Keys arrive in random order, and sweeps drop some, so that new entries take the places of dropped ones.
"""
import itertools
import random

import c_growths
import stores

STORE = "store 1 0 256"
SNAPSHOT = "snapshot *"
DRIVERS = 60
FIRST_SLOT = 16
UNREAD = ["refused noroom"]


def lines():
    """Yields two publishes for each driver, a sweep after every fourth, and finally a check and a question for each driver's name."""
    chance = random.Random(95)
    slots = list(range(FIRST_SLOT, FIRST_SLOT + DRIVERS))
    chance.shuffle(slots)
    live = []
    yield b'subscribe 0 ".*" 15 first new'
    for at, slot in enumerate(slots):
        yield b"publish 0/2 new d%d label 1.0 = 1/%d" % (slot, slot)
        yield b'publish 1/%d new d%d.text str 1.0 = "text %d"' % (slot, slot, at)
        live.append(slot)
        if at % 4 == 3:
            yield b"sweep 0/2 d%d 2" % live.pop(chance.randrange(len(live)))
    yield b"check 0 256"
    for slot in slots:
        yield b"nameof 1/%d" % slot


def line_fault(memory, store, line, ample, held):
    """Refuses each growth of a line, one per call, until the answer is the one with memory. Returns what is wrong, or None."""
    for n in itertools.count(1):
        memory.refuse(n)
        answered = store.told([line])
        if answered == ample:
            return None
        if answered != UNREAD:
            return f"growth {n} refused: {answered}, wanted {ample}"
        if store.told([SNAPSHOT]) != held:
            return f"growth {n} refused, and what is held changed"


def fault(memory):
    """Fills a store. Returns what is wrong with the first bad answer, or None."""
    model, store = stores.Session(), c_growths.Store(memory)
    model.answer(STORE.encode())
    store.begin(STORE)
    held = store.told([SNAPSHOT])
    for asked in lines():
        line, ample = model.answer(asked)
        wrong = line_fault(memory, store, line, ample, held)
        held = store.told([SNAPSHOT])
        if not wrong and held != model.answer(SNAPSHOT.encode())[1]:
            wrong = "what it then holds isn't what the model holds"
        if wrong:
            return f"{line}: {wrong}"
    store.close()
    return None
