"""Seeded inputs of commands to be recorded.

An input is drawn line by line, with a pass in front of some, Merges, and now and then a line that can't be recorded.
"""
import random

import trace_texts
from model import traces

BAD = [b"", b"show", b"ring 5", b"64 snapshot *", b"05 snapshot *", b"5", b"5 ", b"merge", b"merge 257", b"merge 1 ", b"+ m u32 rs 1.0 = 5", b"retreive m u32", b"> 0 snapshot *"]


def input_of(seed):
    """Returns the text of an input."""
    chance = random.Random(seed)
    trace = traces.Trace(b"trace 2 1 0 256 128 4096")
    trace.header()
    given = [b"ring %d" % chance.choice([1, 2, 8, 4096, 4097, 0])] if chance.random() < 0.4 else []
    for _ in range(chance.randrange(16)):
        given += asked_by_chance(chance, trace)
    text = traces.text_of(given)
    return text[:-1] if chance.random() < 0.2 else text


def asked_by_chance(chance, trace):
    """Returns the lines of one entry's command, or a line that no entry has."""
    mark = b"%d " % chance.randrange(64) if chance.random() < 0.5 else b""
    if chance.random() < 0.03:
        return [mark + chance.choice(BAD)]
    if chance.random() < 0.2:
        items = [trace_texts.item_by_chance(chance, trace) for _ in range(chance.randrange(5))]
        count = len(items) + (chance.random() < 0.05)
        return [mark + b"merge %d" % count, *(b"+ " + it for it in items)]
    return [mark + trace_texts.line_by_chance(chance, trace)]
