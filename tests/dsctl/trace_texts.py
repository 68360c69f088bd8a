"""Seeded traces of one store, in both formats.

A trace is drawn entry by entry, and the model's store answers each, so that the trace is legal; some replies are `refused noroom`.
Then one line of it is changed, left out, doubled or exchanged with the next.
"""
import random

import by_chance
from model import lines, traces


def trace_of(seed):
    """Returns the lines of a trace, in format 1 for odd seeds."""
    chance = random.Random(seed)
    numbers = b"%d %d %d" % (chance.choice([1, 7]), chance.choice([0, 0, 0, 5, 2**62 - 4]), chance.choice([1, 3, 256]))
    limits = chance.choice([b"64 1024", b"128 4096"])
    given = [b"trace 1 " + numbers if seed % 2 else b"trace 2 %s %s" % (numbers, limits)]
    trace = traces.Trace(given[0])
    trace.header()
    if trace.is_older and chance.random() < 0.02:
        given += crowd_by_chance(chance, trace)
    for _ in range(chance.randrange(1, 14)):
        given += entry_by_chance(chance, trace)
    return given


def crowd_by_chance(chance, trace):
    """Returns entries of format 1 that leave an owner with some hundred keys, and then sweep it: more than one Merge can take."""
    items = [b"k%d u32 eth0 3.0 = %d" % (number, number) for number in range(chance.choice([255, 256, 257, 300, 520]))]
    given = asked_lines(b"> 0 ", b'subscribe 5 "k1.*" 15 later over', trace)
    for at in range(0, len(items), traces.MOST_ITEMS):
        given += merge_lines(b"> 0 ", items[at : at + traces.MOST_ITEMS], None, trace)
    return given + asked_lines(b"> 63 ", b"sweep 0/2 eth0 3", trace)


def entry_by_chance(chance, trace):
    """Returns the lines of one entry, whose reply is the store's or `refused noroom`."""
    mark = b"> %d " % chance.randrange(64)
    if chance.random() < 0.2:
        items = [item_by_chance(chance, trace) for _ in range(chance.randrange(5))]
        done = chance.randrange(len(items)) if items and chance.random() < 0.2 else None
        if chance.random() < 0.05:
            return merge_asked(mark, items) + [b"< refused noroom"]
        return merge_lines(mark, items, done, trace)
    command = sweep_by_chance(chance, trace) if trace.is_older and chance.random() < 0.1 else line_by_chance(chance, trace)
    if chance.random() < 0.05:
        return [mark + command, b"< refused noroom"]
    return asked_lines(mark, command, trace)


def asked_lines(mark, command, trace):
    """Returns the lines of an entry with this command, whose reply is the store's."""
    return [mark + command, *(b"< " + it for it in trace.store.answer(*lines.read(command)))]


def merge_asked(mark, items):
    """Returns the lines that ask for a Merge."""
    return [mark + b"merge %d" % len(items), *(b"+ " + it for it in items)]


def merge_lines(mark, items, done, trace):
    """Returns the lines of an entry that merges these items. If `done` isn't None, memory runs out after `done` of them."""
    reply = trace.store.merge([lines.item(it) for it in items][:done])
    if done is not None and reply[0].startswith(b"merged"):  # else an earlier cause stopped it
        reply[0] = b"stopped %d noroom" % done
    return merge_asked(mark, items) + [b"< " + it for it in reply]


def sweep_by_chance(chance, trace):
    """Returns a sweep that RS asks for, of an owner that has something."""
    owners = sorted({owner for owner, _, _ in trace.store.held.values()}) or [b"eth0"]
    return b"sweep 0/2 %s %d" % (chance.choice(owners), chance.choice([1, 2, 3, 8, 2097151]))


def line_by_chance(chance, trace):
    """Returns the line of a command that a trace of the format may have."""
    while True:
        line = by_chance.command_by_chance(chance)
        if chance.random() < 0.15:
            where = b"%d %d" % (trace.store.incarnation, trace.store.first + chance.randrange(8))
            scope = chance.choice([b"*", b'"m.*|eth0" 15'])
            line = chance.choice([b"since %s %s 3" % (scope, where), b"snapshot " + scope, b"page %s - 2" % scope])
        command, taken = lines.read(line)
        if command in traces.ASKED and (command != b"offer" or trace.is_carried(taken[0])):
            return line


def item_by_chance(chance, trace):
    """Returns the line of an item that a Merge of the format may have."""
    while True:
        line = by_chance.item_by_chance(chance)
        if trace.is_carried(lines.item(line)):
            return line


def forged(seed, given):
    """Returns the lines with one of them changed, left out, doubled or exchanged with the next."""
    chance, given = random.Random(seed), given[:]
    at = chance.randrange(len(given))
    how = chance.randrange(4)
    if how == 0:
        line = given[at]
        place = chance.randrange(max(line.find(b'"'), 0) or len(line) or 1)  # before a pattern, which Python may read differently
        byte = chance.choice(b"0123456789a <>+!-.=x")
        given[at] = line[:place] + bytes([byte]) + line[place + 1 :]
    elif how == 1:
        del given[at]
    elif how == 2:
        given.insert(at, given[at])
    else:
        given[at : at + 2] = reversed(given[at : at + 2])
    return given


def texts_of(seed):
    """Returns the text of the trace of a seed, and of that trace forged."""
    given = trace_of(seed)
    return traces.text_of(given), traces.text_of(forged(seed, given))
