"""The program against the model: lines that are cut, changed, dropped or doubled, and random scripts."""
import random

import harness
import model

from .by_chance import change_by_chance, command_by_chance, floor_by_chance, name_by_chance
from .running import expect
from .samples import FIRST_LINES, GOOD, OF_TRACES, PUT


def agrees(program, script, keep_going=False):
    """Asserts that a script's answer is the model's."""
    words = ["replay", "--keep-going"] if keep_going else []
    try:
        expect(harness.run([program, *words], script), *model.replay(script, keep_going))
    except AssertionError as wrong:
        raise AssertionError(f"{script[-120:]!r}: {wrong}") from None


def every_front_of_a_line(program):
    """Each proper beginning of a good line, with and without a newline, is answered as by the model."""
    fronts = [line[:at] + newline for line in GOOD for at in range(len(line)) for newline in (b"", b"\n")]
    harness.at_once(lambda it: agrees(program, it), fronts)


def every_byte_changed(program):
    """A good line with any byte replaced by any other is answered as by the model. The changes of one byte share a run, but for first lines."""
    places = [(line, at) for line in GOOD for at in range(len(line))]
    alone = [it for line, at in places if line in FIRST_LINES for it in changed(line, at)]
    harness.at_once(lambda it: agrees(program, it), alone)
    together = [b"".join(changed(line, at)) for line, at in places if line not in FIRST_LINES]
    harness.at_once(lambda it: agrees(program, it, keep_going=True), together)


def changed(line, at):
    """Returns the line with each other byte at a place."""
    return [line[:at] + bytes([byte]) + line[at + 1 :] + b"\n" for byte in range(256) if byte != line[at]]


def every_byte_dropped_or_doubled(program):
    """A good line with any byte left out or doubled is answered as by the model."""
    spoilt = [line[:at] + line[at : at + 1] * times + line[at + 1 :] for line in GOOD for at in range(len(line)) for times in (0, 2)]
    harness.at_once(lambda it: agrees(program, it + b"\n"), spoilt)


def lines_of_traces(program):
    """A line that only a trace has is a bad line at its first byte, also after a good line."""
    for line in OF_TRACES.splitlines():
        expect(harness.run([program], PUT + b"\n" + line + b"\n"), b"taken\nbadline 2 0\n", 1)


def scripts_by_chance(program):
    """Seeded scripts of many lines over few names, some with a bad line, are answered as by the model; all answers occur."""
    chance = random.Random(1)
    scripts = []
    for _ in range(40):
        script = [b"offer %s %s" % (name_by_chance(chance), change_by_chance(chance)) for _ in range(300)]
        for _ in range(12):
            script.insert(chance.randrange(300), chance.choice([b"show", b"all"]))
        for _ in range(6):
            script.insert(chance.randrange(300), b"offer ! " + floor_by_chance(chance))
        if chance.random() < 0.3:
            script[chance.randrange(300)] = b"offer eth0 label rs 1.2 -"
        scripts.append(b"\n".join(script))
    harness.at_once(lambda it: agrees(program, it), scripts)


def callers_by_chance(program):
    """Seeded scripts in which RS and some drivers publish, delete, sweep and ask, and others subscribe and check, are answered as by the model."""
    chance = random.Random(2)
    scripts = [b"\n".join(command_by_chance(chance) for _ in range(400)) for _ in range(60)]
    harness.at_once(lambda it: agrees(program, it), scripts)
