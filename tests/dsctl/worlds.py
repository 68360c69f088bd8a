"""Seeded scripts over a world, RS and the driver tables.

A script is drawn line by line, and the model answers each line at once, so that most cursors, messages, maps, instances and requests
exist. No holder may ever show an older generation of a driver than it did, and no table may send anything to an older one.

Scripts of odd seeds are orderly: each change has a number of its own and each entry one owner. Their answers must show what holds in every
orderly world. No delivery is stopped. Replicas that exchanged their snapshots hold the same items, and so does a map that got a
snapshot and what followed it, in any order. The script of every twentieth seed is about RS and full driver tables alone.
"""
import random

import harness
import model
from orderly import Orderly
from world_scripts import Disorderly, Full


def script_of(seed):
    """Returns the script of a seed."""
    return Orderly(seed) if seed % 2 else Full(seed) if seed % 20 == 8 else Disorderly(seed)


def spoilt(seed, script):
    """Returns the script's text with six bytes outside quotes changed, left out or doubled, each in a line that is drawn."""
    chance, lines = random.Random(seed), list(script.lines)
    for _ in range(6):
        at = chance.randrange(len(lines))
        line, byte = lines[at], chance.choice(b"0a m*-./ u\x00\xff9Bb!")
        place = chance.randrange(max(line.find(b'"'), 0) or len(line))
        lines[at] = line[:place] + chance.choice([bytes([byte]), b"", line[place : place + 1] * 2]) + line[place + 1 :]
    return b"\n".join(lines)


def fault(program, seed):
    """Returns the first fault of the program's answers to the script of a seed, unchanged and with bad lines, or None."""
    script = script_of(seed)
    given = [(["replay"], script.text(), (script.wanted(), 0))]
    bad = spoilt(seed, script)
    given += [(["replay", *words], bad, model.replay(bad, words != [])) for words in ([], ["--keep-going"])]
    for words, text, (answers, status) in given:
        ran = harness.run([program, *words], text)
        wrong = harness.difference(ran.output, answers) or harness.unexplained(ran.output, ran.error)
        if wrong or ran.status != status:
            return f"{' '.join(words)}{' with bad lines' * (text is bad)}: {wrong or f'status {ran.status}'}"
    return script.faults[0] if script.faults else None
