#!/usr/bin/env python3
"""A supervisor in small: RS decides, this program carries out. Processes are lines of output here, and time is a number.

It needs the package `pengtawis`: PYTHONPATH=python in the repository, or docs/guide/python.md.
"""
from pengtawis import Cause, Endpoint, GiveUp, Kill, NotFound, Ping, Rs, Start

SETTINGS = """
format = 2
[[service]]
label = "disk"
class = "block"
unit = 3
period = 5 # ticks from one ping to the next
limit = 2  # failures in a row that are answered by a start
"""


def carry_out(what, tick, actions):
    """Carries out the actions of an event, in order. The store has taken an offer or a sweep."""
    if actions:
        print(f"tick {tick}, {what}")
    for action in actions:
        if isinstance(action, Kill):
            print(f"  kill {action.endpoint}")
        elif isinstance(action, Start):
            print(f"  start {action.label} as {action.endpoint}")
        elif isinstance(action, Ping):
            print(f"  ping {action.endpoint}")
        elif isinstance(action, GiveUp):
            print(f"  {action.label} is given up")


def sleep_until_due(rs):
    """Sleeps until a tick has actions, and reports that tick until it has none. Returns the tick."""
    tick = rs.due
    while tick is not None and (actions := rs.tick(tick).actions):
        carry_out("time passed", tick, actions)
    return tick


def find(rs):
    """Prints where clients find the driver: its label in the store."""
    try:
        print(f"clients find it at {rs.retrieve('disk', Endpoint)}")
    except NotFound:
        print("clients find it nowhere")


def main():
    with Rs(SETTINGS) as rs:
        carry_out("an administrator brings it up", 1, rs.up("disk", 1).actions)
        find(rs)
        carry_out("it exits", 2, rs.death(Endpoint(1, 16), Cause.EXIT, 2).actions)
        find(rs)
        sleep_until_due(rs)
        find(rs)
        sleep_until_due(rs)  # a ping
        sleep_until_due(rs)  # it isn't answered in time
        tick = sleep_until_due(rs) + 9
        carry_out("a trap", tick, rs.death(Endpoint(3, 16), Cause.EXCEPTION, tick).actions)
        find(rs)


if __name__ == "__main__":
    main()
