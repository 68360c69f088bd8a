"""Lists single calls of a subscriber's map, for tests/programs/store. Each growth of the one call is refused, one by one and all together.

Reading a label takes no memory. Neither does an item that isn't matched against the map's pattern and needs no place: a floor of an owner
that has one. A `take` asks for what its pattern needs before its first item, and stops there if that is refused; later it keeps the items
before. The lines `entries` and `clear` of scripts show what a map has besides its labels.
"""
from dataclasses import replace

from causes import NOROOM, case

ETH = "eth0 label rs 3.0 = 3/17"
MTU = "mtu u32 eth0 3.0 = 1500"
ID = 'id str eth0 3.0 = "up"'
VOID = "up u32 eth0 3.9 = 1"  # by a floor of generation 3


def take(*items):
    return "\n".join(["take", *(f"offer {it}" for it in items), "end"])


TAKE = [
    case("nothing", take(ETH), take(), "merged 0 0 0"),
    case("of a new key", take(ETH), take(MTU), "merged 1 1 0", "stopped 0 noroom"),
    case("of what isn't under the query", "", take("tty u32 tty 3.0 = 1"), "merged 1 0 0", "stopped 0 noroom"),
    case("of a held key", take(ETH), take("eth0 label rs 4.0 = 4/17"), "merged 1 1 0", "stopped 0 noroom"),
    case("of a floor", take(ETH), take("! eth0 2"), "merged 1 1 0", "stopped 0 noroom"),
    case("of a higher floor", take(ETH, ID, "! eth0 2"), take("! eth0 3") + "\n" + take(VOID), "merged 1 1 0\nmerged 1 0 1"),
    case("of a lower one", take(ETH, "! eth0 2"), take("! eth0 1", "! eth0 2"), "merged 2 0 1"),
    case("of a new key after a floor", take(ETH, "! eth0 2"), take("! eth0 3", MTU.replace("3.0", "4.0")) + "\n" + take(VOID),
         "merged 2 2 0\nmerged 1 0 1", "stopped 0 noroom\nmerged 1 1 0", "stopped 1 noroom\nmerged 1 0 1"),
    case("clash", take(MTU), take("mtu u32 eth0 3.0 = 9"), "stopped 0 clash 3.0", "stopped 0 noroom"),
    case("notowner", take(MTU), take("mtu u32 tty 9.0 = 9"), "stopped 0 notowner", "stopped 0 noroom"),
]

READ = [
    case("a label", take(ETH), "label eth0", "found 3/17"),
    case("a label that isn't there", take(ETH), "label tty", "refused notfound"),
    case("a label that is gone", take("eth0 label rs 3.1 -"), "label eth0", "refused notfound"),
    case("no name", take(ETH), "label eth 0", "no request"),
]

CALLS = {"take": TAKE, "read": READ}


def of_map(it, name):
    """Returns the case, with a map that is made first, of all names but `tty`."""
    return replace(it, name=f"map: {name}", before=['map "[^t].*" 15', *it.before])


def all_cases():
    return [of_map(it, f"{call}: {it.name}") for call, cases in CALLS.items() for it in cases]
