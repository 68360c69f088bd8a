"""Lists each refusal of each command to a store, with lines that lead to it, for tests/programs/store.

A case ends with one command that has several causes to be refused, as far as one command can. The answer is the first in the order of
docs/reference/refusals.md. It was worked out from that page, and not from a store's answer. With no memory at all for the store the
answer is the same, except for what a pattern needs.

Other cases have commands that aren't refused. Without memory, those that take none have the usual answer, and the others `noroom`. No memory
is taken by a change of a held number or label, a void change, or a higher floor of an owner that has one, however much the floor drops.
"""
from dataclasses import dataclass, replace
from typing import List, Tuple

LAST = 2**62  # where positions and stamps end
MOST_KEYS = 4096
MOST_ITEMS = 256  # of one Merge


@dataclass
class Case:
    """Lines that come first, a command of one or more lines, and its answer: with ample memory, and with none."""

    name: str
    before: List[str]
    command: List[str]
    ample: List[str]
    without: Tuple[List[str], ...]  # each answer that may come without memory


def case(name, before, command, ample, *without):
    """Returns a case from texts of lines. By default `without` is the one answer that comes with ample memory too."""
    return Case(name, before.splitlines(), command.splitlines(), ample.splitlines(), tuple(it.splitlines() for it in without or (ample,)))


def merge(*offers):
    return "\n".join(["merge", *(f"offer {it}" for it in offers), "end"])


def store(first=0, ring=256):
    """Returns the line that opens a store: where positions and stamps begin, and how many items the journal keeps."""
    return f"store 1 {first} {ring}\n"


def begins(left, ring=256):
    """Returns the line that opens a store with `left` positions left."""
    return store(LAST - left, ring)


def full(keys=MOST_KEYS):
    """Returns lines for `keys` keys: the label of eth0, which lives in 3/17, and numbers of tty's."""
    names = [f"tty{n} u32 tty 1.0 = {n}" for n in range(keys - 1)]
    blocks = [names[at : at + MOST_ITEMS] for at in range(0, len(names), MOST_ITEMS)]
    return ETH + "\n".join(merge(*it) for it in blocks)


def floors(count):
    """Returns lines for the floors of `count` owners, at generation 1."""
    return "".join(f"offer ! o{n} 1\n" for n in range(count))


MOST_FLOORS = 64
NOROOM = "refused noroom"
ETH = "publish 0/2 new eth0 label 3.0 = 3/17\n"
MTU = "publish 3/17 new mtu u32 3.1 = 1500\n"  # of eth0
ID = 'publish 3/17 new id str 3.1 = "up"\n'  # of eth0
GONE = "delete 3/17 mtu u32 3.2\n"
TTY = "publish 0/2 new tty label 3.0 = 3/18\n"
OTHER = "offer mtu u32 tty 3.1 = 1500\n"  # of tty
SUB = 'subscribe 0 ".*" 15 first new\n'
FLOOR = "sweep 0/2 eth0 3\n"  # under which eth0 still lives
OWED = "\nowed 00000000000000000000000000000001"

PUBLISH = [
    case("badlabel", begins(0), "publish 9/99 new eth0 label 3.1 = 3/17", "refused badlabel"),
    case("badversion", begins(1) + "offer mtu u32 tty 3.0 = 7", 'publish 9/99 new mtu u32 3.0 = 7', "refused badversion"),
    case("badversion of the last number", begins(1) + ETH, 'publish 3/17 new id str 3.4294967295 = "up"', "refused badversion"),
    case("nocaller of a label", begins(0), "publish 9/99 new eth0 label 3.0 = 3/17", "refused nocaller"),
    case("nocaller", begins(1) + "offer id str tty 9.0 = \"up\"", 'publish 9/99 new id str 9.0 = "down"', "refused nocaller"),
    case("notallowed", begins(2) + ETH + TTY, "publish 3/17 new tty label 3.0 = 3/17", "refused notallowed"),
    case("notowner", begins(2) + ETH + OTHER, "publish 3/17 new mtu u32 3.1 = 7", "refused notowner"),
    case("notowner of a void change", begins(3) + ETH + OTHER + FLOOR, "publish 3/17 new mtu u32 3.1 = 7", "refused notowner"),
    case("clash", begins(2) + ETH + ID, 'publish 3/17 new id str 3.1 = "down"', "refused clash 3.1"),
    case("stale", begins(2) + ETH + ID, 'publish 3/17 new id str 3.0 = "down"', "refused stale"),
    case("stale by a floor", begins(MOST_KEYS + 1) + full() + "\n" + FLOOR, 'publish 3/17 new id str 3.0 = "up"', "refused stale"),
    case("known", begins(2) + ETH + ID, 'publish 3/17 new id str 3.1 = "up"', "known"),
    case("exists", begins(2) + ETH + ID, 'publish 3/17 new id str 3.2 = "down"', "refused exists"),
    case("full", begins(MOST_KEYS) + full(), 'publish 3/17 new id str 3.0 = "up"', "refused full"),
    case("worn", begins(1) + ETH, 'publish 3/17 new id str 3.0 = "up"', "refused worn"),
    case("worn over a label", begins(1) + ETH, "publish 0/2 over eth0 label 4.0 = 4/17", "refused worn"),
    case("of the first key", "", "publish 0/2 new eth0 label 3.0 = 3/17", "taken", NOROOM),
    case("of a number of a held key", ETH + MTU + SUB, "publish 3/17 over mtu u32 3.2 = 9", "taken" + OWED),
    case("of a number where the ring is full", store(ring=1) + ETH + MTU, "publish 3/17 over mtu u32 3.2 = 9", "taken"),
    case("of a label of a held key", ETH + SUB, "publish 0/2 over eth0 label 4.0 = 4/17", "taken" + OWED),
    case("of a text of a held key", ETH + ID + SUB, 'publish 3/17 over id str 3.2 = "down"', "taken" + OWED, NOROOM),
]

DELETE = [
    case("badlabel", begins(0), "delete 9/99 eth0 label 3.0", "refused badlabel"),
    case("badversion", begins(0), "delete 9/99 mtu u32 3.1", "refused badversion"),
    case("nocaller", begins(1) + ETH, "delete 9/99 eth0 label 3.1", "refused nocaller"),
    case("notallowed", begins(1) + ETH, "delete 3/17 tty label 3.1", "refused notallowed"),
    case("notowner", begins(2) + ETH + OTHER, "delete 3/17 mtu u32 3.1", "refused notowner"),
    case("notowner of a void change", begins(3) + ETH + OTHER + FLOOR, "delete 3/17 mtu u32 3.1", "refused notowner"),
    case("clash", begins(2) + ETH + MTU, "delete 3/17 mtu u32 3.1", "refused clash 3.1"),
    case("stale", begins(3) + ETH + MTU + GONE, "delete 3/17 mtu u32 3.1", "refused stale"),
    case("stale by a floor", begins(3) + ETH + MTU + FLOOR, "delete 3/17 mtu u32 3.2", "refused stale"),
    case("known", begins(3) + ETH + MTU + GONE, "delete 3/17 mtu u32 3.2", "known"),
    case("notfound", begins(MOST_KEYS) + full(), "delete 3/17 mtu u32 3.1", "refused notfound"),
    case("notfound of a tombstone", begins(3) + ETH + MTU + GONE, "delete 3/17 mtu u32 3.3", "refused notfound"),
    case("worn", begins(2) + ETH + MTU, "delete 3/17 mtu u32 3.2", "refused worn"),
    case("of a live entry", ETH + ID, "delete 3/17 id str 3.2", "taken"),
]

SWEEP = [
    case("notallowed", begins(1 + MOST_FLOORS) + ETH + floors(MOST_FLOORS), "sweep 3/17 eth0 3", "refused notallowed"),
    case("notallowed of a lower floor", begins(2) + ETH + FLOOR, "sweep 3/17 eth0 2", "refused notallowed"),
    case("full", begins(MOST_FLOORS) + floors(MOST_FLOORS), "sweep 0/2 eth0 3", "refused full"),
    case("worn", begins(2) + ETH + MTU, "sweep 0/2 eth0 3", "refused worn"),
    case("worn where the owner's is the last floor", begins(MOST_FLOORS) + floors(MOST_FLOORS), "sweep 0/2 o0 2", "refused worn"),
    case("of two entries", ETH + MTU + ID + SUB, "sweep 0/2 eth0 3", "swept 2" + OWED, NOROOM),
    case("of two entries above a floor", ETH + MTU + ID + SUB + "sweep 0/2 eth0 2", "sweep 0/2 eth0 3", "swept 2" + OWED),
    case("of an equal floor", begins(2) + ETH + FLOOR, "sweep 0/2 eth0 3", "swept 0"),
    case("of a lower floor", begins(2) + ETH + FLOOR, "sweep 0/2 eth0 0", "swept 0"),
]

RETRIEVE = [
    case("notfound", ETH, "retrieve id str", "refused notfound"),
    case("notfound of a tombstone", ETH + ID + "delete 3/17 id str 3.2", "retrieve id str", "refused notfound"),
    case("of a label", ETH, "retrieve eth0 label", "found 3/17"),
    case("of a number", ETH + MTU, "retrieve mtu u32", "found 1500"),
    case("of a text", ETH + ID, "retrieve id str", 'found "up"', NOROOM),
]

NAME_OF = [
    case("notfound", ETH, "nameof 3/18", "refused notfound"),
    case("of a driver", ETH, "nameof 3/17", "named eth0"),
]

LONG = "(" * 129  # too long, and no pattern

SUBSCRIBE = [
    case("badsub", begins(0), f'subscribe 128 "{LONG}" 15 first new', "refused badsub"),
    case("badsub, with a pattern", begins(0), 'subscribe 128 "eth.*" 15 first new', "refused badsub"),
    case("toolong", begins(1) + SUB, f'subscribe 0 "{LONG}" 15 first new', "refused toolong"),
    case("badpattern by a byte", begins(1) + SUB, 'subscribe 0 "\x01" 15 first new', "refused badpattern"),
    case("badpattern", begins(1) + SUB, 'subscribe 0 "(" 15 first new', "refused badpattern", "refused badpattern", NOROOM),
    case("exists", begins(1) + SUB, 'subscribe 0 "eth.*" 15 first new', "refused exists", NOROOM),
    case("worn", begins(1) + SUB, 'subscribe 0 "eth.*" 15 first over', "refused worn", NOROOM),
    case("of what is held", ETH, 'subscribe 0 "eth.*" 15 first new', "subscribed 1" + OWED, NOROOM),
    case("of a floor alone", "offer ! eth0 3", 'subscribe 0 "tty" 1 first new', "subscribed 1" + OWED, NOROOM),
]

SAME = 'id str eth0 3.1 = "up"'
OLDER = 'id str eth0 3.0 = "down"'
CLASHING = 'id str eth0 3.1 = "down"'
FOREIGN = 'id str tty 3.1 = "down"'
NEW = 'mac str eth0 3.1 = "new"'
HELD = "offer " + SAME + "\n"

CHECK = [
    case("badsub", begins(0), "check 128 0", "refused badsub"),
    case("toomany of none", begins(0), "check 0 0", "refused toomany"),
    case("toomany", begins(0), "check 0 257", "refused toomany"),
    case("notfound", begins(0), "check 0 1", "refused notfound"),
    case("worn", begins(1) + SUB + 'offer id str eth0 3.1 = "up"', "check 0 1", "refused worn"),
    case("of nothing", begins(1) + SUB, "check 0 1", f"checked 0 {LAST} {LAST}"),
    case("of a text", SUB + 'offer id str eth0 3.1 = "up"', "check 0 1", 'id str eth0 3.1 = "up"\nchecked 1 1 2', NOROOM),
    case("of a floor", SUB + HELD + "offer ! tty 3", "check 0 1", "! tty 3\nchecked 1 1 2", NOROOM),
    case("worn of a floor", begins(1) + SUB + "offer ! tty 3", "check 0 1", "refused worn"),
]

MERGE = [
    case("toomany", begins(1) + HELD, merge(*[FOREIGN] * (MOST_ITEMS + 1)), "refused toomany"),
    case("notowner", begins(1) + HELD, merge(SAME, OLDER, FOREIGN), "stopped 2 notowner"),
    case("clash", begins(1) + HELD, merge(SAME, CLASHING), "stopped 1 clash 3.1"),
    case("full", begins(MOST_KEYS) + full(), merge("tty0 u32 tty 1.0 = 0", NEW), "stopped 1 full"),
    case("worn", begins(1) + HELD, merge(OLDER, NEW), "stopped 1 worn"),
    case("known and stale", begins(1) + HELD, merge(SAME, OLDER), "merged 2 0 1"),
    case("of a number of a held key", "offer mtu u32 eth0 3.0 = 7\n" + SUB, merge("mtu u32 eth0 3.1 = 8"), "merged 1 1 0" + OWED),
    case("of a new key after a known one", HELD, merge(SAME, NEW), "merged 2 1 0", "stopped 1 noroom"),
    case("of a new key before another owner's", HELD, merge(NEW, FOREIGN), "stopped 1 notowner", "stopped 0 noroom"),
    case("of another owner's before a new key", HELD, merge(FOREIGN, NEW), "stopped 0 notowner"),
    case("full of floors", begins(MOST_FLOORS) + floors(MOST_FLOORS), merge("! o0 1", "! o0 0", "! eth0 3"), "stopped 2 full"),
    case("worn of floors", begins(2) + HELD + "offer ! eth0 2", merge("! eth0 2", "! eth0 3"), "stopped 1 worn"),
    case("known and stale by floors", begins(1) + "offer ! eth0 3", merge("! eth0 3", "! eth0 2", NEW), "merged 3 0 2"),
    case("of a floor and what it makes void", "offer ! eth0 2\n" + HELD + SUB, merge("! eth0 3", NEW, SAME), "merged 3 1 2" + OWED),
    case("of a floor of another owner", "offer ! tty 2\n" + HELD, merge("! tty 3", "! eth0 2"), "merged 2 2 0", "stopped 1 noroom", "merged 2 2 0"),
]

ANOTHER = "offer " + NEW + "\n"
TTY_ENDS = "offer ! tty 3\n"

SINCE = [
    case("toomany of none", begins(0), f'since "{LONG}" 15 2 0 0', "refused toomany"),
    case("toomany", begins(0), f'since "{LONG}" 15 2 0 257', "refused toomany"),
    case("toolong", begins(0), f'since "{LONG}" 15 2 0 1', "refused toolong"),
    case("badpattern by a byte", begins(0), 'since "\x01" 15 2 0 1', "refused badpattern"),
    case("badpattern", begins(0), 'since "(" 15 2 0 1', "refused badpattern", "refused badpattern", NOROOM),
    case("oldcursor", begins(1) + HELD, f"since * 2 {LAST + 1} 1", "refused oldcursor"),
    case("oldcursor, with a pattern", begins(1) + HELD, f'since "id" 15 2 {LAST + 1} 1', "refused oldcursor", NOROOM),
    case("ahead", begins(1) + HELD, f"since * 1 {LAST + 1} 1", "refused ahead"),
    case("behind", begins(2, ring=1) + HELD + TTY_ENDS, f"since * 1 {LAST - 2} 1", "refused behind"),
    case("behind, with a pattern", begins(2, ring=1) + HELD + TTY_ENDS, f'since "id" 15 1 {LAST - 2} 1', "refused behind", NOROOM),
    case("behind the first position", begins(1) + HELD, f"since * 1 {LAST - 2} 1", "refused behind"),
    case("of nothing", begins(1) + HELD, f"since * 1 {LAST} 1", f"since 0 1 {LAST}"),
    case("of a text", HELD, "since * 1 0 1", SAME + "\nsince 1 1 1", NOROOM),
    case("of the last in the ring", store(ring=1) + HELD + TTY_ENDS, "since * 1 1 8", "! tty 3\nsince 1 1 2", NOROOM),
    case("of a floor alone", HELD + TTY_ENDS, 'since "tty" 1 1 0 8', "! tty 3\nsince 1 1 2", NOROOM),
]

SNAPSHOT = [
    case("toolong", begins(0), f'snapshot "{LONG}" 15', "refused toolong"),
    case("badpattern by a byte", begins(0), 'snapshot "\x01" 15', "refused badpattern"),
    case("badpattern", begins(0), 'snapshot "(" 15', "refused badpattern", "refused badpattern", NOROOM),
    case("of nothing", begins(0), "snapshot *", f"snapshot 0 1 {LAST}"),
    case("of nothing, with a pattern", HELD, 'snapshot "mac" 15', "snapshot 0 1 1", NOROOM),
    case("of a text and a floor", HELD + TTY_ENDS, "snapshot *", "! tty 3\n" + SAME + "\nsnapshot 2 1 2", NOROOM),
    case("of a tombstone", HELD + "offer id str eth0 3.2 -", "snapshot *", "id str eth0 3.2 -\nsnapshot 1 1 2", NOROOM),
]

PAGE = [
    case("toomany of none", begins(0), f'page "{LONG}" 15 - 0', "refused toomany"),
    case("toomany", begins(0), f'page "{LONG}" 15 - 257', "refused toomany"),
    case("toolong", begins(0), f'page "{LONG}" 15 - 1', "refused toolong"),
    case("badpattern by a byte", begins(0), 'page "\x01" 15 - 1', "refused badpattern"),
    case("badpattern", begins(0), 'page "(" 15 - 1', "refused badpattern", "refused badpattern", NOROOM),
    case("of nothing", begins(1) + HELD, "page * id str 1", f"page 0 last 1 {LAST}"),
    case("of a floor and one change of two", HELD + ANOTHER + TTY_ENDS, "page * - 1", "! tty 3\n" + SAME + "\npage 2 more 1 3", NOROOM),
    case("of the other one", HELD + ANOTHER + TTY_ENDS, "page * id str 1", NEW + "\npage 1 last 1 3", NOROOM),
    case("of one, with a pattern", HELD + ANOTHER + TTY_ENDS, 'page "i." 4 a u32 1', SAME + "\npage 1 last 1 3", NOROOM),
]

OFFER = [
    case("notowner", begins(1) + HELD, "offer " + FOREIGN, "refused notowner"),
    case("clash", begins(1) + HELD, "offer " + CLASHING, "refused clash 3.1"),
    case("full", begins(MOST_KEYS) + full(), "offer " + NEW, "refused full"),
    case("worn", begins(1) + HELD, "offer " + NEW, "refused worn"),
    case("of a new key", HELD, "offer " + NEW, "taken", NOROOM),
    case("notowner of a void change", begins(2) + HELD + "offer ! tty 3", "offer " + FOREIGN, "refused notowner"),
    case("full of a floor", begins(MOST_FLOORS) + floors(MOST_FLOORS), "offer ! eth0 3", "refused full"),
    case("worn of a floor", begins(1) + HELD, "offer ! eth0 3", "refused worn"),
    case("known of a floor", begins(MOST_FLOORS) + floors(MOST_FLOORS), "offer ! o63 1", "known"),
    case("stale of a floor", begins(MOST_FLOORS) + floors(MOST_FLOORS), "offer ! o63 0", "stale"),
    case("stale by a floor", begins(1) + "offer ! eth0 3", "offer " + NEW, "stale"),
    case("of a floor", HELD + SUB, "offer ! eth0 3", "taken" + OWED, NOROOM),
    case("of a higher floor", HELD + SUB + "offer ! eth0 2", "offer ! eth0 3", "taken" + OWED),
]

NUMBER = "mtu u32 eth0 2.1 = 1500"
TEXT = 'id str eth0 2.1 = "up"'
LABEL = "eth0 label rs 2.0 = 2/17"
OF_TTY = "irq u32 tty 3.0 = 9"


def offers(*items):
    return "".join(f"offer {it}\n" for it in items)


ALL_KINDS = offers(LABEL, NUMBER, TEXT, "mac mem eth0 2.1 = 00ff", "link u32 eth0 2.3 -")

VOID = [
    case("of a number", offers("! eth0 3"), "offer mtu u32 eth0 3.1 = 7", "stale"),
    case("of a text", offers("! eth0 3"), "offer " + TEXT, "stale"),
    case("of a tombstone", offers("! eth0 3"), "offer mtu u32 eth0 3.1 -", "stale"),
    case("of a held key", offers("mtu u32 eth0 4.0 = 9", "! eth0 3"), "offer mtu u32 eth0 3.1 = 7", "stale"),
    case("of another owner's key", offers(OF_TTY, "! eth0 3"), "offer irq u32 eth0 3.1 = 7", "refused notowner"),
    case("where all keys are used", full() + "\n" + offers("! eth0 3"), "offer mtu u32 eth0 3.1 = 7", "stale"),
    case("except of a label, which is never void", offers("! rs 9"), "offer " + LABEL, "taken", NOROOM),
    case("above the floor", offers("! eth0 3"), "offer mtu u32 eth0 4.0 = 7", "taken", NOROOM),
]

HELD_KEY = [
    case("known", ALL_KINDS, "offer " + TEXT, "known"),
    case("stale", ALL_KINDS, 'offer id str eth0 2.0 = "down"', "stale"),
    case("notowner", ALL_KINDS, 'offer id str tty 2.2 = "down"', "refused notowner"),
    case("clash", ALL_KINDS, 'offer id str eth0 2.1 = "down"', "refused clash 2.1"),
    case("of a label", ALL_KINDS, "offer eth0 label rs 3.0 = 3/17", "taken"),
    case("of a number", ALL_KINDS, "offer mtu u32 eth0 2.2 = 7", "taken"),
    case("of a text", ALL_KINDS, 'offer id str eth0 2.2 = "down"', "taken", NOROOM),
    case("of a tombstone", ALL_KINDS, "offer id str eth0 2.2 -", "taken"),
    case("where all keys are used", full(), "offer tty0 u32 tty 3.0 = 9", "taken"),
    case("of the last key", full(MOST_KEYS - 1), "offer mtu u32 eth0 2.2 = 7", "taken", NOROOM, "taken"),
]

FLOORS = [
    case("of a second owner", offers("! tty 2"), "offer ! eth0 2", "taken", NOROOM, "taken"),
    case("of an owner with a floor", offers("! eth0 1"), "offer ! eth0 2", "taken"),
    case("that drops four of five", ALL_KINDS + offers("! eth0 1"), "offer ! eth0 2\nsnapshot *", f"taken\n! eth0 2\n{LABEL}\nsnapshot 2 1 7"),
    case("that drops all keys but a label", full() + "\n" + offers("! tty 0"), "offer ! tty 1", "taken"),
    case("of the last of all owners", floors(MOST_FLOORS), f"offer ! o{MOST_FLOORS - 1} 2", "taken"),
    case("equal", ALL_KINDS + offers("! eth0 2"), "offer ! eth0 2", "known"),
    case("lower", ALL_KINDS + offers("! eth0 2"), "offer ! eth0 1", "stale"),
]

SEVERAL = [
    case("of nothing", ALL_KINDS, merge(), "merged 0 0 0"),
    case("of known and stale items", ALL_KINDS + offers("! tty 3"), merge("! tty 2", NUMBER, 'id str eth0 2.0 = "old"'), "merged 3 0 2"),
    case("of void changes", offers("! eth0 3"), merge(NUMBER, TEXT), "merged 2 0 2"),
    case("of a higher floor", ALL_KINDS + offers("! eth0 1"), merge("! eth0 2", LABEL), "merged 2 1 0"),
    case("of numbers of held keys", ALL_KINDS, merge("mtu u32 eth0 2.2 = 7", "link u32 eth0 2.4 = 1"), "merged 2 2 0"),
    case("of a new owner's floor", ALL_KINDS, merge("! tty 3", NUMBER), "merged 2 1 0", "stopped 0 noroom"),
    case("clash after a known one", ALL_KINDS, merge(TEXT, "mtu u32 eth0 2.1 = 7"), "stopped 1 clash 2.1"),
]

COMMANDS = {
    "publish": PUBLISH,
    "delete": DELETE,
    "sweep": SWEEP,
    "retrieve": RETRIEVE,
    "nameof": NAME_OF,
    "subscribe": SUBSCRIBE,
    "check": CHECK,
    "since": SINCE,
    "snapshot": SNAPSHOT,
    "page": PAGE,
    "merge": MERGE,
    "offer": OFFER,
    "a void change": VOID,
    "a change of a held key": HELD_KEY,
    "a floor": FLOORS,
    "a merge of several": SEVERAL,
}


def opened(lines):
    """Returns the lines, with one that opens a store before them if they have none."""
    return lines if lines and lines[0].startswith("store ") else store().splitlines() + lines


ALL = [replace(it, name=f"store: {command}: {it.name}", before=opened(it.before)) for command, cases in COMMANDS.items() for it in cases]

