"""The workloads of bench/measure: scripts of a number of lines, the same bytes each time. Most show all that is held at the end.

Each yields first what must be there, and then the lines that are measured.
"""
import random

NAMES = 1000
MOST_KEYS = 4096  # what a store holds
PAGE = 256
DRIVERS = [f"driver-{at}" for at in range(16)]
ESCAPED = [{'"': '\\"', "\\": "\\\\"}.get(chr(byte), chr(byte)) for byte in range(0x20, 0x7F)]


def owner(at):
    """Returns the driver that has the key with this number."""
    return DRIVERS[at % len(DRIVERS)]


def generation(at):
    """Returns the generation of that driver."""
    return 3 + at % len(DRIVERS)


def endpoint(at):
    """Returns its endpoint."""
    return f"{generation(at)}/{16 + at % len(DRIVERS)}"


def offer(at, seq, value, kind="u32"):
    """Returns an offer of the entry with this number."""
    return f"offer {owner(at)}.entry-{at} {kind} {owner(at)} {generation(at)}.{seq} = {value}\n"


def publish(mode, at, seq, value, kind="u32"):
    """Returns its publication by its driver."""
    return f"publish {endpoint(at)} {mode} {owner(at)}.entry-{at} {kind} {generation(at)}.{seq} = {value}\n"


def drivers():
    """Yields RS's publications of the drivers' labels."""
    for at, name in enumerate(DRIVERS):
        yield f"publish 0/2 new {name} label {generation(at)}.0 = {endpoint(at)}\n"


def rising(lines, chance, line):
    """Yields `lines` lines, each of a random key, with numbers that rise from 1 for each key."""
    numbers = [0] * NAMES
    for _ in range(lines):
        at = chance.randrange(NAMES)
        numbers[at] += 1
        yield line(at, numbers[at])


def labels(lines, chance):
    """Yields offers of labels with rising generations: all taken."""
    yield from rising(lines, chance, lambda at, number: f"offer service-{at} label rs {number}.0 = {number}/{at}\n")


def offers_hot(lines, chance):
    """Yields offers of numbers with rising versions: all taken."""
    yield from rising(lines, chance, lambda at, number: offer(at, number, chance.getrandbits(32)))


def offers_cold(lines, chance):
    """Yields offers of which nine in ten are known or stale."""
    seqs = [1000] * NAMES
    for at in range(NAMES):
        yield offer(at, 1000, 1000)
    for _ in range(lines):
        at, fresh = chance.randrange(NAMES), chance.random() < 0.1
        seqs[at] += fresh
        seq = seqs[at] if fresh or chance.random() < 0.5 else chance.randrange(1000)
        yield offer(at, seq, seq)


def publishes(lines, chance):
    """Yields overwrites by sixteen live drivers."""
    yield from drivers()
    for at in range(NAMES):
        yield publish("new", at, 0, 0)
    yield from rising(lines, chance, lambda at, number: publish("over", at, number, chance.getrandbits(32)))


def retrieves(lines, chance):
    """Yields questions, of which one in twenty is for a key that isn't there."""
    for at in range(NAMES):
        yield offer(at, 0, at)
    for _ in range(lines):
        at = chance.randrange(NAMES)
        yield f"retrieve {owner(at)}.entry-{at}{'.none' * (chance.random() < 0.05)} u32\n"


def watch(lines, chance):
    """Yields overwrites under 64 subscriptions. Each tenth line is a check of up to 32 changes by the next subscription."""
    yield from drivers()
    patterns = [".*"] * 4 + [f"{name}\\\\..*" for name in DRIVERS] * 2 + [f"driver-{first}.*" for first in range(1, 10)] * 2
    patterns += [f"{owner(at)}\\\\.entry-{at}" for at in range(0, NAMES, 100)]
    for sub, pattern in enumerate(patterns):
        yield f'subscribe {sub} "{pattern}" {2 if sub % 2 else 15} {"first" if sub % 4 else "later"} new\n'
    for at in range(NAMES):
        yield publish("new", at, 0, 0)
    overwrites = rising(lines, chance, lambda at, number: publish("over", at, number, chance.getrandbits(32)))
    for number, line in enumerate(overwrites):
        yield line if number % 10 != 9 else f"check {number // 10 % len(patterns)} 32\n"


def long(lines, chance):
    """Yields offers, publications and questions of strings of up to 256 bytes and memory of up to 1024."""
    yield from drivers()
    seqs = [0] * NAMES

    def value(at):
        if at % 2:
            return chance.randbytes(chance.randrange(1025)).hex()
        return '"' + "".join(chance.choices(ESCAPED, k=chance.randrange(257))) + '"'

    kinds = ("str", "mem")
    for at in range(NAMES):
        yield publish("new", at, 0, value(at), kinds[at % 2])
    for _ in range(lines):
        at, which = chance.randrange(NAMES), chance.random()
        if which < 0.25:
            yield f"retrieve {owner(at)}.entry-{at} {kinds[at % 2]}\n"
            continue
        seqs[at] += 1
        yield (offer(at, seqs[at], value(at), kinds[at % 2]) if which < 0.85 else publish("over", at, seqs[at], value(at), kinds[at % 2]))


def catchup(lines, chance):
    """Yields offers. After each 64th a reader queries the journal for its last 256 items; after each 1,024th one reads pages of 256."""
    for at in range(NAMES):
        yield offer(at, 0, 0)
    names = sorted(f"{owner(at)}.entry-{at}" for at in range(NAMES))
    offers = rising(lines, chance, lambda at, number: offer(at, number, chance.getrandbits(32)))
    for number, line in enumerate(offers, start=1):
        yield line
        if number % 64 == 0:
            yield f"since * 1 {NAMES + number - 256} 256\n"
        if number % 1024 == 0:
            yield "page * - 256\n"
            yield from (f"page * {after} u32 256\n" for after in names[255::256])


def newkeys(lines, chance):
    """Yields offers of new keys, in random order, into an empty store."""
    keys = list(range(MOST_KEYS))
    chance.shuffle(keys)
    for at in keys[:lines]:
        yield offer(at, 1, chance.getrandbits(32))


def churn(lines, chance):
    """Yields drivers that come and go. Each new generation of a driver sweeps the last one, and publishes entries of new names."""
    entries = 14  # of a generation, beside its label and its sweep
    for start in range((lines + entries + 1) // (entries + 2)):
        name, slot, epoch = DRIVERS[start % len(DRIVERS)], 16 + start % len(DRIVERS), 3 + start // len(DRIVERS)
        yield f"publish 0/2 over {name} label {epoch}.0 = {epoch}/{slot}\n"
        yield f"sweep 0/2 {name} {epoch - 1}\n"
        for entry in range(entries):
            new = f"{chance.getrandbits(32):08x}-{start}-{entry}"
            yield f"publish {epoch}/{slot} new {name}.{new} u32 {epoch}.{entry} = {chance.getrandbits(32)}\n"


def resync(lines, chance):
    """Yields a map that is cleared, and filled by pages of all keys that a store holds."""
    names = sorted(f"{owner(at)}.entry-{at}" for at in range(MOST_KEYS))
    for at in range(MOST_KEYS):
        yield offer(at, 0, chance.getrandbits(32))
    yield 'map ".*" 15\n'
    after = ["-"] + [f"{name} u32" for name in names[PAGE - 1 : -1 : PAGE]]
    for message in range((lines + 1) // 2):
        at = message % len(after)
        yield f"page * {after[at]} {PAGE}\n" if at else f"clear 0\npage * - {PAGE}\n"
        yield f"deliver {message} m0 *\n"


ALL = {
    "labels": labels,
    "offers-hot": offers_hot,
    "offers-cold": offers_cold,
    "publish": publishes,
    "retrieve": retrieves,
    "watch": watch,
    "catchup": catchup,
    "long": long,
    "newkeys": newkeys,
    "churn": churn,
    "resync": resync,
}
PART = {"watch": 100, "resync": 100}  # a slow workload has its number of lines divided by this
MOST = {"newkeys": MOST_KEYS}  # the most lines of a workload that ends


# The lines at the end, by default `all`. `show` leaves out floors. For `newkeys`, a line for each new key would count as the key's.
END = {"churn": "show\n", "newkeys": ""}


def script(name, lines):
    """Yields the lines of a workload, and those that show what is held at the end."""
    yield from ALL[name](lines, random.Random(1))
    yield END.get(name, "all\n")
