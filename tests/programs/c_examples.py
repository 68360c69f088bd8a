"""Works out what the programs of examples/ print, in each language, also for more items than one answer or one buffer holds.

The store's answers are those of tests/model/store.py. `driver(1)` and `fileserver(1)` equal the .out files of examples/c.
"""
import pathlib

import stores

EXAMPLES = pathlib.Path(__file__).resolve().parent.parent.parent / "examples"
MANY = 300  # more than one answer to a check or a since has, and more lines than fit into 4096 bytes
TOO_MANY = 1000  # more than the journal of fileserver keeps
MOST = 256  # items of one such answer
UNITS = 256  # of a driver table
WORDS = {"taken": "changed", "since": "journaled", "snapshot": "snapped"}  # by the word of a script, where they differ
COUNTED = ("since", "snapshot")  # words of answers that have lines of items


class Store:
    """The model's store, called with lines."""

    def __init__(self, ring):
        self.session = stores.Session()
        self.session.answer(b"store 1 0 %d" % ring)

    def ask(self, line):
        """Returns the lines of items, the words of the answer, and whether a notice is owed."""
        answers = self.session.answer(line.encode())[1]
        is_owed = answers[-1].startswith("owed ")
        *items, answer = answers[:-1] if is_owed else answers
        return items, answer.split(), is_owed


class Driver:
    """What examples/c/driver.c prints."""

    def __init__(self):
        self.store, self.printed = Store(ring=256), []

    def ask(self, what, line):
        items, (word, *rest), is_owed = self.store.ask(line)
        if word == "named":
            items, rest = rest, []
        said = f"refused {rest[0]}" if word == "refused" else WORDS.get(word, word)
        self.printed += [f"{what}: {said}" + (", and inet is owed a notice" if is_owed else ""), *items]
        return len(items), rest

    def publish(self, generation, mtu, networks):
        for network in range(networks):
            name = f"eth0.mtu{network or ''}"
            self.ask("eth0: my mtu", f"publish {generation}/16 new {name} u32 {generation}.0 = {mtu}")

    def check(self):
        while self.ask("inet: what is new", f"check 40 {MOST}")[0] == MOST:
            pass

    def since(self, position):
        count = MOST
        while count == MOST:
            count, rest = self.ask("inet: what came from position 2 on", f"since * 1 {position} {MOST}")
            position = rest[-1]


def driver(networks):
    by = Driver()
    by.ask("inet: follow eth0.*", 'subscribe 40 "eth0.*" 3 first new')
    by.ask("rs: eth0 runs", "publish 0/2 over eth0 label 3.0 = 3/16")
    by.publish(3, 1500, networks)
    by.check()
    by.ask("rs: eth0 died", "sweep 0/2 eth0 3")
    by.ask("rs: eth0 runs", "publish 0/2 over eth0 label 4.0 = 4/16")
    by.publish(3, 9000, networks)
    by.publish(4, 1492, networks)
    by.check()
    by.ask("inet: who is 4/16", "nameof 4/16")
    by.since(2)
    by.ask("inet: all that is held", "snapshot *")
    return "".join(line + "\n" for line in by.printed)


class FileServer:
    """What examples/c/fileserver.c prints. Each item is news to its map, except the late one."""

    def __init__(self, disks):
        self.store, self.printed = Store(ring=512), []
        self.disks = [f"disk{disk or ''}" for disk in range(disks)]

    def start(self, generation):
        for at, disk in enumerate(self.disks):
            self.store.ask(f"publish 0/2 over {disk} label {generation}.0 = {generation}/{16 + at}")
            self.printed.append(f"rs: {disk} runs at {generation}/{16 + at}")

    def take(self, what, line):
        """Asks the store. Prints that all items were taken, unless it refuses. Returns their number and the answer's words."""
        items, (word, *rest), _ = self.store.ask(line)
        if word in COUNTED:
            self.printed.append(f"fs: {what}: {len(items)} items, {len(items)} taken, 0 stale")
        return len(items), word, rest

    def take_all(self):
        return self.take("all that is held", "snapshot *")[2][-1]

    def catch_up(self, position):
        count, word = MOST, "since"
        while count == MOST:
            count, word, rest = self.take("what came since", f"since * 1 {position} {MOST}")
            position = rest[-1]
        if word == "refused":
            self.take_all()

    def tell(self, round_, what):
        """Prints what becomes of a round of requests, one for each unit."""
        units = min(len(self.disks), UNITS)
        self.printed += [f"fs: request {round_ * units + unit + 1} {what(unit)}" for unit in range(units)]

    def wait(self, round_):
        self.tell(round_, lambda unit: "waits for a driver")

    def send(self, round_, generation):
        self.tell(round_, lambda unit: f"goes to {generation}/{16 + unit}")

    def end(self, round_):
        self.tell(round_, lambda unit: "is done")


def fileserver(disks):
    server = FileServer(disks)
    server.wait(0)
    server.start(3)
    position = server.take_all()
    server.send(0, 3)
    server.end(0)
    server.send(1, 3)
    server.store.ask("sweep 0/2 disk 3")
    server.printed.append("rs: disk of generation 3 died")
    server.start(4)
    server.catch_up(position)
    server.send(1, 4)
    server.printed.append("fs: the first message, late: 1 items, 0 taken, 1 stale")
    server.printed.append("fs: a reply from 3/16 is refused: oldendpoint")
    server.end(1)
    return "".join(line + "\n" for line in server.printed)


# The programs that take a number of entries: what each prints, and the numbers that it runs with.
NUMBERED = {"driver": (driver, (MANY,)), "fileserver": (fileserver, (MANY, TOO_MANY))}


def runs(name):
    """Yields the arguments of each run of the program of this name, in any language, and what it prints."""
    yield [], (EXAMPLES / "c" / f"{name}.out").read_text()
    said, numbers = NUMBERED.get(name, (None, ()))
    for number in numbers:
        yield [str(number)], said(number)


def script():
    """Returns a script of one store whose answers are long, and the answers."""
    session = stores.Session()
    lines = [f"publish 0/2 new drv{it} label 1.0 = 1/{it}" for it in range(MANY)] + ["snapshot *", "show"]
    answers = [session.answer(line.encode())[1] for line in lines[:-1]]
    *puts, _ = answers[-1]
    answers.append([*puts, f"shown {len(puts)}"])
    return "".join(line + "\n" for line in lines), "".join(line + "\n" for some in answers for line in some)
