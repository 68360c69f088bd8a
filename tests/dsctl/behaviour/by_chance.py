"""Draws names, changes, values and lines of a script, from a given source of chance."""


def name_by_chance(chance):
    """Returns one of a few names."""
    return chance.choice([b"a", b"A", b"a-", b"a.b", b"_", b"eth0", b"eth", b"9", b"x" * 64])


def change_by_chance(chance):
    """Returns a change without its name: of a label, or of another kind with one of two owners."""
    if chance.random() < 0.5:
        return b"label rs " + body_by_chance(chance)
    kind, value = value_by_chance(chance)
    body = b"-" if chance.random() < 0.3 else b"= " + value
    owner = chance.choice([b"eth0", b"eth0", b"eth0", b"tty"])
    return b"%s %s %d.%d %s" % (kind, owner, chance.randrange(3), chance.randrange(3), body)


def floor_by_chance(chance):
    """Returns a floor of one of the owners, above which there are generations."""
    return b"%s %d" % (chance.choice([b"eth0", b"tty", b"rs"]), chance.choice([0, 0, 1]))


def body_by_chance(chance):
    """Returns the version and the body of a label change."""
    generation = chance.randrange(1, 9)
    if chance.random() < 0.3:
        return b"%d.1 -" % generation
    return b"%d.0 = %d/%d" % (generation, generation, chance.randrange(16, 19))


def value_by_chance(chance):
    """Returns the word of a kind other than label, and one of two values."""
    return chance.choice([(b"u32", b"0"), (b"u32", b"1500"), (b"str", b'""'), (b"str", b'"a\\"b"'), (b"mem", b""), (b"mem", b"00ff")])


def item_by_chance(chance):
    """Returns a floor or a change of one of three drivers, as `command_by_chance` offers it."""
    driver, generation = chance.choice([b"eth0", b"tty", b"disk"]), chance.randrange(1, 4)
    if chance.random() < 0.3:
        return b"! %s %d" % (driver, generation - (chance.random() < 0.9))
    kind, value = value_by_chance(chance)
    return b"%s %s %s %d.%d = %s" % (chance.choice([b"mtu", b"mac", b"id"]), kind, driver, generation, chance.randrange(6), value)


def command_by_chance(chance):
    """Returns a line of a script over three drivers, of few generations and slots each."""
    driver = chance.choice([b"eth0", b"tty", b"disk"])
    generation, slot, seq = chance.randrange(1, 4), chance.choice([16, 16, 16, 17]), chance.randrange(6)
    caller = b"%d/%d" % chance.choice([(0, 2), (generation, slot), (generation, slot), (generation, slot)])
    epoch = chance.choice([int(caller.split(b"/")[0])] * 9 + [generation])
    entry = chance.choice([b"mtu", b"mac", b"id"])
    kind, value = value_by_chance(chance)
    mode = chance.choice([b"new", b"over", b"over"])
    label = b"label %d.%d = %d/%d" % (generation, chance.random() < 0.1, generation + (chance.random() < 0.1), slot)
    query = b'"%s" %d' % (chance.choice([b".*", b"m.*", b"eth0|id", b"[a-z]+\\\\d", b""]), chance.randrange(1, 16))
    sub = chance.randrange(8) + 120 * chance.randrange(2)
    swept = generation - (chance.random() < 0.9)
    return chance.choice(
        [
            b"subscribe %d %s %s %s" % (sub, query, chance.choice([b"first", b"later"]), mode),
            *[b"check %d %d" % (sub, chance.choice([1, 1, 1, 2, 256, 257]))] * 2,
            *[chance.choice([b"map " + query, b"entries 0", b"check 128 0"])] * (chance.random() < 0.2),
            *[b"publish 0/2 %s %s %s" % (mode, driver, label)] * 2,
            b"publish %s %s %s %s" % (caller, mode, driver, label),
            b"delete 0/2 %s label %d.1" % (driver, generation),
            b"sweep %s %s %d" % (chance.choice([b"0/2", b"0/2", caller]), driver, swept),
            *[b"offer ! %s %d" % (driver, swept)] * (chance.random() < 0.5),
            b"nameof " + caller,
            b"retrieve %s %s" % chance.choice([(entry, kind), (driver, b"label")]),
            b"offer %s %s %s %d.%d = %s" % (entry, kind, driver, generation, seq, value),
            *[b"publish %s %s %s %s %d.%d = %s" % (caller, mode, entry, kind, epoch, seq, value)] * 5,
            *[b"delete %s %s %s %d.%d" % (caller, entry, kind, epoch, seq)] * 3,
            *[b"all"] * (chance.random() < 0.1),
        ]
    )
