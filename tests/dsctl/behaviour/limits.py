"""Little memory is enough for endless input, full stores, as many of a thing as there may be, and hostile patterns."""
import tempfile

import harness
import model

from .running import MEMORY, begin, end, expect
from .samples import PUT


def a_gigabyte_without_a_newline(program):
    """A line of a gigabyte is a bad line at once, in little memory, with nearly all of it unread."""
    with tempfile.TemporaryFile(buffering=0) as script:
        script.write(PUT + b"\n")
        script.truncate(1 << 30)
        script.seek(0)
        expect(end(begin(program, limit=MEMORY, stdin=script)), b"taken\nbadline 2 4096\n", 1)
        assert script.tell() < 16 << 20, f"{script.tell()} bytes were read"


def a_line_without_end(program):
    """A line that never ends is a bad line all the same."""
    with open("/dev/zero", "rb") as endless:
        expect(end(begin(program, limit=MEMORY, stdin=endless)), b"badline 1 4096\n", 1)


def a_million_lines(program):
    """A million offers need little memory: a thousand names, each with a thousand generations."""
    with tempfile.TemporaryFile() as script:
        for generation in range(1, 1001):
            lines = (b"offer driver-%d label rs %d.0 = %d/%d\n" % (at, generation, generation, at) for at in range(1000))
            script.write(b"".join(lines))
        script.seek(0)
        expect(end(begin(program, limit=MEMORY, stdin=script)), b"taken\n" * 1000000, 0)


def as_many_checks_as_there_may_be(program):
    """65,536 checks that show something need little memory, though each is kept as a message."""
    turns = range(1, 65537)
    with tempfile.TemporaryFile() as script:
        script.write(b'subscribe 0 "k" 2 later new\n' + b"".join(b"offer k u32 o 1.%d = 0\ncheck 0 1\n" % at for at in turns))
        script.seek(0)
        shown = (b"taken\nowed 00000000000000000000000000000001\nk u32 o 1.%d = 0\nchecked 1 %d %d\n" % (at, at, at + 1) for at in turns)
        expect(end(begin(program, limit=MEMORY, stdin=script)), b"subscribed 1\n" + b"".join(shown), 0)


def fifty_thousand_floors(program):
    """50,000 floors, each raised above a new entry and shown, need little memory: the entries that they drop are freed."""
    turns = range(1, 50001)
    with tempfile.TemporaryFile() as script:
        script.write(b'subscribe 0 "" 2 later new\n')
        script.write(b"".join(b"offer k%d str o %d.0 = \"%d\"\noffer ! o %d\ncheck 0 2\n" % (at, at, at, at) for at in turns))
        script.write(b"all\n")
        script.seek(0)
        each_turn = (b"taken\ntaken\nowed 00000000000000000000000000000001\n! o %d\nchecked 1 %d %d\n" % (at, at, at + 1) for at in turns)
        wanted = b"subscribed 1\n" + b"".join(each_turn) + b"! o 50000\nshown 1\n"
        expect(end(begin(program, limit=MEMORY, stdin=script)), wanted, 0)


def a_long_show(program):
    """Many lists in a row are written, though together they are far longer than the memory."""
    names = [b"driver-%04d".ljust(64, b"-") % at for at in range(1000)]
    script = b"".join(b"offer %s label rs 1.0 = 1/16\n" % name for name in names) + b"show\n" * 400
    with tempfile.TemporaryFile() as given:
        given.write(script)
        given.seek(0)
        started = begin(program, limit=MEMORY // 2, stdin=given)
        expect(end(started), *model.replay(script))


def a_pattern_that_is_too_large(program):
    """A pattern beyond the size limit of `regex` is refused, though no growth is, and a pattern after it is accepted."""
    large = b'"(?:\\\\w{1000}){1000}" 15'
    script = b"map %s\nsubscribe 0 %s first new\nmap \"a\" 15\n" % (large, large)
    expect(end(begin(program, limit=MEMORY), script), b"refused noroom\nrefused noroom\nmap 0\n", 0)


def costly_subscriptions(program):
    """With subscriptions at all places to costly patterns, and as many keys as there may be, other lines are answered as without them."""
    patterns = [b"(?:a?){39}=", b"(?:(?:a?){19}){2}=", b"(?:[ab]{0,25}){0,2}=", rb"\\w{1,60}=", rb"(?:\\w*a){4}=", b"[ab]*a[ab]{20}="]
    names = [b"a" * 52 + format(at, "012b").encode().translate(bytes.maketrans(b"01", b"ab")) for at in range(4095)]
    subscribes = [b'subscribe %d "%s" 15 first new\n' % (at, patterns[at % len(patterns)]) for at in range(128)]
    others = [b"publish 0/2 new driver label 3.0 = 3/16\n"]
    others += [b"publish 3/16 new %s u32 3.1 = %d\n" % (name, at) for at, name in enumerate(names)]
    others += [b"sweep 0/2 driver 3\n", b"check 127 256\n", b"all\n"]
    answers_alone, status = model.replay(b"".join(others))
    lines = answers_alone.split(b"\n")
    assert lines[4096:4098] == [b"swept 4095", b"refused notfound"] and status == 0
    lines[4097:4098] = [b"owed " + b"f" * 32, b"! driver 3", b"checked 1 128 129"]  # a floor is under every query
    subscribed = [b"subscribed %d" % stamp for stamp in range(1, 129)]
    expect(end(begin(program, limit=MEMORY), b"".join(subscribes + others)), b"\n".join(subscribed + lines), 0)


def the_costliest_patterns(program):
    """With subscriptions at all places to the costliest patterns that were found, new keys are accepted; only the last subscription matches one."""
    looks = rb"\\B" * 25
    patterns = [rb"(?:-*%s){33}=" % looks, rb"a(?:%sa*){33}=" % looks, b"(?:(?:a{10}|a)?){74}=", b"(?:a?){460}="]
    subscribes = [b'subscribe %d "%s" 15 later new\n' % (at, patterns[at % len(patterns)]) for at in range(127)]
    subscribes += [b'subscribe 127 "(?:a?){460}" 15 later new\n']
    names = [b"-" * 64, b"a" * 63 + b"b", b"ab" * 32, b"a" * 64]
    offers = [b"offer %s u32 o 1.%d = 1\n" % (name, at) for at, name in enumerate(names)]
    wanted = [b"subscribed %d\n" % stamp for stamp in range(1, 129)] + [b"taken\n"] * 4 + [b"owed 8" + b"0" * 31 + b"\n"]
    expect(end(begin(program, limit=MEMORY), b"".join(subscribes + offers)), b"".join(wanted), 0)


def a_full_store_under_all_subscriptions(program):
    """As many keys as there may be are owed to as many subscriptions as there may be, and shown to the last of these."""
    names = [b"k%04d" % at for at in range(4096)]
    subscribes = [b'subscribe %d "k.*" 2 later new\n' % at for at in range(128)]
    offers = [b"offer %s u32 o 1.0 = 1\n" % name for name in names]
    rest = [b"offer z u32 o 1.0 = 1\n", *[b"check 127 256\n"] * 17, b"offer k0000 u32 o 1.1 -\n", b"check 0 1\n", b"check 128 1\n"]
    wanted = [b"subscribed %d\n" % stamp for stamp in range(1, 129)] + [b"taken\nowed " + b"f" * 32 + b"\n"] * 4096 + [b"refused full\n"]
    for turn in range(16):
        wanted += [b"%s u32 o 1.0 = 1\n" % name for name in names[256 * turn : 256 * turn + 256]]
        wanted += [b"checked 256 %d %d\n" % (128 + turn, 129 + turn)]
    wanted += [b"checked 0 144 144\n", b"taken\nowed " + b"f" * 32 + b"\n", b"k0000 u32 o 1.1 -\nchecked 1 1 145\n", b"refused badsub\n"]
    expect(end(begin(program, limit=MEMORY), b"".join(subscribes + offers + rest)), b"".join(wanted), 0)


def a_reader_behind_the_longest_ring(program):
    """A label is published 5,000 times over a ring of 4,096: readers before what is left are refused, and what is left is read piece by piece."""
    changes = {at: b"eth0 label rs %d.0 = %d/17\n" % (at, at) for at in range(1, 5001)}  # the change at each position, from 1 on
    steps = [(b"ring 4096\n", b"ring 4096\n")]
    steps += [(b"publish 0/2 over eth0 label %d.0 = %d/17\n" % (at, at), b"taken\n") for at in range(1, 4097)]
    steps += pieces(changes, 0, 4096)
    steps += [(b"publish 0/2 over eth0 label %d.0 = %d/17\n" % (at, at), b"taken\n") for at in range(4097, 5001)]
    steps += [(b"since * 1 %d 256\n" % at, b"refused behind\n") for at in (0, 903)]
    steps += pieces(changes, 904, 5000)
    steps += [(b"since * 1 5000 256\n", b"since 0 1 5000\n"), (b"since * 1 5001 256\n", b"refused ahead\n")]
    expect(end(begin(program, limit=MEMORY), b"".join(given for given, _ in steps)), b"".join(answer for _, answer in steps), 0)


def pieces(changes, first, last):
    """Yields the lines by which a reader asks for what follows the position, 256 at a time, and their answers."""
    for at in range(first, last, 256):
        end = min(at + 256, last)
        items = b"".join(changes[place] for place in range(at + 1, end + 1))
        yield b"since * 1 %d 256\n" % at, items + b"since %d 1 %d\n" % (end - at, end)


def as_many_messages_as_there_may_be(program):
    """After 65,536 messages a command that would make another is refused, on both sides and before any other cause; others are answered."""
    last = 65535
    readings = [b"since * 1 0 1", b'since "(" 15 9 9 0', b"snapshot *", b'snapshot "(" 15', b"page * - 1", b'page "(" 15 - 0']
    readings += [b"check 0 1", b"check 128 0"]
    steps = [
        (b'snapshot "b" 2', b"snapshot 0 1 1"),
        (b"deliver %d b *" % last, b"merged 0 0 0"),
        (b"deliver %d b *" % (last + 1), b"refused nomessage"),
        *[(line, b"refused messagesfull") for line in readings],
        (b'subscribe 0 ".*" 15 first new', b"subscribed 1\nowed 00000000000000000000000000000001"),
        (b"check 0 1", b"refused messagesfull"),
        (b"show", b"a u32 o 1.0 = 1\nshown 1"),
        (b"side b", b"side b"),
        (b"since * 2 0 1", b"refused messagesfull"),
        (b"deliver 0 b *", b"merged 1 1 0"),
        (b'map ".*" 15', b"map 0"),
        (b"deliver %d m0 *" % (last - 1), b"merged 1 1 0"),
        (b"deliver %d m0 1" % last, b"refused toomany"),
        (b"entries 0", b"a u32 o 1.0 = 1\nshown 1"),
        (b"restart a 3", b"restarted"),
        (b"clear 0", b"cleared"),
        (b"snapshot *", b"refused messagesfull"),
    ]
    script = b"offer a u32 o 1.0 = 1\n" + b"since * 1 0 1\n" * last + b"".join(line + b"\n" for line, _ in steps)
    wanted = b"taken\n" + b"a u32 o 1.0 = 1\nsince 1 1 1\n" * last + b"".join(answer + b"\n" for _, answer in steps)
    expect(end(begin(program, limit=4 * MEMORY), script), wanted, 0)


def a_million_items_in_messages(program):
    """A thousand snapshots of a thousand numbers are kept as messages in little memory; early and late ones are delivered."""
    items = b"".join(b"k%03d u32 o 1.0 = %d\n" % (at, at) for at in range(1000))
    steps = [
        (b"deliver 0 b *", b"merged 1000 1000 0"),
        (b'map "k.*" 2', b"map 0"),
        (b"deliver 500 m0 300", b"merged 300 300 0"),
        (b"deliver 998 m0 *", b"merged 1000 700 0"),
        (b"deliver 999 m0 *", b"merged 1000 0 0"),
        (b"deliver 3 a 1001", b"refused toomany"),
        (b"deliver 3 a 257", b"merged 257 0 0"),
    ]
    offers = b"".join(b"offer " + item + b"\n" for item in items.splitlines())
    with tempfile.TemporaryFile() as script:
        script.write(offers + b"snapshot *\n" * 1000 + b"".join(line + b"\n" for line, _ in steps))
        script.seek(0)
        wanted = b"taken\n" * 1000 + (items + b"snapshot 1000 1 1000\n") * 1000 + b"".join(answer + b"\n" for _, answer in steps)
        expect(end(begin(program, limit=MEMORY, stdin=script)), wanted, 0)


def holders_that_begin_again(program):
    """A map that is cleared and a store that is restarted, each a thousand times after 256 items, need little memory."""
    items = b"".join(b"k%03d mem o 1.0 = %s\n" % (at, b"7f" * 256) for at in range(256))
    script = b'map ".*" 15\n' + b"".join(b"offer " + it + b"\n" for it in items.splitlines()) + b"snapshot *\n"
    wanted = b"map 0\n" + b"taken\n" * 256 + items + b"snapshot 256 1 256\n"
    with tempfile.TemporaryFile() as given:
        given.write(script)
        given.write(b"".join(b"deliver 0 m0 *\nclear 0\ndeliver 0 b *\nrestart b %d\n" % at for at in range(3, 1003)))
        given.seek(0)
        turns = b"merged 256 256 0\ncleared\nmerged 256 256 0\nrestarted\n" * 1000
        expect(end(begin(program, limit=MEMORY, stdin=given)), wanted + turns, 0)


def hostile_patterns(program):
    """The patterns of bench/hostile_patterns are accepted or refused by `noroom`, and the store continues."""
    patterns = (harness.TESTS.parent / "bench" / "hostile_patterns").read_bytes().splitlines()
    quoted = [pattern.replace(b"\\", b"\\\\").replace(b'"', b'\\"') for pattern in patterns]
    subscribes = b"".join(b'subscribe %d "%s" 15 later new\n' % (at, pattern) for at, pattern in enumerate(quoted))
    ran = end(begin(program, limit=MEMORY), subscribes + b"offer %s u32 o 1.0 = 1\n" % (b"a" * 64))
    answers = ran.output.split(b"\n")
    taken = [line for line in answers[: len(patterns)] if line != b"refused noroom"]
    assert taken == [b"subscribed %d" % stamp for stamp in range(1, len(taken) + 1)], answers
    assert answers[len(patterns)] == b"taken" and 20 < len(taken) < len(patterns), answers


def a_driver_that_dies_twenty_thousand_times(program):
    """A driver that publishes, dies and is started again, twenty thousand times, needs little memory."""
    script = [b'settings service = [{label = "disk", class = "block", unit = 3}]\n']
    wanted = [b"services 1 slots 64\n"]
    for at in range(1, 20001):
        script.append(b"service restart disk %d\n" % at if at > 1 else b"service up disk 1\n")
        wanted.append(b"start disk %d/16\noffer disk label rs %d.0 = %d/16\ntaken\nactions 2\n" % (at, at, at))
        script.append(b"publish %d/16 new disk.size u32 %d.0 = 9\ndeath %d/16 1 %d\n" % (at, at, at, at))
        wanted.append(b"taken\noffer disk label rs %d.1 -\ntaken\nsweep disk %d\nswept 1\nactions 2\n" % (at, at))
    expect(end(begin(program, limit=MEMORY), b"".join(script)), b"".join(wanted), 0)


def ten_thousand_requests(program):
    """Ten thousand requests are held, sent at once, sent again, and answered from the last to the first."""
    ids = range(1, 10001)
    script = [b'assign file 3 block disk\nmap "disk" 1\n', *(b"submit file %d 3 0\n" % it for it in ids)]
    wanted = [b"assigned\nmap 0\n", *(b"held %d\nmoves 1\n" % it for it in ids)]
    for generation in (1, 2):
        script.append(b"publish 0/2 over disk label %d.0 = %d/16\nsnapshot *\ndeliver %d m0 *\nfollow 0\n" % (generation, generation, generation - 1))
        wanted.append(b"taken\ndisk label rs %d.0 = %d/16\nsnapshot 1 1 %d\nmerged 1 1 0\n" % (generation, generation, generation))
        wanted += [*(b"send %d %d/16\n" % (it, generation) for it in ids), b"moves 10000\n"]
    script += [b"reply file 2/16 %d\n" % it for it in reversed(ids)]
    wanted += [b"answer %d done\n" % it for it in reversed(ids)]
    expect(end(begin(program, limit=2 * MEMORY), b"".join(script)), b"".join(wanted), 0)
