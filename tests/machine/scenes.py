"""Scenes of what the machine must do while its drivers die. A scene gets a function that makes a machine."""
import hashlib
import json
import random
import re
import subprocess
import time

import tables
from harm import Flip, Kill, Stop
from machines import READY, counts_of
from outcomes import failures_of
from supervisors import ROOT, Skipped, equal

PATIENCE = 180  # seconds that an application may take, on a busy machine, too
MISSED = 100  # ticks of a heartbeat period, where a driver is to be missed soon
ROUNDS = 12  # of an application, until a service has failed often enough
SMALL = 1024  # blocks
SCENES = []

# Wrong drivers: a file, a text of it, and what replaces it.
READS_WRONGLY = ("disk.c", "if (!writes && done) move(frame->data, buffer);", "static int reads; if (!writes && done) move(frame->data, buffer), frame->data[9] ^= ++reads % 300 == 299;")
WRITES_WRONGLY = ("disk.c", "if (writes && fits) move(buffer, frame->data);", "static int written; if (writes && fits) move(buffer, frame->data), buffer[9] ^= ++written % 50 == 49;")
ANSWERS_HALF = ("disk.c", "head->length = done && !writes ? BLOCK : 0;", "static int asked; head->length = done && !writes ? ++asked % 400 == 399 ? BLOCK / 2 : BLOCK : 0;")
IS_SILENT = ("driver.c", "        if (!tell(server->fd, &frame)) break;", "        static int told; if (++told % 3000 != 2999 && !tell(server->fd, &frame)) break;")
OPENS_A_FILE = ("disk.c", "static void serve(struct frame *frame) {", "static void serve(struct frame *frame) { static int asked; if (++asked == 100) open(\"/dev/null\", O_RDONLY);")


def scene(function):
    SCENES.append(function)
    return function


def ended(application):
    """Waits until an application ends, and returns its counts of requests."""
    said = application.communicate(timeout=PATIENCE)[0]
    counts = counts_of(said)
    assert counts, f"the application ended without its counts: {said[-500:]}"
    return counts


def all_is_well(counts, refused=0):
    """Checks that every request has one answer, and no block is wrong."""
    assert counts["asked"] == counts["answered"], f"{counts['asked'] - counts['answered']} requests are lost: {counts}"
    for word, wanted in (("wrong", 0), ("twice", 0), ("refused", refused)):
        assert counts[word] == wanted, f"{counts[word]} {word}: {counts}"


def images_are(machine, same=True):
    first, second = ((machine.home / f"disk{i}.image").read_bytes() for i in (0, 1))
    differ = sum(first[at : at + 4096] != second[at : at + 4096] for at in range(0, len(first), 4096))
    assert (differ == 0) == same, f"{differ} blocks of the two images differ"


def nobody_is_blamed(machine):
    complaints = [it[2:] for it in machine.notes_of() if it[1] == "complains"]
    assert not complaints, f"complaints: {complaints}"


def all_recovered(machine, label, least=1):
    """Checks that after every failure of a service, except the last, a later instance answered. Returns the failures."""
    failures = failures_of(machine.supervised.read(), machine.notes_of("inet" if label == "eth0" else "fs"), label)
    open_ones = [it.generation for it in failures[:-1] if it.answered is None]
    assert not open_ones, f"{label} of generation {open_ones} failed, and no later one answered"
    assert len(failures) >= least, f"{len(failures)} failures of {label} instead of at least {least}"
    return failures


def harmed(machine, harm, application):
    """Harms something until an application ends, and returns the application's counts."""
    harm.start()
    try:
        return ended(application)
    finally:
        harm.stop()


def worked(machine, so, *works):
    """Lets clients of the file server work in order, and again until something is so."""
    for _ in range(ROUNDS):
        for words in works:
            all_is_well(ended(machine.files(*words)))
        if so():
            break


def complains(machine, why):
    return any(it[1] == "complains" and it[4] == why for it in machine.notes_of())


def harmed_often(machine, harm, least, *words):
    """Harms something while a client of the file server works, and starts that again until there were enough failures. Returns the harm."""
    harm.start()
    try:
        for _ in range(ROUNDS):
            all_is_well(ended(machine.files(*words)))
            if harm.is_denied or len(failures_of(machine.supervised.read(), machine.notes_of(), harm.label)) > least:
                break
    finally:
        harm.stop()
    return harm


@scene
def undisturbed(make):
    with make() as machine:
        all_is_well(ended(machine.files("write", 2, 32)))
        all_is_well(ended(machine.files("check", 0, 32)))
        images_are(machine)
        nobody_is_blamed(machine)
        equal(machine.count("wrong"), 0)
        machine.end()


@scene
def kills(make):
    """No request is lost while a driver of the mirror is killed each quarter of a second, and the file is written and read."""
    with make() as machine:
        harmed_often(machine, Kill(machine, "disk0", 0.25), 5, "write", 5, 32)
        all_is_well(ended(machine.files("check", 0, 32)))
        images_are(machine)
        all_recovered(machine, "disk0", 5)
        nobody_is_blamed(machine)
        machine.end()


@scene
def kills_of_the_only_disk(make):
    with make(disks=1) as machine:
        harmed_often(machine, Kill(machine, "disk0", 0.25), 4, "write", 4, 32)
        all_is_well(ended(machine.files("read", 0.1, 32)))  # by what follows the last kill
        all_recovered(machine, "disk0", 4)
        machine.end()


@scene
def stops(make):
    """RS notices a driver that is stopped, by its heartbeats or a complaint."""
    with make(disks=1, period=MISSED) as machine:
        harmed_often(machine, Stop(machine, "disk0", 0.8), 3, "read", 4, 32)
        all_is_well(ended(machine.files("read", 0.1, 32)))  # by what follows the last stop
        failures = all_recovered(machine, "disk0", 3)
        assert {it.cause for it in failures} <= {"heartbeat", "complaint"}, [it.cause for it in failures]
        machine.end()


@scene
def both_disks_and_the_probe_die(make):
    with make() as machine:
        others = [Kill(machine, label, interval) for label, interval in (("disk1", 0.35), ("probe", 0.3))]
        for it in others:
            it.start()
        try:
            all_is_well(harmed(machine, Kill(machine, "disk0", 0.25), machine.files("write", 4, 64)))
        finally:
            for it in others:
                it.stop()
        all_is_well(ended(machine.files("check", 0, 32)))
        images_are(machine)
        machine.end()


@scene
def requests_wait_for_a_driver(make):
    """Requests wait while a driver is away, and are answered once it is there."""
    with make() as machine:
        machine.ask("service down disk0")
        client = machine.files("write", 0.1, 32)
        time.sleep(1)
        assert client.poll() is None, "a file was written to a disk without a driver"
        machine.ask("service up disk0")
        all_is_well(ended(client))
        images_are(machine)
        machine.end()


@scene
def requests_of_one_block_keep_their_order(make):
    """A block that is written right after it was requested is read unchanged, and no driver is blamed for that."""
    with make() as machine:
        all_is_well(ended(machine.files("both", 1, 64)))
        nobody_is_blamed(machine)
        images_are(machine)
        machine.end()


def spoil(machine, disk, blocks):
    with open(machine.home / f"disk{disk}.image", "r+b") as image:
        for block in blocks:
            image.seek(4096 * block + 100)
            image.write(b"spoiled")


@scene
def a_damaged_disk_is_healed(make):
    """Damage of either disk is read from the other and written back, and no driver is blamed for it."""
    with make(blocks=SMALL) as machine:
        chosen = random.Random(5).sample(range(SMALL), 300)
        spoil(machine, 0, chosen[:150])
        spoil(machine, 1, chosen[150:])
        images_are(machine, same=False)
        all_is_well(ended(machine.files("read", 1, 32)))
        all_is_well(ended(machine.files("check", 0, 32)))
        images_are(machine)
        equal(machine.count("healed"), 300)
        nobody_is_blamed(machine)
        machine.end()


@scene
def a_block_that_both_disks_lost_is_refused(make):
    with make(blocks=SMALL) as machine:
        for disk in (0, 1):
            spoil(machine, disk, [7])
        all_is_well(ended(machine.files("check", 0, 32)), refused=1)
        nobody_is_blamed(machine)
        all_is_well(ended(machine.files("write", 0.1, 32)))
        images_are(machine)
        machine.end()


@scene
def a_driver_that_reads_wrongly_is_blamed(make):
    with make(READS_WRONGLY) as machine:
        worked(machine, lambda: complains(machine, "it reads a right disk wrongly"), ("read", 2, 32))
        all_recovered(machine, "disk0")
        whys = {why for _, word, _, _, why in machine.notes_of() if word == "complains"}
        assert "it reads a right disk wrongly" in whys, "nobody complained"
        assert whys <= {"it reads a right disk wrongly", "hung up"}, whys  # the second one, if on a busy machine the next instance begins too late
        equal(machine.count("healed"), 0)
        machine.end()


@scene
def what_a_driver_wrote_wrongly_is_healed(make):
    with make(WRITES_WRONGLY) as machine:
        worked(machine, lambda: machine.count("healed"), ("write", 2, 32), ("check", 0, 32))
        images_are(machine)
        assert machine.count("healed") > 0, "nothing was healed"
        machine.end()


@scene
def a_driver_that_breaks_the_protocol_is_blamed(make):
    with make(ANSWERS_HALF) as machine:
        worked(machine, lambda: complains(machine, "data"), ("read", 2, 32))
        all_recovered(machine, "disk0")
        assert complains(machine, "data"), "nobody complained"
        machine.end()


@scene
def a_driver_that_does_not_answer_is_blamed(make):
    with make(IS_SILENT) as machine:
        worked(machine, lambda: complains(machine, "no answer"), ("read", 2, 32))
        assert complains(machine, "no answer"), "nobody complained"
        machine.end()


@scene
def a_driver_that_wants_more_is_ended(make):
    """The kernel ends a driver that makes another system call."""
    with make(OPENS_A_FILE) as machine:
        worked(machine, lambda: failures_of(machine.supervised.read(), machine.notes_of(), "disk0"), ("read", 1, 32))
        equal({it.cause for it in all_recovered(machine, "disk0")}, {"exception"})
        machine.end()


@scene
def flips(make):
    """No request is lost while bits of the running driver are flipped, and the file is written and read."""
    with make(period=MISSED) as machine:
        if harmed_often(machine, Flip(machine, "disk0", 0.004, seed=1), 3, "write", 6, 32).is_denied:
            raise Skipped("another process's memory may not be written")
        all_is_well(ended(machine.files("check", 0, 32)))
        images_are(machine)
        all_recovered(machine, "disk0", 3)
        machine.end()


@scene
def a_download(make):
    """A file that is downloaded while the network driver is killed has the right SHA-256."""
    with make() as machine:
        text = random.Random(3).randbytes(12_000_000)
        (machine.home / "page").write_bytes(text)
        far = subprocess.Popen([machine.home / "far", machine.home / "wire", machine.home / "page"])
        machine.applications.append(far)
        fetch = machine.application("fetch", machine.home / "got", 8)
        all_is_well(harmed(machine, Kill(machine, "eth0", 0.25, "ethernet"), fetch))
        equal(hashlib.sha256((machine.home / "got").read_bytes()).hexdigest(), hashlib.sha256(text).hexdigest())
        all_recovered(machine, "eth0")
        machine.end()


@scene
def a_console(make):
    """While the console's driver is killed, no line is missing, and after a fault at most one is printed twice."""
    with make() as machine:
        client = machine.application("client", "print", 20000)
        counts = harmed(machine, Kill(machine, "console", 0.2, "console"), client)
        equal((counts["asked"], counts["twice"]), (counts["answered"], 0))
        assert counts["refused"] > 0, "the application got no fault"
        printed = [int(it) for it in re.findall(r"^line (\d+)$", (machine.home / "paper").read_text(), re.MULTILINE)]
        equal(sorted(set(printed)), list(range(20000)))
        assert printed == sorted(printed) and len(printed) - 20000 <= counts["refused"], f"{len(printed)} lines, {counts}"
        machine.end()


@scene
def the_readme(make):
    """The commands of examples/machine/README.md run the machine."""
    text = (ROOT / "examples/machine/README.md").read_text().partition("## Run it")[2].partition("\n## ")[0]
    lines = [line.strip() for line in text.splitlines() if line.startswith("    ") and not line.strip().startswith("tools/build")]
    folder = make.room / "readme"
    script = "\n".join(["set -e", *lines, "wait %2", "kill %1", "wait %1"]).replace("/tmp/", f"{folder}/").replace("crates/ds_c/out/libds_c.a", make.library)
    up = f"{folder}/bin/dsask {folder}/machine/socket status 2>/dev/null | grep -c ' up \\| ready '"
    ready = f"until [ $({up}) = {len(READY)} ]; do sleep 0.1; done"
    script = script.replace(" read 4096 10 32", " read 4096 2 32").replace("socket &", f"socket 2>/dev/null &\n{ready}")
    ran = subprocess.run(["bash", "-c", script], cwd=ROOT, capture_output=True, text=True, timeout=5 * PATIENCE)
    counts = counts_of(ran.stdout)
    assert ran.returncode == 0 and counts, ran.stdout[-300:] + ran.stderr[-1000:]
    all_is_well(counts)
    assert "first disk0" in (folder / "machine/fs.log").read_text()


@scene
def the_experiments_figures(_):
    """The tables and the picture of docs/guide/experiment.md are those of bench/machine.jsonl."""
    rows = [json.loads(line) for line in (ROOT / "bench/machine.jsonl").read_text().splitlines()]
    shown = set(tables.tables(rows))
    quoted = re.findall(r"^\| .* \|$", (ROOT / "docs/guide/experiment.md").read_text().partition("\n## Kills")[2], re.MULTILINE)
    strange = [it for it in quoted if it not in shown]
    assert quoted and not strange, f"no run has the row {strange[:1]}"
    equal((ROOT / "docs/guide/experiment.svg").read_text(), "\n".join(tables.picture(rows)) + "\n")
