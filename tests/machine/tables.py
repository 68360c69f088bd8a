"""The results of bench/machine as tables of a page, and as a chart."""
import re

from outcomes import CAUSES, figures
from plotting import chart

GROUPS = (  # the rows of the tables: their words, and the names of the runs
    ("kills and stops", r"undisturbed|kills [\d.]+|many kills|stops"),
    ("kills of a mirror", r"kills, mirror"),
    ("flips, one disk of a mirror", r"flips \d+"),
    ("flips, both disks", r"flips of both \d+"),
    ("flips, without a mirror", r"flips without a mirror \d+"),
    ("flips, `eth0`", r"download, flips \d+"),
    ("a download", r"download"),
    ("a console", r"console"),
)


def row(*cells):
    return f"| {' | '.join('' if it is None else f'{it:,}' if isinstance(it, int) else str(it) for it in cells)} |"


def table(*head):
    return [row(*head), "|" + "---|" * len(head)]


def named(rows, pattern):
    return [it for it in rows if re.fullmatch(pattern, it["name"])]


def total(rows, word):
    return sum(it.get(word, 0) for it in rows)


def summed(rows, field):
    """Returns the sums of a field over several runs, by word. A count may be a list."""
    found = {}
    for it in rows:
        for word, count in it[field].items():
            before = found.get(word)
            found[word] = count if before is None else [sum(two) for two in zip(before, count)] if isinstance(count, list) else before + count
    return found


def share(it):
    """Returns the share of the undisturbed throughput that is left, or None."""
    return it["harmed"] / it["undisturbed"] if it.get("harmed") and it.get("undisturbed") else None


def away(it):
    """Returns the part of the time of harm in which there was no driver."""
    harmed = it["seconds"] / 2 if it["name"].startswith("kills ") else it["seconds"]
    return sum(it["whole"]) / 1000 / harmed


def times(values):
    found = figures(values)
    return f"{found['median']:.0f}, {found['p99']:.0f}" if found else ""


def of_kills(rows):
    yield from table("Harm", "Failures", "Recovered", "Recovery, ms", "RS's pause, ms", "MB/s alone", "MB/s harmed", "Share", "Away")
    names = {"many kills": "SIGKILL every 0.25 s, always", "stops": "SIGSTOP every 1 s, always", "kills, mirror": "both disks of a mirror, 0.25 s"}
    for it in named(rows, r"kills [\d.]+|many kills|stops|kills, mirror"):
        name = names.get(it["name"], f"SIGKILL every {it['name'].split()[-1]} s")
        pairs = it["name"].startswith("kills ")
        alone, harmed = (it["undisturbed"], it["harmed"]) if pairs else (None, it["undisturbed"])
        left = f"{share(it):.2f}" if pairs and share(it) else None
        part = f"{100 * away(it):.1f} %" if len(it["harm"]) == 1 else None
        yield row(name, it["failures"], it["recovered"], times(it["whole"]), times(it["pause"]), alone, harmed, left, part)


def of_requests(rows):
    yield from table("Runs", "Requests", "Lost", "Answered twice", "Wrong blocks", "Refused")
    for name, pattern in GROUPS:
        some = named(rows, pattern)
        refused = 0 if name == "a console" else total(some, "refused")
        if some:
            yield row(name, *(total(some, word) for word in ("asked", "lost", "twice", "wrong")), refused)


def of_flips(rows):
    yield from table("Runs", "Bits", "Failures", "Recovered", *CAUSES, "Healed blocks", "Blocks lost")
    for name, pattern in GROUPS:
        some = named(rows, pattern) if name.startswith("flips") else ()
        if some:
            causes = summed(some, "causes")
            yield row(name, *(total(some, word) for word in ("done", "failures", "recovered")), *(causes.get(it, 0) for it in CAUSES), total(some, "healed"), total(some, "unreadable"))


def of_outcomes(rows):
    some = named(rows, r"flips.*|download, flips.*")
    flips = summed(some, "flips")
    yield from table("What a flip was", "Bits", "Share")
    for word, count in flips.items():
        yield row(word, count, f"{100 * count / max(1, sum(flips.values())):.0f} %")
    yield ""
    yield from table("Complaint", "Times")
    for word, count in sorted(summed(some, "complaints").items(), key=lambda it: -it[1]):
        yield row(word, count)
    yield ""
    yield from table("Function", "Bits", "The last before a failure")
    for word, (count, last) in sorted(summed(some, "functions").items(), key=lambda it: -it[1][0]):
        yield row(f"`{word}`", count, last)


def of_others(rows):
    yield from table("Run", "Kills or bits", "Failures", "Recovered", "Faults", "Recovery, ms", "MB/s", "Right")
    for it in named(rows, r"download.*|console"):
        faults = it.get("faults", it["refused"])
        right = {True: "its SHA-256", False: "WRONG"}.get(it.get("right"), f"{it.get('lines', 0):,} lines, {it.get('twice printed')} printed twice")
        yield row(it["name"], it["done"], it["failures"], it["recovered"], faults, times(it["whole"]), it.get("harmed"), right)


def tables(rows):
    """Yields all tables, as lines of a page."""
    loads = [it["load"] for it in rows]
    yield f"load {min(loads)} to {max(loads)}, by hand {total(rows, 'by hand')}, lost copies {total(rows, 'lost copies')}"
    for part in (of_kills, of_requests, of_flips, of_outcomes, of_others):
        yield ""
        yield from part(rows)


def picture(rows):
    """Returns a chart of the throughput under kills, as a share of the undisturbed one, and of the time in which there was a driver."""
    kills = sorted(named(rows, r"kills [\d.]+"), key=lambda it: -float(it["name"].split()[1]))
    sizes = [f"{it['name'].split()[1]} s" for it in kills]
    shares = [100 * share(it) if share(it) else None for it in kills]
    there = [100 * (1 - away(it)) for it in kills]
    title = "Throughput of reads, by the time between two kills of the driver"
    top = 160 if max([*filter(None, shares), 0]) > 115 else 120
    return chart(title, sizes, [("of the undisturbed throughput", shares), ("of the time there was a driver", there)], top, " %")
