"""Seeded settings texts, sound and with faults, and what the program must print for each."""
import random
import re

from model import restarts, session

LABELS = ("eth0", "disk", "tty", "at_wini", "e1000-1", "a" * 64)
# Instead of a field's own value: of another type, or out of its range, or just within it.
ODD = (0, 1, -1, 255, 256, 1000, 1001, 1000000, 1000001, 1000000000, 1000000001, 2**62, 2**63, 1.5, True, "", "rs", "eth 0", "a" * 65, [], ["mtu", "mtu"], [1], {})
BYTES = b'0a="[]{}#\n,.-_ \\\xff'
# Parts of TOML 1.1, but not of 1.0, that one byte can make: the program reads 1.1, and Python's reader, which the model uses, 1.0.
OF_TOML_1_1 = re.compile(rb"\{[^{}]*\n[^{}]*\}|\\[ex]")


def text_of(seed):
    """Returns the settings text of a seed."""
    chance = random.Random(seed)
    settings = {"format": 2 if chance.random() < 0.97 else chance.choice(ODD)} if chance.random() < 0.7 else {}
    if chance.random() < 0.5:
        settings["slots"] = chance.choice([1, 8, 64, 1008, 1009])
    of_second = 0.02 if "format" not in settings else 1
    services = [service_by_chance(chance, unit, of_second) for unit in range(chance.randrange(6))]
    for service in services:
        if chance.random() < 0.15:
            service[chance.choice([*restarts.FIELDS, "units"])] = chance.choice(ODD)
        if chance.random() < 0.05:
            service.pop(chance.choice(list(service)), None)
    settings["service"] = services
    if chance.random() < 0.03:
        settings[chance.choice(["slots", "service", "services", "format"])] = chance.choice(ODD)
    text = restarts.written(settings).encode()
    return text if chance.random() < 0.7 else spoilt(chance, text)


def service_by_chance(chance, unit, of_second):
    """Returns a service, nearly always a sound one. Each field of format 2 is as likely as it says."""
    kind = chance.choice(restarts.CLASSES)
    service = {"label": chance.choice(LABELS), "class": kind}
    if kind != "server":
        service["unit"] = unit if chance.random() < 0.9 else 0
    numbers = (("period", (0, 1, 1000000), 1), ("limit", (0, 3, 1000), 1), ("forget", (0, 60, 1000000000), of_second), ("startup", (0, 5, 1000000), of_second))
    for field, values, likely in numbers:
        if chance.random() < 0.6 * likely:
            service[field] = chance.choice(values)
    if chance.random() < 0.4:
        service["publishes"] = [f"{name}.{unit // 2}" for name in chance.sample(["mtu", "mac", "id"], 2)]
    for field in ("complains", "connects"):
        if chance.random() < 0.3 * of_second:
            service[field] = chance.choices(LABELS, k=chance.randrange(3))
    return service


def spoilt(chance, text):
    """Returns the text with one byte of it changed, left out or doubled; or unchanged, if the versions of TOML differ on that."""
    at = chance.randrange(len(text))
    changed = text[:at] + chance.choice([bytes([chance.choice(BYTES)]), b"", text[at : at + 1] * 2]) + text[at + 1 :]
    return text if OF_TOML_1_1.search(changed) else changed


def wanted(text):
    """Returns what the program must print for a settings text, and its status."""
    try:
        slots, services = restarts.judged(session.document(text), True)
    except restarts.Bad as bad:
        return f"bad {bad}\n".encode(), 1
    return b"".join(line_of(it) for it in services) + b"services %d slots %d\n" % (len(services), slots), 0


def line_of(service):
    unit = "-" if service["unit"] is None else service["unit"]
    fields = f"period {service['period']} limit {service['limit']} publishes {len(service['publishes'])}"
    lists = "".join(f" {field} {len(service[field])}" for field in ("complains", "connects") if service[field] is not None)
    ticks = "".join(f" {field} {service[field]}" for field in ("forget", "startup") if service[field])
    return f"service {service['label']} {service['class']} {unit} {fields}{lists}{ticks}\n".encode()
