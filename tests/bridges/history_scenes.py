"""The checker of histories finds each fault in spoiled histories. scenes.py lists these."""
import copy
import json
import subprocess
import sys

from fleets import ROOT
from history import History
from waiting import PATIENCE

LEGAL = [
    {"store": "a", "run": 1, "text": "k u32 d 1.1 = 1", "asked": 1, "answered": 2},
    {"store": "a", "run": 1, "text": "k u32 d 1.2 = 2", "asked": 3, "answered": 4},
    {"store": "b", "run": 1, "text": "! e 4", "asked": 3, "answered": 4},
    {"store": "b", "run": 1, "text": "void u32 e 4.1 = 1", "asked": 3, "answered": 3.5},
    {"store": "b", "run": 1, "text": "k u32 d 1.3 = 3", "asked": 5, "answered": None},
    {"store": "a", "run": 1, "client": 1, "asked": 3.1, "answered": 3.9, "shown": ["k u32 d 1.2 = 2"]},  # sent, and not answered yet
    {"store": "a", "run": 1, "client": 1, "asked": 4.5, "answered": 4.6, "shown": ["k u32 d 1.2 = 2"]},
    {"store": "b", "run": 1, "client": 2, "asked": 5, "answered": 6, "shown": ["k u32 d 1.1 = 1"]},  # within the bound
    {"store": "b", "run": 1, "client": 2, "asked": 6, "answered": 7, "shown": ["k u32 d 1.3 = 3"]},
    {"store": "a", "run": 2, "client": 3, "asked": 7, "answered": 8, "shown": ["k u32 d 1.2 = 2"]},
    {"store": "b", "run": 1, "client": 4, "asked": 90, "answered": 91, "final": True, "shown": ["! e 4", "k u32 d 1.2 = 2"]},
]
OLD = ["k u32 d 1.1 = 1"]
SPOILED = {  # by rule: the event that is changed, and how
    "invented": [(5, {"shown": ["k u32 d 1.2 = 7"]}), (5, {"answered": 2.9}), (10, {"shown": ["! e 5", "k u32 d 1.2 = 2"]})],
    "back": [(6, {"shown": OLD}), (9, {"client": 2, "shown": ["k u32 d 1.2 = 2"]})],
    "forgotten": [(6, {"client": 9, "shown": OLD}), (7, {"store": "a"})],
    "late": [(9, {"asked": 34.5, "answered": 35, "shown": OLD}), (10, {"shown": ["! e 4", *OLD]})],
    "lost": [(10, {"shown": ["! e 4"]}), (10, {"shown": ["k u32 d 1.2 = 2"]}), (10, {"shown": ["! e 4", *OLD]})],
}


def histories_that_are_spoiled(fleet, draw):
    """A legal history has no fault. A history that breaks a rule has a fault of that rule."""
    log = f"{fleet.home}/history"
    with open(log, "w", encoding="ascii") as file:
        file.writelines(json.dumps(it) + "\n" for it in LEGAL)
    ran = subprocess.run([sys.executable, ROOT / "tests" / "bridges" / "history.py", log], capture_output=True, text=True, timeout=PATIENCE)
    assert ran.returncode == 0 and ran.stdout.endswith("5 changes, 6 reads, 0 faults\n"), ran
    for rule, spoilings in SPOILED.items():
        for at, changed in spoilings:
            events = copy.deepcopy(LEGAL)
            events[at] |= changed
            faults = History(events).judge()
            assert any(it.startswith(f"{rule}: ") for it in faults), f"{rule}, event {at}, {changed}: {faults}"
