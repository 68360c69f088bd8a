"""Waits for what has to come, on a busy machine, too."""
import time

PATIENCE = 60  # seconds that anything may take
PAUSE = 0.005  # seconds between two looks


def until(so, what, seconds=PATIENCE):
    """Waits until `so` returns something true, and returns that. Otherwise it fails and names `what`, a text or a function that returns
    one.
    """
    end = time.monotonic() + seconds
    while True:
        found = so()
        if found:
            return found
        if time.monotonic() > end:
            raise AssertionError(f"not within {seconds} s: {what() if callable(what) else what}")
        time.sleep(PAUSE)
