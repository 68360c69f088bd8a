"""Plays scenes side by side, and those that failed there again alone, since a busy machine may not fail a scene."""
import concurrent.futures
import time

AGAIN = 3  # times


class Scenes:
    """Scenes by their names. Each is a function that plays it, and returns what was wrong, as a text, or None, or why it was left out."""

    def __init__(self, scenes):
        self.scenes, self.failed = scenes, {}

    def timed(self, name):
        begun = time.monotonic()
        return name, self.scenes[name](), time.monotonic() - begun

    def beside(self, at_once):
        """Plays all, some at once. Yields the name, the result and the seconds of each that didn't fail, and keeps the others."""
        with concurrent.futures.ThreadPoolExecutor(at_once) as pool:
            for name, wrong, took in pool.map(self.timed, self.scenes):
                if isinstance(wrong, str):
                    self.failed[name] = wrong
                else:
                    yield name, wrong, took

    def alone(self):
        """Plays those that failed again, one at a time. One that passes each time passed, and is named with its first failure."""
        for name, first in self.failed.items():
            begun = time.monotonic()
            again = any(self.scenes[name]() for _ in range(AGAIN))  # until it fails
            if not again:
                print(f"unsteady {name}: {first}", flush=True)
            yield name, first if again else None, time.monotonic() - begun

    def played(self, at_once):
        yield from self.beside(at_once)
        yield from self.alone()
