"""The picture of a supervisor's run, from its log: each service's instances over time, their ends, and which services got a notice."""
import math
import re
from html import escape

from .look import shade, style_of, with_tooltip
from .sizes import LINE, SMALL, TINY, sans_width

EVENT = re.compile(r"(\d+\.\d{3}) (\w+)(?: (.*))?")
CAUSES = ("down", "exit", "exception", "signal", "heartbeat", "complaint", "update")
LAST = 300  # seconds that are drawn by default
WIDE, LANE, TOP, EDGE = 1000, 34, 46, 14  # the picture's width; the height of a lane; above the lanes; around
STEPS = (0.001, 0.002, 0.005, 0.01, 0.02, 0.05, 0.1, 0.2, 0.5, 1, 2, 5, 10, 20, 30, 60, 120, 300, 600, 1800, 3600, 7200, 21600, 86400)
LEGEND = (
    "A bar is a process, in the shade of its generation; its number is in it where there is room. Pale: it was killed, and something of it",
    "is left. A cross: it died, or was killed for a cause. A triangle: this service got a notice of what happened. A block: RS gave it up.",
    "A tick above a bar: the service said that it is ready.",
)


class Life:
    """One instance: its generation, and when it was started, lost and gone; None where the log doesn't say."""

    def __init__(self, generation, began):
        self.generation, self.began, self.lost, self.gone, self.cause = generation, began, None, None, 0

    def told(self, label):
        """Returns the tooltip of the instance: its label, its generation, and from when to when it ran."""
        began = "before the log" if self.began is None else f"{self.began:.3f} s"
        lost = "the end of the log" if self.lost is None else f"{self.lost:.3f} s"
        cause = f", {CAUSES[self.cause % len(CAUSES)]}" if self.lost is not None and self.cause else ""
        return f"{label}, generation {self.generation}: from {began} to {lost}{cause}"


class Run:
    """The events of a log: by label the instances, and what else happened to it."""

    def __init__(self, text):
        self.lives, self.marks, self.first, self.last = {}, [], None, 0.0
        for line in text.splitlines():
            found = EVENT.fullmatch(line)
            if found:
                self.take(float(found[1]), found[2], (found[3] or "").split())

    def take(self, at, word, words):
        self.first, self.last = at if self.first is None else self.first, at
        label = words[0] if words else ""
        if word in ("began", "nostart", "died", "kill", "gone") and len(words) > 1 and "/" in words[1]:
            self.change(at, word, label, int(words[1].split("/")[0]), words)
        elif word in ("told", "givenup", "ready"):
            self.lives.setdefault(label, [])
            self.marks.append((at, word, label, ""))
        elif word == "complaint" and len(words) == 4:
            self.marks.append((at, word, label, words[3]))

    def change(self, at, word, label, generation, words):
        lives = self.lives.setdefault(label, [])
        life = next((it for it in lives if it.generation == generation), None)
        if life is None:
            life = Life(generation, at if word in ("began", "nostart") else None)
            lives.append(life)
        if word in ("died", "kill"):
            life.lost = at if life.lost is None else life.lost
            life.cause = int(words[3]) if len(words) > 3 and words[3].isdigit() else 0
        if word == "nostart":
            life.lost, life.cause = at, 1
        if word == "gone":
            life.gone, life.lost = at, at if life.lost is None else life.lost


class Drawing:
    """Draws a run from one second to another: time to the right, a lane for each service."""

    def __init__(self, run, first, last):
        self.run, self.first, self.last, self.out = run, first, max(last, first + 0.001), []
        self.labels = list(run.lives)
        self.left = EDGE + max([sans_width(it, SMALL, True) for it in self.labels], default=0) + 12
        self.left = max(self.left, EDGE + sans_width("service", LINE, True) + 12)
        self.high = TOP + LANE * len(self.labels) + 20 + 13 * len(LEGEND) + EDGE

    def x(self, at):
        share = (min(max(at, self.first), self.last) - self.first) / (self.last - self.first)
        return self.left + share * (WIDE - EDGE - self.left)

    def y(self, label):
        return TOP + LANE * self.labels.index(label)

    def shows(self, at):
        return self.first <= at <= self.last

    def text(self, x, y, text, look="ink", size=SMALL, anchor="start"):
        self.out.append(f'<text class="{look}" x="{x:.1f}" y="{y:.1f}" font-size="{size}" text-anchor="{anchor}">{escape(text)}</text>')

    def rect(self, x, y, wide, high, look, tooltip=""):
        self.out.append(with_tooltip(f'<rect class="{look}" x="{x:.1f}" y="{y:.1f}" width="{wide:.1f}" height="{high:.1f}"/>', tooltip))

    def path(self, steps, look, tooltip=""):
        self.out.append(with_tooltip(f'<path class="{look}" d="{steps}"/>', tooltip))

    def svg(self):
        self.scale()
        for label in self.labels:
            self.lane(label)
        for mark in self.run.marks:
            if self.shows(mark[0]):
                self.mark(*mark)
        for place, row in enumerate(LEGEND):
            self.text(EDGE, self.high - EDGE - 13 * (len(LEGEND) - 1 - place), row, "faint", SMALL)
        head = f'<svg xmlns="http://www.w3.org/2000/svg" width="{WIDE}" height="{self.high:.0f}" viewBox="0 0 {WIDE} {self.high:.0f}" role="img">'
        return "\n".join([
            head, "<title>what a supervisor did</title>", f"<style>{style_of(self.out)}</style>",
            '<rect class="paper" width="100%" height="100%"/>', *self.out, "</svg>", ""
        ])

    def scale(self):
        """Draws lines for the time, at most ten."""
        span = self.last - self.first
        step = next((it for it in STEPS if span / it <= 10), STEPS[-1])
        self.text(EDGE, 26, "service", "ink strong", LINE)
        for number in range(math.ceil(self.first / step), math.floor(self.last / step) + 1):
            x = self.x(number * step)
            self.path(f"M{x:.1f} {TOP - 8} V{TOP + LANE * len(self.labels):.1f}", "rule")
            shown = f"{number * step:.3f}".rstrip("0").rstrip(".")
            self.text(min(x, WIDE - EDGE - sans_width(shown, TINY) - 12), 26, f"{shown} s", "faint", TINY)

    def lane(self, label):
        y = self.y(label)
        self.path(f"M{EDGE} {y:.1f} H{WIDE - EDGE}", "rule")
        self.text(EDGE, y + LANE / 2 + 4, label, "ink strong", SMALL)
        for life in self.run.lives[label]:
            began = self.first if life.began is None else life.began
            lost = self.last if life.lost is None else life.lost
            gone = self.last if life.gone is None else life.gone
            if began <= self.last and gone >= self.first:
                generations = [it.generation for it in self.run.lives[label]]
                self.life(
                    label, life, shade(self.labels.index(label), life.generation, generations), y, self.x(began), self.x(lost), self.x(gone)
                )
        self.deaths(label)

    def life(self, label, life, tone, y, began, lost, gone):
        self.rect(lost, y + 10, gone - lost, 14, f"p{tone}", life.told(label))
        self.rect(began, y + 10, max(lost - began, 1), 14, f"f{tone}", life.told(label))
        if lost - began > sans_width(str(life.generation), TINY) + 16:
            self.text(began + 4, y + 21, str(life.generation), "on", TINY)

    def deaths(self, label):
        """Draws a cross at each death of a service, with its cause where there is room before the next one."""
        deaths = [(it.lost, it.cause) for it in self.run.lives[label] if it.lost is not None and it.cause and self.shows(it.lost)]
        y, ends = self.y(label), [self.x(it) - 6 for it, _ in deaths[1:]] + [WIDE - EDGE]
        for (at, cause), end in zip(deaths, ends):
            x, word = self.x(at), CAUSES[cause % len(CAUSES)]
            self.path(f"M{x - 3:.1f} {y + 2:.1f} l6 6 m0 -6 l-6 6", "bar")
            if x + 7 + sans_width(word, TINY) < end:
                self.text(x + 7, y + 8.5, word, "faint", TINY)

    def mark(self, at, word, label, by):
        if label not in self.labels:
            return
        x, y = self.x(at), self.y(label)
        if word == "told":
            self.path(f"M{x - 5:.1f} {y + 26:.1f} h10 l-5 7 z", "fbad")
        if word == "ready":
            self.path(f"M{x:.1f} {y + 6:.1f} v4", "lane")
        if word == "givenup":
            self.rect(x - 4, y + 11, 8, 12, "fbad")
        if word == "complaint" and by in self.labels:
            begin, end = self.y(by) + LANE / 2, y + LANE / 2
            self.path(f"M{x:.1f} {begin:.1f} V{end:.1f}", "stroke plain", f"{at:.3f} s: {by} complains about {label}")


def is_log(text):
    """Returns whether a text is a supervisor's answer to `log`."""
    return EVENT.fullmatch(text.partition("\n")[0]) is not None or re.fullmatch(r"events \d+\n?", text) is not None


def drawn(text, first=None, last=None):
    """Returns the picture of a log from one second to another, or of the last minutes."""
    run = Run(text)
    end = run.last if last is None else last
    begin = max(run.first or 0.0, end - LAST) if first is None else first
    return Drawing(run, begin, end).svg()
