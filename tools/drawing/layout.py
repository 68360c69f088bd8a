"""The places of a picture's parts: lanes from left to right, rows from top to bottom, and blocks of what is held."""
import re
import textwrap
from dataclasses import dataclass, field
from typing import Dict, List, Optional

from . import asking, story
from .sizes import CHIP, LINE, MONO, SMALL, STEP, TINY, WIDTH, chip_width, mono_width, sans_width

LEAST_ROW, TOP, SIDE = 24, 48, 14  # units of the picture
TEXT = 392  # the width of lines and their answers
LEGEND = 790  # the width of the words below
BAND, GAP = 118, 46  # the least width of a holder's band, and the gap between two
MOST_BAND = 460  # the most width of strips that have their chips in them
NARROW, REPEAT = 16, 600  # the width of other strips, and how far apart their heads are
FEW = 3  # up to this many items are all shown when one of them changes


@dataclass
class Chip:
    """Something that is held, or a word about it."""

    text: str
    tone: Optional[tuple] = None  # a driver and its generation
    is_floor: bool = False
    is_gone: bool = False
    is_new: bool = True
    is_bad: bool = False
    place: tuple = (0, 0)  # within its block


@dataclass
class Block:
    """What a holder holds after a row that changed it, or a word about it there."""

    row: int
    chips: List[Chip] = field(default_factory=list)
    height: int = 0
    changes: bool = False  # whether what is held changed


def chip_of(item, is_new):
    """Returns an item's chip: a floor is filled."""
    if item.startswith("! "):
        return Chip(item, story.tone_of(item), is_floor=True, is_new=is_new)
    name, _kind, _owner, _version, rest = item.split(" ", 4)
    value = rest[2:] if rest.startswith("= ") else "gone"
    text = f"{name} {value}" if len(value) <= 24 else f"{name} {value[:14]}.. ({len(value)})"
    return Chip(text, story.tone_of(item), is_gone=rest == "-", is_new=is_new)


def chips_of(held, before):
    """Returns the chips of what is held, floors and labels first; if there is much, only those that changed."""
    held = sorted(held, key=lambda it: (not it.startswith("! "), " label " not in it))
    fresh = [it for it in held if it not in before]
    if not held:
        return [Chip("nothing")]
    if len(held) <= FEW:
        return [chip_of(it, it in fresh) for it in held]
    dropped = len([it for it in before if it.split(" ")[:2] not in [other.split(" ")[:2] for other in held]])
    more = [f"{dropped} dropped"] * (dropped > 0) + [f"{len(held) - len(fresh)} as before"] * (len(fresh) < len(held))
    return [chip_of(it, True) for it in fresh] + [Chip(it) for it in more]


class Layout:
    """The places of a run's picture."""

    def __init__(self, rows, shown):
        self.rows, self.shown, self.story = rows, shown, story.Narrator(rows).story
        self.end = max(shown, default=-1) + 1  # the first row past the last that is shown
        self.leave_out()
        self.labels = list(dict.fromkeys(it.label for it in self.story.lives))
        self.generations = self.generations_by_label()
        self.blocks = {holder: list(self.blocks_of(holder)) for holder in self.holders()}
        self.servers = [it for it in story.SERVERS.values() if any(note.lane == it for note in self.story.notes) or any(
            it in (one.begin, one.end) for one in self.story.strokes
        )]
        self.set_lanes()
        self.set_rows()

    def leave_out(self):
        """Leaves out of the story what happens in rows that aren't shown, and deaths after the last row."""
        drawn = self.story
        drawn.strokes = [it for it in drawn.strokes if it.row in self.shown]
        drawn.notes = [it for it in drawn.notes if it.row in self.shown]
        drawn.breaks = [it for it in drawn.breaks if it[1] in self.shown]
        drawn.lives = [it for it in drawn.lives if it.born[0] < self.end]
        for life in drawn.lives:
            if life.died and life.died[0] >= self.end:
                life.died = None

    def generations_by_label(self):
        """Returns the generations of each label that the picture has: those that lived, and those of what is held."""
        found = {label: {it.generation for it in self.story.lives if it.label == label} for label in self.labels}
        for row in self.rows[: self.end]:
            for item in (it for held in row.held.values() for it in held):
                label, generation = story.tone_of(item)
                found.setdefault(label, set()).add(generation)
        for stroke in self.story.strokes:
            if stroke.tone:
                found.setdefault(stroke.tone[0], set()).add(stroke.tone[1])
        return found

    # ---- lanes ----

    def holders(self):
        """Returns the stores that are ever used, and the maps."""
        named = {it.end for it in self.story.strokes} | {it.lane for it in self.story.notes} | {row.side for row in self.rows}
        used = [it for it in asking.STORES if it in named or any(row.held[it] for row in self.rows)]
        return used + sorted({it for row in self.rows for it in row.held if it[0] == "m"}, key=lambda it: int(it[1:]))

    def subscribers(self, side):
        """Returns the lanes of the subscriptions at a store."""
        named = [it for one in self.story.strokes for it in (one.begin, one.end)] + [it.lane for it in self.story.notes]
        found = {it for it in named if it and it.startswith(f"sub {side} ")}
        return sorted(found, key=lambda it: int(it.split(" ")[2]))

    def set_lanes(self):
        """Sets each lane's middle and width."""
        self.middle, self.wide, self.title, self.tag = {}, {}, {}, {}
        x = SIDE + TEXT
        x = self.lane(story.RS, "RS", x, 44)
        for label in self.labels:
            tag = self.tag[story.driver(label)] = max(chip_width(it.endpoint) for it in self.story.lives if it.label == label)
            x = self.lane(story.driver(label), label, x, max(sans_width(label, LINE, True), tag) + 12)
        for server in self.servers:
            x = self.lane(server, server, x + 22, self.server_width(server)) + 6
        self.set_strips()
        for holder in self.holders():
            x = self.lane(holder, f"map {holder[1:]}" if holder[0] == "m" else f"store {holder}", x + GAP, self.band)
            for it in self.subscribers(holder):
                x = self.lane(it, f"sub. {it.split(' ')[2]}", x + 14, 54)
        is_last_maker = any(self.right(it) + 20 > x for it, _ in self.story.makers)
        self.width = max(x + SIDE + 18 * is_last_maker, LEGEND)

    def lane(self, key, title, left, wide):
        self.middle[key], self.wide[key], self.title[key] = left + wide / 2, wide, title
        return left + wide

    def server_width(self, server):
        """Returns the width of a server's lane, whose words are in its right half."""
        words = [sans_width(it.word, TINY) for it in self.story.notes if it.lane == server]
        return 2 * max([46, *(it + 10 for it in words)])

    # ---- bands and their strips ----

    def set_strips(self):
        """Sets the width of a band, and of each label's strip in it.

        A strip is as wide as the widest chip of its driver, if the strips of all drivers fit into a band. Otherwise they are narrow, with
        numbers for names, and chips are beside them.
        """
        own = {label: self.strip_need(label) for label in self.labels}
        self.is_narrow = len(own) > 1 and sum(own.values()) > MOST_BAND
        rest = self.band_width([it for it in self.chips() if self.is_narrow or len(own) < 2 or self.column(it) is None])
        if self.is_narrow:
            own = {label: NARROW for label in self.labels}
            self.band = sum(own.values()) + rest
        else:
            self.band = max(rest, sum(own.values()))
            spare = (self.band - sum(own.values())) / max(1, len(own))
            own = {label: wide + spare for label, wide in own.items()}
        self.strips, x = {}, 0.0
        for label, wide in own.items():
            self.strips[label] = (x, wide)
            x += wide
        self.strips[None] = (x, self.band - x) if self.is_narrow else (0.0, self.band)

    def strip(self, holder, label):
        """Returns the left edge and the width of a label's strip in a band; without a label, of what is beside the strips, or of the band.
        """
        x, wide = self.strips.get(label, self.strips[None])
        return self.left(holder) + x, wide

    def chips(self):
        return [chip for blocks in self.blocks.values() for block in blocks for chip in block.chips]

    def column(self, chip):
        """Returns the label whose strip a chip is in; None for a word, and for a driver that never lived here."""
        return chip.tone[0] if chip.tone and chip.tone[0] in self.labels else None

    def strip_need(self, label):
        """Returns the width that a label's name and chips need in its strip."""
        if len(self.labels) < 2:
            return 0
        return 8 + max([sans_width(label, TINY), 24, *(chip_width(it.text) for it in self.chips() if self.column(it) == label)])

    def strip_titles(self):
        """Returns each strip's name, or number if it is narrow, and the name's place."""
        if len(self.labels) < 2:
            return []
        titles = [(label, str(place + 1) if self.is_narrow else label) for place, label in enumerate(self.labels)]
        strips = [(*self.strip(holder, label), title) for holder in self.holders() for label, title in titles]
        numbers = [(self.middle[story.driver(label)], title) for label, title in titles] if self.is_narrow else []
        return [(x + wide / 2, title) for x, wide, title in strips] + numbers

    def band_width(self, chips):
        """Returns the width that the widest of these chips needs, and more as far as there is room."""
        count = max(1, len(self.holders()))
        lanes = 44 + sum(
            max(sans_width(it, LINE, True), 40) + 12 for it in self.labels
        ) + sum(28 + self.server_width(it) for it in self.servers)
        subs = 68 * sum(len(self.subscribers(it)) for it in self.holders())
        room = (WIDTH - 2 * SIDE - TEXT - lanes - subs) / count - GAP
        return max([BAND, *(chip_width(it.text) + 12 for it in chips), min(room, 190)])

    # ---- what is held ----

    def blocks_of(self, holder):
        """Makes a block after each row that changes what a holder holds, or has a word about it."""
        before = None
        for number, row in enumerate(self.rows):
            if number not in self.shown:
                continue
            notes = [Chip(it.word, is_bad=it.is_bad) for it in self.story.notes if it.row == number and it.lane == holder]
            held = row.held.get(holder)
            changes = held is not None and held != (before or [])
            if changes or notes:
                yield Block(number, notes + (chips_of(held, before or []) if changes else []), changes=changes)
            before = held if held is not None else before

    def fill(self, block):
        """Places the chips of a block: words side by side, and below them each driver's chips in its own strip, one below the other."""
        is_apart = len(self.labels) > 1 and not self.is_narrow
        side_by_side = [it for it in block.chips if not is_apart or self.column(it) is None]
        top = self.fill_rows(side_by_side) if side_by_side else 4
        bottom = top
        for label in self.labels if is_apart else []:
            x, wide = self.strips[label]
            y = top
            for chip in (it for it in block.chips if self.column(it) == label):
                chip.place = (x + (wide - chip_width(chip.text)) / 2, y)
                y += CHIP + 3
            bottom = max(bottom, y)
        block.height = bottom + 1

    def fill_rows(self, chips):
        """Places chips side by side, beside narrow strips, and returns the place below them."""
        left, wide = self.strips[None]
        x, y = left + 6, 4
        for chip in chips:
            if x > left + 6 and x + chip_width(chip.text) > left + wide - 6:
                x, y = left + 6, y + CHIP + 3
            chip.place = (x, y)
            x += chip_width(chip.text) + 4
        return y + CHIP + 3

    # ---- rows ----

    def set_rows(self):
        """Sets each row's top: below the previous row, and below each block that a new one of the same holder would cover."""
        self.tops, self.texts, self.folds, self.heads, free, y = [], {}, [], [], {}, TOP
        for number, row in enumerate(self.rows):
            if number not in self.shown:
                self.tops.append(y)
                continue
            y = self.head(self.fold(number, y), free)
            starting = {it: block for it, blocks in self.blocks.items() for block in blocks if block.row == number}
            y = max([y, *(free.get(it, 0) for it in starting)])
            self.tops.append(y)
            for holder, block in starting.items():
                self.fill(block)
                free[holder] = y + block.height + 2
            self.texts[number] = self.wrapped(row)
            steps = [it.step for it in (*self.story.strokes, *self.story.notes) if it.row == number]
            y += max(LEAST_ROW, 10 + 13 * len(self.texts[number]), 10 + STEP * (max(steps, default=0) + 1))
        y = self.fold(len(self.rows), y)
        self.bottom = max([y, *free.values()])

    def head(self, y, free):
        """Returns the room above a row where the heads of the lanes are repeated, if that is due: in a picture of many drivers."""
        if not self.is_narrow or y - max([TOP, *self.heads]) < REPEAT:
            return y
        top = max([y, *free.values()])
        self.heads.append(top + 24)
        return top + 30

    def fold(self, number, y):
        """Returns the room above a row, or below the last one, for the count of lines that aren't shown before it."""
        before = max((it for it in self.texts), default=-1)
        if number - before == 1:
            return y
        self.folds.append((y + 13, before + 2, number))
        return y + 20

    def wrapped(self, row):
        """Returns a row's line, broken to fit beside its answer."""
        room = TEXT - 30 - sans_width(row.last, SMALL) - 14
        count = max(20, int(room / mono_width("x", MONO)))
        return textwrap.wrap(row.line, count, subsequent_indent="  ", break_on_hyphens=False, drop_whitespace=True) or [""]

    def first_shown(self, life):
        """Returns where a life begins, even if its birth isn't shown; None if nothing of it is."""
        if life.born[0] in self.shown:
            return life.born
        row = min((it for it in self.shown if it > life.born[0]), default=None)
        return None if row is None or life.died and life.died[0] <= row else (row, 0)

    def y(self, row, step=0):
        """Returns the place of something within a row."""
        return self.tops[row] + 13 + STEP * step

    def left(self, lane):
        return self.middle[lane] - self.wide[lane] / 2

    def right(self, lane):
        return self.middle[lane] + self.wide[lane] / 2
