"""The picture of a run as SVG, in light and in dark."""
from html import escape

from . import story
from .layout import TEXT, TOP, SIDE
from .look import shade, style_of, with_tooltip
from .sizes import CHIP, LINE, MONO, SMALL, TINY, chip_width, sans_width

# The parts that a picture may have, and what they mean, in the order of the legend below it.
LEGEND = {
    "strips": "Across a band there is a strip for each driver, in the shade of the generation that its holder takes for living.",
    "shades": "The newer the generation, the stronger the shade.",
    "numbers": "Narrow strips have numbers, which are below the drivers' names, too.",
    "hatched": "A hatched strip lags: RS knows better. No strip goes back to an older generation.",
    "floor": "Filled: a floor, which ends what its owner left.",
    "gone": "A dashed frame: gone.",
    "message": "In a circle: the number of a message.",
    "trail": "A thin line leads from a message to where it is delivered.",
    "elsewhere": "A short arrow: from another replica, or a caller without a lane.",
    "dashed": "A dashed arrow: from the dead, or nothing new.",
    "bar": "A bar at the end of an arrow: refused or stale.",
    "vain": "A gray bar: nothing new.",
    "break": "A red dashed line: the store was restarted, or the map cleared.",
    "notice": "A triangle at a subscription: a notice is owed to it.",
}
LEAST, HIGH = 790, 13  # the least width of the words below a picture, and the height of their rows
BEND = 11  # how far an arrow goes round a driver's bar


class Picture:
    """Draws what a layout has placed, from the ground up: arrows pass under bands."""

    def __init__(self, layout, name):
        self.layout, self.out, self.name, self.has = layout, [], name, set()
        self.made = self.places_of_messages()

    def svg(self):
        self.rules()
        self.strokes()
        self.bands()
        self.lives()
        self.heads()
        self.lines()
        wide, high = f"{self.layout.width:.0f}", f"{self.legend():.0f}"
        head = f'<svg xmlns="http://www.w3.org/2000/svg" width="{wide}" height="{high}" viewBox="0 0 {wide} {high}" role="img">'
        title = f"<title>{escape(self.name)}: what its lines did</title>"
        return "\n".join([
            head, title, f"<style>{style_of(self.out)}</style>", HATCH, '<rect class="paper" width="100%" height="100%"/>', *self.out,
            "</svg>", ""
        ])

    # ---- parts ----

    def text(self, x, y, text, look="ink", size=SMALL, anchor="start", is_mono=False):
        looks = look + (" mono" if is_mono else "")
        shown = escape("".join(it if it.isprintable() or it == "\u00a0" else "?" for it in text))
        self.out.append(f'<text class="{looks}" x="{x:.1f}" y="{y:.1f}" font-size="{size}" text-anchor="{anchor}">{shown}</text>')

    def rect(self, x, y, wide, high, look, more="", tooltip=""):
        self.out.append(
            with_tooltip(f'<rect class="{look}" x="{x:.1f}" y="{y:.1f}" width="{wide:.1f}" height="{high:.1f}"{more}/>', tooltip)
        )

    def path(self, steps, look, tooltip=""):
        self.out.append(with_tooltip(f'<path class="{look}" d="{steps}"/>', tooltip))

    # ---- the ground ----

    def rules(self):
        """Draws a line above each row, across the picture."""
        it = self.layout
        for number in it.texts:
            self.path(f"M{SIDE} {it.tops[number]:.1f} H{it.width - SIDE:.1f}", "rule")
        self.path(f"M{it.middle[story.RS]:.1f} {TOP - 6} V{it.bottom:.1f}", "lane")
        for lane in it.middle:
            if lane in it.servers or lane.startswith("sub "):
                self.path(f"M{it.middle[lane]:.1f} {TOP - 6} V{it.bottom:.1f}", "lane")

    def places_of_messages(self):
        """Returns where each message was made, as its circle shows: beside its store, or on the arrow of a check."""
        it = self.layout
        made = {number: (it.right(lane) + 11, it.y(row)) for number, (lane, row) in enumerate(it.story.makers)}
        for stroke in it.story.strokes:
            if stroke.message is not None and not stroke.is_delivery:
                _, end, sign = self.ends(stroke)
                made[stroke.message] = (end - sign * 20, it.y(stroke.row))
        return made

    def ends(self, stroke):
        """Returns a stroke's begin and end, and its side. A delivery begins below the message's circle."""
        it = self.layout
        there = it.middle[stroke.end]
        if stroke.is_delivery:
            begin = self.made[stroke.message][0]
            sign = 1 if begin < there else -1
            return begin, self.near(stroke.end, -sign), sign
        if stroke.begin is None:
            return self.near(stroke.end, -1) - 26, self.near(stroke.end, -1), 1
        sign = 1 if it.middle[stroke.begin] < there else -1
        end = there - it.tag[stroke.end] / 2 if stroke.is_start else self.near(stroke.end, -sign)
        return self.near(stroke.begin, sign), end, sign

    def crossed(self, stroke):
        """Returns what a stroke goes round, in its order: from where to where there is a driver's bar, tag or cross, and how far down it
        goes.
        """
        it, y = self.layout, self.layout.y(stroke.row, stroke.step)
        begin, end, sign = self.ends(stroke)
        found = []
        for life in it.story.lives:
            born = it.first_shown(life)
            if born is None or life.lane in (stroke.begin, stroke.end):
                continue
            x, top, bottom = it.middle[life.lane], it.y(*born) - CHIP / 2, it.y(*life.died) + 6 if life.died else it.bottom
            half = it.tag[life.lane] / 2 + 4 if abs(y - it.y(*born)) <= CHIP else 10
            if top <= y <= bottom and min(begin, end) < x - half - 4 and x + half + 4 < max(begin, end):
                found.append((x - half, x + half))
        joined = []
        for left, right in sorted(found):
            if joined and left <= joined[-1][1] + 8:
                joined[-1] = (joined[-1][0], max(right, joined[-1][1]))
            else:
                joined.append((left, right))
        ways = [(left, right, self.way_round(left, right, y)) for left, right in joined]
        ways = [it for it in ways if it[2]]
        return ways if sign > 0 else [(right, left, down) for left, right, down in reversed(ways)]

    def way_round(self, left, right, y):
        """Returns how far down a bend goes: above a tag and a cross, or below; 0 if neither has room, and the stroke passes under the bar.
        """
        it = self.layout
        tags = [(it.middle[life.lane], it.tag[life.lane] / 2, it.y(*born)) for life in it.story.lives if (born := it.first_shown(life))]
        crosses = [(it.middle[life.lane], 7, it.y(*life.died)) for life in it.story.lives if life.died and it.first_shown(life)]
        beside = [(middle, place) for middle, half, place in tags + crosses if middle + half > left - 7 and middle - half < right + 7]
        near = [(middle, place) for middle, place in beside if place != y]
        is_above_free = all(not 0 < y - place < BEND + 12 for _, place in near) and all(
            place != y or not left < middle < right for middle, _, place in crosses
        )
        if is_above_free:
            return -BEND
        return BEND if all(not 0 < place - y < BEND + 12 for _, place in near) else 0

    def near(self, lane, sign):
        """Returns the edge of a lane at one side."""
        it = self.layout
        if lane in it.blocks:
            return it.middle[lane] + sign * it.wide[lane] / 2
        return it.middle[lane] + sign * (6 if lane in it.tag else 1)

    def look_of(self, stroke):
        if stroke.is_vain:
            return "vain"
        return "plain" if stroke.tone is None else f"s{self.tone(stroke.tone)}"

    def tone(self, tone):
        """Returns the name of a driver's tone in the shade of a generation; the last tone is for RS and those that aren't drawn."""
        label, generation = tone
        return shade(
            self.layout.labels.index(label) if label in self.layout.labels else None, generation, self.layout.generations.get(label, ())
        )

    def strokes(self):
        for it in self.layout.story.strokes:
            begin, end, sign = self.ends(it)
            y = self.layout.y(it.row, it.step)
            dashed = " dashed" if it.is_late or it.is_vain else ""
            self.has |= {"dashed"} if dashed else set()
            self.has |= {"elsewhere"} if it.begin is None else set()
            if it.is_delivery:
                self.has.add("trail")
                self.path(f"M{begin:.1f} {self.made[it.message][1] + 8:.1f} V{y:.1f}", "trail plain")
            bends = "".join(
                f" H{left - sign * 4:.1f} l{sign * 4} {down} H{right:.1f} l{sign * 4} {-down}" for left, right, down in self.crossed(it)
            )
            self.path(f"M{begin:.1f} {y:.1f}{bends} H{end - sign * 4:.1f}", f"stroke {self.look_of(it)}{dashed}", self.told(it.row))

    def told(self, number):
        """Returns the tooltip of an arrow: its line and the answer."""
        row = self.layout.rows[number]
        return f"line {row.number}: {row.line} -> {row.last}"

    # ---- bands ----

    def bands(self):
        for holder in self.layout.blocks:
            self.strips(holder)
            for block in self.layout.blocks[holder]:
                self.block(holder, block)
        for holder, row in self.layout.story.breaks:
            self.has.add("break")
            y = self.layout.tops[row]
            self.path(f"M{self.layout.left(holder):.1f} {y:.1f} H{self.layout.right(holder):.1f}", "break")

    def strips(self, holder):
        """Draws in a band a strip for each label, in the tone of the generation that the holder takes to be alive."""
        it = self.layout
        for label in it.labels or [""]:
            x, wide = it.strip(holder, label)
            begin, before = None, None
            for number in range(it.end + 1):
                state = self.state(holder, label, number)
                if state != before:
                    if before:
                        self.strip(x, wide, begin, number, before)
                    begin, before = number, state
        if it.is_narrow:
            x, wide = it.strip(holder, None)
            held = [number for number in range(it.end) if holder in it.rows[number].held]
            if held:
                self.strip(x, wide, held[0], it.end, ("none", False))

    def state(self, holder, label, number):
        """Returns the tone of a label's strip at a row, and whether RS knows better; None if there is no band."""
        it = self.layout
        if number == it.end or holder not in it.rows[number].held:
            return None
        known = next((found for item in it.rows[number].held[holder] if (found := story.LABEL.match(item)) and found[1] == label), None)
        if known is None or not known[4]:
            return ("none", False)
        life = next((one for one in it.story.lives if one.label == label and one.endpoint == known[4]), None)
        lives = life is not None and life.born[0] <= number and (life.died is None or life.died[0] > number)
        return (f"p{self.tone((label, int(known[2])))}", not lives)

    def strip(self, x, wide, begin, end, state):
        it = self.layout
        top, bottom = it.tops[begin], it.bottom if end == it.end else it.tops[end]
        look, is_hatched = state
        self.has |= {"strips", "shades"} if look != "none" else set()
        self.has |= {"numbers"} if look != "none" and it.is_narrow else set()
        self.has |= {"hatched"} if is_hatched else set()
        self.rect(x, top, wide, bottom - top, look)
        if is_hatched:
            self.rect(x, top, wide, bottom - top, "hatched")

    def block(self, holder, block):
        x, y = self.layout.left(holder), self.layout.tops[block.row]
        if block.changes:
            self.path(f"M{x:.1f} {y:.1f} H{x + self.layout.wide[holder]:.1f}", "cut")
        for chip in block.chips:
            self.chip(x + chip.place[0], y + chip.place[1], chip)

    def chip(self, x, y, chip):
        tone = None if chip.tone is None else self.tone(chip.tone)
        self.has |= {"floor"} if chip.is_floor else {"gone"} if chip.is_gone else set()
        if tone is None:
            self.text(x + 2, y + 11, chip.text, "bad" if chip.is_bad else "faint", TINY, is_mono=True)
            return
        frame = f"f{tone} s{tone}" if chip.is_floor else f"paper s{tone}" + (" dashed" if chip.is_gone else "")
        self.rect(x, y, chip_width(chip.text), CHIP, f"{frame} chip{'' if chip.is_new else ' old'}", ' rx="4"')
        self.text(x + 4, y + 11, chip.text, "on" if chip.is_floor else f"f{tone}", TINY, is_mono=True)

    # ---- drivers ----

    def lives(self):
        it = self.layout
        for life in it.story.lives:
            born = it.first_shown(life)
            if born is None:
                continue
            x, tone = it.middle[life.lane], self.tone(life.tone)
            top, wide = it.y(*born) - CHIP / 2, it.tag[life.lane]
            bottom = it.y(*life.died) if life.died else it.bottom
            until = f"until line {it.rows[life.died[0]].number}" if life.died else "to the end"
            told = f"{life.label} as {life.endpoint}, from line {it.rows[life.born[0]].number} {until}"
            self.rect(x - 4, top, 8, max(bottom - top, CHIP), f"f{tone}", tooltip=told)
            self.rect(x - wide / 2, top, wide, CHIP, f"f{tone}", ' rx="4"')
            self.text(x, top + 11, life.endpoint, "on", TINY, "middle", True)
            if life.died:
                self.path(f"M{x - 6:.1f} {bottom - 6:.1f} l12 12 m0 -12 l-12 12", f"cross s{tone}")

    # ---- the ends of arrows, and words ----

    def bends(self, stroke):
        """Draws a stroke once more where it goes round drivers' bars, above these."""
        _, _, sign = self.ends(stroke)
        y = self.layout.y(stroke.row, stroke.step)
        for left, right, down in self.crossed(stroke):
            steps = f"M{left - sign * 4:.1f} {y:.1f} l{sign * 4} {down} H{right:.1f} l{sign * 4} {-down}"
            self.path(steps, "round cut")
            self.path(steps, f"stroke {self.look_of(stroke)}" + (" dashed" if stroke.is_late or stroke.is_vain else ""))

    def heads(self):
        for it in self.layout.story.strokes:
            self.bends(it)
        for it in self.layout.story.strokes:
            begin, end, sign = self.ends(it)
            y = self.layout.y(it.row, it.step)
            tone = "fvain" if it.is_vain else "fplain" if it.tone is None else f"f{self.tone(it.tone)}"
            if it.is_stopped or it.is_vain:
                self.has.add("bar" if it.is_stopped else "vain")
                self.path(f"M{end - sign * 3:.1f} {y - 6:.1f} v12", "bar" if it.is_stopped else "bar vain")
            else:
                self.path(f"M{end:.1f} {y:.1f} l{-sign * 8} -4 v8 z", tone)
            if it.message is not None:
                self.circle(begin - sign * 12 if abs(end - begin) < 30 else end - sign * 20, y, it.message)
            elif it.word:
                self.word(it, begin, end, sign, y)
        for number, (lane, row) in enumerate(self.layout.story.makers):
            if row in self.layout.texts and self.layout.rows[row].words[0] != "check":
                self.circle(self.layout.right(lane) + 11, self.layout.y(row), number)
        for note in self.layout.story.notes:
            if note.lane not in self.layout.blocks:
                self.beside(note)

    def circle(self, x, y, number):
        self.has.add("message")
        self.out.append(f'<circle class="paper plain" cx="{x:.1f}" cy="{y:.1f}" r="8"/>')
        self.text(x, y + 3.5, str(number), "ink", TINY, "middle")

    def word(self, stroke, begin, end, sign, y):
        """Draws a word on a stroke, on a ground of its own."""
        wide = sans_width(stroke.word, TINY) + 4
        x = min(begin, end) + abs(end - begin) / 2
        if stroke.begin in self.layout.servers or stroke.end in self.layout.servers:
            server = stroke.begin if stroke.begin in self.layout.servers else stroke.end
            x = self.layout.middle[server] - 8 - wide / 2 - (10 if stroke.end == server else 0)
        self.rect(x - wide / 2, y - 6, wide, 12, "paper")
        self.text(x, y + 3, stroke.word, "ink", TINY, "middle")

    def beside(self, note):
        """Draws a word to the right of a lane's line."""
        x = self.layout.middle[note.lane]
        y = self.layout.y(note.row, note.step)
        if note.lane.startswith("sub "):
            self.has.add("notice")
            self.path(f"M{x + 7:.1f} {y - 4:.1f} l10 0 l-5 8 z", "fbad")
            return
        self.text(x + 6, y + 3.5, note.word, "bad" if note.is_bad else "ink", TINY)

    def lines(self):
        """Draws the head of each lane, and each line with its answer."""
        it = self.layout
        self.text(SIDE + 24, 26, "line", "ink strong", LINE)
        self.text(SIDE + TEXT - 10, 26, "answer", "ink strong", LINE, "end")
        for lane, title in it.title.items():
            self.text(it.middle[lane], 26, title, "ink strong", LINE, "middle")
            for y in it.heads:
                wide = sans_width(title, TINY) + 2
                self.rect(it.middle[lane] - wide / 2, y - 20, wide, 24, "paper")
                self.text(it.middle[lane], y - 11, title, "faint", TINY, "middle")
        for x, label in it.strip_titles():
            for y in (39, *it.heads):
                self.text(x, y, label, "faint", TINY, "middle")
        for y, first, last in it.folds:
            self.text(SIDE + 24, y, f"lines {first} to {last} aren't shown" if first < last else f"line {first} isn't shown", "faint", TINY)
        for number, texts in it.texts.items():
            row, y = it.rows[number], it.tops[number] + 16
            self.text(SIDE + 16, y, str(row.number), "faint", TINY, "end")
            for place, text in enumerate(texts):
                self.text(SIDE + 24, y + 13 * place, text.replace(" ", "\u00a0"), "ink", MONO, is_mono=True)
            self.text(SIDE + TEXT - 10, y, row.last, "bad" if story.stops(row.last) or row.is_refused else "faint", SMALL, "end")

    def legend(self):
        """Writes what the parts of this picture mean below it, and returns the picture's height."""
        room, rows, row = max(self.layout.width, LEAST) - 2 * SIDE - 24, [], ""
        for said in [LEGEND[it] for it in LEGEND if it in self.has]:
            if row and sans_width(f"{row} {said}", SMALL) > room:
                rows, row = [*rows, row], ""
            row = f"{row} {said}".strip()
        y = self.layout.bottom + 20
        for it in [*rows, row] if row else []:
            self.text(SIDE + 24, y, it, "faint", SMALL)
            y += HIGH
        return y + 2


HATCH = (
    '<defs><pattern id="hatch" width="7" height="7" patternUnits="userSpaceOnUse" patternTransform="rotate(45)">'
    '<path class="hatch" d="M0 0 V7"/></pattern></defs>'
)
