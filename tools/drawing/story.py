"""What happened in a script's run, by its lines and their answers: which drivers lived when, and which lane sent what to which."""
import re
from dataclasses import dataclass, field
from typing import List, Optional

from . import asking

LABEL = re.compile(r"(\S+) label rs (\d+)\.(\d+) (?:= (\S+)|-)$")  # a label's change as an item
CHANGE = re.compile(r"(\S+) (\w+) (\S+) (\d+)\.\d+ [=-]")  # any change as an item
ASKED = re.compile(r"(?:publish|delete) (\S+) (?:new |over )?(\S+) (\w+) (\d+)\.\d+")
SERVERS = {"file": "file server", "net": "network server"}
MAKERS = ("check", "since", "snapshot", "page")
ACTING = ("service", "tick", "death", "beat")  # lines to RS; each action is a step
RS = "RS"


@dataclass
class Life:
    """A generation of a driver, from its start to its death, as RS knows them: each a row, and a step within it."""

    label: str
    generation: int
    endpoint: str
    born: tuple
    died: Optional[tuple] = None

    @property
    def lane(self):
        return driver(self.label)

    @property
    def tone(self):
        return self.label, self.generation


@dataclass
class Stroke:
    """Something that one lane sends to another."""

    row: int
    step: int
    begin: Optional[str]  # a lane; None: a caller without one
    end: str
    tone: Optional[tuple] = None  # the driver and the generation that it is about
    is_late: bool = False  # of a generation that is dead
    is_stopped: bool = False  # refused, or stale
    is_vain: bool = False  # nothing was new
    is_start: bool = False  # of a driver, whose endpoint is written at its end
    word: str = ""
    message: Optional[int] = None
    is_delivery: bool = False  # of a message, which begins where that was made


@dataclass
class Note:
    """A word in a lane."""

    row: int
    step: int
    lane: str
    word: str
    is_bad: bool = False


@dataclass
class Story:
    """All that is drawn besides what is held."""

    lives: List[Life] = field(default_factory=list)
    strokes: List[Stroke] = field(default_factory=list)
    notes: List[Note] = field(default_factory=list)
    makers: List[tuple] = field(default_factory=list)  # the lane and the row of each message
    breaks: List[tuple] = field(default_factory=list)  # a holder, and the row where it begins again


def driver(label):
    """Returns the lane of a driver."""
    return f"driver {label}"


def subscriber(side, number):
    """Returns the lane of a subscription at a store."""
    return f"sub {side} {number}"


def tone_of(item):
    """Returns the driver and the generation that an item is about: a label's own, or the owner's."""
    words = item.split(" ")
    if words[0] == "!":
        return words[1], int(words[2])
    name, kind, owner, generation = CHANGE.match(item).groups()
    return (name if kind == "label" else owner), int(generation)


class Narrator:
    """Goes through the rows of a run once."""

    def __init__(self, rows):
        self.story, self.rows, self.at, self.step = Story(), rows, 0, 0
        for self.at, row in enumerate(rows):
            self.step = 0
            if not row.last.startswith("badline "):
                getattr(self, row.words[0], self.nothing)(row)
                if row.words[0] not in ACTING:
                    self.owe_all(row, row.words[2] if row.words[0] == "deliver" else row.side)

    # ---- lives ----

    def life(self, label, generation):
        return next((it for it in self.story.lives if (it.label, it.generation) == (label, generation)), None)

    def life_at(self, endpoint):
        return next((it for it in reversed(self.story.lives) if it.endpoint == endpoint), None)

    def begin(self, label, generation, endpoint):
        if self.life(label, generation) is None:
            self.die(label, generation - 1)
            self.story.lives.append(Life(label, generation, endpoint, (self.at, self.step)))

    def die(self, label, generation):
        for it in self.story.lives:
            if it.label == label and it.generation <= generation and it.died is None:
                it.died = (self.at, self.step)

    def change_lives(self, item):
        """Notes the life that a label's change shows, once a store has taken it."""
        found = LABEL.match(item)
        if found and found[4]:
            self.begin(found[1], int(found[2]), found[4])
        elif found:
            self.die(found[1], int(found[2]))

    # ---- strokes ----

    def stroke(self, begin, end, **more):
        self.story.strokes.append(Stroke(self.at, self.step, begin, end, **more))

    def note(self, lane, word, is_bad=False):
        self.story.notes.append(Note(self.at, self.step, lane, word, is_bad))

    def nothing(self, row):
        """Handles lines that send nothing."""

    def asked_tone(self, row, life):
        """Returns what a publication or a deletion is about: a label's driver, or the caller."""
        _, name, kind, generation = ASKED.match(row.line).groups()
        return (name if kind == "label" else life.label if life else RS), int(generation)

    def from_caller(self, row, life, tone):
        is_late = life is not None and life.died is not None and life.died < (self.at, 0)
        begin = RS if row.words[1] == "0/2" else life and life.lane
        self.stroke(begin, row.side, tone=tone, is_late=is_late, is_stopped=stops(row.last), is_vain=row.last == "known")

    def publish(self, row):
        life = self.life_at(row.words[1])
        self.from_caller(row, life, self.asked_tone(row, life))
        if row.words[1] == "0/2" and not stops(row.last):
            found = re.match(r"publish 0/2 \w+ (\S+) label (\d+)\.0 = (\S+)", row.line)
            if found:
                self.begin(found[1], int(found[2]), found[3])

    def delete(self, row):
        life = self.life_at(row.words[1])
        self.from_caller(row, life, self.asked_tone(row, life))
        found = re.match(r"delete 0/2 (\S+) label (\d+)\.", row.line)
        if found and not stops(row.last):
            self.die(found[1], int(found[2]))

    def sweep(self, row):
        self.from_caller(row, self.life_at(row.words[1]), (row.words[2], int(row.words[3])))

    def offer(self, row):
        """Adds an item that arrived from elsewhere, such as another replica, and not from its owner."""
        item = row.line[len("offer "):]
        tone = tone_of(item)
        life = self.life(*tone)
        is_late = life is not None and life.died is not None and life.died < (self.at, 0)
        self.stroke(None, row.side, tone=tone, is_late=is_late, is_stopped=stops(row.last), is_vain=row.last == "known")
        if row.last == "taken":
            self.change_lives(item)

    # ---- subscriptions and messages ----

    def subscribe(self, row):
        self.stroke(subscriber(row.side, row.words[1]), row.side, is_stopped=row.is_refused)

    def check(self, row):
        if not row.is_refused:
            number = self.make(row)
            is_vain = row.last.startswith("checked 0 ")
            self.stroke(row.side, subscriber(row.side, row.words[1]), is_vain=is_vain, message=number)

    def make(self, row):
        self.story.makers.append((row.side, self.at))
        return len(self.story.makers) - 1

    def since(self, row):
        if not row.is_refused:
            self.make(row)

    snapshot = page = since

    def deliver(self, row):
        if row.is_refused:
            return
        number, result = int(row.words[1]), row.last.split(" ")
        is_vain = result[0] == "merged" and result[2] == "0"
        maker, _ = self.story.makers[number]
        self.stroke(maker, row.words[2], is_vain=is_vain, is_stopped=result[0] == "stopped", message=number, is_delivery=True)
        if is_vain:
            self.note(row.words[2], "nothing new")
        elif result[0] == "stopped":
            self.note(row.words[2], " ".join(result[:1] + result[2:]), True)

    def restart(self, row):
        if not row.is_refused:
            self.story.breaks.append((row.words[1], self.at))
            self.note(row.words[1], f"begins again as {row.words[2]}")

    def clear(self, row):
        if not row.is_refused:
            self.story.breaks.append((f"m{row.words[1]}", self.at))
            self.note(f"m{row.words[1]}", "cleared")

    def owe(self, line, side):
        """Adds the notices of an `owed` line, one to each subscription, at the current step."""
        mask = int(line.split(" ")[1], 16)
        for number in (it for it in range(128) if mask >> it & 1):
            self.note(subscriber(side, number), "notice", True)

    def owe_all(self, row, side):
        """Adds the notices of a row of one step."""
        for line in row.answer:
            if asking.OWED.fullmatch(line):
                self.owe(line, side)

    # ---- RS and what it does ----

    def service(self, row):
        self.act(row)

    tick = service

    def death(self, row):
        life = self.life_at(row.words[1])
        if life:
            self.stroke(life.lane, RS, tone=life.tone, is_stopped=row.is_refused, word="died")
        if life and not row.is_refused:
            self.die(life.label, life.generation)
        self.step += 1
        self.act(row)

    def beat(self, row):
        life = self.life_at(row.words[1])
        if life:
            self.stroke(life.lane, RS, tone=life.tone, is_stopped=row.is_refused, word="beat")
        self.step += 1
        self.act(row)

    def act(self, row):
        """Adds RS's actions, each with the store's answer below it."""
        for number, line in enumerate(row.answer):
            words = line.split(" ")
            if asking.OWED.fullmatch(line):
                self.step -= 1  # the action above
                self.owe(line, row.side)
            elif words[0] == "start":
                self.begin(words[1], int(words[2].split("/")[0]), words[2])
                self.stroke(RS, driver(words[1]), tone=(words[1], int(words[2].split("/")[0])), is_start=True)
            elif words[0] in ("kill", "ping"):
                self.reach(words)
            elif words[0] in ("offer", "sweep"):
                self.ask(row, line, row.answer[number + 1])
            else:
                continue
            self.step += 1

    def reach(self, words):
        life = self.life_at(words[1])
        if life:
            self.stroke(RS, life.lane, tone=life.tone, word=words[0])
        if life and words[0] == "kill":
            self.die(life.label, life.generation)

    def ask(self, row, line, answer):
        words = line.split(" ")
        tone = (words[1], int(words[2])) if words[0] == "sweep" else tone_of(line[len("offer "):])
        self.stroke(RS, row.side, tone=tone, is_stopped=stops(answer))
        if words[0] == "offer":
            self.change_lives(line[len("offer "):])

    # ---- servers that talk to drivers ----

    def assign(self, row):
        if not row.is_refused:
            self.note(SERVERS[row.words[1]], f"{row.words[2]} is {row.words[-1]}")

    def follow(self, row):
        self.moves(row, None)

    def submit(self, row):
        self.moves(row, SERVERS[row.words[1]])

    def moves(self, row, asked):
        """Adds the servers' moves, the file server's first. Ids rise, so a number shows whose request it is."""
        for line in row.answer[:-1]:
            words = line.split(" ")
            server = self.server_of(row, line)
            if words[0] in ("send", "start"):
                life = self.life_at(words[2])
                word = words[1] if words[0] == "send" else f"start {words[1]}"
                if life:
                    self.stroke(server, life.lane, tone=life.tone, word=word)
            else:
                self.note(server, f"{words[1]} {words[-1] if words[0] == 'answer' else 'held'}", words[0] == "answer")
            self.step += 1
        if row.is_refused and asked:
            self.note(asked, f"{row.words[2]} refused", True)

    def server_of(self, row, line):
        """Returns whose move it is: the network server's if it starts a unit, or else the server's that accepted the request."""
        words = line.split(" ")
        if words[0] == "start":
            return SERVERS["net"]
        asked = [it.words[1] for it in self.rows[: self.at + 1] if it.words[0] == "submit" and it.words[2] == words[1]]
        return SERVERS[asked[-1] if asked else "file"]

    def reply(self, row):
        life, server = self.life_at(row.words[2]), SERVERS[row.words[1]]
        is_late = life is not None and life.died is not None
        self.stroke(
            life.lane if life else None, server, tone=life and life.tone, is_late=is_late, is_stopped=row.is_refused, word=row.words[3]
        )
        if not row.is_refused:
            self.note(server, f"{row.words[3]} done")


def stops(answer):
    """Returns whether an answer means that nothing changed."""
    return answer == "stale" or answer.startswith("refused ")
