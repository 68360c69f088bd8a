"""Runs seeded scripts, which a model answers too, for services and store of tests/programs."""
import pathlib
import random
import tempfile

import harness
from refuser import Refuser


class Script:
    """Commands drawn from a seed, with a model's answers so far, so that sensible ones can be drawn.

    A library may do without a growth that it asked for. Then every answer is the one with ample memory.
    """

    def __init__(self, seed, model):
        self.random = random.Random(seed)
        self.new_model = model
        self.model = model()
        self.lines, self.answers, self.kinds = [], [], []

    def ask(self, *command):
        line, answers = self.model.answer(*command)
        self.lines.append(line)
        self.answers.append(answers)
        self.kinds.append(command)
        return answers

    def may_lack_room(self, command, ample):
        """Returns whether memory may be refused to a command that has this answer with ample memory."""
        raise NotImplementedError

    def text(self):
        return "".join(line + "\n" for line in self.lines).encode()

    def wanted(self):
        return "".join(line + "\n" for answers in self.answers for line in answers).encode()


def agreement(program, script):
    """Returns how the program's answers differ from the model's, or None."""
    ran = harness.run([program], script.text())
    wrong = harness.difference(ran.output, script.wanted())
    return wrong or (None if (ran.status, ran.error) == (0, b"") else f"status {ran.status}, standard error {ran.error[:200]!r}")


def growths(refuser, room, name, script):
    """Refuses each growth of a script, one per run. Returns what is wrong with the first bad answer, or None."""
    given = pathlib.Path(room) / name.replace(" ", "_")
    given.write_bytes(script.text())
    case = harness.Case(name, [], given, script.wanted())
    return refuser.each_growth(case, lambda ran: refused(script, ran, refuser))


def refused(script, ran, refuser):
    """Checks that a refused growth ends the program with `noroom`, or is the answer to one call, which changes nothing."""
    lines = ran.output.decode().splitlines()
    if ran.status == 3:
        whole = [it for answers in script.answers for it in answers]
        return None if ran.error == b"noroom\n" and lines == whole[: len(lines)] else f"it ended with {lines[-1:]}, {ran.error!r}"
    if (ran.status, ran.error) != (0, b""):
        return f"status {ran.status}, standard error {ran.error[:200]!r}"
    if ran.output == script.wanted():
        return refuser.unseen_fault()
    if lines.count("refused noroom") != 1:
        return f"{lines.count('refused noroom')} answers are noroom"
    model, wanted = script.new_model(), []
    for command, ample in zip(script.kinds, script.answers):
        if lines[len(wanted) : len(wanted) + 1] == ["refused noroom"]:
            if not script.may_lack_room(command, ample):
                return f"{command} was answered noroom in place of {ample}"
            wanted.append("refused noroom")
        else:
            wanted += model.answer(*command)[1]
    return harness.difference(ran.output, "".join(it + "\n" for it in wanted).encode())


def report(program, long, short, others=()):
    """Compares the long and short scripts with the model, refuses memory to the short ones, and reports. Each script has a name.

    `others` has further checks: a name, a function that returns what is wrong or None, and its last argument.
    """
    compared = long + short
    named = list(zip([name for name, _ in compared], harness.at_once(lambda it: agreement(program, it[1]), compared)))
    with tempfile.TemporaryDirectory() as room:
        refuser = Refuser(program, room)
        found = harness.at_once(lambda it: growths(refuser, room, *it), short)
        tried = harness.at_once(lambda it: it[1](refuser, room, it[2]), others)
        passed_by = refuser.names_passed_by()
    named += [(f"growths of {name}", wrong) for (name, _), wrong in zip(short, found)]
    named += [(name, wrong) for (name, *_), wrong in zip(others, tried)]
    named.append(("names", f"tests/kit/refuse.c doesn't take over {passed_by}" if passed_by else None))
    return harness.report(named)
