"""A second opinion on `dsctl replay`, written from the rules of the script format and of the store, and not from the program."""
from .lines import KINDS, BadLine, Floor, read
from .session import NO_ROOM, OF_SERVICES, Session
from .store import Store
from .world import World


def left_of(script):
    """Returns the lines of a script that are read: in format 2, those after the first that are neither comments nor empty."""
    first, newline, rest = script.partition(b"\n")
    if first != b"script 2":
        return script
    lines = rest.split(b"\n") if newline else []
    return b"\n".join(it for at, it in enumerate(lines) if not it.startswith(b"#") and (it or at == len(lines) - 1))


def replay(script, keep_going=False, runs_out=(None, None), ends=False):
    """Answers a script of either format: returns the output and the status. A bad line ends it, unless `keep_going` is set. With `ends`
    an empty line ends each answer.

    `runs_out` names a line, counted from 1, at which memory runs out, and after how many of its steps (see Session). If the number of
    steps is None, the whole line is refused.
    """
    given = left_of(script).split(b"\n")
    end = [b""] * ends
    if not given[-1]:
        given.pop()
    session, answers, status = Session(), [], 0
    for number, line in enumerate(given, 1):
        try:
            command, taken = read(line, number == 1)
        except BadLine as bad:
            answers += [b"badline %d %d" % (number, bad.place), *end]
            status = 1
            if keep_going:
                continue
            break
        if (number, None) == runs_out:
            answers += [NO_ROOM, *end]
        else:
            answers += [*session.answer(command, taken, runs_out[1] if number == runs_out[0] else None), *end]
    return b"".join(it + b"\n" for it in answers), status
