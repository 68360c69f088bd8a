"""Pictures of what a script did, drawn from the program's own answers."""
from . import asking
from .layout import Layout
from .picture import Picture

MOST = 120  # rows of a picture by default


def drawn(program, script, first=None, last=None):
    """Returns the picture of a script, as SVG."""
    rows = asking.run(program, script.read_text())
    return picture_of(rows, chosen(rows, first, last), script.name)


def picture_of(rows, shown, name):
    """Returns the picture of some rows."""
    return Picture(Layout(rows, shown), name).svg()


def chosen(rows, first, last, most=MOST):
    """Returns the rows to show: `first` to `last`; else all of them, or of more than `most` the first `most` that change something."""
    if first is not None:
        return set(range(first - 1, min(last or len(rows), len(rows))))
    every = range(len(rows))
    if len(rows) > most:
        every = [it for it in every if it == 0 or rows[it].held != rows[it - 1].held or rows[it].is_refused][:most]
    return set(every)


def left_out(rows, shown):
    """Returns in words what isn't shown of a script, or None if all of it is."""
    missing = [it + 1 for it in range(len(rows)) if it not in shown]
    if not missing:
        return None
    return f"{len(missing)} of {len(rows)} lines aren't shown, the last of them line {missing[-1]}"
