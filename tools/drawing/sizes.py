"""The sizes of a picture's parts, and the width of a text, by DejaVu's fonts, which are wide."""

WIDTH = 1000  # of a picture, if its lanes fit
LINE, SMALL, MONO, TINY = 11, 10, 9.5, 9  # sizes of letters
CHIP, STEP = 15, 16  # the height of a chip, and of a step within a row

NARROW, BROAD = set("ijl.,:;'|!()[] /"), set("mwMWGOQ@%")


def mono_width(text, size):
    """Returns the width of a text in a monospaced font."""
    return 0.602 * size * len(text)


def sans_width(text, size, is_bold=False):
    """Returns the width of a text in a proportional font, or a little more."""
    units = sum(0.38 if it in NARROW else 0.97 if it in BROAD else 0.66 for it in text)
    return units * size * (1.1 if is_bold else 1)


def chip_width(text):
    """Returns the width of a chip with a text."""
    return 8 + mono_width(text, TINY)
