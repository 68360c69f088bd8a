"""Reads a table of cases: a text that shows each case as a title, what is typed and what is answered. See tests/README.md."""
import codecs
import os
import re
import shlex
import tempfile
from dataclasses import dataclass, field

LINE = re.compile(r"(~?)([>|!])(?: (.*))?")  # a line of the input, of the output or of standard error; ~ before it: with escapes
STREAMS = {">": "input", "|": "output", "!": "error"}


@dataclass(frozen=True)
class Text:
    """The input of a case, with those calls of a path that read a file."""

    bytes: bytes

    def read_bytes(self):
        return self.bytes

    def read_text(self):
        return self.bytes.decode()

    def stat(self):
        with self.open("rb") as file:
            return os.fstat(file.fileno())

    def open(self, _mode):
        """Returns an open file with these bytes."""
        file = tempfile.TemporaryFile()
        file.write(self.bytes)
        file.seek(0)
        return file


@dataclass
class Row:
    """A case of a table."""

    title: str
    args: list = field(default_factory=list)
    input: bytes = b""
    output: bytes = b""
    error: bytes = None
    status: int = 0

    def name(self):
        """Returns the title as a word: `A text's end` is a_texts_end."""
        return re.sub(r"\W+", "_", self.title.replace("'", "").lower()).strip("_")

    def add(self, is_escaped, mark, text):
        """Adds a line to what the mark says. A line with escapes has its newline as one, too."""
        line = codecs.escape_decode(text.encode())[0] if is_escaped else text.encode() + b"\n"
        setattr(self, STREAMS[mark], (getattr(self, STREAMS[mark]) or b"") + line)


def rows(path):
    """Yields the cases of a table. The first line is its heading, and each title comes after an empty line."""
    row, follows = None, False
    for number, line in enumerate(path.read_text().splitlines()[1:], 2):
        found = LINE.fullmatch(line)
        if not line:
            if row:
                yield row
            row, follows = None, True
        elif follows:
            row, follows = Row(line), False
        elif row and found:
            row.add(*found.group(1, 2), found[3] or "")
        elif row and line.startswith("$ "):
            row.args = shlex.split(line[2:])
        elif row and line.startswith("= "):
            row.status = int(line[2:])
        else:
            raise ValueError(f"{path}, line {number}: {line!r} is no part of a case")
    if row:
        yield row
