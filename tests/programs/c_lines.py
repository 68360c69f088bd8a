"""Runs scripts on stores that read the lines themselves, for tests/programs/c, and compares the texts of their answers."""
import ctypes
import pathlib
import re

import c_calls
import c_worlds
import model

HEADER = (pathlib.Path(__file__).resolve().parents[2] / "c" / "ds.h").read_text()
WHOLE, TOO_SMALL = 0, 1
ASKED = {b"offer", b"show", b"all", *c_calls.COMMANDS} - {b"merge"}
SERVICES = {b"settings", b"service", b"death", b"beat", b"tick"}
BY_RS = re.compile(rb"(?:publish|delete|sweep) 0/2 ")


class Session(c_calls.Session):
    """A store behind a handle. The text of its answers is fetched `room` bytes at a time."""

    def ask(self, command, line, taken):
        self.call_line(line)
        return self.text().decode("latin1").splitlines()

    def call_line(self, line):
        """Returns the answer to a line."""
        answer = c_calls.Answer()
        called = self.library.ds_call_line(ctypes.byref(self.handle), line, len(line), ctypes.byref(answer))
        if called:
            raise AssertionError(f"call {called}")
        return answer

    def text(self):
        """Fetches the whole text of the last answer."""
        room, given, text = ctypes.create_string_buffer(self.room), c_calls.Given(), b""
        while True:
            called = self.library.ds_text(ctypes.byref(self.handle), len(text), room, self.room, ctypes.byref(given))
            more = given.length == self.room and given.stop == TOO_SMALL
            text += room.raw[: given.length]
            if called or not (more or given.stop == WHOLE and given.count == len(text)):
                raise AssertionError(f"byte {len(text)} of {given.count} wasn't returned: call {called}, stop {given.stop}")
            if not more:
                return text


class Stores(c_worlds.Stores):
    """Two stores and maps, whose stores read the lines themselves."""

    session = Session

    def all(self):
        return self.of_store(b"all", b"all", ())

    def show(self):
        return self.of_store(b"show", b"show\n", ())


def is_served(script):
    """Returns whether each line is a command of one store."""
    return all(line.split(b" ")[0] in ASKED for line in script)


def is_supervised(script):
    """Returns whether each line can be read and is a command of one store or of RS. The first one of RS opens it, or tries to."""
    words = [line.split(b" ")[0] for line in script]
    of_services = [it for it in words if it in SERVICES]
    return {*words} <= ASKED | SERVICES and of_services[:1] == [b"settings"] and not is_ended_early(script)


def is_ended_early(script):
    """Returns whether some line can't be read, so that a script ends there."""
    try:
        return not all(model.read(line, at == 0) for at, line in enumerate(script))
    except model.BadLine:
        return True


def opened(store, text, next=1, first=16):
    """Opens RS with the text of a line `settings`, and returns what a script prints, except for the number of slots."""
    fault = ctypes.create_string_buffer(16)
    refusal = store.library.ds_rs_open(ctypes.byref(store.handle), text, len(text), next, first, fault)
    if refusal:
        return b"refused %s\n" % model_word(refusal)
    service, count = ctypes.create_string_buffer(104), 0
    while store.library.ds_rs_service(ctypes.byref(store.handle), count, service) == 0:
        count += 1
    return b"services %d " % count


def model_word(number):
    """Returns the word of a refusal's number, from c/ds.h."""
    return re.search(r"^enum ds_refusal \{(.*?)\};", HEADER, re.DOTALL | re.MULTILINE)[1].replace(" = 1", "").split()[number - 1].strip(",")[3:].lower().encode()


def other_answer(line, is_open):
    """Returns the answer to a line that a script answers differently, or None: a command in RS's name, or an event before RS is open."""
    if is_open and BY_RS.match(line):
        return b"refused notallowed\n"
    return b"" if not is_open and line.split(b" ")[0] in SERVICES - {b"settings"} else None


def play(library, room, script, wanted):
    """A store with RS answers lines as a script does, up to the first one that a script answers differently."""
    store = Session(library, room)
    store.open(1, 0, 256)
    at, is_open = 0, False
    for line in script:
        other = other_answer(line, is_open)
        if other is not None:
            store.call_line(line)
            given = store.text()
            if given != other or store.close() != 0:
                raise AssertionError(f"{line[:120]}: {given[:600]}, wanted {other}")
            return
        if line.startswith(b"settings ") and not is_open:
            given = opened(store, line[9:])
            is_open = given.startswith(b"services")
            if is_open and wanted.startswith(given, at):
                given = wanted[at : wanted.index(b"\n", at) + 1]
        else:
            store.call_line(line)
            given = store.text()
        if not wanted.startswith(given, at):
            raise AssertionError(f"{line[:120]}: {given[:600]}, wanted {wanted[at:at + 600]}")
        at += len(given)
    if at != len(wanted) or store.close() != 0:
        raise AssertionError(f"it printed {at} bytes, wanted {len(wanted)}")


def read(library, script):
    """An empty store reads each line of a script as the model does: as a command of one store, as another command, or as none."""
    for line in sorted(set(script)):
        store = Session(library, 4096)
        store.open(1, 0, 256)
        answer = store.call_line(line)
        try:
            command = model.read(line, True)[0]
            wanted = None if command in ASKED else ("no_request", 0)
        except model.BadLine as bad:
            wanted = "bad_line", bad.place
        given = c_calls.WORDS[answer.word], answer.count
        if wanted and (given, store.text()) != (wanted, b"") or not wanted and (given[0] in ("no_request", "bad_line") or not store.text()):
            raise AssertionError(f"{line[:120]}: {given}, wanted {wanted or 'an answer'}")
        store.close()
