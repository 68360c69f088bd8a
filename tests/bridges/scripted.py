"""A redis server whose answers a scene may script: a proxy that reads each question of a bridge, and the server's answer to it."""
import collections
import queue
import socket
import threading

from fleets import Proxy, shut
from waiting import until

CUT = object()  # instead of an answer: the connection ends
SWALLOW = object()  # no answer comes, and the connection stays open


class Rule:
    """Scripts the next `times` answers to questions that begin with `question`, or equal it if `whole`; `made` is as in Scripted.script."""

    def __init__(self, question, made, times, whole):
        self.question, self.made, self.left, self.whole = question, made, times, whole

    def concerns(self, words):
        return self.left and (words == self.question if self.whole else words.startswith(self.question))

    def is_used(self):
        return self.left == 0


class Scripted(Proxy):
    """Passes everything on, except the answers that rules script. `asked` counts questions by their first two words."""

    def __init__(self, port):
        self.rules, self.asked, self.lock = [], collections.Counter(), threading.RLock()
        super().__init__(port)

    def script(self, question, made, times=1, whole=False):
        """Scripts answers to questions that begin with `question`. `made` is bytes, CUT, SWALLOW, or a function of the server's answer,
        which may return an iterator of pieces.
        """
        rule = Rule(question, made, times, whole)
        with self.lock:
            self.rules.append(rule)
        return rule

    def script_first(self, question, made, times=1):
        """Scripts answers from now on, ahead of all other rules."""
        with self.lock:
            self.rules.insert(0, Rule(question, made, times, False))

    def script_and_wait(self, question, made, times=1):
        rule = self.script(question, made, times)
        until(rule.is_used, f"the answer to {question} is scripted")

    def join(self, near):
        try:
            far = socket.create_connection(("127.0.0.1", self.port))
        except OSError:
            near.close()
            return
        self.open += [near, far]
        self.count += 1
        questions = queue.Queue()
        threading.Thread(target=self.carry_questions, args=(near, far, questions), daemon=True).start()
        threading.Thread(target=self.carry_answers, args=(far, near, questions), daemon=True).start()

    def carry_questions(self, near, far, questions):
        try:
            with near.makefile("rb") as stream:
                while True:
                    raw, words = question_of(stream)
                    self.asked[" ".join(words.split()[:2])] += 1
                    questions.put(words)
                    far.sendall(raw)
        except (OSError, ValueError):
            pass
        for it in (near, far):
            shut(it)

    def carry_answers(self, far, near, questions):
        try:
            with far.makefile("rb") as stream:
                while True:
                    answer = self.scripted(raw_answer(stream), questions.get())
                    if answer is CUT:
                        break
                    if answer is not SWALLOW:
                        for piece in [answer] if isinstance(answer, bytes) else answer:
                            near.sendall(piece)
        except (OSError, ValueError):
            pass
        for it in (near, far):
            shut(it)

    def scripted(self, raw, words):
        """Returns the answer of the first rule for the question, or the server's. A rule that waits holds up only its own connection."""
        with self.lock:
            rule = next((it for it in self.rules if it.concerns(words)), None)
            if rule is None:
                return raw
            rule.left -= 1
        return rule.made(raw) if callable(rule.made) else rule.made


def line_of(stream):
    line = stream.readline()
    if not line.endswith(b"\r\n"):
        raise ValueError("it hung up")
    return line


def question_of(stream):
    """Returns a question's bytes, and its words joined by spaces."""
    raw = line_of(stream)
    words = []
    for _ in range(int(raw[1:])):
        head = line_of(stream)
        body = stream.read(int(head[1:]) + 2)
        raw += head + body
        words.append(body[:-2].decode("latin1"))
    return raw, " ".join(words)


def raw_answer(stream):
    """Returns an answer's bytes."""
    raw = line_of(stream)
    if raw[:1] == b"$" and raw[1:3] != b"-1":
        raw += stream.read(int(raw[1:]) + 2)
    elif raw[:1] == b"*":
        raw += b"".join(raw_answer(stream) for _ in range(max(0, int(raw[1:]))))
    return raw
