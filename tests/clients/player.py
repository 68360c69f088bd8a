#!/usr/bin/env python3
"""player.py: carries out the commands of standard input by the package `pengtawis`, as player.c does. player.py instance: a service."""
import os
import select
import socket
import sys

import pengtawis
from pengtawis import Anew, BadLine, Change, Client, Endpoint, Floor, Instance, Refused
from pengtawis.values import KINDS, SPELLED

TURN = int(os.environ.get("TURN", "20")) / 1000  # seconds
KIND = {word: kind for word, (kind, _) in SPELLED.items()}
WORD = {kind: word for word, kind in KIND.items()}


def spelled(value):
    return value.hex() if isinstance(value, bytes) else str(value)


def item_text(item):
    if isinstance(item, Anew):
        return "anew"
    if isinstance(item, Floor):
        return f"! {item.owner} {item.generation}"
    body = "-" if item.value is None else f"= {spelled(item.value)}"
    return f"{item.name} {WORD[item.kind]} {item.owner} {item.version.epoch}.{item.version.seq} {body}"


def kinds_of(mask):
    return [kind for kind, bit in KINDS.items() if int(mask) & bit]


def seconds(text):
    return None if int(text) < 0 else int(text) / 1000


class Player:
    """A method for each command: it takes the rest of the line, and returns what is printed."""

    def __init__(self):
        self.client, self.watches = None, []

    def open(self, rest):
        path, timeout = rest.split(" ")
        self.client = Client(path, seconds(timeout))

    def ask(self, rest):
        return "".join(f"{it}|" for it in self.client.ask(rest))

    def two(self, rest):
        self.client.ask(f"{rest}\nshow")

    def retrieve(self, rest):
        name, kind = rest.split(" ")
        return spelled(self.client.retrieve(name, KIND[kind]))

    def nameof(self, rest):
        return self.client.nameof(Endpoint.parse(rest))

    def act_as(self, rest):
        self.client.act_as(Endpoint.parse(rest))

    def publish(self, rest):
        name, kind, text = rest.split(" ", 2)
        self.client.publish(name, text if kind == "str" else SPELLED[kind][1](text))

    def delete(self, rest):
        name, kind = rest.split(" ")
        self.client.delete(name, KIND[kind])

    def subscribe(self, rest):
        pattern, mask = rest.split(" ")
        return f"sub {self.client.subscribe(pattern, kinds_of(mask))}"

    def check(self, rest):
        return "".join(f"{item_text(it)}|" for it in self.client.check(int(rest)))

    def notice(self, rest):
        found = next(self.client.notices(seconds(rest)), None)
        if found is None:
            raise TimeoutError
        return f"notice {found}"

    def watch(self, rest):
        pattern, mask, *cursor = rest.split(" ")
        self.watches.append(self.client.watch(pattern, kinds_of(mask), tuple(map(int, cursor)) or None))
        return f"watch {len(self.watches) - 1}"

    def unwatch(self, rest):
        self.watches[int(rest)].close()

    def next(self, rest):
        number, timeout = rest.split(" ")
        return item_text(self.watches[int(number)].next(seconds(timeout)))

    def cursor(self, rest):
        found = self.watches[int(rest)].cursor
        return "%d %d" % found if found else "none"

    def connect(self, rest):
        where, service = self.client.connect(rest)
        with service:
            service.send(b"hello")
            return f"{where} {service.recv(4096).decode()}"

    def reconnect(self, rest):
        self.client.reconnect()


def fault_of(fault):
    if isinstance(fault, Refused):
        return fault.word
    if isinstance(fault, BadLine):
        return str(fault).partition(" ")[0]
    return "timeout" if isinstance(fault, TimeoutError) else "badcall" if isinstance(fault, (ValueError, TypeError)) else "lost"


def play():
    player = Player()
    for line in sys.stdin:
        verb, _, rest = line.rstrip("\n").partition(" ")
        try:
            said = getattr(player, "act_as" if verb == "as" else verb)(rest)
        except (Refused, ValueError, TypeError, OSError) as fault:
            said = f"fault {fault_of(fault)}"
        print("ok" if said is None else said, flush=True)


# ---- the process of a service ----


def answer(me, listener):
    """Answers the message of a client that waits, if there is one."""
    if select.select([listener], [], [], 0)[0]:
        with listener.accept()[0] as client:
            client.send(str(me.endpoint).encode() + b" " + client.recv(4096))


def look(me, watch):
    """Publishes the last label that a watch saw."""
    try:
        while True:
            item = watch.next(0)
            if isinstance(item, Change) and item.value:
                me.publish(f"{me.label}.saw", f"{item.name} {item.value}")
    except socket.timeout:
        pass


def live():
    with Instance(60) as me:
        listener, number = me.listener(), 0
        me.notify("READY=1")
        watch = me.watch("d", [Endpoint]) if "DS_SUB" in os.environ else None
        while True:
            number += 1
            me.publish(f"{me.label}.n", number)
            if watch:
                look(me, watch)
            me.wait(TURN)
            answer(me, listener)


if __name__ == "__main__":
    try:
        live() if sys.argv[1:] == ["instance"] else play()
    except ConnectionError:
        sys.exit(0)
    assert pengtawis
