"""A store in this process."""
from __future__ import annotations

import io
import time
from ctypes import byref, c_size_t
from typing import FrozenSet, Iterable, Iterator, List, Optional, Tuple, Union, cast

from . import wrong
from .commands import Commands, Pair, done, explained, publication, request_of
from .library import PIECE, WANTING, WHOLE, Answer, Command, fault_of
from .refusals import NoRoom
from .values import Change, Done, Items, Value


class Store(Commands):
    """Holds facts about programs that crash and restart, until the end of its `with`.

    Threads may share a store if they hold a lock of their own around each use. They share one without a lock at a `Desk`.

    `incarnation` is the time in nanoseconds by default, so that no cursor of an earlier run is taken for one of this run.
    `library` is the path of libds.so.1. Without it the path is that of the variable PENGTAWIS_LIBRARY; without that, it is where
    ./install puts the library, lib/pengtawis/libds.so.1 below ~/.local or /usr/local; else the system's loader finds it.

    >>> with Store() as store:
    ...     _ = store.rs_started("eth0", Endpoint(3, 16))
    ...     _ = Publisher(store, Endpoint(3, 16)).publish("eth0.mtu", 1500)
    ...     store.retrieve("eth0.mtu", int)
    1500
    """

    def __init__(self, incarnation: Optional[int] = None, first: int = 0, ring: int = 256, library: Optional[str] = None) -> None:
        super().__init__(library, "ds_close")
        self._owed: FrozenSet[int] = frozenset()
        opening = time.time_ns() if incarnation is None else incarnation, first, ring
        wrong.check(wrong.OPENING, opening)
        self._call("ds_open", *opening)
        self._incarnation = opening[0]

    def __repr__(self) -> str:
        return f"<{type(self).__name__} of incarnation {self._incarnation}{'' if self._handle else ', closed'}>"

    def __len__(self) -> int:
        """Returns how many live entries it holds."""
        return self._ask("ds_call_line", b"show", 4).count

    def __iter__(self) -> Iterator[Change]:
        """Iterates over the live entries, by name, as they are now. A snapshot has the tombstones and the floors, too.

        >>> with Store() as store:
        ...     _ = store.rs_started("eth0", Endpoint(3, 16))
        ...     len(store), [(it.name, str(it.value)) for it in store]
        (1, [('eth0', '3/16')])
        """
        self._ask("ds_call_line", b"show", 4)
        return cast(Iterator[Change], iter(Items(self._text())))

    def publish_all(
        self, caller: Pair, entries: Iterable[Tuple[str, Value, Pair]], overwrite: bool = False
    ) -> List[Union[Done, Exception]]:
        """Publishes entries, each a name, a value and a version, by one call of the library.

        Returns, for each, what `publish` would return or raise. A number that the library can't be handed raises ValueError, and an
        argument of another type TypeError; then nothing is published.

        >>> with Store() as store:
        ...     _ = store.rs_started("eth0", Endpoint(3, 16))
        ...     told = store.publish_all(Endpoint(3, 16), [("mtu", 1500, (3, 1)), ("speed", 100, (2, 2)), ("mac", b"RT", (3, 3))])
        ...     [it.changed if isinstance(it, Done) else it.word for it in told]
        [True, 'badversion', True]
        """
        requests, texts, length = [], [], 0
        for name, value, version in entries:
            parts = publication(caller, value, version)
            requests.append(request_of(Command.PUBLISH, *parts, name, overwrite=overwrite, text_at=length))
            texts.append(parts[0])
            length += len(parts[0])
        answers, count = (Answer * len(requests))(), len(requests)
        self._leave()
        # One call answers all, since none of these answers has a text.
        self._call("ds_run", b"".join(requests), count, b"".join(texts), length, answers, count, byref(c_size_t()))
        return [outcome(*it) for it in zip(answers, requests, texts)]

    def line(self, line: str) -> str:
        """Returns the answer to a line of a script, as dsctl prints it. A refusal is raised. BadLine: the line can't be read."""
        spelled, self._owed = wrong.spelled("line", line), frozenset()
        self._owed = self._ask("ds_call_line", spelled, len(spelled)).subscriptions()
        return self.text()

    @property
    def owed(self) -> FrozenSet[int]:
        """The subscriptions that are owed a notice by the answer to the last `line`."""
        return self._owed

    def text(self) -> str:
        """Returns the last answer as dsctl prints it. If `line` raised NoRoom, call this to get its answer.

        If that is `refused noroom`, the line changed nothing.
        """
        text, room = io.BytesIO(), PIECE
        while True:
            given = self._more(text, "ds_text", text.tell(), room)
            if given.stop == WANTING:
                raise NoRoom()
            if given.stop == WHOLE:
                text.truncate()
                return str(text.getbuffer(), "ascii")
            room = given.count - text.tell()


def outcome(answer: Answer, request: bytes, text: bytes) -> Union[Done, Exception]:
    """Returns the answer to one publication of several, or why it was refused."""
    fault = fault_of(answer)
    if fault is None:
        return done(answer)
    return explained(fault, request, text) if isinstance(fault, ValueError) else fault
