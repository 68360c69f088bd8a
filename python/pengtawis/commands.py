"""The commands of a store: those that a `Store` and a `Seat` have."""
from __future__ import annotations

import io
import struct
from ctypes import addressof, byref, c_char
from typing import TYPE_CHECKING, Any, Dict, FrozenSet, Iterable, Iterator, Optional, Tuple, Type, TypeVar, cast

from . import wrong
from .library import CHANGED, PIECE, REQUEST, ROOM, Answer, Command, Given, Handle
from .refusals import BadItems, NoRoom, NotFound, Refused
from .values import (
    KINDS, RS, Change, Cursor, Done, Endpoint, Items, Merged, Page, Reading, Subscribed, Swept, Value, bit_of, kind_of, lines_of, mask_of,
)

MOST = 256  # items of one answer, but for a snapshot's, and of one merge
OF_ALL = ("show", "entries", "keys", "values", "items", "list")
# The words of other stores, each with what does its work here.
ELSEWHERE = {
    **dict.fromkeys(("get", "read", "lookup", "label"), "retrieve(name, kind)"),
    **dict.fromkeys(("set", "put", "add", "write"), "publish(caller, name, value, version)"),
    **dict.fromkeys(("remove", "unset"), "delete(caller, name, kind, version)"),
    **dict.fromkeys(OF_ALL, "iteration over it"),
    **dict.fromkeys(("watch", "listen", "follow"), "subscribe(sub, pattern), and then check(sub)"),
    **dict.fromkeys(("dump", "save"), "snapshot()"),
    **dict.fromkeys(("load", "restore", "offer", "take"), "merge(items)"),
    "whois": "nameof(endpoint)",
}
V = TypeVar("V", Endpoint, int, str, bytes)
NONE = (0, 0)
NOBODY: FrozenSet[int] = frozenset()
Pair = Tuple[int, int]  # an endpoint, a version or a cursor


class Commands(Handle):
    """The handle of a store, or of a seat at a store's desk, and its commands."""

    _calls, _fetches = "ds_call", "ds_items"  # the library's calls that carry out a request, and fetch its text
    _elsewhere = ELSEWHERE

    def __init__(self, library: Optional[str], closes: str) -> None:
        super().__init__(library, closes)
        self._given = Given()
        self._given_at = byref(self._given)
        self._fetched = 0  # pieces of the last answer
        self._left: Optional[io.BytesIO] = None  # the text of a check to which the other pieces belong
        self._kept: Dict[int, io.BytesIO] = {}  # by subscription: what a check fetched before memory ran out

    if not TYPE_CHECKING:  # for which every name would be an attribute

        def __getattr__(self, name: str) -> Any:
            near = f": here it is {self._elsewhere[name]}" if name in self._elsewhere else ""
            raise AttributeError(f"a {type(self).__name__} has no `{name}`{near}")

    def __bool__(self) -> bool:
        return True  # also while it is empty

    def publish(self, caller: Pair, name: str, value: Value, version: Pair, overwrite: bool = False) -> Done:
        """Puts a value under a key, over a live entry only with `overwrite`. `changed` is False if it was held already.

        A name has 1 to 64 ASCII letters, digits, `.`, `_` and `-`; a str at most 256 printable ASCII characters; bytes at most 1024.
        The version is the caller's generation, and a number that the caller counts up. RS publishes a label by version (its
        generation, 0).

        ValueError: an argument is malformed. NoCaller, NotAllowed, NotOwner, Clash, Stale, Exists, Full and others: docs/reference/lines.md.
        """
        return done(self._request(Command.PUBLISH, *publication(caller, value, version), name, overwrite=overwrite))

    def delete(self, caller: Pair, name: str, kind: type, version: Pair) -> Done:
        """Ends a live entry, and leaves a tombstone. RS deletes a label by version (its generation, 1)."""
        return done(self._request(Command.DELETE, b"", caller, version, kinds=bit_of(kind), name=name))

    def sweep(self, caller: Pair, owner: str, generation: int) -> Swept:
        """Raises the floor of a dead owner, which drops the entries that it published up to this generation. Its label stays: delete it."""
        answer = self._request(Command.SWEEP, b"", caller, number=generation, name=owner)
        return Swept(answer.count, answer.subscriptions())

    def rs_started(self, label: str, endpoint: Pair) -> Done:
        """Publishes where a driver runs, as RS does at its start, over an earlier endpoint. The label's version is (its generation, 0)."""
        where = Endpoint(*wrong.pair("endpoint", endpoint))
        return self.publish(RS, label, where, (where.generation, 0), overwrite=True)

    def rs_died(self, label: str) -> Swept:
        """Ends what a dead driver left, as RS does: its label, and all that it published. A repeat does what a refusal left undone.

        NotFound: the store never held the label. NotAllowed: an `Rs` does so by itself.

        >>> with Store() as store:
        ...     _ = store.rs_started("eth0", Endpoint(3, 16))
        ...     _ = Publisher(store, Endpoint(3, 16)).publish("eth0.mtu", 1500)
        ...     store.rs_died("eth0").dropped, len(store)
        (1, 0)
        """
        wrong.check_name("label", wrong.spelled("label", label))
        under = self.snapshot(label.replace(".", r"\."), [Endpoint]).items
        held = next((it for it in under if isinstance(it, Change)), None)
        if held is None:
            raise NotFound()
        generation, owed = held.version.epoch, NOBODY
        if held.value is not None:
            owed = self.delete(RS, label, Endpoint, (generation, 1)).owed
        try:
            swept = self.sweep(RS, label, generation)
        except Refused as refused:
            refused.owed |= owed
            raise
        return Swept(swept.dropped, swept.owed | owed)

    def retrieve(self, name: str, kind: Type[V]) -> V:
        """Returns the value of a live entry."""
        answer = self._request(Command.RETRIEVE, kinds=bit_of(kind), name=name)
        if kind is int or kind is Endpoint:
            found: Any = answer.value if kind is int else Endpoint(answer.value, answer.value_slot)
        else:
            found = str(self._text(), "ascii") if kind is str else self._text()
        return cast(V, found)

    def nameof(self, endpoint: Pair) -> str:
        """Returns the least name whose live label holds the endpoint."""
        self._request(Command.NAMEOF, b"", endpoint)
        return str(self._text(), "ascii")

    def subscribe(
        self, sub: int, pattern: str, kinds: Iterable[type] = KINDS, initial: bool = True, overwrite: bool = False
    ) -> Subscribed:
        """Follows the names that a pattern matches whole. With `initial` the first check returns what is held already.

        `sub` is 0 to 127, and a pattern has at most 128 bytes. Exists: the number is in use, and `overwrite` is False.
        """
        text, mask = wrong.spelled("pattern", pattern), mask_of(kinds)
        answer = self._request(Command.SUBSCRIBE, text, sub=sub, kinds=mask, initial=initial, overwrite=overwrite)
        self._kept.pop(sub, None)
        return Subscribed(answer.after, answer.subscriptions())

    def check(self, sub: int, most: Optional[int] = None) -> Items:
        """Returns all items that no check of this subscription returned yet, or the first `most`.

        NoRoom loses none of them: the next check returns what was fetched already, too, whatever its `most`.

        >>> with Store() as store:
        ...     _ = store.subscribe(40, "eth0.*", kinds=[Endpoint])
        ...     _ = store.rs_started("eth0", Endpoint(3, 16))
        ...     [str(change.value) for change in store.check(40)]
        ['3/16']
        """
        text = self._kept.get(sub) or io.BytesIO()
        while True:
            shown = self._request(Command.CHECK, sub=sub, most=MOST if most is None else most).pieces
            self._kept[sub] = self._left = text  # until all of it is returned, whatever is raised meanwhile
            self._fetch(text)
            if most is not None or shown < MOST:
                items = Items(text.getvalue())
                del self._kept[sub]
                return items

    def snapshot(self, pattern: str = ".*", kinds: Iterable[type] = KINDS) -> Reading:
        """Returns all that is held under a pattern and kinds, tombstones too, all floors, and the cursor after them."""
        return self._reading(Command.SNAPSHOT, pattern, kinds)

    def page(
        self, after: Optional[Tuple[str, type]] = None, pattern: str = ".*", kinds: Iterable[type] = KINDS, most: int = MOST
    ) -> Page:
        """Returns the first `most` changes of a snapshot past the key `after`, in the order of keys. The first page has all floors, too.

        After all pages, continue with `since` from the first page's cursor: later ones miss what changed in between.

        >>> with Store() as store:
        ...     for at in range(3):
        ...         _ = store.rs_started(f"eth{at}", Endpoint(3, 16 + at))
        ...     first = store.page(most=2)
        ...     *_, last = first.items
        ...     first.is_last, list(store.page((last.name, last.kind)).items)[0].name
        (False, 'eth2')
        """
        name, mask = ("", 0) if after is None else (after[0], bit_of(after[1]))
        (items, cursor), is_last = self._reading(Command.PAGE, pattern, kinds, name=name, behind=mask, most=most), self._answer.last
        return Page(items, cursor, bool(is_last))

    def since(
        self, cursor: Pair, pattern: str = ".*", kinds: Iterable[type] = KINDS, most: int = MOST
    ) -> Iterator[Reading]:
        """Yields what took effect after a cursor, at most `most` items at a time, each time with the next cursor. Yields at least once.

        A reading is made when the iterator is advanced, so its refusal is raised there.

        >>> with Store() as store:
        ...     _, cursor = store.snapshot()
        ...     _ = store.rs_started("eth0", Endpoint(3, 16))
        ...     for items, cursor in store.since(cursor):
        ...         print(items.text.decode(), end="")
        eth0 label rs 3.0 = 3/16
        """
        kinds, more = list(kinds), True
        while more:
            reading = self._reading(Command.SINCE, pattern, kinds, cursor=cursor, most=most)
            yield reading
            cursor, more = reading.cursor, len(reading.items) == most

    def merge(self, items: Items) -> Merged:
        """Merges the items of other stores, 256 at a time, up to the first that is refused.

        The refusal has in `done` how many items are merged, and in `owed` who is owed a notice of them. BadItems: a line is malformed.
        """
        text, total, at = lines_of(items), Merged(0, 0, 0, frozenset()), 0
        while at < len(text):
            end = at
            for _ in range(MOST):
                end = text.find(b"\n", end) + 1 or len(text)
            try:
                answer = self._request(Command.MERGE, text, text_at=at, text_length=end - at)
            except Refused as refused:
                refused.done, refused.owed = refused.done + total.done, refused.owed | total.owed
                raise
            except ValueError:
                raise BadItems(total.done, total.owed) from None
            counts = total.done + answer.count, total.taken + answer.taken, total.stale + answer.stale
            total, at = Merged(*counts, total.owed | answer.subscriptions()), end
        return total

    def _ask(self, call: str, *words: Any) -> Answer:
        self._leave()
        return super()._ask(call, *words)

    def _leave(self) -> None:
        """Fetches the rest of a check's text, if some is left, before the next answer replaces it."""
        if self._left is not None:
            self._fetch(self._left)
        self._fetched = 0

    def _request(self, command: Command, text: bytes = b"", *parts: Any, **others: Any) -> Answer:
        request = request_of(command, text, *parts, **others)
        try:
            return self._ask(self._calls, request, text, len(text))
        except ValueError as fault:
            raise explained(fault, request, text) from None

    def _reading(self, command: Command, pattern: str, kinds: Iterable[type], **parts: Any) -> Reading:
        mask = mask_of(kinds)
        under = (pattern, mask) != (".*", 15)  # else it is everything, for which no pattern is read
        answer = self._request(command, wrong.spelled("pattern", pattern) if under else b"", kinds=mask, under=under, **parts)
        cursor = Cursor(answer.before, answer.after)
        return Reading(Items(self._text()), cursor)

    def _text(self) -> bytes:
        """Returns the whole text of the last answer."""
        text = io.BytesIO()
        self._fetch(text)
        return text.getvalue()

    def _fetch(self, text: io.BytesIO) -> None:
        """Fetches the rest of the last answer's text to the end of `text`. After NoRoom it may be called again."""
        while self._fetched < self._answer.pieces:
            given = self._more(text, self._fetches, self._fetched, min(ROOM, PIECE * (self._answer.pieces - self._fetched)))
            if not given.count:
                raise NoRoom()
            self._fetched += given.count
        text.truncate()
        self._left = None

    def _more(self, text: io.BytesIO, call: str, first: int, room: int) -> Given:
        """Has the library write more of the last answer's text straight into `text`, at its position, so nothing is copied again."""
        end = text.tell()
        try:
            text.seek(end + room - 1)
            text.write(b"\0")
            with text.getbuffer() as view:
                self._call(call, first, addressof(c_char.from_buffer(view, end)), room, self._given_at)
            end += self._given.length
        finally:
            text.seek(end)
        return self._given


def publication(caller: Pair, value: Value, version: Pair) -> Tuple[bytes, Pair, Pair, int, int, int]:
    """Returns the text of a publication, and its other parts up to the name."""
    number, slot = value if isinstance(value, Endpoint) else (value if isinstance(value, int) else 0, 0)
    text = value.encode() if isinstance(value, str) else value if isinstance(value, bytes) else b""
    return text, caller, version, number, slot, KINDS[kind_of(value)]


def request_of(
    command: Command, text: bytes, at: Pair = NONE, version: Pair = NONE, number: int = 0, slot: int = 0,
    kinds: int = 0, name: str = "", *, cursor: Pair = NONE, sub: int = 0, most: int = 0, overwrite: bool = False,
    initial: bool = False, under: bool = False, behind: int = 0, text_at: int = 0, text_length: Optional[int] = None,
) -> bytes:
    spelled, length = wrong.spelled("name", name), len(text) if text_length is None else text_length
    try:
        numbers = (*cursor, text_at, length, command, at[0], *version, number, sub, most, at[1], slot)
        return REQUEST.pack(*numbers, kinds, overwrite, initial, under, behind, len(spelled), spelled)
    except (TypeError, LookupError, struct.error):
        for what, it in (("cursor", cursor), (wrong.NAMES.get(command.word, {}).get("caller", "caller"), at), ("version", version)):
            wrong.pair(what, it)
        numbers = (*cursor, text_at, length, command, at[0], *version, number, sub, most, at[1], slot)
        wrong.check(wrong.request_parts(command.word, command is Command.PUBLISH and kinds == 1), numbers)
        wrong.check_name(wrong.NAMES.get(command.word, {}).get("name", "name"), spelled)
        raise


def explained(fault: ValueError, request: bytes, text: bytes) -> ValueError:
    """Returns the fault of a request: that of the argument which is wrong, if the request has no command."""
    if type(fault) is ValueError:
        try:
            wrong.check_request(REQUEST, request, Command(REQUEST.unpack(request)[4]).word, text)
        except ValueError as better:
            return better
    return fault


def done(answer: Answer) -> Done:
    return Done(answer.word == CHANGED, answer.subscriptions())
