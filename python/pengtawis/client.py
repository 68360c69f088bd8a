"""Clients of dsfleet and dsrs: one that waits, and one for asyncio. docs/reference/client.md describes the calls.

The lines are those of docs/reference/fleet.md and dsrs.md.
"""
from __future__ import annotations

import asyncio
import collections
import socket
import time
from typing import AsyncIterator, Deque, Dict, Iterable, Iterator, List, Optional, Set, Tuple, Type, TypeVar, cast

from .refusals import BadLine, NotAllowed, NotFound, Refused
from .values import KINDS, SPELLED, Cursor, Endpoint, Items, Value, Version, kind_of, mask_of
from .watch import Watch, pauses

AT_ONCE = 1 << 16  # bytes that are received at a time
CODING = "utf-8", "surrogateescape"  # by which any bytes pass
WORDS = {it.word: it for it in Refused.__subclasses__()}
SOONEST = 1e-6  # seconds of a timeout that is over, since 0 would be none
HUNG_UP = "the daemon hung up"
MOST = 256  # items of a check
PUBLIC = range(120, 128)  # the subscriptions that dsrs has for its clients
WORD_OF = {kind: word for word, (kind, _) in SPELLED.items()}
V = TypeVar("V", Endpoint, int, str, bytes)


class _Inbox:
    """Cuts what a socket receives into answers and notices. An empty line ends each of them."""

    def __init__(self) -> None:
        self._rest = bytearray()
        self._notices: Dict[int, None] = {}  # in the order in which they came; one of each subscription is enough

    def answers(self, some: bytes) -> Iterator[List[str]]:
        """Yields the lines of each complete answer. Each byte is searched only once, since an answer may have megabytes."""
        searched = max(len(self._rest) - 1, 0)
        self._rest += some
        end = self._rest.find(b"\n\n", searched)
        while end >= 0:
            lines = self._rest[:end].decode(*CODING).split("\n")
            del self._rest[: end + 2]
            end = self._rest.find(b"\n\n")
            if len(lines) == 1 and lines[0].startswith("notice "):
                self._notices[int(lines[0][7:])] = None
            else:
                yield lines

    def notices(self) -> Iterator[int]:
        while self._notices:
            sub = next(iter(self._notices))
            del self._notices[sub]
            yield sub

    def take(self, sub: int) -> bool:
        """Takes the notice of a subscription, and returns whether there was one."""
        has = sub in self._notices
        self._notices.pop(sub, None)
        return has


def _quoted(text: str) -> str:
    return '"%s"' % text.replace("\\", "\\\\").replace('"', '\\"')


def _spelled(value: Value) -> str:
    """Returns a value as a line has it."""
    kind = kind_of(value)
    return _quoted(cast(str, value)) if kind is str else cast(bytes, value).hex() if kind is bytes else str(value)


def scope_of(pattern: str, kinds: Iterable[type]) -> str:
    """Returns a pattern and kinds as a line has them."""
    return f"{_quoted(pattern)} {mask_of(kinds)}"


def _sent(line: str) -> bytes:
    if "\n" in line:
        raise ValueError("a newline ends a line: ask for one line after the other")
    return line.encode(*CODING) + b"\n"


def _judged(answer: List[str]) -> List[str]:
    """Returns the answer, or raises the refusal that its only line is."""
    word, _, why = answer[0].partition(" ")
    if len(answer) == 1 and word in ("badline", "norequest"):
        raise BadLine(answer[0])
    if len(answer) == 1 and word == "refused":
        name, _, version = why.partition(" ")
        refused = WORDS.get(name, Refused)(Version(*map(int, version.split("."))) if version else None)
        if name not in WORDS:  # of a newer dsfleet
            refused.word, refused.args = name, (answer[0],)
        raise refused
    return answer


class Client:
    """Sends lines to a dsfleet or a dsrs over a connection that is open until the end of its `with`. One thread at a time may use it.

    A call that takes longer than `timeout` seconds raises socket.timeout, which is TimeoutError from Python 3.10 on. Later calls
    still get their own answers, unless the line couldn't be sent within that time: then the client is closed. ConnectionError means
    that the daemon hung up: `reconnect`. A `connect` and a `Watch` do so themselves.
    """

    endpoint: Optional[Endpoint] = None  # under which the client publishes
    _is_instance = False

    def __init__(self, path: str, timeout: Optional[float] = None) -> None:
        self._path, self._timeout, self._opened, self._number = path, timeout, 0, 0
        self._open(socket.socket(socket.AF_UNIX))
        self._connect()

    def _open(self, connection: socket.socket) -> None:
        """Begins with a connection, to which nothing was sent."""
        self._socket, self._inbox = connection, _Inbox()
        self._answers: Deque[List[str]] = collections.deque()
        self._late = self._later = 0  # answers that nobody waits for: before the awaited one, and after it
        self._awaits = self._is_lost = False
        self._used: Set[int] = set()  # the subscriptions of this connection
        self._watched: Set[int] = set()  # those of watches
        self._opened += 1
        self._socket.settimeout(self._timeout)

    def _connect(self) -> None:
        try:
            self._socket.connect(self._path)
        except BaseException:
            self.close()
            self._is_lost = True
            raise

    def __enter__(self) -> Client:
        return self

    def __exit__(self, *_: object) -> None:
        self.close()

    def close(self) -> None:
        """Closes the connection. Subscriptions in the store stay."""
        self._socket.close()

    def reconnect(self) -> None:
        """Opens the connection again, and repeats the `act_as`. Subscriptions are lost; watches make their own again."""
        if self._is_instance:
            raise ConnectionError("dsrs has ended")
        self.close()
        self._open(socket.socket(socket.AF_UNIX))
        self._connect()
        if self.endpoint:
            self.ask(f"as {self.endpoint}")

    def fileno(self) -> int:
        """Returns the descriptor to poll. Then call `Watch.next` or `notices` until they time out: more may have come with an answer."""
        return self._socket.fileno()

    def ask(self, line: str) -> List[str]:
        """Sends a line, and returns the lines of its answer. A refusal is raised as the exception of its word."""
        sent = _sent(line)
        if self._is_lost:
            raise ConnectionError(HUNG_UP)
        self._send(sent)
        return _judged(self._answer())

    def _send(self, sent: bytes) -> None:
        try:
            self._socket.sendall(sent)
        except BaseException:
            self.close()  # a part of the line may be under way
            self._is_lost = True
            raise

    def _answer(self) -> List[str]:
        """Returns the next answer. If it isn't there in time, it is dropped when it comes."""
        end = None if self._timeout is None else time.monotonic() + self._timeout
        self._awaits = True
        try:
            while not self._answers:
                self._wait(end)
        except BaseException:
            self._late += not self._answers  # else it came, as a signal did
            self._answers.clear()
            raise
        finally:
            self._awaits, self._late, self._later = False, self._late + self._later, 0
        return self._answers.popleft()

    def _wait(self, end: Optional[float]) -> None:
        """Receives what comes until a time. socket.timeout: nothing did."""
        try:
            self._socket.settimeout(None if end is None else max(end - time.monotonic(), SOONEST))
            self._receive()
        finally:
            if self._socket.fileno() >= 0:
                self._socket.settimeout(self._timeout)

    def notices(self, timeout: Optional[float] = None) -> Iterator[int]:
        """Yields each subscription when its notice comes, but for those of watches. Ends after `timeout` seconds without a notice."""
        while True:
            yield from (it for it in self._inbox.notices() if it not in self._watched)
            try:
                self._wait(None if timeout is None else time.monotonic() + timeout)
            except (socket.timeout, BlockingIOError):
                return

    def _receive(self) -> None:
        try:
            some = self._socket.recv(AT_ONCE)
        except ConnectionError:
            some = b""
        if not some:
            self._is_lost = True
            raise ConnectionError(HUNG_UP)
        for answer in self._inbox.answers(some):
            if self._is_other(answer):
                continue
            if self._late:
                self._late -= 1
            else:
                self._answers.append(answer)
                self._late, self._later = self._later, 0  # the next answers are those to heartbeats

    def _is_other(self, answer: List[str]) -> bool:
        """Takes a line that isn't an answer. A client gets none but notices."""
        return False

    # ---- requests ----

    def retrieve(self, name: str, kind: Type[V]) -> V:
        """Returns the value of a live entry."""
        word = WORD_OF[kind]
        return cast(V, SPELLED[word][1](self.ask(f"retrieve {name} {word}")[0].partition(" ")[2]))

    def nameof(self, endpoint: Tuple[int, int]) -> str:
        """Returns the least name whose live label holds the endpoint."""
        return self.ask("nameof %d/%d" % endpoint)[0].partition(" ")[2]

    def act_as(self, endpoint: Tuple[int, int]) -> None:
        """Makes a client of a dsfleet publish under an endpoint. An Instance has its own from the start."""
        where = Endpoint(*endpoint)
        self.ask(f"as {where}")
        self.endpoint = where

    def publish(self, name: str, value: Value) -> None:
        """Publishes a value, over an older one. The version is the endpoint's generation, and the client's count of its changes.

        Each call takes a new number, so a change without an answer is repeated by another call.
        """
        self._change(f"publish {self._caller()} over {name} {WORD_OF[kind_of(value)]}", f" = {_spelled(value)}")

    def delete(self, name: str, kind: type) -> None:
        """Ends a live entry. Its version is counted as that of `publish` is."""
        self._change(f"delete {self._caller()} {name} {WORD_OF[kind]}", "")

    def _caller(self) -> Endpoint:
        if self.endpoint is None:
            raise ValueError("there is no endpoint to publish under: call `act_as`, or use an Instance")
        return self.endpoint

    def _change(self, front: str, back: str) -> None:
        """Sends a change, with its version between the front and the back of its line."""
        number, self._number = self._number, self._number + 1
        self.ask(f"{front} {self._caller().generation}.{number}{back}")

    # ---- subscriptions ----

    def subscribe(self, pattern: str, kinds: Iterable[type] = KINDS, initial: bool = True) -> int:
        """Follows the names that a pattern matches whole, and asks for notices. Returns the number of the subscription.

        With `initial` the first check returns what is held already.
        """
        sub = self._subscribe(scope_of(pattern, kinds), "first" if initial else "later")
        self._watched.discard(sub)
        return sub

    def _subscribe(self, scope: str, when: str) -> int:
        """Subscribes by a number that nobody uses. A dsfleet chooses it; a dsrs can't read such a line, and has numbers for its clients."""
        try:
            sub = self._subscribe_from(self._own_subs(), scope, when)
        except BadLine:
            sub = self._subscribe_from(PUBLIC, scope, when)
        self.ask(f"listen {sub}")
        self._used.add(sub)
        return sub

    def _own_subs(self) -> Optional[range]:
        """Returns the subscriptions that belong to the client. None: the daemon chooses."""
        return None

    def _subscribe_from(self, subs: Optional[range], scope: str, when: str) -> int:
        if subs is None:
            return int(self.ask(f"subscribe {scope} {when} new")[-1].rpartition(" ")[2])
        for sub in (it for it in subs if it not in self._used):
            try:
                self.ask(f"subscribe {sub} {scope} {when} over")
                return sub
            except NotAllowed:
                pass
        raise NotAllowed()

    def check(self, sub: int) -> Items:
        """Returns the items that the subscription wasn't shown yet, at most 256."""
        return items_of(self.ask(f"check {sub} {MOST}")[:-1])

    def watch(self, pattern: str = ".*", kinds: Iterable[type] = KINDS, cursor: Optional[Tuple[int, int]] = None) -> Watch:
        """Follows the names that a pattern matches whole. Without a cursor everything that is held comes first.

        A lost connection is opened again, and the watch continues at its cursor.
        """
        return Watch(self, scope_of(pattern, kinds), None if cursor is None else Cursor(*cursor))

    # ---- services ----

    def connect(self, label: str) -> Tuple[Endpoint, socket.socket]:
        """Connects to the living instance of a service by its label. Returns the instance's endpoint and the connection.

        While the service or the daemon restarts, it tries again, until the client's timeout. NotFound: no instance lives then.
        """
        end = None if self._timeout is None else time.monotonic() + self._timeout
        for pause in pauses():
            try:
                if self._is_lost:
                    self.reconnect()
                where = self.retrieve(label, Endpoint)
                return where, self._connected(where)
            except (NotFound, ConnectionError, FileNotFoundError, BlockingIOError) as why:
                if self._is_instance and self._is_lost or end is not None and time.monotonic() >= end:
                    raise (ConnectionError(str(why)) if self._is_lost else NotFound()) from None
            time.sleep(pause)
        raise AssertionError("pauses have no end")

    def _connected(self, where: Endpoint) -> socket.socket:
        service = socket.socket(socket.AF_UNIX, socket.SOCK_SEQPACKET)
        try:
            service.connect(f"{self._path}.d/{where.generation}.{where.slot}")
            return service
        except BaseException:
            service.close()
            raise


def items_of(lines: List[str]) -> Items:
    """Returns the items of an answer. A line `owed` is none."""
    return Items("".join(f"{it}\n" for it in lines if not it.startswith("owed ")).encode(*CODING))


class AsyncClient:
    """Sends lines to a dsfleet from asyncio, over a connection that is open until the end of its `async with`. Calls may overlap.

    A call may be cancelled, also by asyncio.wait_for. Later calls still get their own answers. ConnectionError means that dsfleet
    hung up.

        async with AsyncClient("socket") as client:
            print(await client.ask("nameof 3/16"))
    """

    def __init__(self, path: str) -> None:
        self._path, self._inbox, self._ended = path, _Inbox(), False
        self._calls: Deque[asyncio.Future[List[str]]] = collections.deque()  # which wait, in the order of their answers

    async def __aenter__(self) -> AsyncClient:
        self._socket = socket.socket(socket.AF_UNIX)
        self._socket.setblocking(False)
        try:
            await asyncio.get_running_loop().sock_connect(self._socket, self._path)
            # Writes go through another descriptor of the socket: on the same one, a failed write would lose what isn't read yet.
            _, self._writer = await asyncio.open_unix_connection(sock=self._socket.dup())
        except BaseException:
            self._socket.close()
            raise
        cast(asyncio.ReadTransport, self._writer.transport).pause_reading()
        self._came, self._draining = asyncio.Event(), asyncio.Lock()
        self._task = asyncio.create_task(self._receive())
        return self

    async def __aexit__(self, *_: object) -> None:
        self._ended = True
        self._came.set()
        self._writer.transport.abort()  # even if dsfleet doesn't read what is left
        self._task.cancel()
        try:
            await asyncio.wait([self._task])
        finally:
            self._socket.close()

    async def ask(self, line: str) -> List[str]:
        """Sends a line, and returns the lines of its answer. A refusal is raised as the exception of its word."""
        sent = _sent(line)
        if self._ended:
            raise ConnectionError(HUNG_UP)
        call = asyncio.get_running_loop().create_future()
        self._calls.append(call)
        self._writer.write(sent)
        try:
            async with self._draining:  # Python 3.9 lets only one task wait
                await self._writer.drain()
        except OSError:
            pass  # the call raises it
        except BaseException:
            call.cancel()  # so that its answer is dropped
            raise
        return _judged(await call)

    async def notices(self) -> AsyncIterator[int]:
        """Yields each subscription when its notice comes. First send `listen SUB`. Ends with the connection."""
        while True:
            for sub in self._inbox.notices():
                yield sub
            if self._ended:
                return
            self._came.clear()
            await self._came.wait()

    async def _receive(self) -> None:
        try:
            while some := await asyncio.get_running_loop().sock_recv(self._socket, AT_ONCE):
                for answer in self._inbox.answers(some):
                    call = self._calls.popleft()
                    if not call.done():
                        call.set_result(answer)
                self._came.set()
        except OSError:
            pass
        finally:
            self._ended = True
            self._came.set()
            for call in self._calls:
                if not call.done():
                    call.set_exception(ConnectionError(HUNG_UP))
