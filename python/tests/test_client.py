"""Clients of dsfleet: 20,000 drawn lines, refusals, notices, late answers, and servers that hang up.

They are tried against a server that answers by the model, and against a dsfleet where PENGTAWIS_DSFLEET names one.
"""
import asyncio
import contextlib
import os
import random
import socket
import tempfile
import threading
import time
import unittest
from unittest import mock

import support  # noqa: F401, I001: it finds the modules of tests/
import behaviour
import model
import servers
import stores
from pengtawis import AsyncClient, BadLine, Client, Refused, refusals
from pengtawis.client import _Inbox as Inbox, _judged

DRAWN = 25000
AT_ONCE = 50  # calls of one asyncio client
PATIENCE = 60  # seconds that an answer may take
LABEL = "publish 0/2 new eth0 label 3.0 = 3/16"
NO_FLEET = "PENGTAWIS_DSFLEET names no dsfleet"
HAS_FLEET = "PENGTAWIS_DSFLEET" in os.environ


def drawn(chance, store):
    """Draws a line for a store in this state, and seldom one that can't be read or asks nothing of one store."""
    line = behaviour.command_by_chance(chance) if chance.random() < 0.8 else stores.reading_by_chance(chance, store)
    if line.startswith(b"restart"):
        line = b"show"
    if chance.random() < 0.03:
        at = chance.randrange(len(line) + 1)
        line = line[:at] + bytes([chance.choice(b" x\x00\xff\"\\7")]) + line[at + 1 :]
    return chance.choice([b"side a", b"tick 1", b"", b"help"]) if chance.random() < 0.01 else line


def text_of(line):
    return line.decode("utf-8", "surrogateescape")


def judged(ask):
    """Returns the answer's lines, also of a refusal."""
    try:
        return ask()
    except BadLine as bad:
        return [str(bad)]
    except Refused as refused:
        version = " %d.%d" % refused.version if refused.version else ""
        return [f"refused {refused.word}{version}"]


def wanted_of(lines):
    return [it.decode("latin-1") for it in lines]


class Fuzzed(unittest.TestCase):
    def fuzz(self, path, seed, store):
        """Compares each answer with the model's."""
        chance = random.Random(seed)
        with Client(path, PATIENCE) as client:
            for number in range(1, DRAWN + 1):
                line = drawn(chance, store)
                wanted = wanted_of(servers.answered(store, line, number))
                self.assertEqual(judged(lambda: client.ask(text_of(line))), wanted, line)

    def test_a_server_by_the_model(self):
        with servers.Fake(seed=1) as server:
            self.fuzz(server.path, 1, model.Store(ring=4096, incarnation=7))

    @unittest.skipUnless(HAS_FLEET, NO_FLEET)
    def test_a_dsfleet(self):
        with servers.Real(1) as (path,):
            with Client(path, PATIENCE) as client:
                incarnation = int(client.ask("snapshot *")[-1].split()[2])
            self.fuzz(path, 2, model.Store(ring=4096, incarnation=incarnation))


class FuzzedAtOnce(unittest.TestCase):
    async def fuzz(self, path, seed, store):
        """Compares the answers to calls that overlap with the model's."""
        chance, number = random.Random(seed), 0
        async with AsyncClient(path) as client:
            while number < DRAWN:
                lines, wanted = [], []
                for _ in range(AT_ONCE):
                    number += 1
                    lines.append(drawn(chance, store))
                    wanted.append(wanted_of(servers.answered(store, lines[-1], number)))
                found = await asyncio.gather(*(client.ask(text_of(it)) for it in lines), return_exceptions=True)
                for line, one, other in zip(lines, found, wanted):
                    self.assertEqual(judged(lambda: given(one)), other, line)

    def test_a_server_by_the_model(self):
        with servers.Fake(seed=3) as server:
            asyncio.run(self.fuzz(server.path, 3, model.Store(ring=4096, incarnation=7)))

    @unittest.skipUnless(HAS_FLEET, NO_FLEET)
    def test_a_dsfleet(self):
        with servers.Real(1) as (path,):
            with Client(path, PATIENCE) as client:
                incarnation = int(client.ask("snapshot *")[-1].split()[2])
            asyncio.run(self.fuzz(path, 4, model.Store(ring=4096, incarnation=incarnation)))


@contextlib.contextmanager
def serving(work):
    """Yields the path of a socket. Its first connection is given to `work`, in a thread."""
    with tempfile.TemporaryDirectory() as home, socket.socket(socket.AF_UNIX) as listener:
        listener.bind(f"{home}/socket")
        listener.listen()

        def serve():
            with listener.accept()[0] as connection:
                connection.settimeout(PATIENCE)
                work(connection)

        thread = threading.Thread(target=serve)
        thread.start()
        yield f"{home}/socket"
        thread.join()


def given(answer):
    if isinstance(answer, Exception):
        raise answer
    return answer


class Answers(unittest.TestCase):
    def setUp(self):
        self.server = self.enter(servers.Fake())
        self.client = self.enter(Client(self.server.path, PATIENCE))

    def enter(self, it):
        found = it.__enter__()
        self.addCleanup(it.__exit__, None, None, None)
        return found

    def test_refusals_are_those_of_a_store(self):
        self.assertEqual(self.client.ask(LABEL), ["taken"])
        self.assertRaises(refusals.Exists, self.client.ask, LABEL.replace("3.0 = 3", "4.0 = 4"))
        with self.assertRaises(refusals.Clash) as raised:
            self.client.ask(LABEL.replace("3/16", "3/17"))
        self.assertEqual(raised.exception.version, (3, 0))
        self.assertEqual(self.client.ask("retrieve eth0 label"), ["found 3/16"])

    def test_refusals_of_a_dsfleet_alone(self):
        for word, it in (("notsender", refusals.NotSender), ("newer", Refused)):
            with self.assertRaises(it) as raised:
                _judged([f"refused {word}"])
            self.assertEqual(raised.exception.word, word)
            self.assertIn(word, str(raised.exception))
        self.assertEqual(Refused.word, "refused")

    def test_lines_that_are_none(self):
        for line, told in (("retreive eth0 label", "badline 1 0"), ("retrieve eth0", "badline 2 13"), ("side a", "norequest")):
            with self.assertRaises(BadLine) as raised:
                self.client.ask(line)
            self.assertEqual(str(raised.exception), told)

    def test_one_line_at_a_time(self):
        """Refuses two lines, whose second answer would be taken for that of the next line."""
        self.assertRaises(ValueError, self.client.ask, "show\nall")
        self.assertEqual(self.client.ask("show"), ["shown 0"])

    def test_a_key_named_notice(self):
        """Reads lines of keys that begin as a notice, a refusal or a bad line does."""
        for at, name in enumerate(("notice", "refused", "badline", "norequest")):
            self.client.ask(f"publish 0/2 new {name} label 1.0 = 1/{16 + at}")
            lines = self.client.ask(f'snapshot "{name}" 1')
            self.assertEqual(lines[:-1], [f"{name} label rs 1.0 = 1/{16 + at}"])
        self.assertEqual(list(self.client.notices(0)), [])

    def test_an_answer_of_megabytes(self):
        with self.server.lock:
            for at in range(2000):
                self.server.store.held[b"m%d" % at, 3] = b"eth0", (1, 0), b"ab" * 1024
        lines = self.client.ask("show")
        self.assertEqual((len(lines), lines[-1]), (2001, "shown 2000"))
        self.assertGreater(sum(map(len, lines)), 4000000)

    def test_what_comes_is_cut_anywhere(self):
        text = b"taken\n\nnotice 40\n\neth0 u32 eth0 3.0 = 1\nshown 1\n\n"
        for size in range(1, len(text) + 1):
            inbox = Inbox()
            pieces = [text[at : at + size] for at in range(0, len(text), size)]
            self.assertEqual([it for some in pieces for it in inbox.answers(some)], [["taken"], ["eth0 u32 eth0 3.0 = 1", "shown 1"]])
            self.assertEqual(list(inbox.notices()), [40])

    def test_notices(self):
        """Each listened subscription has one notice, in the order of arrival, however often it is owed one."""
        self.client.ask('subscribe 41 "tty" 1 later new')
        self.client.ask('subscribe 40 "eth0.*" 15 later new')
        self.assertEqual(list(self.client.notices(0)), [])
        for sub in (40, 41):
            self.assertEqual(self.client.ask(f"listen {sub}"), [f"listening {sub}"])
        with Client(self.server.path, PATIENCE) as other:
            other.ask(LABEL)
            other.ask("publish 3/16 new eth0.mtu u32 3.0 = 1500")
            other.ask(LABEL.replace("eth0", "tty").replace("3.0 = 3/16", "4.0 = 4/17"))
        self.assertEqual(self.client.ask("nameof 4/17"), ["named tty"])
        self.assertEqual(list(self.client.notices(0.05)), [40, 41])
        self.assertEqual(list(self.client.notices(0.05)), [])

    def test_a_notice_that_comes_later(self):
        self.client.ask('subscribe 40 "eth0" 1 later new')
        self.client.ask("listen 40")

        def publish():
            time.sleep(0.05)
            with Client(self.server.path, PATIENCE) as other:
                other.ask(LABEL)

        thread = threading.Thread(target=publish)
        thread.start()
        self.assertEqual(next(self.client.notices()), 40)
        thread.join()

    def test_a_late_answer_is_no_other_calls(self):
        with Client(self.server.path, 3) as client:
            with self.server.lock:
                self.assertRaises(socket.timeout, client.ask, "retrieve eth0 label")
                self.assertRaises(socket.timeout, client.ask, "retrieve eth0 u32")
            time.sleep(0.05)
            self.assertEqual(client.ask("show"), ["shown 0"])
            self.assertEqual(client.ask("all"), ["shown 0"])

    def test_notices_do_not_prolong_a_call(self):
        over = threading.Event()

        def notify(connection):
            for _ in range(200):
                if over.wait(0.02):
                    return
                connection.sendall(b"notice 40\n\n")

        with serving(notify) as path, Client(path, 0.2) as client:
            self.assertRaises(socket.timeout, client.ask, "show")
            over.set()

    def test_a_signal_when_the_answer_is_there(self):
        """The next call gets its own answer."""
        receive = self.client._receive

        def interrupted():
            while not self.client._answers:
                receive()
            raise KeyboardInterrupt

        with mock.patch.object(self.client, "_receive", interrupted):
            self.assertRaises(KeyboardInterrupt, self.client.ask, "nameof 0/2")
        self.assertEqual(self.client.ask("show"), ["shown 0"])

    def test_a_server_that_hangs_up(self):
        with servers.Fake(hangs=2) as server, Client(server.path, PATIENCE) as client:
            client.ask("show")
            client.ask("show")
            self.assertRaises(OSError, client.ask, "show")

    def test_notices_of_a_server_that_hangs_up(self):
        with servers.Fake(hangs=1) as server, Client(server.path, PATIENCE) as client:
            client.ask("listen 40")
            self.assertRaises(ConnectionError, next, client.notices())

    def test_no_server(self):
        self.assertRaises(FileNotFoundError, Client, self.server.path + ".none")


class AtOnce(unittest.IsolatedAsyncioTestCase):
    async def test_notices(self):
        with servers.Fake() as server:
            async with AsyncClient(server.path) as client, AsyncClient(server.path) as other:
                await client.ask('subscribe 40 "eth0" 1 later new')
                await client.ask("listen 40")
                noticed = []

                async def follow():
                    async for sub in client.notices():
                        noticed.append((sub, (await client.ask("check 40 8"))[0]))
                        if len(noticed) == 2:
                            return

                following = asyncio.create_task(follow())
                await other.ask(LABEL)
                while not noticed and not following.done():
                    await asyncio.sleep(0.01)
                await other.ask("delete 0/2 eth0 label 3.1")
                await asyncio.wait_for(following, PATIENCE)
                self.assertEqual(noticed, [(40, "eth0 label rs 3.0 = 3/16"), (40, "eth0 label rs 3.1 -")])

    async def test_a_call_that_is_given_up(self):
        with servers.Fake() as server:
            async with AsyncClient(server.path) as client:
                with server.lock:
                    with self.assertRaises(asyncio.TimeoutError):
                        await asyncio.wait_for(client.ask("retrieve eth0 label"), 0.05)
                self.assertEqual(await client.ask("show"), ["shown 0"])

    async def test_a_connection_that_is_left_at_once(self):
        with servers.Fake() as server:
            async with AsyncClient(server.path) as client:
                pass
            with self.assertRaises(ConnectionError):
                await asyncio.wait_for(client.ask("show"), PATIENCE)
            self.assertEqual([it async for it in client.notices()], [])

    async def test_what_is_not_sent_yet(self):
        """Leaving the client ends the connection, even if the server doesn't read."""
        left, received = threading.Event(), []

        def read(connection):
            left.wait(PATIENCE)
            while some := connection.recv(1 << 16):
                received.append(len(some))
            received.append(0)

        with serving(read) as path:
            async with AsyncClient(path) as client:
                asking = asyncio.create_task(client.ask("x" * 3000000))
                await asyncio.sleep(0.05)
                asking.cancel()
            left.set()
        self.assertEqual(received[-1:], [0])
        self.assertLess(sum(received), 3000000)

    async def test_a_server_that_hangs_up(self):
        """Fails the calls that wait and those that come later, and ends the notices."""
        with servers.Fake(hangs=1) as server:
            async with AsyncClient(server.path) as client:
                calls = asyncio.gather(*(client.ask("show") for _ in range(3)), return_exceptions=True)
                found = await asyncio.wait_for(calls, PATIENCE)
                self.assertEqual(found[0], ["shown 0"])
                self.assertTrue(all(isinstance(it, ConnectionError) for it in found[1:]), found)
                self.assertEqual([it async for it in client.notices()], [])
                with self.assertRaises(ConnectionError):
                    await client.ask("show")

    async def test_one_line_at_a_time(self):
        with servers.Fake() as server:
            async with AsyncClient(server.path) as client:
                with self.assertRaises(ValueError):
                    await client.ask("show\nall")
                self.assertEqual(await client.ask("show"), ["shown 0"])


@unittest.skipUnless(HAS_FLEET, NO_FLEET)
class OfTwoHosts(unittest.TestCase):
    def test_notices(self):
        """Publishes on one host, and waits for the notice on the other."""
        with servers.Real(2) as (one, other), Client(one, PATIENCE) as publisher, Client(other, PATIENCE) as follower:
            follower.ask('subscribe 40 "one.*" 1 later new')
            follower.ask("listen 40")
            self.assertEqual(publisher.ask(LABEL.replace("eth0", "one.eth0")), ["taken"])
            self.assertEqual(next(follower.notices(PATIENCE)), 40)
            self.assertEqual(follower.ask("check 40 8")[0], "one.eth0 label rs 3.0 = 3/16")
