"""Scenes of a client and a daemon whose answers are scripted. Each is played by the player of each language."""
import os
import re
import socket
import threading
import time

from players import ROOT, Peer, Player, equal
from waiting import PATIENCE

SCENES = []


def scene(function):
    SCENES.append(function)
    return function


def subscribes(pattern="eth.*", kinds=1, when="later"):
    """Returns how a client subscribes at a dsfleet, and the answers."""
    return (f'subscribe "{pattern}" {kinds} {when} new', "subscribed 1\nsub 127"), ("listen 127", "listening 127")


# ---- lines and answers ----


@scene
def an_answer_in_pieces(stage):
    def talk(peer):
        peer.line("retrieve eth0 label")
        for byte in "found 3/16\n\n":
            peer.say(byte)
            time.sleep(0.005)
        peer.answers(("retrieve a str", 'found "say \\"a\\\\b\\""'), ("retrieve a mem", "found 00ff10"), ("retrieve b mem", "found "), ("show", "shown 0"))

    script, player = stage.script(talk), stage.player()
    player.plays(("retrieve eth0 label", "3/16"), ("retrieve a str", 'say "a\\b"'), ("retrieve a mem", "00ff10"), ("retrieve b mem", ""), ("ask show", "shown 0|"))
    player.end()
    script.end()


@scene
def half_an_answer_and_a_hang_up(stage):
    """The call is lost, and so is each later one, until the client connects again."""

    def first(peer):
        peer.line("retrieve eth0 label")
        peer.say("found 3/1")

    script, player = stage.script(first, lambda peer: peer.answers(("retrieve eth0 label", "found 4/16"))), stage.player()
    player.plays(("retrieve eth0 label", "fault lost"), ("retrieve eth0 label", "fault lost"), ("reconnect", "ok"), ("retrieve eth0 label", "4/16"))
    player.end()
    script.end()


@scene
def a_daemon_that_answers_late(stage):
    """A call ends at its timeout, and the answer that comes later is no other call's."""
    let = threading.Event()

    def talk(peer):
        peer.line("retrieve a u32")
        let.wait(PATIENCE)
        peer.say("found 1\n\n")
        peer.answers(("retrieve b u32", "found 2"))

    script, player = stage.script(talk), stage.player(timeout=5000)
    begun = time.monotonic()
    equal(player("retrieve a u32"), "fault timeout")
    assert 4.9 < time.monotonic() - begun < PATIENCE, "the timeout is another"
    player.begin("retrieve b u32")
    let.set()
    equal(player.said(), "2")
    player.end()
    script.end()


@scene
def a_daemon_that_never_answers(stage):
    def talk(peer):
        while peer.line():
            pass

    script, player = stage.script(talk), stage.player(timeout=100)
    for line in ("retrieve a u32", "connect a", "subscribe a 1", "notice 50"):
        begun = time.monotonic()
        equal(player(line), "fault timeout")
        assert time.monotonic() - begun < PATIENCE, line
    player.end()
    script.end()


@scene
def two_lines_are_not_one(stage):
    script, player = stage.script(lambda peer: peer.answers(("show", "shown 0"))), stage.player()
    player.plays(("two show", "fault badcall"), ("ask show", "shown 0|"))
    player.end()
    script.end()


@scene
def each_refusal_has_its_word(stage):
    """Every word of c/ds.h, the word of a dsfleet, one of a newer daemon, and lines that can't be read."""
    words = [it for it in re.findall(r'case DS_\w+: return "(\w+)";', (ROOT / "c/ds.h").read_text().partition("ds_refusal_text")[2])]
    assert len(words) > 40, words
    told = [f"refused {it}" for it in words if it != "clash"] + ["refused clash 3.7", "refused notsender", "refused tomorrow", "badline 1 0", "norequest"]
    script, player = stage.script(lambda peer: peer.answers(*(("show", it) for it in told))), stage.player()
    for it in told:
        word = it.removeprefix("refused ").partition(" ")[0]
        equal(player("ask show"), f"fault {word}")
    player.end()
    script.end()


@scene
def a_refusal_among_other_lines(stage):
    """Only an answer of one line is a refusal: RS' actions may have one below them."""
    answer = "kill 1/16\noffer d label rs 1.1 -\nrefused noroom\nactions 2"
    script, player = stage.script(lambda peer: peer.answers(("service down d", answer))), stage.player()
    equal(player("ask service down d"), answer.replace("\n", "|") + "|")
    player.end()
    script.end()


@scene
def an_answer_of_megabytes(stage):
    """1,000 entries with 1,024 bytes each."""
    lines = "".join(f"m{it} mem eth0 1.{it} = {'ab' * 1024}\n" for it in range(1000))
    script = stage.script(lambda peer: peer.answers(("check 9 256", f"{lines}checked 1000 1 2"), ("show", "shown 0")))
    player = stage.player()
    said = player("check 9")
    equal((said.count("|"), said[:12], len(said)), (1000, "m0 mem eth0 ", len(lines)))
    equal(player("ask show"), "shown 0|")
    player.end()
    script.end()


@scene
def values(stage):
    """What is published is spelled as a line has it."""
    longest = "x" * 256
    pairs = (
        ("label 4/17", "= 4/17"), ("u32 4294967295", "= 4294967295"), ('str say "a\\b"', '= "say \\"a\\\\b\\""'), ("str ", '= ""'),
        (f"str {longest}", f'= "{longest}"'), ("mem 00ff10", "= 00ff10"), ("mem ", "= "), ("mem " + "ab" * 1024, "= " + "ab" * 1024),
    )
    lines = [(f"publish 3/16 over a.b {value.split(' ')[0]} 3.{at} {spelled}", "taken") for at, (value, spelled) in enumerate(pairs)]
    script, player = stage.script(lambda peer: peer.answers(("as 3/16", "as 3/16"), *lines, ("delete 3/16 a.b u32 3.8", "known"))), stage.player()
    equal(player("publish a.b u32 1"), "fault badcall")
    equal(player("as 3/16"), "ok")
    for value, _ in pairs:
        equal(player(f"publish a.b {value}"), "ok")
    equal(player("delete a.b u32"), "ok")
    player.end()
    script.end()


@scene
def each_change_has_its_own_number(stage):
    """Numbers go on after a refusal, a timeout and a reconnect, which repeats the `as`."""

    def first(peer):
        peer.answers(("as 3/16", "as 3/16"), ("publish 3/16 over a u32 3.0 = 7", "refused nocaller"))
        peer.line("publish 3/16 over a u32 3.1 = 8")
        peer.line()  # until the client connects again

    def second(peer):
        peer.answers(("as 3/16", "as 3/16"), ("publish 3/16 over a u32 3.2 = 9", "taken\nowed 00000000000000000000010000000000"))

    script, player = stage.script(first, second), stage.player(timeout=5000)
    player.plays(("as 3/16", "ok"), ("publish a u32 7", "fault nocaller"), ("publish a u32 8", "fault timeout"), ("reconnect", "ok"), ("publish a u32 9", "ok"))
    player.end()
    script.end()


# ---- subscriptions ----


@scene
def notices_between_answers(stage):
    """A notice before an answer isn't taken for it, and is reported once."""

    def talk(peer):
        peer.answers(*subscribes("a.*", 3, "first"))
        peer.line("check 127 256")
        peer.say("notice 127\n\nnotice 127\n\n! eth0 2\na label rs 1.0 = 1/16\na.b str a 1.1 = \"x y\"\na.c u32 a 1.2 -\nchecked 4 1 2\n\n")
        peer.line("show")
        peer.say("shown 0\n\nnotice 127\n\n")
        peer.line()

    script, player = stage.script(talk), stage.player()
    items = "! eth0 2|a label rs 1.0 = 1/16|a.b str a 1.1 = x y|a.c u32 a 1.2 -|"
    player.plays(("subscribe a.* 3", "sub 127"), ("check 127", items), ("notice 60000", "notice 127"), ("notice 50", "fault timeout"))
    player.plays(("ask show", "shown 0|"), ("notice 60000", "notice 127"))
    player.end()
    script.end()


@scene
def a_dsrs_has_eight_numbers(stage):
    """A dsrs can't read `subscribe` without a number. A number of another client is refused, and one of the client's own isn't replaced."""

    def talk(peer):
        for sub in (121, 122):
            peer.answers(('subscribe "a" 1 first new', "badline 1 10"))
            peer.answers(('subscribe 120 "a" 1 first over', "refused notallowed"))
            peer.answers((f'subscribe {sub} "a" 1 first over', "subscribed 1"), (f"listen {sub}", f"listening {sub}"))
        peer.answers(('subscribe "a" 1 first new', "badline 1 10"))
        peer.answers(*((f'subscribe {sub} "a" 1 first over', "refused notallowed") for sub in (120, *range(123, 128))))
        peer.answers(('subscribe "a(" 1 first new', "refused badpattern"))

    script, player = stage.script(talk), stage.player()
    player.plays(("subscribe a 1", "sub 121"), ("subscribe a 1", "sub 122"), ("subscribe a 1", "fault notallowed"), ("subscribe a( 1", "fault badpattern"))
    player.end()
    script.end()


# ---- watches ----


def snapshot(*items, position=5, pattern="eth.*"):
    return f'snapshot "{pattern}" 1', "".join(f"{it}\n" for it in items) + f"snapshot {len(items)} 7 {position}"


def since(begin, *items, position=None, pattern="eth.*"):
    return f'since "{pattern}" 1 7 {begin} 256', "".join(f"{it}\n" for it in items) + f"since {len(items)} 7 {position or begin + len(items)}"


@scene
def a_watch_begins_with_all_that_is_held(stage):
    def talk(peer):
        peer.answers(*subscribes(), snapshot("! tty 1", "eth0 label rs 3.0 = 3/16"))
        peer.say("notice 127\n\n")
        peer.answers(since(5, "eth0 label rs 3.1 -", "! eth0 3"))
        peer.say("notice 127\n\n")
        peer.answers(since(7))
        peer.line()

    script, player = stage.script(talk), stage.player()
    player.plays(("watch eth.* 1", "watch 0"), ("cursor 0", "none"), ("next 0 60000", "anew"), ("next 0 60000", "! tty 1"), ("next 0 60000", "eth0 label rs 3.0 = 3/16"))
    player.plays(("next 0 60000", "eth0 label rs 3.1 -"), ("next 0 60000", "! eth0 3"), ("next 0 100", "fault timeout"), ("cursor 0", "7 7"), ("notice 50", "fault timeout"))
    player.end()
    script.end()


@scene
def a_watch_asks_on_while_there_is_more(stage):
    """A `since` that shows 256 items is followed by another, without a notice."""
    many = [f"eth{it} label rs 1.0 = 1/{it % 1000}" for it in range(256)]

    def talk(peer):
        peer.answers(*subscribes(), since(5, *many), since(261, "eth1 label rs 2.0 = 2/16"))
        peer.line()

    script, player = stage.script(talk), stage.player()
    equal(player("watch eth.* 1 7 5"), "watch 0")
    for it in [*many, "eth1 label rs 2.0 = 2/16"]:
        equal(player("next 0 60000"), it)
    player.plays(("next 0 50", "fault timeout"), ("cursor 0", "7 262"))
    player.end()
    script.end()


@scene
def a_watch_continues_at_its_cursor(stage):
    """The daemon hangs up in the middle of an answer: the watch connects again, subscribes, and continues, without a snapshot."""

    def first(peer):
        peer.answers(*subscribes(), snapshot("eth0 label rs 3.0 = 3/16"))
        peer.say("notice 127\n\n")
        peer.line(since(5)[0])
        peer.say("eth0 label rs 3.1 -\nsin")

    def second(peer):
        peer.answers(*subscribes(), since(5, "eth0 label rs 3.1 -", "eth0 label rs 4.0 = 4/16"))
        peer.line()

    script, player = stage.script(first, second), stage.player()
    player.plays(("watch eth.* 1", "watch 0"), ("next 0 60000", "anew"), ("next 0 60000", "eth0 label rs 3.0 = 3/16"))
    player.plays(("next 0 60000", "eth0 label rs 3.1 -"), ("next 0 60000", "eth0 label rs 4.0 = 4/16"), ("next 0 50", "fault timeout"), ("cursor 0", "7 7"))
    player.end()
    script.end()


def lost_cursor(stage, word):
    """After a refusal of its cursor a watch takes a snapshot, and says so."""

    def talk(peer):
        peer.answers(*subscribes(), (since(5)[0], f"refused {word}"), snapshot("eth0 label rs 9.0 = 9/16", position=90))
        peer.say("notice 127\n\n")
        peer.answers(since(90))
        peer.line()

    script, player = stage.script(talk), stage.player()
    player.plays(("watch eth.* 1 7 5", "watch 0"), ("cursor 0", "7 5"), ("next 0 60000", "anew"), ("next 0 60000", "eth0 label rs 9.0 = 9/16"), ("next 0 100", "fault timeout"))
    player.plays(("cursor 0", "7 90"),)
    player.end()
    script.end()


@scene
def a_cursor_that_the_journal_has_lost(stage):
    lost_cursor(stage, "behind")


@scene
def a_cursor_of_another_run(stage):
    lost_cursor(stage, "oldcursor")


@scene
def a_cursor_of_the_future(stage):
    lost_cursor(stage, "ahead")


@scene
def a_cursor_moves_once_its_items_are_returned(stage):
    def talk(peer):
        peer.answers(*subscribes(), since(5, "eth0 label rs 3.0 = 3/16", "eth1 label rs 4.0 = 4/17"))
        peer.line()

    script, player = stage.script(talk), stage.player()
    player.plays(("watch eth.* 1 7 5", "watch 0"), ("next 0 60000", "eth0 label rs 3.0 = 3/16"), ("cursor 0", "7 5"))
    player.plays(("next 0 60000", "eth1 label rs 4.0 = 4/17"), ("next 0 50", "fault timeout"), ("cursor 0", "7 7"))
    player.end()
    script.end()


@scene
def a_watch_of_a_daemon_that_is_away(stage):
    """Without a daemon a watch waits until its timeout, and is lost then. It continues once there is one."""
    script, player = stage.script(lambda peer: peer.answers(*subscribes(), snapshot("eth0 label rs 3.0 = 3/16"))), stage.player()
    player.plays(("watch eth.* 1", "watch 0"), ("next 0 60000", "anew"), ("next 0 60000", "eth0 label rs 3.0 = 3/16"))
    script.end()
    begun = time.monotonic()
    equal(player("next 0 300"), "fault lost")
    assert 0.25 < time.monotonic() - begun < PATIENCE, "it waits for another time"
    player.begin("next 0 60000")
    time.sleep(0.1)
    script = stage.script(lambda peer: peer.answers(*subscribes(), since(5, "eth0 label rs 3.1 -")))
    equal(player.said(), "eth0 label rs 3.1 -")
    player.end()
    script.end()


@scene
def two_watches_and_a_subscription(stage):
    """Each watch takes its own notices, and a subscription's go to the caller."""

    def talk(peer):
        peer.answers(('subscribe "a" 1 later new', "subscribed 1\nsub 127"), ("listen 127", "listening 127"), snapshot(pattern="a"))
        peer.answers(('subscribe "b" 1 later new', "subscribed 1\nsub 126"), ("listen 126", "listening 126"), snapshot(pattern="b"))
        peer.answers(('subscribe "c" 1 first new', "subscribed 1\nsub 125"), ("listen 125", "listening 125"))
        peer.say("notice 126\n\nnotice 125\n\nnotice 127\n\n")
        peer.answers(since(5, "b label rs 3.0 = 3/16", pattern="b"), since(5, "a label rs 4.0 = 4/16", pattern="a"))
        peer.say("notice 127\n\n")
        peer.line()

    script, player = stage.script(talk), stage.player()
    player.plays(("watch a 1", "watch 0"), ("next 0 60000", "anew"), ("watch b 1", "watch 1"), ("next 1 60000", "anew"), ("subscribe c 1", "sub 125"))
    player.plays(("next 1 60000", "b label rs 3.0 = 3/16"), ("notice 60000", "notice 125"), ("next 0 60000", "a label rs 4.0 = 4/16"))
    player.plays(("unwatch 0", "ok"), ("notice 100", "fault timeout"))
    player.end()
    script.end()


@scene
def a_watch_that_is_refused(stage):
    """The pattern's refusal is the watch's, each time."""

    def talk(peer):
        peer.answers(*[('subscribe "(" 1 later new', "refused badpattern")] * 2)

    script, player = stage.script(talk), stage.player()
    player.plays(("watch ( 1", "watch 0"), ("next 0 1000", "fault badpattern"), ("next 0 1000", "fault badpattern"))
    player.end()
    script.end()


# ---- the connection of an instance ----


class OfInstance:
    """A dsrs' end of descriptor DS_FD, and a player that is the instance 3/16 of the service `a`."""

    def __init__(self, stage, *words):
        ours, theirs = socket.socketpair()
        self.notified = socket.socket(socket.AF_UNIX, socket.SOCK_DGRAM)
        self.notified.bind(f"{stage.home}/n")
        self.notified.settimeout(PATIENCE)
        self.listener = socket.socket(socket.AF_UNIX, socket.SOCK_SEQPACKET)
        self.listener.bind(f"{stage.home}/l")
        self.listener.listen()
        given = {"DS_FD": theirs.fileno(), "DS_LISTEN": self.listener.fileno(), "DS_LABEL": "a", "DS_ENDPOINT": "3/16"}
        given.update(DS_FOLDER=f"{stage.path}.d", NOTIFY_SOCKET=f"{stage.home}/n", TURN=500)
        named = {key: str(value) for key, value in given.items()}
        player = Player([*stage.words(), "instance"], env=stage.environment(named), pass_fds=[theirs.fileno(), self.listener.fileno()])
        stage.open.append(player)
        theirs.close()
        self.peer, self.player = Peer(ours), player

    def end(self):
        """Ends the dsrs, and so the instance."""
        self.peer.close()
        self.player.ran.wait(PATIENCE)
        self.notified.close()
        self.listener.close()


@scene
def an_instance_beats_and_publishes(stage):
    """A ping is answered while the instance waits for an answer, and while it waits for nothing. Each answer is its own line's."""
    dsrs = OfInstance(stage)
    equal(dsrs.notified.recv(100), b"READY=1")
    dsrs.peer.line("publish 3/16 over a.n u32 3.0 = 1")
    dsrs.peer.say("ping\n\npeer 2/17\n\ntaken\n\n")
    dsrs.peer.line("beat")
    late = "actions 0\n\n"  # to the heartbeat
    for number in range(1, 4):
        dsrs.peer.line(f"publish 3/16 over a.n u32 3.{number} = {number + 1}")
        dsrs.peer.say(f"{late}taken\n\n" if number == 2 else f"{late}taken\n\nping\n\n")
        if number == 2:  # while the instance waits
            time.sleep(0.05)
            dsrs.peer.say("ping\n\n")
        dsrs.peer.line("beat")
    dsrs.peer.line("publish 3/16 over a.n u32 3.4 = 5")
    dsrs.peer.say(late)
    dsrs.peer.say("refused nocaller\n\n")
    dsrs.peer.line("")  # it ends at once
    dsrs.end()
    equal(dsrs.player.ran.returncode, 1)


@scene
def an_instance_whose_dsrs_ends(stage):
    dsrs = OfInstance(stage)
    dsrs.peer.answers(("publish 3/16 over a.n u32 3.0 = 1", "taken"))
    dsrs.end()
    equal(dsrs.player.ran.returncode, 0)


# ---- a service by its label ----


def at(stage, where):
    """Serves the socket of an endpoint: it answers one message with its endpoint and the message."""
    path = f"{stage.path}.d/{where.replace('/', '.')}"
    os.makedirs(f"{stage.path}.d", exist_ok=True)
    listener = socket.socket(socket.AF_UNIX, socket.SOCK_SEQPACKET)
    listener.bind(path)
    listener.listen()

    def serve():
        with listener.accept()[0] as client:
            client.send(where.encode() + b" " + client.recv(100))

    threading.Thread(target=serve, daemon=True).start()
    return listener


@scene
def a_service_that_is_between_two_instances(stage):
    """There is no label, then one whose socket isn't there yet, then one whose instance is dead, and then a living one."""
    alive = []
    os.makedirs(f"{stage.path}.d")
    with socket.socket(socket.AF_UNIX, socket.SOCK_SEQPACKET) as dead:
        dead.bind(f"{stage.path}.d/3.17")

    def talk(peer):
        line = "retrieve echo label"
        peer.answers((line, "refused notfound"), (line, "found 3/16"), (line, "found 3/17"))
        alive.append(at(stage, "4/16"))
        peer.answers((line, "found 4/16"))

    script, player = stage.script(talk), stage.player()
    equal(player("connect echo"), "4/16 4/16 hello")
    player.end()
    script.end()


@scene
def a_service_that_does_not_come(stage):
    def talk(peer):
        while peer.line():
            peer.say("refused notfound\n\n")

    script, player = stage.script(talk), stage.player(timeout=5000)
    begun = time.monotonic()
    equal(player("connect echo"), "fault notfound")
    assert 4 < time.monotonic() - begun < PATIENCE, "it waits for another time"
    player.end()
    script.end()


@scene
def a_service_whose_daemon_restarts(stage):
    """The client connects again, and finds the instance of the next daemon."""
    listener = at(stage, "5/16")
    script = stage.script(lambda peer: peer.line("retrieve echo label"), lambda peer: peer.answers(("retrieve echo label", "found 5/16")))
    player = stage.player()
    equal(player("connect echo"), "5/16 5/16 hello")
    player.end()
    script.end()
    listener.close()


@scene
def nobody_serves_the_socket(stage):
    player = stage.player(opens=False)
    player.plays((f"open {stage.path} 1000", "fault lost"), (f"open {stage.path}{'x' * 200} 1000", "fault lost"))
    player.end()
