"""TLS between a host and the server: a bridge's own, and a tunnel by the lines of docs/reference/fleet.md. scenes.py lists these."""
import contextlib
import os
import re
import shutil
import subprocess
import time

from fleets import ROOT, Fleet, Names, Proxy, Skipped, free_port
from scenes import number, numbers, offer, shows
from waiting import PATIENCE, until

NAME = "redis.example.org"  # the server's, on the page
KEY = ("-newkey", "ec", "-pkeyopt", "ec_paramgen_curve:P-256", "-nodes", "-days", "2")


def needed(**programs):
    """Skips the scene if one of these programs, each with its package of Debian, or a redis that speaks TLS is missing."""
    for program, package in {**programs, "openssl": "openssl"}.items():
        if not shutil.which(program):
            raise Skipped(f"{program} is missing: Debian: {package}")
    if "--tls" not in subprocess.run(["redis-cli", "--help"], capture_output=True, text=True).stdout:
        raise Skipped("this redis has no TLS")


def certify(home):
    """Makes a CA, and the keys and certificates of the server and of a host."""

    def openssl(name, *words):
        words = [
            "openssl", "req", "-x509", *KEY, "-subj", f"/CN={name}", *words, "-keyout", f"{home}/{name}.key", "-out", f"{home}/{name}.pem",
        ]
        subprocess.run(words, check=True, capture_output=True)

    openssl("ca")
    for name, others in ((NAME, ",DNS:localhost,IP:127.0.0.1"), ("host", "")):
        openssl(name, "-addext", f"subjectAltName=DNS:{name}{others}", "-CA", f"{home}/ca.pem", "-CAkey", f"{home}/ca.key")


def settings_of(home, port):
    """Returns the options of a server that also speaks TLS, and demands a certificate."""
    files = {"cert": f"{NAME}.pem", "key": f"{NAME}.key", "ca-cert": "ca.pem"}
    return ("--tls-port", str(port), *(word for it, file in files.items() for word in (f"--tls-{it}-file", f"{home}/{file}")))


class Tunnel:
    """An stunnel with the page's lines, on a socket of its own."""

    def __init__(self, home, port, name=NAME):
        lines = re.search(r"^    client = yes\n(?:    .*\n|\n)+", (ROOT / "docs" / "reference" / "fleet.md").read_text(), re.MULTILINE)[0]
        self.socket, self.conf = f"{home}/tunnel-{name}", f"{home}/{name}.conf"
        replaced = {r"/run/\S+": self.socket, "/etc/stunnel": home, rf"connect = {NAME}:\d+": f"connect = 127.0.0.1:{port}", NAME: name}
        for there, here in replaced.items():
            lines, count = re.subn(there, here, lines)
            assert count, f"the page's tunnel has no {there}"
        with open(self.conf, "w", encoding="ascii") as conf:
            conf.write(f"foreground = yes\npid =\n{lines.replace('    ', '')}")
        self.start()

    def start(self):
        self.process = subprocess.Popen(["stunnel", self.conf], stderr=subprocess.DEVNULL)

    def url(self):
        return f"unix://{self.socket}"

    def close(self):
        self.process.terminate()
        self.process.wait()


def a_tunnel_of_tls(fleet, draw):
    """A bridge serves through a tunnel, and continues when the tunnel returns. A server of another name isn't used."""
    needed(stunnel="stunnel4")
    certify(fleet.home)
    port = free_port()
    with Fleet(fleet.words, settings=settings_of(fleet.home, port)) as server, contextlib.closing(Tunnel(fleet.home, port)) as tunnel:
        near, far = server.start(), server.start(url=tunnel.url())
        lines = [number("a", 1, 1), number("b", 1, draw.randrange(100)), number("c", 1, 1)]
        offer(far, lines[0])
        offer(near, lines[1])
        for bridge in (near, far):
            shows(bridge, lines[:2])
        tunnel.close()
        until(lambda: far.state()["state"] == "away", "the tunnel is gone")
        offer(near, lines[2])
        tunnel.start()
        shows(far, lines)
        with contextlib.closing(Tunnel(fleet.home, port, "other.example.org")) as other:
            lost = server.start(url=other.url(), wait=False)
            until(lambda: "event=away" in lost.said(), "a server of another name isn't used")
            time.sleep(0.5)  # it tries again meanwhile
            assert "event=met" not in lost.said(), lost.said()
            server.bridges.remove(lost)
            lost.kill()
        server.end()


class Trickle(Proxy):
    """Carries a few bytes at a time."""

    PIECE = 100

    def carry(self, number, one, other, is_answer):
        try:
            while some := one.recv(self.PIECE):
                other.sendall(some)
                time.sleep(0.001)
        except OSError:
            pass
        super().carry(number, one, other, is_answer)  # to its end


def ran(fleet, *words):
    return subprocess.run([*fleet.words, *words], capture_output=True, text=True, timeout=PATIENCE)


def needed_by_bridges(fleet):
    needed()
    if "built without OpenSSL" in ran(fleet, "--check", "--cacert", f"{fleet.home}/none", "rediss://h").stdout:
        raise Skipped("dsfleet was built without OpenSSL: Debian: libssl-dev")


def tls_of_a_bridge(fleet, draw):
    """A bridge speaks TLS, by address and by name: with long texts, a restarted server, a connection of small pieces. It doesn't serve, and
    logs why, if a certificate can't be trusted, is for another name, or is missing. Files that can't be used are refused."""
    needed_by_bridges(fleet)
    certify(fleet.home)
    port, home, names = free_port(), fleet.home, fleet.adopt(Names())
    files = ("--cacert", f"{home}/ca.pem", "--cert", f"{home}/host.pem", "--key", f"{home}/host.key")
    with Fleet(fleet.words, settings=settings_of(home, port)) as server, contextlib.closing(Trickle(port)) as trickle:
        plain, url = server.start(), f"rediss://127.0.0.1:{port}"
        secure = [server.start(*files, url=it) for it in (url, f"rediss://localhost:{port}", f"rediss://127.0.0.1:{trickle.port_of()}")]
        lines = numbers("a", 3000)
        offer(secure[0], *lines)
        for at, bridge in enumerate((plain, *secure)):
            shows(bridge, lines)
            lines.append(number("b", at + 1, draw.randrange(100)))
            offer(bridge, lines[-1])
        server.kill_server()
        until(lambda: secure[0].state()["state"] == "away", "the server is gone")
        server.start_server()
        lines.append(number("c", 1, 1))
        offer(secure[1], lines[-1])
        shows(secure[0], lines)
        assert ran(fleet, "--check", *files, url).returncode == 0
        names.answer(server.host)
        for options, address, why in (
            (files[2:], url, "certificate verify failed|self-signed certificate|unable to get local issuer"),
            (files[:2], url, "certificate required"),
            (files, f"rediss://fleet.test:{port}", "ostname mismatch"),
        ):
            lost = server.start(*options, url=address, wait=False, at="lost", named=names.named)
            until(lambda: re.search(why, lost.said()), f"it logs {why}")
            assert "event=met" not in lost.said() and not os.path.exists(lost.socket), lost.said()
            server.bridges.remove(lost)
            assert lost.end() == 0
            os.remove(lost.log)
        for options in (
            ("--cacert", f"{home}/none"), ("--cert", f"{home}/host.pem"), ("--cert", f"{home}/host.pem", "--key", f"{home}/ca.key")
        ):
            refused = ran(fleet, *options, f"{home}/s", url)
            assert refused.returncode == 2 and "event=badtls" in refused.stderr and "TLS: " in refused.stderr, refused
        assert ran(fleet, *files, f"{home}/s", f"redis://127.0.0.1:{server.port}").returncode == 2, "files without TLS are ignored"
        server.end()


def a_server_that_shakes_no_hands(fleet, draw):
    """A server that doesn't answer the TLS handshake is given up after some seconds, which cost no processor time."""
    needed_by_bridges(fleet)
    with contextlib.closing(Proxy(fleet.port, *range(99))) as proxy:
        bridge = fleet.start(url=proxy.url().replace("redis:", "rediss:"), wait=False)
        until(lambda: proxy.count, "it calls")
        time.sleep(1)  # in which it begins TLS
        begun = bridge.spent()
        until(lambda: "the server answers nothing" in bridge.said(), "it is given up")
        spent = bridge.spent() - begun
        assert spent < 0.2, f"{spent} s of processor time in five seconds of waiting"
        assert bridge.end() == 0
        fleet.bridges.clear()
