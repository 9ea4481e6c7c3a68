#!/usr/bin/env python3
"""Tests of the built program rh_roles behind nginx, over loopback: tools/nginx_front.py runs it."""
import base64
import contextlib
import pathlib
import select
import shutil
import socket
import ssl
import subprocess
import tempfile
import threading
import unittest

from test_relays import HOST, LISTENS, PATIENCE, FourRoles, has, pdus

FRONT = pathlib.Path(__file__).resolve().with_name("nginx_front.py")
NAME = "proxy.example"
USER, PASSWORD = "client", "secret"
BASIC = b"Basic " + base64.b64encode(f"{USER}:{PASSWORD}".encode())
PATH = f"/rpc/rpcproxy.dll?{HOST}:593"


def run(*words):
    return subprocess.run([*map(str, words)], check=True, capture_output=True, text=True).stdout


def received(leg):
    """What comes on a leg: no bytes at its end and where it was lost, and None where nothing came
    but what is TLS's own."""
    leg.setblocking(False)
    try:
        return leg.recv(65_536)
    except (BlockingIOError, ssl.SSLWantReadError):
        return None
    except OSError:
        return b""
    finally:
        with contextlib.suppress(OSError):
            leg.setblocking(True)


def pump(leg, far, change):
    """Passes bytes on both ways until they end, and then the end of that direction. Of what comes on
    the leg the first bytes are changed. One thread has both, since TLS reads and writes one state."""
    to, reading = {leg: far, far: leg}, [leg, far]
    while reading:
        held = [far] if far in reading and far.pending() else []
        for source in held or select.select(reading, [], [])[0]:
            piece = received(source)
            with contextlib.suppress(OSError):
                if piece:
                    to[source].sendall(change(piece) if source is leg else piece)
                    change = bytes if source is leg else change
                elif piece is not None:
                    reading.remove(source)
                    # TLS goes on the other way: the method of ssl.SSLSocket would end it.
                    socket.socket.shutdown(to[source], socket.SHUT_WR)


def with_password(piece):
    """The first bytes of a leg, with a password in its head."""
    line, _, rest = piece.partition(b"\r\n")
    return line + b"\r\nAuthorization: " + BASIC + b"\r\n" + rest


class Fronted(FourRoles):
    """Four roles, of which the client reaches its proxies through a front."""

    def setUp(self):
        self.folder = pathlib.Path(tempfile.mkdtemp())
        self.addCleanup(shutil.rmtree, self.folder, True)
        self.folder.chmod(0o755)
        self.key, self.certificate = self.folder / "key", self.folder / "certificate"
        run("openssl", "req", "-x509", "-newkey", "rsa:2048", "-nodes", "-days", 1,
            "-subj", f"/CN={NAME}", "-addext", f"subjectAltName=DNS:{NAME}",
            "-keyout", self.key, "-out", self.certificate)

    def front(self, front, *words):
        """Runs nginx where two ports are free, which become those of OUT and IN channels."""
        self.listen()
        self.fronts = self.ports(2)
        _, in_proxy, out_proxy = self.places
        words = [FRONT, front, self.folder / front, "--in", in_proxy, "--out", out_proxy,
                 "--listen", f"{HOST}:{self.fronts[0]}", "--certificate", self.certificate,
                 "--key", self.key, *words]
        nginx = subprocess.Popen([*map(str, words)], stderr=subprocess.PIPE)
        self.addCleanup(self.end, nginx)
        self.wait_until(lambda: has(self.fronts[0], LISTENS) or nginx.poll() is not None)
        if nginx.poll() is not None:
            self.fail(nginx.stderr.read().decode())

    def end(self, nginx):
        nginx.terminate()
        nginx.wait()
        nginx.stderr.close()

    def context(self, with_certificate):
        context = ssl.create_default_context(cafile=self.certificate)
        if with_certificate:
            context.load_cert_chain(self.certificate, self.key)
        return context

    def secured(self, port, with_certificate=False):
        """A TLS connection to the front."""
        plain = socket.create_connection((HOST, port), PATIENCE)
        with contextlib.ExitStack() as closing:
            closing.callback(plain.close)
            leg = self.context(with_certificate).wrap_socket(plain, server_hostname=NAME)
            closing.pop_all()
        self.addCleanup(leg.close)
        return leg

    def way(self, port, change, with_certificate):
        """The port of a plain way to the front, as a client has it that speaks no TLS."""
        listener = socket.create_server((HOST, 0))
        self.addCleanup(listener.close)

        def carry():
            with contextlib.suppress(OSError):
                leg, _ = listener.accept()
                self.addCleanup(leg.close)
                with contextlib.suppress(ValueError):  # the test closed them
                    pump(leg, self.secured(port, with_certificate), change)

        threading.Thread(target=carry, daemon=True).start()
        return f"{HOST}:{listener.getsockname()[1]}"

    def call_through(self, ports, change=bytes, with_certificate=False, **client):
        ways = [self.way(port, change, with_certificate) for port in ports]
        self.client = self.start("client", self.places[0], *ways, **client)


class Tls(Fronted):
    """nginx passes bytes on."""

    def setUp(self):
        super().setUp()
        told = subprocess.run([FRONT, "tls", self.folder, "--in", "a:1", "--out", "a:2",
                               "--listen", "a:3", "--listen-out", "a:4", "--certificate", "c",
                               "--key", "k", "--clients", "c", "--print"], capture_output=True)
        if told.returncode:
            self.skipTest(told.stderr.decode())

    def front(self, front, *words):
        port, = self.ports(1)
        super().front(front, "--listen-out", f"{HOST}:{port}", "--clients", self.certificate)
        self.fronts[1] = port

    def test_pdus_go_both_ways_and_all_end_in_order(self):
        up, down = pdus(60), pdus(40, 101)
        self.front("tls")
        self.stop(self.server)
        self.server = self.listening("server", self.ports_of[0], stdin=self.file(down))
        self.call_through(self.fronts, with_certificate=True, stdin=self.file(up))
        self.all_end(up, down)

    def test_a_caller_without_a_certificate_reaches_no_proxy(self):
        self.front("tls")
        with self.assertRaises((ssl.SSLError, ConnectionError)):
            leg = self.secured(self.fronts[0])
            leg.sendall(f"RPC_IN_DATA {PATH} HTTP/1.1\r\n\r\n".encode())
            if not leg.recv(1):
                raise ConnectionError
        self.call_through(self.fronts, with_certificate=True)
        self.all_end(b"", b"")


class Page(unittest.TestCase):
    def test_the_commands_of_the_page_have_a_form(self):
        page = (FRONT.parent.parent / "docs/DEPLOY.md").read_text()
        lines = [line for line in page.splitlines() if line.startswith("tools/nginx_front.py ")]
        self.assertEqual([line.split()[1] for line in lines], ["tls", "http"])
        for line in lines:
            told = subprocess.run([FRONT, *line.split()[1:], "--print"], capture_output=True)
            if told.returncode == 0 or b"stream module" not in told.stderr:
                self.assertEqual((told.returncode, told.stderr), (0, b""), line)


class Http(Fronted):
    """nginx takes requests."""

    def front(self, front, *words):
        users = self.folder / "users"
        users.write_text(f"{USER}:{run('openssl', 'passwd', '-apr1', PASSWORD)}")
        super().front(front, "--users", users)

    def answer(self, head):
        """The head of what the front answers to a request."""
        leg = self.secured(self.fronts[0])
        leg.sendall(head.replace("\n", "\r\n").encode())
        found = b""
        while b"\r\n\r\n" not in found and (piece := leg.recv(65_536)):
            found += piece
        return found.decode()

    def test_pdus_go_both_ways(self):
        up, down = pdus(60), pdus(40, 101)
        self.front("http")
        self.stop(self.server)
        self.server = self.listening(
            "server", self.ports_of[0], stdin=subprocess.PIPE, stdout=self.file()
        )
        self.call_through(
            self.fronts[:1] * 2, with_password, stdin=subprocess.PIPE, stdout=self.file()
        )
        for role, given in ((self.client, up), (self.server, down)):
            role.stdin.write(given)
            role.stdin.flush()
        self.wait_until(lambda: self.written(self.server) == up)
        self.wait_until(lambda: self.written(self.client) == down)

    def test_a_caller_without_the_password_reaches_no_proxy(self):
        self.front("http")
        for field in ("", f"Authorization: Basic {base64.b64encode(b'client:other').decode()}\n"):
            told = self.answer(f"RPC_OUT_DATA {PATH} HTTP/1.1\nHost: {NAME}\n{field}\n")
            self.assertTrue(told.startswith("HTTP/1.1 401 "), told)

    def test_other_methods_and_paths_reach_no_proxy(self):
        self.front("http")
        field = f"Host: {NAME}\nAuthorization: {BASIC.decode()}\n"
        told = self.answer(f"GET {PATH} HTTP/1.1\n{field}\n")
        self.assertTrue(told.startswith("HTTP/1.1 405 "), told)
        told = self.answer(f"RPC_OUT_DATA /other HTTP/1.1\n{field}\n")
        self.assertTrue(told.startswith("HTTP/1.1 404 "), told)

    def test_expect_is_answered(self):
        self.front("http")
        told = self.answer(
            f"RPC_IN_DATA {PATH} HTTP/1.1\nHost: {NAME}\nAuthorization: {BASIC.decode()}\n"
            "Content-Length: 1073741824\nExpect: 100-continue\n\n"
        )
        self.assertEqual(told, "HTTP/1.1 100 Continue\r\n\r\n")


if __name__ == "__main__":
    unittest.main()
