#!/usr/bin/env python3
"""Tests of the built program rh_roles over loopback: each role is a process of its own."""
import contextlib
import os
import pathlib
import pty
import random
import re
import signal
import socket
import subprocess
import tempfile
import threading
import time
import unittest

TOP = pathlib.Path(__file__).resolve().parent.parent
PROGRAM = TOP / "crates/rh_roles/out/rh_roles"
HOST = "127.0.0.1"
# Seconds until a process is taken as one that doesn't end.
PATIENCE = 30
# What a proxy answers on an OUT channel of the lifetime that stands where none is set.
RESPONSE = b"""HTTP/1.1 200 Success\r
Content-Type: application/rpc\r
Content-Length: 1073807360\r
\r
"""
LOST = r"closed (1 LegBroken|2 LegEnded) [a-z]+1( \d+)?"
FORMS = (
    "client <server> <ins> <outs>",
    "inproxy <host:port> <count>",
    "outproxy <host:port> <count>",
    "server <host:port>",
)
# States of a socket, as the system writes them.
JOINED, LISTENS = "01", "0A"
NO_FORM = [
    "",
    "Client",
    "client",
    "client 127.0.0.1:593",
    "client 127.0.0.1:593 127.0.0.1:593",
    "client 127.0.0.1:593 127.0.0.1:593 127.0.0.1:593 1",
    "client 127.0.0.1:593 127.0.0.1:593, 127.0.0.1:593",
    "client 127.0.0.1:593 127.0.0.1:593 " + ",".join(["127.0.0.1:593"] * 17),
    "inproxy 127.0.0.1:593",
    "inproxy 127.0.0.1:593 0",
    "inproxy 127.0.0.1:593 65",
    "inproxy 127.0.0.1:593 01",
    "outproxy 127.0.0.1:593",
    "outproxy 127.0.0.1:593 1 1",
    "server",
    "server 127.0.0.1",
    "server 127.0.0.1:",
    "server :593",
    "server 127.0.0.1:0",
    "server 127.0.0.1:65536",
    "server 127.0.0.1:0593",
    "server [::1]:593",
    "server a/b:593",
    "server " + "a" * 256 + ":593",
    "server 127.0.0.1:593 1",
    "--help server",
    "-h",
]


def pdu(length, call):
    """A PDU of so many bytes, which behind the header tell the number of its call."""
    head = bytes.fromhex("0500000310000000") + length.to_bytes(2, "little") + bytes(2)
    return head + call.to_bytes(4, "little") + bytes([call % 256]) * (length - 16)


def pdus(count, first=1):
    """PDUs of many lengths, the least and the greatest among them."""
    lengths = [16, 8192, *(16 + at * 613 % 8177 for at in range(count - 2))]
    return b"".join(pdu(length, first + at) for at, length in enumerate(lengths))


def has(port, state):
    """How many sockets in this state the port has, by what the system tells: nobody connects to
    find out."""
    lines = pathlib.Path("/proc/net/tcp").read_text().splitlines()[1:]
    ends = [(words[1].rpartition(":")[2], words[3]) for words in map(str.split, lines)]
    return ends.count((f"{port:04X}", state))


def drained(leg):
    """What comes on a leg until it ends. The leg is closed then."""
    found = b""
    with leg, contextlib.suppress(ConnectionResetError):
        while piece := leg.recv(65_536):
            found += piece
    return found


def play(listener, answer):
    """Plays a proxy, which answers the first bytes of one caller and hears it to its end."""
    with contextlib.suppress(OSError):
        leg, _ = listener.accept()
        leg.settimeout(PATIENCE)
        leg.recv(65_536)
        leg.sendall(answer)
        drained(leg)


class Roles(unittest.TestCase):
    @classmethod
    def setUpClass(cls):
        # Builds the program where it isn't built.
        subprocess.run([TOP / "rh_roles", "--version"], check=True, capture_output=True)

    def file(self, given=b""):
        """A file with these bytes, at its front."""
        file = tempfile.TemporaryFile()
        self.addCleanup(file.close)
        file.write(given)
        file.seek(0)
        return file

    def full(self):
        """A device that takes no byte."""
        device = open("/dev/full", "wb")
        self.addCleanup(device.close)
        return device

    def piped(self, given):
        """A pipe in which these bytes come, as an input."""
        cat = subprocess.Popen(["cat"], stdin=self.file(given), stdout=subprocess.PIPE)
        self.addCleanup(cat.wait)
        self.addCleanup(cat.stdout.close)
        self.addCleanup(cat.kill)
        return cat.stdout

    def ports(self, count):
        """Ports at which nobody listens, and which the system gives to nobody that asks for any."""
        found = set()
        while len(found) < count:
            port = random.randrange(10_000, 32_000)
            with socket.socket() as it, contextlib.suppress(OSError):
                it.bind((HOST, port))
                found.add(port)
        return [*found]

    def start(self, *words, stdin=subprocess.DEVNULL, stdout=None):
        """A role, whose output goes to a file where nothing else is said."""
        output = stdout or self.file()
        words = [PROGRAM, *map(str, words)]
        role = subprocess.Popen(words, stdin=stdin, stdout=output, stderr=subprocess.PIPE)
        role.output = role.stdout or output
        self.addCleanup(self.stop, role)
        return role

    def listening(self, word, port, *words, **how):
        """A role that listens at the port, or has ended."""
        role = self.start(word, f"{HOST}:{port}", *words, **how)
        self.wait_until(lambda: has(port, LISTENS) or role.poll() is not None)
        return role

    def stop(self, role):
        role.kill()
        role.wait()
        for stream in (role.stdin, role.stdout, role.stderr):
            if stream:
                stream.close()

    def wait_until(self, is_so):
        end = time.monotonic() + PATIENCE
        while not is_so():
            self.assertLess(time.monotonic(), end, "this takes too long")
            time.sleep(0.01)

    def check(self, role, output=b"", status=0, said=""):
        """How a role ends: its status, the form of its text, and what it wrote."""
        self.assertEqual(role.wait(PATIENCE), status, role.args[1:])
        text = role.stderr.read().decode()
        self.assertTrue(re.fullmatch(said and said + "\\n", text), f"{role.args[1:]} told {text}")
        found = self.written(role)
        self.assertTrue(found == output, f"{role.args[1:]} wrote {len(found)} bytes: {found[:99]}")

    def written(self, role):
        """What is in its output, or left there."""
        if role.output.seekable():
            role.output.seek(0)
        return role.output.read()

    def connected(self, port):
        """A caller, of which the test plays the part."""
        caller = socket.create_connection((HOST, port), PATIENCE)
        self.addCleanup(caller.close)
        return caller

    def listener(self):
        """A peer that listens, and its port."""
        listener = socket.create_server((HOST, 0))
        listener.settimeout(PATIENCE)
        self.addCleanup(listener.close)
        return listener, listener.getsockname()[1]

    def peer(self, answer=b""):
        """The port of a proxy of one caller that the test plays."""
        listener, port = self.listener()
        peer = threading.Thread(target=play, args=(listener, answer))
        peer.start()
        self.addCleanup(peer.join)
        self.addCleanup(listener.shutdown, socket.SHUT_RDWR)
        return port


class FourRoles(Roles):
    """What runs of all four roles share."""

    def listen(self, ins=1, outs=1, **server):
        """Starts those that listen, the proxies for so many channels."""
        self.ports_of = self.ports(3)
        self.places = [f"{HOST}:{port}" for port in self.ports_of]
        self.server = self.listening("server", self.ports_of[0], **server)
        self.in_proxy = self.listening("inproxy", self.ports_of[1], ins)
        self.out_proxy = self.listening("outproxy", self.ports_of[2], outs)

    def call(self, **client):
        self.client = self.start("client", *self.places, **client)

    def all_end(self, up, down):
        """All end in order, and each end has what the other gave."""
        self.check(self.client, down)
        self.check(self.server, up)
        self.check(self.in_proxy)
        self.check(self.out_proxy)


class Relays(FourRoles):
    """Runs that end in order."""

    def test_a_pdu_goes_from_the_client_to_the_server(self):
        self.listen()
        self.call(stdin=self.file(pdu(72, 1)))
        self.all_end(pdu(72, 1), b"")

    def test_a_pdu_goes_from_the_server_to_the_client(self):
        self.listen(stdin=self.file(pdu(100, 2)))
        self.call()
        self.all_end(b"", pdu(100, 2))

    def test_nothing_comes_where_nothing_is_given(self):
        self.listen()
        self.call()
        self.all_end(b"", b"")

    def test_pdus_of_many_lengths_go_both_ways_at_once(self):
        up, down = pdus(60), pdus(60, 100)
        self.listen(stdin=self.file(down))
        self.call(stdin=self.file(up))
        self.all_end(up, down)

    def test_a_megabyte_goes_each_way_through_pipes(self):
        up, down = (b"".join(pdu(8000, first + at) for at in range(131)) for first in (1, 1000))
        self.listen(stdin=self.piped(down))
        self.call(stdin=self.piped(up))
        self.all_end(up, down)

    def test_what_comes_is_written_at_once(self):
        self.listen(stdin=subprocess.PIPE, stdout=subprocess.PIPE)
        self.call(stdin=subprocess.PIPE, stdout=subprocess.PIPE)
        for call in range(10):
            for one, other in ((self.client, self.server), (self.server, self.client)):
                one.stdin.write(pdu(500, call))
                one.stdin.flush()
                self.assertEqual(other.stdout.read(500), pdu(500, call))
        self.client.stdin.close()
        self.server.stdin.close()
        self.all_end(b"", b"")

    def test_hosts_may_be_names(self):
        self.listen()
        self.places = [it.replace(HOST, "localhost") for it in self.places]
        self.call(stdin=self.file(pdu(72, 1)))
        self.all_end(pdu(72, 1), b"")

    def test_two_clients_one_after_the_other_have_a_channel_of_a_proxy_each(self):
        self.listen(ins=2, outs=2)
        self.call(stdin=self.file(pdu(72, 1)))
        self.check(self.client)
        self.check(self.server, pdu(72, 1))
        self.server = self.listening("server", self.ports_of[0])
        self.call(stdin=self.file(pdu(72, 2)))
        self.all_end(pdu(72, 2), b"")


class Ends(FourRoles):
    """Runs that a role leaves."""

    def open_pipes(self):
        """A run whose ends have open pipes as inputs, and through which a PDU came."""
        self.listen(stdin=subprocess.PIPE, stdout=subprocess.PIPE)
        self.call(stdin=subprocess.PIPE, stdout=subprocess.PIPE)
        self.client.stdin.write(pdu(72, 1))
        self.client.stdin.flush()
        self.assertEqual(self.server.stdout.read(72), pdu(72, 1))

    def are_left(self, *roles):
        """They end though their inputs are open, for the legs that they lost."""
        for role in roles:
            self.check(role, status=7, said=LOST)

    def test_an_end_whose_input_is_an_open_pipe_ends_with_its_peers(self):
        self.open_pipes()
        self.server.kill()
        self.are_left(self.client, self.in_proxy, self.out_proxy)

    def test_a_server_whose_input_is_an_open_pipe_ends_with_its_client(self):
        self.open_pipes()
        self.client.kill()
        self.are_left(self.server, self.in_proxy, self.out_proxy)

    def test_an_end_whose_input_is_a_terminal_ends_with_its_peers(self):
        main, side = pty.openpty()
        self.addCleanup(os.close, main)
        self.addCleanup(os.close, side)
        self.listen(stdin=subprocess.PIPE)
        self.call(stdin=side)
        self.wait_until(lambda: has(self.ports_of[0], JOINED) == 2)
        self.server.kill()
        self.are_left(self.client, self.in_proxy, self.out_proxy)

    def test_ends_end_where_both_proxies_are_gone(self):
        self.open_pipes()
        self.in_proxy.kill()
        self.out_proxy.kill()
        self.are_left(self.client, self.server)

    def test_a_signal_stops_a_role_and_its_peers_end(self):
        for number in signal.SIGINT, signal.SIGTERM:
            self.open_pipes()
            self.in_proxy.send_signal(number)
            self.check(self.in_proxy, status=-number)
            self.are_left(self.client, self.server, self.out_proxy)

    def test_what_came_before_bad_input_is_given_and_then_the_peers_lose_their_legs(self):
        self.open_pipes()
        self.client.stdin.write(b"\4")
        self.client.stdin.write(pdu(72, 1))
        self.client.stdin.flush()
        self.check(self.client, status=2, said="bad input 2")
        self.are_left(self.server, self.in_proxy, self.out_proxy)

    def test_an_output_that_takes_nothing_is_a_write_fault(self):
        self.listen(stdin=subprocess.PIPE, stdout=self.full())
        self.server.output = self.file()
        # While its input is open no END goes, behind which a proxy may end in order.
        self.call(stdin=subprocess.PIPE)
        self.client.stdin.write(pdu(72, 1))
        self.client.stdin.flush()
        self.check(self.server, status=4, said="write fault")
        self.are_left(self.client, self.in_proxy, self.out_proxy)

    def test_an_output_that_nobody_reads_any_more_is_a_write_fault(self):
        self.open_pipes()
        self.server.stdout.close()
        self.server.output = self.file()
        self.client.stdin.write(pdu(72, 1))
        self.client.stdin.flush()
        self.check(self.server, status=4, said="write fault")
        self.are_left(self.client, self.in_proxy, self.out_proxy)


class Callers(FourRoles):
    """Callers that are no peers, and channels that are too many or too few."""

    def passes(self, call, **how):
        self.call(stdin=self.file(pdu(72, call)))
        self.check(self.client)

    def test_strangers_at_a_server_are_left_and_silent_callers_are_passed_over(self):
        self.listen()
        port = self.ports_of[0]
        silent = [self.connected(port) for _ in range(3)]
        for said in b"GET / HTTP/1.1\r\n\r\n", pdu(72, 1), b"\5":
            stranger = self.connected(port)
            stranger.sendall(said)
            stranger.shutdown(socket.SHUT_WR)
            self.assertEqual(drained(stranger), b"")
        self.connected(port).close()
        self.passes(1)
        self.all_end(pdu(72, 1), b"")
        for caller in silent:
            self.assertEqual(drained(caller), b"")

    def test_silent_callers_that_fill_a_server_are_left_after_five_seconds(self):
        self.listen()
        silent = [self.connected(self.ports_of[0]) for _ in range(8)]
        begun = time.monotonic()
        self.passes(1)
        self.assertLess(time.monotonic() - begun, 15)
        self.all_end(pdu(72, 1), b"")
        for caller in silent:
            self.assertEqual(drained(caller), b"")

    def test_a_caller_that_says_nothing_has_no_channel_of_a_proxy(self):
        self.listen()
        for port in self.ports_of[1:]:
            self.connected(port).close()
        silent = [self.connected(port) for port in self.ports_of[1:]]
        begun = time.monotonic()
        self.passes(1)
        self.all_end(pdu(72, 1), b"")
        self.assertLess(3, time.monotonic() - begun)
        for caller in silent:
            self.assertEqual(drained(caller), b"")

    def test_a_request_that_is_none_is_refused_and_closes_its_channel_alone(self):
        self.listen(2, 2)
        for port in self.ports_of[1:]:
            stranger = self.connected(port)
            stranger.sendall(b"GET / HTTP/1.1\r\n\r\n")
            refusal = b"HTTP/1.1 400 Bad Request\r\nContent-Length: 0\r\n\r\n"
            self.assertEqual(drained(stranger), refusal)
        self.passes(1)
        self.check(self.server, pdu(72, 1))
        self.check(self.in_proxy, status=7, said="closed 10 BadHead ci1 18 Method")
        self.check(self.out_proxy, status=7, said="closed 10 BadHead co1 18 Method")

    def test_an_echo_request_is_answered(self):
        [port] = self.ports(1)
        proxy = self.listening("inproxy", port, 1)
        caller = self.connected(port)
        request = b"RPC_IN_DATA /rpc/rpcproxy.dll?server:593 HTTP/1.1\r\nContent-Length: 16\r\n\r\n"
        caller.sendall(request)
        answer = drained(caller)
        self.assertTrue(answer.startswith(b"HTTP/1.1 200 Success\r\n"), answer)
        self.assertEqual(answer[-20:].hex(), "0500140310000000140000000000000040000000")
        self.check(proxy)

    def test_a_proxy_with_too_large_a_count_waits_on(self):
        self.listen(2, 2)
        self.passes(1)
        self.check(self.server, pdu(72, 1))
        time.sleep(1)
        for proxy in self.in_proxy, self.out_proxy:
            self.assertIsNone(proxy.poll())
            proxy.terminate()
            self.check(proxy, status=-signal.SIGTERM)

    def test_a_proxy_with_too_small_a_count_has_no_channel_for_the_next_client(self):
        self.listen()
        self.passes(1)
        self.all_end(pdu(72, 1), b"")
        self.call()
        self.check(self.client, status=5, said=f"net fault\nat {HOST}:{self.ports_of[2]}")


class Statuses(Roles):
    """What a role alone tells."""

    def client(self, answer=b"", **how):
        """A client whose proxies the test plays. The out proxy answers it this."""
        ports = 593, self.peer(), self.peer(answer)
        return self.start("client", *(f"{HOST}:{port}" for port in ports), **how)

    def test_texts_that_it_tells_of_itself(self):
        self.check(self.start("--version"), b"rh_roles 0.1.0\n")
        page = self.start("--help")
        page.wait(PATIENCE)
        page = self.written(page).decode()
        for words in *FORMS, "--help", "--version":
            self.assertIn(f"\n  rh_roles {words} ", page)
        page = self.start("--help", stdout=self.full())
        page.output = self.file()
        self.check(page, status=4, said="write fault")

    def test_the_page_and_the_definition_tell_its_statuses(self):
        page = self.start("--help")
        page.wait(PATIENCE)
        rows = re.findall(r"^  (\d+)  ([a-z ]+?)( <\w+>)?$", self.written(page).decode(), re.MULTILINE)
        cells = r"^\| (\d+) \| `([a-z ]+?)( <\w+>)?` \|"
        on_page = re.findall(cells, (TOP / "docs/RELAYS.md").read_text(), re.MULTILINE)
        self.assertEqual(on_page, rows)
        text = (TOP / "crates/rh_role_words/specs/Statuses.antt").read_text()
        numbers = dict(re.findall(r"^status_number \(?(\w+).*\)? = (\d+)$", text, re.MULTILINE))
        names = dict(re.findall(r'^status_name \(?(\w+).*\)? = codes "(.*)"$', text, re.MULTILINE))
        self.assertEqual((numbers.pop("Done"), names.pop("Done")), ("0", "done"))
        told = {(numbers[status], name) for status, name in names.items()}
        self.assertEqual({(number, name) for number, name, _ in rows}, told)

    def test_1_usage(self):
        for words in NO_FORM:
            self.check(self.start(*words.split()), status=1, said="usage")

    def test_2_bad_input(self):
        good = pdu(72, 1)
        for given, number in [
            (good * 2 + b"\4" + good[1:], 3),
            (good + bytes.fromhex("0500140310000000140000000000000040000000"), 2),
            (good[:10], 1),
            (good * 3 + good[:20], 4),
            (good[:8] + b"\x0f\0" + good[10:], 1),
        ]:
            client = self.client(stdin=self.file(given))
            self.check(client, status=2, said=f"bad input {number}")

    def test_3_read_fault(self):
        folder = os.open(TOP, os.O_RDONLY)
        self.addCleanup(os.close, folder)
        self.check(self.client(stdin=folder), status=3, said="read fault")

    def test_5_net_fault_where_a_port_is_in_use(self):
        _, port = self.listener()
        at = f"{HOST}:{port}"
        for words in ["server", at], ["inproxy", at, 1], ["outproxy", at, 1]:
            self.check(self.start(*words), status=5, said=f"net fault\nat {at}")

    def test_5_net_fault_where_an_address_is_no_own_one(self):
        at = "192.0.2.1:593"
        self.check(self.start("server", at), status=5, said=f"net fault\nat {at}")

    def test_5_net_fault_where_a_connection_is_refused(self):
        nowhere = self.ports(1)[0]
        for ports in (593, nowhere, self.peer()), (593, self.peer(), nowhere):
            client = self.start("client", *(f"{HOST}:{port}" for port in ports))
            self.check(client, status=5, said=f"net fault\nat {HOST}:{nowhere}")

    def test_a_server_that_is_not_there_is_a_net_fault_of_the_proxy_and_refuses_the_client(self):
        nowhere, port = self.ports(2)
        proxy = self.listening("inproxy", port, 1)
        ports = nowhere, port, self.peer()
        client = self.start("client", *(f"{HOST}:{port}" for port in ports))
        self.check(client, status=7, said="closed 9 HttpRefused ci1 503")
        self.check(proxy, status=5, said=f"net fault\nat {HOST}:{nowhere}")

    def test_7_closed_for_bytes_that_are_no_frame(self):
        client = self.client(RESPONSE + b"\4" + bytes(15))
        self.check(client, status=7, said="closed 3 BadFrame co1 83 Version 4")

    def test_7_closed_for_a_pdu_before_the_channel_is_open(self):
        client = self.client(RESPONSE + pdu(16, 1))
        self.check(client, status=7, said="closed 5 Unexpected co1 83")

    def test_7_closed_for_another_response(self):
        client = self.client(b"HTTP/1.1 401 Unauthorized\r\nContent-Length: 0\r\n\r\n")
        self.check(client, status=7, said="closed 9 HttpRefused co1 401")


def setUpModule():
    """Roles begin with the signals of a terminal, though a shell in the background ignores one."""
    if signal.getsignal(signal.SIGINT) == signal.SIG_IGN:
        signal.signal(signal.SIGINT, signal.default_int_handler)


if __name__ == "__main__":
    unittest.main()
