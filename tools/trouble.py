"""Runs of the four roles over loopback, with forwarders between them that make trouble.

    client - ins1 - inproxy1 - to_server - server
    client - outs1 - outproxy1 - to_server - server

There may be more proxies of each kind. All reach the server through one forwarder. A forwarder counts
its connections from 1, in the order in which they came; `up` is the way from the caller.
"""
import contextlib
import os
import pathlib
import random
import re
import resource
import select
import signal
import socket
import struct
import subprocess
import tempfile
import threading
import time
from typing import NamedTuple, Optional

HOST = "127.0.0.1"
PIECE = 65_536
# For how many seconds roles that wait for callers have nothing of any, until they are taken to do so.
QUIET = 1
# States of a socket, as the system writes them.
JOINED, LISTENS = "01", "0A"
WAYS = "up", "down"
# With a lost leg a role closes; a client whose proxy lost the server may be refused before.
LOST = re.compile(
    r"closed (?:1 LegBroken [a-z]{2}\d+|2 LegEnded [a-z]{2}\d+ \d+|9 HttpRefused [a-z]{2}\d+ 503)\n"
)
# Closing a socket that lingers so resets its connection.
RESETS = struct.pack("ii", 1, 0)


def pdu(length, call):
    """A request of so many bytes (C706 12.6.4), which behind the header tell the number of its call."""
    head = bytes.fromhex("0500000310000000") + length.to_bytes(2, "little") + bytes(2)
    return head + call.to_bytes(4, "little") + bytes([call % 256]) * (length - 16)


def pdus(count, first, length):
    """PDUs with numbers from the first on."""
    return b"".join(pdu(length, first + at) for at in range(count))


def has(port, state):
    """How many sockets in this state the port has, by what the system tells: nobody connects to
    find out."""
    lines = pathlib.Path("/proc/net/tcp").read_text().splitlines()[1:]
    ends = [(words[1].rpartition(":")[2], words[3]) for words in map(str.split, lines)]
    return ends.count((f"{port:04X}", state))


class Ports:
    """Ports at which nobody listens, and which the system gives to nobody that asks for any. Each is
    handed out once."""

    def __init__(self):
        self.given, self.lock = set(), threading.Lock()

    def next(self):
        while True:
            port = random.randrange(10_000, 32_000)
            with self.lock, socket.socket() as it, contextlib.suppress(OSError):
                if port not in self.given:
                    it.bind((HOST, port))
                    self.given.add(port)
                    return port


PORTS = Ports()


class Trouble(NamedTuple):
    """What comes upon a connection, behind so many of the bytes that go this way."""

    forwarder: str
    number: int
    way: str
    place: int
    # reset: both sides are reset. end: this way is ended, and what comes on it is lost. close: both
    # sides are closed in order. stall: nothing goes this way for so many seconds.
    act: str
    seconds: float = 0


class Pair:
    """One connection of a forwarder. One thread has both of its sockets, so that a reset is one."""

    def __init__(self, number, caller, target, troubles):
        self.number = number
        # What comes from a socket goes to the other one, but where nothing is to go there now.
        self.other = {caller: target, target: caller}
        self.way = {caller: "up", target: "down"}
        self.trouble = {it: troubles.get((number, self.way[it])) for it in self.other}
        self.passed = dict.fromkeys(WAYS, 0)
        self.until, self.is_lost = {}, set()
        for it in self.other:
            it.setsockopt(socket.IPPROTO_TCP, socket.TCP_NODELAY, 1)

    def run(self):
        going = [*self.other]
        try:
            for one in [*going]:
                if self.trouble[one] and not self.trouble[one].place:
                    self.make(one)
            while going:
                for one in self.ready(going):
                    piece = one.recv(PIECE)
                    if piece:
                        self.pass_on(one, piece)
                    else:
                        going.remove(one)
                        self.other[one].shutdown(socket.SHUT_WR)
        except OSError:
            self.reset()
        finally:
            for it in self.other:
                it.close()

    def ready(self, going):
        """The sockets from which something came, but of ways that are stalled."""
        now = time.monotonic()
        stalled = [it for it in going if self.until.get(it, 0) > now]
        watched = [it for it in going if it not in stalled]
        poll = select.poll()
        for it in watched:
            poll.register(it, select.POLLIN)
        wait = min((self.until[it] - now for it in stalled), default=None)
        found = {number for number, _ in poll.poll(None if wait is None else 1000 * wait + 1)}
        return [it for it in watched if it.fileno() in found]

    def pass_on(self, one, piece):
        trouble, passed = self.trouble[one], self.passed[self.way[one]]
        left = trouble.place - passed if trouble else 0
        if one in self.is_lost:
            return
        if not 0 < left <= len(piece):
            left = len(piece)
        self.other[one].sendall(piece[:left])
        self.passed[self.way[one]] = passed + left
        if trouble and trouble.place == passed + left:
            self.make(one)
            if piece[left:] and one not in self.is_lost:
                self.other[one].sendall(piece[left:])
                self.passed[self.way[one]] += len(piece) - left

    def make(self, one):
        """Makes the trouble of a way."""
        trouble = self.trouble[one]
        if trouble.act == "reset":
            raise ConnectionResetError
        if trouble.act == "close":
            for it in self.other:
                it.shutdown(socket.SHUT_RDWR)
        elif trouble.act == "end":
            self.is_lost.add(one)
            self.other[one].shutdown(socket.SHUT_WR)
        else:
            self.until[one] = time.monotonic() + trouble.seconds

    def reset(self):
        for it in self.other:
            with contextlib.suppress(OSError):
                it.setsockopt(socket.SOL_SOCKET, socket.SO_LINGER, RESETS)


class Forwarder:
    """Passes bytes on between callers and a port, and makes trouble as it was told."""

    def __init__(self, port, troubles=()):
        self.port, self.troubles = port, {(it.number, it.way): it for it in troubles}
        self.pairs = []
        self.listener = socket.create_server((HOST, 0), backlog=128)
        self.place = f"{HOST}:{self.listener.getsockname()[1]}"
        threading.Thread(target=self.accept, daemon=True).start()

    def accept(self):
        with contextlib.suppress(OSError):
            while True:
                caller, _ = self.listener.accept()
                try:
                    target = socket.create_connection((HOST, self.port))
                except OSError:
                    caller.close()
                    continue
                pair = Pair(len(self.pairs) + 1, caller, target, self.troubles)
                self.pairs.append(pair)
                threading.Thread(target=pair.run, daemon=True).start()

    def passed(self):
        """How many bytes passed, by the number of the connection and the way."""
        return {(it.number, way): count for it in self.pairs for way, count in it.passed.items()}

    def close(self):
        with contextlib.suppress(OSError):
            self.listener.shutdown(socket.SHUT_RDWR)
        self.listener.close()


class Ended(NamedTuple):
    """How a role ended, and what it wrote. One that waits for callers has no status."""

    status: Optional[int]
    said: str
    output: bytes


def descriptors(role):
    """How many descriptors a process has; none of one that ended."""
    with contextlib.suppress(OSError):
        return len([*pathlib.Path(f"/proc/{role.pid}/fd").iterdir()])
    return 0


def read(file):
    file.seek(0)
    return file.read()


class Run:
    """The four roles, each a process, with what the ends are given, and troubles. Ends that are given
    None have pipes. What is said of an output's `most` is how many bytes its file takes."""

    def __init__(self, program, up, down, troubles=(), channels=1, proxies=1, most=None):
        self.program, self.troubles = program, troubles
        self.most, self.stack = most or {}, contextlib.ExitStack()
        self.roles, self.forwarders, self.idle = {}, {}, {}
        try:
            port = self.listening("server", given=down)
            self.forward("to_server", port)
            for number in range(1, proxies + 1):
                self.forward(f"ins{number}", self.listening(f"inproxy{number}", channels))
                self.forward(f"outs{number}", self.listening(f"outproxy{number}", channels))
            self.start("client", *map(self.places, ("to_server", "ins", "outs")), given=up)
        except BaseException:
            self.close()
            raise

    def listening(self, name, *words, **how):
        """Starts a role that listens. Its port."""
        port = PORTS.next()
        self.start(name, f"{HOST}:{port}", *words, **how)
        wait_until(lambda: has(port, LISTENS))
        # How many descriptors it has while nobody calls.
        self.idle[name] = descriptors(self.roles[name])
        return port

    def forward(self, name, port):
        own = [it for it in self.troubles if it.forwarder == name]
        self.forwarders[name] = Forwarder(port, own)
        self.stack.callback(self.forwarders[name].close)

    def places(self, front):
        """The addresses of the forwarders whose names begin so."""
        return ",".join(it.place for name, it in self.forwarders.items() if name.startswith(front))

    def file(self, given=b""):
        file = self.stack.enter_context(tempfile.TemporaryFile())
        file.write(given)
        file.seek(0)
        return file

    def start(self, name, *words, given=b""):
        """Starts a role, whose word is its name without the number behind it."""
        has_pipes = given is None
        stdin = subprocess.PIPE if has_pipes else self.file(given)
        stdout = subprocess.PIPE if has_pipes else self.file()
        pipes = {"stdin": stdin, "stdout": stdout, "stderr": self.file()}
        how = {"bufsize": 0, "preexec_fn": self.limited_to(name)}
        command = [self.program, name.rstrip("0123456789"), *map(str, words)]
        # Until it runs its program, a process holds the socket by which another thread looks at a port.
        with PORTS.lock:
            role = subprocess.Popen(command, **pipes, **how)
        role.files = pipes
        self.roles[name] = role
        self.stack.callback(self.stop, role)

    def limited_to(self, name):
        """What limits the files of a role before it begins; None where they take all."""
        if name not in self.most:
            return None

        def limit():
            signal.signal(signal.SIGXFSZ, signal.SIG_IGN)
            resource.setrlimit(resource.RLIMIT_FSIZE, 2 * (self.most[name],))

        return limit

    def stop(self, role):
        role.kill()
        role.wait()
        for stream in role.stdin, role.stdout:
            if stream:
                stream.close()

    def end(self, patience, is_spare=False):
        """How each role ended; None of one that doesn't end within so many seconds. One that waits for
        callers, and has nothing of those that came, has no status; nor has a proxy that wasn't waited
        for, where it has channels to spare."""
        until, since = time.monotonic() + patience, None
        spare = [name for name in self.roles if is_spare and "proxy" in name]
        while time.monotonic() < until:
            left = [it for it, role in self.roles.items() if it not in spare and role.poll() is None]
            is_idle = all(self.waits(it) for it in left)
            since = (since or time.monotonic()) if is_idle else None
            if not left or since and time.monotonic() > since + QUIET:
                break
            time.sleep(0.02)
        found = {}
        for name, role in self.roles.items():
            said = read(role.files["stderr"]).decode()
            is_left = role.returncode is None
            # What waits in the pipe of a role that goes on isn't read.
            output = b"" if is_left and role.stdout else self.output(role)
            is_stuck = is_left and name not in spare and not self.waits(name)
            found[name] = None if is_stuck else Ended(role.returncode, said, output)
        return found

    def waits(self, name):
        return name in self.idle and descriptors(self.roles[name]) <= self.idle[name]

    def output(self, role):
        """What a role wrote, or is left in its pipe."""
        return role.stdout.read() if role.stdout else read(role.files["stdout"])

    def written(self, name):
        """How many bytes a role wrote to its file so far."""
        return os.fstat(self.roles[name].files["stdout"].fileno()).st_size

    def passed(self):
        """How many bytes passed, by the forwarder, the number of the connection and the way."""
        return {
            (name, *key): count
            for name, it in self.forwarders.items()
            for key, count in it.passed().items()
        }

    def close(self):
        self.stack.close()

    def __enter__(self):
        return self

    def __exit__(self, *_):
        self.close()


def exactly(pipe, length, patience=30):
    """So many bytes of a pipe."""
    found, poll = b"", select.poll()
    poll.register(pipe, select.POLLIN)
    while len(found) < length:
        if not poll.poll(1000 * patience):
            raise TimeoutError(f"{len(found)} of {length} bytes came")
        piece = pipe.read(length - len(found))
        if not piece:
            raise EOFError(f"{len(found)} of {length} bytes came")
        found += piece
    return found


def wait_until(is_so, patience=30):
    until = time.monotonic() + patience
    while not is_so():
        if time.monotonic() > until:
            raise TimeoutError("this takes too long")
        time.sleep(0.01)


def amiss(ended, up, down):
    """What is wrong with how the roles of a run ended, that was given these PDUs."""
    for name, it in ended.items():
        if it is None:
            yield f"{name} did not end"
        elif it.status is not None and not (it.status == 0 and not it.said or it.status == 7 and LOST.fullmatch(it.said)):
            yield f"{name} ended with {it.status} and told {it.said!r}"
    for name, given in ("server", up), ("client", down):
        if ended[name] and not given.startswith(ended[name].output):
            yield f"{name} wrote {len(ended[name].output)} bytes, which the other end was not given so"
        elif ended[name] and not is_whole(ended[name].output):
            yield f"{name} wrote no whole PDU at the end of {len(ended[name].output)} bytes"
    if all(it and it.status == 0 for it in ended.values()):
        for name, given in ("server", up), ("client", down):
            if len(ended[name].output) != len(given):
                yield f"{name} ended in order, and wrote {len(ended[name].output)} of {len(given)} bytes"


def is_whole(text):
    """Whether these bytes, the front of a stream of PDUs, end with one."""
    at = 0
    while at < len(text):
        at += int.from_bytes(text[at + 8 : at + 10], "little") if at + 10 <= len(text) else 16
    return at == len(text)
