#!/usr/bin/env python3
"""Tests of the built program rh_roles over loopback, in real trouble: connections that are reset, ended,
closed or stalled at any byte, callers by the hundred, outputs that fail and signals in the midst.

    tools/test_trouble.py                    runs the tests
    tools/test_trouble.py --places 200 --seed 7 [--program FILE] [--size BYTES] [--stall SECONDS]
                                             makes trouble at so many places, and tells the seed;
                                             with a program of shorter lifetimes at those of
                                             replacements too (bench/soak.py makes one)
"""
import argparse
import concurrent.futures
import contextlib
import pathlib
import random
import resource
import signal
import socket
import subprocess
import sys
import time
import unittest

import trouble
from trouble import HOST, WAYS, Run, Trouble, amiss, pdu, pdus

TOP = pathlib.Path(__file__).resolve().parent.parent
PROGRAM = TOP / "crates/rh_roles/out/rh_roles"
# Seconds until a role is taken as one that doesn't end.
PATIENCE = 60
PLACES, AT_ONCE = 200, 12
# How long a way is stalled, in seconds.
STALL = 30
# Places lie so near to the front or the end of what passes on a way.
NEAR = 700
# How many strangers call a port, and for how many seconds an honest connection goes on beside them.
CROWD, CROWD_SECONDS = 500, 20
# Each channel of a proxy has a caller, and waits for the first byte of one; a server looks at eight.
CHANNELS = 64
MORE_DESCRIPTORS = {"inproxy1": 4 * CHANNELS, "server": 2 * 8}
# The most memory of a role beside a crowd, in bytes, as docs/DEPLOY.md tells it.
MOST_MEMORY = 268_435_456
# The bytes of PDUs that are given each way, and of each.
SIZE, LENGTH = 20_000, 1_000


def given(size, first):
    return pdus(size // LENGTH, first, LENGTH)


class Places:
    """Trouble at places of runs in which so many bytes of PDUs go each way."""

    def __init__(self, program, size, channels):
        self.program, self.channels = program, channels
        self.up, self.down = given(size, 1), given(size, 100_000)
        # How many bytes pass on each way where there is no trouble.
        self.passed = {}

    def run(self, troubles=(), patience=PATIENCE):
        """What is wrong with a run."""
        with Run(self.program, self.up, self.down, troubles, self.channels) as it:
            ended = it.end(patience, self.channels > 1)
            if not troubles:
                self.passed = it.passed()
            wrong = list(amiss(ended, self.up, self.down))
        if all(it.act == "stall" for it in troubles):
            wrong += [f"{name} told {it.said!r}" for name, it in ended.items() if it and it.status]
        return wrong

    def any(self, source):
        """Trouble at a place, and on a way, that the source of numbers chooses."""
        (forwarder, number, way), count = source.choice(sorted(self.passed.items()))
        near = source.randrange(min(NEAR, count + 1))
        place = source.choice([near, count - near, source.randrange(count + 1)])
        act = source.choice(["reset", "end", "close"])
        return Trouble(forwarder, number, way, place, act)

    def stalls(self, seconds):
        """A stall in the midst of each way."""
        for (forwarder, number, way), count in sorted(self.passed.items()):
            yield Trouble(forwarder, number, way, count // 2, "stall", seconds)

    def all(self, count, seed, stall):
        """What is wrong with runs in trouble at so many places, and with a stall on each way."""
        wrong = self.run()
        if wrong:
            return [f"without trouble: {it}" for it in wrong]
        source = random.Random(seed)
        plans = [*self.stalls(stall), *(self.any(source) for _ in range(count))] if stall else []
        plans = plans or [self.any(source) for _ in range(count)]
        with concurrent.futures.ThreadPoolExecutor(AT_ONCE) as pool:
            found = pool.map(lambda plan: self.run([plan], PATIENCE + plan.seconds), plans)
            return [f"seed {seed}, {plan}: {it}" for plan, told in zip(plans, found) for it in told]


def built():
    """Builds the program where it isn't built."""
    subprocess.run([TOP / "rh_roles", "--version"], check=True, capture_output=True)


class Cuts(unittest.TestCase):
    def test_places_of_an_opening_and_of_pdus(self):
        built()
        seed = random.randrange(1_000_000)
        wrong = Places(PROGRAM, SIZE, 1).all(PLACES, seed, STALL)
        self.assertEqual(wrong, [])


# A request for an IN channel, and what a client says behind it (MS-RPCH 2.2.4.5).
HEAD = b"RPC_IN_DATA /rpc/rpcproxy.dll?127.0.0.1:%d HTTP/1.1\r\nContent-Length: 1073741824\r\n\r\n"
CONN_B1 = bytes.fromhex(
    "05001403100000006800000000000000000006000600000001000000030000000000000000000000000000000000000a"
    "03000000000000000000000000000000000000140400000000000040050000006000ea000c000000" + 15 * "00" + "1e"
)
LONG_HEAD = HEAD[:40] + b"\r\nX: " + b"x" * (16_384 - 46)


def says(kind, nobody):
    """What a stranger of a kind says, and whether byte by byte."""
    return {
        "nothing": b"",
        "garbage": bytes(range(256)) * 4,
        "half a head": HEAD[:60],
        "a long head": LONG_HEAD,
        "a wrong target": HEAD % nobody + CONN_B1,
    }[kind]


class Strangers:
    """Callers of a port by the hundred, of five kinds in turns, until they are told to stop."""

    KINDS = "nothing", "garbage", "half a head", "a long head", "a wrong target"

    def __init__(self, port, count):
        self.port, self.nobody, self.left = port, trouble.PORTS.next(), []
        for at in range(count):
            it = socket.socket()
            it.setblocking(False)
            it.connect_ex((HOST, port))
            self.left.append([it, says(self.KINDS[at % len(self.KINDS)], self.nobody), at % 5 == 3])

    def turn(self):
        """Each says what it can: one byte, or all."""
        for it in self.left:
            caller, text, is_slow = it
            with contextlib.suppress(OSError):
                if text:
                    it[1] = text[caller.send(text[:1] if is_slow else text) :]

    def close(self):
        for it, *_ in self.left:
            it.close()


def size_of(role):
    """The descriptors, threads, and the peak of memory in bytes, that a process has."""
    folder = pathlib.Path(f"/proc/{role.pid}")
    status = dict(line.split(":", 1) for line in (folder / "status").read_text().splitlines())
    peak = 1024 * int(status["VmHWM"].split()[0])
    return len([*(folder / "fd").iterdir()]), int(status["Threads"]), peak


class Crowds(unittest.TestCase):
    """Callers by the hundred beside an honest connection."""

    def test_an_honest_connection_goes_on(self):
        built()
        with Run(PROGRAM, None, None, channels=CHANNELS) as run:
            self.pass_on(run, 1)
            before = {name: size_of(it) for name, it in run.roles.items()}
            crowds = [Strangers(run.forwarders[it].port, CROWD) for it in ("ins1", "to_server")]
            for crowd in crowds:
                self.addCleanup(crowd.close)
            until, call = time.monotonic() + CROWD_SECONDS, 2
            while time.monotonic() < until:
                for crowd in crowds:
                    crowd.turn()
                self.pass_on(run, call)
                call += 1
                time.sleep(0.01)
            for name, role in run.roles.items():
                self.is_within(name, before[name], size_of(role))
            self.ends_well(run)

    def is_within(self, name, before, after):
        """What a role has beside a crowd."""
        more = MORE_DESCRIPTORS.get(name, 0)
        self.assertLessEqual(after[0], before[0] + more, f"descriptors of {name}")
        self.assertLessEqual(after[1], before[1], f"threads of {name}")
        self.assertLessEqual(after[2], MOST_MEMORY, f"memory of {name}")

    def ends_well(self, run):
        for name in "client", "server":
            run.roles[name].stdin.close()
        for name in "client", "server":
            self.assertEqual(run.roles[name].wait(PATIENCE), 0)

    def pass_on(self, run, call):
        """A PDU goes each way."""
        client, server = run.roles["client"], run.roles["server"]
        for one, other in (client, server), (server, client):
            one.stdin.write(pdu(500, call))
            self.assertEqual(trouble.exactly(other.stdout, 500), pdu(500, call))


class Outputs(unittest.TestCase):
    """Inputs and outputs that fail in the midst, and signals."""

    UP, DOWN = given(SIZE, 1), given(SIZE, 100_000)

    @classmethod
    def setUpClass(cls):
        built()

    def check(self, ended, name, status, said="", up=UP, down=DOWN):
        """One role ended so, and the others as those do that lost a leg."""
        self.assertIsNotNone(ended[name], f"{name} did not end")
        self.assertEqual((ended[name].status, ended[name].said), (status, said and f"{said}\n"))
        as_if = ended | {name: ended[name]._replace(status=0, said="")}
        # Where it is said that all ended in order, an output is looked at by the test.
        wrong = [it for it in amiss(as_if, up, down) if "ended in order" not in it]
        self.assertEqual(wrong, [])

    def test_an_output_that_is_full_in_the_midst(self):
        for name, wanted in ("server", self.UP), ("client", self.DOWN):
            with Run(PROGRAM, self.UP, self.DOWN, most={name: 5 * LENGTH}) as run:
                ended = run.end(PATIENCE)
            self.check(ended, name, 4, "write fault")
            self.assertEqual(ended[name].output, wanted[: 5 * LENGTH])

    def test_an_input_that_ends_within_a_pdu(self):
        up = self.UP + pdu(LENGTH, 7)[:500]
        with Run(PROGRAM, up, self.DOWN) as run:
            ended = run.end(PATIENCE)
        self.check(ended, "client", 2, f"bad input {SIZE // LENGTH + 1}", up=self.UP)

    def test_sigterm_in_the_midst_tears_no_pdu(self):
        up, down = given(40 * SIZE, 1), given(40 * SIZE, 100_000)
        for name in "server", "client", "inproxy1", "outproxy1":
            # Nothing ends before the signal, since each way is stalled.
            stall = [Trouble("outs1", 1, "down", 20 * SIZE, "stall", PATIENCE)]
            with Run(PROGRAM, up, down, stall) as run:
                trouble.wait_until(lambda run=run: run.written("server") > SIZE)
                run.roles[name].send_signal(signal.SIGTERM)
                ended = run.end(PATIENCE)
            self.check(ended, name, -signal.SIGTERM, up=up, down=down)

    def test_sigpipe_ends_nothing(self):
        stall = [Trouble("ins1", 1, "up", SIZE // 2, "stall", 2)]
        with Run(PROGRAM, self.UP, self.DOWN, stall) as run:
            trouble.wait_until(lambda: run.written("server") > SIZE // 4)
            for role in run.roles.values():
                role.send_signal(signal.SIGPIPE)
            ended = run.end(PATIENCE)
        self.assertEqual({it.status for it in ended.values()}, {0})
        self.assertEqual(list(amiss(ended, self.UP, self.DOWN)), [])


def main():
    if sys.argv[1:] == ["--quiet"] or len(sys.argv) == 1:
        unittest.main()
    parser = argparse.ArgumentParser(description=__doc__, formatter_class=argparse.RawDescriptionHelpFormatter)
    parser.add_argument("--program", type=pathlib.Path, default=PROGRAM)
    parser.add_argument("--places", type=int, default=PLACES)
    parser.add_argument("--seed", type=int, default=random.randrange(1_000_000))
    parser.add_argument("--size", type=int, default=SIZE, help="bytes of PDUs each way")
    parser.add_argument("--channels", type=int, default=1, help="channels that a proxy relays")
    parser.add_argument("--stall", type=int, default=STALL, help="seconds; 0 for none")
    options = parser.parse_args()
    if options.program == PROGRAM:
        built()
    places = Places(options.program, options.size, options.channels)
    begun = time.monotonic()
    wrong = places.all(options.places, options.seed, options.stall)
    print(f"seed {options.seed}: {options.places} places of {len(places.passed)} ways, {len(wrong)} wrong, "
          f"{time.monotonic() - begun:.0f} s")
    for text in wrong:
        print(text)
    sys.exit(bool(wrong))


if __name__ == "__main__":
    main()
