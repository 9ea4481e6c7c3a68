#!/usr/bin/env python3
"""Runs two programs on random recordings of roles and compares their reports.

    bench/differences.py [--program PATH] [--against PATH] [--first N] [--count N] [--folder FOLDER]

The program is crates/rh_cli/out/rh_cli. The other one is bench/plain, built with `rustc -O`, unless
--against names another. Recording N is the same each time; --count of them (default 500) are tried
from --first on. Each report is held against what every recording keeps, too: PDUs are taken in the
order in which they were given, none after the end or a close, all where an end is clean, and nodes
close for a lost leg or for silence alone. A recording that differs or breaks this is told, and
with --folder kept there with both reports. Ends with status 1 where there was one.
"""
import argparse
import pathlib
import random
import subprocess
import sys
import tempfile

from measuring import TOP, programs_of
from recordings import build_plain

SECONDS = 60
KEYS = {
    "cwin": (8_192, 16_384, 20_000, 65_536, 262_144),
    "iwin": (8_192, 16_384, 20_000, 65_536, 262_144),
    "owin": (8_192, 16_384, 20_000, 65_536, 262_144),
    "swin": (8_192, 16_384, 20_000, 65_536, 262_144),
    "ilife": (131_072, 140_000, 200_000, 262_144),
    "olife": (131_072, 140_000, 200_000, 262_144),
    "itime": (120_000, 120_001, 300_000),
    "otime": (120_000, 120_003, 300_000),
    "keep": (0, 60_000, 300_000),
    "same": (0, 1),
}
LENGTHS = (16, 17, 24, 100, 1_000, 4_000, 8_192)
COUNTS = (1, 7, 20, 24, 40, 100, 1_000, 65_536, 65_536, 65_536)
PAUSES = (0, 1, 1_000, 30_000, 60_000, 100_000, 119_999, 120_000)
WAYS = ("co u", "co d", "os u", "os d", "ci u", "is u", "is d")
# How many lines of random kinds the same ways are slow for.
PHASE = 12
# The causes that a recording of roles may have: 1 LegBroken, 2 LegEnded, 9 HttpRefused, 11 Silent.
CAUSES = ("1", "2", "9", "11")
OTHER = {"c": "s", "s": "c"}


class Draft:
    """A recording that is being made: each has lines of some kinds more often than of others."""

    def __init__(self, number):
        self.draw = random.Random(number)
        self.lines = ["rh 1 roles"]
        # The channels that are probably the newest, and the is leg of that IN channel.
        self.newest = {"i": 1, "o": 1}
        self.server_leg = 1
        self.now = 0
        self.calls = 0
        # The ways on which little is carried.
        self.slow = ()
        often = [self.give, self.carry, self.carry_all, self.open, self.settle, self.take, self.recycle]
        often += [self.replace_in, self.replace_out]
        seldom = [self.close, self.tick, self.lose]
        self.kinds = [kind for kind in often for _ in range(self.draw.choice((1, 4, 16)))]
        self.kinds += [kind for kind in seldom for _ in range(self.draw.choice((0, 0, 0, 1, 3)))]

    def end(self):
        return self.draw.choice("cs")

    def number(self, kind):
        newest = self.server_leg if kind == "is" and self.draw.random() < 0.5 else self.newest[kind.strip("cs")]
        return max(1, newest - self.draw.choice((0, 0, 0, 0, 1, -1)))

    def leg(self):
        kind = self.draw.choice(("co", "os", "ci", "is"))
        return f"{kind}{self.number(kind)}"

    def way(self):
        """A way and a number in it, seldom a slow one."""
        way = self.draw.choice(WAYS)
        if way in self.slow and self.draw.random() < 0.95:
            way = self.draw.choice([other for other in WAYS if other not in self.slow])
        return f"{way[:2]}{self.number(way[:2])}{way[2:]}"

    def give(self):
        self.calls += 1
        length = self.draw.choice((*LENGTHS, self.draw.randint(16, 8_192)))
        header = bytes((5, 0, 0, 3, 16, 0, 0, 0)) + length.to_bytes(2, "little") + bytes(2)
        body = bytes([self.calls % 256]) * (length - 16)
        self.lines.append(f"give {self.end()} {(header + self.calls.to_bytes(4, 'little') + body).hex()}")

    def carry(self):
        way = self.way()
        for word in ("send", "move")[self.draw.randint(0, 1) :]:
            self.lines.append(f"{word} {way} {self.draw.choice(COUNTS)}")

    def carry_on(self, *ways):
        """All that is there on these ways in order, with other lines between."""
        for way in ways:
            for word in "send", "move":
                self.lines.append(f"{word} {way} 65536")
                if self.draw.random() < 0.2:
                    self.draw.choice([self.give, self.carry, self.take, self.close, self.open])()

    def carry_all(self):
        self.carry_on(*(self.way() for _ in range(self.draw.randint(1, 6))))

    def open(self):
        leg = self.leg()
        same = leg.startswith("ci") and self.draw.random() < 0.5
        self.lines.append(f"open {leg}{' same' if same else ''}")

    def recycle(self):
        way = self.draw.choice(("in", "out"))
        self.lines.append(f"recycle {way}")
        self.newest[way[0]] += self.draw.random() < 0.6

    def replace_in(self):
        """The course of a replacement, up to the packet that ends the predecessor's leg."""
        before, after, out = self.newest["i"], self.newest["i"] + 1, self.newest["o"]
        same = self.draw.random() < 0.5
        self.lines += ["recycle in", f"open ci{after}{' same' if same else ''}"]
        self.carry_on(f"ci{after} u")
        if not same:
            self.lines.append(f"open is{after}")
            self.server_leg = after
        self.carry_on(f"is{self.server_leg} u", f"os{out} d", f"co{out} d", f"ci{before} u")
        self.newest["i"] = after

    def replace_out(self):
        before, after, inbound = self.newest["o"], self.newest["o"] + 1, self.newest["i"]
        self.lines.append("recycle out")
        self.carry_on(f"os{before} d", f"co{before} d")
        self.lines.append(f"open co{after}")
        self.carry_on(f"co{after} u")
        self.lines.append(f"open os{after}")
        self.carry_on(f"os{after} u", f"os{before} d", f"co{before} d", f"ci{inbound} u", f"is{self.server_leg} u")
        self.carry_on(f"os{before} d")
        self.newest["o"] = after

    def settle(self):
        self.lines.append(f"settle {self.draw.choice((1, 1, 2, 3, 5, 1_000))}")

    def take(self):
        self.lines.append(f"take {self.end()}")

    def close(self):
        if self.draw.random() < 0.3:
            self.lines.append(f"close {self.end()}")

    def tick(self):
        self.now += self.draw.choice(PAUSES)
        self.lines.append(f"tick {self.now}")

    def lose(self):
        leg = self.leg()
        self.lines.append(self.draw.choice((f"break {leg}", f"end {leg} u", f"end {leg} d")))

    def text(self):
        for key, values in KEYS.items():
            if self.draw.random() < 0.4:
                self.lines.append(f"set {key} {self.draw.choice(values)}")
        if self.draw.random() < 0.8:
            self.lines.append("settle 1000")
        for place in range(self.draw.randint(5, 120)):
            if place % PHASE == 0:
                self.slow = self.draw.sample(WAYS, self.draw.randint(0, 3))
            self.draw.choice(self.kinds)()
        if self.draw.random() < 0.7:
            self.lines += ["settle 1000", *self.draw.sample(("close c", "close s", "settle 1000"), 2), "settle 1000"]
        return "\n".join(self.lines) + "\n"


def fault_of(text, report):
    """What a report breaks of that which every recording keeps, or None."""
    given, taken = {"c": [], "s": []}, {"c": [], "s": []}
    closed, ended, closing = set(), set(), set()
    gives = (line.split(" ") for line in text.splitlines() if line.startswith("give "))
    for line in report.splitlines():
        word, *rest = line.split(" ")
        if word == "give":
            end, pdu = next(gives)[1:]
            if rest[1] == "ok":
                given[end].append(pdu)
                if end in closed or end in closing:
                    return f"given behind a close: {line}"
        elif word == "take" and rest[1] == "pdu":
            end = rest[0]
            place = len(taken[end])
            taken[end].append(rest[2])
            if given[OTHER[end]][place : place + 1] != [rest[2]]:
                return f"taken, but not the next that was given: {line[:80]}"
            if end in closed or end in ended:
                return f"taken behind the end: {line[:80]}"
        elif word == "take" and rest[1] == "ended":
            ended.add(rest[0])
            if taken[rest[0]] != given[OTHER[rest[0]]]:
                return f"ended before all was taken: {line}"
        elif word == "close":
            closing.add(rest[0])
        elif word == "closed":
            if rest[0] in closed or rest[1] not in CAUSES:
                return f"closed twice or for another cause: {line}"
            closed.add(rest[0])
    return None


def first_difference(one, other):
    """The first line of each report that differs, cut."""
    one, other = one.splitlines(), other.splitlines()
    for place, (a, b) in enumerate(zip(one, other), 1):
        if a != b:
            return f"line {place}: {a[:90]} | {b[:90]}"
    return f"{len(one)} lines | {len(other)} lines"


def compare(number, programs, folder):
    """Tries one recording; answers what is wrong with it, or None."""
    text = Draft(number).text()
    runs = [subprocess.run([path, "replay"], input=text.encode(), capture_output=True, timeout=SECONDS) for path in programs]
    reports = [run.stdout.decode() for run in runs]
    wrong = None
    for path, run, report in zip(programs, runs, reports):
        if run.returncode:
            wrong = wrong or f"{path} ends with status {run.returncode}"
        fault = fault_of(text, report)
        wrong = wrong or (fault and f"{path}: {fault}")
    if reports[0] != reports[1]:
        wrong = wrong or first_difference(*reports)
    if wrong and folder:
        folder.mkdir(parents=True, exist_ok=True)
        (folder / f"{number}.rh").write_text(text)
        for name, report in zip(("program", "against"), reports):
            (folder / f"{number}.{name}").write_text(report)
    return wrong


def main():
    parser = argparse.ArgumentParser(description=__doc__, formatter_class=argparse.RawDescriptionHelpFormatter)
    parser.add_argument("--program", type=pathlib.Path, default=TOP / "crates/rh_cli/out/rh_cli")
    parser.add_argument("--against", type=pathlib.Path)
    parser.add_argument("--first", type=int, default=1)
    parser.add_argument("--count", type=int, default=500)
    parser.add_argument("--folder", type=pathlib.Path)
    options = parser.parse_args()
    wrongs = 0
    with tempfile.TemporaryDirectory() as temporary:
        options.against = options.against or build_plain(pathlib.Path(temporary))
        programs = programs_of(options)
        for number in range(options.first, options.first + options.count):
            wrong = compare(number, programs, options.folder)
            if wrong:
                wrongs += 1
                print(f"recording {number}: {wrong}", flush=True)
    print(f"{options.count} recordings, {wrongs} differ or break a rule")
    return 1 if wrongs else 0


if __name__ == "__main__":
    sys.exit(main())
