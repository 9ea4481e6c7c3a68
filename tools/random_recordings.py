#!/usr/bin/env python3
"""Makes recordings of roles at random, replays them, and walks each report by tools/walking.py.

The program is crates/rh_cli/out/rh_cli, as ./rh_cli --version leaves it. A recording opens legs,
sends, moves, gives, takes, settles and ticks, replaces channels in all three forms, breaks and ends
legs, closes ends, and has small windows and lifetimes. Which of these, and how often, is drawn for
each recording.

    tools/random_recordings.py              makes 300 recordings, and says what was seen in them
    tools/random_recordings.py --count N    makes so many
    tools/random_recordings.py --seed N     makes others (default 1); each seed has its own
    tools/random_recordings.py --program P  runs another program
    tools/random_recordings.py --keep F     writes each recording and its report to the folder F

A calm recording has no break, no end of a leg, no tick by which a leg is silent for too long and no
small lifetime; it closes both ends and settles. Of these it is checked besides that no node closes,
that both ends end, and that all was taken.

Ends with status 1 where a run doesn't end with status 0 or a rule is broken; such recordings are
kept, in random_recordings of the folder for temporary files where no other is named.
"""
import argparse
import collections
import pathlib
import random
import subprocess
import sys
import tempfile

from walking import walk

TOP = pathlib.Path(__file__).resolve().parent.parent
PROGRAM = TOP / "crates/rh_cli/out/rh_cli"
KINDS = ["co", "os", "ci", "is"]
SILENT_AFTER = 120_000
WINDOWS = ["cwin", "iwin", "owin", "swin"]
LIFETIMES = ["ilife", "olife"]
# What stands at the end of each recording.
LAST = ["settle 3", "take c", "take s", "close c", "settle 1000", "close s", "settle 1000"]
LAST += ["give c 05", "give s 05", "take c", "take s"]
# How often a line is drawn in each manner of recording; one pass carries on all legs.
VERBS = ["give", "take", "carry", "open", "settle", "recycle", "pass", "tick"]
VERBS += ["break", "end", "close"]
MANNERS = {
    "calm": [6, 4, 8, 6, 4, 3, 3, 0, 0, 0, 0],
    "timed": [4, 3, 6, 4, 4, 2, 2, 4, 0, 0, 0],
    "rough": [6, 4, 8, 5, 3, 4, 4, 1, 0.3, 0.3, 0.1],
    "heavy": [10, 1, 2, 2, 6, 1, 1, 0, 0, 0, 0],
}
# Bytes that are no PDU: too few, another version, an RTS PDU.
NO_PDUS = ["05", "0400" * 8, "05001403100000001400000000000000" + "00" * 4]


def drawn_settings(draw, manner):
    """Settings, most often of small windows, and of small lifetimes where much is given."""
    chances = {key: 0.4 for key in WINDOWS}
    chances |= {key: 0.8 if manner == "heavy" else 0.1 for key in LIFETIMES}
    chances |= {"itime": 0.1, "otime": 0.1, "keep": 0.2, "same": 0.5}
    values = {key: [8_192, 8_193, 12_000, 20_000, 262_144] for key in WINDOWS}
    values |= {key: [131_072, 131_073, 150_000, 200_000] for key in LIFETIMES}
    values |= {"itime": [120_001, 14_400_000], "otime": [120_001, 14_400_000]}
    values |= {"keep": [0, 60_000, 4_294_967_295], "same": [1]}
    for key, chance in chances.items():
        if draw.random() < chance:
            yield f"set {key} {draw.choice(values[key])}"


class Maker:
    """Draws the lines of a recording."""

    def __init__(self, draw, manner, count):
        self.draw, self.manner, self.count = draw, manner, count
        self.lines = ["rh 1 roles", *drawn_settings(draw, manner)]
        self.calls, self.moment = 0, 0
        # The greatest number that a leg is likely to have, of each direction.
        self.newest = {"in": 1, "out": 1}

    def chance(self, chance):
        return self.draw.random() < chance

    def leg(self):
        kind = self.draw.choice(KINDS)
        newest = self.newest["in" if kind in ("ci", "is") else "out"]
        number = newest - self.draw.choice([0, 0, 0, 1, 1, 2]) + self.chance(0.02)
        return f"{kind}{max(number, 1)}"

    def bytes_count(self):
        return self.draw.choice([1, 15, 16, 30, 100, 1_000, 8_000, 65_536, 65_536, 65_536])

    def pdu(self):
        """A PDU of which no other has the call, as hex; at times bytes that are none."""
        if self.chance(0.03):
            return self.draw.choice(NO_PDUS)
        self.calls += 1
        sizes = [16, 17, 24, 100, 1_000] + ([4_000, 8_191, 8_192] if self.manner == "heavy" else [])
        size = self.draw.choice([*sizes, self.draw.randint(16, 3_000)])
        header = bytes([5, 0, 0, 3, 16, 0, 0, 0]) + size.to_bytes(2, "little") + bytes(2)
        header += self.calls.to_bytes(4, "little")
        return (header + bytes([self.calls % 256]) * (size - len(header))).hex()

    def carry(self, leg, way):
        self.lines.append(f"send {leg} {way} {self.bytes_count()}")
        if self.chance(0.8):
            self.lines.append(f"move {leg} {way} {self.bytes_count()}")

    def open(self, leg):
        same = " same" if leg.startswith("ci") and self.chance(0.5) else ""
        self.lines.append(f"open {leg}{same}")

    def all_legs(self):
        """Opens and carries on all legs that there may be, in a drawn order."""
        legs = [
            f"{kind}{number}"
            for kind in KINDS
            for number in range(1, self.newest["in" if kind in ("ci", "is") else "out"] + 1)
        ]
        for leg in self.draw.sample(legs, len(legs)):
            if self.chance(0.5):
                self.open(leg)
            for way in self.draw.sample("ud", 2):
                self.carry(leg, way)

    def tick(self):
        most = SILENT_AFTER - 1 if self.manner == "timed" else SILENT_AFTER + 30_000
        self.moment += self.draw.choice([0, 1_000, 30_000, 60_000, 60_000, most])
        self.lines.append(f"tick {max(self.moment - self.chance(0.1), 0)}")

    def recycle(self):
        which = self.draw.choice(["in", "out"])
        self.newest[which] += self.chance(0.5)
        self.lines.append(f"recycle {which}")

    def one(self, verb):
        end = self.draw.choice("cs")
        if verb == "give":
            self.lines.append(f"give {end} {self.pdu()}")
        elif verb in ("take", "close"):
            self.lines.append(f"{verb} {end}")
        elif verb == "carry":
            self.carry(self.leg(), self.draw.choice("ud"))
        elif verb == "open":
            self.open(self.leg())
        elif verb == "settle":
            self.lines.append(f"settle {self.draw.choice([1, 1, 1, 2, 3, 100])}")
        elif verb == "recycle":
            self.recycle()
        elif verb == "pass":
            self.all_legs()
        elif verb == "tick":
            self.tick()
        elif verb == "break":
            self.lines.append(f"break {self.leg()}")
        else:
            self.lines.append(f"end {self.leg()} {self.draw.choice('ud')}")

    def text(self):
        """The recording."""
        if self.chance(0.7):
            self.lines.append(f"settle {self.draw.choice([1, 2, 3, 100])}")
        for verb in self.draw.choices(VERBS, MANNERS[self.manner], k=self.count):
            self.one(verb)
        self.lines += LAST
        return "".join(line + "\n" for line in self.lines)


def recording(seed, number):
    """The manner and the text of one recording."""
    draw = random.Random(f"{seed} {number}")
    manner = draw.choice(list(MANNERS))
    return manner, Maker(draw, manner, draw.choice([5, 20, 60, 150])).text()


def is_calm(text):
    """Whether nothing in the recording can close a node, and no lifetime is small."""
    lines = text.split("\n")
    moments = [int(line.split(" ")[1]) for line in lines if line.startswith("tick")]
    starts = ("break", "end", *(f"set {key}" for key in LIFETIMES))
    other = any(line.startswith(starts) for line in lines)
    return not other and max(moments, default=0) < SILENT_AFTER


def faults_of(text, walked):
    """Each rule that is broken, with the number of the line and what is wrong."""
    faults = list(walked.faults)
    if is_calm(text):
        if walked.causes:
            faults.append(("calm", len(walked.report), f"{' '.join(walked.causes)} closed"))
        elif set(walked.states.values()) != {"ended"} or walked.untaken():
            faults.append(("calm", len(walked.report), "not all ended, or not all was taken"))
    return faults


def count(seen, text, walked):
    """Counts what the recording and its report had."""
    report = walked.report
    seen["recordings"] += 1
    seen["calm recordings"] += is_calm(text)
    seen["lines of reports"] += len(report)
    seen["PDUs given"] += sum(len(pdus) for pdus in walked.given.values())
    seen["PDUs taken"] += sum(len(pdus) for pdus in walked.taken.values())
    for line in report:
        words = line.split(" ")
        if words[0] == "open" and words[-1] == "ok" and words[1][2:] != "1":
            if words[1].startswith("co"):
                seen["OUT successors"] += 1
            elif words[1].startswith("ci"):
                form = "the same proxy" if words[2] == "same" else "a proxy of their own"
                seen[f"IN successors by {form}"] += 1
    for cause in walked.causes.values():
        seen[f"nodes closed for {cause[1]}"] += 1
    seen["ends with a clean end"] += len(walked.ended)


def replay(program, text):
    """The status and the report."""
    how = {"input": text.encode(), "capture_output": True, "check": False}
    done = subprocess.run([program, "replay"], **how)
    return done.returncode, done.stdout.decode()


def keep(folder, name, text, report):
    folder.mkdir(parents=True, exist_ok=True)
    (folder / f"{name}.rh").write_text(text)
    (folder / f"{name}.report").write_text(report)
    return folder / f"{name}.rh"


def run(options):
    """Makes and checks the recordings, and answers whether all is well."""
    seen, wrong = collections.Counter(), 0
    for number in range(options.count):
        _, text = recording(options.seed, number)
        status, report = replay(options.program, text)
        walked = walk(text, report)
        faults = faults_of(text, walked)
        if status != 0:
            faults.insert(0, ("status", 1, f"the program ended with status {status}"))
        count(seen, text, walked)
        if faults or options.keep:
            folder = options.keep or pathlib.Path(tempfile.gettempdir()) / "random_recordings"
            path = keep(folder, f"{options.seed}_{number}", text, report)
        if faults:
            wrong += 1
            rule, line, what = faults[0]
            print(f"{path}: line {line} of the report breaks '{rule}': {what}", file=sys.stderr)
    for name, many in sorted(seen.items()):
        print(f"{many:>12,}  {name}")
    print(f"{seen['recordings'] - wrong} recordings checked well, {wrong} not")
    return not wrong


if __name__ == "__main__":
    parser = argparse.ArgumentParser(
        description=__doc__, formatter_class=argparse.RawDescriptionHelpFormatter
    )
    parser.add_argument("--count", type=int, default=300)
    parser.add_argument("--seed", type=int, default=1)
    parser.add_argument("--program", type=pathlib.Path, default=PROGRAM)
    parser.add_argument("--keep", type=pathlib.Path)
    sys.exit(0 if run(parser.parse_args()) else 1)
