#!/usr/bin/env python3
"""Replays recordings that are too long to be kept, and walks their reports by tools/walking.py.

They show shapes that hold up a settling: hundreds of IN channels that were replaced with no leg
ended before, and a lifetime that is used up while the other direction's replacement is under way.
The program is crates/rh_cli/out/rh_cli, as ./rh_cli --version leaves it.

    tools/long_recordings.py              says what was seen
    tools/long_recordings.py --quiet      says only what is wrong
    tools/long_recordings.py --program P  runs another program

Ends with status 1 where something is wrong.
"""
import argparse
import pathlib
import subprocess
import sys

from random_recordings import PROGRAM, replay
from walking import walk

REPLACEMENTS = 300
# An IN channel of the least lifetime, and what stays in it for the packets of its replacement.
LIFETIME, KEPT = 131_072, 312
LONGEST = 8_192
MANY = 65_536


def pdu(call, size):
    """A PDU of so many bytes, as hex."""
    header = bytes([5, 0, 0, 3, 16, 0, 0, 0]) + size.to_bytes(2, "little") + bytes(2)
    header += call.to_bytes(4, "little")
    return (header + bytes([call % 256]) * (size - len(header))).hex()


def carried(leg, way):
    """Lines that carry all that is to go one way on a leg."""
    return [f"send {leg} {way} {MANY}", f"move {leg} {way} {MANY}"]


def opening_of(leg):
    return [f"open {leg}"]


def replaced_in(number):
    """Lines that replace an IN channel by the next, with no leg ended."""
    old, new = number, number + 1
    yield "recycle in"
    yield from opening_of(f"ci{new}")
    yield from carried(f"ci{new}", "u")
    yield from opening_of(f"is{new}")
    yield from carried(f"is{new}", "u")
    # The server's answer goes to the client, and its end of the predecessor to the server.
    for leg, way in [("os1", "d"), ("co1", "d"), (f"ci{old}", "u"), (f"is{old}", "u")]:
        yield from carried(leg, way)
    yield from carried(f"is{new}", "d")
    yield from carried(f"is{old}", "d")


def many_replacements():
    """All replacements of the IN channel, each with a PDU behind it; then one settling."""
    lines = ["rh 1 roles", "settle 100"]
    for number in range(1, REPLACEMENTS + 1):
        lines += [*replaced_in(number), f"give c {pdu(number, 16)}"]
    return [*lines, "settle 100000"]


def used_up():
    """The IN channel's lifetime is used up but for less than its replacement takes, while an OUT
    replacement waits for acknowledgements of its predecessor's PDUs.
    """
    lines = ["rh 1 roles", f"set ilife {LIFETIME}", f"set cwin {LONGEST}", "settle 100"]
    lines += [f"give s {pdu(call, LONGEST)}" for call in (1, 2, 3)]
    lines += ["recycle out", *carried("os1", "d"), *carried("co1", "d")]
    return lines


def filled(program):
    """The lines of `used_up`, with gives that leave as little of the lifetime as they can."""
    lines = used_up()
    count = 0
    for size in [LONGEST] * (LIFETIME // LONGEST) + [4_096, 2_048, 1_024, 512, 256, 128, 64, 32, 16]:
        count += 1
        more = [f"give c {pdu(count, size)}", *carried("ci1", "u"), *carried("is1", "u"), "take s"]
        more += [*carried("is1", "d"), *carried("os1", "d"), *carried("co1", "d")]
        _, report = replay(program, text_of(lines + more))
        if report.count("take s pdu") == lines.count("take s") + 1:
            lines += more
    return [*lines, "settle 100000"]


def text_of(lines):
    return "".join(line + "\n" for line in lines)


def check_many(walked):
    """What is wrong with the report of many replacements."""
    ended = [words for words in walked.told.answers if words[:1] == ("end",)]
    if walked.untaken():
        yield f"{walked.untaken()} PDUs were not taken"
    if len(ended) < 2 * REPLACEMENTS:
        yield f"the settling ended {len(ended)} legs"
    before = walked.told.own[len(walked.report) - 5].begin
    if any(words[:1] == ("end",) for words in walked.told.answers[:before]):
        yield "a leg ended before it"


def check_used_up(walked):
    """What is wrong with the report of a lifetime that is used up."""
    stream = walked.legs.stream("ci1", "u")
    left = LIFETIME - (stream.fed - len(stream.head))
    if not 0 <= left < 2 * KEPT:
        yield f"{left} bytes of the lifetime are left"
    if not any(words[:1] == ("quiet",) for words in walked.told.answers[-5:]):
        yield "the settling was not quiet"


def check(name, lines, program, of_shape):
    """What is wrong with a recording, a text each."""
    text = text_of(lines)
    status, report = replay(program, text)
    walked = walk(text, report)
    wrong = [] if status == 0 else [f"the program ended with status {status}"]
    wrong += [f"line {line} of the report breaks '{rule}': {what}" for rule, line, what in walked.faults]
    return [f"{name}: {it}" for it in [*wrong, *of_shape(walked)]], walked


def main():
    parser = argparse.ArgumentParser(
        description=__doc__, formatter_class=argparse.RawDescriptionHelpFormatter
    )
    parser.add_argument("--quiet", action="store_true")
    parser.add_argument("--program", type=pathlib.Path, default=PROGRAM)
    options = parser.parse_args()
    shapes = {
        "many replacements": (many_replacements(), check_many),
        "a lifetime used up": (filled(options.program), check_used_up),
    }
    wrong = []
    for name, (lines, of_shape) in shapes.items():
        found, walked = check(name, lines, options.program, of_shape)
        wrong += found
        if not options.quiet:
            print(f"{name}: {len(lines)} lines, {walked.untaken()} PDUs left, {len(found)} faults")
            print("    " + "; ".join(text[:60] for text in walked.report[-6:]))
    for text in wrong:
        print(text, file=sys.stderr)
    sys.exit(1 if wrong else 0)


if __name__ == "__main__":
    main()
