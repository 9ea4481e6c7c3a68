#!/usr/bin/env python3
"""Writes recordings whose reports are worked out byte by byte, for recordings/.

    tools/four_recordings.py            writes opening_in_pieces and opening_byte_by_byte
    tools/four_recordings.py --check    fails where they are others than it would write

What goes over each leg is spelled by the standard and by docs/PROFILE.md, in role_packets.py, and
nothing is taken from the program: tools/check_recordings.py compares what that writes.
"""
import pathlib
import sys

from role_cases_pairs import ANSWERS, ASKS_IN, ASKS_OUT, CONN_B3, CONN_C1, TELLS_IN, TELLS_OUT
from role_packets import GREETING

FOLDER = pathlib.Path(__file__).resolve().parent.parent / "recordings"
# What goes over which leg, in this order; a leg comes up before the first that goes over it.
# CONN/C2 has the fields of CONN/C1.
OPENING = [
    ("co1", "u", ASKS_OUT),
    ("ci1", "u", ASKS_IN),
    ("os1", "u", TELLS_OUT),
    ("os1", "d", GREETING),
    ("co1", "d", ANSWERS),
    ("is1", "u", TELLS_IN),
    ("is1", "d", GREETING + CONN_B3),
    ("os1", "d", CONN_C1),
    ("co1", "d", CONN_C1),
]
# The ends behind it, with no PDU.
LAST = ["up given 0 taken 0", "down given 0 taken 0"]
LAST += ["client open in 1 out 1", "server open in 1 out 1"]
PIECES = {"opening_in_pieces": 100, "opening_byte_by_byte": 1}


def opening(piece):
    """A recording of the opening in pieces of so many bytes, and its report."""
    lines, report = ["rh 1 roles", "set keep 0"], []

    def say(line, answer):
        lines.append(line)
        report.append(answer)

    up = set()
    for leg, way, data in OPENING:
        if leg not in up:
            say(f"open {leg}", f"open {leg} ok")
            up.add(leg)
        for at in range(0, len(data), piece):
            part = data[at : at + piece]
            say(f"send {leg} {way} {piece}", f"send {leg} {way} {len(part)}")
            say(f"move {leg} {way} {piece}", f"move {leg} {way} {len(part)} {part.hex()}")
        # Nothing more is there to draw.
        say(f"send {leg} {way} {piece}", f"send {leg} {way} 0")
    return lines, report + LAST


def main():
    check = sys.argv[1:] == ["--check"]
    if sys.argv[1:] and not check:
        sys.exit(__doc__)
    for name, piece in PIECES.items():
        for ending, lines in zip((".rh", ".report"), opening(piece)):
            path, text = FOLDER / (name + ending), "\n".join(lines) + "\n"
            if not check:
                path.write_text(text)
            elif path.read_text() != text:
                sys.exit(f"{path} is not what {sys.argv[0]} writes: failed")


main()
