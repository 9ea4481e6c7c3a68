#!/usr/bin/env python3
"""Measures how fast 60 MB of captured legs are audited, beside `show` on lines of the same packets.

The program is crates/rh_cli/out/rh_cli, as `./rh_cli --version` leaves it. An audit is to take at
most twice the time of `show`. In the captures an IN channel's two legs carry the same PDUs, one a
line; in `pieces` each line has 512 bytes, wherever that cuts.
"""
import itertools
import pathlib
import sys

from measuring import measure, write_pieces

sys.path.insert(0, str(pathlib.Path(__file__).resolve().parent.parent / "tools"))
import audit_cases
from role_packets import pdu

TEXT_BYTES = 60_000_000
PIECE = 512
LEGS = ((1, "ciu", audit_cases.CIU), (2, "isu", audit_cases.ISU))


def packets(length):
    """PDUs of so many bytes, each on the near leg and then on the far one."""
    for call in itertools.count(1):
        for tag, pipe, _ in LEGS:
            yield tag, pipe, pdu(length, call % 2**32, fill=call % 256)


def cut(lines):
    """The same bytes of both legs, cut elsewhere."""
    held = {}
    for tag, pipe, data in lines:
        held[tag] = held.get(tag, b"") + data
        while len(held[tag]) >= PIECE:
            yield tag, pipe, held[tag][:PIECE]
            held[tag] = held[tag][PIECE:]


def captured(lines):
    """What writes a capture to a file."""
    def pieces():
        yield b"cap 1\n"
        for tag, pipe, data in itertools.chain(LEGS, lines()):
            yield f"seen {tag} {pipe} {data.hex()}\n".encode("ascii")

    return lambda path: write_pieces(path, pieces(), TEXT_BYTES)


def shown(lines):
    """What writes the same packets to a file as lines of hex."""
    pieces = lambda: (f"{data.hex()}\n".encode("ascii") for _, _, data in lines())
    return lambda path: write_pieces(path, pieces(), TEXT_BYTES)


def cases():
    for length in (72, 1_024, 8_192):
        lines = lambda length=length: packets(length)
        yield f"audit_{length}", "audit", captured(lines)
        yield f"show_{length}", "show", shown(lines)
    yield "audit_pieces", "audit", captured(lambda: cut(packets(1_024)))


if __name__ == "__main__":
    sys.exit(measure(__doc__, "crates/rh_cli/out/rh_cli", list(cases())))
