#!/usr/bin/env python3
"""Measures how fast 64 MB of packets in hex are shown: RTS packets, long paddings, other PDUs, random bodies.

The program is crates/rh_cli/out/rh_cli, as `./rh_cli --version` leaves it. bench/plain has the word
too: `rustc -O --edition 2021 -o PATH bench/plain/main.rs` builds it for --against.
"""
import itertools
import random
import sys

from measuring import measure, write_pieces
from packets_of import mixed_packets, number, packet

# The program reads at most 67,108,864.
TEXT_BYTES = 64_000_000
GREATEST_PADDING = 65_507
GREATEST_PDU = 8_192
SEED = 1


def padded_packets():
    """RTS packets of the greatest length, each with one padding."""
    for place in itertools.count():
        yield packet(0, [number(8) + number(GREATEST_PADDING) + bytes([place % 256]) * GREATEST_PADDING])


def random_paddings():
    """RTS packets of the greatest length, each with one padding of random bytes."""
    draw = random.Random(SEED)
    while True:
        yield packet(0, [number(8) + number(GREATEST_PADDING) + draw.randbytes(GREATEST_PADDING)])


def random_pdus():
    """Request PDUs of the greatest length with random bodies."""
    draw = random.Random(SEED)
    for call in itertools.count():
        header = bytes([5, 0, 0, 3, 16, 0, 0, 0]) + GREATEST_PDU.to_bytes(2, "little") + bytes(2)
        yield header + number(call) + draw.randbytes(GREATEST_PDU - 16)


def small_pdus():
    """Request PDUs that are a header alone."""
    for call in itertools.count():
        yield bytes([5, 0, 0, 3, 16, 0, 0, 0, 16, 0, 0, 0]) + number(call)


def writer(packets):
    """What writes the packets to a file as lines of hex."""
    lines = lambda: (bytes(packet.hex() + "\n", "ascii") for packet in packets())
    return lambda path: write_pieces(path, lines(), TEXT_BYTES)


if __name__ == "__main__":
    cases = [
        ("mixed_packets", "show", writer(mixed_packets)),
        ("padded_packets", "show", writer(padded_packets)),
        ("random_paddings", "show", writer(random_paddings)),
        ("random_pdus", "show", writer(random_pdus)),
        ("small_pdus", "show", writer(small_pdus)),
    ]
    sys.exit(measure(__doc__, "crates/rh_cli/out/rh_cli", cases))
