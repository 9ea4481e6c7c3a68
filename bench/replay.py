#!/usr/bin/env python3
"""Measures how fast large direct recordings are replayed, with bodies of a pattern and of random bytes.

The program is crates/rh_cli/out/rh_cli, as `./rh_cli --version` leaves it.
"""
import itertools
import random
import sys

from measuring import measure, write_pieces

# The bytes of each recording. The program reads at most 67,108,864.
RECORDING_BYTES = 60_000_000
HEADER_LEN = 16
GREATEST_PDU = 8_192
SMALL_PDU = 24
GREATEST_MOVE = 65_536
# The bytes of bodies: each PDU's begin at another place of them.
PATTERN = bytes(range(256)) * (GREATEST_PDU // 256 + 1)
SEED = 1


def pattern(call, length):
    """A body that goes on from byte to byte."""
    place = call % 256
    return PATTERN[place : place + length]


def random_bytes():
    """Bodies of random bytes, the same each time."""
    draw = random.Random(SEED)
    return lambda call, length: draw.randbytes(length)


def pdu(call, length, body):
    """A request PDU of `length` bytes: the common header with integers low byte first, then a body."""
    header = bytes([5, 0, 0, 3, 0x10, 0, 0, 0]) + length.to_bytes(2, "little") + bytes(2) + call.to_bytes(4, "little")
    return header + body(call, length - HEADER_LEN)


def one_byte_moves(call, body):
    """A PDU of the greatest length, sent whole and moved byte by byte."""
    moves = "move cs u 1\n" * GREATEST_PDU
    return f"give c {pdu(call, GREATEST_PDU, body).hex()}\nsend cs u {GREATEST_PDU}\n{moves}take s\n"


def large_moves(call, body):
    """As many PDUs of the greatest length as one move carries."""
    count = GREATEST_MOVE // GREATEST_PDU
    gives = "".join(f"give c {pdu(call * count + place, GREATEST_PDU, body).hex()}\n" for place in range(count))
    return f"{gives}send cs u {GREATEST_MOVE}\nmove cs u {GREATEST_MOVE}\n" + "take s\n" * count


def small_pdus(call, body):
    """A small PDU, given, sent, moved and taken by itself."""
    return f"give c {pdu(call, SMALL_PDU, body).hex()}\nsend cs u {SMALL_PDU}\nmove cs u {SMALL_PDU}\ntake s\n"


def writer(round_of, body):
    """What writes a recording of round after round to a file."""
    rounds = lambda: (bytes(round_of(call, body), "ascii") for call in itertools.count())
    return lambda path: write_pieces(path, rounds(), RECORDING_BYTES, b"rh 1 direct\n")


if __name__ == "__main__":
    cases = []
    for round_of in one_byte_moves, large_moves, small_pdus:
        cases.append((round_of.__name__, "replay", writer(round_of, pattern)))
        cases.append((f"{round_of.__name__}_random", "replay", writer(round_of, random_bytes())))
    sys.exit(measure(__doc__, "crates/rh_cli/out/rh_cli", cases))
