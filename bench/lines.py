#!/usr/bin/env python3
"""Measures how fast 1 GB of PDUs passes through the queue of an end and through a receiver's line.

The program is crates/bench_lines/out/bench_lines, as `rt run` in crates/bench_lines leaves it. Its
input is one PDU, which it passes on as often as 1 GB holds it; a case tells the way and the PDU's
length. The same with Rust's VecDeque<u8> is bench/lines.rs: `rustc -O bench/lines.rs`, and give what
that makes by --against.
"""
import sys

from measuring import measure

PASSED_BYTES = 1_000_000_000
LENGTHS = (24, 1_000, 8_192)


def pdu_of(length):
    """A request whose body counts up."""
    header = bytes((5, 0, 0, 3, 16, 0, 0, 0)) + length.to_bytes(2, "little") + bytes((0, 0, 1, 0, 0, 0))
    return header + bytes(place % 256 for place in range(16, length))


def writer(length):
    """What writes the PDU of this length, and tells how many bytes are passed on."""

    def write(path):
        path.write_bytes(pdu_of(length))
        return PASSED_BYTES // length * length

    return write


if __name__ == "__main__":
    cases = [(f"{word} {length}", word, writer(length)) for word in ("send", "recv") for length in LENGTHS]
    sys.exit(measure(__doc__, "crates/bench_lines/out/bench_lines", cases))
