#!/usr/bin/env python3
"""Measures how fast 100 MB of mixed RTS packets are viewed, and decoded and encoded again.

The program is crates/bench_packets/out/bench_packets, as `rt run` in crates/bench_packets leaves it. The
case `read` only reads its input, and its seconds are a part of those of the other two.
"""
import sys

from measuring import measure, write_pieces
from packets_of import mixed_packets

STREAM_BYTES = 100_000_000


def write_stream(path):
    return write_pieces(path, mixed_packets(), STREAM_BYTES)


if __name__ == "__main__":
    words = ("read", "view", "recode")
    sys.exit(measure(__doc__, "crates/bench_packets/out/bench_packets", [(word, word, write_stream) for word in words]))
