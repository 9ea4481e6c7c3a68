#!/usr/bin/env python3
"""Measures how fast 1 GB of PDUs passes through the four roles in memory, and through an in proxy alone.

The program is crates/bench_roles/out/bench_roles, as `rt run` in crates/bench_roles leaves it. Its input is
one PDU, which it passes on as often as 1 GB holds it; a case tells the course and the PDU's length. Bytes go
over each leg in pieces of 4,096 at most. The same bytes copied through one of Rust's VecDeque<u8> for each
place where a role holds them is bench/roles.rs: `rustc -O bench/roles.rs`, and give what that makes by
--against.
"""
import sys

from lines import PASSED_BYTES, writer
from measuring import measure

LENGTHS = (1_000, 8_192)
COURSES = ("in", "up", "down")

if __name__ == "__main__":
    cases = [(f"{course} {length}", course, writer(length)) for course in COURSES for length in LENGTHS]
    sys.exit(measure(__doc__, "crates/bench_roles/out/bench_roles", cases, [str(PASSED_BYTES)]))
