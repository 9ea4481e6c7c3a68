#!/usr/bin/env python3
"""Measures large recordings of roles and a generated run, against a program without proofs.

The program is crates/rh_cli/out/rh_cli, as `./rh_cli --version` leaves it. The other one is
bench/plain, which this script builds with `rustc -O` into a temporary folder, unless --against
names another. `meters` has PDUs both ways, which are settled from time to time, over channels so
short that the meters ask for one replacement after the other. `pieces` moves most bytes in pieces
of up to 64, and asks for replacements by `recycle`. Both have random PDUs of 24 to 8,192 bytes.
`make` is the word with 10,000 PDUs; a program that lacks it is named.

The ratio is that of the seconds of the processor, the program's to the other's. The target is at
most 1.5 in each case.
"""
import argparse
import functools
import pathlib
import random
import shutil
import subprocess
import sys
import tempfile

from measuring import OPTIONS, TOP, print_figures, programs_of, run, write_pieces

RECORDING_BYTES = 40_000_000
SHORTEST_PDU = 24
LONGEST_PDU = 8_192
# Each channel's lifetime: a replacement is wanted 65,536 bytes before its end.
LIFETIME = 262_144
# The PDUs of each end between two settles: fewer bytes than a queue or a window holds.
BATCH = 7
# The most bytes of a piece, and how many batches lie between two replacements in each direction.
LONGEST_PIECE = 64
RECYCLE_EVERY = 20
MADE = "10000"
SEED = 1
USAGE = 1


def pdu(draw, call):
    """A request PDU of random bytes: the common header with integers low byte first, then a body."""
    length = draw.randint(SHORTEST_PDU, LONGEST_PDU)
    header = bytes((5, 0, 0, 3, 16, 0, 0, 0)) + length.to_bytes(2, "little") + bytes(2) + call.to_bytes(4, "little")
    return header + draw.randbytes(length - len(header))


def gives(draw, calls):
    """A batch of PDUs at both ends in turn: their lines, and how many bytes go up and down."""
    lines, totals = [], {"c": 0, "s": 0}
    for end in ("c", "s") * BATCH:
        given = pdu(draw, next(calls))
        lines.append(f"give {end} {given.hex()}\n")
        totals[end] += len(given)
    return lines, totals["c"], totals["s"]


def numbers():
    """1, 2, 3 and so on, within 32 bits."""
    number = 0
    while True:
        number = (number + 1) % 2**32
        yield number


def meters():
    """Batch after batch, each settled."""
    draw, calls = random.Random(SEED), numbers()
    while True:
        lines, _, _ = gives(draw, calls)
        yield ("".join(lines) + "settle 1000\n").encode()


def pieces():
    """Batch after batch in small pieces over both legs of each channel; the rest is settled."""
    draw, calls = random.Random(SEED), numbers()
    inbound = outbound = 1
    for batch in numbers():
        lines, up, down = gives(draw, calls)
        legs = [(f"ci{inbound} u", up), (f"is{inbound} u", up), (f"os{outbound} d", down), (f"co{outbound} d", down)]
        left = [total for _, total in legs]
        while any(total > 0 for total in left):
            for place, (leg, _) in enumerate(legs):
                if left[place] > 0:
                    sent = draw.randint(1, LONGEST_PIECE)
                    lines.append(f"send {leg} {sent}\nmove {leg} {draw.randint(1, LONGEST_PIECE)}\n")
                    left[place] -= sent
        lines.append("settle 1000\n")
        if batch % RECYCLE_EVERY == 0:
            lines.append("recycle in\nsettle 1000\nrecycle out\nsettle 1000\n")
            inbound, outbound = inbound + 1, outbound + 1
        yield "".join(lines).encode()


def writer(first, batches):
    """What writes a recording of batch after batch to a file, and tells its bytes."""
    return lambda path: write_pieces(path, batches(), RECORDING_BYTES, first)


def nothing(path):
    """Writes no input."""
    path.write_bytes(b"")
    return 0


SHORT = f"rh 1 roles\nset ilife {LIFETIME}\nset olife {LIFETIME}\nsettle 1000\n".encode()
CASES = (
    ("meters", ("replay",), writer(SHORT, meters)),
    ("pieces", ("replay",), writer(b"rh 1 roles\nsettle 1000\n", pieces)),
    (f"make {MADE}", ("make", MADE), nothing),
)


def build_plain(folder):
    """Builds bench/plain; answers where it is."""
    if not shutil.which("rustc"):
        sys.exit("no rustc on the PATH: it builds bench/plain; name another program by --against")
    program = folder / "plain"
    source = TOP / "bench" / "plain" / "main.rs"
    subprocess.run(["rustc", "-O", "--edition", "2021", "-o", program, source], check=True)
    return program


@functools.cache
def lacks(program, words):
    """Whether the program has no such word: it answers `usage` to a short run of it."""
    if words[0] != "make":
        return False
    tried = subprocess.run([program, "make", "1"], stdin=subprocess.DEVNULL, capture_output=True)
    return tried.returncode == USAGE


def measure_case(case, programs, folder, options):
    """Runs each program in turn on a case and prints its figures; answers whether all ended well."""
    name, words, write = case
    source = folder / f"{name}.in"
    size = write(source)
    labels = [name, f"{name}, plain"]
    results = {label: [] for label in labels}
    for label, program in zip(labels, programs):
        if lacks(program, words):
            print(f"{label:<26}{program} has no word `{words[0]}`", flush=True)
            del results[label]
    for _ in range(options.runs):
        for label, program in zip(labels, programs):
            if label in results:
                sink = folder / f"{label}.out" if options.outputs else pathlib.Path("/dev/null")
                results[label].append(run([program, *words], source, sink))
    all_well = all([print_figures(label, size, runs) for label, runs in results.items()])
    if all_well and len(results) == len(labels):
        ours, plain = (min(seconds for _, seconds, _ in runs) for runs in results.values())
        print(f"{name}, ratio".ljust(26) + f"{ours / plain if plain else float('nan'):>24.2f}", flush=True)
    return all_well


def main():
    parser = argparse.ArgumentParser(description=__doc__ + OPTIONS, formatter_class=argparse.RawDescriptionHelpFormatter)
    parser.add_argument("--program", type=pathlib.Path, default=TOP / "crates/rh_cli/out/rh_cli")
    parser.add_argument("--against", type=pathlib.Path)
    parser.add_argument("--folder", type=pathlib.Path)
    parser.add_argument("--runs", type=int, default=3)
    parser.add_argument("--outputs", action="store_true")
    options = parser.parse_args()
    if options.runs < 1:
        parser.error("--runs is at least 1")
    with tempfile.TemporaryDirectory() as temporary:
        options.against = options.against or build_plain(pathlib.Path(temporary))
        programs = programs_of(options)
        folder = options.folder or pathlib.Path(temporary)
        folder.mkdir(parents=True, exist_ok=True)
        print(f"{'case':<26}{'input bytes':>14}{'seconds':>10}{'MB/s':>10}{'peak MB':>10}{'status':>8}")
        all_well = all([measure_case(case, programs, folder, options) for case in CASES])
    return 0 if all_well else 1


if __name__ == "__main__":
    sys.exit(main())
