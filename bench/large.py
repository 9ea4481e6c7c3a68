#!/usr/bin/env python3
"""Tries ./rh_cli show and name on more than the program reads at once: 200 MB of lines, and a capture of
170 MB, which tshark -V is tried on too. Each line that is told is compared with what its packet comes
to. Outside the gate.

    bench/large.py [--text BYTES] [--capture BYTES] [--seconds MOST]

Told are, of each case, the lines, the seconds, those of a processor, and the most memory of a process so
far. Ends with status 1 where a line isn't as it is to be, a status isn't, a case takes more seconds, or
name takes more of a processor than tshark -V.
"""
import argparse
import contextlib
import pathlib
import resource
import struct
import subprocess
import sys
import tempfile
import threading
import time

TOP = pathlib.Path(__file__).resolve().parent.parent
sys.path.insert(0, str(TOP / "tools"))

from test_pcap_packets import Made, opening_of_a_client, pdu  # noqa: E402

# An RTS packet with one ConnectionTimeout (MS-RPCH 2.2.3.5.3), but for the number itself.
FRONT = bytes.fromhex("05001403100000001c000000000000000000010002000000").hex()
# The bytes of a PDU in the capture, each in a segment of its own.
LENGTH = 1_400
# What the opening of a client comes to, in the order of the capture.
OPENING = 4


def lines(size):
    """So many bytes of lines, and how many lines that are."""
    count = size // (len(FRONT) + 9)
    return count, (f"{FRONT}{struct.pack('<I', it).hex()}\n".encode() for it in range(count))


def feed(pipe, pieces):
    """Writes the pieces, many at a time."""
    with contextlib.suppress(BrokenPipeError), pipe:
        held = []
        for piece in pieces:
            held.append(piece)
            if len(held) == 10_000:
                pipe.write(b"".join(held))
                held = []
        pipe.write(b"".join(held))


def differing(pipe, wanted):
    """What is told that isn't as it is to be. How many lines there are, and what is first wrong."""
    count, wrong = 0, None
    for count, line in enumerate(pipe, 1):
        text = next(wanted, None)
        if line != text and wrong is None:
            wrong = f"line {count} is {line[:80]!r}, and not {text!r}"
    if next(wanted, None) is not None and wrong is None:
        wrong = f"behind line {count} lines are missing"
    return count, wrong


def show(size, last=b""):
    """Lines through show, and behind them this one."""
    count, pieces = lines(size)
    wanted = (f"rts 0000 ConnectionTimeout {it}\n".encode() for it in range(count))
    pipes = {"stdin": subprocess.PIPE, "stdout": subprocess.PIPE, "stderr": subprocess.PIPE}
    with subprocess.Popen([TOP / "rh_cli", "show"], **pipes) as child:
        feeder = threading.Thread(target=feed, args=(child.stdin, (*pieces, last) if last else pieces))
        feeder.start()
        found = differing(child.stdout, wanted)
        feeder.join()
        return (*found, child.wait(), child.stderr.read().decode())


def refused(size):
    """The same with a line that is refused behind them."""
    count, wrong, status, said = show(size, b"x\n")
    place = size // (len(FRONT) + 9) + 1
    told = f"bad input {place}\nrh_cli: line {place}: 'x': "
    # All lines in front of the last piece were told.
    if not said.startswith(told) or status != 2 or wrong and "missing" not in wrong:
        return count, f"status {status}, and told {said!r}; {wrong}", status, said
    return count, None, 0, ""


def write_capture(path, size):
    """Writes a capture of so many bytes. How many PDUs it has behind the opening."""
    made = Made()
    _, inbound = opening_of_a_client(made)
    count = size // (LENGTH + 70)
    body = pdu(0, LENGTH)
    for call in range(count):
        inbound.up(body[:12] + struct.pack("<I", call) + body[16:])
    path.write_bytes(made.pcap())
    return count


def name(size, folder):
    """The packets of a capture through name."""
    path = pathlib.Path(folder) / "capture.pcap"
    count = write_capture(path, size)
    packets = subprocess.Popen([TOP / "tools/pcap_packets.py", path], stdout=subprocess.PIPE)
    pipes = {"stdin": packets.stdout, "stdout": subprocess.PIPE, "stderr": subprocess.PIPE}
    with subprocess.Popen([TOP / "rh_cli", "name"], **pipes) as child:
        packets.stdout.close()
        opening = [child.stdout.readline() for _ in range(OPENING)]
        told = f"length {LENGTH} auth 0 flags 03 first_frag last_frag\n"
        wanted = (f"request call {it} {told}".encode() for it in range(count))
        told, wrong = differing(child.stdout, wanted)
        status = child.wait() or packets.wait()
        if not all(it.startswith(b"CONN/") for it in opening):
            wrong = f"the opening is {opening}"
        return told, wrong, status, child.stderr.read().decode()


def by_tshark(folder):
    """What tshark -V tells of the same capture: how many lines."""
    path = pathlib.Path(folder) / "capture.pcap"
    words = ["tshark", "-n", "-V", "-r", path]
    with subprocess.Popen(words, stdout=subprocess.PIPE, stderr=subprocess.DEVNULL) as child:
        count = sum(1 for _ in child.stdout)
        return count, None, child.wait(), ""


def of_processor():
    """The seconds of a processor that this and its children took."""
    used = [resource.getrusage(it) for it in (resource.RUSAGE_SELF, resource.RUSAGE_CHILDREN)]
    return sum(it.ru_utime + it.ru_stime for it in used)


def main():
    parser = argparse.ArgumentParser(description=__doc__, formatter_class=argparse.RawDescriptionHelpFormatter)
    parser.add_argument("--text", type=int, default=200_000_000, help="bytes of lines")
    parser.add_argument("--capture", type=int, default=170_000_000, help="bytes of the capture")
    parser.add_argument("--seconds", type=int, default=300, help="most seconds of a case")
    options = parser.parse_args()
    # Builds the program where it isn't built.
    subprocess.run([TOP / "rh_cli", "--version"], check=True, stdout=subprocess.DEVNULL)
    is_wrong = False
    with tempfile.TemporaryDirectory() as folder:
        cases = {
            "show": lambda: show(options.text),
            "refused": lambda: refused(options.text),
            "name": lambda: name(options.capture, folder),
            "tshark": lambda: by_tshark(folder),
        }
        spent = {}
        for label, case in cases.items():
            begun, before = time.monotonic(), of_processor()
            count, wrong, status, said = case()
            took, spent[label] = time.monotonic() - begun, of_processor() - before
            peak = resource.getrusage(resource.RUSAGE_CHILDREN).ru_maxrss / 1024
            told = f"{took:>8.1f} s{spent[label]:>8.1f} s of a processor{peak:>8.0f} MB"
            print(f"{label:<8}{count:>12,} lines{told}", flush=True)
            if wrong or status or took > options.seconds:
                print(f"{label}: status {status}, {wrong}, {said[:200]!r}", file=sys.stderr)
                is_wrong = True
    if spent["name"] > spent["tshark"]:
        print("name: takes more of a processor than tshark -V", file=sys.stderr)
        is_wrong = True
    return int(is_wrong)


if __name__ == "__main__":
    sys.exit(main())
