#!/usr/bin/env python3
"""Compares what README.md says of Wireshark with what tshark shows of captures: of those in examples/,
and of a long one that is made here. And whether cookies that tshark shows of the examples stand in what
./rh_cli name writes of them.

    tools/wireshark_figures.py            compares
    tools/wireshark_figures.py --list     tells of each capture how many packets each of the two shows

tshark shows a packet where it tells its kind, with its settings as they come. Its figures are those
of the version that the README names; where another one is installed only our own are compared.
"""
import pathlib
import re
import subprocess
import sys
import tempfile

from test_pcap_packets import Made, opening_of_a_client, pdu

TOP = pathlib.Path(__file__).resolve().parent.parent
PAGE = TOP / "README.md"
SAID = re.compile(r"(\d+) of the ([\d,]+) packets of `(examples/\S+)`")
SAID_OF_LONG = re.compile(r"(\d+) of the ([\d,]+) of a (long) one")
# A cookie as tshark shows it, and as name does behind its own.
COOKIE = re.compile(r"^ +Cookie: ([0-9a-f-]{36})$", re.MULTILINE)
GUID = re.compile(r"\(([0-9a-f-]{36})\)")
VERSION = re.compile(r"Wireshark (\d+\.\d+)")
# How many PDUs of so many bytes go each way in the long capture, each in a segment of its own.
EACH_WAY, UP_LEN, DOWN_LEN = 1_000, 96, 200


def run(*words, text=""):
    how = {"capture_output": True, "text": True, "check": False, "cwd": TOP}
    return subprocess.run(words, input=text, **how).stdout


def by_tshark(capture):
    """How many packets tshark shows."""
    told = run("tshark", "-n", "-r", capture, "-T", "fields", "-e", "dcerpc.pkt_type")
    return len(re.findall(r"\d+", told))


def by_us(capture):
    return len(run(sys.executable, "-B", "tools/pcap_packets.py", capture).splitlines())


def write_long(path):
    """Writes the long capture: a client's channels are opened, and PDUs go both ways."""
    made = Made()
    out, inbound = opening_of_a_client(made)
    for number in range(EACH_WAY):
        inbound.up(pdu(number % 256, UP_LEN))
        out.down(pdu(number % 256, DOWN_LEN))
    pathlib.Path(path).write_bytes(made.pcap())


def amiss(text, captures):
    """What the page says that isn't so, where each capture stands in the file of its name."""
    [version] = VERSION.findall(text)
    is_that = f"TShark (Wireshark) {version}." in run("tshark", "--version")
    said = [it.groups() for form in (SAID, SAID_OF_LONG) for it in form.finditer(text)]
    for name in captures.keys() - {name for _, _, name in said}:
        yield f"no figure of {name}"
    for theirs, ours, name in said:
        file = captures[name]
        if by_us(file) != int(ours.replace(",", "")):
            yield f"{name}: this shows {by_us(file)} packets, and not {ours}"
        if is_that and by_tshark(file) != int(theirs):
            yield f"{name}: Wireshark shows {by_tshark(file)} packets, and not {theirs}"


def cookies_amiss(captures):
    """Cookies that tshark shows of captures, and name doesn't; or that there are none to be found."""
    found = 0
    for name, file in captures.items():
        packets = run(sys.executable, "-B", "tools/pcap_packets.py", file)
        ours = set(GUID.findall(run("./rh_cli", "name", text=packets)))
        theirs = set(COOKIE.findall(run("tshark", "-n", "-V", "-r", file)))
        found += len(theirs)
        for cookie in sorted(theirs - ours):
            yield f"{name}: Wireshark shows the cookie {cookie}, and name doesn't"
    if not found:
        yield "Wireshark shows no cookie of any capture"


def main(words):
    with tempfile.TemporaryDirectory() as folder:
        captures = {f"examples/{it.name}": str(it) for it in TOP.glob("examples/*.pcap")}
        captures["long"] = f"{folder}/long.pcap"
        write_long(captures["long"])
        if words == ["--list"]:
            for name, file in sorted(captures.items()):
                print(f"{name}: Wireshark {by_tshark(file)}, this {by_us(file)}")
            return 0
        told = [f"{PAGE.name}: {it}" for it in amiss(PAGE.read_text(), captures)]
    examples = {name: file for name, file in captures.items() if name != "long"}
    told += cookies_amiss(examples)
    for text in told:
        print(text, file=sys.stderr)
    return int(bool(told))


if __name__ == "__main__":
    sys.exit(main(sys.argv[1:]))
