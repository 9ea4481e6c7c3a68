#!/usr/bin/env python3
"""Tests that the commands of README.md, CONTRIBUTING.md, docs/RECORDINGS.md and docs/RELAYS.md run as
typed there, and that the README's recording and report are those of examples/.

What proves anything is left out, as is `--unproved`, which test_commands.py and test_library.py try.
CAPTURE stands for each capture of examples/.
"""
import pathlib
import re
import shutil
import subprocess
import time
import unittest

TOP = pathlib.Path(__file__).resolve().parent.parent
README, CONTRIBUTING, RECORDINGS, RELAYS = (
    TOP / it for it in ("README.md", "CONTRIBUTING.md", "docs/RECORDINGS.md", "docs/RELAYS.md")
)
# How many packets each capture of the pages has.
PACKETS = {"examples/opening.pcap": 7, "examples/client.pcap": 26}
PORTS = (5930, 5931, 5932)
PDU = "05000003100000001800000001000000aabbccddeeff0011"
# Seconds for a command, and until a port is listened at.
LONGEST, WAIT = 60, 20


def blocks(page, language):
    """The blocks of a page in a language, each as its lines."""
    found = re.findall(rf"^```{language}\n(.*?)^```$", page.read_text(), re.M | re.S)
    return [text.replace("|\n", "| ").splitlines() for text in found]


def command(line):
    """What is typed of a line: all but a comment behind it."""
    return re.sub(r"\s+# .*", "", line)


def run(line):
    how = {"capture_output": True, "text": True, "check": False, "timeout": LONGEST, "cwd": TOP}
    return subprocess.run(["bash", "-c", line], **how, stdin=subprocess.DEVNULL)


def is_listened_at(port):
    """Whether somebody listens at a port, without calling there."""
    table = pathlib.Path("/proc/net/tcp").read_text()
    return re.search(rf":{port:04X} 00000000:0000 0A", table) is not None


def uncut(cut):
    """The pattern of a line in which hex is cut."""
    return re.escape(cut).replace(r"\.\.", "[0-9a-f]*")


class Readme(unittest.TestCase):
    def test_the_first_run(self):
        lines = [command(line) for line in blocks(README, "sh")[0]]
        done = [run(line.replace(" --unproved", "")) for line in lines]
        self.assertEqual([(it.returncode, it.stderr) for it in done], [(0, "")] * 3)
        report, story, packets = (it.stdout for it in done)
        self.assertEqual(report, (TOP / "examples/direct.report").read_text())
        self.assertIn("0 take c ended\n", story)
        self.assertIn("CONN/A3 timeout 120000\n", packets)

    def test_the_recording_and_its_report(self):
        [rows] = [it for it in blocks(README, "text") if it[0] == "rh 1 direct"]
        column = rows[1].index("give c ok")
        lines, told = [row[:column].rstrip() for row in rows], [row[column:] for row in rows]
        recording = (TOP / "examples/direct.rh").read_text().splitlines()
        report = (TOP / "examples/direct.report").read_text().splitlines()
        # The last lines of the report stand beside none.
        self.assertEqual(len(recording), sum(map(bool, lines)))
        self.assertEqual(len(report), sum(map(bool, told)))
        for cut, whole in [*zip(lines, recording), *zip(filter(None, told), report)]:
            self.assertRegex(whole, f"^{uncut(cut)}$")

    def test_the_packets_of_a_capture(self):
        [line] = blocks(README, "sh")[1]
        done = run(line)
        self.assertEqual((done.returncode, done.stderr), (0, ""))
        self.assertIn("rts 0000 ConnectionTimeout 120000\n", done.stdout)
        self.assertEqual(done.stdout.count("\n"), PACKETS["examples/opening.pcap"])

    def test_roles_over_sockets(self):
        self.assertEqual(blocks(README, "sh")[2], blocks(RELAYS, "sh")[0])
        # Builds the program where it isn't built.
        run("./rh_roles --version")
        if any(map(is_listened_at, PORTS)):
            self.skipTest("somebody listens at a port of the page")
        ends = []
        for line, port in zip(blocks(README, "sh")[2], [*PORTS, None]):
            ends.append(self.begin(line))
            until = time.monotonic() + WAIT
            while port and not is_listened_at(port) and time.monotonic() < until:
                time.sleep(0.05)
        told = [child.communicate(timeout=LONGEST) for child in ends]
        self.assertEqual([child.returncode for child in ends], [0] * 4, told)
        self.assertEqual("".join(re.findall(r"(?<= )[0-9a-f]{4}(?= )", told[0][0])), PDU)

    def begin(self, line):
        pipes = {"stdout": subprocess.PIPE, "stderr": subprocess.PIPE, "text": True}
        words = ["bash", "-c", f"set -o pipefail; {line}"]
        child = subprocess.Popen(words, cwd=TOP, stdin=subprocess.DEVNULL, **pipes)
        self.addCleanup(child.kill)
        return child


class Contributing(unittest.TestCase):
    @unittest.skipUnless(shutil.which("rt"), "there is no rt")
    def test_one_crate_is_proved(self):
        [lines] = blocks(CONTRIBUTING, "sh")
        done = run("; ".join(map(command, lines)))
        [told] = [it for it in blocks(CONTRIBUTING, "text") if "may_put: proved" in it[0]]
        self.assertIn(told[-1].removesuffix(" .."), done.stdout)


class Recordings(unittest.TestCase):
    def test_captures(self):
        lines = [line for block in blocks(RECORDINGS, "sh") for line in block]
        for line in (line for line in lines if "CAPTURE" in line):
            for capture, count in PACKETS.items():
                done = run(line.replace("CAPTURE", capture))
                # For an audit it is told which tag is which connection.
                said = "" if "--audit" in line else done.stderr
                self.assertEqual((done.returncode, said), (0, ""), line)
                packets = re.findall(r"(?m)^(?:\S+Z .* )?(?:rts [0-9a-f]{4}|rpc) ", done.stdout)
                shows = "--play" not in line and "--audit" not in line
                self.assertEqual(len(packets), count if shows else 0, line)

    def test_stories(self):
        lines = [line for block in blocks(RECORDINGS, "sh") for line in block]
        told, with_hex, chart, picture = (line for line in lines if " story" in line)
        [shown] = [it for it in blocks(RECORDINGS, "text") if it[0] == "0 recycle in ok"]
        done = run(told)
        self.assertEqual((done.returncode, done.stderr), (0, ""))
        self.assertIn("\n".join(shown) + "\n", done.stdout)
        done = run(with_hex)
        self.assertEqual((done.returncode, done.stderr), (0, ""))
        pdu = f"request call 1 length 24 {PDU}\n"
        self.assertEqual(done.stdout.count(pdu), 3)
        done = run(chart)
        self.assertEqual((done.returncode, done.stderr), (0, ""))
        self.assertRegex(done.stdout, "(?m)^ *client +in proxy 1 ")
        drawn = (TOP / "docs/pictures/replacement.svg").read_text()
        done = run(picture.replace("> /tmp/replacement.svg", ""))
        self.assertEqual((done.returncode, done.stderr, done.stdout), (0, "", drawn))

    def test_audits(self):
        lines = [line for block in blocks(RECORDINGS, "sh") for line in block]
        audits = [line for line in lines if " audit" in line and "CAPTURE" not in line]
        wanted = [r"up no 1\ndown yes 0 0\n", r"up yes \d+ \d+\ndown yes 0 0\n"]
        for line, told in zip(audits, wanted, strict=True):
            done = run(line)
            self.assertEqual((done.returncode, done.stderr), (0, ""), line)
            self.assertRegex(done.stdout, f"^{told}$")


if __name__ == "__main__":
    unittest.main()
