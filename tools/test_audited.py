#!/usr/bin/env python3
"""Tests of pcap_packets.py --audit: captures made of what our relays' roles put, with a PDU taken
out, doubled and swapped, and captures of which something is missing.
"""
import subprocess
import sys
import unittest

import audit_cases
from audit_cases import CIU, COD, COU, FIRST, ISU, OSD, OSU, SECOND, THIRD
from test_pcap_packets import GREETING, PROGRAM, PROXY, SERVER, TOOLS, Made, Plain, Talk

# Three PDUs up and two down, each moved over both legs before the next.
RECORDING = "rh 1 roles\nsettle 100\n" + "".join(
    f"give {side} {data.hex()}\nsettle 100\n"
    for side, data in zip("cscsc", (FIRST, SECOND, SECOND, THIRD, THIRD))
)
PROXIES = {"ci": "10.0.0.2", "co": "10.0.0.4", "is": "10.0.0.2", "os": "10.0.0.4"}


def talk_of(made, tag, pipe):
    """The connection of a tag whose first line has this pipe."""
    proxy = PROXIES[pipe[:2]]
    is_outer = pipe[0] == "c"
    client = ("10.0.0.1" if is_outer else proxy, 40_000 + tag)
    server = (proxy, 80) if is_outer else SERVER
    talk = Talk(made, client, server, first=1_000 * tag, greeted=False)
    if pipe == "isu":
        talk.down(GREETING)
    return talk


def capture_of(lines):
    """A capture of a net in which each of these lines is a segment."""
    made, talks = Made(), {}
    for tag, pipe, data in lines:
        if tag not in talks:
            talks[tag] = talk_of(made, tag, pipe)
        (talks[tag].up if pipe[2] == "u" else talks[tag].down)(data)
    return made


def lines_of(text):
    """The lines of a capture of legs behind its first."""
    for line in text.split("\n")[1:-1]:
        _, tag, pipe, digits = line.split(" ")
        yield int(tag), pipe, bytes.fromhex(digits)


class Audits(Plain):
    @classmethod
    def setUpClass(cls):
        # Builds the program where it isn't built.
        subprocess.run([TOOLS.parent / "rh_cli", "--version"], check=True, capture_output=True)
        cls.lines = list(lines_of(cls.run_program("capture", RECORDING)))

    @classmethod
    def run_program(cls, word, text):
        command = [PROGRAM, word]
        done = subprocess.run(command, input=text, capture_output=True, text=True, check=True)
        return done.stdout

    def written(self, made, status=0):
        """What the tool writes of a capture, and what it tells on standard error."""
        file = self.room / "capture"
        file.write_bytes(made.pcap())
        command = [sys.executable, TOOLS / "pcap_packets.py", "--audit", file]
        env = {"PATH": self.path}
        done = subprocess.run(command, capture_output=True, text=True, check=False, env=env)
        self.assertEqual(done.returncode, status, done.stderr)
        return done.stdout, done.stderr

    def check(self, lines, up="yes 3 3", down="yes 2 2"):
        """Checks what an audit tells of a capture with these lines."""
        text, _ = self.written(capture_of(lines))
        self.assertEqual(list(lines_of(text)), list(lines))
        self.assertEqual(self.run_program("audit", text), f"up {up}\ndown {down}\n")

    def place(self, pipe, data):
        """The place of the line that carries a PDU."""
        return next(i for i, line in enumerate(self.lines) if line[1:] == (pipe, data))

    def test_all_is_in_order(self):
        self.check(self.lines)

    def test_a_pdu_taken_out(self):
        for number, data in enumerate((FIRST, SECOND)):
            at = self.place("isu", data)
            self.check(self.lines[:at] + self.lines[at + 1 :], up=f"no {number}")
        # Without the last one what came is a front.
        at = self.place("isu", THIRD)
        self.check(self.lines[:at] + self.lines[at + 1 :], up="yes 2 3")
        at = self.place("cod", SECOND)
        self.check(self.lines[:at] + self.lines[at + 1 :], down="no 0")

    def test_a_pdu_that_was_not_put(self):
        at = self.place("ciu", THIRD)
        self.check(self.lines[:at] + self.lines[at + 1 :], up="no 2")

    def test_a_pdu_doubled(self):
        for number, data in enumerate((FIRST, SECOND, THIRD), start=1):
            at = self.place("isu", data)
            self.check(self.lines[: at + 1] + self.lines[at:], up=f"no {number}")
        at = self.place("cod", THIRD)
        self.check(self.lines[: at + 1] + self.lines[at:], down="no 2")

    def test_pdus_swapped(self):
        lines = list(self.lines)
        one, two = self.place("isu", SECOND), self.place("isu", THIRD)
        lines[one], lines[two] = lines[two], lines[one]
        self.check(lines, up="no 1")

    def test_a_byte_changed(self):
        lines = list(self.lines)
        at = self.place("cod", THIRD)
        lines[at] = (*lines[at][:2], THIRD[:-1] + b"x")
        self.check(lines, down="no 1")


class Missing(Plain):
    """What can't be told."""

    written = Audits.written

    def check(self, lines, told, status=1):
        _, said = self.written(capture_of(lines), status)
        for text in told:
            self.assertIn(text, said)

    def test_tags_are_told(self):
        lines = [(1, "ciu", CIU), (2, "isu", ISU), (3, "cou", COU), (4, "osu", OSU), (4, "osd", OSD)]
        told = [
            "tag 1: ci, connection 0, 10.0.0.1:40001 > 10.0.0.2:80",
            "tag 2: is, connection 1, 10.0.0.2:40002 > 10.0.0.3:593",
            "tag 3: co, connection 2, 10.0.0.1:40003 > 10.0.0.4:80",
            "tag 4: os, connection 3, 10.0.0.4:40004 > 10.0.0.3:593",
        ]
        lines.append((3, "cod", COD))
        self.check(lines, told, 0)

    def test_one_side(self):
        told = ["no leg of in proxy and server is in the capture: up tells nothing"]
        self.check([(1, "ciu", CIU), (1, "ciu", FIRST)], told)
        told = ["no leg of client and out proxy is in the capture: down tells nothing"]
        self.check([(1, "osu", OSU), (1, "osd", OSD)], told)

    def test_an_answer_before_the_final_one(self):
        interim = b"HTTP/1.1 100 Continue\r\n\r\n"
        lines = [(1, "cou", COU), (1, "cod", interim[:9]), (1, "cod", interim[9:] + COD)]
        text, _ = self.written(capture_of(lines), 1)
        self.assertEqual(list(lines_of(text)), [(1, "cou", COU), (1, "cod", COD)])

    def test_a_gap(self):
        made = Made()
        talk = talk_of(made, 1, "ciu")
        talk.up(CIU)
        talk.up(FIRST, is_kept=False)
        talk.up(SECOND)
        text, said = self.written(made, 1)
        self.assertEqual(list(lines_of(text)), [(1, "ciu", CIU)])
        told = "tag 1, 10.0.0.1:40001 > 10.0.0.2:80: 72 bytes are missing before frame 4"
        self.assertIn(told, said)

    def test_begun_in_the_midst(self):
        made = Made()
        talk = Talk(made, ("10.0.0.1", 40_001), PROXY, opened=False, greeted=False)
        talk.up(FIRST)
        talk.up(audit_cases.Named.Ping)
        text, said = self.written(made, 1)
        self.assertEqual(text, "cap 1\n")
        self.assertIn("connection 0, which begins as no leg does, from frame 1, is left out", said)
        self.assertIn("no connection is a leg of RPC over HTTP", said)


if __name__ == "__main__":
    unittest.main()
