#!/usr/bin/env python3
"""Tests of the built program: the number and the text of each status that it can be made to give."""
import os
import pathlib
import subprocess
import tempfile
import unittest

TOP = pathlib.Path(__file__).resolve().parent.parent
PROGRAM = TOP / "crates/rh_cli/out/rh_cli"
MOST_INPUT = 67_108_864

WORDS = "replay", "story", "story hex", "show", "name", "play", "capture", "audit"

RECORDING = b"rh 1 direct\ntake s\n"
ROLES = b"rh 1 roles\nopen ci1\nsend ci1 u 9\nmove ci1 u 9"
CAPTURE = b"cap 1\nseen 1 ciu 5250435f494e5f4441\n"
AUDIT = b"up yes 0 0\ndown yes 0 0\n"
SCRIPT = b"# a server\nserver\nstate"
REPORT = b"take s empty\nup given 0 taken 0\ndown given 0 taken 0\n"
# Words in no form, with commas between.
USAGE = ["", "Replay", "replays", "replay,replay", "-h", "Show", "show,-", "plays", "play,client"]
USAGE += ["Name", "names", "name,cou", "captures", "capture,x", "Audit", "audit,x"]
USAGE += ["Story", "story,hexes", "story,--hex", "story,--chart", "story,hex,hex", "hex"]
USAGE += ["--help,x", "make", "make,0", "make,10001", "make,03", "make,x", "make,3,4"]
PAGE = """\
  1  usage
  2  bad input <line>
  3  read fault
  4  write fault
  8  no memory
  9  input too long (above 67,108,864 bytes)
"""


class Statuses(unittest.TestCase):
    @classmethod
    def setUpClass(cls):
        # Builds the program where it isn't built.
        subprocess.run([TOP / "rh_cli", "--version"], check=True, capture_output=True)

    def setUp(self):
        self.room = tempfile.TemporaryDirectory()
        self.addCleanup(self.room.cleanup)

    def file(self, text):
        """A file with this text, opened."""
        path = pathlib.Path(self.room.name) / "input"
        path.write_bytes(text)
        return self.opened(path, "rb")

    def opened(self, path, mode):
        file = open(path, mode)
        self.addCleanup(file.close)
        return file

    def check(self, words, status, said, stdin=subprocess.DEVNULL, stdout=subprocess.PIPE, **more):
        run = subprocess.run(
            [PROGRAM, *words], stdin=stdin, stdout=stdout, stderr=subprocess.PIPE, **more
        )
        self.assertEqual((run.returncode, run.stderr), (status, said), words)
        return run.stdout

    def test_0(self):
        self.assertEqual(self.check(["replay"], 0, b"", self.file(RECORDING)), REPORT)
        story = self.check(["story"], 0, b"", self.file(RECORDING))
        self.assertEqual(story, b"".join(b"0 " + it for it in REPORT.splitlines(True)))
        self.assertEqual(self.check(["story", "hex"], 0, b"", self.file(RECORDING)), story)
        self.assertEqual(self.check(["show"], 0, b"", self.file(b"ff\n")), b"fault Cut 1\n")
        self.assertEqual(self.check(["show"], 0, b""), b"")
        self.assertEqual(self.check(["name"], 0, b"", self.file(b"cou ff\n")), b"bad Cut 1\n")
        self.assertEqual(self.check(["name"], 0, b""), b"")
        self.assertEqual(self.check(["play"], 0, b"", self.file(SCRIPT)), b"server\nstate opening\n")
        self.assertEqual(self.check(["play"], 0, b""), b"")
        self.assertEqual(self.check(["capture"], 0, b"", self.file(ROLES)), CAPTURE)
        self.assertEqual(self.check(["audit"], 0, b"", self.file(CAPTURE)), AUDIT)
        self.assertEqual(self.check(["--version"], 0, b""), b"rh_cli 0.1.0\n")
        page = self.check(["--help"], 0, b"").decode()
        for words in (*WORDS, "make <n>", "--help", "--version"):
            self.assertIn(f"\n  rh_cli {words} ", page)
        self.assertTrue(page.endswith("\n\n" + PAGE), page)

    def test_1_usage(self):
        for text in USAGE:
            words = text.split(",") if text else []
            self.assertEqual(self.check(words, 1, b"usage\n", self.file(RECORDING)), b"")
        # Nothing was read.
        text = self.file(RECORDING)
        self.check(["Show"], 1, b"usage\n", text)
        self.assertEqual(os.lseek(text.fileno(), 0, os.SEEK_CUR), 0)

    def test_2_bad_input(self):
        for word, text, line in [
            ("replay", b"", 1),
            ("replay", RECORDING + b"take x\n", 3),
            ("story", RECORDING + b"take x\n", 3),
            ("story hex", RECORDING + b"take x\n", 3),
            ("show", b"05\n" * 11 + b"0\n", 12),
            ("name", b"05\n" * 11 + b"co 05\n", 12),
            ("play", SCRIPT + b"\nstate s\n", 4),
            ("capture", b"", 1),
            ("capture", RECORDING, 1),
            ("capture", ROLES + b"\nrh 1 roles\n", 5),
            ("audit", b"", 1),
            ("audit", CAPTURE + b"seen 1 cou 05\n", 3),
        ]:
            said = f"bad input {line}\n".encode()
            self.assertEqual(self.check(word.split(" "), 2, said, self.file(text)), b"")

    def test_3_read_fault(self):
        for word in WORDS:
            closed = self.check(word.split(" "), 3, b"read fault\n", None, preexec_fn=lambda: os.close(0))
            self.assertEqual(closed, b"")

    def test_4_write_fault(self):
        for word, text in [
            ("replay", RECORDING),
            ("story", RECORDING),
            ("story hex", RECORDING),
            ("show", b"ff\n"),
            ("name", b"ff\n"),
            ("play", SCRIPT),
            ("capture", ROLES),
            ("audit", CAPTURE),
            ("make 3", b""),
            ("--help", b""),
            ("--version", b""),
        ]:
            full = self.opened("/dev/full", "wb")
            self.check(word.split(" "), 4, b"write fault\n", self.file(text), full)

    def test_9_input_too_long(self):
        for word in WORDS:
            text = self.file(b"0" * (MOST_INPUT + 2))
            self.assertEqual(self.check(word.split(" "), 9, b"input too long\n", text), b"")
            self.assertEqual(os.lseek(text.fileno(), 0, os.SEEK_CUR), MOST_INPUT + 1)


if __name__ == "__main__":
    unittest.main()
