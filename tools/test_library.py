#!/usr/bin/env python3
"""Tests that the commands of docs/LIBRARY.md make a crate that runs and prints what the page tells: in
a copy of the sources, with nothing proved. And that the code of README.md is of such a program.
"""
import pathlib
import re
import shutil
import subprocess
import tempfile
import unittest

import program_crates

TOP = pathlib.Path(__file__).resolve().parent.parent
PAGE = TOP / "docs/LIBRARY.md"
PROGRAM = TOP / "crates/example_one_role"
# Seconds; it takes some thirty of a processor.
LONGEST = 900


def blocks(page):
    """The blocks of code of a page, each with its language."""
    return re.findall(r"^```(\w+)\n(.*?)^```$", page.read_text(), re.M | re.S)


def code_lines(text):
    """Lines without their indentation and the comments behind them."""
    return [it for it in (line.split("//")[0].strip() for line in text.splitlines()) if it]


class Library(unittest.TestCase):
    def setUp(self):
        room = tempfile.TemporaryDirectory()
        self.addCleanup(room.cleanup)
        self.top = pathlib.Path(room.name).resolve()
        shutil.copy(TOP / "crates.txt", self.top)
        for crate in (TOP / "crates").iterdir():
            for part in ("src", "specs", "proofs"):
                if (crate / part).is_dir():
                    shutil.copytree(crate / part, self.top / "crates" / crate.name / part)

    def run_typed(self, commands):
        """What these commands write in the copy, and what they say."""
        how = {"capture_output": True, "text": True, "check": False, "timeout": LONGEST}
        done = subprocess.run(["bash", "-ec", commands], cwd=self.top, **how, stdin=subprocess.DEVNULL)
        self.assertEqual(done.returncode, 0, done.stderr[-2000:])
        return done.stdout, done.stderr[-2000:]

    def test_the_first_program(self):
        (_, commands), (_, wanted), *_ = blocks(PAGE)
        stdout, stderr = self.run_typed(commands)
        # What `rt new` tells of itself comes first.
        self.assertTrue(stdout.endswith(wanted), stdout + stderr)
        self.assertEqual(wanted, (PROGRAM / "stdout").read_text())

    def test_a_program_as_it_stands(self):
        [command] = re.findall(r"^`(cd \S+ && rt try)`", PAGE.read_text(), re.M)
        stdout, stderr = self.run_typed(command)
        self.assertEqual(stdout, (PROGRAM / "stdout").read_text(), stderr)

    def copied(self, *words):
        """What tools/copy_library answers in the repository itself, which it leaves as it is."""
        how = {"capture_output": True, "text": True, "check": False, "cwd": TOP}
        return subprocess.run(["tools/copy_library", *words], **how, stdin=subprocess.DEVNULL)

    def test_a_repository_of_ones_own(self):
        [command] = [text for _, text in blocks(PAGE) if "copy_library" in text]
        words = command.splitlines()[-1].split()[2:]
        own = self.top / "mine"
        own.mkdir()
        self.assertEqual(self.copied(own, *words).returncode, 0)
        crates = self.copied("--list", *words).stdout.split()
        self.assertEqual(sorted(it.name for it in (own / "crates").iterdir()), sorted(crates))
        self.assertEqual(list(program_crates.listed(own)), crates)
        program = own / "crates/my_client"
        shutil.copytree(PROGRAM / "src", program / "src")
        with (own / "crates.txt").open("a") as lines:
            lines.write("my_client: rh_client rh_http rh_line rh_rts\n")
        stdout, stderr = self.run_typed("cd mine/crates/my_client && rt try")
        self.assertEqual(stdout, (PROGRAM / "stdout").read_text(), stderr)

    def test_what_is_there_is_left(self):
        own = self.top / "mine"
        own.mkdir()
        for _ in range(2):
            self.assertEqual(self.copied(own, "rh_rts").returncode, 0)
        self.assertEqual(len((own / "crates.txt").read_text().splitlines()), 2)
        other = own / "crates/rh_text/src/lib.rt"
        other.write_text("// another\n")
        done = self.copied(own, "rh_rts", "rh_http")
        self.assertEqual((done.returncode, other.read_text()), (1, "// another\n"))
        self.assertIn("these are there, and differ: rh_text", done.stderr)
        self.assertFalse((own / "crates/rh_http").exists())
        self.assertEqual(self.copied(own, "rh_none").returncode, 2)

    def test_the_code_of_the_readme(self):
        [code] = [text for language, text in blocks(TOP / "README.md") if language == "rust"]
        lines = iter(code_lines((PROGRAM / "src/main.rt").read_text()))
        for line in code_lines(code):
            self.assertIn(line, lines, "not in the program, or not behind the line before")


if __name__ == "__main__":
    unittest.main()
