#!/usr/bin/env python3
"""Tests of the built program: what its words write of the texts of word_cases.py."""
import pathlib
import resource
import signal
import subprocess
import tempfile
import unittest

import word_cases

TOP = pathlib.Path(__file__).resolve().parent.parent
PROGRAM = TOP / "crates/rh_cli/out/rh_cli"
# What is written at once, but for the last piece.
PIECE = 65_536

# What the report of a generated recording of 3 PDUs comes to: 637, 1,250 and 1,863 bytes go over
# two legs each, and heads, greetings and packets besides.
THREE = """\
up given 2 taken 2
down given 1 taken 1
client ended in 1 out 1
server ended in 1 out 1
moved 8654
rounds 8
"""


def settling():
    """Eight PDUs of 8,192 bytes, which a settling moves over both legs: a report of several
    pieces."""
    return "rh 1 roles\n" + f"give c {word_cases.pdu(8192)}\n" * 8 + "settle 100\n"


class Words(unittest.TestCase):
    @classmethod
    def setUpClass(cls):
        # Builds the program where it isn't built.
        subprocess.run([TOP / "rh_cli", "--version"], check=True, capture_output=True)

    def run_it(self, word, text, **how):
        run = subprocess.run(
            [PROGRAM, *word.split(" ")], input=text.encode(), stderr=subprocess.PIPE, check=False, **how
        )
        return run.returncode, run.stderr, run.stdout

    def answer(self, word, text):
        return self.run_it(word, text, stdout=subprocess.PIPE)

    def test_what_is_answered(self):
        for word, cases in word_cases.ANSWERED.items():
            for text, wanted in cases:
                with self.subTest(word=word, text=text[:200]):
                    self.assertEqual(self.answer(word, text), (0, b"", wanted.encode()))

    def test_the_first_bad_line(self):
        for word, cases in word_cases.REFUSED.items():
            for text, line in cases:
                with self.subTest(word=word, text=text[:200]):
                    said = f"bad input {line}\n".encode()
                    self.assertEqual(self.answer(word, text), (2, said, b""))

    def test_a_story_tells_as_many_rounds_as_the_report(self):
        settlings = 0
        for recording in sorted([*TOP.glob("recordings/*.rh"), *TOP.glob("examples/*.rh")]):
            status, said, story = self.answer("story", recording.read_text())
            self.assertEqual((status, said), (0, b""), recording.name)
            rounds = 0
            for _, word, *rest in map(str.split, story.decode().splitlines()):
                if word == "round":
                    rounds += 1
                    self.assertEqual(rest, [str(rounds)], recording.name)
                if word in ("quiet", "spent"):
                    self.assertEqual(rest, [str(rounds)], recording.name)
                    rounds, settlings = 0, settlings + 1
        # There are recordings that settle.
        self.assertGreater(settlings, 30)

    def test_make(self):
        self.assertEqual(self.answer("make 3", ""), (0, b"", THREE.encode()))
        for count in 1, 10_000:
            status, said, told = self.answer(f"make {count}", "")
            up, down = (count + 1) // 2, count // 2
            front = f"up given {up} taken {up}\ndown given {down} taken {down}\n"
            self.assertEqual((status, said), (0, b""))
            self.assertTrue(told.decode().startswith(front), told)

    # ---- outputs that fail

    def front(self, word, text, room):
        """What is written to a file that takes so many bytes, and how the program ends."""

        def limit():
            signal.signal(signal.SIGXFSZ, signal.SIG_IGN)
            resource.setrlimit(resource.RLIMIT_FSIZE, (room, room))

        with tempfile.TemporaryFile() as file:
            status, said, _ = self.run_it(word, text, stdout=file, preexec_fn=limit)
            file.seek(0)
            return status, said, file.read()

    def test_an_output_with_room(self):
        texts = [
            ("replay", word_cases.TWO_PIECES[0]),
            ("replay", settling()),
            ("story hex", settling()),
            ("show", "ff\nFFff\n"),
            ("name", "ff\nisu FFff\n"),
            ("play", "client\nstate\nchannels\n"),
            ("play", "client\n" + "draw co1 1\n" * 20_000),
        ]
        for word, text in texts:
            _, _, whole = self.answer(word, text)
            size = len(whole)
            self.assertEqual(self.front(word, text, size), (0, b"", whole))
            for room in {0, 1, PIECE, 3 * PIECE, size // 2, size - 1}:
                if room >= size:
                    continue
                status, said, written = self.front(word, text, room)
                self.assertEqual((status, said), (4, b"write fault\n"))
                self.assertEqual(written, whole[: len(written)])
                # All of the pieces that the file takes whole are there.
                self.assertGreaterEqual(len(written), room // PIECE * PIECE)
        # The settling's report has several pieces.
        self.assertGreater(len(self.answer("replay", settling())[2]), 4 * PIECE)


if __name__ == "__main__":
    unittest.main()
