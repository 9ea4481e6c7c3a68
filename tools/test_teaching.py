#!/usr/bin/env python3
"""Tests of what is said of lines that were refused, and that the forms of lines are the page's."""
import pathlib
import re
import unittest

import line_forms
import teaching
import word_cases

TOP = pathlib.Path(__file__).resolve().parent.parent
PAGE = TOP / "docs/RECORDINGS.md"
FORM = re.compile(r"`([^`]+)`")
NUMBER = re.compile(r"\d+(?:,\d{3})*")
# How the page's forms spell what stands for more than one word. Numbers are <n>.
SPELLED = {
    line_forms.SIDE: "c",
    line_forms.DIRECTION: "u",
    line_forms.ANY_LEG: "<leg>",
    line_forms.IN_LEG: "<leg>",
    line_forms.ONE_LEG: "cs",
    line_forms.HEX: "<hex>",
    line_forms.COOKIE: "<cookie>",
    line_forms.MOMENT: "<moment>",
    line_forms.TEXT: "<words>",
}

SAID = {
    ("replay", "rh 1 roles\nset cwin 100\n", 2): "'100' is no window: 8,192 to 262,144 bytes",
    ("story", "rh 1 roles\nset cwin 100\n", 2): "'100' is no window: 8,192 to 262,144 bytes",
    ("replay", "rh 1 roles\nset keep 59999\n", 2): "'59999' is no keepalive: 0, or 60,000 to 4,29",
    ("replay", "rh 1 roles\nset\n", 2): "behind 'set' is missing: 'cwin'",
    ("replay", "rh 1 roles\nset win 1\n", 2): "'win' is no setting: they are cwin, iwin, owin,",
    ("replay", "rh 1 roles\nset cwin 8192\nset cwin 8192\n", 3): "cwin was set in line 2",
    ("replay", "rh 1 roles\ntake c\nset same 1\n", 3): "settings stand before all other lines, and",
    ("replay", "rh 1 roles\nopen co1 same\n", 2): "nothing stands behind 'open co1'",
    ("replay", "rh 1 roles\nopen ci1 sane\n", 2): "'sane' stands where 'same' does",
    ("replay", "rh 1 roles\nbreak xx1\n", 2): "'xx1' is no leg: co, os, ci or is, and the number",
    ("replay", "rh 1 roles\nsettle 100001\n", 2): "is no count of rounds: 1 to 100,000",
    ("replay", "rh 1 roles\nrecycle up\n", 2): "'up' stands where 'in' does",
    ("replay", "rh 1 direct\nclose c\n", 2): "no line begins with 'close': they begin with give,",
    ("replay", "rh 1 roles\nrh 1 roles\n", 2): "'rh 1 roles' is the first line alone",
    ("replay", "rh 3 roles\n", 1): "the first line is 'rh 1 direct' or 'rh 1 roles'",
    ("replay", "", 1): "the input is empty",
    ("replay", "0500\n", 1): "this is hex, which show reads: type ./rh_cli show < FILE",
    ("replay", "client\n", 1): "this is a script of one role, which play reads: type ./rh_cli play",
    ("replay", "# a case\nclient\n", 1): "this is a script of one role, which play reads",
    ("show", "rh 1 direct\n", 1): "this is a recording, which replay reads: type ./replay FILE",
    ("show", "server\nstate\n", 1): "this is a script of one role, which play reads",
    ("show", "05\n05 \n", 2): "there are spaces at its end",
    ("show", "05\n\n", 2): "the line is empty",
    ("show", "05\n0x05\n", 2): "the line is no hex: an even number of hex digits, of 1 to 65,535",
    ("name", "05\nciu 0g\n", 2): "'0g' is no hex: an even number of hex digits, of 1 to 65,535",
    ("name", "05\nciU 05\n", 2): "'ciU' is no leg with a direction: ciu, cou, cod, isu, isd",
    ("name", "050\n", 1): "the line is no hex: an even number of hex digits, of 1 to 65,535",
    ("name", "05 05 05\n", 1): "the line is no hex",
    ("name", "rh 1 direct\n", 1): "this is a recording, which replay reads",
    ("play", "rh 1 roles\n", 1): "this is a recording, which replay reads",
    ("play", "0500\n", 1): "this is hex, which show reads",
    ("play", "client\nup co1 03\n", 2): "'03' is no cookie: 32 hex digits",
    ("play", "client\ndraw co1\n", 2): "behind 'draw co1' is missing: count of bytes: 1 to 65,536",
    ("play", "client\nstate  c\n", 2): "there are two spaces between words",
    ("capture", "rh 1 direct\n", 1): "the first line is 'rh 1 roles'",
    ("capture", "cap 1\n", 1): "this is a capture of legs, which audit reads: type ./rh_cli audit",
    ("capture", "rh 1 roles\nbreak xx1\n", 2): "'xx1' is no leg: co, os, ci or is, and the",
    ("audit", "rh 1 roles\n", 1): "this is a recording, which replay reads",
    ("audit", "cap 2\n", 1): "the first line is 'cap 1'",
    ("audit", "cap 1\nseen 0 ciu 05\n", 2): "'0' is no tag: 1 to 18,446,744,073,709,551,615",
    ("audit", "cap 1\nseen 1 isd 05\n", 2): "'isd' is no leg with a direction: ciu, isu, cou,",
    ("audit", "cap 1\nseen 1 ciu 05\nseen 1 cou 05\n", 3): "earlier lines of tag 1 have pipes of",
    ("play", "client\nstate\tc\n", 2): "'\\t' stands in it, and lines are of printed ASCII",
}


def rows(text, heading):
    """The rows of the first table whose head begins so, as cells."""
    block = text[text.index(f"\n| {heading}") :].lstrip("\n").split("\n\n")[0]
    for row in block.splitlines()[2:]:
        yield [cell.strip() for cell in row.strip("|").split("|")]


def forms_on_page(page, heading):
    """The forms in the table of lines behind a heading."""
    text = page[page.index(f"\n{heading}") :]
    return [form for row in rows(text, "Line | What it does") for form in FORM.findall(row[0])]


def spelled(form):
    """A form as the page spells it."""
    return " ".join(it if isinstance(it, str) else SPELLED.get(it, "<n>") for it in form)


class Said(unittest.TestCase):
    def test_what_is_said(self):
        for (word, text, number), wanted in SAID.items():
            told = teaching.said_of(word, text.encode(), number, 7)
            self.assertTrue(told.startswith("line 7: "), told)
            self.assertIn(wanted, told)

    def test_each_refused_line_is_explained(self):
        for words, cases in word_cases.REFUSED.items():
            word = words.split(" ")[0]
            for text, number in cases:
                why = teaching.why_refused(word, text.encode(), number)
                self.assertIsNotNone(why, (word, text[-80:]))
                told = teaching.said_of(word, text.encode(), number, number)
                self.assertNotIn("docs/RECORDINGS.md", told)

    def test_nothing_is_said_against_lines_that_are_taken(self):
        for word in "replay", "play", "capture":
            for text, _ in word_cases.ANSWERED[word]:
                for number in range(2, text.rstrip("\n").count("\n") + 2):
                    why = teaching.why_refused(word, text.encode(), number)
                    self.assertIsNone(why, (word, text.split("\n")[number - 1][:80]))

    def test_captures_are_known(self):
        capture = (TOP / "examples/opening.pcap").read_bytes()
        for word in "replay", "show", "play", "capture", "audit":
            told = teaching.said_of(word, capture, 1, 1)
            self.assertEqual(told, f"line 1: this is {teaching.READ_BY['pcap']}")

    def test_another_word(self):
        told = "line 4: docs/RECORDINGS.md has the lines that other reads"
        self.assertEqual(teaching.said_of("other", b"x\n" * 9, 4, 4), told)

    def test_long_lines_are_shortened(self):
        told = teaching.said_of("show", b"05\n" + b"0" * 131_071 + b"\n", 2, 2)
        self.assertTrue(told.startswith(f"line 2: '{'0' * 58}..': the line is no hex"), told[:99])


class Forms(unittest.TestCase):
    """The forms are those of the page, with its numbers."""

    page = PAGE.read_text()

    def check(self, forms, heading, without=(), more=()):
        wanted = {*forms_on_page(self.page, heading), *more} - {*without}
        told = [spelled(form) for form in forms if form not in line_forms.SETTINGS]
        self.assertEqual(sorted(told), sorted(wanted))

    def test_direct(self):
        header, other = line_forms.HEADERS
        self.check(line_forms.DIRECT, "## Lines of a direct recording", [header])
        self.assertIn(f"`{other}`", self.page)

    def test_roles(self):
        self.check(line_forms.ROLES, "**All other lines**")

    def test_play(self):
        # A comment is none, the settings have a table, and a cookie may be left out.
        without = ["# ..", "set <key> <n>"]
        self.check(line_forms.PLAY, "## One role alone", without, ["up <leg>"])

    def test_settings(self):
        told, values = {}, ""
        for sets, _, cell, _ in rows(self.page, "Line | Sets"):
            values = values if cell == "the same" else cell
            told |= dict.fromkeys(re.findall(r"set (\w+) <n>", sets), NUMBER.findall(values))
        self.assertEqual(sorted(told), sorted(line_forms.KEYS))
        for key, slot in line_forms.KEYS.items():
            ends = NUMBER.findall(slot.which)
            self.assertEqual([ends[0], ends[-1]], [told[key][0], told[key][-1]], key)

    def test_numbers(self):
        for name, slot in vars(line_forms).items():
            if isinstance(slot, line_forms.Slot):
                for count in NUMBER.findall(slot.which):
                    self.assertIn(count, NUMBER.findall(self.page), name)


if __name__ == "__main__":
    unittest.main()
