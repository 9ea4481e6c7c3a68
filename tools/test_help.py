#!/usr/bin/env python3
"""Tests that --help, the pages and the sources tell the same, numbers included.

No program is run: rh_cli's page of --help is put together from the rows of statuses and the macro
that make it in the program. What the built programs write is tested by test_statuses.py, and by
test_relays.py, with the statuses of rh_roles.
"""
import re
import unittest

import given_input
from help_page import PAGE, TOP, forms, help_page, rows_of_page, statuses

WORDS = TOP / "crates/rh_words"
# The constants that --help tells of, and where they stand.
CONSTANTS = {
    "MOST_GIVEN": TOP / "crates/rh_made/src/count.rt",
    "MOST_INPUT": TOP / "crates/rh_word/src/word.rt",
    "MOST_BYTES": TOP / "crates/rh_show/src/reader.rt",
}
# What --help tells of each, and the page.
TOLD = {
    "MOST_GIVEN": ["a generated recording of n PDUs (1 to {})"],
    "MOST_BYTES": ["A line for show has 1 to {} bytes in hex"],
    "MOST_INPUT": ["input too long (above {} bytes)"],
}
ON_PAGE = {
    "MOST_GIVEN": ["`make` with a number from 1 to {}."],
    "MOST_BYTES": ["each is hex of 1 to {} bytes"],
    "MOST_INPUT": [
        "A whole recording has at most {} bytes.",
        "The whole text has at most {} bytes",
        "More than {} bytes came.",
    ],
}
# What rh_roles' --help tells of its numbers, and the page on it.
ROLE_WORDS = TOP / "crates/rh_role_words/src"
ROLES_HELP = TOP / "crates/rh_roles/src/main.rt"
ROLES_PAGE = TOP / "docs/RELAYS.md"
NUMBER = re.compile(r"\d+(?:,\d{3})*")


def constant(name):
    """The value of a constant, as the texts write it: in groups of three digits."""
    text = CONSTANTS[name].read_text()
    [value] = re.findall(rf"^pub const {name}: \w+ = ([\d_]+);", text, re.MULTILINE)
    return f"{int(value.replace('_', '')):,}"


def definition(name):
    """What the definition of a status gives for each: its variant, and the number or the text."""
    text = (WORDS / "specs/Statuses.antt").read_text()
    value = r'(?:codes )?"?([^"\n]*)"?'
    return re.findall(rf"^{name} \(?(\w+)(?: \w+\))? = {value}$", text, re.MULTILINE)


class Statuses(unittest.TestCase):
    def test_page(self):
        done, *rows = rows_of_page()
        self.assertEqual(done[:2], ["0", ""])
        told = [(number, text.strip("`").partition(" <")[0]) for number, text, _ in rows]
        self.assertEqual(told, [(number, name) for number, name, _ in statuses()])

    def test_what_stands_behind_a_text(self):
        for (number, text, when), (_, name, more) in zip(list(rows_of_page())[1:], statuses()):
            # A line is told in the text itself, and a number as in the sentence beside it.
            self.assertEqual("<" in text, "<" in more, number)
            for count in NUMBER.findall(more):
                self.assertIn(count, NUMBER.findall(when), name)

    def test_definition(self):
        numbers, texts = dict(definition("status_number")), dict(definition("status_name"))
        self.assertEqual(numbers.pop("Done"), "0")
        self.assertEqual(texts.pop("Done"), "done")
        told = sorted((number, texts[status]) for status, number in numbers.items())
        self.assertEqual(told, sorted((number, name) for number, name, _ in statuses()))


class Texts(unittest.TestCase):
    def told(self, sentences):
        return [it.format(constant(name)) for name, its in sentences.items() for it in its]

    def test_constants(self):
        for text, sentences in (help_page(), TOLD), (PAGE.read_text(), ON_PAGE):
            for sentence in self.told(sentences):
                self.assertEqual(text.count(sentence), 1, sentence)

    def test_what_the_scripts_read(self):
        self.assertEqual(f"{given_input.MOST_INPUT:,}", constant("MOST_INPUT"))

    def test_all_numbers(self):
        """No other number stands in --help than those, the statuses and the protocol's version."""
        rest = help_page()
        for number, name, _ in statuses():
            rest = rest.replace(f"\n  {number}  {name}", f"\n{name}")
        for sentence in [*self.told(TOLD), "HTTP version 2", "status other than 0"]:
            rest = rest.replace(sentence, "")
        self.assertEqual(NUMBER.findall(rest), [])

    def test_words(self):
        """The page's row of wrong words names each form that --help tells."""
        words = [form.partition(" <")[0] for form, _ in forms()]
        [when] = [when for _, text, when in rows_of_page() if text == "`usage`"]
        self.assertEqual(sorted(words), sorted(re.findall(r"`([^`]+)`", when)))


def number(file, name, sources=ROLE_WORDS):
    """The value of a constant, of the role words where no other sources are named."""
    text = (sources / file).read_text()
    [value] = re.findall(rf"^pub const {name}: \w+ = ([\d_]+);", text, re.MULTILINE)
    return int(value.replace("_", ""))


class Roles(unittest.TestCase):
    def setUp(self):
        self.help = re.search(r'const HELP: &str =\n +"(.*?)";', ROLES_HELP.read_text(), re.DOTALL)[1]
        self.page = ROLES_PAGE.read_text()
        self.addresses = number("addresses.rt", "MOST_MORE") + 1
        self.channels = number("form.rt", "MOST_CHANNELS")

    def test_counts(self):
        for way in "IN", "OUT":
            self.assertIn(f"so many {way} channels, 1 to {self.channels}\n", self.help)
        self.assertIn(f"1 to {self.addresses} host:port", self.help)
        self.assertIn(f"so many IN channels, 1 to {self.channels}, each", self.page)
        self.assertIn(f"is 1 to {self.addresses} `<host:port>`", self.page)

    def test_all_numbers(self):
        """No other number stands in --help than those, the statuses and the protocol's version."""
        rest, statuses = self.help.split("\n\nA status other than 0 has")
        rest = rest.replace("HTTP version 2", "")
        counts = [str(self.addresses), str(self.channels), str(self.channels)]
        told = [it for count in counts for it in ("1", count)]
        self.assertEqual(NUMBER.findall(rest), told)
        rows = [line for line in statuses.split("\n") if line[:2] == "  "]
        self.assertTrue(all(re.fullmatch(r"  \d+  [a-z ]+( <\w+>)?", row) for row in rows), rows)

    def test_numbers_by_default(self):
        crates = TOP / "crates"
        window = number("range.rt", "DEFAULT_WINDOW", crates / "rh_window/src")
        lifetime = number("range.rt", "DEFAULT_LIFETIME", crates / "rh_keep/src")
        timeout = number("ranges.rt", "DEFAULT_TIMEOUT", crates / "rh_sig/src")
        keepalive = number("config.rt", "KEEPALIVE", crates / "rh_http/src")
        said = (
            f"windows of {window:,} bytes, lifetimes of {lifetime:,} bytes, "
            f"a connection timeout of {timeout:,} ms, a keepalive of {keepalive:,} ms."
        )
        self.assertIn(said, self.page)


if __name__ == "__main__":
    unittest.main()
