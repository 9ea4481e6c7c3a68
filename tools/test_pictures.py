#!/usr/bin/env python3
"""Tests of docs/pictures as a browser shows them: Chromium lays each out, and tells where its
labels stand.
"""
import html
import json
import pathlib
import re
import subprocess
import sys
import tempfile
import unittest

TOP = pathlib.Path(__file__).resolve().parent.parent
PICTURES = sorted((TOP / "docs/pictures").glob("*.svg"))
BROWSER = "chromium", "--headless", "--no-sandbox", "--disable-gpu", "--dump-dom"
# The page tells the place of each text, and the size of the picture.
PAGE = """<!doctype html><body style="margin: 0">{svg}<pre id="told"></pre><script>
const svg = document.querySelector("svg"), whole = svg.getBoundingClientRect();
const texts = [...svg.querySelectorAll("text")].map(it => {{
    const at = it.getBoundingClientRect();
    return [it.textContent, at.left, at.top, at.right, at.bottom];
}});
const size = [whole.width, whole.height];
document.querySelector("#told").textContent = JSON.stringify({{texts, size}});
</script>"""
# How much of a letter's box is empty, in pixels: so far boxes may stand in one another.
EMPTY = 4
LONGEST = 120


def shown(picture):
    """What the browser tells of a picture."""
    with tempfile.TemporaryDirectory() as folder:
        page = pathlib.Path(folder, "page.html")
        page.write_text(PAGE.format(svg=picture.read_text()))
        words = [*BROWSER, f"--user-data-dir={folder}/profile", page.as_uri()]
        how = {"capture_output": True, "text": True, "timeout": LONGEST, "check": True}
        dom = subprocess.run(words, **how).stdout
    found = re.search(r'<pre id="told">(.*?)</pre>', dom, re.DOTALL)
    return json.loads(html.unescape(found[1]))


def stand_on(one, two):
    """Whether one label stands on another."""
    return (one[1] < two[3] - EMPTY and two[1] < one[3] - EMPTY
            and one[2] < two[4] - EMPTY and two[2] < one[4] - EMPTY)


class Pictures(unittest.TestCase):
    def test_there_are_pictures(self):
        self.assertGreaterEqual(len(PICTURES), 3)

    def test_labels_stand_apart_and_within(self):
        for picture in PICTURES:
            told = shown(picture)
            width, height = told["size"]
            texts = told["texts"]
            self.assertGreater(len(texts), 10, picture.name)
            for text, left, top, right, bottom in texts:
                with self.subTest(picture=picture.name, text=text):
                    self.assertTrue(0 <= left and right <= width and 0 <= top and bottom <= height)
                    self.assertLess(left, right)
            on = [(a[0], b[0]) for at, a in enumerate(texts) for b in texts[:at] if stand_on(a, b)]
            self.assertEqual(on, [], picture.name)


if __name__ == "__main__":
    is_quiet = "--quiet" in sys.argv
    words = [it for it in sys.argv if it != "--quiet"]
    unittest.main(argv=words, verbosity=0 if is_quiet else 1)
