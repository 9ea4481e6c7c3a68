#!/usr/bin/env python3
"""Tests of the charts of stories: that they show what the story tells, that a picture is one whole
file in which no label stands on another, and that docs/pictures has what is drawn today.
"""
import pathlib
import re
import subprocess
import sys
import unittest
import xml.etree.ElementTree

import story_chart

TOP = pathlib.Path(__file__).resolve().parent.parent
PICTURES = "break_during_replacement", "clean_end", "replacement"
SVG = "{http://www.w3.org/2000/svg}"

# A story by hand: an opening, a replacement whose predecessor breaks, and closes.
STORY = """\
0 round 1
0 open co1 ok
0 open ci1 ok
0 co1 c>o RPC_OUT_DATA /rpc/rpcproxy.dll?server:593 HTTP/1.1
0 co1 c>o CONN/A1 virtual ..00000001 out ..00000003 window 65536
0 round 2
0 os1 s>o ncacn_http/1.0
0 quiet 2
0 recycle in ok
0 give c request call 1 length 24
0 open ci2 ok
0 ci1 c>i request call 1 length 24
0 ci2 c>i IN_R1/A1 virtual ..00000001 predecessor ..00000004 successor ..00000005
0 send ci1 u 24
0 send ci1 u 40
0 tick 120000 ok
120000 break ci1 ok
120000 closed i1 1 LegBroken ci1
120000 end is1 u ok
120000 take s closed 2 LegEnded is1 0
120000 up given 1 taken 0
"""


def drawn(story):
    return "\n".join(story_chart.TextChart(story_chart.Chart(story)).lines())


def picture(story):
    return story_chart.Picture(story_chart.Chart(story)).svg()


def elements(svg, name):
    return xml.etree.ElementTree.fromstring(svg).iter(SVG + name)


def classes(svg, name):
    return [it.get("class", "") for it in elements(svg, name)]


class Rows(unittest.TestCase):
    def test_an_item_is_an_arrow_from_its_sender_to_its_receiver(self):
        rows = story_chart.Chart(STORY).rows
        told = [(it.start, it.end, it.label) for it in rows if it.kind == "arrow"]
        self.assertEqual(told, [
            ("c", "o1", "RPC_OUT_DATA, CONN/A1"),
            ("s", "o1", "ncacn_http/1.0"),
            ("c", "i1", "request 1"),
            ("c", "i2", "IN_R1/A1"),
        ])

    def test_lanes_stand_from_the_client_to_the_server(self):
        self.assertEqual(story_chart.Chart(STORY).lanes, ["c", "i1", "i2", "o1", "s"])

    def test_what_was_sent_and_did_not_come_is_lost_where_the_leg_breaks(self):
        rows = story_chart.Chart(STORY).rows
        lost = [(it.start, it.end, it.label) for it in rows if it.kind == "lost"]
        self.assertEqual(lost, [("c", "i1", "64 bytes lost")])

    def test_what_came_is_not_lost(self):
        story = STORY.replace("0 tick", "0 ci1 c>i request call 2 length 24\n0 tick")
        self.assertNotIn("lost", [it.kind for it in story_chart.Chart(story).rows])

    def test_a_replacement_is_bracketed_from_its_asking_to_its_break(self):
        chart = story_chart.Chart(STORY)
        [bracket] = chart.brackets
        self.assertEqual(chart.rows[bracket.first].label, "replace IN")
        self.assertEqual(chart.rows[bracket.last].kind, "break")
        self.assertTrue(bracket.broken)

    def test_a_leg_at_the_proxy_before_it_goes_to_that_lane(self):
        story = STORY.replace("0 open ci2 ok", "0 open ci2 same ok")
        rows = story_chart.Chart(story).rows
        self.assertEqual([it.end for it in rows if it.label == "IN_R1/A1"], ["i1"])

    def test_rounds_begin_in_front_of_rows(self):
        chart = story_chart.Chart(STORY)
        self.assertEqual(chart.rounds_at(0), "round 1")
        [at] = [at for at, row in enumerate(chart.rows) if row.label == "ncacn_http/1.0"]
        self.assertEqual(chart.rounds_at(at), "round 2")
        self.assertEqual(chart.rounds_at(at + 1), "")

    def test_rounds_that_tell_nothing_stand_together(self):
        chart = story_chart.Chart(STORY.replace("0 round 2\n", "0 round 2\n0 round 3\n"))
        self.assertIn("round 2, 3", map(chart.rounds_at, range(len(chart.rows))))

    def test_an_item_is_not_joined_to_one_of_the_round_before(self):
        story = STORY.replace("0 co1 c>o CONN/A1", "0 round 2\n0 co1 c>o CONN/A1")
        labels = [it.label for it in story_chart.Chart(story).rows if it.kind == "arrow"]
        self.assertEqual(labels[:2], ["RPC_OUT_DATA", "CONN/A1"])

    def test_what_is_no_story_is_refused(self):
        for text in ("rh 1 roles\n", "open co1 ok\n", "0 dance co1\n", "0\n"):
            with self.subTest(text=text):
                run = [sys.executable, TOP / "tools/story_chart.py"]
                done = subprocess.run(run, input=text.encode(), capture_output=True, check=False)
                self.assertEqual((done.returncode, done.stdout), (2, b""))
                self.assertIn(b"this is no story", done.stderr)


class Texts(unittest.TestCase):
    def test_each_item_is_there_with_its_fields(self):
        text = drawn(STORY)
        for part in ("--request 1--", "--IN_R1/A1--", "ncacn_http/1.0--", "co1 virtual ..00000001"):
            self.assertIn(part, text)

    def test_a_break_is_crossed_and_what_is_lost_ends_in_a_cross(self):
        lines = drawn(STORY).splitlines()
        self.assertEqual(len([it for it in lines if "xci1 breaksx" in it]), 1)
        [lost] = [it for it in lines if "64 bytes lost" in it]
        self.assertRegex(lost, r"-X ")

    def test_a_moment_stands_where_it_is_another(self):
        told = [it.split()[0] for it in drawn(STORY).splitlines() if it[:1].strip()]
        self.assertEqual(told[:2], ["120000", "up"])
        self.assertRegex(drawn(STORY), r"(?m)^     0 ")


class Pictures(unittest.TestCase):
    def test_a_picture_needs_nothing_else(self):
        svg = picture(STORY)
        self.assertEqual(xml.etree.ElementTree.fromstring(svg).tag, SVG + "svg")
        self.assertIsNone(re.search(r"href|url\(|@import|<script|<image", svg))
        self.assertEqual(re.findall(r"https?://\S+?\"", svg), ['http://www.w3.org/2000/svg"'])

    def test_arrows_crosses_and_brackets_are_as_many_as_told(self):
        svg = picture(STORY)
        self.assertEqual(len(classes(svg, "polygon")), 4)
        paths = classes(svg, "path")
        # The break and what it lost, the end of a leg, and the bracket.
        self.assertEqual(sorted(paths), ["line bad"] * 3 + ["line quiet"])

    def test_each_round_is_told(self):
        self.assertEqual(classes(picture(STORY), "line").count("border"), 2)
        rounds = [it.text for it in elements(picture(STORY), "text") if it.get("class") == "round"]
        self.assertEqual(rounds, ["round 1", "round 2"])
        self.assertEqual(drawn(STORY).count(". . round "), 2)

    def test_text_is_escaped(self):
        self.assertIn("bad &lt;a&gt;&amp;b", picture(STORY.replace("LegBroken ci1", "bad <a>&b")))

    def test_no_label_is_wider_than_its_way(self):
        for story in (STORY, STORY.replace("request call 1", "alter_context_resp call 4294967295")):
            drawing = story_chart.Picture(story_chart.Chart(story))
            for row in drawing.chart.rows:
                if row.kind not in ("rule", "tag"):
                    way = abs(drawing.places[row.start] - drawing.places[row.end])
                    self.assertLess(drawing.wide(row.label) + 24, way)


class Pages(unittest.TestCase):
    def test_the_pictures_of_docs_are_drawn_today(self):
        for name in PICTURES:
            with self.subTest(name=name):
                recording = (TOP / f"examples/{name}.rh").read_bytes()
                run = [TOP / "rh_cli", "story", "--svg"]
                done = subprocess.run(run, input=recording, capture_output=True, check=False)
                wanted = (TOP / f"docs/pictures/{name}.svg").read_bytes()
                self.assertEqual((done.returncode, done.stdout), (0, wanted))

    def test_a_bad_recording_is_told_as_ever_and_nothing_is_drawn(self):
        run = [TOP / "rh_cli", "story", "--chart"]
        done = subprocess.run(run, input=b"rh 1 roles\ndance\n", capture_output=True, check=False)
        self.assertEqual((done.returncode, done.stdout), (2, b""))
        self.assertTrue(done.stderr.startswith(b"bad input 2\n"), done.stderr)


def unittest_words(words):
    """The words for unittest: of `--quiet` only failures are told."""
    return [it for it in words if it != "--quiet"]


if __name__ == "__main__":
    quiet = "--quiet" in sys.argv
    unittest.main(argv=unittest_words(sys.argv), verbosity=0 if quiet else 1)
