"""The forms of the lines that the words read, as docs/RECORDINGS.md has them.

They serve what is said of a refused line (teaching.py) and the grammars of editors
(terminal_files.py). The program has its own grammar, which alone decides.
"""
import re
from typing import NamedTuple


class Slot(NamedTuple):
    """A place of a form that more than one word may take."""

    # What stands there, as a sentence goes on behind 'is no'.
    what: str
    # Which of them are taken.
    which: str
    # How the words are spelled, and behind that the ranges of the number, where one stands there.
    pattern: str
    ranges: tuple = ()

    def takes(self, word):
        if not self.ranges:
            return re.fullmatch(self.pattern, word) is not None
        found = re.fullmatch(f"(?:{self.pattern})(0|[1-9][0-9]{{0,19}})", word)
        return bool(found) and any(least <= int(found[1]) <= most for least, most in self.ranges)

    @property
    def told(self):
        return f"{self.what}: {self.which}"


def number(what, least, most, unit=""):
    """The slot of a number in a range, in these units."""
    return Slot(what, f"{least:,} to {most:,}{unit}", "", ((least, most),))


def hex_of(most):
    digits = f"an even number of hex digits, of 1 to {most:,} bytes"
    return Slot("hex", digits, f"(?:[0-9A-Fa-f]{{2}}){{1,{most}}}")


def leg_of(what, kinds, which):
    """The slot of a leg of these kinds."""
    return Slot(what, f"{which}, and the number of its channel, from 1", kinds, CHANNEL.ranges)


SIDE = Slot("end", "c or s", "[cs]")
DIRECTION = Slot("direction", "u or d", "[ud]")
COUNT = number("count of bytes", 1, 65_536)
MOMENT = number("moment", 0, 9_223_372_036_854_775_807, " ms")
ROUNDS = number("count of rounds", 1, 100_000)
CHANNEL = number("channel", 1, 4_294_967_295)
ANY_LEG = leg_of("leg", "co|os|ci|is", "co, os, ci or is")
IN_LEG = leg_of("leg of an IN channel at the client", "ci", "ci")
ONE_LEG = Slot("leg of a direct recording", "cs", "cs")
PIPES = "ciu|cou|cod|isu|isd|osu|osd"
PIPE = Slot("leg with a direction", "ciu, cou, cod, isu, isd, osu or osd", PIPES)
HEX = hex_of(65_536)
LONG_HEX = hex_of(65_535)
COOKIE = Slot("cookie", "32 hex digits", "[0-9A-Fa-f]{32}")
TEXT = Slot("text", "ASCII", "[ -~]+")
WINDOW = number("window", 8_192, 262_144, " bytes")
LIFETIME = number("lifetime", 131_072, 2_147_483_648, " bytes")
TIMEOUT = number("connection timeout", 120_000, 14_400_000, " ms")
KEEPALIVE = Slot(
    "keepalive", "0, or 60,000 to 4,294,967,295 ms", "", ((0, 0), (60_000, 4_294_967_295))
)
SAME = number("choice of a proxy", 0, 1)

TAG = number("tag", 1, 18_446_744_073_709_551_615)
SEEN_PIPE = Slot(
    "leg with a direction", "ciu, isu, cou, cod, osu or osd", PIPES.replace("|isd", "")
)

# Lines of packets: of `show`, and of `name`, where one may have its leg in front.
SHOW = [(LONG_HEX,)]
NAME = [(PIPE, LONG_HEX), (LONG_HEX,)]

# The first line of a capture of legs, and the others.
CAPTURE = "cap 1"
AUDIT = [("seen", TAG, SEEN_PIPE, HEX)]

KEYS = {
    "cwin": WINDOW,
    "iwin": WINDOW,
    "owin": WINDOW,
    "swin": WINDOW,
    "ilife": LIFETIME,
    "olife": LIFETIME,
    "itime": TIMEOUT,
    "otime": TIMEOUT,
    "keep": KEEPALIVE,
    "same": SAME,
}
SETTINGS = [("set", key, slot) for key, slot in KEYS.items()]
DIRECT = [
    ("give", SIDE, HEX),
    ("send", ONE_LEG, DIRECTION, COUNT),
    ("move", ONE_LEG, DIRECTION, COUNT),
    ("take", SIDE),
]
ROLES = [
    *SETTINGS,
    ("give", SIDE, HEX),
    ("take", SIDE),
    ("close", SIDE),
    ("open", ANY_LEG),
    ("open", IN_LEG, "same"),
    ("send", ANY_LEG, DIRECTION, COUNT),
    ("move", ANY_LEG, DIRECTION, COUNT),
    ("break", ANY_LEG),
    ("end", ANY_LEG, DIRECTION),
    ("tick", MOMENT),
    ("recycle", "in"),
    ("recycle", "out"),
    ("settle", ROUNDS),
]
OF_ROLES = "rh 1 roles"
HEADERS = {"rh 1 direct": DIRECT, OF_ROLES: ROLES}
PLAY = [
    ("case", TEXT),
    *SETTINGS,
    ("names", "on"),
    ("names", "off"),
    ("client",),
    ("server",),
    ("inproxy", CHANNEL),
    ("outproxy", CHANNEL),
    ("wants", ANY_LEG),
    ("may", ANY_LEG),
    ("finished", ANY_LEG),
    ("up", ANY_LEG),
    ("up", ANY_LEG, COOKIE),
    ("feed", ANY_LEG, HEX),
    ("each", ANY_LEG, HEX),
    ("draw", ANY_LEG, COUNT),
    ("ended", ANY_LEG),
    ("broken", ANY_LEG),
    ("tick", MOMENT),
    ("give", HEX),
    ("take",),
    ("close",),
    ("recycle",),
    ("state",),
    ("channels",),
    ("target",),
    ("first", HEX),
]


def is_taken(form, words):
    """Whether the words are a line of this form."""
    return len(form) == len(words) and fitting(form, words) == len(words)


def fitting(form, words):
    """How many of the first words stand as the form has them."""
    count = 0
    for part, word in zip(form, words):
        if not (part == word if isinstance(part, str) else part.takes(word)):
            break
        count += 1
    return count


def amiss(form, words):
    """What is wrong with the first of the words that isn't as the form has it."""
    at = fitting(form, words)
    if at == len(form):
        return f"nothing stands behind {' '.join(words[:at])!r}"
    part = form[at]
    told = repr(part) if isinstance(part, str) else part.told
    if at == len(words):
        return f"behind {' '.join(words)!r} is missing: {told}"
    if isinstance(part, str):
        return f"{words[at]!r} stands where {told} does"
    return f"{words[at]!r} is no {told}"
