"""Reads a report beside its recording, apart from the program that wrote it.

That is which answers each line has, and what those before an answer tell of ends, nodes and legs.
Of bytes on legs is known only where a head, a greeting or a frame ends. The rules that are asked of
what is read here stand in tools/walking.py.
"""
import collections
import functools
import re

OTHER = {"c": "s", "s": "c"}
NAMES = {"c": "client", "s": "server"}
DIRECTIONS = {"up": ("c", "s"), "down": ("s", "c")}
LAST = [*DIRECTIONS, *NAMES.values()]
# What the rounds of a settling tell.
TOLD_BY_ROUNDS = ("open", "move", "take", "end")

NUMBER = r"(?:0|[1-9]\d*)"
LEG = r"(?:co|os|ci|is)[1-9]\d*"
# Causes that no honest node has; of what they tell behind the leg nothing is known here.
DISHONEST = ["3 BadFrame", "4 BadPacket", "5 Unexpected", "6 CookieMismatch", "7 WindowExceeded"]
DISHONEST += ["8 OutOfRange", "10 BadHead", "12 ControlFull", "13 BodyOver"]
CAUSE = rf"""(?:1\ LegBroken\ {LEG}|2\ LegEnded\ {LEG}\ {NUMBER}|9\ HttpRefused\ {LEG}\ {NUMBER}
    |11\ Silent\ {LEG}\ {NUMBER}\ {NUMBER}
    |(?:{"|".join(map(re.escape, DISHONEST))})\ {LEG}(?:\ \S+)*)"""
CLOSED = rf"closed\ {CAUSE}"
BYTES = r"(?:[0-9a-f]{2})+"
OPEN = r"(?:opening|open|ended)\ in\ [1-9]\d*\ out\ [1-9]\d*"
# What a line of a report looks like.
SHAPE = re.compile(
    rf"""give\ [cs]\ (?:ok\ {NUMBER}|full\ {NUMBER}\ {NUMBER}|closing|{CLOSED})
    |give\ [cs]\ bad\ [A-Z]\w+(?:\ {NUMBER})*
    |take\ [cs]\ (?:pdu\ {BYTES}|empty|ended|{CLOSED})
    |close\ [cs]\ ok
    |send\ (?:cs|{LEG})\ [ud]\ (?:{NUMBER}|no)
    |move\ (?:cs|{LEG})\ [ud]\ (?:{NUMBER}\ {BYTES}|0|no)
    |open\ {LEG}(?:\ same)?\ (?:ok|no)
    |break\ {LEG}\ (?:ok|no)
    |end\ {LEG}\ [ud]\ (?:ok|no)
    |tick\ {NUMBER}\ (?:ok|no)
    |recycle\ (?:in|out)\ (?:ok|busy\ {LEG}|notopen|last)
    |(?:quiet|spent)\ {NUMBER}
    |closed\ (?:[cs]|[io][1-9]\d*)\ {CAUSE}
    |(?:up|down)\ given\ {NUMBER}\ taken\ {NUMBER}
    |(?:client|server)\ (?:{OPEN}|{CLOSED})""",
    re.ASCII | re.VERBOSE,
)
# The words with which one may begin.
WORDS = "give take close send move open break end tick recycle quiet spent closed".split() + LAST
# The answers to a line: from `begin` to `closed` its own, and then the nodes that it closed.
Part = collections.namedtuple("Part", "line begin closed end")


@functools.lru_cache(maxsize=4096)
def words_of(text):
    """The words of a line of a report; none where it is no such line."""
    return tuple(text.split(" ")) if SHAPE.fullmatch(text) else ()


def behind(answers, at, names):
    """The index behind the answers from one on that begin with these words."""
    while at < len(answers) and answers[at] and answers[at][0] in names:
        at += 1
    return at


def parted(lines, answers):
    """The part of each line that is answered, and that of the last lines."""
    end = 0
    for line in lines[1:]:
        if line[0] == "set":
            continue
        begin = end
        last = behind(answers, begin, TOLD_BY_ROUNDS) if line[0] == "settle" else begin
        closed = min(last + 1, len(answers))
        end = behind(answers, closed, ["closed"])
        yield Part(line, begin, closed, end)
    yield Part(["last"], end, len(answers), len(answers))


class Report:
    """A recording and its report, as words. An answer is named by its index, from 0."""

    def __init__(self, recording, report):
        self.lines = [line.split(" ") for line in recording.removesuffix("\n").split("\n")]
        self.texts = report.removesuffix("\n").split("\n")
        self.is_whole = report.endswith("\n")
        self.end = len(self.texts) - 1
        self.is_direct = self.lines[0] == ["rh", "1", "direct"]
        self.answers = [words_of(text) for text in self.texts]
        self.offers = [(line[1], line[2].lower()) for line in self.lines if line[0] == "give"]
        self.settings = {line[1]: int(line[2]) for line in self.lines if line[0] == "set"}
        self.parts = list(parted(self.lines, self.answers))
        # The own answers of the line in whose part the answer at an index stands.
        self.own = [part for part in self.parts for _ in range(part.begin, part.end)]

    def own_answers(self, at):
        """What the line of an answer was answered itself, without the nodes that it closed."""
        part = self.own[at]
        return self.answers[part.begin : part.closed]

    def count_lines(self, past):
        """The last lines that count what was given and taken."""
        for name, (giver, taker) in DIRECTIONS.items():
            yield f"{name} given {len(past.given[giver])} taken {len(past.taken[taker])}"


def begin_of(leg, way):
    """How that ends which stands before the frames that go this way on a leg; None where they are
    first: heads stand on a client's legs, and a greeting on what comes from the server.
    """
    if leg == "cs":
        return None
    if leg[0] == "c":
        return b"\r\n\r\n"
    return b"ncacn_http/1.0" if way == "d" else None


class Stream:
    """What was fed one way on a leg: a head or a greeting where there is one, and then frames."""

    def __init__(self, leg, way):
        self.begin = begin_of(leg, way)
        # How many bytes were fed, and how many lines sent.
        self.fed, self.sent = 0, 0
        self.head = b""
        self.frames = []
        # What makes no head, greeting or frame whole yet.
        self.rest = b""

    def feed(self, piece):
        """Takes the bytes, and answers whether they made the head or the greeting whole."""
        self.fed += len(piece)
        self.rest += piece
        is_whole = self.begin is not None and self.begin in self.rest
        if is_whole:
            end = self.rest.index(self.begin) + len(self.begin)
            self.head, self.rest, self.begin = self.rest[:end], self.rest[end:], None
        while self.begin is None and len(self.rest) >= 16:
            length = int.from_bytes(self.rest[8:10], "little" if self.rest[4] >> 4 else "big")
            if not 16 <= length <= len(self.rest):
                break
            self.frames.append(self.rest[:length].hex())
            self.rest = self.rest[length:]
        return is_whole

    def status(self):
        """The status of a response, as text."""
        return (self.head.split(b" ") + [b""])[1].decode("ascii", "replace")


class Legs:
    """What the answers told of legs so far."""

    def __init__(self):
        self.moment = 0
        # Legs that are up, and those that were.
        self.up, self.opened, self.proxies = set(), set(), {}
        self.streams, self.heard, self.headed = {}, {}, {}
        # By leg: the nodes that were told of its break, the node to which it was lost as it ended,
        # and the node that was told of its end, with the bytes that it held unfinished.
        self.breaks, self.losses, self.ends = {}, {}, {}

    def node(self, leg, letter):
        """The node at an end of a leg. An in proxy may read several ci legs."""
        if letter in "cs":
            return letter
        return letter + (self.proxies.get(leg, leg[2:]) if leg.startswith("ci") else leg[2:])

    def sender(self, leg, way):
        return self.node(leg, leg[0] if way == "u" else leg[1])

    def receiver(self, leg, way):
        return self.node(leg, leg[1] if way == "u" else leg[0])

    def are_at(self, leg):
        """The nodes at a leg: both ends where it is up, else the one that wants it."""
        letters = leg[:2] if leg in self.up else leg[0]
        return {self.node(leg, letter) for letter in letters}

    def hear(self, at, words):
        """One answer that says something of a leg or of the moment."""
        if words[0] == "open" and words[-1] == "ok":
            self.open(words[1], is_same=words[2] == "same")
        elif words[0] == "move" and len(words) == 5:
            self.feed(at, words[1], words[2], bytes.fromhex(words[4]))
        elif words[0] == "send" and words[3] != "no":
            self.stream(words[1], words[2]).sent += int(words[3])
        elif words[0] == "break" and words[2] == "ok":
            self.breaks[words[1]] = self.are_at(words[1])
            self.up.discard(words[1])
        elif words[0] == "end" and words[3] == "ok":
            self.end(words[1], words[2])
        elif words[0] == "tick" and words[2] == "ok":
            self.moment = int(words[1])

    def open(self, leg, is_same):
        if is_same:
            before = f"ci{int(leg[2:]) - 1}"
            self.proxies[leg] = self.proxies.get(before, before[2:])
        self.up.add(leg)
        self.opened.add(leg)
        for way in "ud":
            self.heard[leg, way] = self.moment

    def feed(self, at, leg, way, piece):
        if self.stream(leg, way).feed(piece):
            self.headed[leg, way] = at
        self.heard[leg, way] = self.moment

    def stream(self, leg, way):
        return self.streams.setdefault((leg, way), Stream(leg, way))

    def end(self, leg, way):
        self.losses[leg] = self.sender(leg, way)
        self.ends[leg] = (self.receiver(leg, way), str(len(self.stream(leg, way).rest)))
        self.up.discard(leg)


class Past:
    """What the answers told so far of ends, nodes and legs."""

    def __init__(self, report):
        self.offers, self.answered = report.offers, 0
        self.given = {"c": [], "s": []}
        self.taken = {"c": [], "s": []}
        # Ends that were told to give no more, that reported a clean end, and that told their close.
        self.closing, self.ended, self.closed = set(), set(), set()
        # Nodes with each cause that a `closed` line told, the first of them by node, and the states
        # of the last lines.
        self.reported, self.causes, self.states = set(), {}, {}
        self.legs = Legs()

    def is_given(self, words):
        """Whether an end gives by it; the jth answer to a give is that to the jth offer."""
        return words[0] == "give" and words[2] == "ok" and self.answered < len(self.offers)

    def hear(self, at, words):
        """One answer."""
        if words[0] == "give":
            if self.is_given(words):
                self.given[words[1]].append(self.offers[self.answered][1])
            self.answered += 1
        elif words[0] == "take":
            self.hear_take(words[1], words[2:])
        elif words[0] == "close":
            self.closing.add(words[1])
        elif words[0] == "closed":
            self.reported.add(words[1:])
            self.causes.setdefault(words[1], words[2:])
            self.closed |= {words[1]} & set(OTHER)
        elif words[0] in NAMES.values():
            self.states[words[0][0]] = words[1]
        else:
            self.legs.hear(at, words)

    def hear_take(self, end, words):
        if words[0] == "pdu":
            self.taken[end].append(words[1])
        elif words[0] == "ended":
            self.ended.add(end)
        elif words[0] == "closed":
            self.closed.add(end)

    def untaken(self):
        """How many PDUs were given and not taken."""
        return sum(len(self.given[OTHER[end]]) - len(self.taken[end]) for end in OTHER)
