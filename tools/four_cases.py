"""Recordings of all four roles, and what has to come of each.

The PDUs of a case have lengths from 16 to 8,192 bytes, another one than those beside it, and bytes
that no other PDU has. What has to come is worked out from what is given, and from the tables of
docs/PROFILE.md and the lengths of packets (MS-RPCH 2.2.4); nothing is taken from the program.
"""
import dataclasses

MANY = 65_536
LEAST = ["cwin 8192", "iwin 8192", "owin 8192", "swin 8192", "ilife 131072", "olife 131072"]
OTHER = {"c": "s", "s": "c"}
FIRST = {"c": 0, "s": 100}
# The channel that an end asks to have replaced, and the letters of its legs.
WAY = {"c": ("in", "ci", "is"), "s": ("out", "co", "os")}
OPENING = {"co1", "os1", "ci1", "is1"}


def length_of(call):
    """The length of the PDU of a call."""
    return min(max(call * 53 % 97 * 85, 16), 8192)


def pdu_of(call):
    """The PDU of a call, a request (C706 12.6.3.1)."""
    length = length_of(call)
    head = bytes([5, 0, 0, 3, 16, 0, 0, 0, length & 255, length >> 8, 0, 0, call, 0, 0, 0])
    return head + bytes(place % 251 ^ call for place in range(16, length))


def bytes_of(calls):
    return sum(length_of(call) for call in calls)


@dataclasses.dataclass
class Wanted:
    """What a report has to tell: the states of the ends, each a pattern; how many PDUs an end took,
    all that was given where none is told; the legs that came up and that ended, where these are
    told."""

    client: str
    server: str
    taken: dict = None
    up: set = None
    ended: set = None


class Recording:
    """Lines, and what is known of their answers."""

    def __init__(self, *settings):
        self.lines = ["rh 1 roles", *(f"set {each}" for each in settings)]
        self.given = {"c": [], "s": []}
        # The wanted answers of some lines, by the places of these.
        self.answers = {}
        self.channels = {"in": 1, "out": 1}
        self.same = False

    def say(self, line, answer=None):
        if answer is not None:
            self.answers[len(self.lines)] = answer
        self.lines.append(line)

    # ---- ends

    def give(self, end, calls):
        for call in calls:
            self.say(f"give {end} {pdu_of(call).hex()}", f"give {end} ok {length_of(call)}")
            self.given[end].append(call)

    def give_refused(self, end, call, why):
        self.say(f"give {end} {pdu_of(call).hex()}", f"give {end} {why}")

    def take(self, end, call):
        self.say(f"take {end}", f"take {end} pdu {pdu_of(call).hex()}")

    def take_ended(self, end):
        self.say(f"take {end}", f"take {end} ended")

    def close(self, end):
        self.say(f"close {end}", f"close {end} ok")

    def recycle(self, end):
        way = WAY[end][0]
        self.say(f"recycle {way}", f"recycle {way} ok")
        self.channels[way] += 1

    # ---- legs

    def settle(self, rounds=1000):
        self.say(f"settle {rounds}")

    def open_wanted(self):
        """Opens what is wanted. Of a leg that isn't nothing is known."""
        for number in range(1, self.channels["out"] + 1):
            self.say(f"open co{number}")
            self.say(f"open os{number}")
        for number in range(1, self.channels["in"] + 1):
            if self.same and number > 1:
                self.say(f"open ci{number} same")
            self.say(f"open ci{number}")
            self.say(f"open is{number}")

    def legs(self):
        for kinds, way in (("co", "os"), "out"), (("ci", "is"), "in"):
            for number in range(1, self.channels[way] + 1):
                yield from (f"{kind}{number}" for kind in kinds)

    def carry(self, leg, way, piece, answer=None):
        """A piece goes over a leg; how many bytes is known where an answer is told."""
        told = None if answer is None else f"send {leg} {way} {answer}"
        self.say(f"send {leg} {way} {piece}", told)
        self.say(f"move {leg} {way} {piece}")

    def round(self, piece=MANY, pieces=1):
        """Legs come up, and so many pieces go over each, first up and then down."""
        self.open_wanted()
        for leg in self.legs():
            for way in "ud":
                for _ in range(pieces):
                    self.carry(leg, way, piece)

    def rounds(self, count, piece=MANY):
        for _ in range(count):
            self.round(piece)

    def is_quiet(self, but=()):
        """Nothing goes over any leg that is up, but so many bytes where that is told."""
        told = dict(but)
        for leg in ("co1", "os1", "ci1", "is1"):
            for way in "ud":
                self.carry(leg, way, MANY, told.get(leg + way, 0))


def state(ins, outs, word="open"):
    return f"{word} in {ins} out {outs}"


def opened(*settings):
    recording = Recording(*settings)
    recording.settle()
    return recording


def both(text):
    return {"client": text, "server": text}


# ---- the opening, PDUs both ways, and acknowledgements

# A piece and how many of them, for what goes over a leg before it is another one's turn.
PACES = [(1, 1), (1, None), (100, 1), (4096, None)]
# The most bytes of heads, greeting and packets that go over a leg when it opens.
OPENING_BYTES = 320
# A proxy passes a PDU on once it is whole.
LONGEST = 8192


# The directions in which PDUs go.
PDU_WAYS = [("ci1", "u"), ("is1", "u"), ("os1", "d"), ("co1", "d")]


def paced(recording, piece, pieces, most=0):
    """Rounds in which heads, greetings and packets go over each leg, and behind them up to so many
    bytes of PDUs: one piece of a leg behind one of the other, or all of a leg in pieces."""
    if pieces is not None:
        # A byte goes over both legs of a channel, and a packet is answered on the way back.
        behind = 3 * OPENING_BYTES + (LONGEST if most else 0)
        recording.rounds((most + behind) // piece + 4, piece)
        return
    for _ in range(4):
        recording.round(piece, -(-OPENING_BYTES // piece))
    for leg, way in PDU_WAYS:
        for _ in range((most + OPENING_BYTES) // piece + 1 if most else 0):
            recording.carry(leg, way, piece)


def passing():
    for piece, pieces in PACES:
        name = f"{piece} bytes at a time, {'all' if pieces is None else pieces}"
        new = Recording()
        yield f"none is open before {name}", new, Wanted(**both(state(1, 1, "opening")), up=set())
        recording = Recording()
        paced(recording, piece, pieces)
        yield f"all four open: {name}", recording, Wanted(**both(state(1, 1)), up=OPENING)
        recording = Recording()
        up, down = range(10), range(100, 110)
        recording.give("c", up)
        recording.give("s", down)
        paced(recording, piece, pieces, max(bytes_of(up), bytes_of(down)))
        for call in up:
            recording.take("s", call)
        for call in down:
            recording.take("c", call)
        yield f"PDUs both ways: {name}", recording, Wanted(**both(state(1, 1)))


def windows():
    for end, other in OTHER.items():
        recording = opened()
        recording.give(end, range(64))
        for call in range(64):
            recording.rounds(4)
            recording.take(other, call)
        yield f"more than a window from {end}", recording, Wanted(**both(state(1, 1)), up=OPENING)


def acknowledgements():
    # The PDUs are 37,841 bytes, all but the last one 30,276: half of the window is 32,768. An
    # acknowledgement is 48 bytes, and 56 with its destination: the client's goes over both legs of
    # the IN channel.
    assert bytes_of(range(10)) == 37_841 and bytes_of(range(9)) == 30_276
    for end, told in ("c", {"is1d": 48}), ("s", {"ci1u": 56, "is1u": 56}):
        recording = opened()
        recording.give(end, range(10))
        recording.rounds(6)
        for call in range(9):
            recording.take(OTHER[end], call)
        recording.is_quiet()
        recording.take(OTHER[end], 9)
        recording.is_quiet(told)
        yield f"half of a window from {end}", recording, Wanted(**both(state(1, 1)), up=OPENING)


# ---- replacements

PIECE = 64


def quieten(recording, calls):
    """Rounds until nothing moves, if the PDUs of these calls are all that may move."""
    recording.rounds(bytes_of(calls) // PIECE + 30, PIECE)


def replaced(end, same):
    """PDUs are given before the channel is replaced, while it is, and behind that."""
    recording = opened()
    recording.same = same
    recording.give(end, range(4))
    quieten(recording, range(4))
    recording.recycle(end)
    for call in range(4, 16):
        recording.give(end, [call])
        recording.round(PIECE)
    quieten(recording, range(4, 16))
    recording.give(end, range(16, 20))
    quieten(recording, range(16, 20))
    return recording


def drain(recording, end, calls):
    """The PDUs are taken one by one, and nothing moves any more between."""
    for call in calls:
        recording.rounds(8)
        recording.take(end, call)
    recording.rounds(8)


def replacements():
    cases = [
        ("another in proxy", "c", False, state(2, 1), state(1, 1), state(2, 1)),
        ("the same in proxy", "c", True, state(2, 1), state(2, 1), state(2, 1)),
        ("another out proxy", "s", False, state(1, 1), state(1, 2), state(1, 2)),
    ]
    for name, end, same, client, server, behind in cases:
        none = {"c": 0, "s": 0}
        before = replaced(end, same)
        _, inner, outer = WAY[end]
        up = OPENING | ({f"{inner}2"} if same else {f"{inner}2", f"{outer}2"})
        yield f"{name}, none taken", before, Wanted(client, server, taken=none, up=up, ended=set())
        recording = replaced(end, same)
        drain(recording, OTHER[end], range(20))
        recording.settle()
        ended = {f"{inner}1"} if same else {f"{inner}1", f"{outer}1"}
        yield f"{name}, all taken", recording, Wanted(**both(behind), up=up, ended=ended)


def twice():
    for first in False, True:
        for second in False, True:
            recording = opened()
            recording.give("c", range(4))
            recording.rounds(8)
            for same, call in (first, 4), (second, 8):
                recording.same = same
                recording.recycle("c")
                recording.rounds(12)
                recording.give("c", range(call, call + 4))
                recording.rounds(12)
            drain(recording, "s", range(12))
            name = f"one replacement behind the other, same proxy {first} and {second}"
            up = OPENING | {"ci2", "ci3"}
            # An in proxy takes one later leg.
            up |= (set() if first else {"is2"}) | (set() if second and not first else {"is3"})
            yield name, recording, Wanted(**both(state(3, 1)), up=up)


def at_once():
    recording = opened()
    recording.give("c", range(8))
    recording.give("s", range(100, 108))
    recording.recycle("s")
    recording.recycle("c")
    quieten(recording, range(8))
    drain(recording, "s", range(8))
    drain(recording, "c", range(100, 108))
    recording.settle()
    yield "both directions at once", recording, Wanted(**both(state(2, 2)))


def unasked():
    for end in OTHER:
        recording = opened(*LEAST)
        recording.give(end, range(64))
        recording.settle(10_000)
        third = "([3-9]|[1-9][0-9]+)"
        states = state(third, 1) if end == "c" else state(1, third)
        yield f"unasked by {end}", recording, Wanted(**both(states))


# ---- the clean end


def ending():
    for first, second in OTHER.items():
        recording = opened()
        calls = {first: range(4), second: range(100, 104)}
        recording.give(first, calls[first])
        recording.close(first)
        recording.give_refused(first, 4, "closing")
        drain(recording, second, calls[first])
        recording.take_ended(second)
        half = Wanted(**both(state(1, 1)), up=OPENING, ended=set())
        yield f"{first} closed alone", copy_of(recording), half
        recording.give(second, calls[second])
        recording.close(second)
        drain(recording, first, calls[second])
        recording.take_ended(first)
        recording.settle()
        recording.take_ended(first)
        recording.take_ended(second)
        whole = Wanted(**both(state(1, 1, "ended")), up=OPENING, ended=OPENING)
        yield f"{first} closed first", recording, whole


def copy_of(recording):
    other = Recording()
    other.lines, other.answers = list(recording.lines), dict(recording.answers)
    other.given = {end: list(calls) for end, calls in recording.given.items()}
    return other


# How many rounds a replacement takes at most, at the pace of 1,024 bytes.
MOST_ROUNDS = 64
# The end that asks, and whether its successor goes through the same proxy.
AMID = [("c", False), ("c", True), ("s", False)]


def amid(end, same, rounds):
    """So many rounds after an end asked for another channel."""
    recording = opened(*(["same 1"] if same else []))
    recording.same = same
    recording.give("c", range(6))
    recording.give("s", range(100, 106))
    recording.recycle(end)
    recording.rounds(rounds, 1024)
    return recording


def ends_amid(recording):
    recording.give("c", range(6, 8))
    recording.give("s", range(106, 108))
    recording.close("c")
    recording.close("s")
    recording.settle()
    recording.take_ended("c")
    recording.take_ended("s")
    return Wanted(**both("ended in [12] out [12]"))


def amid_replacements():
    """A clean end so many rounds behind a recycle; what stands before it is a case of its own."""
    for end, same in AMID:
        where = f"{WAY[end][0]} replacement, {'the same' if same else 'another'} proxy"
        for rounds in range(MOST_ROUNDS):
            recording = amid(end, same, rounds)
            name = f"clean end {rounds} rounds behind: {where}"
            yield name, recording, ends_amid(recording)


def is_switched(end, states):
    """Whether an end uses another channel than the first, by its state."""
    return states[end] != state(1, 1)


GROUPS = [
    passing,
    windows,
    acknowledgements,
    replacements,
    twice,
    at_once,
    unasked,
    ending,
    amid_replacements,
]
