"""Captures for `rh_cli audit`: the bytes that were seen on each leg, in the order of the frames.

A leg is a connection, and its kind is told by how it begins, as for scripts. Its tag is its place
among the legs, from 1, as they begin.
"""
import re

import played

# The pipes of a leg by its kind: what the end that connected sent, and the other. In the other
# direction of an IN channel's legs no RPC PDU goes, and a capture has no line of it.
PIPES = {"ci": ("ciu", None), "co": ("cou", "cod"), "is": ("isu", None), "os": ("osu", "osd")}
# The legs of the two sides of a direction, and what can't be told without one of them.
SIDES = {"up": ("is", "ci"), "down": ("co", "os")}
NAMES = {
    "ci": "client and in proxy",
    "co": "client and out proxy",
    "is": "in proxy and server",
    "os": "out proxy and server",
}
MOST_BYTES = 65_536
# An answer before the final one (RFC 9110 section 15.2), which no stream of our roles has.
INTERIM = re.compile(rb"HTTP/1\.[01] 1[0-9]{2}[^\r\n]*\r\n(?:[^\r\n]+\r\n)*\r\n")


def pieces(direction):
    """(frame, bytes) of what was seen, without answers before the final one."""
    front, passed = played.front(direction), 0
    while found := INTERIM.match(front, passed):
        passed = found.end()
    for frame, data in played.pieces(direction):
        here = data[min(passed, len(data)) :]
        passed -= len(data) - len(here)
        if here:
            yield frame, here


class Leg:
    """A connection as a leg, with its tag."""

    def __init__(self, tag, number, kind, up, down):
        self.tag, self.number, self.kind = tag, number, kind
        self.directions = [it for it in zip(PIPES[kind], (up, down)) if it[0]]

    def lines(self):
        """(frame, pipe, bytes) of what was seen."""
        for pipe, direction in self.directions:
            for frame, data in pieces(direction):
                for at in range(0, len(data), MOST_BYTES):
                    yield frame, pipe, data[at : at + MOST_BYTES]

    def troubles(self):
        """What is missing of the leg, as text."""
        for _, direction in self.directions:
            for run in direction.runs[1:2]:
                frame = run.frames[0] if run.frames else 0
                text = f"{run.lost} bytes are missing before frame {frame}"
                yield f"{direction.ends}: {text}; nothing behind them is in the capture"


def leg_of(tag, number, connection):
    """The connection as a leg with this tag; none where it begins as none."""
    ends = list(connection.directions.values())
    for up, down in zip(ends, reversed(ends)) if len(ends) == 2 else ():
        kind = played.kind_of(up, down)
        if kind:
            return Leg(tag, number, kind, up, down)
    return None


def legs_of(connections):
    """The connections that are legs, as they begin, and the numbers of the others."""
    legs, others = [], []
    for number, connection in sorted(connections.items(), key=lambda it: played.first_frame(it[1])):
        leg = leg_of(len(legs) + 1, number, connection)
        if leg:
            legs.append(leg)
        else:
            others.append(number)
    return legs, others


def lines_of(legs):
    """The lines of the capture."""
    seen = [(frame, leg.tag, pipe, data) for leg in legs for frame, pipe, data in leg.lines()]
    seen.sort(key=lambda it: it[0])
    return ["cap 1"] + [f"seen {tag} {pipe} {data.hex()}" for _, tag, pipe, data in seen]


def missing_sides(legs):
    """The directions of which a side isn't there, as text."""
    kinds = {leg.kind for leg in legs}
    for direction, sides in SIDES.items():
        for kind in sides if kinds & set(sides) else ():
            if kind not in kinds:
                yield f"no leg of {NAMES[kind]} is in the capture: {direction} tells nothing"
