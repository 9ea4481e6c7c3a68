"""Scripts for `rh_cli play` that feed one role what came to it in a capture.

A leg is a connection: of a client and a proxy by the request with which it begins, of a proxy and
the server by the greeting and by the first packet. Legs of a kind are numbered as they begin.
"""
import re
from typing import NamedTuple

GREETING = b"ncacn_http/1.0"
REQUEST = re.compile(rb"RPC_(IN|OUT)_DATA ")
RTS_HEADER = 20
# The flags of the first packets of channels (MS-RPCH 2.2.3.1), and the kinds of these.
IN_CHANNEL, OUT_CHANNEL = 8, 16
# The kinds of a role's legs, and whether what comes there is put by the end that connected.
ROLES = {
    "client": {"co": False, "ci": False},
    "inproxy": {"ci": True, "is": False},
    "outproxy": {"co": True, "os": False},
    "server": {"os": True, "is": True},
}
FIRST_LINES = {"inproxy": "inproxy 1", "outproxy": "outproxy 1"}
# The lengths of the values of commands (MS-RPCH 2.2.3.5) that stand in front of a cookie.
VALUE_LENGTHS = {0: 4, 2: 4, 3: 16, 4: 4, 5: 4, 6: 4, 7: 0, 12: 16, 13: 4}
COOKIE = 3
MOST_DRAWN = 65_536


class Leg(NamedTuple):
    """A connection as a leg: what came there to the role, and what the captured role put."""

    name: str
    came: object
    put: object


class Event(NamedTuple):
    """What happened on a leg in a frame. Where it is the same frame, `up` comes first."""

    frame: int
    order: int
    leg: Leg
    data: bytes


UP, PUT, CAME, ENDED, BROKEN = range(5)


def front(direction):
    """The bytes of a direction from its first on, up to where some are missing."""
    runs = direction.runs
    return bytes(runs[0].bytes) if runs and not runs[0].lost and runs[0].start == 0 else b""


def pieces(direction):
    """What each frame brought, up to where bytes are missing; bytes that came before others in front
    of them come with these.
    """
    if front(direction):
        run, start, latest = direction.runs[0], 0, 0
        for end, frame in zip(run.ends, run.frames):
            latest = max(latest, frame)
            yield latest, bytes(run.bytes[start:end])
            start = end


def kind_of(up, down):
    """The kind of the leg whose ends put these directions; none where it is none."""
    request = REQUEST.match(front(up))
    if request:
        return "ci" if request[1] == b"IN" else "co"
    packet = front(up)
    if not front(down).startswith(GREETING) or len(packet) < RTS_HEADER or packet[2] != 20:
        return None
    flags = int.from_bytes(packet[16:18], "little")
    return "is" if flags & IN_CHANNEL else "os" if flags & OUT_CHANNEL else None


def channel_cookie(packet):
    """The cookie of the channel that a client's first packet begins: the last one in it."""
    found, place = b"", RTS_HEADER
    while place + 4 <= len(packet):
        command = int.from_bytes(packet[place : place + 4], "little")
        if command not in VALUE_LENGTHS:
            break
        end = place + 4 + VALUE_LENGTHS[command]
        found = packet[place + 4 : end] if command == COOKIE else found
        place = end
    return found


def first_frame(connection):
    runs = [run for direction in connection.directions.values() for run in direction.runs]
    return min((run.frames[0] for run in runs if run.frames), default=0)


def legs_of(connections, role):
    """The connections that are legs of the role."""
    kinds, counts, legs = ROLES[role], {}, []
    for connection in sorted(connections, key=first_frame):
        ends = list(connection.directions.values())
        for up, down in zip(ends, reversed(ends)) if len(ends) == 2 else ():
            kind = kind_of(up, down)
            if kind in kinds:
                counts[kind] = counts.get(kind, 0) + 1
                came, put = (up, down) if kinds[kind] else (down, up)
                legs.append(Leg(f"{kind}{counts[kind]}", came, put))
    return legs


def events_of(leg):
    events = [Event(frame, CAME, leg, data) for frame, data in pieces(leg.came)]
    events += [Event(frame, PUT, leg, data) for frame, data in pieces(leg.put)]
    if events:
        events.append(Event(min(event.frame for event in events), UP, leg, b""))
    is_whole = len(leg.came.runs) == 1
    if leg.came.finished_in and is_whole:
        events.append(Event(leg.came.finished_in, ENDED, leg, b""))
    if leg.came.reset_in and is_whole:
        events.append(Event(leg.came.reset_in, BROKEN, leg, b""))
    return events


class Script:
    """The lines of a script, as time goes on in the capture."""

    def __init__(self, role, cookies, seconds):
        self.lines = [FIRST_LINES.get(role, role)]
        # The cookies of a client's channels, by the names of legs.
        self.cookies = cookies
        self.seconds = seconds
        self.first, self.now = None, 0

    def tick(self, frame):
        moment = int(float(self.seconds[frame]) * 1000)
        self.first = moment if self.first is None else self.first
        if moment - self.first > self.now:
            self.now = moment - self.first
            self.lines.append(f"tick {self.now}")

    def add(self, event):
        self.tick(event.frame)
        name, data = event.leg.name, event.data
        if event.order == UP:
            cookie = self.cookies.get(name, b"").hex()
            self.lines.append(f"up {name} {cookie}".rstrip())
        elif event.order == PUT:
            # What is answered to the script has this line as it is, and behind it what is drawn.
            self.lines.append(f"case captured {name} {len(data)} {data.hex()}")
            self.lines.append(f"draw {name} {MOST_DRAWN}")
        elif event.order == CAME:
            self.lines.append(f"feed {name} {data.hex()}")
        else:
            self.lines.append(f"{'ended' if event.order == ENDED else 'broken'} {name}")


def script_of(capture, role, first_packet, trouble):
    """The lines of a script that feeds the role; none where nothing came to it.

    `first_packet` answers the first packet of a direction, and `trouble` is told what is missing.
    """
    legs = legs_of(capture.connections.values(), role)
    cookies = {}
    for leg in legs:
        if role == "client":
            cookies[leg.name] = channel_cookie(first_packet(leg.put))
        for direction in leg.came, leg.put:
            for run in direction.runs[1:2]:
                text = f"{run.lost} bytes are missing; nothing behind them is in the script"
                trouble(f"{leg.name}, {direction.ends}, byte {run.start - run.lost}: {text}")
    script = Script(role, cookies, capture.seconds)
    for event in sorted((event for leg in legs for event in events_of(leg)), key=lambda it: it[:2]):
        script.add(event)
    script.lines += [f"draw {leg.name} {MOST_DRAWN}" for leg in legs]
    script.lines.append("state")
    return script.lines if legs else []
