"""What tshark reads of a capture: its TCP connections, with the bytes of each direction in order.

tshark reads the file, joins IP fragments, leaves link layers and tunnels out, tells connections
apart (a reused port begins another) and decrypts TLS. Here segments are only put behind each
other by their numbers. tshark's own streams (`-z follow`) are not taken: they drop all that stands
behind a gap which no acknowledgement covers, and join what stands round a cut, without a word.
"""
import bisect
import re
import struct
import subprocess
import tempfile
from typing import NamedTuple

from frames import Frames, payload_of

FIELDS = """frame.number frame.time_epoch frame.len frame.cap_len frame.protocols ip.src ip.dst
    ipv6.src ipv6.dst tcp.srcport tcp.dstport tcp.stream tcp.seq_raw tcp.ack_raw tcp.flags
    tcp.len""".split()
# What a segment carries, where that isn't taken from the file itself.
PAYLOAD = "tcp.payload"
# What each whole header of a segment has.
HEADER = ("tcp.stream", "tcp.seq_raw", "tcp.flags", "tcp.len")
SETTINGS = ["ip.defragment:TRUE", "ipv6.defragment:TRUE"]
# tshark takes quadratic time to put segments in order behind a gap, and gives none of them.
PLAIN = ["tcp.desegment_tcp_streams:FALSE", "tcp.reassemble_out_of_order:FALSE"]
TLS = """tcp.desegment_tcp_streams:TRUE tls.desegment_ssl_records:TRUE
    tls.desegment_ssl_application_data:TRUE""".split()
FIN, SYN, RESET, ACK = 1, 2, 4, 16
# A window is smaller than this (RFC 7323 section 2.3), so no true acknowledgement is so far ahead.
FARTHEST = 2**30
# A number above those of all frames.
NEVER = float("inf")
# With fewer of an end's first bytes it can't be told what it speaks.
LEAST_FRONT = 4
# The type of a record and the version, with which each TLS connection begins.
TLS_START = re.compile(rb"[\x14-\x17]\x03[\x00-\x04]")


class NotRead(Exception):
    """Nothing of the capture can be read."""


class NotClear(Exception):
    """The file itself doesn't show what a segment carries."""


def tshark_rows(capture, wanted, fields, settings, trouble):
    """The wanted frames, each as the values of these fields, each of which is a list of words."""
    # Without its HTTP, tshark tells what it decrypted as plain data.
    command = ["tshark", "-n", "-r", capture, "-Y", wanted, "-T", "fields"]
    command += ["--disable-protocol", "http", "--disable-protocol", "http2"]
    for option, values in (("-o", SETTINGS + settings), ("-e", fields)):
        command += [word for value in values for word in (option, value)]
    is_read = False
    with tempfile.TemporaryFile("w+", errors="replace") as told:
        try:
            streams = {"stdin": subprocess.DEVNULL, "stdout": subprocess.PIPE, "stderr": told}
            process = subprocess.Popen(command, text=True, errors="replace", **streams)
        except OSError as error:
            why = f"tshark can't be run: {error.strerror} (Debian has it in the package tshark)"
            raise NotRead(why) from None
        with process:
            for line in process.stdout:
                is_read = True
                yield [word.split(",") if word else [] for word in line.rstrip("\n").split("\t")]
        told.seek(0)
        texts = [line.strip() for line in told if not line.startswith("Running as user")]
    if process.returncode:
        text = "; ".join(filter(None, texts)) or f"tshark ended with status {process.returncode}"
        if not is_read:
            raise NotRead(text)
        trouble(text)


class Segment(NamedTuple):
    """A segment with data: its number, counted on past 2^32, its length, and what was captured."""

    number: int
    frame: int
    length: int
    payload: bytes


class Run:
    """Bytes of one direction with no gap between them, and the frames that they came in."""

    def __init__(self, start, lost=0, cut=None, is_placed=True):
        # A count of bytes from the first of the direction.
        self.start = start
        # How many bytes are missing in front of it, and the frame that was cut there.
        self.lost = lost
        self.cut = cut
        # Whether `start` is known, or only that bytes are missing.
        self.is_placed = is_placed
        self.bytes = bytearray()
        self.ends = []
        self.frames = []

    @property
    def end(self):
        return self.start + len(self.bytes)

    def add(self, payload, frame):
        if payload:
            self.bytes += payload
            self.ends.append(self.end)
            self.frames.append(frame)

    def frame_at(self, place):
        """The frame that the byte at this place came in."""
        return self.frames[bisect.bisect_right(self.ends, place)]

    def frames_of(self, place, end):
        """The frames that these bytes came in."""
        first, last = (bisect.bisect_right(self.ends, at) for at in (place, end - 1))
        return self.frames[first : last + 1]

    def is_start(self, place):
        """Whether a frame's bytes begin at this place, which is in the run."""
        number = bisect.bisect_left(self.ends, place)
        return place == self.start or self.ends[number] == place

    def pieces(self, place, end):
        """What each frame brought of the bytes from a place up to another, with its number."""
        for number in range(bisect.bisect_right(self.ends, place), len(self.ends)):
            if place >= end:
                return
            behind = min(end, self.ends[number])
            yield self.frames[number], self.bytes[place - self.start : behind - self.start]
            place = behind


class Direction:
    """What one end of a connection sent."""

    def __init__(self, source, target):
        self.ends = f"{source} > {target}"
        self.segments = []
        # Whether the SYN with which this end began was captured.
        self.is_opened = False
        self.first = None
        self.last = None
        self.finished = 0
        # The frames in which this end finished, and in which it reset the connection.
        self.finished_in = None
        self.reset_in = None
        self.acknowledged = 0
        self.runs = []
        # The frames of the segments, once these are in order.
        self.frames = []
        self.has_gap = False
        # Where the captured segments end so far, and whether one was missing at some time.
        self.reached = None
        self.is_disordered = False

    def counted(self, number):
        """A sequence number counted on past 2^32, as the one nearest to the last."""
        if self.last is None:
            return number
        return self.last + (number - self.last + 2**31) % 2**32 - 2**31

    def take(self, number, flags, frame, length, payload):
        if flags & RESET:
            self.reset_in = self.reset_in or frame
            return
        self.last = number = self.counted(number)
        if flags & SYN:
            number += 1
            self.first = number
            self.is_opened = True
        if length:
            self.segments.append(Segment(number, frame, length, payload))
        if self.reached is not None and number > self.reached:
            self.is_disordered = True
        self.reached = max(self.reached or number, number + length)
        if flags & FIN:
            self.finished = max(self.finished, number + length)
            self.finished_in = self.finished_in or frame

    def acknowledge(self, number):
        """Takes what the other end says that it received; 0 is what a made-up capture has."""
        if self.last is not None and number:
            number = self.counted(number)
            if number < self.last + FARTHEST:
                self.acknowledged = max(self.acknowledged, number)
                self.is_disordered = self.is_disordered or number > self.reached + 1

    def order(self):
        """Puts what was captured in order, as runs; the last is empty where the end is missing."""
        segments = sorted(self.segments)
        if self.first is None:
            if not segments:
                return
            self.first = segments[0].number
        # A keepalive in front of the first byte makes a byte up.
        segments = [s for s in segments if s.number >= self.first or s.length > 1]
        cuts = {s.number + len(s.payload): s.frame for s in segments if len(s.payload) < s.length}
        # Numbers below the first are those of another connection, whose beginning is missing.
        end = min([self.first] + [segment.number for segment in segments[:1]])
        self.runs = [Run(end - self.first)]
        for segment in segments:
            self.lay(segment.number, end, cuts)
            self.runs[-1].add(segment.payload[max(0, end - segment.number) :], segment.frame)
            end = max(end, segment.number + len(segment.payload))
        whole = max([self.finished] + [segment.number + segment.length for segment in segments])
        # An acknowledgement counts a FIN as a byte.
        if self.acknowledged > whole + 1:
            whole = self.acknowledged
        self.lay(whole, end, cuts)
        self.has_gap = any(run.lost for run in self.runs)
        # The runs have the bytes.
        self.frames, self.segments = [segment.frame for segment in segments], []

    @property
    def cut_front(self):
        """The frame that was cut, where that took this end's first bytes; none where it didn't."""
        is_blank = self.runs and len(self.runs[0].bytes) < LEAST_FRONT
        return next((run.cut for run in self.runs[1:2] if is_blank), None)

    def lay(self, number, end, cuts):
        """Begins a run where bytes are missing between the end so far and this number."""
        if number > end:
            self.runs.append(Run(number - self.first, number - end, cuts.get(end)))

    def decrypt(self, clear):
        """Puts what tshark decrypted, by frame, in the place of what was captured."""
        gaps = [(run.frames[0] if run.frames else NEVER, run) for run in self.runs if run.lost]
        gaps.sort(key=lambda gap: gap[0], reverse=True)
        self.runs = [Run(0)]
        frames = sorted(frame for frame in self.frames if frame in clear)
        for frame in frames + [NEVER]:
            while gaps and gaps[-1][0] <= frame:
                _, gap = gaps.pop()
                self.runs.append(Run(self.runs[-1].end, gap.lost, gap.cut, is_placed=False))
            self.runs[-1].add(clear.get(frame, b""), frame)


class Connection:
    """A TCP connection, by the number that tshark gives it."""

    def __init__(self, number):
        self.number = number
        self.directions = {}
        # Whether it is under TLS, and nothing of it was decrypted.
        self.is_hidden = False

    def direction(self, source, target):
        if (source, target) not in self.directions:
            self.directions[source, target] = Direction(source, target)
        return self.directions[source, target]

    def take(self, values, source, target, payload):
        """Takes a segment, as the values of its fields and what was captured of its bytes."""
        flags, length = int(values["tcp.flags"][0], 16), int(values["tcp.len"][0])
        direction = self.direction(source, target)
        frame = int(values["frame.number"][0])
        direction.take(int(values["tcp.seq_raw"][0]), flags, frame, length, payload)
        if flags & ACK:
            self.direction(target, source).acknowledge(int(values["tcp.ack_raw"][0]))

    def order(self):
        for direction in self.directions.values():
            direction.order()
            front = direction.runs[0].bytes[:3] if direction.runs else b""
            self.is_hidden = self.is_hidden or bool(TLS_START.match(front))

    def decrypt(self, clear):
        for direction in self.directions.values():
            direction.decrypt(clear)
        self.is_hidden = not any(run.bytes for it in self.directions.values() for run in it.runs)


class Capture:
    """The connections in a file, by their numbers, and when each of their frames came."""

    def __init__(self, file, ports, keys, trouble):
        """Reads the connections that have one of these ports at an end, or all if none is given."""
        self.file = file
        self.trouble = trouble
        wanted = " || ".join(f"tcp.port=={port}" for port in ports)
        # The header of a segment also stands in ICMP errors.
        wanted = f"({wanted or 'tcp || ip.proto==6 || ipv6.nxt==6'}) && !icmp && !icmpv6"
        try:
            self.read(wanted, FIELDS, Frames(file))
        except NotClear:
            self.read(wanted, [*FIELDS, PAYLOAD])
        for connection in self.connections.values():
            connection.order()
        hidden = [connection for connection in self.connections.values() if connection.is_hidden]
        if hidden:
            self.decrypt(hidden, wanted, keys)

    def read(self, wanted, fields, frames=None):
        """Reads all segments, with what they carry by these frames, or else by tshark."""
        self.connections, self.seconds, broken = {}, {}, []
        for row in tshark_rows(self.file, wanted, fields, PLAIN, self.trouble):
            values = dict(zip(fields, row))
            if all(values[name] for name in HEADER):
                self.take(values, payload_in(values, frames) if frames else payload_told(values))
            elif values["tcp.srcport"] or values["frame.len"] != values["frame.cap_len"]:
                broken.append(values["frame.number"][0])
        if broken:
            self.trouble(f"no whole header of a TCP segment in frame {', '.join(broken)}")

    def decrypt(self, hidden, wanted, keys):
        """Has tshark decrypt, and put segments in order for that if none is missing anywhere."""
        directions = [it for connection in hidden for it in connection.directions.values()]
        is_ordering = not any(direction.has_gap for direction in directions)
        settings = TLS + [f"tcp.reassemble_out_of_order:{str(is_ordering).upper()}"]
        settings += [f"tls.keylog_file:{keys}"] if keys else []
        wanted, fields = f"tls && data && {wanted}", ["frame.number", "data.data"]
        clear = {}
        for (number,), data in tshark_rows(self.file, wanted, fields, settings, self.trouble):
            clear[int(number)] = bytes.fromhex("".join(data))
        for connection in hidden:
            connection.decrypt(clear)
            is_disordered = any(it.is_disordered for it in connection.directions.values())
            if is_disordered and not is_ordering and not connection.is_hidden:
                text = "segments out of order were not decrypted, as some are missing under TLS"
                self.trouble(f"connection {connection.number}: {text}")

    def take(self, values, payload):
        self.seconds[int(values["frame.number"][0])] = values["frame.time_epoch"][0]
        number = int(values["tcp.stream"][0])
        connection = self.connections.setdefault(number, Connection(number))
        connection.take(values, *(end_of(values, side) for side in ("src", "dst")), payload)


def payload_told(values):
    """What a segment carries, as tshark tells it."""
    return bytes.fromhex("".join(values[PAYLOAD]).replace(":", ""))


def payload_in(values, frames):
    """What a segment carries, as the file has it."""
    length, kept = int(values["tcp.len"][0]), int(values["frame.cap_len"][0])
    if not length:
        return b""
    frame = frames.frame(int(values["frame.number"][0]))
    if frame is None or len(frame) != kept:
        raise NotClear
    ports = (int(values[name][0]) for name in ("tcp.srcport", "tcp.dstport"))
    header = struct.pack(">HHI", *ports, int(values["tcp.seq_raw"][0]))
    payload = payload_of(frame, header, length, int(values["frame.len"][0]) > kept)
    if payload is None:
        raise NotClear
    return payload


def end_of(values, side):
    """The address and the port of an end, as text. In a tunnel the innermost address counts."""
    layers = [layer for layer in values["frame.protocols"][0].split(":") if layer in ("ip", "ipv6")]
    address = values[f"{layers[-1]}.{side}"][-1] if layers else "?"
    port = values[f"tcp.{side}port"][0]
    return f"[{address}]:{port}" if ":" in address else f"{address}:{port}"
