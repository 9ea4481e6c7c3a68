"""The packets and heads in what one end of a connection sent (MS-RPCH 2.1.2, RFC 9112, C706 12.6).

What is no packet and no head is passed over, and told with its place: a count of bytes from the
first that this end sent, of what was decrypted where it was.
"""
import re
import struct
from typing import NamedTuple

from captured import LEAST_FRONT, NEVER, Run

HEADER_LEN = 16
# A packet's kind stands in the third byte. C706 and MS-RPCE have kinds 0 to 19.
RTS, MOST_KIND = 20, 20
# All bytes of the header of an RTS packet but frag_length.
RTS_FRONT, RTS_BACK = bytes.fromhex("0500140310000000"), bytes(6)
GREETING = b"ncacn_http/1.0"
METHODS = (b"RPC_IN_DATA", b"RPC_OUT_DATA")
TUNNEL = b"CONNECT"
REQUEST = re.compile(rb"([A-Z_]{3,20}) (\S{1,8192}) HTTP/1\.[01]\r\n")
ANSWER = re.compile(rb"HTTP/1\.[01] ([0-9]{3})([^\r\n]*)")
# What the front of a head, of which no line is whole, begins with.
HEAD_FRONTS = tuple(method + b" " for method in METHODS) + (b"HTTP/1.", GREETING)
# What only RPC over HTTP begins with.
OUR_FRONTS = tuple(method + b" " for method in METHODS) + (GREETING, RTS_FRONT)
# Where a packet, a head or the greeting may begin.
BEGINS = re.compile(
    rb"(?=\x05[\x00\x01][\x00-\x14].[\x00\x01\x10\x11][\x00-\x03]\x00\x00"
    rb"|RPC_(?:IN|OUT)_DATA |HTTP/1\.[01] [0-9]{3}|ncacn_http/1\.0)",
    re.DOTALL,
)
HEAD_END = b"\r\n\r\n"
MOST_HEAD = 65_536
# A request with a body of at most 16 bytes is an echo request, and has no packet.
MOST_ECHO = 16
# How much of a head's text is told.
MOST_TOLD = 200


class Broken(Exception):
    """Neither a packet nor a head begins here."""


def frag_length(header):
    (length,) = struct.unpack_from("<H" if header[4] & 0x10 else ">H", header, 8)
    return length


def is_rts(header):
    return header[:8] == RTS_FRONT and header[10:16] == RTS_BACK


def is_packet_start(header):
    """Whether a packet surely begins with these bytes: each field is one that a packet has."""
    if len(header) < HEADER_LEN or header[0] != 5 or header[1] > 1 or header[2] > MOST_KIND:
        return False
    if header[4] not in (0x00, 0x01, 0x10, 0x11) or header[5] > 3 or header[6:8] != bytes(2):
        return False
    return frag_length(header) >= HEADER_LEN and (header[2] != RTS or is_rts(header))


def begins_as_ours(front):
    """Whether so many bytes are there as show that a connection is one of RPC over HTTP."""
    return len(front) >= LEAST_FRONT and any(
        front[: len(it)] == it[: len(front)] for it in OUR_FRONTS
    )


def plain(text):
    """Words of a head's first line, with nothing that is no printed ASCII."""
    words = " ".join(text.decode("latin-1").split())
    return "".join(it if " " <= it <= "~" else "?" for it in words)[:MOST_TOLD]


class Head:
    """The first line of an HTTP message, and the fields that tell its body."""

    def __init__(self, text):
        lines = text.split(b"\r\n")
        request, answer = REQUEST.match(text), ANSWER.match(text)
        self.method = request[1] if request else None
        self.status = int(answer[1]) if answer else None
        self.told = plain(b" ".join(request.groups() if request else answer.groups()))
        fields = {}
        for line in lines[1:]:
            name, _, value = line.partition(b":")
            fields[name.strip().lower()] = value.strip().lower()
        length = fields.get(b"content-length", b"")
        self.length = int(length) if re.fullmatch(rb"[0-9]{1,18}", length) else None
        self.is_chunked = b"chunked" in fields.get(b"transfer-encoding", b"")
        is_rpc_body = fields.get(b"content-type", b"").startswith(b"application/rpc")
        self.is_rpc = self.method in METHODS or is_rpc_body
        self.has_no_body = self.status is not None and (
            self.status < 200 or self.status in (204, 304)
        )
        self.is_refusal = self.status is not None and self.status >= 300


class Packet(NamedTuple):
    """A packet: where it stands in its run."""

    run: Run
    at: int
    length: int

    @property
    def bytes(self):
        return bytes(self.run.bytes[self.at : self.at + self.length])


class Chunks:
    """A chunked body without its sizes (RFC 9112 section 7.1), as far as a run has it."""

    def __init__(self, run, place):
        self.joined = Run(place)
        # Where the body ends, if that came; where what is no size begins, if anything does.
        self.end = self.wrong = None
        while place is not None and place < run.end:
            place = self.chunk(run, place)

    def chunk(self, run, place):
        """Takes the chunk that begins here. Answers where the next one does, if known."""
        at = place - run.start
        end = run.bytes.find(b"\r\n", at, at + MOST_HEAD)
        if end < 0 and len(run.bytes) - at < MOST_HEAD:
            return None
        size = run.bytes[at : max(at, end)].split(b";")[0].strip()
        if not re.fullmatch(rb"[0-9A-Fa-f]{1,16}", size):
            self.wrong = place
            return None
        if int(size, 16) == 0:
            last = run.bytes.find(HEAD_END, end, end + MOST_HEAD)
            self.end = run.start + last + len(HEAD_END) if last >= 0 else None
            return None
        begin = run.start + end + 2
        behind = begin + int(size, 16)
        for frame, piece in run.pieces(begin, min(behind, run.end)):
            self.joined.add(piece, frame)
        return behind + 2


class Reader:
    """Finds the packets and heads of one direction of a connection."""

    def __init__(self, direction):
        self.direction = direction
        # Packets, and heads and the greeting as text, each with the frame in which it was whole.
        self.found = []
        self.troubles = []
        # Whether something was found that only RPC over HTTP has, or a tunnel was asked for.
        self.is_ours = self.is_tunnel = False
        # What the last run ended in, where that is a packet or a head: as text.
        self.unfinished = None
        self.whole_in = 0

    @property
    def packets(self):
        return [it for _, it in self.found if isinstance(it, Packet)]

    @property
    def front(self):
        """The bytes up to the first that is missing."""
        return self.direction.runs[0].bytes if self.direction.runs else b""

    def trouble(self, place, text):
        self.troubles.append(f"{self.direction.ends}, byte {place}: {text}")

    def read(self):
        place = end = self.direction.runs[0].start if self.direction.runs else 0
        self.is_ours = begins_as_ours(self.front[: max(map(len, OUR_FRONTS))])
        if self.is_midst():
            self.trouble(place, "what this end sent before the capture began isn't there")
        for run in self.direction.runs:
            if run.lost:
                place = self.cross(run, place, end)
            place = self.read_run(run, place)
            end = run.end
        if self.unfinished:
            self.trouble(end, f"the capture ends inside {self.unfinished}")

    def is_midst(self):
        """Whether this end sent something before, as far as what begins here shows."""
        if self.direction.is_opened or not self.front:
            return False
        begins = self.front.startswith(GREETING) or REQUEST.match(self.front)
        return not (begins or ANSWER.match(self.front))

    def cross(self, run, place, end):
        """Goes on behind a gap, of which it tells. Where the next thing begins."""
        text = f"{run.lost} bytes are missing"
        if run.cut:
            text += f", as frame {run.cut} was cut"
        if self.unfinished:
            text += f", inside {self.unfinished}"
        is_known = place is not None and place >= run.start and run.is_placed
        self.unfinished = None
        self.whole_in = 0
        left_from = place
        if not is_known or place < run.end and not self.begins(run, place):
            left_from, place = run.start, self.sought(run, run.start)
        self.trouble(end, text + self.onward(run, left_from, place))
        return place

    def onward(self, run, place, behind):
        """How reading goes on from a place, as text."""
        if behind is None:
            count = run.end - place
            return f"; {count} bytes from byte {place} on are left out" if count else ""
        if behind >= run.end:
            return ""
        text = f"; {behind - place} bytes are left out" if behind > place else ""
        return f"{text}; read on from byte {behind}, frame {run.frame_at(behind)}"

    def begins(self, run, place):
        """Whether a packet or a head surely begins here."""
        at = place - run.start
        if is_packet_start(run.bytes[at : at + HEADER_LEN]) or run.bytes.startswith(GREETING, at):
            return True
        return bool(REQUEST.match(run.bytes, at) or ANSWER.match(run.bytes, at))

    def sought(self, run, place):
        """Where the first thing from this place on begins that surely is a packet or a head: within
        a segment only where such a thing, or the end of what came, is behind it too."""
        at = place - run.start
        for found in BEGINS.finditer(run.bytes, at):
            start = run.start + found.start()
            if self.begins(run, start) and (run.is_start(start) or self.goes_on(run, start)):
                return start
        return None

    def goes_on(self, run, place):
        """Whether the head that begins here is whole, or something begins behind the packet."""
        at = place - run.start
        if run.bytes[at] != 5:
            is_greeting = run.bytes.startswith(GREETING, at)
            return is_greeting or run.bytes.find(HEAD_END, at, at + MOST_HEAD) >= 0
        behind = place + frag_length(run.bytes[at : at + HEADER_LEN])
        return behind >= run.end or self.begins(run, behind)

    def read_run(self, run, place):
        """Reads a run from where something begins. Answers where the next thing does, if known."""
        while place is not None and place < run.end:
            try:
                place = self.step(run, place)
            except Broken:
                place = self.pass_over(run, place)
        return place

    def pass_over(self, run, place):
        """Goes on behind bytes that are no packet and no head, of which it tells."""
        at, frame = place - run.start, run.frame_at(place)
        text = f"neither a packet nor a head begins here, frame {frame}: "
        text += run.bytes[at : at + HEADER_LEN].hex()
        behind = self.sought(run, place + 1)
        self.trouble(place, text + self.onward(run, place, behind))
        return behind

    def step(self, run, place):
        """Reads what begins here. Answers where the next thing does, if the run tells that."""
        at = place - run.start
        if run.bytes[at] == 5:
            return self.packet(run, place)
        if run.bytes.startswith(GREETING, at):
            self.is_ours = True
            self.head(run, place, place + len(GREETING), GREETING.decode())
            return place + len(GREETING)
        if REQUEST.match(run.bytes, at) or ANSWER.match(run.bytes, at):
            end = run.bytes.find(HEAD_END, at, at + MOST_HEAD)
            if end >= 0:
                behind = end + len(HEAD_END)
                head = Head(bytes(run.bytes[at:behind]))
                self.head(run, place, run.start + behind, f"http {head.told}")
                return self.body(run, run.start + behind, head)
            if len(run.bytes) - at < MOST_HEAD:
                self.unfinished = f"a head that begins at byte {place}"
                return None
        is_front = any(front.startswith(run.bytes[at : at + len(front)]) for front in HEAD_FRONTS)
        if is_front and run.bytes.find(b"\n", at, at + MOST_HEAD) < 0:
            self.unfinished = f"a head that begins at byte {place}"
            return None
        raise Broken

    def come_in(self, run, place, end):
        """The frame in which these bytes, and all before them in the run, were whole."""
        self.whole_in = max([self.whole_in] + run.frames_of(place, end))
        return self.whole_in

    def head(self, run, place, end, text):
        self.found.append((self.come_in(run, place, end), text))

    def packet(self, run, place):
        """Takes the packet that begins here, if it is whole. Answers where it ends, if known."""
        at = place - run.start
        header = run.bytes[at : at + HEADER_LEN]
        if len(header) < HEADER_LEN:
            self.unfinished = f"the header of a packet that begins at byte {place}"
            return None
        length = frag_length(header)
        if length < HEADER_LEN:
            raise Broken
        if place + length > run.end:
            self.unfinished = f"a packet of {length} bytes that begins at byte {place}"
            return place + length
        self.is_ours = self.is_ours or is_rts(header)
        packet = Packet(run, at, length)
        self.found.append((self.come_in(run, place, place + length), packet))
        return place + length

    def body(self, run, place, head):
        """Where reading goes on behind a head: at the packets in its body, or behind the body."""
        self.is_ours = self.is_ours or head.is_rpc
        self.is_tunnel = self.is_tunnel or head.method == TUNNEL
        if head.has_no_body:
            return place
        if head.is_chunked:
            return self.chunked(run, place, head)
        if head.method in METHODS:
            is_echo = head.length is not None and head.length <= MOST_ECHO
            return place + head.length if is_echo else place
        if head.method:
            return place + (head.length or 0)
        if not head.is_refusal and (head.is_rpc or self.begins(run, place)):
            return place
        if head.length is not None:
            return place + head.length
        behind = self.sought(run, place)
        return NEVER if behind is None else behind

    def chunked(self, run, place, head):
        """Reads the packets in a chunked body. Where reading goes on behind it, if known."""
        chunks = Chunks(run, place)
        if not head.is_refusal and (head.is_rpc or self.begins(chunks.joined, place)):
            self.read_run(chunks.joined, place)
        if chunks.wrong is not None:
            return self.pass_over(run, chunks.wrong)
        if chunks.end is not None and self.unfinished:
            self.trouble(place, f"the chunked body ends inside {self.unfinished}")
            self.unfinished = None
        return chunks.end
