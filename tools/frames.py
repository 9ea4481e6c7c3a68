"""The frames of a file of pcap or pcapng, read one after the other.

tshark takes longer to write what segments carry than for all else, so their bytes are taken from
the file itself, where that has them as they are.
"""
import gzip
import struct

GZIP = b"\x1f\x8b"
# The first bytes of a file of pcap, by the order of its numbers; times are told by tshark.
PCAP = {
    b"\xd4\xc3\xb2\xa1": "<",
    b"\x4d\x3c\xb2\xa1": "<",
    b"\xa1\xb2\xc3\xd4": ">",
    b"\xa1\xb2\x3c\x4d": ">",
}
PCAPNG = b"\x0a\x0d\x0d\x0a"
# Kinds of blocks of pcapng that hold a frame: a simple one, and two of the same layout.
SIMPLE, WITH_TIME = 3, (2, 6)
SECTION = 0x0A0D0D0A
ORDERS = {b"\x4d\x3c\x2b\x1a": "<", b"\x1a\x2b\x3c\x4d": ">"}
MOST_BLOCK = 1 << 28


def pcap_frames(file, order):
    """Each frame of a file of pcap, behind its first four bytes."""
    file.read(20)
    while len(header := file.read(16)) == 16:
        (kept,) = struct.unpack_from(f"{order}I", header, 8)
        frame = file.read(min(kept, MOST_BLOCK))
        if len(frame) < kept:
            return
        yield frame


def pcapng_frames(file):
    """Each frame of a file of pcapng."""
    order = "<"
    while len(head := file.read(12)) == 12:
        if head[:4] == PCAPNG:
            order = ORDERS.get(head[8:12])
            if order is None:
                return
        kind, size = struct.unpack_from(f"{order}II", head)
        if size < 12 or size > MOST_BLOCK or size % 4:
            return
        body = head[8:] + file.read(size - 12)
        if len(body) < size - 8:
            return
        if kind in WITH_TIME:
            (kept,) = struct.unpack_from(f"{order}I", body, 12)
            yield body[20 : 20 + kept]
        elif kind == SIMPLE:
            (length,) = struct.unpack_from(f"{order}I", body)
            yield body[4 : min(4 + length, len(body) - 4)]


def frames_of(name):
    """Each frame of a file; none where it is neither pcap nor pcapng."""
    with open(name, "rb") as file:
        is_packed = file.read(2) == GZIP
    with (gzip.open if is_packed else open)(name, "rb") as file:
        magic = file.read(4)
        if magic in PCAP:
            yield from pcap_frames(file, PCAP[magic])
        elif magic == PCAPNG:
            file.seek(0)
            yield from pcapng_frames(file)


class Frames:
    """The frames of a file, by numbers that don't fall, from 1."""

    def __init__(self, name):
        self.frames, self.number, self.current = frames_of(name), 0, b""

    def frame(self, number):
        """The bytes of this frame; none where the file hasn't them."""
        try:
            while self.number < number:
                self.current = next(self.frames, None)
                self.number += 1
        except (OSError, EOFError, struct.error):
            self.current = None
        return self.current


def payload_of(frame, header, length, is_cut):
    """What a frame has of a segment of so many bytes whose header begins with these bytes; none where
    it isn't clear, as where the segment came in other frames too.
    """
    at = frame.find(header)
    if at < 0 or at + 12 >= len(frame):
        return b"" if at >= 0 and is_cut else None
    begin = at + (frame[at + 12] >> 4) * 4
    payload = frame[begin : begin + length]
    return payload if is_cut or len(payload) == length else None
