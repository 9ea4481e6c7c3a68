#!/usr/bin/env python3
"""Stands in for tshark in tests where it isn't there: whole TCP segments over IPv4 over Ethernet.

It answers the fields that captured.py asks for, of a pcap file with the least byte first, and knows
no filter, fragment, tag, tunnel or TLS.
"""
import struct
import sys

from captured import ACK, FIELDS, SYN

FILE_HEADER, FRAME_HEADER, ETHERNET_HEADER = 24, 16, 14


def frames(text):
    """Each frame of a pcap file, and when it came."""
    (magic,) = struct.unpack_from("<I", text)
    unit = {0xA1B2C3D4: 1_000_000, 0xA1B23C4D: 1_000_000_000}[magic]
    place = FILE_HEADER
    while place < len(text):
        seconds, part, kept, length = struct.unpack_from("<IIII", text, place)
        place += FRAME_HEADER
        yield f"{seconds}.{part * (1_000_000_000 // unit):09}", length, text[place : place + kept]
        place += kept


class Streams:
    """The numbers of connections: a SYN begins another one."""

    def __init__(self):
        self.numbers, self.count = {}, 0

    def number(self, ends, flags):
        if ends not in self.numbers or flags & (SYN | ACK) == SYN:
            self.numbers[ends] = self.count
            self.count += 1
        return self.numbers[ends]


def values_of(frame, streams):
    """The fields of a segment that its own bytes tell."""
    packet = frame[ETHERNET_HEADER:]
    (size,) = struct.unpack_from(">H", packet, 2)
    segment = packet[(packet[0] & 15) * 4 : size]
    source, target, number, acknowledged, offset, flags = struct.unpack_from(">HHIIBB", segment)
    payload = segment[(offset >> 4) * 4 :]
    hosts = [".".join(map(str, packet[at : at + 4])) for at in (12, 16)]
    ends = frozenset([(hosts[0], source), (hosts[1], target)])
    return {
        "frame.protocols": "eth:ethertype:ip:tcp",
        "ip.src": hosts[0],
        "ip.dst": hosts[1],
        "tcp.srcport": source,
        "tcp.dstport": target,
        "tcp.stream": streams.number(ends, flags),
        "tcp.seq_raw": number,
        "tcp.ack_raw": acknowledged,
        "tcp.flags": hex(flags),
        "tcp.len": len(payload),
    }


def main():
    with open(sys.argv[sys.argv.index("-r") + 1], "rb") as file:
        text = file.read()
    streams = Streams()
    for count, (seconds, length, frame) in enumerate(frames(text), start=1):
        values = values_of(frame, streams)
        values |= {"frame.number": count, "frame.time_epoch": seconds}
        values |= {"frame.len": length, "frame.cap_len": len(frame)}
        print("\t".join(str(values.get(name, "")) for name in FIELDS))


main()
