#!/usr/bin/env python3
"""Writes the packets of RPC over HTTP in a capture as lines of hex, for `rh_cli show`.

    tools/pcap_packets.py CAPTURE [--context] [--port N].. [--keys FILE]
    tools/pcap_packets.py --play ROLE CAPTURE [--port N].. [--keys FILE]
    tools/pcap_packets.py --audit CAPTURE [--port N].. [--keys FILE]

CAPTURE is any file that tshark reads (Debian's package tshark): pcap or pcapng, compressed too.
Each direction of each TCP connection is read from its first byte. HTTP heads are left out, and so
are the greeting ncacn_http/1.0 and the bodies of other messages, such as a 401 answer's. What
follows is cut by frag_length, also in chunked bodies. Packets come in the order in which they were
whole.

    --context     puts in front of each packet when it was whole, in UTC, in which frame, the number
                  of its connection (tshark's tcp.stream), and who sent it to whom; heads, greetings
                  and the ends of connections (fin, rst) have lines of their own. ./rh_cli show
                  takes such lines, and writes the context in front of what it tells
    --port N      takes only connections with this port at an end; may stand more than once. A
                  connection of RPC PDUs with no head, greeting or RTS packet is taken only then
    --play ROLE   writes a script for `rh_cli play` instead: it feeds one client, inproxy, outproxy
                  or server what came to it, and draws where it put something
    --audit       writes a capture for `rh_cli audit` instead: what was seen on each leg. Which
                  connection is which tag is told on standard error
    --keys FILE   the secrets of TLS sessions, as SSLKEYLOGFILE has them; those that a pcapng file
                  holds need no option

Connections of other protocols are left out, and counted on standard error. Places are told as
bytes from the first that this end sent, of what was decrypted where it was, and in chunked bodies
without the sizes. Status 0: all was read. 1: something is missing or can't be read, or there is no
packet; standard error says what and where, and all else was written. 2: nothing could be read.
"""
import argparse
import datetime
import os
import sys

import audited
import played
from captured import Capture, NotRead
from stream_reader import Packet, Reader

# What connections are left out, by how they are told, and what helps; where something does, they
# may be of RPC over HTTP, and something is missing.
HIDDEN = "under TLS, not decrypted"
TUNNEL = "in a tunnel of CONNECT, not read"
CUT = "whose first bytes were cut"
MIDST = "of RPC PDUs alone, begun before the capture"
ALONE = "of RPC PDUs alone"
FOREIGN = "without RPC over HTTP"
HELPS = {
    HIDDEN: "--keys FILE tells the secrets of TLS sessions",
    TUNNEL: "capture where what it carries is not in a tunnel",
    CUT: "capture whole frames, as tcpdump -s 0 does",
    MIDST: "--port N takes those of a port",
}


def time_text(seconds):
    whole, _, part = seconds.partition(".")
    moment = datetime.datetime.fromtimestamp(int(whole), datetime.timezone.utc)
    return f"{moment:%Y-%m-%dT%H:%M:%S}.{part or 0}Z"


class Telling:
    """Standard error, and the status that follows from what was told there."""

    def __init__(self):
        self.status = 0

    def tell(self, text):
        print(f"pcap_packets.py: {text}", file=sys.stderr)

    def trouble(self, text):
        self.status = 1
        self.tell(text)


class Told:
    """A connection, as it is told: its packets, heads and ends, each with its frame."""

    def __init__(self, number, connection):
        self.number, self.connection = number, connection
        self.readers = [Reader(direction) for direction in connection.directions.values()]
        for reader in self.readers:
            reader.read()
        self.has_packets = any(reader.packets for reader in self.readers)
        self.is_ours = any(reader.is_ours for reader in self.readers)

    def why_left_out(self):
        directions = self.connection.directions.values()
        if self.connection.is_hidden:
            return HIDDEN
        if any(reader.is_tunnel for reader in self.readers):
            return TUNNEL
        if self.has_packets:
            is_whole = any(direction.is_opened for direction in directions)
            return ALONE if is_whole else MIDST
        return CUT if any(direction.cut_front for direction in directions) else FOREIGN

    def lines(self, has_context):
        """(frame, who sent to whom, packet or text) of each line."""
        for reader in self.readers:
            direction = reader.direction
            for frame, found in reader.found:
                if has_context or isinstance(found, Packet):
                    yield frame, direction.ends, found
            if has_context:
                ends = (direction.finished_in, "fin"), (direction.reset_in, "rst")
                yield from ((frame, direction.ends, text) for frame, text in ends if frame)


def write_lines(capture, connections, has_context):
    """Writes the lines of these connections in the order of the frames."""
    lines = [(it.number, *line) for it in connections for line in it.lines(has_context)]
    lines.sort(key=lambda line: line[1])
    for number, frame, ends, told in lines:
        text = told if isinstance(told, str) else told.bytes.hex()
        if has_context:
            text = f"{time_text(capture.seconds[frame])} {frame} {number} {ends} {text}"
        print(text)


def tell_left_out(reasons, capture, telling):
    """Tells how many connections were left out, by their reasons."""
    counts = {reason: reasons.count(reason) for reason in sorted(set(reasons))}
    for reason, count in counts.items():
        if reason in HELPS:
            telling.trouble(f"connections left out: {count} {reason}; {HELPS[reason]}")
    rest = [f"{count} {reason}" for reason, count in counts.items() if reason not in HELPS]
    if rest:
        telling.tell(f"connections left out: {', '.join(rest)}, of {len(capture.connections)}")


def show(capture, options, telling):
    """Writes the line of each packet, and tells what is missing."""
    shown, reasons = [], []
    for number, connection in sorted(capture.connections.items()):
        told = Told(number, connection)
        if not told.is_ours and not (options.port and told.has_packets):
            reasons.append(told.why_left_out())
            continue
        shown.append(told)
        for text in (text for reader in told.readers for text in reader.troubles):
            telling.trouble(f"connection {number}, {text}")
    write_lines(capture, shown, options.context)
    tell_left_out(reasons, capture, telling)
    if not capture.connections:
        where = " with these ports" if options.port else ""
        telling.trouble(f"no TCP connection{where} is in the capture")
    elif not any(told.has_packets for told in shown):
        telling.trouble("no packet of RPC over HTTP was found")


def first_packet(direction):
    """The first packet of a direction; no bytes where it has none."""
    reader = Reader(direction)
    reader.read()
    return reader.packets[0].bytes if reader.packets else b""


def play(capture, role, telling):
    """Writes the script that feeds a role."""
    lines = played.script_of(capture, role, first_packet, telling.trouble)
    if not lines:
        telling.trouble(f"no connection is a leg of this role: {role}")
    for line in lines:
        print(line)


def audit(capture, telling):
    """Writes what was seen on each leg."""
    legs, others = audited.legs_of(capture.connections)
    for leg in legs:
        ends = leg.directions[0][1].ends
        telling.tell(f"tag {leg.tag}: {leg.kind}, connection {leg.number}, {ends}")
        for text in leg.troubles():
            telling.trouble(f"tag {leg.tag}, {text}")
    for number in others:
        told = Told(number, capture.connections[number])
        if told.is_ours or told.has_packets:
            frame = played.first_frame(told.connection)
            why = told.why_left_out() if not told.is_ours else "which begins as no leg does"
            telling.trouble(f"connection {number}, {why}, from frame {frame}, is left out")
    if not legs:
        telling.trouble("no connection is a leg of RPC over HTTP")
    for text in audited.missing_sides(legs):
        telling.trouble(text)
    for line in audited.lines_of(legs):
        print(line)


def main():
    form = argparse.RawDescriptionHelpFormatter
    parser = argparse.ArgumentParser(description=__doc__, formatter_class=form)
    parser.add_argument("capture")
    parser.add_argument("--context", action="store_true")
    parser.add_argument("--port", type=int, action="append", default=[])
    parser.add_argument("--play", choices=list(played.ROLES), metavar="ROLE")
    parser.add_argument("--audit", action="store_true")
    parser.add_argument("--keys")
    options = parser.parse_args()
    if options.keys and not os.access(options.keys, os.R_OK):
        parser.error(f"no file to read: {options.keys}")
    telling = Telling()
    try:
        capture = Capture(options.capture, options.port, options.keys, telling.trouble)
    except NotRead as error:
        telling.tell(error)
        return 2
    if options.audit:
        audit(capture, telling)
    elif options.play:
        play(capture, options.play, telling)
    else:
        show(capture, options, telling)
    sys.stdout.flush()
    return telling.status


if __name__ == "__main__":
    try:
        sys.exit(main())
    except BrokenPipeError:
        # Whoever read the lines has gone.
        os.dup2(os.open(os.devnull, os.O_WRONLY), sys.stdout.fileno())
        sys.exit(1)
