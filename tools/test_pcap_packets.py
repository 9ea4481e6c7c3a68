#!/usr/bin/env python3
"""Tests of pcap_packets.py: the example, and captures made here, one for each trouble."""
import gzip
import os
import pathlib
import re
import resource
import shutil
import struct
import subprocess
import sys
import tempfile
import unittest

import frames
import role_packets
from role_packets import Named

TOOLS = pathlib.Path(__file__).resolve().parent
EXAMPLE = TOOLS.parent / "examples" / "opening.pcap"
REAL = TOOLS.parent / "examples" / "client.pcap"
PROGRAM = TOOLS.parent / "crates/rh_cli/out/rh_cli"
CLIENT, PROXY, SERVER = ("10.0.0.1", 40000), ("10.0.0.2", 80), ("10.0.0.3", 593)
FIN, SYN, ACK = 1, 2, 16
REQUEST = b"RPC_IN_DATA /rpc/rpcproxy.dll?server:593 HTTP/1.1\r\nContent-Length: 1073741824\r\n\r\n"
OUT_REQUEST = b"RPC_OUT_DATA /rpc/rpcproxy.dll?server:593 HTTP/1.1\r\nContent-Length: 20\r\n\r\n"
ANSWER = (
    b"HTTP/1.1 200 Success\r\nContent-Type: application/rpc\r\n"
    b"Content-Length: 1073741824\r\n\r\n"
)
GREETING = b"ncacn_http/1.0"
ETHERNET = 1
HEADER_LEN = 16


def pdu(number, length=72):
    """A request PDU (C706 12.6.4.9) with this call id."""
    header = struct.pack("<4B4BHHI", 5, 0, 0, 3, 0x10, 0, 0, 0, length, 0, number)
    return header + bytes([number]) * (length - HEADER_LEN)


# An RTS packet with no command.
RTS = struct.pack("<4B4BHHIHH", 5, 0, 20, 3, 0x10, 0, 0, 0, 20, 0, 0, 0, 0)
PDUS = [pdu(number) for number in range(1, 10)]
# What is told where no packet was found.
NONE = "no packet of RPC over HTTP was found"


# A client's OUT channel under TLS 1.2: OUT_REQUEST and RTS, then ANSWER with PDUS[0], then PDUS[1].
# It was made once with Python's ssl, by AECDH-AES128-SHA, which needs no certificate.
TLS_KEYS = """CLIENT_RANDOM
393da39775a26f4257662e34c1af1cb56c4417e787ca8a8d174d019c1c244e61
e341e9eefbc33d2b02c13ec0a2200e2e555130774e8a19937365e1e1eddf9176820ff163002a4f7d8b87efdada54525b"""
TLS_TALK = """
up
1603010085010000810303393da39775a26f4257662e34c1af1cb56c4417e787ca8a8d174d019c1c244e61000004c01800ff
01000054000b000403000102000a000c000a001d0017001e001900180016000000170000000d0030002e0403050306030807
08080809080a080b080408050806040105010601030302030301020103020202040205020602
down
16030300610200005d0303c751c6e325275efc5ee9a357d382ad8b1bf2fe4512642bc2db36011d97f51df82032e0b88ce6f9
da994a14b86f4d0a0b175187cb9d27372011b9358e2594bb346bc018000015ff01000100000b000403000102001600000017
000016030300280c00002403001d204fc52b7a74b349afd9094def68248e2aa599036f66eab8dd27d3a813201e014a160303
00040e000000
up
16030300251000002120b61bcc8a7d56c1c4e41c67deaf6f8bdc63a099c5dcbc96102faae3f4a8bdd3491403030001011603
03004451e06a05675e953fe0d5c76f1ff092245b13516dd0b2f89cfdd21c84661c98ece199f655b64822ef18e572b49fa362
f7a53cd80a17969190432cddbbb886a71970109784
down
140303000101160303004452b88a429c5372c6bd1cff0220a2184002005510c0132e684fd1f0ef395f5e096faf482afd83d5
0fd08b2f1bb21ac3eeb8a9ee7d1d45fe6c4780a68042eb75dd992bd0f9
up
170303008458c02a2137d006dfe95f53176c5f0ecaa4abbbed0a308596598c0193db69430d09805bdc9dddd0039196a1a1c2
06007585ed2a677a28b721f6842a29521bc8649b3c8d266fb14a7e327b2a46c87e34a8fd90e3e06b05bad4678fd5b5d10d0f
2083557fb7178454267a04d8624ec3582f2715b8201857c5bc436247c67a412f4bf08336f3
down
17030300c4281c472df1cc3c87c66821bc320a08dd5093b1654df92d36ae8d33e1532b53e54602e1d581382d0e02787cc7b3
424f6d51227ddb9b09b5c941d8e163130afc98d59368fab1517461b75794045acc35c27973171052db8d213d0714cf2deb1d
c979ada545aa260b3e9718545d5e787e98d9a56a2e105a6113c88fbb6b41403dcb4a21ddd8f7531241505e84490de292b1d2
55bc796e695c0c02880452ca622d0dcfc52239660f1874c96be69596fbf2b55dc3939434093998c721bbddd5783590dad390
a11703030074650068087a889c4de5b96eb842d8763da6d76ce17b0ddb99cd01be209abf166733e011dc12b0794cdaac7aa8
5675c5c0c1d4fe53d9376e54ca104dc31950d43ffb65db69d712bfdc4cf3df016bc3d1ccbfe351715788a910e3ad15f685b5
c5c431a08a5e5bc946618c58641a22690e4eb555af8c
"""


class Made:
    """A capture that is being made; a frame each millisecond."""

    def __init__(self):
        self.frames = []

    def frame(self, data, cut=None):
        self.frames.append((data[:cut], len(data)))

    def ip(self, source, target, payload, tag=b"", fragment=None, cut=None):
        """A TCP segment in one IPv4 packet, or in fragments of so many bytes."""
        step, number = fragment or len(payload), len(self.frames)
        for at in range(0, len(payload), step):
            piece = payload[at : at + step]
            place = at // 8 | (0x2000 if at + step < len(payload) else 0)
            hosts = b"".join(bytes(map(int, end[0].split("."))) for end in (source, target))
            size, number = 20 + len(piece), number % 2**16
            head = struct.pack(">BBHHHBBH", 0x45, 0, size, number, place, 64, 6, 0)
            self.frame(bytes(12) + tag + b"\x08\x00" + head + hosts + piece, cut)

    def segment(self, source, target, number, payload=b"", flags=ACK, other=0, **how):
        ports, numbers = (source[1], target[1]), (number % 2**32, other % 2**32)
        tcp = struct.pack(">HHIIBBHHH", *ports, *numbers, 0x50, flags, 65535, 0, 0)
        self.ip(source, target, tcp + payload, **how)

    def pcap(self):
        pieces = [struct.pack("<IHHiIII", 0xA1B2C3D4, 2, 4, 0, 0, 65535, ETHERNET)]
        for number, (data, length) in enumerate(self.frames):
            seconds, part = divmod(number, 1000)
            pieces.append(struct.pack("<IIII", seconds, part * 1000, len(data), length) + data)
        return b"".join(pieces)

    def pcapng(self):
        def block(kind, body):
            size = 12 + len(body)
            return struct.pack("<II", kind, size) + body + struct.pack("<I", size)

        text = block(0x0A0D0D0A, struct.pack("<IHHq", 0x1A2B3C4D, 1, 0, -1))
        text += block(1, struct.pack("<HHI", ETHERNET, 0, 65535))
        for number, (data, length) in enumerate(self.frames):
            body = struct.pack("<IIIII", 0, 0, number * 1000, len(data), length) + data
            text += block(6, body + bytes(-len(data) % 4))
        return text


class Talk:
    """A connection in a capture: what its ends send, each segment behind the last."""

    def __init__(self, made, client=CLIENT, server=SERVER, first=1000, opened=True, greeted=True):
        self.made, self.client, self.server = made, client, server
        self.next = {client: first + 1, server: first + 50_001}
        if opened:
            made.segment(client, server, first, flags=SYN)
            made.segment(server, client, first + 50_000, flags=SYN | ACK, other=first + 1)
        if greeted:
            self.up(b"")
            self.down(GREETING)

    def send(self, source, target, payload, is_kept=True, flags=ACK, **how):
        if is_kept:
            number, other = self.next[source], self.next[target]
            self.made.segment(source, target, number, payload, flags, other, **how)
        self.next[source] += len(payload)

    def up(self, payload, **how):
        self.send(self.client, self.server, payload, **how)

    def down(self, payload, **how):
        self.send(self.server, self.client, payload, **how)


def talk_under_tls():
    made = Made()
    talk = Talk(made, server=("10.0.0.2", 443), greeted=False)
    for side, text in re.findall(r"(up|down)\n((?:[0-9a-f]+\n)+)", TLS_TALK):
        sent = bytes.fromhex(text)
        for at in range(0, len(sent), 90):
            getattr(talk, side)(sent[at : at + 90])
    return made


def lost_of(*lost, pdus=PDUS, **how):
    """A connection of proxy and server of which these segments, each a PDU, were not captured."""
    made = Made()
    talk = Talk(made)
    for number, packet in enumerate(pdus):
        talk.up(packet, is_kept=number not in lost, **how)
    return made


def opened_and_answered():
    """A client's OUT channel: a request with a packet, and an answer with two."""
    made = Made()
    talk = Talk(made, server=PROXY, greeted=False)
    talk.up(OUT_REQUEST + RTS)
    talk.down(ANSWER)
    talk.down(PDUS[0])
    talk.down(PDUS[1])
    return made


class Case(unittest.TestCase):
    def run_tool(self, capture, *words):
        """What the tool writes of a capture, its lines of standard error, and its status."""
        with tempfile.TemporaryDirectory() as folder:
            file = pathlib.Path(folder) / "capture"
            file.write_bytes(capture if isinstance(capture, bytes) else capture.pcap())
            command = [sys.executable, TOOLS / "pcap_packets.py", file, *words]
            done = subprocess.run(command, capture_output=True, text=True, check=False)
        return done.stdout.split("\n")[:-1], done.stderr, done.returncode

    def check(self, capture, packets, told=(), status=0, words=()):
        """Checks the packets, the status and standard error, which is empty if no text is given."""
        lines, error, ended = self.run_tool(capture, *words)
        self.assertEqual(lines, [packet.hex() for packet in packets], error)
        self.assertEqual(ended, status, error)
        for text in told:
            self.assertIn(text, error)
        if not told:
            self.assertEqual(error, "")


@unittest.skipUnless(shutil.which("tshark"), "no tshark")
class Captures(Case):
    def test_the_example(self):
        lines, error, status = self.run_tool(EXAMPLE.read_bytes())
        self.assertEqual((error, status), ("", 0))
        # The kind and frag_length of each, as the README's page of the example has them.
        self.assertEqual([(line[4:6], len(line) // 2) for line in lines], [
            ("14", 76), ("14", 104), ("14", 28), ("14", 44), ("0b", 72), ("0c", 60), ("14", 56)])

    def test_a_real_client(self):
        lines, error, status = self.run_tool(REAL.read_bytes())
        self.assertEqual((error, status), ("", 0))
        # CONN/A1, A3, B1 and C2, a bind and its answer, and ten requests with theirs.
        wanted = [("14", 76), ("14", 28), ("14", 104), ("14", 44), ("0b", 72), ("0c", 60)]
        wanted += [("00", 32), ("02", 40)] * 10
        self.assertEqual([(line[4:6], len(line) // 2) for line in lines], wanted)

    def test_context_tells_time_frame_connection_and_direction(self):
        lines, _, _ = self.run_tool(EXAMPLE.read_bytes(), "--context")
        out, inbound = "0 10.0.0.2:49152 > 10.0.0.9:80", "1 10.0.0.2:49153 > 10.0.0.8:80"
        second = "2023-11-14T22:13:20"
        for number, context in (
            (0, f"{second}.005000000Z 5 {out} http RPC_OUT_DATA /rpc/rpcproxy.dll?server:593"),
            (1, f"{second}.005000000Z 5 {out} 0500140310"),
            (2, f"{second}.008000000Z 8 {inbound} http RPC_IN_DATA /rpc/rpcproxy.dll?server:593"),
            (3, f"{second}.008000000Z 8 {inbound} 0500140310"),
            (4, f"{second}.010000000Z 10 0 10.0.0.9:80 > 10.0.0.2:49152 http 200 Success"),
        ):
            self.assertTrue(lines[number].startswith(context), lines[number])

    def test_context_tells_heads_and_ends(self):
        made = Made()
        talk = Talk(made, server=PROXY, greeted=False)
        talk.up(OUT_REQUEST + RTS)
        talk.down(b"HTTP/1.1 503 RPC Error: 6ba\r\nContent-Length: 0\r\n\r\n")
        talk.up(b"", flags=FIN | ACK)
        made.segment(PROXY, CLIENT, talk.next[PROXY], flags=4)
        lines, error, status = self.run_tool(made, "--context")
        up, down = "0 10.0.0.1:40000 > 10.0.0.2:80", "0 10.0.0.2:80 > 10.0.0.1:40000"
        self.assertEqual((error, status), ("", 0))
        self.assertEqual(lines, [
            f"1970-01-01T00:00:00.00{number - 1}000000Z {number} {text}"
            for number, text in (
                (3, f"{up} http RPC_OUT_DATA /rpc/rpcproxy.dll?server:593"),
                (3, f"{up} {RTS.hex()}"),
                (4, f"{down} http 503 RPC Error: 6ba"),
                (5, f"{up} fin"),
                (6, f"{down} rst"),
            )
        ])

    def test_heads_and_packets_of_a_client(self):
        made = Made()
        talk = Talk(made, server=PROXY, greeted=False)
        talk.up(REQUEST[:30])
        talk.up(REQUEST[30:] + RTS + PDUS[0][:5])
        talk.up(PDUS[0][5:])
        talk.down(ANSWER + RTS + PDUS[1])
        self.check(made, [RTS, PDUS[0], RTS, PDUS[1]])

    def test_a_greeting_and_packets_of_a_server(self):
        made = Made()
        talk = Talk(made)
        talk.up(PDUS[0])
        talk.down(PDUS[1] + PDUS[2])
        self.check(made, PDUS[:3])

    def test_the_body_of_a_401_is_passed_over(self):
        made = Made()
        talk = Talk(made, server=PROXY, greeted=False)
        body = b"<html>05000b03 HTTP/1.1 200 </html>"
        talk.up(OUT_REQUEST + RTS)
        talk.down(b"HTTP/1.1 401 Unauthorized\r\nContent-Length: %d\r\n\r\n" % len(body) + body[:9])
        talk.down(body[9:])
        talk.up(OUT_REQUEST + RTS)
        talk.down(ANSWER + PDUS[0])
        self.check(made, [RTS, RTS, PDUS[0]])

    def test_a_request_is_sent_again_inside_its_body(self):
        made = Made()
        talk = Talk(made, server=PROXY, greeted=False)
        talk.up(REQUEST + RTS)
        talk.down(b"HTTP/1.1 401 Unauthorized\r\nContent-Length: 3\r\n\r\nabc")
        talk.up(REQUEST + RTS + PDUS[0])
        self.check(made, [RTS, RTS, PDUS[0]])

    def test_the_chunks_of_a_401_are_passed_over(self):
        made = Made()
        talk = Talk(made, server=PROXY, greeted=False)
        talk.up(OUT_REQUEST + RTS)
        talk.down(b"HTTP/1.1 401 No\r\nTransfer-Encoding: chunked\r\n\r\n")
        talk.down(b"5\r\nhello\r\nA;x=y\r\n0123456789\r\n0\r\n\r\n")
        talk.down(ANSWER + PDUS[0])
        self.check(made, [RTS, PDUS[0]])

    def test_an_echo_request_has_no_packet(self):
        made = Made()
        talk = Talk(made, server=PROXY, greeted=False)
        talk.up(REQUEST.replace(b"1073741824", b"4") + b"\x05\x05\x05\x05")
        talk.down(ANSWER.replace(b"1073741824", b"20") + RTS)
        self.check(made, [RTS])

    def test_behind_other_requests_on_the_connection(self):
        made = Made()
        talk = Talk(made, server=PROXY, greeted=False)
        talk.up(b"POST /page HTTP/1.1\r\nContent-Length: 5\r\n\r\nhello")
        talk.down(b"HTTP/1.1 200 OK\r\nContent-Type: text/html\r\nContent-Length: 2\r\n\r\nok")
        talk.up(REQUEST + RTS)
        talk.down(b"HTTP/1.1 100 Continue\r\n\r\n" + ANSWER + PDUS[0])
        self.check(made, [RTS, PDUS[0]])

    def test_a_gap_is_told_and_the_rest_read(self):
        place = "connection 0, 10.0.0.1:40000 > 10.0.0.3:593, byte 216: "
        told = "72 bytes are missing; read on from byte 288, frame 8"
        self.check(lost_of(3), PDUS[:3] + PDUS[4:], [place + told], 1)

    def test_a_gap_that_is_acknowledged(self):
        made = lost_of(3)
        made.segment(SERVER, CLIENT, 51_015, other=1001 + 9 * 72)
        self.check(made, PDUS[:3] + PDUS[4:], ["byte 216: 72 bytes are missing"], 1)

    def test_a_gap_inside_a_packet(self):
        made = Made()
        talk = Talk(made)
        for number, packet in enumerate(PDUS[:3]):
            talk.up(packet[:30])
            talk.up(packet[30:40], is_kept=number != 1)
            talk.up(packet[40:])
        told = "byte 102: 10 bytes are missing, inside a packet of 72 bytes that begins at byte 72"
        self.check(made, [PDUS[0], PDUS[2]], [told, "; read on from byte 144, frame 10"], 1)

    def test_a_gap_at_the_end(self):
        made = lost_of(8)
        self.check(made, PDUS[:8])
        made.segment(SERVER, CLIENT, 51_015, other=1001 + 9 * 72)
        self.check(made, PDUS[:8], ["byte 576: 72 bytes are missing"], 1)
        made = Made()
        talk = Talk(made)
        talk.up(PDUS[0])
        talk.up(PDUS[1], is_kept=False)
        talk.up(b"", flags=FIN | ACK)
        self.check(made, PDUS[:1], ["byte 72: 72 bytes are missing"], 1)

    def test_a_gap_at_the_beginning(self):
        self.check(lost_of(0), PDUS[1:], ["byte 0: 72 bytes are missing; read on from byte 72"], 1)

    def test_a_gap_in_a_body_that_is_passed_over(self):
        made = Made()
        talk = Talk(made, server=PROXY, greeted=False)
        talk.down(b"HTTP/1.1 401 Unauthorized\r\nContent-Length: 300\r\n\r\n" + bytes(100))
        talk.down(bytes(100), is_kept=False)
        talk.down(bytes(100) + ANSWER + PDUS[0])
        self.check(made, PDUS[:1], ["100 bytes are missing; read on from byte"], 1)

    def test_a_packet_that_was_cut(self):
        told = "byte 242: 46 bytes are missing, as frame 8 was cut, inside a packet of 72 bytes"
        made = lost_of()
        data, length = made.frames[7]
        made.frames[7] = data[:80], length
        self.check(made, PDUS[:3] + PDUS[4:], [told, "read on from byte 288, frame 9"], 1)

    def test_a_packet_that_was_cut_and_sent_again(self):
        made = lost_of()
        data, length = made.frames[7]
        made.frames[7] = data[:80], length
        made.frames.append((data, length))
        self.check(made, PDUS)

    def test_packets_cut_inside_their_headers(self):
        # Behind 14 bytes of Ethernet, 20 of IP, and of TCP the byte with the length of its header.
        for cut in (30, 40, 47, 54):
            with self.subTest(cut=cut):
                made = lost_of()
                data, length = made.frames[7]
                made.frames[7] = data[:cut], length
                self.check(made, PDUS[:3] + PDUS[4:], ["byte 216: 72 bytes are missing"], 1)

    def test_a_file_that_was_cut(self):
        self.check(lost_of().pcap()[:-10], PDUS[:8], ["cut short"], 1)

    def test_a_capture_that_ends_inside_a_packet(self):
        made = Made()
        Talk(made).up(PDUS[0] + PDUS[1][:40])
        told = "byte 112: the capture ends inside a packet of 72 bytes that begins at byte 72"
        self.check(made, PDUS[:1], [told], 1)

    def test_a_reused_port_is_another_connection(self):
        made = Made()
        for first, packet in ((1000, PDUS[0]), (700_000, PDUS[1]), (90, PDUS[2])):
            Talk(made, first=first).up(packet)
        self.check(made, PDUS[:3])

    def test_a_reused_port_whose_opening_was_lost(self):
        for first in (10_000_000, 2**32 - 90_000):
            with self.subTest(first=first):
                made = Made()
                Talk(made).up(PDUS[0])
                Talk(made, first=first, opened=False, greeted=False).up(PDUS[1])
                self.check(made, PDUS[:2], ["bytes are missing; read on from byte"], 1)

    def test_ip_fragments(self):
        self.check(lost_of(fragment=32), PDUS)

    def test_a_fragment_that_is_missing(self):
        made = lost_of(fragment=32)
        del made.frames[12]
        self.check(made, PDUS[:2] + PDUS[3:], ["byte 144: 72 bytes are missing"], 1)

    def test_tags_of_vlans(self):
        self.check(lost_of(tag=bytes.fromhex("81000007")), PDUS)
        self.check(lost_of(tag=bytes.fromhex("88a8000581000007")), PDUS)

    def test_pcapng(self):
        self.check(lost_of().pcapng(), PDUS)

    def test_a_packed_file(self):
        self.check(gzip.compress(lost_of().pcap()), PDUS)
        self.check(gzip.compress(lost_of().pcapng()), PDUS)

    def test_segments_out_of_order_repeated_and_past_the_greatest_number(self):
        made = Made()
        talk = Talk(made, first=2**32 - 200)
        for packet in PDUS:
            talk.up(packet)
        made.frames[5:] = [frame for frame in reversed(made.frames[5:]) for _ in range(2)]
        self.check(made, PDUS)

    def test_a_foreign_connection_is_left_out_and_counted(self):
        made = Made()
        talk = Talk(made, client=("10.0.0.9", 50_000), server=("10.0.0.8", 22), greeted=False)
        talk.down(b"SSH-2.0-OpenSSH_9.2\r\n")
        talk.up(bytes(range(256)) * 4)
        Talk(made, client=("10.0.0.9", 50_001), server=("10.0.0.8", 25), greeted=False)
        Talk(made).up(PDUS[0])
        self.check(made, PDUS[:1], ["connections left out: 2 without RPC over HTTP, of 3"])

    def test_pdus_alone_are_taken_where_their_port_is_named(self):
        made = Made()
        Talk(made, greeted=False).up(PDUS[0])
        self.check(made, [], ["connections left out: 1 of RPC PDUs alone, of 1", NONE], 1)
        self.check(made, PDUS[:1], words=["--port", "593"])

    def test_ports_filter(self):
        made = Made()
        Talk(made).up(PDUS[0])
        Talk(made, server=("10.0.0.3", 594)).up(PDUS[1])
        Talk(made, server=("10.0.0.3", 595)).up(PDUS[2])
        self.check(made, PDUS[1:2], words=["--port", "594"])
        self.check(made, PDUS[1:3], words=["--port", "594", "--port", "595"])

    def test_bytes_that_are_no_packet(self):
        made = Made()
        talk = Talk(made)
        for payload in (PDUS[0], b"\xff" * 50, PDUS[1]):
            talk.up(payload)
        told = "byte 72: neither a packet nor a head begins here, frame 6: " + "ff" * HEADER_LEN
        told += "; 50 bytes are left out; read on from byte 122, frame 7"
        self.check(made, PDUS[:2], [told], 1)

    def test_a_length_below_that_of_a_header(self):
        made = Made()
        talk = Talk(made)
        for payload in (PDUS[0], pdu(1, HEADER_LEN - 1), PDUS[1]):
            talk.up(payload)
        self.check(made, PDUS[:2], ["byte 72: neither a packet nor a head begins here"], 1)

    def test_what_is_no_capture(self):
        self.check(b"no capture at all\n" * 9, [], ["isn't a capture file"], 2)

    def test_time_is_linear_in_the_segments_behind_a_gap(self):
        count = 40_000
        packets = PDUS[:1] * count
        before = resource.getrusage(resource.RUSAGE_CHILDREN).ru_utime
        lines, error, status = self.run_tool(lost_of(1, pdus=packets))
        seconds = resource.getrusage(resource.RUSAGE_CHILDREN).ru_utime - before
        self.assertEqual((len(lines), error.count("missing"), status), (count - 1, 1, 1))
        # It takes some 3 seconds; tshark's own ordering, or a search for each segment, takes 30.
        self.assertLess(seconds, 15)

    def test_tls_that_is_decrypted(self):
        made = talk_under_tls()
        with tempfile.TemporaryDirectory() as folder:
            keys = pathlib.Path(folder) / "keys"
            keys.write_text(" ".join(TLS_KEYS.split()) + "\n")
            self.check(made, [RTS, *PDUS[:2]], words=["--keys", str(keys)])
            # Each part of a record in the last four frames, which are the server's.
            made.frames[-4:-2] = reversed(made.frames[-4:-2])
            self.check(made, [RTS, *PDUS[:2]], words=["--keys", str(keys)])
            del made.frames[-4]
            told = ["10.0.0.2:443 > 10.0.0.1:40000, byte 0: 90 bytes are missing", "out of order"]
            self.check(made, [RTS], told, 1, ["--keys", str(keys)])


@unittest.skipUnless(shutil.which("tshark"), "no tshark")
class Trouble(Case):
    """Captures that lack something, or hold what isn't read: each ends with status 1 and why."""

    def test_a_snap_length_that_leaves_the_fronts_of_heads(self):
        made = opened_and_answered()
        made.frames = [(data[:64], length) for data, length in made.frames]
        lost = len(OUT_REQUEST + RTS) - 10
        told = f"{lost} bytes are missing, as frame 3 was cut, inside a head"
        self.check(made, [], [told, "as frame 4 was cut", NONE], 1)

    def test_a_snap_length_that_leaves_nothing(self):
        made = opened_and_answered()
        made.frames = [(data[:54], length) for data, length in made.frames]
        told = "connections left out: 1 whose first bytes were cut; capture whole frames"
        self.check(made, [], [told, NONE], 1)

    def test_a_snap_length_of_another_protocol(self):
        made = opened_and_answered()
        talk = Talk(made, client=("10.0.0.9", 50_000), server=("10.0.0.8", 22), greeted=False)
        talk.down(b"SSH-2.0-OpenSSH_9.2\r\n", cut=60)
        told = "connections left out: 1 without RPC over HTTP, of 2"
        self.check(made, [RTS, PDUS[0], PDUS[1]], [told])

    def test_a_capture_begun_in_the_midst_of_a_leg(self):
        made = opened_and_answered()
        # Up to the first packet of the answer, so that each packet left is whole.
        del made.frames[:5]
        told = "10.0.0.2:80 > 10.0.0.1:40000, byte 0: what this end sent before the capture began"
        self.check(made, [PDUS[1]], [told], 1, ["--port", "80"])
        told = "connections left out: 1 of RPC PDUs alone, begun before the capture; --port N takes"
        self.check(made, [], [told, NONE], 1)
        Talk(made, first=9000, opened=False, greeted=False, server=("10.0.0.3", 80)).up(RTS)
        told = "connection 1, 10.0.0.1:40000 > 10.0.0.3:80, byte 0: what this end sent before the"
        self.check(made, [RTS], [told], 1)

    def test_a_capture_begun_within_a_packet(self):
        made = Made()
        talk = Talk(made, opened=False, greeted=False)
        talk.up(PDUS[0][30:] + RTS)
        told = "byte 0: neither a packet nor a head begins here, frame 1: 0101"
        self.check(made, [RTS], [told, "; 42 bytes are left out; read on from byte 42, frame 1"], 1)

    def test_a_capture_begun_at_a_head(self):
        made = opened_and_answered()
        del made.frames[:2]
        self.check(made, [RTS, PDUS[0], PDUS[1]])

    def test_tls_without_keys(self):
        told = "connections left out: 1 under TLS, not decrypted; --keys FILE tells the secrets"
        self.check(talk_under_tls(), [], [told, NONE], 1)
        made = opened_and_answered()
        made.frames += talk_under_tls().frames
        self.check(made, [RTS, PDUS[0], PDUS[1]], [told], 1)
        self.check(made, [RTS, PDUS[0], PDUS[1]], words=["--port", "80"])

    def test_a_tunnel(self):
        made = Made()
        talk = Talk(made, server=("10.0.0.2", 3128), greeted=False)
        talk.up(b"CONNECT proxy:443 HTTP/1.1\r\n\r\n")
        talk.down(b"HTTP/1.1 200 OK\r\n\r\n")
        talk.up(bytes.fromhex(TLS_TALK.split()[1]))
        told = "connections left out: 1 in a tunnel of CONNECT, not read"
        self.check(made, [], [told, NONE], 1)

    def test_bytes_between_two_packets_of_a_segment(self):
        made = Made()
        Talk(made).up(PDUS[0] + b"\xff" * 50 + PDUS[1] + PDUS[2])
        told = f"byte 72: neither a packet nor a head begins here, frame 5: {'ff' * HEADER_LEN}"
        told += "; 50 bytes are left out; read on from byte 122, frame 5"
        self.check(made, PDUS[:3], [told], 1)

    def test_bytes_that_only_look_like_a_packet(self):
        made = Made()
        # A header of a packet of 72 bytes, behind which there are more than these.
        talk = Talk(made)
        talk.up(PDUS[0] + b"\xff" * 50 + PDUS[8][:HEADER_LEN] + b"\xff" * 100)
        talk.up(PDUS[1])
        told = "; 166 bytes are left out; read on from byte 238, frame 6"
        self.check(made, PDUS[:2], [told], 1)

    def test_bytes_behind_the_last_packet(self):
        made = Made()
        Talk(made).up(PDUS[0] + b"\xff" * 50)
        self.check(made, PDUS[:1], ["; 50 bytes from byte 72 on are left out"], 1)

    def test_no_connection(self):
        made = Made()
        told = "no TCP connection is in the capture"
        self.check(made, [], [told], 1)
        # A datagram of UDP, from port 500 to port 500.
        packet = bytes.fromhex("4500001c0000000040110000" + "00" * 8 + "01f401f400080000")
        made.frame(bytes(12) + b"\x08\x00" + packet)
        self.check(made, [], [told], 1)
        told = "no TCP connection with these ports is in the capture"
        self.check(opened_and_answered(), [], [told], 1, ["--port", "81"])

    def test_no_packet(self):
        made = Made()
        talk = Talk(made, server=PROXY, greeted=False)
        talk.up(OUT_REQUEST)
        talk.down(b"HTTP/1.1 401 Unauthorized\r\nContent-Length: 3\r\n\r\nabc")
        self.check(made, [], [NONE], 1)


@unittest.skipUnless(shutil.which("tshark"), "no tshark")
class Chunks(Case):
    """Packets in chunked bodies."""

    HEAD = ANSWER.replace(b"Content-Length: 1073741824", b"Transfer-Encoding: chunked")

    def check_down(self, pieces, packets, told=(), status=0):
        made = Made()
        talk = Talk(made, server=PROXY, greeted=False)
        talk.up(OUT_REQUEST + RTS)
        for piece in pieces:
            talk.down(piece)
        self.check(made, [RTS, *packets], told, status)

    def test_a_chunk_a_packet(self):
        second = b"\r\n48;x=y\r\n" + PDUS[0] + b"\r\n"
        self.check_down([self.HEAD + b"14\r\n" + RTS, second], [RTS, PDUS[0]])

    def test_packets_and_chunks_cut_elsewhere(self):
        text = PDUS[0] + PDUS[1]
        body = b"1\r\n" + text[:1] + b"\r\n8E\r\n" + text[1:143] + b"\r\n1\r\n" + text[143:]
        for step in (1, 7, 50):
            pieces = [body[at : at + step] for at in range(0, len(body), step)]
            self.check_down([self.HEAD, *pieces], PDUS[:2])

    def test_a_message_behind_the_last_chunk(self):
        body = b"48\r\n" + PDUS[0] + b"\r\n0\r\nA: b\r\n\r\n"
        self.check_down([self.HEAD + body + ANSWER + PDUS[1]], PDUS[:2])

    def test_a_request_in_chunks(self):
        made = Made()
        talk = Talk(made, server=PROXY, greeted=False)
        talk.up(REQUEST.replace(b"Content-Length: 1073741824", b"Transfer-Encoding: chunked"))
        talk.up(b"48\r\n" + PDUS[0] + b"\r\n48\r\n" + PDUS[1] + b"\r\n")
        self.check(made, PDUS[:2])

    def test_what_is_no_size(self):
        place = len(self.HEAD) + 4 + 72 + 2
        told = f"byte {place}: neither a packet nor a head begins here, frame 4: 7878"
        body = b"48\r\n" + PDUS[0] + b"\r\nxx\r\n" + PDUS[1]
        self.check_down([self.HEAD + body], PDUS[:2], [told], 1)

    def test_a_body_that_ends_inside_a_packet(self):
        told = f"byte {len(self.HEAD)}: the chunked body ends inside a packet of 72 bytes"
        body = b"47\r\n" + PDUS[0][:71] + b"\r\n0\r\n\r\n"
        self.check_down([self.HEAD + body + ANSWER + PDUS[1]], [PDUS[1]], [told], 1)

    def test_a_capture_that_ends_inside_a_chunk(self):
        told = "the capture ends inside a packet of 72 bytes that begins at byte"
        self.check_down([self.HEAD + b"48\r\n" + PDUS[0][:20]], [], [told], 1)

    def test_a_gap_inside_a_chunk(self):
        made = Made()
        talk = Talk(made, server=PROXY, greeted=False)
        talk.up(OUT_REQUEST + RTS)
        talk.down(self.HEAD + b"48\r\n" + PDUS[0] + b"\r\n48\r\n" + PDUS[1][:10])
        talk.down(PDUS[1][10:20], is_kept=False)
        talk.down(PDUS[1][20:] + b"\r\n48\r\n" + PDUS[2])
        told = "10 bytes are missing, inside the header of a packet"
        self.check(made, [RTS, PDUS[0], PDUS[2]], [told, "; 58 bytes are left out; read on"], 1)


def opening_of_a_client(made, last=b""):
    """A client's connections to its proxies, up to CONN/C2, and these bytes behind it."""
    out = Talk(made, server=PROXY, greeted=False)
    inbound = Talk(made, client=("10.0.0.1", 40001), server=PROXY, greeted=False)
    out.up(role_packets.out_request(76) + CONN_A1)
    inbound.up(role_packets.in_request(1_073_741_824))
    inbound.up(CONN_B1)
    out.down(HEAD)
    out.down(Named.ConnA3(120_000) + CONN_C2[:7])
    out.down(CONN_C2[7:] + last)
    return out, inbound


CONNECTION, OUT_COOKIE, IN_COOKIE, GROUP = (bytes(15) + bytes([number]) for number in (9, 7, 8, 6))
CONN_A1 = Named.ConnA1(1, CONNECTION, OUT_COOKIE, 65_536)
CONN_B1 = Named.ConnB1(1, CONNECTION, IN_COOKIE, 1_073_741_824, 300_000, GROUP)
CONN_C2 = Named.ConnC2(1, 65_536, 120_000)
HEAD = role_packets.response(1_073_807_360)
BAD_FLAGS = bytearray(Named.Ping)
BAD_FLAGS[17] = 0x80


class Plain(unittest.TestCase):
    """With a plain reader of captures where no tshark is there."""

    def setUp(self):
        room = tempfile.TemporaryDirectory()
        self.addCleanup(room.cleanup)
        self.room = pathlib.Path(room.name)
        self.path = os.environ["PATH"]
        if not shutil.which("tshark"):
            (self.room / "tshark").symlink_to(TOOLS / "plain_tshark.py")
            self.path = f"{self.room}:{self.path}"

    def script(self, role, capture, status=0):
        """The script of a capture, and what is told on standard error."""
        file = self.room / "capture"
        file.write_bytes(capture if isinstance(capture, bytes) else capture.pcap())
        command = [sys.executable, TOOLS / "pcap_packets.py", "--play", role, file]
        env = {**os.environ, "PATH": self.path}
        done = subprocess.run(command, capture_output=True, text=True, check=False, env=env)
        self.assertEqual(done.returncode, status, done.stderr)
        return done.stdout, done.stderr


class Playing(Plain):
    """Scripts that feed a role."""

    def check(self, role, made, wanted, told="", status=0):
        script, said = self.script(role, made, status)
        self.assertEqual(script, "".join(f"{line}\n" for line in wanted))
        self.assertIn(told, said)

    def test_what_came_to_a_client(self):
        made = Made()
        out, inbound = opening_of_a_client(made)
        inbound.up(PDUS[0])
        out.down(b"", flags=FIN | ACK)
        out_put = role_packets.out_request(76) + CONN_A1
        in_put = role_packets.in_request(1_073_741_824)
        self.check("client", made, [
            "client",
            f"up co1 {OUT_COOKIE.hex()}",
            f"case captured co1 {len(out_put)} {out_put.hex()}",
            "draw co1 65536",
            "tick 1",
            f"up ci1 {IN_COOKIE.hex()}",
            f"case captured ci1 {len(in_put)} {in_put.hex()}",
            "draw ci1 65536",
            "tick 2",
            f"case captured ci1 104 {CONN_B1.hex()}",
            "draw ci1 65536",
            "tick 3",
            f"feed co1 {HEAD.hex()}",
            "tick 4",
            f"feed co1 {(Named.ConnA3(120_000) + CONN_C2[:7]).hex()}",
            "tick 5",
            f"feed co1 {CONN_C2[7:].hex()}",
            "tick 6",
            f"case captured ci1 72 {PDUS[0].hex()}",
            "draw ci1 65536",
            "tick 7",
            "ended co1",
            "draw co1 65536",
            "draw ci1 65536",
            "state",
        ])

    def test_what_came_to_a_server(self):
        made = Made()
        address = bytes([127, 0, 0, 1])
        put = Named.ConnB2(1, CONNECTION, IN_COOKIE, 65_536, 120_000, GROUP, address)
        inbound = Talk(made, greeted=False)
        inbound.up(put)
        inbound.down(GREETING)
        other = Named.ConnA2(1, CONNECTION, OUT_COOKIE, 1_073_741_824, 65_536)
        out = Talk(made, client=("10.0.0.1", 40001), greeted=False)
        out.up(other)
        out.down(GREETING)
        made.segment(out.client, out.server, out.next[out.client], flags=4)
        self.check("server", made, [
            "server",
            "up is1",
            f"feed is1 {put.hex()}",
            "tick 1",
            f"case captured is1 14 {GREETING.hex()}",
            "draw is1 65536",
            "tick 4",
            "up os1",
            f"feed os1 {other.hex()}",
            "tick 5",
            f"case captured os1 14 {GREETING.hex()}",
            "draw os1 65536",
            "tick 6",
            "broken os1",
            "draw is1 65536",
            "draw os1 65536",
            "state",
        ])

    def test_what_is_missing(self):
        made = Made()
        out, _ = opening_of_a_client(made)
        out.down(PDUS[0], is_kept=False)
        out.down(PDUS[1])
        told = "co1, 10.0.0.2:80 > 10.0.0.1:40000, byte 155: 72 bytes are missing; nothing behind"
        script, said = self.script("client", made, 1)
        self.assertIn(told, said)
        self.assertNotIn(PDUS[1].hex(), script)

    def test_no_leg_of_the_role(self):
        made = Made()
        opening_of_a_client(made)
        self.check("server", made, [], "no connection is a leg of this role: server", 1)


class Played(Plain):
    """What the program answers to such scripts."""

    @classmethod
    def setUpClass(cls):
        # Builds the program where it isn't built.
        subprocess.run([TOOLS.parent / "rh_cli", "--version"], check=True, capture_output=True)

    def played(self, script):
        done = subprocess.run(
            [PROGRAM, "play"], input=script, capture_output=True, text=True, check=False
        )
        self.assertEqual((done.stderr, done.returncode), ("", 0))
        return done.stdout.split("\n")[:-1]

    def test_a_client_opens(self):
        made = Made()
        opening_of_a_client(made)
        told = self.played(self.script("client", made)[0])
        self.assertEqual([line for line in told if line.startswith(("feed", "state"))], [
            "feed co1 going", "feed co1 going", "feed co1 going", "state open"])
        # What it puts has the cookies of its own connection, and is as long.
        self.assertIn(f"draw co1 {198 + 76} ", " ".join(told))
        self.assertIn(f"draw ci1 {205 + 104} ", " ".join(told))

    def test_a_hostile_packet_to_a_client(self):
        made = Made()
        opening_of_a_client(made, bytes(BAD_FLAGS))
        told = self.played(self.script("client", made)[0])
        # Behind the head, CONN/A3 and CONN/C2, and 16 bytes of the packet.
        place = len(HEAD) + 28 + 44
        self.assertEqual(told[-1], f"state closed 4 BadPacket co1 {place} BadFlags 16")

    def test_the_example(self):
        script, said = self.script("client", EXAMPLE.read_bytes())
        self.assertEqual(said, "")
        told = self.played(script)
        self.assertEqual(told[-1], "state open")
        for role in "inproxy", "outproxy":
            told = self.played(self.script(role, EXAMPLE.read_bytes())[0])
            self.assertEqual(told[-1], "state opening")


    def ended(self, role, capture):
        """The last answer of a role that is fed what came to it in a capture."""
        script, said = self.script(role, capture)
        self.assertEqual(said, "")
        return self.played(script)[-1]

    def test_a_real_client(self):
        capture = REAL.read_bytes()
        # The captured client asked for 100 Continue; ours takes no answer to its IN request.
        self.assertEqual(self.ended("client", capture), "state closed 9 HttpRefused ci1 100")
        # The proxies take its heads, packets and PDUs, and then it ends its connections.
        self.assertEqual(self.ended("inproxy", capture), "state closed 2 LegEnded ci1 0")
        self.assertEqual(self.ended("outproxy", capture), "state closed 2 LegEnded co1 0")

    def test_a_real_client_with_a_hostile_packet(self):
        capture = REAL.read_bytes()
        place = capture.index(bytes.fromhex("050014031000000068"))
        hostile = capture[: place + 17] + b"\x80" + capture[place + 18 :]
        # Behind the 310 bytes of the head, and 16 of the packet.
        told = "state closed 4 BadPacket ci1 310 BadFlags 16"
        self.assertEqual(self.ended("inproxy", hostile), told)


class Frames(unittest.TestCase):
    """Frames as the file has them, and what segments carry."""

    FRAMES = [b"first", b"", b"the third"]

    def frames_of(self, text):
        with tempfile.TemporaryDirectory() as room:
            file = pathlib.Path(room) / "capture"
            file.write_bytes(text)
            return list(frames.frames_of(file))

    def block(self, order, kind, body):
        body += bytes(-len(body) % 4)
        size = struct.pack(f"{order}I", 12 + len(body))
        return struct.pack(f"{order}I", kind) + size + body + size

    def pcapng(self, order):
        yield self.block(order, 0x0A0D0D0A, struct.pack(f"{order}IHHq", 0x1A2B3C4D, 1, 0, -1))
        yield self.block(order, 1, struct.pack(f"{order}HHI", ETHERNET, 0, 65535))
        first, second, third = self.FRAMES
        head = struct.pack(f"{order}IIIII", 0, 0, 7, len(first), 99)
        yield self.block(order, 6, head + first)
        yield self.block(order, 2, struct.pack(f"{order}HHIIII", 0, 0, 0, 7, 0, 0) + second)
        yield self.block(order, 5, b"of statistics")
        yield self.block(order, 3, struct.pack(f"{order}I", len(third)) + third)

    def test_pcap(self):
        for order in "<>":
            text = struct.pack(f"{order}IHHiIII", 0xA1B23C4D, 2, 4, 0, 0, 65535, ETHERNET)
            for frame in self.FRAMES:
                text += struct.pack(f"{order}IIII", 0, 0, len(frame), 99) + frame
            self.assertEqual(self.frames_of(text), self.FRAMES)
            self.assertEqual(self.frames_of(gzip.compress(text)), self.FRAMES)
            self.assertEqual(self.frames_of(text[:-1]), self.FRAMES[:2])

    def test_pcapng(self):
        for order in "<>":
            text = b"".join(self.pcapng(order))
            self.assertEqual(self.frames_of(text), self.FRAMES)
            self.assertEqual(self.frames_of(text * 2), self.FRAMES * 2)
            self.assertEqual(self.frames_of(text[:-1]), self.FRAMES[:2])

    def test_what_is_neither(self):
        self.assertEqual(self.frames_of(b"no capture at all\n"), [])
        self.assertEqual(self.frames_of(b""), [])

    def test_what_a_segment_carries(self):
        header = b"portspqr"
        frame = b"before" + header + bytes(4) + b"\x60" + bytes(11) + b"carried" + b"pad"
        self.assertEqual(frames.payload_of(frame, header, 7, False), b"carried")
        self.assertEqual(frames.payload_of(frame[:-6], header, 7, True), b"carr")
        self.assertEqual(frames.payload_of(frame[:18], header, 7, True), b"")
        for wrong, length in (frame, 11), (frame[:18], 7), (frame[7:], 7):
            self.assertIsNone(frames.payload_of(wrong, header, length, False))
        self.assertIsNone(frames.payload_of(frame[7:], header, 7, True))


class WithoutTshark(Case):
    def test_no_tshark_is_told(self):
        command = [sys.executable, TOOLS / "pcap_packets.py", EXAMPLE]
        how = {"capture_output": True, "text": True, "check": False}
        done = subprocess.run(command, **how, env={"PATH": "/nowhere"})
        self.assertEqual((done.stdout, done.returncode), ("", 2))
        self.assertIn("tshark can't be run", done.stderr)


if __name__ == "__main__":
    unittest.main()
