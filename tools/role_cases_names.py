"""Cases of the names of packets among bytes that are drawn.

Packets are called as MS-RPCH 2.2.4 does, and other PDUs as C706 12.6.3.1; the words are those of
docs/RECORDINGS.md. A cookie stands once as its bytes and once as a GUID, whose first three fields
are numbers with the least byte first.
"""
from role_cases_client import CONNECTION, WINDOW, Client
from role_cases_server import conn_b2, half_open, pdu
from role_packets import GREETING, Named, out_request
from role_script import CO1, IS1, OS1

CHANNEL = bytes(range(1, 17))
CONN_A1 = (
    "CONN/A1 virtual 00000000-0000-0000-0000-000000000001 (00000000-0000-0000-0000-000000000001)"
    " out 01020304-0506-0708-090a-0b0c0d0e0f10 (04030201-0605-0807-090a-0b0c0d0e0f10) window 8192"
)
REQUEST = "request call 1 length 24 auth 0 flags 03 first_frag last_frag"


def behind_a_head(script):
    script.case("names: a packet behind a head")
    client = Client(script)
    client.names("on")
    client.up(CO1, CHANNEL)
    data = out_request(76) + Named.ConnA1(1, CONNECTION, CHANNEL, WINDOW)
    client.draw(CO1, 9000, data, CONN_A1)
    client.draw(CO1, 9000, b"")


def behind_a_greeting(script):
    script.case("names: by the leg and the direction, of whole packets alone, while they are on")
    server = half_open(script)
    server.feed(IS1, conn_b2())
    server.names("on")
    conn_c1 = Named.ConnC1(1, 65_536, 120_000)
    server.draw(OS1, 512, GREETING + conn_c1, "CONN/C1 window 65536 timeout 120000")
    server.give(pdu(24))
    server.give(pdu(24))
    server.draw(OS1, 512, pdu(24) + pdu(24), REQUEST, REQUEST)
    server.give(pdu(24))
    server.draw(OS1, 20, pdu(24)[:20])
    server.draw(OS1, 20, pdu(24)[20:])
    server.names("off")
    server.give(pdu(24))
    server.draw(OS1, 512, pdu(24))
    server.names("on")
    server.give(pdu(24))
    server.draw(OS1, 512, pdu(24), REQUEST)
    server.names("off")


def write(script):
    behind_a_head(script)
    behind_a_greeting(script)
