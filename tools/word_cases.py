"""Texts that are given to the program's words, and what comes of each.

What is wanted is worked out by hand from docs/RECORDINGS.md, and never taken from the program.
"""

import audit_cases
import role_packets

# 24 bytes.
PDU = "05000003100000001800000001000000aabbccddeeff0011"
NOTHING = "up given 0 taken 0\ndown given 0 taken 0\n"


def pdu(length):
    """The PDU of so many bytes with call 1 whose body has the bytes 1, as hex digits."""
    head = bytes([5, 0, 0, 3, 16, 0, 0, 0, length & 255, length >> 8, 0, 0, 1, 0, 0, 0])
    return (head + bytes([1]) * (length - 16)).hex()


# ---- replay: texts, and their reports


def byte_by_byte():
    text = f"rh 1 direct\ngive c {PDU}\nsend cs u 100\n"
    wanted = "give c ok 24\nsend cs u 24\n"
    for byte in bytes.fromhex(PDU):
        text += "move cs u 1\n"
        wanted += f"move cs u 1 {byte:02x}\n"
    text += "take s\ntake s\n"
    wanted += f"take s pdu {PDU}\ntake s empty\nup given 1 taken 1\ndown given 0 taken 0\n"
    return text, wanted


GIVES = [
    (pdu(16), "ok 16"),
    (pdu(8192), "ok 8192"),
    (pdu(8193), "bad TooLong 8193"),
    ("05", "bad Cut 1"),
    ("050000031000000018000000010000", "bad Cut 15"),
    ("04000003100000001000000001000000", "bad Version 4"),
    ("05020003100000001000000001000000", "bad Minor 2"),
    ("05000003200000001000000001000000", "bad ByteOrder 32"),
    ("05000003100000000f00000001000000", "bad TooShort 15"),
    ("05000003100000000120000001000000", "bad TooLong 8193"),
    ("05001403100000001000000001000000", "bad Rts"),
    ("05000003100000001800000001000000", "bad Length 24 16"),
    ("0501000300000000001000000000000A", "ok 16"),
]


def gives():
    """A give each, in a recording of its own whose last line has no LF."""
    for digits, answer in GIVES:
        given = int(answer.startswith("ok"))
        wanted = f"give s {answer}\nup given 0 taken 0\ndown given {given} taken 0\n"
        yield f"rh 1 direct\ngive s {digits}", wanted


def full_queue():
    text = "rh 1 direct\n" + f"give c {pdu(8192)}\n" * 32
    text += f"give c {pdu(8192)}\ngive c {pdu(16)}\n"
    wanted = "give c ok 8192\n" * 32 + "give c full 262144 8192\ngive c full 262144 16\n"
    return text, wanted + "up given 32 taken 0\ndown given 0 taken 0\n"


TWO_PIECES = (
    f"rh 1 direct\ngive c {PDU}\nsend cs u 100\nmove cs u 20\ntake s\nmove cs u 100\n"
    "take s\ntake s\n",
    f"give c ok 24\nsend cs u 24\nmove cs u 20 {PDU[:40]}\ntake s empty\n"
    f"move cs u 4 {PDU[40:]}\ntake s pdu {PDU}\ntake s empty\n"
    "up given 1 taken 1\ndown given 0 taken 0\n",
)
# The same, where the end that gave takes last.
AT_THE_OTHER_END = (
    TWO_PIECES[0].removesuffix("take s\n") + "take c\n",
    TWO_PIECES[1].replace(f"pdu {PDU}\ntake s empty", f"pdu {PDU}\ntake c empty"),
)
ROLES = (
    "rh 1 roles\nset same 1\nset cwin 8192\nopen ci1 same\nopen co1\nbreak co1\n"
    "take c\ntick 5\ntick 4\nsettle 1\n",
    "open ci1 same no\nopen co1 ok\nbreak co1 ok\nclosed c 1 LegBroken co1\n"
    "closed o1 1 LegBroken co1\ntake c closed 1 LegBroken co1\ntick 5 ok\ntick 4 no\n"
    "quiet 0\nup given 0 taken 0\ndown given 0 taken 0\nclient closed 1 LegBroken co1\n"
    "server opening in 1 out 1\n",
)
# Settings alone are answered by the last lines.
SETTINGS = ["rh 1 roles", "rh 1 roles\n", "rh 1 roles\nset keep 0\nset itime 120000"]
ALL_OPENING = f"{NOTHING}client opening in 1 out 1\nserver opening in 1 out 1\n"

REPLAYED = [
    byte_by_byte(),
    *gives(),
    full_queue(),
    TWO_PIECES,
    AT_THE_OTHER_END,
    ROLES,
    *((text, ALL_OPENING) for text in SETTINGS),
]

# ---- story: recordings, and what is told of them

TOLD = [
    # A PDU that comes in two pieces is told when it is whole.
    (
        f"""rh 1 direct
give c {PDU}
send cs u 24
move cs u 20
move cs u 20
take s
take s
""",
        """0 give c request call 1 length 24
0 send cs u 24
0 cs c>s request call 1 length 24
0 take s request call 1 length 24
0 take s empty
0 up given 1 taken 1
0 down given 0 taken 0
""",
    ),
    # Each line has the moment before it; a tick that is refused changes none. A move on a leg that
    # isn't up tells nothing.
    (
        """rh 1 roles
tick 5
tick 4
tick 7
send co1 u 1
move co1 u 1
""",
        """0 tick 5 ok
5 tick 4 no
5 tick 7 ok
7 send co1 u no
7 up given 0 taken 0
7 down given 0 taken 0
7 client opening in 1 out 1
7 server opening in 1 out 1
""",
    ),
    # Each round of a settling that did something is told where it begins. What a line asks for by
    # hand is of no round, and each settling counts its own.
    (
        """rh 1 roles
open co1
settle 1
open ci1
settle 2
""",
        """0 open co1 ok
0 round 1
0 open ci1 ok
0 co1 c>o RPC_OUT_DATA /rpc/rpcproxy.dll?server:593 HTTP/1.1
0 co1 c>o CONN/A1 virtual ..00000001 out ..00000003 window 65536
0 ci1 c>i RPC_IN_DATA /rpc/rpcproxy.dll?server:593 HTTP/1.1
0 ci1 c>i CONN/B1 virtual ..00000001 in ..00000004 lifetime 1073741824 keepalive 300000 group \
..00000002
0 spent 1
0 open ci1 no
0 round 1
0 open os1 ok
0 open is1 ok
0 co1 o>c HTTP/1.1 200 Success
0 co1 o>c CONN/A3 timeout 120000
0 os1 o>s CONN/A2 virtual ..00000001 out ..00000003 lifetime 1073741824 window 65536
0 os1 s>o ncacn_http/1.0
0 is1 i>s CONN/B2 virtual ..00000001 in ..00000004 window 65536 timeout 120000 group ..00000002
0 is1 s>i ncacn_http/1.0
0 is1 s>i CONN/B3 window 65536
0 round 2
0 os1 s>o CONN/C1 window 65536 timeout 120000
0 spent 2
0 up given 0 taken 0
0 down given 0 taken 0
0 client opening in 1 out 1
0 server open in 1 out 1
""",
    ),
    # A head is told by its first line. The packet behind it has its fields, and the last four bytes
    # of each cookie.
    (
        """rh 1 roles
open co1
send co1 u 65536
move co1 u 65536
""",
        """0 open co1 ok
0 send co1 u 274
0 co1 c>o RPC_OUT_DATA /rpc/rpcproxy.dll?server:593 HTTP/1.1
0 co1 c>o CONN/A1 virtual ..00000001 out ..00000003 window 65536
0 up given 0 taken 0
0 down given 0 taken 0
0 client opening in 1 out 1
0 server opening in 1 out 1
""",
    ),
]

# ---- story hex: the same, with the bytes of what is told by name

# The head of the client for its OUT channel, behind which 76 bytes come.
OUT_HEAD = role_packets.out_request(76).hex()
CONN_A1_OF_ROLES = (
    "05001403100000004c0000000000000000000400060000000100000003000000000000000000000000000000"
    "0000000103000000000000000000000000000000000000030000000000000100"
)
TOLD_IN_HEX = [
    (
        f"rh 1 direct\ngive c {PDU}\nsend cs u 24\nmove cs u 20\nmove cs u 20\ntake s\ntake s\n",
        f"""0 give c request call 1 length 24 {PDU}
0 send cs u 24
0 cs c>s request call 1 length 24 {PDU}
0 take s request call 1 length 24 {PDU}
0 take s empty
0 up given 1 taken 1
0 down given 0 taken 0
""",
    ),
    (
        "rh 1 roles\nopen co1\nsend co1 u 65536\nmove co1 u 65536\n",
        f"""0 open co1 ok
0 send co1 u 274
0 co1 c>o RPC_OUT_DATA /rpc/rpcproxy.dll?server:593 HTTP/1.1 {OUT_HEAD}
0 co1 c>o CONN/A1 virtual ..00000001 out ..00000003 window 65536 {CONN_A1_OF_ROLES}
0 up given 0 taken 0
0 down given 0 taken 0
0 client opening in 1 out 1
0 server opening in 1 out 1
""",
    ),
]

# ---- replay: texts just outside the grammar, by the number of the first such line

HEADERS = [
    "",
    "\n",
    "rh 1 roles ",
    "rh 1 role",
    "rh 2 1",
    "rh 1",
    "rh 1 direct ",
    " rh 1 direct",
    "rh  1 direct",
    "rh 01 direct",
    "RH 1 direct",
    "rh 1 direct\r",
    "take c\nrh 1 direct\n",
]
LINES = [
    "",
    " ",
    "rh 1 direct",
    "take",
    "take ",
    "take x",
    "take C",
    "take  c",
    "take c ",
    " take c",
    "take\tc",
    "take c\r",
    "take c s",
    "taken c",
    "give",
    "give c",
    "give c ",
    "give x 05",
    "give c 5",
    "give c 050",
    "give c 0g",
    "give c 05 00",
    "give c  05",
    "give c 05 ",
    "give 05",
    "send cs u",
    "send cs u ",
    "send cs u 0",
    "send cs u 01",
    "send cs u +1",
    "send cs u -1",
    "send cs u 65537",
    "send cs u 1 ",
    "send cs x 1",
    "send co1 u 1",
    "send cs u 1a",
    "move cs d 0",
    "move cs d 100000",
    "move  cs d 1",
    "settle 1",
]
# Settings that stand where none may, or are out of range.
MISPLACED = [
    "rh 1 roles\ntake c\nset same 1\n",
    "rh 1 roles\nset same 1\nset same 1\n",
    "rh 1 roles\nset cwin 8192\nset iwin 8191\n",
    "rh 1 direct\ntake c\nset same 1\n",
]


def bad_replays():
    yield from ((text, 1) for text in HEADERS)
    for before, line in enumerate(LINES):
        yield "rh 1 direct\n" + "take s\n" * before + f"{line}\ntake x\n", before + 2
    yield from ((text, 3) for text in MISPLACED)
    yield "rh 1 direct\ntake x\n", 2
    yield "rh 1 direct\ntake s\ntake x\n", 3


# ---- show: lines of hex, and what they are told as

SHOWN = [
    # CONN/A1 and CONN/B1
    (
        CONN_A1_OF_ROLES,
        "rts 0000 Version 1 Cookie 00000000-0000-0000-0000-000000000001 "
        "Cookie 00000000-0000-0000-0000-000000000003 ReceiveWindowSize 65536",
    ),
    (
        "0500140310000000680000000000000000000600060000000100000003000000000000000000000000000000"
        "000000010300000000000000000000000000000000000004040000000000004005000000e09304000c000000"
        "00000000000000000000000000000002",
        "rts 0000 Version 1 Cookie 00000000-0000-0000-0000-000000000001 "
        "Cookie 00000000-0000-0000-0000-000000000004 ChannelLifetime 1073741824 "
        "ClientKeepalive 300000 AssociationGroupId 00000000-0000-0000-0000-000000000002",
    ),
    # a packet that is cut, bytes behind the last command, a bit that is no flag
    ("050014031000000018000000000000000000020007000000", "fault CutShort 24"),
    ("05001403100000001c00000000000000000001000700000000000000", "fault Left 24"),
    ("0500140310000000140000000000000080000000", "fault BadFlags 16"),
    # the padding of an address
    (
        "05001403100000002c00000000000000000001000b000000000000007f0000010102030405060708090a0b0c",
        "rts 0000 ClientAddress 0 7f000001 0102030405060708090a0b0c",
    ),
    # headers whose integers have their greatest byte first, and their least one
    ("0500000300000000001400000000000101020304", "rpc 0 20 1"),
    ("0500000310000000140000000100000001020304", "rpc 0 20 1"),
    # each kind of command
    (
        "05001403100000001c000000000000000000010000000000ffffffff",
        "rts 0000 ReceiveWindowSize 4294967295",
    ),
    (
        "0500140310000000300000000000000002000100010000000100000000000100"
        "00112233445566778899aabbccddeeff",
        "rts 0002 FlowControlAck 1 65536 00112233-4455-6677-8899-aabbccddeeff",
    ),
    (
        "05001403100000001c000000000000000000010002000000c0d40100",
        "rts 0000 ConnectionTimeout 120000",
    ),
    (
        "0500140310000000280000000000000000000100030000000123456789abcdef0123456789abcdef",
        "rts 0000 Cookie 01234567-89ab-cdef-0123-456789abcdef",
    ),
    (
        "05001403100000001c00000000000000040001000400000000000200",
        "rts 0004 ChannelLifetime 131072",
    ),
    (
        "05001403100000001c000000000000007f00010005000000e0930400",
        "rts 007f ClientKeepalive 300000",
    ),
    ("05001403100000001c00000000000000000001000600000001000000", "rts 0000 Version 1"),
    ("050014031000000018000000000000000000010007000000", "rts 0000 Empty"),
    ("05001403100000001c00000000000000000001000800000000000000", "rts 0000 Padding -"),
    ("05001403100000001f00000000000000000001000800000003000000c0ffee", "rts 0000 Padding c0ffee"),
    ("050014031000000018000000000000000000010009000000", "rts 0000 NegativeANCE"),
    ("05001403100000001800000000000000000001000a000000", "rts 0000 ANCE"),
    (
        "05001403100000003800000000000000000001000b00000001000000"
        "20010db80000000000000000000000010c0b0a090807060504030201",
        "rts 0000 ClientAddress 1 20010db8000000000000000000000001 0c0b0a090807060504030201",
    ),
    (
        "05001403100000002800000000000000000001000c000000fedcba9876543210fedcba9876543210",
        "rts 0000 AssociationGroupId fedcba98-7654-3210-fedc-ba9876543210",
    ),
    ("05001403100000001c00000000000000010001000d00000003000000", "rts 0001 Destination 3"),
    (
        "05001403100000001c00000000000000200001000e00000000040000",
        "rts 0020 PingTrafficSentNotify 1024",
    ),
    # each kind of fault of an RTS packet, and of another PDU
    ("0500140310000000140000000000010000000000", "fault BadHeader 14"),
    ("0500140310000000150000000000000000000000", "fault BadLength 8"),
    ("0500140310000000140000000000000000010000", "fault BadFlags 16"),
    ("05001403100000001000000000000000", "fault CutShort 16"),
    ("05001403100000001800000000000000000001000f000000", "fault BadType 20"),
    (
        "05001403100000001c00000000000000000001000b00000002000000",
        "fault BadAddressType 24",
    ),
    ("05001403100000001c00000000000000000001000800000000000100", "fault BadCount 24"),
    ("050014031000000014000000000000000000000000", "fault BadLength 8"),
    ("050014031000000015000000000000000000000000", "fault Left 20"),
    ("ff", "fault Cut 1"),
    ("FFff", "fault Cut 2"),
    ("050014031000000014000000000000", "fault Cut 15"),
    ("04000003100000001000000001000000", "fault Version 4"),
    ("05020003100000001000000001000000", "fault Minor 2"),
    ("05000003200000001000000001000000", "fault ByteOrder 32"),
    ("05000003100000000f00000001000000", "fault TooShort 15"),
    ("05000003100000000120000001000000", "fault TooLong 8193"),
    ("05000003100000001800000001000000", "fault Length 24 16"),
    # as many bytes as a line may have
    ("0" * 131_070, "fault Version 0"),
]


def shown():
    text = "".join(f"{line}\n" for line, _ in SHOWN)
    wanted = "".join(f"{told}\n" for _, told in SHOWN)
    yield text, wanted
    # the same digits in upper case, and the last line without its LF
    yield text.upper().removesuffix("\n"), wanted
    yield from ((line, f"{told}\n") for line, told in SHOWN)
    yield "", ""


NO_HEX = [
    "",
    " ",
    "0",
    "050",
    "0g",
    "05 ",
    " 05",
    "05\r",
    "0x05",
    "05 00",
    "05:00",
    "\t0a",
    "05,",
    "0" * 131_072,
]


def bad_shows():
    for line in NO_HEX:
        for front, number in ("", 1), ("05\n", 2), ("05\nAb\naB\n", 4):
            yield f"{front}{line}\nxx\n", number
    yield "05\n0\n", 2


# ---- name: lines of hex, with a leg in front or none. Each packet's name stands in test_base.

COOKIE = bytes(range(16)).hex()
GUID = "00010203-0405-0607-0809-0a0b0c0d0e0f (03020100-0504-0706-0809-0a0b0c0d0e0f)"
CONN_A1 = f"05001403100000004c00000000000000000004000600000001000000{f'03000000{COOKIE}' * 2}"
CONN_A1 += "0000000000000100"
CONN_C = "05001403100000002c00000000000000000003000600000001000000000000000000010002000000c0d40100"
# The greatest byte of each number first.
BIND = "05000b03000000000010000000000102"
NAMED = [
    (CONN_A1, f"CONN/A1 virtual {GUID} out {GUID} window 65536"),
    (f"cou {CONN_A1}", f"CONN/A1 virtual {GUID} out {GUID} window 65536"),
    (CONN_C, "CONN/C1 or CONN/C2 window 65536 timeout 120000"),
    (f"osd {CONN_C}", "CONN/C1 window 65536 timeout 120000"),
    (f"cod {CONN_C}", "CONN/C2 window 65536 timeout 120000"),
    (f"cou {CONN_C}", "unnamed 0000 Version 1 ReceiveWindowSize 65536 ConnectionTimeout 120000"),
    ("0500140310000000140000000000000001000000", "Ping"),
    (PDU, "request call 1 length 24 auth 0 flags 03 first_frag last_frag"),
    (f"isd {BIND}", "bind call 258 length 16 auth 0 flags 03 first_frag last_frag"),
    ("0500140310000000140000000000000080000000", "bad BadFlags 16"),
    ("ciu ff", "bad Cut 1"),
    # as many bytes as a line may have
    ("osu " + "0" * 131_070, "bad Version 0"),
]


def named():
    text = "".join(f"{line}\n" for line, _ in NAMED)
    wanted = "".join(f"{told}\n" for _, told in NAMED)
    yield text, wanted
    yield text.removesuffix("\n"), wanted
    yield from ((line, f"{told}\n") for line, told in NAMED)
    yield "", ""


NO_NAME = [
    "cid 05",
    "CIU 05",
    "co 05",
    "co1 05",
    "u 05",
    "ciu05",
    "ciu  05",
    "ciu\t05",
    "ciu",
    "ciu ",
    "ciu 0",
    "ciu 0g",
    "ciu 05 ",
    "ciu 05 05",
    "05 ciu",
    "ciu cou 05",
    "ciu " + "0" * 131_072,
]


def bad_names():
    for line in NO_HEX + NO_NAME:
        for front, number in ("", 1), ("05\n", 2), ("cou 05\nAb\nisd aB\n", 4):
            yield f"{front}{line}\nxx\n", number


# ---- play: scripts, and their answers. The roles' own cases are those of role_cases_*.py.

PLAYED = [
    ("", ""),
    ("# nothing is answered", ""),
    ("#\nstate\ntake\nclose\nwants co1\n", "none\nnone\nnone\nnone\n"),
    (
        "case one node\nclient\nstate\nchannels\ntarget\nfirst 05\nwants co1\nwants is1\nbroken co1\n"
        "state\ncase  another\ninproxy 7\nstate\ntarget\ngive 05\nwants co1",
        "case one node\nclient\nstate opening\nchannels in 1 out 1\nnone\nnone\nwants co1 yes\n"
        "wants is1 no\nbroken co1 closed 1 LegBroken co1\nstate closed 1 LegBroken co1\n"
        "case  another\ninproxy 7\nstate opening\ntarget none\nnone\nwants co1 no\n",
    ),
    (
        "set cwin 8192\nclient\ngive 05\ngive 05000003100000001000000001000000\nrecycle\n",
        "client\ngive c bad Cut 1\ngive c ok 16\nrecycle in notopen\n",
    ),
]
NO_SCRIPT = [
    "",
    " ",
    "Client",
    "client 1",
    "server ",
    "inproxy",
    "inproxy 0",
    "inproxy 01",
    "outproxy 4294967296",
    "case",
    "case ä",
    "set cwin 8191",
    "set Cwin 8192",
    "up co1 03",
    "up co1 0000000000000000000000000000000003",
    "up cs",
    "feed co1",
    "feed co1 ",
    "feed co1 5",
    "feed co0 05",
    "each co1 0g",
    "draw co1 0",
    "draw co1 65537",
    "tick -1",
    "tick 9223372036854775808",
    "give",
    "take c",
    "state ",
    "rh 1 roles",
]


def bad_plays():
    for before, line in enumerate(NO_SCRIPT):
        yield "state\n" * before + f"{line}\nno\n", before + 1


ANSWERED = {
    "replay": REPLAYED,
    "story": TOLD,
    "story hex": TOLD_IN_HEX,
    "show": list(shown()),
    "name": list(named()),
    "play": PLAYED,
    "audit": audit_cases.AUDITED,
    "capture": audit_cases.CAPTURED,
}
REFUSED = {
    "replay": list(bad_replays()),
    "story": list(bad_replays()),
    "story hex": list(bad_replays()),
    "show": list(bad_shows()),
    "name": list(bad_names()),
    "play": list(bad_plays()),
    "audit": list(audit_cases.bad_audits()),
    "capture": list(audit_cases.bad_captures()),
}
