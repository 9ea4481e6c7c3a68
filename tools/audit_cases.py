"""Texts that are given to the words `audit` and `capture`, and what comes of each.

What is wanted is worked out by hand from docs/RECORDINGS.md, and never taken from the program.
"""
from role_packets import GREETING, Named, in_request, out_request, pdu, response

CONNECTION, GROUP, ADDRESS = bytes([1]) * 16, bytes([2]) * 16, bytes([10, 0, 0, 1])
# The cookies of an IN channel, of its successor, and of an OUT channel.
INBOUND, NEXT, OUTBOUND, OTHER = (bytes([number]) * 16 for number in (3, 4, 5, 6))
USUAL = 1_073_741_824
FIRST, SECOND, THIRD = (pdu(72, call) for call in (1, 2, 3))

CIU = in_request(USUAL) + Named.ConnB1(1, CONNECTION, INBOUND, USUAL, 300_000, GROUP)
ISU = Named.ConnB2(1, CONNECTION, INBOUND, 65_536, 120_000, GROUP, ADDRESS)
COU = out_request(76) + Named.ConnA1(1, CONNECTION, OUTBOUND, 65_536)
COD = response(USUAL) + Named.ConnA3(120_000)
OSU = Named.ConnA2(1, CONNECTION, OUTBOUND, USUAL, 65_536)
OSD = GREETING + Named.ConnC1(1, 65_536, 120_000)
# The legs of an IN channel that is replaced, and of the one that replaces it.
CIU_MARKED = CIU + FIRST + Named.InR1A5(NEXT)
CIU_NEXT = in_request(USUAL) + Named.InR1A1(1, CONNECTION, INBOUND, NEXT)
ISU_MARKED = ISU + FIRST + Named.InR1A6(NEXT)
ISU_NEXT = Named.InR1A2(1, CONNECTION, INBOUND, NEXT, 65_536, 120_000)


def text(*lines):
    """A capture with these lines."""
    return "cap 1\n" + "".join(f"seen {tag} {pipe} {data.hex()}\n" for tag, pipe, data in lines)


def told(up, down="yes 0 0", faults=()):
    return "".join(f"{line}\n" for line in (*faults, f"up {up}", f"down {down}"))


def byte_by_byte(*lines):
    """The same bytes, one a line."""
    return [(tag, pipe, bytes([byte])) for tag, pipe, data in lines for byte in data]


UPWARD = (1, "ciu", CIU + FIRST), (2, "isu", ISU + FIRST)
DOWNWARD = (
    (1, "cou", COU),
    (1, "cod", COD + FIRST),
    (2, "osu", OSU),
    (2, "osd", OSD + FIRST + SECOND),
)
REPLACED = (
    (1, "ciu", CIU_MARKED),
    (2, "isu", ISU_MARKED),
    (3, "ciu", CIU_NEXT + SECOND),
    (4, "isu", ISU_NEXT + SECOND),
)
AUDITED = [
    ("cap 1", told("yes 0 0")),
    (text(*UPWARD), told("yes 1 1")),
    (text(*byte_by_byte(*UPWARD)), told("yes 1 1")),
    (text((1, "ciu", CIU + FIRST), (2, "isu", ISU + SECOND)), told("no 0")),
    (text((1, "ciu", CIU + FIRST + SECOND), (2, "isu", ISU + SECOND)), told("no 0")),
    (text((1, "ciu", CIU + FIRST + SECOND), (2, "isu", ISU + FIRST + FIRST)), told("no 1")),
    (text((1, "ciu", CIU + FIRST + SECOND), (2, "isu", ISU + SECOND + FIRST)), told("no 0")),
    (text((1, "ciu", CIU + FIRST), (2, "isu", ISU + FIRST + SECOND)), told("no 1")),
    (text((1, "ciu", CIU + FIRST + SECOND), (2, "isu", ISU + FIRST)), told("yes 1 2")),
    # A part of a PDU is none.
    (text((1, "ciu", CIU + FIRST), (2, "isu", ISU + FIRST[:71])), told("yes 0 1")),
    # Acknowledgements and pings stand between PDUs, and are none.
    (text((1, "ciu", CIU + Named.Ping + FIRST), (2, "isu", ISU + FIRST)), told("yes 1 1")),
    (text(*DOWNWARD), told("yes 0 0", "yes 1 2")),
    (text(*reversed(DOWNWARD)), told("yes 0 0", "yes 1 2")),
    (text(*UPWARD, *((tag + 7, *rest) for tag, *rest in DOWNWARD)), told("yes 1 1", "yes 1 2")),
    (text(*REPLACED), told("yes 2 2")),
    # Without its mark a leg is the last that counts.
    (text((1, "ciu", CIU + FIRST), *REPLACED[1:]), told("no 1")),
    # The successor of a channel that isn't there.
    (text((2, "isu", ISU_NEXT)), told("yes 0 0", faults=["unchained 2"])),
    # Places of what breaks a stream.
    (text((9, "osd", b"ncacn_http/1.1")), told("yes 0 0", faults=["broken 9 osd 0"])),
    (
        text((1, "ciu", CIU + b"\4" * 16), (2, "isu", FIRST)),
        told("yes 0 0", faults=[f"broken 1 ciu {len(CIU)}", "broken 2 isu 0"]),
    ),
    (
        text((2, "ciu", CIU + FIRST + Named.ConnC2(1, 65_536, 120_000)), (1, "isu", ISU_NEXT)),
        told("yes 0 1", faults=[f"broken 2 ciu {len(CIU) + 72}", "unchained 1"]),
    ),
    # The greatest tag, and hex of either case.
    (f"cap 1\nseen 18446744073709551615 osd {b'ncac'.hex().upper()}", told("yes 0 0")),
]
NO_LINES = [
    "",
    "cap 1",
    "seen",
    "seen 0 ciu 05",
    "seen 01 ciu 05",
    "seen 18446744073709551616 ciu 05",
    "seen 1 isd 05",
    "seen 1 cid 05",
    "seen 1 CIU 05",
    "seen 1 ciu",
    "seen 1 ciu ",
    "seen 1 ciu 0",
    "seen 1 ciu 0g",
    "seen  1 ciu 05",
    " seen 1 ciu 05",
    "seen 1 ciu 05 ",
    "Seen 1 ciu 05",
    f"seen 1 ciu {'05' * 65_537}",
]
NO_FIRST_LINES = ["", "cap", "cap 2", "cap 1 ", "Cap 1", "seen 1 ciu 05", "rh 1 roles"]
# The second of these lines has another kind of leg than the first.
OTHER_KINDS = [("ciu", "cou"), ("cod", "ciu"), ("isu", "osu"), ("osd", "cod")]


def bad_audits():
    yield "", 1
    for line in NO_FIRST_LINES:
        yield f"{line}\nseen 1 ciu 05\n", 1
    for before, line in enumerate(NO_LINES):
        yield "cap 1\n" + "seen 2 osd 6e\n" * before + f"{line}\nseen 1 ciu 0\n", before + 2
    for one, other in OTHER_KINDS:
        yield f"cap 1\nseen 3 {one} 05\nseen 4 {other} 05\nseen 3 {other} 05\n", 4


# Up to 16 bytes of a request, which go on the first legs of both channels.
OPENED = "rh 1 roles\nopen co1\nopen ci1\nsend co1 u 5\nsend ci1 u 4\n"
CAPTURED = [
    ("rh 1 roles", "cap 1\n"),
    (OPENED, "cap 1\n"),
    (OPENED + "move ci1 u 3\nmove co1 u 9\nmove ci1 u 9\n",
     "cap 1\nseen 1 ciu 525043\nseen 2 cou 5250435f4f\nseen 1 ciu 5f\n"),
    # No bytes, a leg that isn't up, and a direction without a pipe.
    (OPENED + "move ci1 d 9\nmove is1 u 9\nmove co1 d 9\nmove co1 u 1\n",
     "cap 1\nseen 1 cou 52\n"),
]


def bad_captures():
    yield "", 1
    yield "rh 1 direct\n", 1
    yield "rh 1 direct\ntake s\n", 1
    yield "rh 2 roles\n", 1
    yield "cap 1\n", 1
    yield OPENED + "rh 1 roles\n", 6
    yield OPENED + "send cs u 1\n", 6
    yield "rh 1 roles\nset cwin 8192\nset cwin 8192\n", 3
