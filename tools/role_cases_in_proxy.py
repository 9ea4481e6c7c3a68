"""Cases of an in proxy: what it makes of what comes, told as steps."""
from role_packets import ECHO, GREETING, Named, head, in_request, pdu as any_pdu, refusal, response
from role_script import CI1, CI2, CI3, IS1, Cause, Node, closed, cookie

# The cookies of the connection, of its association group, of the OUT channel and the IN channel,
# of the successor of the IN channel, of another channel, and of none here.
CONNECTION, GROUP, OUT_CHANNEL, CHANNEL, SUCCESSOR, OTHER = (cookie(n) for n in range(1, 7))
STRANGE = cookie(9)
USUAL = 1_073_741_824
ADDRESS = bytes([127, 0, 0, 1])
WINDOW, TIMEOUT = 65_536, 120_000

# ---- the texts that come on legs

TARGET = "/rpc/rpcproxy.dll?server:593"
REQUEST = in_request(USUAL)
assert len(REQUEST) == 205
SHORT_REQUEST = head(f"RPC_IN_DATA {TARGET} HTTP/1.1", "Content-Length: 131072")
ECHO_REQUEST = head(f"RPC_IN_DATA {TARGET} HTTP/1.1", "Content-Length: 4")
NO_PATH = head("RPC_IN_DATA /rpc/other.dll?server:593 HTTP/1.1", f"Content-Length: {USUAL}")
NO_METHOD = head(f"RPC_OUT_DATA {TARGET} HTTP/1.1", "Content-Length: 76")
NO_HEAD = b"a" * 16_384
OTHER_GREETING = b"ncacn_http/1.1"
NO_FRAME = b"not a PDU at all"
ECHO_ANSWER = response(20) + ECHO

# ---- packets

CONN_B1 = Named.ConnB1(1, CONNECTION, CHANNEL, USUAL, 300_000, GROUP)
CONN_B2 = Named.ConnB2(1, CONNECTION, CHANNEL, WINDOW, TIMEOUT, GROUP, ADDRESS)
CONN_B3 = Named.ConnB3(65_536, 1)
IN_R1_A1 = Named.InR1A1(1, CONNECTION, CHANNEL, SUCCESSOR)
IN_R1_A5 = Named.InR1A5(SUCCESSOR)
IN_R1_A6 = Named.InR1A6(SUCCESSOR)
IN_R2_A2 = Named.InR2A2(SUCCESSOR)


def pdu(length):
    return any_pdu(length, call=1)


# ---- steps


def up(leg):
    return lambda node, how, verdict: node.up(leg)


def hears(leg, data):
    step = lambda node, how, verdict: node.feed(leg, data, verdict, how)
    step.is_event = True
    return step


def says(leg, packet):
    return hears(leg, packet)


def gets(leg, length):
    """An RPC PDU of so many bytes comes."""
    return hears(leg, pdu(length))


def draws(leg, count, *pieces):
    """So many bytes are drawn, which are these, and no more."""
    data = b"".join(pieces)
    assert len(data) == count, (len(data), count)
    return lambda node, how, verdict: node.draw(leg, 65_536, data)


def event(word, argument):
    step = lambda node, how, verdict: getattr(node, word)(argument, verdict)
    step.is_event = True
    return step


def ends(leg):
    return event("ended", leg)


def breaks(leg):
    return event("broken", leg)


def ticks(now):
    return event("tick", now)


# The request came on ci 1.
REQUESTED = [up(CI1), hears(CI1, REQUEST)]
TO_THE_SERVER = [
    says(CI1, CONN_B1),
    up(IS1),
    draws(IS1, 128, CONN_B2),
    hears(IS1, GREETING),
    says(IS1, CONN_B3),
]
# The is leg is up and its window told; a later ci leg is up; and its request came.
SERVED = REQUESTED + TO_THE_SERVER
LATER = SERVED + [up(CI2)]
FOLLOWED = LATER + [hears(CI2, REQUEST)]
SERVED_LEAST = SERVED[:-1] + [says(IS1, Named.ConnB3(8192, 1))]
GREETED = REQUESTED + [says(CI1, CONN_B1), up(IS1), hears(IS1, GREETING)]


class InProxy(Node):
    def __init__(self, script):
        super().__init__(script, "inproxy", 1)

    def play(self, steps, how="feed", verdict=None):
        """Makes the steps; the last event among them is answered with the verdict."""
        places = [i for i, step in enumerate(steps) if hasattr(step, "is_event")]
        for i, step in enumerate(steps):
            is_last = bool(places) and i == places[-1]
            step(self, how, verdict if is_last else None)


def stays(node):
    """A proxy that closed answers the same to all that comes."""
    node.feed(CI1, GREETING)
    node.ended(CI1)
    node.broken(IS1)
    node.tick(1_000_000)


def play(script, name, first, then, verdict=None):
    """A case, whole and byte by byte."""
    for how in ("feed", "each"):
        script.case(f"in proxy {name}, {how}")
        node = InProxy(script)
        node.play(first, how)
        node.play(then, how, verdict)
        if verdict and verdict.startswith("closed"):
            stays(node)


# ---- requests, and the answers to those that open no channel


def heads(script):
    cases = [
        (
            "an echo request",
            [up(CI1)],
            [hears(CI1, ECHO_REQUEST), draws(CI1, 95, ECHO_ANSWER), ticks(1)],
            "ended",
        ),
        (
            "a byte behind an echo request",
            [up(CI1)],
            [hears(CI1, ECHO_REQUEST), hears(CI1, NO_FRAME)],
            closed(Cause.BodyOver(CI1, 5, 4)),
        ),
        (
            "an echo request on a later leg",
            LATER,
            [hears(CI2, ECHO_REQUEST), draws(CI2, 95, ECHO_ANSWER), ticks(1)],
            "ended",
        ),
        (
            "a server that is not connected",
            REQUESTED,
            [
                says(CI1, CONN_B1),
                breaks(IS1),
                draws(CI1, 50, refusal("503 RPC Error: 6ba")),
            ],
            closed(Cause.LegBroken(IS1)),
        ),
        (
            "a request of another method",
            [up(CI1)],
            [hears(CI1, NO_METHOD), draws(CI1, 47, refusal("400 Bad Request"))],
            closed(Cause.BadHead(CI1, len(NO_METHOD), "Method")),
        ),
        (
            "a request of another path",
            LATER,
            [hears(CI2, NO_PATH), draws(CI2, 45, refusal("404 Not Found"))],
            closed(Cause.BadHead(CI2, len(NO_PATH), "Path")),
        ),
    ]
    for name, first, then, verdict in cases:
        play(script, f"heads: {name}", first, then, verdict)

    script.case("in proxy heads: an echo request names no server")
    node = InProxy(script)
    node.play([up(CI1), hears(CI1, ECHO_REQUEST)])
    node.draw(CI1, 95, ECHO_ANSWER)
    node.target("none")
    script.case("in proxy heads: the first request names the server")
    node = InProxy(script)
    node.target("none")
    node.play([up(CI1), hears(CI1, REQUEST)])
    node.target("server 593")


# ---- what no honest role puts

SHORT_LIFE = Named.ConnB1(1, CONNECTION, CHANNEL, 131_071, 300_000, GROUP)
STOPPED = REQUESTED + [says(CI1, CONN_B1)] + [gets(CI1, 8192) for _ in range(8)]


def hostile(script):
    cases = [
        ("IN_R1/A5 first", REQUESTED, [says(CI1, IN_R1_A5)], Cause.Unexpected(CI1, 205)),
        (
            "a lifetime below the least",
            REQUESTED,
            [says(CI1, SHORT_LIFE)],
            Cause.OutOfRange(CI1, 4, 131_071),
        ),
        (
            "another greeting",
            REQUESTED,
            [says(CI1, CONN_B1), up(IS1), hears(IS1, OTHER_GREETING)],
            Cause.Unexpected(IS1, 0),
        ),
        (
            "no blank line",
            [up(CI1)],
            [hears(CI1, NO_HEAD)],
            Cause.BadHead(CI1, 16_384, "TooLong"),
        ),
        (
            "a PDU past the edge",
            STOPPED,
            [gets(CI1, 16)],
            Cause.WindowExceeded(CI1, 65_552, 65_536),
        ),
        (
            "no frame",
            SERVED,
            [hears(IS1, NO_FRAME)],
            Cause.BadFrame(IS1, 50, f"Version {ord('n')}"),
        ),
    ]
    for name, first, then, cause in cases:
        play(script, f"hostile: {name}", first, then, closed(cause))

    script.case("in proxy hostile: the seventeenth packet to forward has no room")
    node = InProxy(script)
    node.play(SERVED)
    for value in range(100, 116):
        node.feed(CI1, Named.AckTo(3, 9, 8192, cookie(value)))
    last = Named.AckTo(3, 9, 8192, cookie(116))
    node.feed(CI1, last, closed(Cause.ControlFull(IS1)))


# ---- rows that are refused

END = says(CI1, Named.EndA1)
HANDED = says(CI1, IN_R1_A5)
ACK = says(CI1, Named.AckTo(3, 9, 8192, OUT_CHANNEL))
ACK_TO_CLIENT = says(CI1, Named.AckTo(0, 9, 8192, OUT_CHANNEL))
KEPT = says(CI1, Named.KeepAlive(0))
JOINS = says(CI2, IN_R1_A1)
OUT_R1_A7 = Named.OutR1A7(2, OTHER)

# A name, the first steps, those behind them, and the leg and place of what is unexpected.
UNEXPECTED = [
    ("a second CONN/B1", SERVED, [says(CI1, CONN_B1)], CI1, 309),
    ("IN_R1/A1 behind CONN/B1", SERVED, [says(CI1, IN_R1_A1)], CI1, 309),
    ("a PDU first", REQUESTED, [gets(CI1, 16)], CI1, 205),
    ("a PDU behind END/A1", SERVED, [END, gets(CI1, 16)], CI1, 333),
    ("a PDU behind IN_R1/A5", SERVED, [HANDED, gets(CI1, 16)], CI1, 349),
    ("AckTo first", REQUESTED, [ACK], CI1, 205),
    ("AckTo behind IN_R1/A5", SERVED, [HANDED, ACK], CI1, 349),
    ("AckTo 0", SERVED, [ACK_TO_CLIENT], CI1, 309),
    ("OUT_R1/A7 to 0", SERVED, [says(CI1, Named.OutR1A7(0, OTHER))], CI1, 309),
    ("KeepAlive behind IN_R1/A5", SERVED, [HANDED, KEPT], CI1, 349),
    ("a second END/A1", SERVED, [END, says(CI1, Named.EndA1)], CI1, 333),
    ("END/A1 behind IN_R1/A5", SERVED, [HANDED, END], CI1, 349),
    ("a second IN_R1/A5", SERVED, [HANDED, says(CI1, IN_R1_A5)], CI1, 349),
    # The first packet on ci 1 did not come, and then that on ci 2.
    ("OUT_R1/A7 first", REQUESTED, [says(CI1, OUT_R1_A7)], CI1, 205),
    ("KeepAlive first", REQUESTED, [KEPT], CI1, 205),
    ("OUT_R1/A7 first on ci 2", FOLLOWED, [says(CI2, OUT_R1_A7)], CI2, 205),
    # IN_R1/A5 came there.
    ("OUT_R1/A7 behind IN_R1/A5", SERVED, [HANDED, says(CI1, OUT_R1_A7)], CI1, 349),
    ("CONN/B1 on a later leg", FOLLOWED, [says(CI2, CONN_B1)], CI2, 205),
    ("a PDU first on a later leg", FOLLOWED, [gets(CI2, 16)], CI2, 205),
    ("a PDU on a later leg behind END/A1", FOLLOWED, [JOINS, END, gets(CI2, 16)], CI2, 293),
    ("END/A1 behind a PDU of a later leg", FOLLOWED, [JOINS, gets(CI2, 16), END], CI1, 309),
    # IN_R2/A2 was not put.
    ("IN_R1/A5 ahead of IN_R2/A2", FOLLOWED, [JOINS, HANDED], CI1, 309),
    ("a second CONN/B3", SERVED, [says(IS1, Named.ConnB3(8192, 1))], IS1, 50),
    ("IN_R1/B2 for CONN/B3", GREETED, [says(IS1, Named.InR1B2(8192))], IS1, 14),
    ("Ack ahead of CONN/B3", GREETED, [says(IS1, Named.Ack(0, 8192, CHANNEL))], IS1, 14),
    ("IN_R1/B1 ahead of IN_R1/A6", SERVED, [says(IS1, Named.InR1B1)], IS1, 50),
    ("a PDU of the server", SERVED, [gets(IS1, 16)], IS1, 50),
]

REFUSED = [
    (
        "another connection",
        FOLLOWED,
        [says(CI2, Named.InR1A1(1, STRANGE, CHANNEL, SUCCESSOR))],
        Cause.CookieMismatch(CI2, CONNECTION, STRANGE),
    ),
    (
        "another predecessor",
        FOLLOWED,
        [says(CI2, Named.InR1A1(1, CONNECTION, STRANGE, SUCCESSOR))],
        Cause.CookieMismatch(CI2, CHANNEL, STRANGE),
    ),
    (
        "another successor",
        FOLLOWED,
        [JOINS, draws(IS1, 40, IN_R2_A2), says(CI1, Named.InR1A5(STRANGE))],
        Cause.CookieMismatch(CI1, SUCCESSOR, STRANGE),
    ),
    (
        "another channel",
        SERVED,
        [says(IS1, Named.Ack(0, 8192, STRANGE))],
        Cause.CookieMismatch(IS1, CHANNEL, STRANGE),
    ),
    (
        "more is acknowledged than was sent",
        SERVED,
        [says(IS1, Named.Ack(1, 8192, CHANNEL))],
        Cause.OutOfRange(IS1, 1, 1),
    ),
    ("the server's leg ends", SERVED, [ends(IS1)], Cause.LegEnded(IS1, 0)),
    ("the client's leg breaks", SERVED, [breaks(CI1)], Cause.LegBroken(CI1)),
]


def refused(script):
    for name, first, then, leg, place in UNEXPECTED:
        verdict = closed(Cause.Unexpected(leg, place))
        play(script, f"rows refused: {name}", first, then, verdict)
    for name, first, then, cause in REFUSED:
        play(script, f"rows refused: {name}", first, then, closed(cause))


# ---- rows that are taken

NEW_SUCCESSOR = Named.InR1A1(1, CONNECTION, OUT_CHANNEL, SUCCESSOR)
REPLACED = REQUESTED + [
    says(CI1, NEW_SUCCESSOR),
    up(IS1),
    draws(IS1, 104, Named.InR1A2(1, CONNECTION, OUT_CHANNEL, SUCCESSOR, WINDOW, TIMEOUT)),
    hears(IS1, GREETING),
]

TAKEN = [
    ("CONN/B1", REQUESTED, [says(CI1, CONN_B1)], None),
    ("IN_R1/A1", REQUESTED, [says(CI1, NEW_SUCCESSOR)], None),
    # An RPC PDU, and with its release an acknowledgement is not yet due.
    ("a PDU", SERVED, [gets(CI1, 100), draws(IS1, 100, pdu(100))], None),
    # Half the window is released, and so it is due, with 56 bytes.
    (
        "half the window",
        SERVED,
        [gets(CI1, 8192) for _ in range(4)]
        + [draws(IS1, 32_824, pdu(8192) * 4, Named.AckTo(0, 32_768, WINDOW, CHANNEL))],
        None,
    ),
    (
        "AckTo and OUT_R1/A7",
        SERVED,
        [
            says(CI1, Named.AckTo(3, 9, 8192, OUT_CHANNEL)),
            says(CI1, Named.AckTo(3, 10, 8192, OUT_CHANNEL)),
            says(CI1, OUT_R1_A7),
            draws(IS1, 104, Named.AckTo(3, 10, 8192, OUT_CHANNEL), Named.OutR1A8(2, OTHER)),
        ],
        None,
    ),
    ("KeepAlive", SERVED, [says(CI1, Named.KeepAlive(0))], None),
    ("END/A1", SERVED, [says(CI1, Named.EndA1), draws(IS1, 24, Named.EndA2)], None),
    (
        "END/A1 and IN_R1/A5",
        SERVED,
        [
            gets(CI1, 100),
            says(CI1, Named.EndA1),
            says(CI1, IN_R1_A5),
            draws(IS1, 164, pdu(100), Named.EndA2, IN_R1_A6),
            ends(CI1),
        ],
        None,
    ),
    ("IN_R1/A1 on a later leg", FOLLOWED, [JOINS, draws(IS1, 40, IN_R2_A2)], None),
    # The window of the server holds the second PDU back, until it is acknowledged.
    (
        "Ack",
        SERVED_LEAST,
        [
            gets(CI1, 8192),
            gets(CI1, 16),
            draws(IS1, 8192, pdu(8192)),
            says(IS1, Named.Ack(8192, 8192, CHANNEL)),
            draws(IS1, 16, pdu(16)),
        ],
        None,
    ),
    ("IN_R1/B2", REPLACED, [says(IS1, Named.InR1B2(8192))], None),
    (
        "IN_R1/B1",
        SERVED_LEAST,
        [says(CI1, IN_R1_A5), draws(IS1, 40, IN_R1_A6), says(IS1, Named.InR1B1)],
        "ended",
    ),
]


def taken(script):
    for name, first, then, verdict in TAKEN:
        play(script, f"rows taken: {name}", first, then, verdict)


# ---- replacement, and the end of the proxy

ORDERS = [
    # IN_R2/A2 goes at once, and what comes on the later leg waits for IN_R1/A5.
    (
        "the later leg waits",
        [
            JOINS,
            draws(IS1, 40, IN_R2_A2),
            gets(CI2, 100),
            draws(IS1, 0),
            gets(CI1, 100),
            says(CI1, IN_R1_A5),
            draws(IS1, 200, pdu(100), pdu(100)),
        ],
        None,
        FOLLOWED,
    ),
    # IN_R2/A2 goes behind what waited before it, and IN_R1/A6 behind all PDUs and END.
    (
        "marks go behind PDUs",
        [
            says(CI1, Named.AckTo(3, 1, 8192, OUT_CHANNEL)),
            JOINS,
            draws(IS1, 96, Named.AckTo(3, 1, 8192, OUT_CHANNEL), IN_R2_A2),
            gets(CI2, 16),
            says(CI2, Named.EndA1),
            says(CI2, Named.InR1A5(OTHER)),
            ends(CI2),
            draws(IS1, 0),
            says(CI1, IN_R1_A5),
            draws(IS1, 80, pdu(16), Named.EndA2, Named.InR1A6(OTHER)),
            says(IS1, Named.InR1B1),
        ],
        "ended",
        FOLLOWED,
    ),
    # END of a leg that is done with before END/A2 went waits for that of the next one.
    (
        "END waits for that of the next leg",
        [
            JOINS,
            draws(IS1, 40, IN_R2_A2),
            says(CI1, Named.EndA1),
            says(CI1, IN_R1_A5),
            draws(IS1, 0),
            says(CI2, Named.EndA1),
            ends(CI2),
            draws(IS1, 24, Named.EndA2),
            ticks(0),
        ],
        "ended",
        FOLLOWED,
    ),
    # The newest leg ends behind END/A1.
    (
        "the newest leg ends behind END/A1",
        [
            gets(CI1, 100),
            says(CI1, Named.EndA1),
            ends(CI1),
            draws(IS1, 124, pdu(100), Named.EndA2),
            ticks(0),
        ],
        "ended",
        SERVED,
    ),
]

HANDS_OVER = [JOINS, draws(IS1, 40, IN_R2_A2), says(CI1, IN_R1_A5)]


def replacement(script):
    for name, then, verdict, first in ORDERS:
        play(script, f"replacement: {name}", first, then, verdict)

    script.case("in proxy replacement: a later leg comes up in its turn")
    node = InProxy(script)
    node.may(CI2, False)
    node.play(SERVED)
    node.may(CI1, False)
    node.may(CI3, False)
    node.may(CI2)
    node.up(CI2)
    node.may(CI3, False)

    for name, request, may in (("short", SHORT_REQUEST, True), ("usual", REQUEST, False)):
        script.case(f"in proxy replacement: the lengths of requests are bounded, {name}")
        node = InProxy(script)
        node.play([up(CI1), hears(CI1, request)] + TO_THE_SERVER)
        node.play([up(CI2), hears(CI2, request)] + HANDS_OVER)
        node.finished(CI1)
        node.may(CI3, may)

    script.case("in proxy replacement: no later leg comes up behind IN_R1/A5")
    node = InProxy(script)
    node.play(SERVED + [says(CI1, IN_R1_A5)])
    node.may(CI2, False)


# ---- idle times, and the keepalive


def time(script):
    cases = [
        ("silence", SERVED, [ticks(120_000)], closed(Cause.Silent(CI1, 0, 120_000))),
        ("silence behind IN_R1/A5", SERVED, [says(CI1, IN_R1_A5), ticks(120_000)], None),
        (
            "silence of a later leg",
            FOLLOWED,
            [JOINS, ticks(100_000), says(CI1, Named.KeepAlive(0)), ticks(120_000)],
            closed(Cause.Silent(CI2, 0, 120_000)),
        ),
        (
            "a Ping is due behind the keepalive",
            SERVED,
            [
                says(CI1, Named.KeepAlive(60_000)),
                ticks(59_999),
                draws(IS1, 0),
                ticks(60_000),
                draws(IS1, 20, Named.Ping),
            ],
            None,
        ),
    ]
    for name, first, then, verdict in cases:
        play(script, f"time: {name}", first, then, verdict)


    script.case("in proxy time: a silent leg closes it for good")
    node = InProxy(script)
    node.play(SERVED)
    node.tick(119_999)
    verdict = closed(Cause.Silent(CI1, 0, 120_000))
    node.tick(120_000, verdict)
    node.feed(CI1, pdu(16))
    node.feed(IS1, Named.ConnB3(8192, 1))
    node.ended(CI1)
    node.broken(IS1)
    node.finished(IS1)
    node.finished(CI1)
    node.state()


def write(script):
    heads(script)
    hostile(script)
    refused(script)
    taken(script)
    replacement(script)
    time(script)
