"""Cases of an out proxy: what comes on its legs, what it puts, and why it closes."""
from role_packets import ECHO, GREETING, Named, head, out_request, pdu as any_pdu, refusal, response
from role_script import CO1, OS1, Cause, Node, closed, cookie

# The cookies of the connection, of a new channel, of its successor, and of no channel here.
CONNECTION, CHANNEL, SUCCESSOR, OTHER = cookie(1), cookie(3), cookie(5), cookie(9)
USUAL = 1_073_741_824
WINDOW, TIMEOUT = 65_536, 120_000

ASKS_NEW = out_request(76)
ASKS_SUCCESSOR = out_request(120)
assert (len(ASKS_NEW), len(ASKS_SUCCESSOR)) == (198, 199)
RESPONSE = response(1_073_807_360)

CONN_A1 = Named.ConnA1(1, CONNECTION, CHANNEL, 65_536)
CONN_A2 = Named.ConnA2(1, CONNECTION, CHANNEL, USUAL, WINDOW)
CONN_A3 = Named.ConnA3(TIMEOUT)
CONN_C1 = Named.ConnC1(1, 65_536, 120_000)
CONN_C2 = Named.ConnC2(1, 65_536, 120_000)
OUT_R1_A3 = Named.OutR1A3(1, CONNECTION, CHANNEL, SUCCESSOR, 65_536)
OUT_R1_A4 = Named.OutR1A4(1, CONNECTION, CHANNEL, SUCCESSOR, USUAL, WINDOW, TIMEOUT)


def pdu(length):
    return any_pdu(length, call=1, ptype=2)


def ack_of(last):
    """An acknowledgement for the client, of another channel for each number."""
    return Named.AckTo(0, 0, 8192, bytes(14) + bytes([1, last]))


# ---- steps


def up(leg):
    return lambda node, how, verdict: node.up(leg)


def comes(leg, data):
    step = lambda node, how, verdict: node.feed(leg, data, verdict, how)
    step.is_event = True
    return step


def gets(leg, length):
    return comes(leg, pdu(length))


def acks(count):
    return [comes(OS1, ack_of(last)) for last in range(count)]


def draws(leg, most, count, *pieces):
    """Up to so many bytes are drawn, and so many come, which are these."""
    data = b"".join(pieces)
    assert len(data) == count, (len(data), count)
    return lambda node, how, verdict: node.draw(leg, most, data)


def puts(leg, data):
    """This packet is drawn."""
    return draws(leg, len(data), len(data), data)


def event(word, argument):
    step = lambda node, how, verdict: getattr(node, word)(argument, verdict)
    step.is_event = True
    return step


def ended(leg):
    return event("ended", leg)


def broken(leg):
    return event("broken", leg)


ASKED_NEW = [up(CO1), comes(CO1, ASKS_NEW)]
ASKED_SUCCESSOR = [up(CO1), comes(CO1, ASKS_SUCCESSOR)]
# A new channel, whose legs are both up; the same with CONN/C1; and all that goes first is drawn.
CONNECTED = ASKED_NEW + [comes(CO1, CONN_A1), up(OS1), comes(OS1, GREETING)]
CAME_C1 = CONNECTED + [comes(OS1, CONN_C1)]
JOINED = CAME_C1 + [
    draws(OS1, 200, 84, CONN_A2),
    draws(CO1, 200, 155, RESPONSE, CONN_A3, CONN_C2),
]
# A successor, whose legs are both up, and all that goes first is drawn.
ASKED_TO_FOLLOW = ASKED_SUCCESSOR + [comes(CO1, OUT_R1_A3)]
FOLLOWS_AT_ONCE = ASKED_TO_FOLLOW + [up(OS1), comes(OS1, GREETING)]
FOLLOWS = ASKED_TO_FOLLOW + [
    comes(CO1, Named.OutR2C1),
    up(OS1),
    comes(OS1, GREETING),
    draws(OS1, 200, 112, OUT_R1_A4),
    draws(CO1, 200, 83, RESPONSE),
]
CAME_END = FOLLOWS_AT_ONCE + [comes(OS1, Named.EndB1)]
CAME_A9 = FOLLOWS_AT_ONCE + [comes(OS1, Named.OutR1A9)]


class OutProxy(Node):
    def __init__(self, script):
        super().__init__(script, "outproxy", 1)

    def play(self, steps, how="feed", verdict=None):
        """Makes the steps; the last of them, an event, is answered with the verdict."""
        for i, step in enumerate(steps):
            is_last = i == len(steps) - 1 and hasattr(step, "is_event")
            step(self, how, verdict if is_last else None)


def play(script, name, first, then, state, verdict=None, cuts=("feed", "each")):
    """A case, whole and byte by byte, and the state behind it."""
    for how in cuts:
        script.case(f"out proxy {name}, {how}")
        node = OutProxy(script)
        node.play(first, how)
        node.play(then, how, verdict)
        node.state(state)
        yield node


def all_play(*case, **more):
    for _ in play(*case, **more):
        pass


# ---- windows, marks, ends and breaks, and Pings

# A client with the least window, and a PDU too much for it.
NARROW = ASKED_NEW + [
    comes(CO1, Named.ConnA1(1, CONNECTION, CHANNEL, 8_192)),
    up(OS1),
    comes(OS1, GREETING),
    comes(OS1, CONN_C1),
    draws(OS1, 200, 84, CONN_A2),
    draws(CO1, 200, 155, RESPONSE, CONN_A3, CONN_C2),
    gets(OS1, 8192),
    gets(OS1, 16),
    draws(CO1, 16_384, 8192, pdu(8192)),
    # END waits for the PDU that is held, and the window for an acknowledgement.
    comes(OS1, Named.EndB1),
    draws(CO1, 16_384, 0),
    comes(OS1, Named.AckTo(3, 8_192, 8_192, CHANNEL)),
    draws(CO1, 16_384, 16 + 24, pdu(16), Named.EndB2),
]
FOUR = [gets(OS1, 8192) for _ in range(4)]
BOTH = [draws(CO1, 16_384, 16_384, pdu(8192), pdu(8192)) for _ in range(2)]
# The proxy acknowledges what it put, once half its window is to be told; none is due behind END.
ACKNOWLEDGES = (
    FOUR + [draws(OS1, 200, 0)] + BOTH + [puts(OS1, Named.Ack(32_768, 65_536, CHANNEL))]
)
ACKNOWLEDGES_NO_MORE = FOUR + [comes(OS1, Named.EndB1)] + BOTH + [draws(OS1, 200, 0)]
# END, and then the handover mark, go behind the PDU: both legs are finished.
HANDS_OVER = [
    gets(OS1, 16),
    comes(OS1, Named.EndB1),
    comes(OS1, Named.OutR1A9),
    draws(CO1, 16, 16, pdu(16)),
    puts(CO1, Named.EndB2),
    puts(CO1, Named.OutR1A10),
    draws(CO1, 200, 0),
]
# Behind END/B2 the proxy goes on without its client, and drops what is to be forwarded.
CLIENT_LOST = (
    [comes(OS1, Named.EndB1), puts(CO1, Named.EndB2), broken(CO1)]
    + acks(20)
    + [draws(CO1, 200, 0)]
)
ENDS = comes(OS1, Named.EndB1)
PUT = draws(CO1, 200, 24, Named.EndB2)


def endings(script):
    all_play(script, "windows: a narrow one", NARROW, [], "open")
    all_play(script, "windows: an acknowledgement", JOINED, ACKNOWLEDGES, "open")
    all_play(script, "windows: none behind END", JOINED, ACKNOWLEDGES_NO_MORE, "open")
    all_play(script, "marks: END and the handover mark", FOLLOWS, HANDS_OVER, "ended")
    all_play(script, "marks: the client is lost behind END/B2", JOINED, CLIENT_LOST, "open")
    lost = [
        ("the client ends", [ended(CO1)], closed(Cause.LegEnded(CO1, 0))),
        ("the server breaks", [broken(OS1)], closed(Cause.LegBroken(OS1))),
        # END/B1 came, and END/B2 was not put.
        ("the server ends ahead of END/B2", [ENDS, ended(OS1)], closed(Cause.LegEnded(OS1, 0))),
        ("the client breaks ahead of END/B2", [ENDS, broken(CO1)], closed(Cause.LegBroken(CO1))),
        ("the server ends behind END/B2", [ENDS, PUT, ended(OS1)], "ended"),
        ("the client ends behind END/B2", [ENDS, PUT, ended(CO1)], "going"),
        ("both break behind END/B2", [ENDS, PUT, broken(CO1), broken(OS1)], "ended"),
    ]
    for name, steps, verdict in lost:
        state = "open" if verdict == "going" else verdict
        all_play(script, f"legs: {name}", JOINED, steps, state, verdict)

    script.case("out proxy: Pings go at half the timeout until their bytes are spent")
    node = OutProxy(script)
    node.play(JOINED)
    node.tick(59_999)
    node.draw(CO1, 200, b"")
    for count in range(1, 3_277):
        node.tick(60_000 * count)
        node.draw(CO1, 20, Named.Ping)
    node.tick(60_000 * 3_277)
    node.draw(CO1, 20, b"")
    # Silence of both legs closes nothing.
    node.state("open")
    node.draw(CO1, 200, b"")


# ---- heads

TARGET = "/rpc/rpcproxy.dll?server:593"
ASKS_ECHO = head(f"RPC_OUT_DATA {TARGET} HTTP/1.1", "Content-Length: 4")
NO_METHOD = head(f"GET {TARGET} HTTP/1.1", "Content-Length: 76")
NO_PATH = head("RPC_OUT_DATA /rpc?server:593 HTTP/1.1", "Content-Length: 76")


def heads(script):
    for how in ("feed", "each"):
        script.case(f"out proxy heads: an echo request is answered and no more, {how}")
        node = OutProxy(script)
        node.up(CO1)
        node.feed(CO1, ASKS_ECHO, how=how)
        node.target("none")
        # Its body is passed over.
        node.feed(CO1, bytes([1, 2, 3, 4]))
        node.wants(OS1, False)
        node.finished(CO1, False)
        node.draw(CO1, 200, response(20) + ECHO)
        node.state("ended")
        node.finished(CO1)

    refusals = [
        ("another method", NO_METHOD, "Method", "400 Bad Request"),
        ("another path", NO_PATH, "Path", "404 Not Found"),
    ]
    for name, text, fault, status in refusals:
        for how in ("feed", "each"):
            script.case(f"out proxy heads: {name} is refused by a head, {how}")
            node = OutProxy(script)
            node.up(CO1)
            node.feed(CO1, text, closed(Cause.BadHead(CO1, len(text), fault)), how)
            node.finished(CO1, False)
            node.draw(CO1, 200, refusal(status))
            node.finished(CO1)

    script.case("out proxy heads: a client is told that its server cannot be connected")
    node = OutProxy(script)
    node.play(ASKED_NEW)
    node.target("server 593")
    node.wants(OS1, False)
    node.feed(CO1, CONN_A1)
    node.wants(OS1)
    node.broken(OS1, closed(Cause.LegBroken(OS1)))
    node.draw(CO1, 200, refusal("503 RPC Error: 6ba"))
    script.case("out proxy heads: a client is told that its server is connected")
    node = OutProxy(script)
    node.play(ASKED_NEW + [comes(CO1, CONN_A1), up(OS1)])
    node.draw(CO1, 83, RESPONSE)


# ---- bytes that no honest client or server puts

NO_FLAG = bytes([5, 0, 20, 3, 0x10, 0, 0, 0, 20, 0, 0, 0, 0, 0, 0, 0, 0x80, 0, 0, 0])
VERSION_4 = bytes([4, 0, 2, 3, 0x10, 0, 0, 0, 16, 0, 0, 0, 1, 0, 0, 0])

HOSTILE = [
    (
        "OUT_R2/C1 comes first",
        ASKED_SUCCESSOR,
        [comes(CO1, Named.OutR2C1)],
        Cause.Unexpected(CO1, 199),
    ),
    (
        "the client's window is below the least",
        ASKED_NEW,
        [comes(CO1, Named.ConnA1(1, CONNECTION, CHANNEL, 8_191))],
        Cause.OutOfRange(CO1, 0, 8_191),
    ),
    (
        "another greeting",
        ASKED_NEW + [comes(CO1, CONN_A1), up(OS1)],
        [comes(OS1, b"ncacn_http/1.1")],
        Cause.Unexpected(OS1, 0),
    ),
    (
        "no blank line",
        [up(CO1)],
        [comes(CO1, b"a" * 16_384)],
        Cause.BadHead(CO1, 16_384, "TooLong"),
    ),
    (
        "more is acknowledged than was sent",
        JOINED,
        [comes(OS1, Named.AckTo(3, 1, 0, CHANNEL))],
        Cause.OutOfRange(OS1, 1, 1),
    ),
    ("a seventeenth packet to forward", JOINED, acks(17), Cause.ControlFull(CO1)),
    (
        "an acknowledgement of another channel",
        JOINED,
        [comes(OS1, Named.AckTo(3, 0, 65_536, OTHER))],
        Cause.CookieMismatch(OS1, CHANNEL, OTHER),
    ),
    # Of the PDUs past the proxy's own window none was put.
    (
        "PDUs past the proxy's own window",
        CONNECTED,
        [comes(OS1, CONN_C1)] + [gets(OS1, 8192) for _ in range(8)] + [gets(OS1, 16)],
        Cause.WindowExceeded(OS1, 65_552, 65_536),
    ),
    (
        "the server ends its leg within CONN/C1",
        CONNECTED,
        [comes(OS1, CONN_C1[:10]), ended(OS1)],
        Cause.LegEnded(OS1, 10),
    ),
    # OUT_R1/A3 behind a request for a new channel is longer than that told.
    ("OUT_R1/A3 for CONN/A1", ASKED_NEW, [comes(CO1, OUT_R1_A3)], Cause.BodyOver(CO1, 77, 76)),
    (
        "a byte behind the body of a request",
        JOINED,
        [comes(CO1, b"\x05")],
        Cause.BodyOver(CO1, 77, 76),
    ),
    ("a header of version 4", CONNECTED, [comes(OS1, VERSION_4)], Cause.BadFrame(OS1, 14, "Version 4")),
    (
        "a packet without commands that has an unknown flag",
        CONNECTED,
        [comes(OS1, NO_FLAG)],
        Cause.BadPacket(OS1, 14, "BadFlags 16"),
    ),
    (
        "an RPC PDU from the client",
        ASKED_SUCCESSOR,
        [comes(CO1, OUT_R1_A3), gets(CO1, 16)],
        Cause.Unexpected(CO1, 295),
    ),
]


def hostile(script):
    for name, first, then, cause in HOSTILE:
        for node in play(script, f"hostile: {name}", first, then, None, closed(cause)):
            node.feed(OS1, GREETING)
            node.ended(OS1)
            node.broken(CO1)
            node.tick(1_000_000)
            node.wants(OS1, False)
            node.finished(OS1)


# ---- rows

ACK_TO_CLIENT = Named.AckTo(0, 0, 8_192, OTHER)
ACK_TO_PROXY = Named.AckTo(3, 0, 8_192, CHANNEL)
ACK_TO_SUCCESSOR = Named.AckTo(3, 0, 8_192, SUCCESSOR)
IN_R1_A3 = Named.InR1A3(0, 1, 65_536, 120_000)
IN_R2_A3 = Named.InR2A3(0)
OUT_R1_A1 = Named.OutR1A1(0)
OUT_R1_A5 = Named.OutR1A5(0, 1, 120_000)

# A name, the beginning, a leg, the packet on it, and the state behind it.
TAKEN = [
    ("CONN/A1", ASKED_NEW, CO1, CONN_A1, "opening"),
    ("OUT_R1/A3", ASKED_SUCCESSOR, CO1, OUT_R1_A3, "opening"),
    ("OUT_R2/C1", ASKED_TO_FOLLOW, CO1, Named.OutR2C1, "opening"),
    ("CONN/C1", CONNECTED, OS1, CONN_C1, "open"),
    ("a PDU", JOINED, OS1, pdu(16), "open"),
    ("a PDU of a successor", FOLLOWS, OS1, pdu(16), "open"),
    ("AckTo 0", JOINED, OS1, ACK_TO_CLIENT, "open"),
    ("AckTo 3", JOINED, OS1, ACK_TO_PROXY, "open"),
    ("AckTo 3 of a successor", FOLLOWS, OS1, ACK_TO_SUCCESSOR, "open"),
    ("AckTo 3 behind OUT_R1/A9", CAME_A9, OS1, ACK_TO_SUCCESSOR, "open"),
    ("IN_R1/A3", JOINED, OS1, IN_R1_A3, "open"),
    ("IN_R2/A3", FOLLOWS, OS1, IN_R2_A3, "open"),
    ("OUT_R1/A1", JOINED, OS1, OUT_R1_A1, "open"),
    ("OUT_R1/A5 behind END/B1", CAME_END, OS1, OUT_R1_A5, "open"),
    ("END/B1", JOINED, OS1, Named.EndB1, "open"),
    ("OUT_R1/A9", FOLLOWS, OS1, Named.OutR1A9, "open"),
    ("OUT_R1/A9 behind END/B1", CAME_END, OS1, Named.OutR1A9, "open"),
]
REFUSED = [
    ("CONN/A1 for OUT_R1/A3", ASKED_SUCCESSOR, CO1, CONN_A1),
    ("OUT_R2/C1 first", ASKED_SUCCESSOR, CO1, Named.OutR2C1),
    ("CONN/C1 of a successor", FOLLOWS_AT_ONCE, OS1, CONN_C1),
    ("a second CONN/C1", CAME_C1, OS1, CONN_C1),
    ("a PDU ahead of CONN/C1", CONNECTED, OS1, pdu(16)),
    ("a PDU behind END/B1", CAME_END, OS1, pdu(16)),
    ("a PDU behind OUT_R1/A9", CAME_A9, OS1, pdu(16)),
    ("AckTo 0 ahead of CONN/C1", CONNECTED, OS1, ACK_TO_CLIENT),
    ("AckTo 0 behind OUT_R1/A9", CAME_A9, OS1, ACK_TO_CLIENT),
    # There is no out proxy 1.
    ("AckTo 1", CAME_C1, OS1, Named.AckTo(1, 0, 8_192, OTHER)),
    ("AckTo 3 ahead of CONN/C1", CONNECTED, OS1, ACK_TO_PROXY),
    ("IN_R1/A3 ahead of CONN/C1", CONNECTED, OS1, IN_R1_A3),
    ("IN_R1/A3 to 2", CAME_C1, OS1, Named.InR1A3(2, 1, 65_536, 120_000)),
    ("IN_R2/A3 behind OUT_R1/A9", CAME_A9, OS1, IN_R2_A3),
    ("OUT_R1/A1 ahead of CONN/C1", CONNECTED, OS1, OUT_R1_A1),
    ("OUT_R1/A5 behind OUT_R1/A9", CAME_A9, OS1, OUT_R1_A5),
    ("OUT_R1/A5 to 3", CAME_C1, OS1, Named.OutR1A5(3, 1, 120_000)),
    ("END/B1 ahead of CONN/C1", CONNECTED, OS1, Named.EndB1),
    ("a second END/B1", CAME_END, OS1, Named.EndB1),
    ("END/B1 behind OUT_R1/A9", CAME_A9, OS1, Named.EndB1),
    ("OUT_R1/A9 ahead of CONN/C1", CONNECTED, OS1, Named.OutR1A9),
    ("a second OUT_R1/A9", CAME_A9, OS1, Named.OutR1A9),
    # A packet of another leg has no name here.
    ("KeepAlive", CAME_C1, OS1, Named.KeepAlive(60_000)),
]


def rows(script):
    for name, first, leg, data, state in TAKEN:
        all_play(script, f"rows taken: {name}", first, [comes(leg, data)], state)
    for name, first, leg, data in REFUSED:
        for how in ("feed", "each"):
            script.case(f"out proxy rows refused: {name}, {how}")
            node = OutProxy(script)
            node.play(first, how)
            node.feed(leg, data, closed(Cause.Unexpected(leg, node.place(leg))), how)
            node.state()


FORWARDS = [
    comes(OS1, ACK_TO_CLIENT),
    comes(OS1, IN_R1_A3),
    comes(OS1, IN_R2_A3),
    comes(OS1, OUT_R1_A1),
    # It tells more than the first, which it is merged with.
    comes(OS1, Named.AckTo(0, 16, 8_192, OTHER)),
    comes(OS1, OUT_R1_A5),
    puts(CO1, Named.AckTo(0, 16, 8_192, OTHER)),
    puts(CO1, Named.InR1A4(0, 1, 65_536, 120_000)),
    puts(CO1, Named.InR2A4(0)),
    puts(CO1, Named.OutR1A2(0)),
    puts(CO1, Named.OutR1A6(0, 1, 120_000)),
    draws(CO1, 200, 0),
]
OPENS = [
    draws(CO1, 83, 83, RESPONSE),
    puts(CO1, CONN_A3),
    comes(OS1, CONN_C1),
    puts(CO1, CONN_C2),
    puts(OS1, CONN_A2),
    draws(OS1, 200, 0),
]
FOLLOWS_BY = [
    puts(OS1, OUT_R1_A4),
    draws(OS1, 200, 0),
    draws(CO1, 83, 83, RESPONSE),
    draws(CO1, 200, 0),
]
SIXTEEN = acks(16) + [
    draws(CO1, 112, 112, ack_of(0), ack_of(1)),
    comes(OS1, ACK_TO_CLIENT),
    comes(OS1, IN_R1_A3),
]


def forwarding(script):
    all_play(script, "forwards: the opening", CONNECTED, OPENS, "open")
    all_play(script, "forwards: a successor", FOLLOWS_AT_ONCE, FOLLOWS_BY, "open")
    all_play(script, "forwards: each packet", JOINED, FORWARDS, "open")
    all_play(script, "forwards: sixteen wait, and the room is used again", JOINED, SIXTEEN, "open")


def write(script):
    heads(script)
    hostile(script)
    rows(script)
    forwarding(script)
    endings(script)
