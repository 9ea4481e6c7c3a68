"""Cases of a server, driven by packets."""
from role_packets import GREETING, Named, pdu as any_pdu
from role_script import IS1, OS1, Cause, Node, closed


def cookie(value):
    """A cookie of 16 such bytes."""
    return bytes([value]) * 16


# The cookies of the connection, of the first IN and OUT channel, and of their successors.
CONNECTION, GROUP, IN_1, OUT_1, IN_2, OUT_2 = (cookie(value) for value in range(1, 7))
OTHER = cookie(9)
LEAST = 131_072
WINDOW = 8192


def pdu(length, call=1):
    return any_pdu(length, call, fill=call)


def conn_a2(life=LEAST):
    return Named.ConnA2(1, CONNECTION, OUT_1, life, 65_536)


def conn_b2(connection=CONNECTION):
    address = bytes([127, 0, 0, 1])
    return Named.ConnB2(1, connection, IN_1, 65_536, 120_000, GROUP, address)


def in_r1_a2(connection=CONNECTION, predecessor=IN_1):
    return Named.InR1A2(1, connection, predecessor, IN_2, 65_536, 120_000)


OUT_R1_A4 = Named.OutR1A4(1, CONNECTION, OUT_1, OUT_2, LEAST, 65_536, 120_000)
IN_R1_A3 = Named.InR1A3(0, 1, 65_536, 120_000)
BUSY = "busy os2"


class Server(Node):
    """A server before its first leg is up."""

    def __init__(self, script):
        script.set("swin", WINDOW)
        super().__init__(script, "server")

    def raises(self, leg, yes=True):
        self.up(leg, yes=yes)

    def puts(self, leg, data):
        """These bytes are the next that are drawn, by a room that has place for them alone."""
        self.draw(leg, len(data), data)

    def greets(self, leg):
        self.puts(leg, GREETING)

    def is_quiet(self, leg):
        self.draw(leg, 16, b"")

    def gives(self, leg, length):
        """A PDU of so many bytes is given, and is the next that is drawn."""
        self.give(pdu(length))
        self.puts(leg, pdu(length))


def half_open(script):
    """A server that opens, behind CONN/A2."""
    server = Server(script)
    server.raises(OS1)
    server.raises(IS1)
    server.feed(OS1, conn_a2())
    return server


def opened(script):
    """An open server, on whose legs all that was due was drawn."""
    server = half_open(script)
    server.feed(IS1, conn_b2())
    server.draw(OS1, 512, GREETING + Named.ConnC1(1, 65_536, 120_000))
    server.draw(IS1, 512, GREETING + Named.ConnB3(WINDOW, 1))
    return server


def announced(script):
    """An open server that was told of a successor on is 2."""
    server = opened(script)
    server.raises("is2")
    server.feed("is2", in_r1_a2())
    return server


# ---- opening


def opening(script):
    for out_first in (True, False):
        order = "OUT" if out_first else "IN"
        script.case(f"server: it opens in either order, {order} first")
        server = Server(script)
        server.raises(OS1)
        server.raises(IS1)
        server.greets(OS1)
        server.is_quiet(OS1)
        if out_first:
            server.feed(OS1, conn_a2())
        server.feed(IS1, conn_b2())
        if not out_first:
            server.feed(OS1, conn_a2())
        server.state("open")
        server.greets(IS1)
        server.puts(IS1, Named.ConnB3(WINDOW, 1))
        server.puts(OS1, Named.ConnC1(1, 65_536, 120_000))

    script.case("server: four legs of a kind come up")
    server = Server(script)
    for number in range(1, 5):
        server.raises(f"is{number}")
        server.raises(f"os{number}")
    for leg in ("is5", "os5", "is4"):
        server.raises(leg, False)
    server.feed(IS1, conn_b2())


# ---- the kind of a leg


def first_kinds(script):
    script.case("server: a leg tells its kind by its first frame")
    server = Server(script)
    packets = [
        (conn_b2(), "in"),
        (in_r1_a2(), "in"),
        (conn_a2(), "out"),
        (OUT_R1_A4, "out"),
        (Named.EndA2, "stranger"),
    ]
    for data, kind in packets:
        server.first(data, kind)
        server.first(data + bytes(200 - len(data)), kind)
        server.first(data[:-1], "need")
    server.first(pdu(16)[:15], "need")
    server.first(pdu(16), "stranger")
    server.first(bytes([4]) * 16, "stranger")


# ---- what no honest proxy puts


def stays_closed(server, leg):
    server.feed(leg, b"\x05")
    server.ended(leg)
    server.broken(leg)
    server.tick(7)
    server.give(b"\x05", server.verdict)
    server.take(server.verdict)


def fed_in_full(script):
    server = opened(script)
    server.feed(IS1, pdu(8192))
    return server


def on_one_leg(script):
    server = Server(script)
    server.raises(IS1)
    return server


# A name, the server, a leg, the bytes that come on it, and the cause.
HOSTILE = [
    (
        "another connection",
        half_open,
        IS1,
        conn_b2(OTHER),
        Cause.CookieMismatch(IS1, CONNECTION, OTHER),
    ),
    ("a PDU past the edge", fed_in_full, IS1, pdu(16, 2), Cause.WindowExceeded(IS1, 8208, 8192)),
    ("a PDU on a shut window", announced, "is2", pdu(16), Cause.WindowExceeded("is2", 16, 0)),
    ("a packet of the other leg", on_one_leg, IS1, conn_a2(), Cause.Unexpected(IS1, 0)),
]


def hostile(script):
    for name, made, leg, data, cause in HOSTILE:
        for how in ("feed", "each"):
            script.case(f"server hostile: {name}, {how}")
            server = made(script)
            server.feed(leg, data, closed(cause), how)
            stays_closed(server, leg)


# ---- rows

# A leg, a packet and its name, and how often it is taken before it is unexpected.
ROWS = [
    (IS1, Named.EndA2, "END/A2", 1),
    (IS1, Named.InR2A2(IN_2), "IN_R2/A2", 1),
    (IS1, Named.InR1A6(IN_2), "IN_R1/A6", 0),
    (IS1, Named.OutR1A8(2, OUT_2), "OUT_R1/A8", 0),
    (IS1, Named.AckTo(1, 0, 0, OUT_1), "AckTo 1", 0),
    (IS1, conn_b2(), "CONN/B2", 0),
    (IS1, Named.KeepAlive(0), "KeepAlive", 0),
    (OS1, OUT_R1_A4, "OUT_R1/A4", 0),
    (OS1, Named.OutR1A5(0, 1, 120_000), "OUT_R1/A5", 0),
    ("os2", Named.PingTraffic(20), "PingTraffic", 0),
]


def unexpected(server, leg, data):
    server.feed(leg, data, closed(Cause.Unexpected(leg, server.place(leg))))


def rows(script):
    for leg, data, name, times in ROWS:
        script.case(f"server rows: {name} on {leg} is taken {times} times")
        server = opened(script)
        server.raises("os2")
        for _ in range(times):
            server.feed(leg, data)
        unexpected(server, leg, data)

    for data, name in ((Named.InR1A6(IN_2), "IN_R1/A6"), (Named.EndA2, "END/A2")):
        script.case(f"server rows: no PDU comes behind {name}")
        server = announced(script)
        server.puts(OS1, IN_R1_A3)
        server.feed(IS1, pdu(16))
        server.feed(IS1, data)
        unexpected(server, IS1, pdu(16, 2))

    script.case("server rows: acknowledgements are taken")
    server = opened(script)
    for to, channel in ((0, IN_1), (3, OUT_1), (3, OUT_2)):
        server.feed(IS1, Named.AckTo(to, 0, 65_536, channel))
    server.feed(OS1, Named.Ack(0, 65_536, OUT_1))
    server.feed(OS1, Named.PingTraffic(20))
    cause = Cause.CookieMismatch(OS1, OUT_1, OUT_2)
    server.feed(OS1, Named.Ack(0, 65_536, OUT_2), closed(cause))

    script.case("server rows: sixteen packets wait for the writing leg")
    server = opened(script)
    for value in range(20, 36):
        for _ in range(2):
            server.feed(IS1, Named.AckTo(0, 0, 0, cookie(value)))
    server.feed(IS1, Named.AckTo(3, 0, 0, OUT_1), closed(Cause.ControlFull(OS1)))

    successors = [
        ("it agrees", CONNECTION, IN_1, None),
        ("another connection", OTHER, IN_1, Cause.CookieMismatch("is2", CONNECTION, OTHER)),
        ("another predecessor", CONNECTION, OTHER, Cause.CookieMismatch("is2", IN_1, OTHER)),
    ]
    for name, connection, predecessor, cause in successors:
        script.case(f"server rows: a successor agrees with what was before: {name}")
        server = opened(script)
        server.raises("is2")
        data = in_r1_a2(connection, predecessor)
        server.feed("is2", data, cause and closed(cause))
    script.case("server rows: a successor agrees with what was before: none was announced")
    server = opened(script)
    server.raises("is2")
    server.raises("is3")
    unexpected(server, "is3", in_r1_a2())


# ---- replacement and the end


def replacing(script):
    script.case("server: another in proxy takes over")
    server = opened(script)
    server.feed(IS1, pdu(16))
    server.raises("is2")
    server.feed("is2", in_r1_a2())
    server.puts(OS1, IN_R1_A3)
    server.feed(IS1, Named.InR1A6(IN_2))
    server.greets("is2")
    server.is_quiet("is2")
    server.puts(IS1, Named.InR1B1)
    server.finished(IS1)
    server.channels(1, 1)
    server.take(pdu(16))
    server.channels(2, 1)
    server.puts("is2", Named.InR1B2(WINDOW))

    script.case("server: a leg may be lost while its channel waits")
    third = Named.InR1A2(1, CONNECTION, IN_2, OTHER, 8192, 120_000)
    server = announced(script)
    server.puts(OS1, IN_R1_A3)
    server.raises("is3")
    server.feed("is3", third)
    server.feed("is3", Named.EndA2)
    server.close()
    server.puts(OS1, Named.EndB1)
    server.ended("is3")
    server.finished("is3")
    server.feed(IS1, Named.InR1A6(IN_2))
    server.puts(OS1, Named.InR1A3(0, 1, 8192, 120_000))
    server.feed("is2", Named.InR1A6(OTHER))
    server.channels(3, 1)
    server.take("ended")

    script.case("server: the same in proxy goes on")
    server = opened(script)
    server.feed(IS1, Named.InR2A2(IN_2))
    server.channels(2, 1)
    server.may("is2", False)
    server.may("is3")
    server.puts(OS1, Named.InR2A3(0))
    server.feed(IS1, pdu(16))

    script.case("server: the OUT channel is replaced")
    server = opened(script)
    server.recycle("ok")
    server.recycle(BUSY)
    server.puts(OS1, Named.OutR1A1(0))
    server.raises("os2")
    server.greets("os2")
    server.feed("os2", OUT_R1_A4)
    server.puts(OS1, Named.OutR1A5(0, 1, 120_000))
    server.feed(IS1, Named.OutR1A8(2, OUT_2))
    # What is given goes on the successor, once OUT_R1/A9 was put.
    server.give(pdu(16))
    server.draw("os2", 16, b"")
    server.puts(OS1, Named.OutR1A9)
    server.channels(1, 2)
    server.is_quiet(OS1)
    server.ended(OS1)
    server.finished(OS1)
    server.puts("os2", pdu(16))

    # 28 bytes are used at first and 44 by CONN/C1: behind 65,464 more, half of 131,072 is left.
    for length, answer in ((8119, "ok"), (8120, BUSY)):
        script.case(f"server: the meter wishes for a successor, {length}")
        server = opened(script)
        for _ in range(7):
            server.gives(OS1, 8192)
        server.gives(OS1, length)
        server.recycle(answer)


def ending(script):
    script.case("server: it ends behind all it gave")
    server = opened(script)
    server.give(pdu(16))
    server.close()
    server.give(pdu(16), "closing")
    server.puts(OS1, pdu(16))
    server.puts(OS1, Named.EndB1)
    server.is_quiet(OS1)
    server.state("open")
    server.feed(IS1, pdu(16))
    server.feed(IS1, Named.EndA2)
    server.ended(IS1, "ended")
    server.finished(OS1)
    server.take(pdu(16))
    server.take("ended")

    script.case("server: a lost leg closes it")
    server = opened(script)
    server.feed(IS1, Named.EndA2)
    server.ended(IS1, closed(Cause.LegEnded(IS1, 0)))
    server.finished(OS1)


def bytes_that_come(script):
    script.case("server: a PDU is taken once, and none of a closed server")
    server = opened(script)
    server.raises(IS1, False)
    server.take("empty")
    server.feed(IS1, pdu(16)[:6])
    server.take("empty")
    server.feed(IS1, pdu(16)[6:])
    server.take(pdu(16))
    server.take("empty")
    server.channels(1, 1)
    server.finished(IS1, False)
    server.ended(IS1, closed(Cause.LegEnded(IS1, 0)))
    server.take(server.verdict)
    server.finished(IS1)

    script.case("server: an ended leg tells what was held")
    server = opened(script)
    server.feed(IS1, pdu(16)[:6])
    server.ended(IS1, closed(Cause.LegEnded(IS1, 6)))

    script.case("server: a packet without a row is unexpected at its place")
    server = opened(script)
    place = server.place(IS1)
    server.feed(IS1, pdu(16))
    server.feed(IS1, Named.ConnA3(120_000), closed(Cause.Unexpected(IS1, place + 16)))

    script.case("server: what is given is drawn in pieces, and no more")
    server = opened(script)
    for _ in range(3):
        server.give(pdu(16))
    for place in range(0, 48, 7):
        server.draw(OS1, 7, (pdu(16) * 3)[place : place + 7])
    server.draw(OS1, 7, b"")


def write(script):
    opening(script)
    bytes_that_come(script)
    first_kinds(script)
    hostile(script)
    rows(script)
    replacing(script)
    ending(script)
