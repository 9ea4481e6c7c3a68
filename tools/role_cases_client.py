"""Cases of a client among peers that are played by hand."""
from role_packets import Named, head, in_request, out_request, pdu, response
from role_script import CI1, CI2, CO1, CO2, Cause, Node, closed, cookie

CONNECTION, GROUP = cookie(1), cookie(2)
USUAL = 1_073_741_824
LEAST = 131_072
WINDOW = 8192
KEEP = 300_000

# The response that opens an OUT channel of the lifetime 1,073,741,824.
RESPONSE = response(1_073_807_360)
SHORT = head("HTTP/1.1 200 Success", "Content-Length: 20")
OK = head("HTTP/1.1 200 OK", "Content-Length: 0")
CONN_A3 = Named.ConnA3(120_000)
# CONN/A3 with a bit that is no flag, and a header of version 4.
BAD_FLAGS = CONN_A3[:16] + b"\x80" + CONN_A3[17:]
VERSION_4 = b"\x04" + pdu(16)[1:]


class Client(Node):
    """A client of this lifetime of IN channels, before its first leg is up."""

    def __init__(self, script, life=USUAL):
        self.life = life
        script.set("cwin", WINDOW)
        script.set("ilife", life)
        super().__init__(script, "client")

    def begins(self, leg, name):
        """What the client puts first on a leg whose channel has this cookie."""
        return {
            CO1: out_request(76) + Named.ConnA1(1, CONNECTION, name, WINDOW),
            CI1: in_request(self.life)
            + Named.ConnB1(1, CONNECTION, name, self.life, KEEP, GROUP),
            CO2: out_request(120)
            + Named.OutR1A3(1, CONNECTION, cookie(3), name, WINDOW)
            + Named.OutR2C1,
            CI2: in_request(self.life) + Named.InR1A1(1, CONNECTION, cookie(4), name),
        }[leg]

    def raises(self, leg, number):
        """The leg is wanted; it is up then, and what it begins with is drawn."""
        self.wants(leg)
        self.up(leg, cookie(number))
        self.draw(leg, 9000, self.begins(leg, cookie(number)))

    def draws(self, leg, data):
        self.draw(leg, 9000, data)


def both_up(script, life=USUAL):
    client = Client(script, life)
    client.raises(CO1, 3)
    client.raises(CI1, 4)
    return client


def opened(script, life=USUAL):
    client = both_up(script, life)
    client.feed(CO1, RESPONSE)
    client.feed(CO1, CONN_A3)
    client.feed(CO1, Named.ConnC2(1, 262_144, 120_000))
    return client


STAGES = [
    "ToHead",
    "ToConnA3",
    "ToOpen",
    "ToRecycle",
    "ToInR1A1",
    "ToOutR1A2",
    "ToOutR1A3",
    "ToOutR1A7",
]


def client_at(script, stage):
    """A client that was brought so far."""
    steps = STAGES.index(stage)
    client = both_up(script)
    client.feed(CO1, RESPONSE)
    if steps >= 1:
        client.feed(CO1, CONN_A3)
    if steps >= 2:
        client.feed(CO1, Named.ConnC2(1, 262_144, 120_000))
    if steps in (3, 4):
        client.recycle("ok")
    if steps == 4:
        client.raises(CI2, 5)
    if steps >= 5:
        client.feed(CO1, Named.OutR1A2(0))
    if steps >= 6:
        client.raises(CO2, 6)
        client.feed(CO2, RESPONSE)
    if steps >= 7:
        client.feed(CO1, Named.OutR1A6(0, 1, 120_000))
        client.draws(CI1, Named.OutR1A7(2, cookie(6)))
    return client


# ---- what no honest peer puts


def stays_closed(client, leg):
    """Whatever comes then is answered with the cause."""
    client.feed(leg, CONN_A3)
    client.ended(leg)
    client.broken(leg)
    client.tick(1_000_000)
    client.give(pdu(16), client.verdict)
    client.take(client.verdict)
    client.finished(leg)


# A name, a leg, the head and the bytes that come on it, and the cause.
HOSTILE = [
    ("a bit that is no flag", CO1, RESPONSE, BAD_FLAGS, Cause.BadPacket(CO1, 83, "BadFlags 16")),
    ("a header of version 4", CO1, RESPONSE, VERSION_4, Cause.BadFrame(CO1, 83, "Version 4")),
    ("a PDU ahead of CONN/A3", CO1, RESPONSE, pdu(16), Cause.Unexpected(CO1, 83)),
    ("a byte behind the body", CO1, SHORT, CONN_A3, Cause.BodyOver(CO1, 21, 20)),
    ("a response on an IN channel", CI1, b"", OK, Cause.HttpRefused(CI1, 200)),
]


def hostile(script):
    for name, leg, front, data, cause in HOSTILE:
        for how in ("feed", "each"):
            script.case(f"client hostile: {name}, {how}")
            client = both_up(script)
            if front:
                client.feed(leg, front, how=how)
            client.feed(leg, data, closed(cause), how)
            stays_closed(client, leg)
    for how in ("feed", "each"):
        script.case(f"client hostile: an ended leg is no clean end, {how}")
        client = both_up(script)
        client.feed(CO1, RESPONSE, how=how)
        client.feed(CO1, CONN_A3[:10], how=how)
        client.ended(CO1, closed(Cause.LegEnded(CO1, 10)))
        stays_closed(client, CO1)


# ---- rows

TAKEN, REFUSED = True, False
CHANNEL, STRANGE = cookie(4), cookie(9)
CONN_C2 = Named.ConnC2(1, 65_536, 120_000)
ACK = Named.AckTo(0, 0, 65_536, CHANNEL)
IN_R1_A4 = Named.InR1A4(0, 1, 65_536, 120_000)
OUT_R1_A6 = Named.OutR1A6(0, 1, 120_000)

# How far a client has come, a leg, a packet on it and its name, and whether that is taken.
PACKETS = [
    ("ToHead", CO1, CONN_A3, "CONN/A3", TAKEN),
    ("ToConnA3", CO1, CONN_A3, "CONN/A3", REFUSED),
    ("ToConnA3", CO1, CONN_C2, "CONN/C2", TAKEN),
    ("ToHead", CO1, CONN_C2, "CONN/C2", REFUSED),
    ("ToOpen", CO1, CONN_C2, "CONN/C2", REFUSED),
    ("ToOpen", CO1, ACK, "AckTo", TAKEN),
    ("ToConnA3", CO1, ACK, "AckTo", REFUSED),
    ("ToOpen", CO1, Named.AckTo(3, 0, 65_536, CHANNEL), "AckTo 3", REFUSED),
    ("ToOpen", CO1, Named.AckTo(0, 9, 65_536, STRANGE), "AckTo of a strange channel", TAKEN),
    ("ToInR1A1", CO1, IN_R1_A4, "IN_R1/A4", TAKEN),
    ("ToRecycle", CO1, IN_R1_A4, "IN_R1/A4", REFUSED),
    ("ToInR1A1", CO1, Named.InR1A4(2, 1, 65_536, 120_000), "IN_R1/A4 to 2", REFUSED),
    ("ToInR1A1", CO1, Named.InR2A4(0), "IN_R2/A4", TAKEN),
    ("ToOpen", CO1, Named.InR2A4(0), "IN_R2/A4", REFUSED),
    ("ToOpen", CO1, Named.OutR1A2(0), "OUT_R1/A2", TAKEN),
    ("ToRecycle", CO1, Named.OutR1A2(0), "OUT_R1/A2", TAKEN),
    ("ToConnA3", CO1, Named.OutR1A2(0), "OUT_R1/A2", REFUSED),
    ("ToOutR1A3", CO1, Named.OutR1A2(0), "OUT_R1/A2", REFUSED),
    ("ToOutR1A3", CO2, Named.OutR1A2(0), "OUT_R1/A2", TAKEN),
    ("ToOutR1A3", CO1, OUT_R1_A6, "OUT_R1/A6", TAKEN),
    ("ToOutR1A3", CO2, OUT_R1_A6, "OUT_R1/A6", REFUSED),
    ("ToOutR1A2", CO1, OUT_R1_A6, "OUT_R1/A6", REFUSED),
    ("ToOutR1A7", CO1, OUT_R1_A6, "OUT_R1/A6", REFUSED),
    ("ToOutR1A7", CO1, Named.OutR1A10, "OUT_R1/A10", TAKEN),
    ("ToOutR1A3", CO1, Named.OutR1A10, "OUT_R1/A10", REFUSED),
    ("ToOpen", CO1, Named.EndB2, "END/B2", TAKEN),
    ("ToConnA3", CO1, Named.EndB2, "END/B2", REFUSED),
    ("ToOpen", CO1, CONN_A3, "CONN/A3", REFUSED),
    # The same of an RPC PDU.
    ("ToOpen", CO1, pdu(100), "PDU", TAKEN),
    ("ToConnA3", CO1, pdu(100), "PDU", REFUSED),
    ("ToOutR1A3", CO2, pdu(100), "PDU", REFUSED),
    ("ToOutR1A7", CO2, pdu(100), "PDU", TAKEN),
    ("ToOutR1A7", CO1, pdu(100), "PDU", TAKEN),
]


def rows(script):
    for stage, leg, data, name, taken in PACKETS:
        word = "taken" if taken else "refused"
        script.case(f"client rows: {name} on {leg} at {stage} is {word}")
        client = client_at(script, stage)
        verdict = None if taken else closed(Cause.Unexpected(leg, client.place(leg)))
        client.feed(leg, data, verdict)
    script.case("client rows: an acknowledgement is of the channel of its cookie")
    client = client_at(script, "ToOpen")
    client.feed(CO1, Named.AckTo(0, 9, 65_536, cookie(5)))
    own = Named.AckTo(0, 9, 65_536, cookie(4))
    client.feed(CO1, own, closed(Cause.OutOfRange(CO1, 1, 9)))


# ---- from the opening to the clean end, and what a caller may ask


def stories(script):
    script.case("client: the first legs begin with requests and packets")
    client = Client(script)
    for leg in (CO1, CI1):
        client.wants(leg)
    for leg in (CO2, CI2):
        client.wants(leg, False)
    client.up(CO1, cookie(3))
    client.up(CI1, cookie(4))
    for leg, name, length in ((CO1, cookie(3), 198 + 76), (CI1, cookie(4), 205 + 104)):
        data = client.begins(leg, name)
        assert len(data) == length
        client.draws(leg, data)
    client.give(pdu(16))
    client.draws(CI1, b"")

    script.case("client: a PDU is accepted where it can be")
    client = Client(script)
    client.give(b"\x05", "bad Cut 1")
    for _ in range(32):
        client.give(pdu(8192))
    client.give(pdu(16), "full 262144 16")
    client.close()
    client.give(pdu(16), "closing")

    script.case("client: a PDU is refused by the first reason")
    client = opened(script)
    client.give(pdu(16))
    client.give(b"\x05\0\0", "bad Cut 3")
    for _ in range(31):
        client.give(pdu(8192))
    client.give(pdu(8192), f"full {262_144 - 8192 + 16} 8192")
    client.close()
    client.give(b"\x05\0\0", "closing")
    client.broken(CO1, closed(Cause.LegBroken(CO1)))
    client.give(pdu(16), client.verdict)
    client.recycle("notopen")

    script.case("client: an IN channel is replaced")
    client = Client(script)
    client.recycle("notopen")
    client = client_at(script, "ToRecycle")
    client.recycle(f"busy {CI2}")
    client.up(CI2, cookie(5))
    data = client.begins(CI2, cookie(5))
    assert len(data) == 205 + 88
    client.draws(CI2, data)
    client.feed(CO1, IN_R1_A4)
    client.draws(CI1, Named.InR1A5(cookie(5)))
    client.finished(CI1)
    client.channels(2, 1)
    client.give(pdu(100))
    client.draws(CI2, pdu(100))

    script.case("client: an OUT channel is replaced")
    client = client_at(script, "ToOutR1A7")
    client.feed(CO2, pdu(200))
    client.feed(CO1, pdu(100))
    client.feed(CO1, Named.OutR1A10)
    client.finished(CO1)
    client.channels(1, 1)
    client.take(pdu(100))
    client.channels(1, 2)
    client.take(pdu(200))
    client.take("empty")

    for length, wanted in ((8087, False), (8088, True)):
        script.case(f"client: the meter wants a successor at its edge, {length}")
        client = opened(script, LEAST)
        for _ in range(7):
            client.give(pdu(8192))
            client.draws(CI1, pdu(8192))
        client.give(pdu(length))
        client.draws(CI1, pdu(length))
        client.wants(CI2, wanted)

    script.case("client: a connection ends once both ends said so")
    client = opened(script)
    client.give(pdu(100))
    client.close()
    client.draws(CI1, pdu(100) + Named.EndA1)
    client.feed(CO1, pdu(50))
    client.feed(CO1, Named.EndB2, "ended")
    client.take(pdu(50))
    client.take("ended")
    client.finished(CO1)
    client.finished(CI1)
    client.state()

    script.case("client: a channel is kept alive")
    client = opened(script)
    client.tick(59_999)
    client.draws(CI1, b"")
    client.tick(60_000)
    client.draws(CI1, Named.Ping)


def write(script):
    hostile(script)
    rows(script)
    stories(script)
