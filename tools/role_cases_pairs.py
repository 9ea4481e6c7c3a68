"""Cases of two roles at a time, up to where the first packets have come.

Each role is played alone: what the one puts is what the other takes, byte by byte. How many bytes
go is told by the lengths of heads, of the greeting and of packets (MS-RPCH 2.2.4).
"""
from role_packets import GREETING, Named, in_request, out_request, response
from role_script import CI1, CO1, IS1, OS1, Node, cookie

CONNECTION, GROUP, OUT_CHANNEL, CHANNEL = (cookie(value) for value in range(1, 5))
USUAL = 1_073_741_824
WINDOW, TIMEOUT = 65_536, 120_000
# A keepalive of 0 stands for that by default.
KEEP = 0

ASKS_IN = in_request(USUAL) + Named.ConnB1(1, CONNECTION, CHANNEL, USUAL, KEEP, GROUP)
ASKS_OUT = out_request(76) + Named.ConnA1(1, CONNECTION, OUT_CHANNEL, WINDOW)
TELLS_IN = Named.ConnB2(
    1, CONNECTION, CHANNEL, WINDOW, TIMEOUT, GROUP, bytes([127, 0, 0, 1])
)
TELLS_OUT = Named.ConnA2(1, CONNECTION, OUT_CHANNEL, USUAL, WINDOW)
ANSWERS = response(1_073_807_360) + Named.ConnA3(TIMEOUT)
CONN_B3 = Named.ConnB3(WINDOW, 1)
CONN_C1 = Named.ConnC1(1, WINDOW, TIMEOUT)

LENGTHS = [
    (ASKS_IN, 205 + 104),
    (ASKS_OUT, 198 + 76),
    (TELLS_IN, 128),
    (TELLS_OUT, 84),
    (ANSWERS, 83 + 28),
    (CONN_B3, 36),
    (CONN_C1, 44),
]
for data, length in LENGTHS:
    assert len(data) == length


def draws(node, leg, data):
    """These bytes are drawn one by one, and no more."""
    for byte in data:
        node.draw(leg, 1, bytes([byte]))
    node.draw(leg, 1, b"")


def client(script):
    script.set("cwin", WINDOW)
    script.set("ilife", USUAL)
    script.set("keep", KEEP)
    return Node(script, "client")


def server(script):
    script.set("swin", WINDOW)
    return Node(script, "server")


def in_proxy(script):
    """An in proxy, behind what the client puts first."""
    node = Node(script, "inproxy", 1)
    node.up(CI1)
    node.wants(IS1, False)
    node.feed(CI1, ASKS_IN, how="each")
    return node


def out_proxy(script):
    """An out proxy, behind what the client puts first."""
    node = Node(script, "outproxy", 1)
    node.up(CO1)
    node.wants(OS1, False)
    node.feed(CO1, ASKS_OUT, how="each")
    return node


def asks(node, leg, other):
    """The proxy knows its server, and wants the leg to it alone."""
    node.target("server 593")
    node.wants(leg)
    node.wants(other, False)
    node.state("opening")


def write(script):
    script.case("pair: a client tells an in proxy of its channel")
    node = client(script)
    node.up(CI1, CHANNEL)
    draws(node, CI1, ASKS_IN)
    asks(in_proxy(script), IS1, "is2")

    script.case("pair: an in proxy tells a server of its channel")
    node = in_proxy(script)
    node.up(IS1)
    draws(node, IS1, TELLS_IN)
    node.feed(IS1, GREETING, how="each")
    node.state("open")
    node = server(script)
    node.up(IS1)
    node.feed(IS1, TELLS_IN, how="each")
    draws(node, IS1, GREETING)
    node.state("opening")

    script.case("pair: an out proxy tells a server of its channel")
    node = out_proxy(script)
    node.up(OS1)
    draws(node, OS1, TELLS_OUT)
    node.feed(OS1, GREETING, how="each")
    node.state("open")
    node = server(script)
    node.up(OS1)
    node.feed(OS1, TELLS_OUT, how="each")
    draws(node, OS1, GREETING)
    node.state("opening")

    script.case("pair: an out proxy answers a client")
    node = client(script)
    node.up(CO1, OUT_CHANNEL)
    draws(node, CO1, ASKS_OUT)
    node.feed(CO1, ANSWERS, how="each")
    node.state("opening")
    node = out_proxy(script)
    asks(node, OS1, "os2")
    node.up(OS1)
    draws(node, CO1, ANSWERS)
    node.state("open")

    script.case("pair: both first packets open a server")
    node = server(script)
    node.up(IS1)
    node.feed(IS1, TELLS_IN, how="each")
    draws(node, IS1, GREETING)
    node.up(OS1)
    node.feed(OS1, TELLS_OUT, how="each")
    draws(node, OS1, GREETING + CONN_C1)
    draws(node, IS1, CONN_B3)
    node.state("open")
    script.set("keep", 300_000)
