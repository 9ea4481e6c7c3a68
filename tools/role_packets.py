"""Bytes that roles put and take: RTS packets, RPC PDUs and heads, spelled by the standard.

Nothing here is read from the program: MS-RPCH 2.2.3 and 2.2.4 say how packets are spelled,
C706 12.6.3.1 how a PDU begins, and docs/PROFILE.md has the packets that are this profile's.
"""

GREETING = b"ncacn_http/1.0"
NONE, PING, OTHER, RECYCLE, IN, OUT, EOF, ECHO_FLAG = 0, 1, 2, 4, 8, 16, 32, 64


def number(value):
    return value.to_bytes(4, "little")


def command(kind, body=b""):
    return number(kind) + body


# ---- commands (MS-RPCH 2.2.3.5)


def window_size(value):
    return command(0, number(value))


def flow_control(received, available, cookie):
    return command(1, number(received) + number(available) + cookie)


def connection_timeout(value):
    return command(2, number(value))


def cookie_of(value):
    return command(3, value)


def lifetime(value):
    return command(4, number(value))


def keepalive(value):
    return command(5, number(value))


def version(value):
    return command(6, number(value))


def empty():
    return command(7)


def ance():
    return command(10)


def client_address(address):
    return command(11, number(0) + address + bytes(12))


def group_id(value):
    return command(12, value)


def destination(value):
    return command(13, number(value))


def ping_traffic(value):
    return command(14, number(value))


def rts(flags, *commands):
    """An RTS packet (MS-RPCH 2.2.3.6)."""
    body = b"".join(commands)
    head = bytes([5, 0, 20, 3, 0x10, 0, 0, 0]) + (20 + len(body)).to_bytes(2, "little")
    return head + bytes(6) + flags.to_bytes(2, "little") + len(commands).to_bytes(2, "little") + body


# ---- packets (MS-RPCH 2.2.4; those of replacement and of a clean end are the profile's)


class Named:
    """The packets by their names, each with the fields of its row."""

    Ping = rts(PING)
    OutR2C1 = rts(PING, empty())
    OutR1A9 = OutR1A10 = rts(NONE, ance())
    InR1B1 = rts(NONE, empty())
    EndA1 = EndA2 = EndB1 = EndB2 = rts(EOF, empty())

    @staticmethod
    def ConnA1(v, connection, channel, window):
        return rts(NONE, version(v), cookie_of(connection), cookie_of(channel), window_size(window))

    @staticmethod
    def ConnA2(v, connection, channel, life, window):
        cookies = cookie_of(connection) + cookie_of(channel)
        assert len(cookies) == 40
        return rts(
            OUT,
            version(v),
            cookie_of(connection),
            cookie_of(channel),
            lifetime(life),
            window_size(window),
        )

    @staticmethod
    def ConnA3(timeout):
        return rts(NONE, connection_timeout(timeout))

    @staticmethod
    def ConnB1(v, connection, channel, life, keep, group):
        return rts(
            NONE,
            version(v),
            cookie_of(connection),
            cookie_of(channel),
            lifetime(life),
            keepalive(keep),
            group_id(group),
        )

    @staticmethod
    def ConnB2(v, connection, channel, window, timeout, group, address):
        return rts(
            IN,
            version(v),
            cookie_of(connection),
            cookie_of(channel),
            window_size(window),
            connection_timeout(timeout),
            group_id(group),
            client_address(address),
        )

    @staticmethod
    def ConnB3(window, v):
        return rts(NONE, window_size(window), version(v))

    @staticmethod
    def ConnC1(v, window, timeout):
        return rts(NONE, version(v), window_size(window), connection_timeout(timeout))

    ConnC2 = ConnC1

    @staticmethod
    def InR1A1(v, connection, predecessor, successor):
        cookies = [cookie_of(each) for each in (connection, predecessor, successor)]
        return rts(RECYCLE, version(v), *cookies)

    @staticmethod
    def InR1A2(v, connection, predecessor, successor, window, timeout):
        cookies = [cookie_of(each) for each in (connection, predecessor, successor)]
        ends = window_size(window), connection_timeout(timeout)
        return rts(IN | RECYCLE, version(v), *cookies, *ends)

    @staticmethod
    def InR1A3(to, v, window, timeout):
        ends = window_size(window), connection_timeout(timeout)
        return rts(NONE, destination(to), version(v), *ends)

    InR1A4 = InR1A3

    @staticmethod
    def InR1A5(successor):
        return rts(NONE, cookie_of(successor))

    InR1A6 = InR1A5

    @staticmethod
    def InR1B2(window):
        return rts(NONE, window_size(window))

    @staticmethod
    def InR2A2(successor):
        return rts(IN | RECYCLE, cookie_of(successor))

    @staticmethod
    def InR2A3(to):
        return rts(NONE, destination(to))

    InR2A4 = InR2A3

    @staticmethod
    def OutR1A1(to):
        return rts(RECYCLE, destination(to))

    OutR1A2 = OutR1A1

    @staticmethod
    def OutR1A3(v, connection, predecessor, successor, window):
        cookies = [cookie_of(each) for each in (connection, predecessor, successor)]
        return rts(RECYCLE, version(v), *cookies, window_size(window))

    @staticmethod
    def OutR1A4(v, connection, predecessor, successor, life, window, timeout):
        cookies = [cookie_of(each) for each in (connection, predecessor, successor)]
        ends = lifetime(life), window_size(window), connection_timeout(timeout)
        return rts(OUT | RECYCLE, version(v), *cookies, *ends)

    @staticmethod
    def OutR1A5(to, v, timeout):
        return rts(OUT, destination(to), version(v), connection_timeout(timeout))

    OutR1A6 = OutR1A5

    @staticmethod
    def OutR1A7(to, successor):
        return rts(OUT, destination(to), cookie_of(successor))

    OutR1A8 = OutR1A7

    @staticmethod
    def Ack(received, available, cookie):
        return rts(OTHER, flow_control(received, available, cookie))

    @staticmethod
    def AckTo(to, received, available, cookie):
        return rts(OTHER, destination(to), flow_control(received, available, cookie))

    @staticmethod
    def KeepAlive(keep):
        return rts(OTHER, keepalive(keep))

    @staticmethod
    def PingTraffic(count):
        return rts(OTHER, ping_traffic(count))


ECHO = rts(ECHO_FLAG)


# ---- RPC PDUs (C706 12.6.3.1)


def pdu(length, call=0, ptype=0, fill=0):
    """A PDU of so many bytes with this call, whose body is one byte again and again."""
    head = bytes([5, 0, ptype, 3, 0x10, 0, 0, 0]) + length.to_bytes(2, "little") + bytes(2)
    return head + number(call) + bytes([fill]) * (length - 16)


# ---- heads (MS-RPCH 2.1.2)


def head(*lines):
    return "".join(line + "\r\n" for line in lines).encode() + b"\r\n"


def request(method, length):
    """The request of a client of the server `server` at port 593, by way of the host `proxy`."""
    return head(
        f"{method} /rpc/rpcproxy.dll?server:593 HTTP/1.1",
        "Accept: application/rpc",
        "User-Agent: MSRPC",
        "Host: proxy",
        f"Content-Length: {length}",
        "Connection: Keep-Alive",
        "Cache-Control: no-cache",
        "Pragma: no-cache",
    )


def in_request(length):
    return request("RPC_IN_DATA", length)


def out_request(length):
    return request("RPC_OUT_DATA", length)


def response(length):
    """The head with which a proxy answers the request for an OUT channel."""
    return head(
        "HTTP/1.1 200 Success",
        "Content-Type: application/rpc",
        f"Content-Length: {length}",
    )


def refusal(status):
    return head(f"HTTP/1.1 {status}", "Content-Length: 0")
