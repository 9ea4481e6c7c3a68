"""Mixed RTS packets (MS-RPCH 2.2.3), drawn by chance from a fixed seed."""
import random

# Packets are drawn from these many different ones.
DIFFERENT = 4_000
SEED = 1


def number(value):
    return value.to_bytes(4, "little")


def packet(flags, commands):
    """The packet of these flags and the bytes of each command (MS-RPCH 2.2.3.6)."""
    body = b"".join(commands)
    header = bytes([5, 0, 20, 3, 16, 0, 0, 0]) + (20 + len(body)).to_bytes(2, "little") + bytes(6)
    return header + flags.to_bytes(2, "little") + len(commands).to_bytes(2, "little") + body


def mixed_packet(draw):
    """One of the packets that a connection sends, or a padded one, with drawn values."""
    cookie = lambda: number(3) + draw.randbytes(16)
    plain = lambda kind: number(kind) + number(draw.randrange(1 << 32))
    ack = number(1) + draw.randbytes(8) + draw.randbytes(16)
    address = number(11) + number(1) + draw.randbytes(16) + bytes(12)
    padding = draw.randrange(200)
    return draw.choice([
        packet(0x0000, [plain(6), cookie(), cookie(), plain(0)]),
        packet(0x0000, [plain(6), cookie(), cookie(), plain(4), plain(5), number(12) + draw.randbytes(16)]),
        packet(0x0008, [plain(6), cookie(), cookie(), plain(0), plain(2), number(12) + draw.randbytes(16), address]),
        packet(0x0002, [ack]),
        packet(0x0002, [number(13) + number(draw.randrange(4)), ack]),
        packet(0x0001, []),
        packet(0x0020, [number(7)]),
        packet(0x0000, [number(10), number(8) + number(padding) + draw.randbytes(padding)]),
    ])


def mixed_packets():
    """Packets without end, by chance, the same each time."""
    draw = random.Random(SEED)
    packets = [mixed_packet(draw) for _ in range(DIFFERENT)]
    while True:
        yield from draw.choices(packets, k=DIFFERENT)
