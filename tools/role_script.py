"""Writes the script of a role's cases line by line, and beside each line what is to be answered."""

CI1, CI2, CI3, CO1, CO2 = "ci1", "ci2", "ci3", "co1", "co2"
IS1, OS1 = "is1", "os1"


def cookie(value):
    """The cookie of this number: 15 bytes of zero, and then the number."""
    return bytes(15) + bytes([value])


def cookie_text(value):
    """A cookie as it stands in answers."""
    digits = value.hex()
    return "-".join([digits[:8], digits[8:12], digits[12:16], digits[16:20], digits[20:]])


class Cause:
    """The texts of causes."""

    def LegBroken(leg):
        return f"1 LegBroken {leg}"

    def LegEnded(leg, partial):
        return f"2 LegEnded {leg} {partial}"

    def BadFrame(leg, place, fault):
        return f"3 BadFrame {leg} {place} {fault}"

    def BadPacket(leg, place, fault):
        return f"4 BadPacket {leg} {place} {fault}"

    def Unexpected(leg, place):
        return f"5 Unexpected {leg} {place}"

    def CookieMismatch(leg, expected, got):
        return f"6 CookieMismatch {leg} {cookie_text(expected)} {cookie_text(got)}"

    def WindowExceeded(leg, reached, edge):
        return f"7 WindowExceeded {leg} {reached} {edge}"

    def OutOfRange(leg, command, value):
        return f"8 OutOfRange {leg} {command} {value}"

    def HttpRefused(leg, status):
        return f"9 HttpRefused {leg} {status}"

    def BadHead(leg, place, fault):
        return f"10 BadHead {leg} {place} {fault}"

    def Silent(leg, since, now):
        return f"11 Silent {leg} {since} {now}"

    def ControlFull(leg):
        return f"12 ControlFull {leg}"

    def BodyOver(leg, count, length):
        return f"13 BodyOver {leg} {count} {length}"


def closed(cause):
    return "closed " + cause


class Script:
    """Lines, and what is to be answered to them."""

    def __init__(self):
        self.lines = []
        self.wanted = []

    def say(self, line, *answers):
        self.lines.append(line)
        self.wanted.extend(answers)

    def case(self, words):
        self.say(f"case {words}", f"case {words}")

    def set(self, key, value):
        self.say(f"set {key} {value}")


class Node:
    """A node that a script begins. Its verdict stands until a line changes it."""

    SIDES = {"client": "c", "server": "s"}

    def __init__(self, script, kind, number=None):
        self.script = script
        self.side = self.SIDES.get(kind)
        self.verdict = "going"
        self.came = {}
        line = kind if number is None else f"{kind} {number}"
        script.say(line, line)

    # ---- legs

    def ask(self, word, leg, yes):
        answer = "yes" if yes else "no"
        self.script.say(f"{word} {leg}", f"{word} {leg} {answer}")

    def wants(self, leg, yes=True):
        self.ask("wants", leg, yes)

    def may(self, leg, yes=True):
        self.ask("may", leg, yes)

    def finished(self, leg, yes=True):
        self.ask("finished", leg, yes)

    def up(self, leg, name=None, yes=True):
        line = f"up {leg}" if name is None else f"up {leg} {name.hex()}"
        self.script.say(line, f"up {leg} " + ("yes" if yes else "no"))

    def event(self, line, front, verdict):
        self.verdict = verdict or self.verdict
        self.script.say(line, f"{front} {self.verdict}")

    def feed(self, leg, data, verdict=None, how="feed"):
        """Bytes come, which change the verdict to this one, where one is told."""
        self.came[leg] = self.came.get(leg, 0) + len(data)
        self.event(f"{how} {leg} {data.hex()}", f"{how} {leg}", verdict)

    def place(self, leg):
        """The place of the byte that comes next."""
        return self.came.get(leg, 0)

    def draw(self, leg, most, data, *names):
        """Up to so many bytes are drawn, and these come; packets among them have these names."""
        assert len(data) <= most
        answer = f"{len(data)} {data.hex()}" if data else "0"
        named = [f"name {name}" for name in names]
        self.script.say(f"draw {leg} {most}", f"draw {leg} {answer}", *named)

    def names(self, word):
        self.script.say(f"names {word}")

    def ended(self, leg, verdict=None):
        self.event(f"ended {leg}", f"ended {leg}", verdict)

    def broken(self, leg, verdict=None):
        self.event(f"broken {leg}", f"broken {leg}", verdict)

    def tick(self, now, verdict=None):
        self.event(f"tick {now}", f"tick {now}", verdict)

    # ---- ends and proxies

    def give(self, data, answer=None):
        """A PDU is offered, and accepted where nothing else is told."""
        answer = answer or f"ok {len(data)}"
        self.script.say(f"give {data.hex()}", f"give {self.side} {answer}")

    def take(self, answer):
        """A PDU is taken, or this is answered."""
        text = answer if isinstance(answer, str) else "pdu " + answer.hex()
        self.script.say("take", f"take {self.side} {text}")

    def close(self):
        self.script.say("close", f"close {self.side} ok")

    def recycle(self, answer):
        way = "in" if self.side == "c" else "out"
        self.script.say("recycle", f"recycle {way} {answer}")

    def state(self, answer=None):
        self.script.say("state", f"state {answer or self.verdict}")

    def channels(self, inbound, outbound):
        self.script.say("channels", f"channels in {inbound} out {outbound}")

    def target(self, answer):
        self.script.say("target", f"target {answer}")

    def first(self, data, kind):
        self.script.say(f"first {data.hex()}", f"first {kind}")
