"""Kinds of wrong reports: of nodes that close, and of what names the cause."""
import re

from planting import Kinds
from reports import NAMES

KINDS = Kinds()
# A leg at each end.
LEGS = {"c": "co1", "s": "os1"}


@KINDS.refused_by("once")
def closed_line_doubled(good):
    """The line by which a node closed stands twice."""
    for at, _ in good.places(r"closed .*"):
        yield good.with_lines(at, good.texts[at], good.texts[at])


@KINDS.refused_by("once")
def closed_line_again_later(good):
    """The line by which a node closed stands again behind a later answer."""
    for at, _ in good.places(r"closed .*"):
        for part in good.told.parts[:-1]:
            if part.begin > at:
                texts = list(good.texts)
                texts.insert(part.closed, good.texts[at])
                yield texts


@KINDS.refused_by("in_turn")
def closed_lines_swapped(good):
    """Two nodes that one line closed stand in the other order."""
    for at, _ in good.places(r"closed .*"):
        if good.words[at + 1][0] == "closed":
            yield good.moved(at, at + 2)


@KINDS.refused_by("reported")
def closed_line_left_out(good):
    """The line by which an end closed is left out."""
    for at, _ in good.places(r"closed [cs] .*"):
        yield good.with_lines(at)


@KINDS.refused_by("reported")
def closed_line_late(good):
    """The line by which an end closed stands behind an answer that names its cause."""
    for at, match in good.places(r"closed ([cs]) (.*)"):
        later = good.places(rf"(?:give|take) {match[1]} closed {re.escape(match[2])}")
        for to, _ in later[:1]:
            yield good.moved(at, to + 1)


@KINDS.refused_by("reported")
def close_of_an_end_that_goes_on(good):
    """An answer names a cause, and that end never closed."""
    for at, match in good.places(r"take ([cs]) empty"):
        if match[1] not in good.pasts[at].causes:
            yield good.with_lines(at, f"take {match[1]} closed 1 LegBroken {LEGS[match[1]]}")


@KINDS.refused_by("reported")
def last_line_of_an_end_that_goes_on(good):
    """The last line of an end names a cause, and that end never closed."""
    for at, match in good.places(r"(client|server) (?:open|ended|opening) .*"):
        yield good.with_lines(at, f"{match[1]} closed 1 LegBroken {LEGS[match[1][0]]}")


@KINDS.refused_by("named")
def last_line_forgets_the_close(good):
    """The last line of an end that closed tells another state."""
    for at, match in good.places(r"(client|server) closed .*"):
        yield good.with_lines(at, f"{match[1]} open in 1 out 1")


@KINDS.refused_by("named")
def take_forgets_the_close(good):
    """A take at an end that closed finds nothing, and doesn't tell the close."""
    for at, match in good.places(r"take ([cs]) closed .*"):
        yield good.with_lines(at, f"take {match[1]} empty")


@KINDS.refused_by("named")
def give_forgets_the_close(good):
    """A give at an end that closed is refused with another reason."""
    for at, match in good.places(r"give ([cs]) closed .*"):
        yield good.with_lines(at, f"give {match[1]} closing")


@KINDS.refused_by("named")
def cause_changes(good):
    """An answer of an end that closed names another cause than its line does."""
    for at, match in good.places(r"(.*) closed \d+ \w+ (\w+)\b.*"):
        if good.words[at][0] != "closed":
            yield good.with_lines(at, f"{match[1]} closed 13 BodyOver {match[2]} 7 6")


# What stands behind the leg in a cause that no honest node has.
DISHONEST = {
    "3 BadFrame": "0 Version 4",
    "4 BadPacket": "0 BadFlags 16",
    "5 Unexpected": "0",
    "6 CookieMismatch": "00000000-0000-0000-0000-000000000001 00000000-0000-0000-0000-000000000002",
    "7 WindowExceeded": "65537 65536",
    "8 OutOfRange": "0 8191",
    "10 BadHead": "0 Syntax",
    "12 ControlFull": "",
    "13 BodyOver": "7 6",
}


def closes(good):
    """Each line by which a node closed: the index, the node, and the words of the cause."""
    found = [(at, words) for at, words in enumerate(good.words) if words[0] == "closed"]
    return [(at, words[1], words[2:]) for at, words in found]


def with_cause(good, at, *cause):
    """The lines where a node closed with another cause, which is told wherever it is named."""
    node, old = good.words[at][1], " ".join(good.words[at][2:])
    names = rf"closed {node}|(?:give|take) {node} closed|{NAMES.get(node)} closed"
    named = re.compile(rf"({names}) {re.escape(old)}")
    new = " ".join(word for word in cause if word)
    return [named.sub(rf"\1 {new}", text) for text in good.texts]


def closing_with(number, name, more):
    """A kind of mistake: a node closes with a cause that no honest node has."""

    def plant(good):
        for at, _, cause in closes(good):
            yield with_cause(good, at, number, name, cause[2], more)

    plant.__name__ = f"closed_with_{name}"
    plant.__doc__ = f"A node closes with {name}, of which no honest peer is the cause."
    KINDS.refused_by("honest")(plant)


for _cause, _more in DISHONEST.items():
    closing_with(*_cause.split(" "), _more)


def is_lost(good, at, leg):
    """Whether the answers of the line at this index tell that the leg broke or ended."""
    own = good.told.own_answers(at)
    return any(words[0] in ("break", "end") and words[1] == leg for words in own)


@KINDS.refused_by("shown")
def close_of_another_channel(good):
    """A node closes for the same leg of another channel."""
    for at, _, cause in closes(good):
        leg = f"{cause[2][:2]}{int(cause[2][2:]) + 1}"
        if cause[1] != "Silent" and not is_lost(good, at, leg):
            yield with_cause(good, at, *cause[:2], leg, *cause[3:])


@KINDS.refused_by("shown")
def close_for_another_leg(good):
    """A node closes for another leg of the same channel."""
    for at, _, cause in closes(good):
        kind = {"ci": "is", "is": "ci", "co": "os", "os": "co"}[cause[2][:2]]
        if cause[1] != "Silent" and not is_lost(good, at, kind + cause[2][2:]):
            yield with_cause(good, at, *cause[:2], kind + cause[2][2:], *cause[3:])


@KINDS.refused_by("shown")
def close_at_a_later_line(good):
    """A node closes behind a later line than the one that closed it."""
    for at, _, _ in closes(good):
        for part in good.told.parts[:-1]:
            if part.begin > at:
                yield good.moved(at, part.closed)


@KINDS.refused_by("shown")
def close_at_an_earlier_line(good):
    """A node closes behind an earlier line than the one that closed it."""
    for at, _, _ in closes(good):
        for part in good.told.parts[:-1]:
            if part.closed <= good.told.own[at].begin:
                yield good.moved(at, part.closed)


@KINDS.refused_by("shown")
def end_for_a_break(good):
    """A node closes for the end of a leg, which broke."""
    for at, _, cause in closes(good):
        if f"break {cause[2]} ok" in good.texts and cause[1] == "LegBroken":
            yield with_cause(good, at, "2", "LegEnded", cause[2], "0")


@KINDS.refused_by("shown")
def silence_at_another_moment(good):
    """A node closes for silence until another moment than the one that was told."""
    for at, _, cause in closes(good):
        if cause[1] == "Silent":
            yield with_cause(good, at, *cause[:4], str(int(cause[4]) + 1))


@KINDS.refused_by("licensed")
def close_of_another_node(good):
    """A node closes for what two others were told."""
    for at, node, cause in closes(good):
        for other in {"c", "s", "i1", "o1"} - {end for _, end, _ in closes(good)}:
            if other[0] not in cause[2][:2]:
                yield good.with_lines(at, f"closed {other} {' '.join(cause)}")


@KINDS.refused_by("licensed")
def close_of_another_proxy(good):
    """A proxy closes for a leg of another channel's proxy."""
    for at, node, cause in closes(good):
        if node[0] in "io":
            yield good.with_lines(at, f"closed {node[0]}{int(node[1:]) + 7} {' '.join(cause)}")


@KINDS.refused_by("licensed")
def break_for_an_end(good):
    """The node to which a leg was ended closes as the one does to which it is lost."""
    for at, _, cause in closes(good):
        if cause[1] == "LegEnded":
            yield with_cause(good, at, "1", "LegBroken", cause[2])


@KINDS.refused_by("licensed")
def end_for_a_loss(good):
    """The node that ended a leg closes as the other one does."""
    for at, node, cause in closes(good):
        if cause[1] == "LegBroken" and f"break {cause[2]} ok" not in good.texts:
            yield with_cause(good, at, "2", "LegEnded", cause[2], "0")


@KINDS.refused_by("licensed")
def end_with_bytes_held(good):
    """A node closes for an end amid a frame, and no frame was unfinished."""
    for at, _, cause in closes(good):
        if cause[1] == "LegEnded":
            yield with_cause(good, at, *cause[:3], str(int(cause[3]) + 5))


@KINDS.refused_by("refused")
def refusal_with_another_status(good):
    """The client is refused with another status than that of the response."""
    for at, _, cause in closes(good):
        if cause[1] == "HttpRefused":
            yield with_cause(good, at, *cause[:3], "404")


@KINDS.refused_by("refused")
def refusal_of_a_proxy(good):
    """An in proxy closes for a refused request, which is the client's."""
    for at, _, cause in closes(good):
        if cause[1] == "HttpRefused":
            texts = good.with_lines(at, f"closed i1 {' '.join(cause)}")
            yield [text for text in texts if not text.startswith("closed i1 1 ")]


@KINDS.refused_by("refused")
def refusal_before_the_response(good):
    """The client is refused before the response is whole."""
    for at, _, cause in closes(good):
        if cause[1] != "HttpRefused":
            continue
        for to, match in good.places(rf"move {cause[2]} d \d+ (\w\w).*"):
            yield good.with_lines(to, f"move {cause[2]} d 1 {match[1]}")


@KINDS.refused_by("refusals")
def refusal_with_a_status_of_its_own(good):
    """The response itself has another status than 503."""
    for at, _, cause in closes(good):
        if cause[1] == "HttpRefused":
            texts = with_cause(good, at, *cause[:3], "404")
            yield [text.replace(b" 503 ".hex(), b" 404 ".hex()) for text in texts]


@KINDS.refused_by("refusals")
def refusal_without_a_break(good):
    """The client is refused, and the proxy's leg to the server did not break."""
    for _, _, cause in closes(good):
        if cause[1] == "HttpRefused":
            broken = [f"break {server_leg} ok" for server_leg in (f"is{cause[2][2:]}",)]
            texts = [text.replace(" ok", " no") if text in broken else text for text in good.texts]
            yield [text for text in texts if not text.startswith("closed i")]


@KINDS.refused_by("silent")
def silence_since_another_moment(good):
    """A node closes for silence since another moment than the last byte."""
    for at, _, cause in closes(good):
        if cause[1] == "Silent":
            yield with_cause(good, at, *cause[:3], str(int(cause[3]) + 1), cause[4])


@KINDS.refused_by("silent")
def silence_too_short(good):
    """A node closes for silence before the leg was silent for as long as it may be."""
    for at, _, cause in closes(good):
        for part in good.told.parts[:-1] if cause[1] == "Silent" else ():
            words = good.words[part.begin]
            if words[0] == "tick" and words[2] == "ok" and int(words[1]) < int(cause[4]):
                texts = with_cause(good, at, *cause[:4], words[1])
                yield [*texts[: part.closed], texts[at], *texts[part.closed : at], *texts[at + 1 :]]


@KINDS.refused_by("silent")
def silence_at_the_server(good):
    """The server closes for silence, which watches no leg."""
    for at, node, cause in closes(good):
        if cause[1] == "Silent" and node == "c":
            lines = good.texts[at], f"closed s 11 Silent os1 {cause[3]} {cause[4]}"
            texts = good.with_lines(at, *lines)
            yield [*texts[:-1], f"server {lines[1].replace(' s ', ' ')}"]


@KINDS.refused_by("silent")
def silence_of_the_other_leg(good):
    """The client closes for silence of its IN channel, and an in proxy for that of its server."""
    for at, node, cause in closes(good):
        if cause[1] == "Silent":
            leg = {"c": "ci", "i": "is"}[node[0]] + cause[2][2:]
            yield with_cause(good, at, *cause[:2], leg, *cause[3:])


@KINDS.refused_by("calm")
def close_while_nothing_ends(good):
    """A node closes, and no line so far ends a leg, breaks it or lets it be silent."""
    for part in good.told.parts[:-1]:
        if part.line[0] in ("break", "end", "tick"):
            return
        line = "closed s 1 LegBroken os1"
        yield [*good.texts[: part.closed], line, *good.texts[part.closed :]]


@KINDS.refused_by("calm")
def end_without_a_settling(good):
    """A node closes for the end of a leg, by another line than a settling."""
    for part in good.told.parts[:-1]:
        if part.line[0] in ("break", "end", "tick"):
            return
        if part.line[0] != "settle":
            line = "closed s 2 LegEnded os1 0"
            yield [*good.texts[: part.closed], line, *good.texts[part.closed :]]


@KINDS.refused_by("unclosed")
def end_by_a_settling(good):
    """A node closes for the end of a leg by a settling, and no line so far ends or breaks one."""
    for part in good.told.parts[:-1]:
        if part.line[0] in ("break", "end", "tick"):
            return
        if part.line[0] == "settle":
            line = "closed s 2 LegEnded is1 0"
            yield [*good.texts[: part.closed], line, *good.texts[part.closed :]]
