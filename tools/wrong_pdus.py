"""Kinds of wrong reports: of PDUs, of clean ends, and of answers to gives."""
import itertools
import re

import walking
from planting import Kinds
from reports import OTHER

KINDS = Kinds()


# ---- PDUs


@KINDS.refused_by("order")
def pdu_doubled(good):
    """A PDU is taken twice."""
    for at, _, _ in good.takes():
        yield good.counted(good.with_lines(at, good.texts[at], good.texts[at]))


@KINDS.refused_by("order")
def pdu_doubled_later(good):
    """A PDU that was taken is taken again, behind others."""
    for (_, end, pdu), (at, _, _) in itertools.permutations(good.takes(), 2):
        if pdu not in good.pasts[at].taken[end]:
            continue
        yield good.counted(good.with_lines(at, good.texts[at], f"take {end} pdu {pdu}"))


@KINDS.refused_by("order")
def pdu_lost(good):
    """A PDU is left out, and the next one is taken."""
    for end in OTHER:
        for at, _, _ in good.takes(end)[:-1]:
            yield good.counted(good.silenced(at))


@KINDS.refused_by("order")
def pdus_swapped(good):
    """Two PDUs are taken in the other order."""
    for end in OTHER:
        takes = good.takes(end)
        for (one, _, _), (two, _, _) in zip(takes, takes[1:]):
            texts = good.with_lines(one, good.texts[two])
            texts[two] = good.texts[one]
            yield texts


@KINDS.refused_by("order")
def pdu_changed(good):
    """The last byte of a PDU is another."""
    for at, end, pdu in good.takes():
        yield good.with_lines(at, f"take {end} pdu {pdu[:-2]}{int(pdu[-2:], 16) ^ 1:02x}")


@KINDS.refused_by("order")
def pdu_cut_short(good):
    """A PDU lacks its last byte."""
    for at, end, pdu in good.takes():
        yield good.with_lines(at, f"take {end} pdu {pdu[:-2]}")


@KINDS.refused_by("order")
def pdus_joined(good):
    """Two PDUs are taken as one."""
    for end in OTHER:
        takes = good.takes(end)
        for (one, _, first), (two, _, second) in zip(takes, takes[1:]):
            texts = good.silenced(two)
            texts[one] = f"take {end} pdu {first}{second}"
            yield good.counted(texts)


@KINDS.refused_by("order")
def pdu_before_it_was_given(good):
    """A PDU is taken before it was given."""
    for at, end, pdu in good.takes():
        for to, _ in good.places(rf"give {OTHER[end]} ok \d+"):
            if pdu not in good.pasts[to].given[OTHER[end]] and to < at:
                yield good.moved(at, to)


@KINDS.refused_by("order")
def pdu_of_the_successor_early(good):
    """A PDU is taken before one that was given earlier, as if its channel came first."""
    for at, end, with_take in good.finding_nothing():
        for pdu in good.pasts[at].next(end)[1:]:
            if good.pasts[at].may_take(end):
                yield good.counted(with_take(f"take {end} pdu {pdu}"))


@KINDS.refused_by("order")
def pdu_that_nobody_gave(good):
    """A PDU is taken that no line offers."""
    for at, end, with_take in good.finding_nothing():
        if good.pasts[at].may_take(end) and not good.pasts[at].next(end):
            yield good.counted(with_take(f"take {end} pdu 050000031000000011000000ffffffff00"))


@KINDS.refused_by("order")
def pdu_that_was_refused(good):
    """A PDU is taken whose give was refused."""
    for at, match in good.places(r"give ([cs]) (?!ok).*"):
        count = sum(words[0] == "give" for words in good.words[:at])
        for to, end, with_take in good.finding_nothing():
            if to > at and end == OTHER[match[1]] and not good.pasts[to].next(end):
                yield good.counted(with_take(f"take {end} pdu {good.told.offers[count][1]}"))


@KINDS.refused_by("order")
def pdu_back_at_its_giver(good):
    """A PDU is taken at the end that gave it."""
    for at, end, pdu in good.takes():
        if good.pasts[at].may_take(OTHER[end]) and good.is_settling(at):
            yield good.counted(good.with_lines(at, f"take {OTHER[end]} pdu {pdu}"))


@KINDS.refused_by("taken")
def pdu_behind_the_close(good):
    """An end that closed takes what is next."""
    for at, match in good.places(r"take ([cs]) closed .*"):
        for pdu in good.pasts[at].next(match[1])[:1]:
            yield good.counted(good.with_lines(at, f"take {match[1]} pdu {pdu}"))


@KINDS.refused_by("taken")
def pdu_behind_the_clean_end(good):
    """An end takes the last PDU behind its clean end."""
    for at, match in good.places(r"take ([cs]) ended"):
        for to, _, _ in good.takes(match[1])[-1:]:
            yield good.moved(at, to)


@KINDS.refused_by("given")
def give_behind_close(good):
    """An end gives what it was refused, since it was told to give no more."""
    for at, match in good.places(r"give ([cs]) closing"):
        yield good.counted(good.with_lines(at, accepted(good, at)))


@KINDS.refused_by("given")
def give_of_an_end_that_closed(good):
    """An end that closed gives."""
    for at, _ in good.places(r"give [cs] closed .*"):
        yield good.counted(good.with_lines(at, accepted(good, at)))


def accepted(good, at):
    """The answer by which a give is accepted."""
    end, pdu = good.told.offers[sum(words[0] == "give" for words in good.words[:at])]
    return f"give {end} ok {len(pdu) // 2}"


@KINDS.refused_by("moved", "direct")
def byte_changed_as_it_moves(good):
    """A byte that moves is another."""
    for at, match in good.places(r"(move cs [ud] \d+ \w*)(\w\w)"):
        yield good.with_lines(at, f"{match[1]}{int(match[2], 16) ^ 1:02x}")


@KINDS.refused_by("moved", "direct")
def bytes_move_twice(good):
    """The same bytes move twice."""
    moves = good.places(r"move cs [ud] \d+ \w+")
    for (one, _), (two, _) in zip(moves, moves[1:]):
        yield good.with_lines(two, good.texts[one])


@KINDS.refused_by("found", "direct")
def whole_pdu_not_found(good):
    """A take doesn't find the PDU that came whole."""
    for at, _, _ in good.takes():
        yield good.counted(good.silenced(at))


@KINDS.refused_by("found", "direct")
def part_of_a_pdu_taken(good):
    """A PDU is taken that came in part."""
    for at, end, with_take in good.finding_nothing():
        for pdu in good.pasts[at].next(end)[:1]:
            yield good.counted(with_take(f"take {end} pdu {pdu}"))


# ---- clean ends


@KINDS.refused_by("ended")
def clean_end_with_one_missing(good):
    """An end reports a clean end, and the last PDU was not taken."""
    for _, match in good.places(r"take ([cs]) ended"):
        for to, _, _ in good.takes(match[1])[-1:]:
            yield good.counted(good.silenced(to))


@KINDS.refused_by("ended")
def clean_end_early(good):
    """An end reports a clean end where a PDU is still to be taken."""
    for at, end, with_take in good.finding_nothing():
        if good.pasts[at].next(end) and good.pasts[at].may_take(end):
            yield with_take(f"take {end} ended")


@KINDS.refused_by("stopped")
def clean_end_of_nobody(good):
    """An end reports a clean end, and the other end was not told to give no more."""
    for at, end, with_take in good.finding_nothing():
        past = good.pasts[at]
        if OTHER[end] not in past.closing and past.may_take(end) and not past.next(end):
            yield with_take(f"take {end} ended")


@KINDS.refused_by("stopped")
def clean_end_before_the_close(good):
    """An end reports a clean end, and the other end is told to give no more behind it."""
    for at, match in good.places(r"take ([cs]) ended"):
        for to, _ in good.places(rf"close {OTHER[match[1]]} ok")[:1]:
            yield good.moved(at, to)


@KINDS.refused_by("final")
def give_behind_the_clean_end(good):
    """An end gives behind the clean end that the other end reported."""
    for at, end, with_take in good.finding_nothing():
        past = good.pasts[at]
        gives = [to for to, _ in good.places(rf"give {OTHER[end]} ok \d+") if to > at]
        if gives and past.may_take(end) and not past.next(end):
            yield with_take(f"take {end} ended")


# ---- what goes on by itself


@KINDS.refused_by("at_rest")
def pdu_behind_quiet(good):
    """An end takes a PDU right behind a settling that was quiet."""
    pdus = [pdu for _, _, pdu in good.takes()]
    for at, match in good.places(r"take ([cs]) (?:empty|ended|closed .*)"):
        if pdus and good.words[at - 1][:1] == ("quiet",):
            yield good.counted(good.with_lines(at, f"take {match[1]} pdu {pdus[-1]}"))


def at_quiet(good):
    """Each quiet settling behind which no leg is lost by a line, no node closed and no channel has a
    successor: the indices of its answers.
    """
    for at, _ in good.places(r"quiet \d+"):
        part, before = good.told.own[at], " ".join(good.texts[: at + 1])
        lines = good.told.lines[: good.told.lines.index(part.line)]
        is_lost = any(line[0] in ("break", "end") for line in lines)
        if not is_lost and not re.search(r"closed |open (?:is|co)2 ", before):
            yield range(part.begin, at)


@KINDS.refused_by("waiting", "roles")
def pdu_not_taken_by_rounds(good):
    """A settling is quiet, and a PDU that came is not taken."""
    for answers in at_quiet(good):
        for at in answers:
            if good.words[at][0] == "take" and good.words[at][2] == "pdu":
                yield good.counted(good.silenced(at))
                break


@KINDS.refused_by("waiting", "roles")
def message_in_part_at_quiet(good):
    """A settling is quiet, and the last byte of a message is not fed."""
    for answers in at_quiet(good):
        moves = [at for at in answers if good.words[at][0] == "move"]
        ended = [good.words[at][1] for at in answers if good.words[at][0] == "end"]
        for at in moves[-1:]:
            leg, way, count, data = good.words[at][1:]
            if leg not in ended and int(count) > 1:
                yield good.with_lines(at, f"move {leg} {way} {int(count) - 1} {data[:-2]}")


@KINDS.refused_by("delivered", "roles")
def pdu_left_at_quiet(good):
    """A settling in calm is quiet, and the last PDU that an end takes there is not taken."""
    for at, _ in good.places(r"quiet \d+"):
        part = good.told.own[at]
        if not walking.is_calm_until(good.told, part.line):
            return
        takes = [it for it, _, _ in good.takes() if part.begin <= it < at]
        for take in takes[-1:]:
            if walking.has_room(good.told, good.legs_at(at)):
                yield good.counted(good.silenced(take))


# ---- answers to gives


@KINDS.refused_by("sides")
def give_names_the_other_end(good):
    """An answer to a give names the other end."""
    for at, match in good.places(r"give ([cs]) (.*)"):
        yield good.counted(good.with_lines(at, f"give {OTHER[match[1]]} {match[2]}"))


@KINDS.refused_by("sides")
def give_not_answered(good):
    """A give has no answer."""
    for at, _ in good.places(r"give .*"):
        yield good.counted(good.with_lines(at))


@KINDS.refused_by("sides")
def give_answered_twice(good):
    """A give has two answers."""
    for at, _ in good.places(r"give .*"):
        yield good.counted(good.with_lines(at, good.texts[at], good.texts[at]))
