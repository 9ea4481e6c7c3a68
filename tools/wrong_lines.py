"""Kinds of wrong reports: of the last lines, and of which answers there are."""
import re

import walking
from planting import Kinds
from reports import OTHER

KINDS = Kinds()
# More rounds than any settling of these recordings may do.
MANY_ROUNDS = 10_000


# ---- the last lines


@KINDS.refused_by("counts", "roles")
def count_of_given_above(good):
    """One PDU too many is counted as given."""
    yield from with_count(good, "given", 1)


@KINDS.refused_by("counts", "roles")
def count_of_taken_below(good):
    """One PDU too few is counted as taken."""
    yield from with_count(good, "taken", -1)


@KINDS.refused_by("direct_counts", "direct")
def direct_count_of_given_below(good):
    """One PDU too few is counted as given in a direct recording."""
    yield from with_count(good, "given", -1)


@KINDS.refused_by("direct_counts", "direct")
def direct_count_of_taken_above(good):
    """One PDU too many is counted as taken in a direct recording."""
    yield from with_count(good, "taken", 1)


def with_count(good, word, more):
    """The reports that count so many more for one direction."""
    for at, match in good.places(rf"(.* )?{word} (\d+)( .*)?"):
        if int(match[2]) + more >= 0:
            count = int(match[2]) + more
            yield good.with_lines(at, f"{match[1]}{word} {count}{match[3] or ''}")


@KINDS.refused_by("counts", "roles")
def counts_swapped(good):
    """The counts of the directions stand the other way round."""
    (at, up), (_, down) = good.places(r"(?:up|down) (given .*)")
    if up[1] != down[1]:
        yield good.with_lines(at, f"up {down[1]}", f"down {up[1]}", until=at + 2)


@KINDS.refused_by("counts", "roles")
def refused_gives_counted(good):
    """Gives that were refused are counted."""
    for at, match in good.places(r"up given (\d+) (.*)"):
        offered = sum(end == "c" for end, _ in good.told.offers)
        if offered != int(match[1]):
            yield good.with_lines(at, f"up given {offered} {match[2]}")


@KINDS.refused_by("counts", "roles")
def counts_left_out(good):
    """The counts of a direction are left out."""
    for at, _ in good.places(r"(?:up|down) .*"):
        yield good.with_lines(at)


def last_lines(good):
    """Where the last lines begin, and what they are."""
    at = good.places(r"up .*")[0][0]
    return at, good.texts[at:]


def wrongly_counted(lines):
    """Last lines that count one PDU more."""
    more = [re.sub(r"\d+$", lambda it: str(int(it[0]) + 1), line) for line in lines[:2]]
    return more + lines[2:]


@KINDS.refused_by("last", "roles")
def last_lines_doubled(good):
    """The last lines stand twice."""
    yield good.texts + last_lines(good)[1]


@KINDS.refused_by("last", "roles")
def last_lines_and_then_wrong_ones(good):
    """Wrong last lines stand behind the right ones."""
    yield good.texts + wrongly_counted(last_lines(good)[1])


@KINDS.refused_by("last", "roles")
def wrong_last_lines_and_then_right_ones(good):
    """Wrong last lines stand before the right ones."""
    at, lines = last_lines(good)
    yield good.texts[:at] + wrongly_counted(lines) + lines


@KINDS.refused_by("last", "roles")
def wrong_counts_and_then_right_ones(good):
    """Wrong counts stand before the last lines."""
    at, lines = last_lines(good)
    yield good.texts[:at] + wrongly_counted(lines)[:2] + lines


@KINDS.refused_by("last", "roles")
def answer_behind_the_last_lines(good):
    """An answer stands behind the last lines."""
    yield good.texts + ["take c empty"]


@KINDS.refused_by("last", "roles")
def state_left_out(good):
    """The state of an end is left out."""
    for at, _ in good.places(r"(?:client|server) .*"):
        yield good.with_lines(at)


@KINDS.refused_by("last", "roles")
def states_swapped(good):
    """The server's state stands before the client's."""
    for at, _ in good.places(r"client .*"):
        yield good.moved(at, at + 2)


@KINDS.refused_by("direct_counts", "direct")
def direct_last_lines_doubled(good):
    """The last lines of a direct recording stand twice."""
    yield good.texts + last_lines(good)[1]


@KINDS.refused_by("direct_counts", "direct")
def direct_last_lines_and_then_wrong_ones(good):
    """Wrong last lines stand behind the right ones of a direct recording."""
    yield good.texts + wrongly_counted(last_lines(good)[1])


@KINDS.refused_by("direct_counts", "direct")
def states_of_a_direct_recording(good):
    """The last lines of a direct recording tell states."""
    yield good.texts + ["client open in 1 out 1", "server open in 1 out 1"]


# ---- the form of a report


@KINDS.refused_by("answers")
def take_not_answered(good):
    """A take has no answer."""
    for at, _ in good.places(r"take [cs] (?:empty|closed .*)"):
        yield good.with_lines(at)


@KINDS.refused_by("answers")
def close_of_the_other_end(good):
    """An answer to a close names the other end."""
    for at, match in good.places(r"close ([cs]) ok"):
        yield good.with_lines(at, f"close {OTHER[match[1]]} ok")


@KINDS.refused_by("answers")
def answer_to_nothing(good):
    """An answer stands where no line asks for it."""
    at, _ = last_lines(good)
    yield good.with_lines(at, "take c empty", good.texts[at])


@KINDS.refused_by("answers")
def number_as_a_word(good):
    """A number is told as a word."""
    for at, _ in good.places(r"quiet \d+"):
        yield good.with_lines(at, "quiet two")


@KINDS.refused_by("answers")
def channel_without_a_number(good):
    """A channel has the number 0."""
    for at, match in good.places(r"((?:client|server) \w+) in \d+ out (\d+)"):
        yield good.with_lines(at, f"{match[1]} in 0 out {match[2]}")


@KINDS.refused_by("answers")
def give_of_another_length(good):
    """A give is answered with another length than the PDU has."""
    for at, match in good.places(r"give ([cs]) ok (\d+)"):
        yield good.with_lines(at, f"give {match[1]} ok {int(match[2]) - 1}")


@KINDS.refused_by("answers")
def last_line_cut(good):
    """The last line ends without LF."""
    yield good.texts, ""


@KINDS.refused_by("closing")
def give_full_behind_close(good):
    """A give behind the close is refused since the queue is full."""
    for at, match in good.places(r"give ([cs]) closing"):
        yield good.with_lines(at, f"give {match[1]} full 262144 24")


@KINDS.refused_by("closing")
def give_closing_without_close(good):
    """A give is refused with closing, and the end was not told to give no more."""
    for at, match in good.places(r"give ([cs]) ok \d+"):
        yield good.counted(good.with_lines(at, f"give {match[1]} closing"))


@KINDS.refused_by("rounds")
def round_too_many(good):
    """A settling tells more rounds than were asked for."""
    for at, match in good.places(r"(quiet|spent) \d+"):
        yield good.with_lines(at, f"{match[1]} {int(good.told.own[at].line[1]) + 1}")


@KINDS.refused_by("rounds")
def quiet_where_spent(good):
    """A settling that did as many rounds as were asked for is quiet."""
    for at, match in good.places(r"spent (\d+)"):
        yield good.with_lines(at, f"quiet {match[1]}")


@KINDS.refused_by("rounds")
def spent_too_early(good):
    """A settling is spent before it did as many rounds as were asked for."""
    for at, match in good.places(r"(?:spent|quiet) ([1-9]\d*)"):
        yield good.with_lines(at, f"spent {int(match[1]) - 1}")


@KINDS.refused_by("rounds")
def round_that_did_nothing(good):
    """A settling tells a take that found nothing."""
    for at, _ in good.places(r"(?:spent|quiet) \d+"):
        yield good.with_lines(at, "take s empty", good.texts[at])


@KINDS.refused_by("rounds")
def clean_end_told_twice(good):
    """A settling tells a clean end that was told before."""
    for at, _ in good.places(r"take [cs] ended"):
        if good.is_settling(at):
            yield good.with_lines(at, good.texts[at], good.texts[at])


@KINDS.refused_by("bounded", "roles")
def settling_that_does_not_end(good):
    """A settling in calm that may do many rounds does them all."""
    for at, _ in good.places(r"quiet \d+"):
        part = good.told.own[at]
        if int(part.line[1]) >= MANY_ROUNDS and walking.is_calm_until(good.told, part.line):
            yield good.with_lines(at, f"spent {part.line[1]}")
