"""The rules by which reports are walked, each beside the clause that it stands for.

A rule is a function, and its first sentence is what it says. Above it stands the clause: a field of
Claims, which `run` of law_run proves of every recording, or behind a dot a field of what that one
says; or None, and why. A rule refuses no report that keeps its clause. It may pass one that breaks
it, where the clause speaks of more than a report shows.

ALL has the rules by their names, and OVER_WORLDS the other fields of Claims. The rules know nothing
of the program, nor of channels, windows and packets.
"""
import collections
import itertools

from reports import LAST, OTHER, WORDS, Past, Report

Rule = collections.namedtuple("Rule", "name sentence clause reason of find")
ALL = {}

# Why a rule has no clause.
DEFINED = "what a line is answered is the definition of a report itself"
TRIED = "no clause says it yet: it is tried on recordings, and not proved of the program"
# The fields of Claims that no rule stands for, since they speak of worlds behind lines: what each
# refuses of which a report alone shows nothing.
OVER_WORLDS = {
    "held": "A node holds more of a channel's PDUs than its window.",
    "onwards": "The same in the midst of a line, or behind half steps from there.",
    "hops": "On a leg more is put than was told, or more acknowledged than came.",
    "directly": "A PDU of a direct recording was given, not taken, and is nowhere between.",
    "ways": (
        "A PDU was given, not taken, and is on no way, and no leg was lost; "
        "or something stands behind a handover mark."
    ),
    "told": "What the report tells as given and taken, and what is on its way, don't fit.",
    "told_exactly": (
        "A PDU that the report tells as given is lost, no node closed, "
        "and no leg was lost but such as were over."
    ),
    "turns": "An RPC PDU of a successor passes its in proxy early, or comes so to the server.",
    "exact": "A PDU is lost, no node closed, and no leg was lost but such as were over.",
    "closes": "A node closes and is never reported so, nor names its cause in any answer.",
    "audited": (
        "The audit of its capture tells a fault, "
        "or that far legs carried no front of what near ones did."
    ),
}
FROM_OUTSIDE = {("1", "LegBroken"), ("2", "LegEnded"), ("9", "HttpRefused"), ("11", "Silent")}
# By a node's letter: the legs that it watches, the way in which it hears there, and the setting of
# how long they may be silent.
WATCHED = {"c": ("co", "d", "otime"), "i": ("ci", "u", "itime")}
SILENT_AFTER = 120_000
# By the kind of leg on which an end writes: the way, the setting of its channels' lifetime, that
# where none is set, and the bytes that have room in one for whatever may go next.
WRITTEN = {"ci": ("u", "ilife"), "os": ("d", "olife")}
LIFETIME, LEAST_LEFT = 1_073_741_824, 8_448
# The rounds of a settling that end it in calm: some, and so many for each thing to be done.
ROUNDS, ROUNDS_EACH = 200, 40
# The bytes of the shortest packet, and how many packets may wait at the nodes of a leg.
SHORTEST, WAITING = 20, 4
# By end, the legs on which it takes what the other gave, and the way on them; and the type of an RTS
# PDU, as hex.
FAR_LEGS = {"s": ("is", "u"), "c": ("co", "d")}
RTS = "14"
# How many words of a line stand in its answer too, where not all do: not what it offers, nor how
# much it asks for. The end of a give has a rule of its own.
OWN_WORDS = {"give": 1, "send": 3, "move": 3}


def keeps(clause, reason, of):
    def add(find):
        sentence = " ".join(find.__doc__.split())
        ALL[find.__name__] = Rule(find.__name__, sentence, clause, reason, of, find)
        return find

    return add


def answer_rule(of, clause, reason=None):
    """A rule of the answers that begin with one of these words: it tells what is wrong with one,
    behind what was told before it, or None.
    """
    return keeps(clause, reason, of.split(" "))


def report_rule(clause, reason=None):
    """A rule of a whole report: it tells the index of each wrong answer, and what is wrong."""
    return keeps(clause, reason, [])


# ---- what was given and taken


@answer_rule("take", "ordered.in_order")
def order(report, past, at, words):
    """What an end took is a front of what the other end gave, each PDU once and in order."""
    if words[2] == "pdu":
        giver, count = OTHER[words[1]], len(past.taken[words[1]])
        if past.given[giver][count : count + 1] != [words[3]]:
            return f"the PDU is not number {count + 1} of those that {giver} gave"


@answer_rule("take", "ordered.none_taken_after")
def taken(report, past, at, words):
    """An end takes nothing once it has closed, or reported a clean end."""
    if words[2] == "pdu" and words[1] in past.closed | past.ended:
        return f"{words[1]} takes after it closed or reported a clean end"


@answer_rule("give", "ordered.none_given_after")
def given(report, past, at, words):
    """An end gives nothing once it has closed, or was told to give no more."""
    if past.is_given(words) and words[1] in past.closed | past.closing:
        return f"{words[1]} gives after it closed or was told to give no more"


@answer_rule("take", "ordered.all_at_clean_end")
def ended(report, past, at, words):
    """At a clean end, all that the other end gave was taken."""
    if words[2] == "ended":
        if past.taken[words[1]] != past.given[OTHER[words[1]]]:
            return f"{words[1]} reports a clean end, and not all was taken"


@answer_rule("take", "ends.told")
def stopped(report, past, at, words):
    """Before a clean end, the other end was told to give no more."""
    if words[2] == "ended" and OTHER[words[1]] not in past.closing:
        return f"{words[1]} reports a clean end, and {OTHER[words[1]]} was not told to close"


@answer_rule("give", "ends.gives_none")
def final(report, past, at, words):
    """Behind a clean end, the other end gives nothing."""
    if past.is_given(words) and OTHER[words[1]] in past.ended:
        return f"{words[1]} gives behind the clean end that {OTHER[words[1]]} reported"


@report_rule("sides")
def sides(report, past):
    """The answers to gives name the ends of their lines: the first that of the first, and so on."""
    offering = [end for end, _ in report.offers]
    giving = [at for at, words in enumerate(report.answers) if words[:1] == ("give",)]
    for count, at in enumerate(giving):
        if offering[count : count + 1] != [report.answers[at][1]]:
            yield at, f"no give line number {count + 1} is of this end"
            return
    if len(giving) < len(offering):
        yield report.end, f"{len(giving)} of {len(offering)} gives have an answer"


# ---- the last lines


@report_rule("counted")
def counts(report, past):
    """A report of roles counts what was given and taken, in each direction."""
    if not report.is_direct and not counting(report, past):
        yield report.end, "; ".join(report.count_lines(past))


def counting(report, past):
    """Where the counts stand of all that the report tells."""
    counted = list(report.count_lines(past))
    return [at for at in range(len(report.texts)) if report.texts[at : at + 2] == counted]


@report_rule("last")
def last(report, past):
    """The last lines of roles are these counts and each end's state, and nothing is behind them."""
    if report.is_direct:
        return
    if [words[:1] for words in report.answers[-4:]] != [(name,) for name in LAST]:
        yield report.end, f"the last lines tell {', '.join(LAST)}"
    elif len(report.texts) - 4 not in counting(report, past):
        yield report.end - 3, "the last lines count something else"
    for at, words in enumerate(report.answers[:-4]):
        if words[:1] and words[0] in LAST:
            yield at, "this is told in the last lines alone"


# ---- ends that closed


def told_by(words):
    """The end that an answer to a give or a take is of, or a last line, and what it tells."""
    if words[0] in ("give", "take"):
        return words[1], words[2:]
    return words[0][0], words[1:]


@answer_rule("give take client server", "named")
def named(report, past, at, words):
    """Behind the report of its close, each answer of an end names the same cause."""
    end, tells = told_by(words)
    if end in past.causes and tells != ("closed", *past.causes[end]):
        return f"{end} closed with {' '.join(past.causes[end])}"


@answer_rule("give take client server", "reported")
def reported(report, past, at, words):
    """An answer of an end names no cause, but one that was reported before for that end."""
    end, tells = told_by(words)
    if tells[:1] == ("closed",) and (end, *tells[1:]) not in past.reported:
        return f"no line before reports {end} as closed with this cause"


# ---- why nodes close


@answer_rule("closed", "once")
def once(report, past, at, words):
    """Each node is reported as closed once at most."""
    if words[1] in past.causes:
        return f"{words[1]} closed before"


@answer_rule("closed", "honest")
def honest(report, past, at, words):
    """A node closes for a break, an end, a refused request or silence, and for nothing else."""
    if words[2:4] not in FROM_OUTSIDE:
        return f"no node of a recording closes with {words[3]}"


@answer_rule("closed", "reasons.shown")
def shown(report, past, at, words):
    """The cause of a close shows in the answers of its line."""
    if not shows(report.own_answers(at), words[2:]):
        return f"no answer of this line shows why {words[1]} closed"


def shows(answers, cause):
    """Whether one of the answers is what the cause tells of."""
    number, leg = cause[0], cause[2]
    own = [words for words in answers if words[1:2] == (leg,)]
    if number == "1":
        return any(words[0] in ("break", "end") and words[-1] == "ok" for words in own)
    if number == "2":
        return any(words[0] == "end" and words[-1] == "ok" for words in own)
    if number == "11":
        return ("tick", cause[-1], "ok") in answers
    # A node that has no room on one leg was fed on another.
    moved = [words for words in (answers if number == "12" else own) if words[:1] == ("move",)]
    return any(words[-1] != "no" for words in moved)


@answer_rule("closed", "reasons.licensed")
def licensed(report, past, at, words):
    """A node closes for what it was told itself: it stands at the leg, and on that side of it."""
    node, number, leg = words[1], words[2], words[4]
    legs = past.legs
    if number == "1":
        is_told = node in legs.breaks.get(leg, ()) or node == legs.losses.get(leg)
    elif number == "2":
        is_told = (node, words[5]) == legs.ends.get(leg)
    else:
        is_told = node in (legs.node(leg, leg[0]), legs.node(leg, leg[1]))
    return None if is_told else f"nothing that {node} was told closes it so"


@answer_rule("closed", "reasons.refused")
def refused(report, past, at, words):
    """A refused request closes the client, for a response of that status that a move made whole."""
    if words[3] != "HttpRefused":
        return None
    leg, status = words[4], words[5]
    part, whole_at = report.own[at], past.legs.headed.get((leg, "d"), -1)
    is_refused = part.begin <= whole_at < part.closed and words[1] == "c"
    if not is_refused or past.legs.stream(leg, "d").status() != status:
        return "no response of this status was whole for the client by this line"


@answer_rule("closed", "reasons.silent")
def silent(report, past, at, words):
    """Silence closes the client or an in proxy, after the time told or set, since the last byte."""
    if words[3] != "Silent":
        return None
    leg, since, now = words[4], int(words[5]), int(words[6])
    kind, way, key = WATCHED.get(words[1][0], ("none", "u", ""))
    if leg[:2] != kind or past.legs.moment != now:
        return f"{words[1]} watches no such leg, or this is not the moment"
    if past.legs.heard.get((leg, way)) != since:
        return f"the last byte on {leg} came at another moment"
    if now - since < report.settings.get(key, SILENT_AFTER):
        return "a leg may be silent for longer"


@answer_rule("closed", "refusals")
def refusals(report, past, at, words):
    """A request is refused with 503, behind the break of that channel's leg to the server."""
    if words[3] == "HttpRefused":
        server_leg = {"co": "os", "ci": "is"}.get(words[4][:2], "none") + words[4][2:]
        if words[5] != "503" or server_leg not in past.legs.breaks:
            return f"the status is not 503, or no line reports that {server_leg} broke"


@answer_rule("closed", "calm")
def calm(report, past, at, words):
    """While no line ends a leg, breaks it or lets it be silent, a node closes by settling alone."""
    own = report.own[at].line
    if is_calm_until(report, own) and (own[0] != "settle" or words[3] != "LegEnded"):
        return "no line so far gives a reason, and no settling ended a leg"


@answer_rule("closed", None, TRIED)
def unclosed(report, past, at, words):
    """While no line ends a leg, breaks it or lets it be silent, no node closes."""
    if is_calm_until(report, report.own[at].line):
        return f"{words[1]} closed, and no line so far ended a leg, broke it or let it be silent"


def front_of(report, own):
    """The lines before one."""
    return itertools.takewhile(lambda line: line is not own, report.lines)


def is_calm_until(report, own):
    """Whether a line and all before it are calm."""
    return is_calm(own) and all(map(is_calm, front_of(report, own)))


def is_calm(line):
    """Whether a line, as words, ends no leg, breaks none and tells no late moment."""
    if line[0] == "tick":
        return int(line[1]) < SILENT_AFTER
    return line[0] not in ("break", "end")


# ---- what goes on by itself


@answer_rule("take move", "rests")
def at_rest(report, past, at, words):
    """Right behind a settling that was quiet nothing is taken, and no bytes move."""
    part = report.own[at]
    if at != part.begin or at == 0 or part.line[0] == "settle":
        return None
    if report.answers[report.own[at - 1].closed - 1][:1] != ("quiet",):
        return None
    is_taken = words[2] == "pdu" or (words[2] == "ended" and words[1] not in past.ended)
    if len(words) == 5 if words[0] == "move" else is_taken:
        return "the settling before it was quiet"


@answer_rule("quiet", "waits")
def waiting(report, past, at, words):
    """At a quiet settling of unbroken legs whose nodes go on, no PDU is on a leg or left to take."""
    front = front_of(report, report.own[at].line)
    if past.reported or any(line[0] in ("break", "end") for line in front):
        return None
    for leg, way in sorted(past.legs.streams):
        if leg in past.legs.up and past.legs.stream(leg, way).rest:
            return f"a message stands on {leg} in part"
    for end, (kind, way) in FAR_LEGS.items():
        pdus = [frame for frame in past.legs.stream(f"{kind}1", way).frames if frame[4:6] != RTS]
        # A proxy that two channels pass has a leg of this kind for the first of them alone.
        is_alone = not any(leg[:2] == kind and leg != f"{kind}1" for leg in past.legs.opened)
        if is_alone and len(pdus) != len(past.taken[end]):
            return f"{end} has not taken all that came on {kind}1"


@answer_rule("quiet", None, TRIED)
def delivered(report, past, at, words):
    """At a quiet settling in calm, where lifetimes have room, all that was given was taken."""
    if is_calm_until(report, report.own[at].line) and has_room(report, past.legs):
        return f"{past.untaken()} PDUs are left" if past.untaken() else None


def has_room(report, legs):
    """Whether each channel on whose leg an end writes may carry whatever goes next."""
    for leg in legs.up:
        way, key = WRITTEN.get(leg[:2], (None, None))
        if way and legs.stream(leg, way).fed + LEAST_LEFT > report.settings.get(key, LIFETIME):
            return False
    return True


@answer_rule("spent", None, TRIED)
def bounded(report, past, at, words):
    """In calm, a settling is spent below 200 rounds, and 40 for each thing that was to be done."""
    if is_calm_until(report, report.own[at].line):
        most = ROUNDS + ROUNDS_EACH * to_be_done(past, report.own_answers(at))
        if int(words[1]) >= most:
            return f"it ends within {most} rounds"


def to_be_done(past, own):
    """What a settling that gave these answers had to do at most: PDUs that were not taken, legs that
    were up or that it opened, and packets that were on these or waited at their nodes.
    """
    seen = collections.Counter(words[0] for words in own if words[-1] != "no")
    pdus = past.untaken() + sum(words[2] == "pdu" for words in own if words[0] == "take")
    legs = len(past.legs.up) + seen["end"]
    moved = collections.Counter()
    for words in own:
        if words[0] == "move" and len(words) == 5:
            moved[words[1], words[2]] += int(words[3])
    flights = [it.sent - it.fed + moved[key] for key, it in past.legs.streams.items()]
    return pdus + legs + WAITING * legs + sum(max(it, 0) // SHORTEST for it in flights)


# ---- which answers there are


@report_rule(None, DEFINED)
def answers(report, past):
    """Each line but the first and the settings has its answer, and nothing else is answered."""
    if not report.is_whole:
        yield report.end, "the last line has no LF"
    for at, words in enumerate(report.answers):
        if not words:
            yield at, "this is no line of a report"
    for part in report.parts:
        wrong = answered_amiss(report, part)
        if wrong:
            yield min(part.begin, report.end), wrong


def answered_amiss(report, part):
    """What is wrong with a line's own answers."""
    own, line = report.answers[part.begin : part.closed], part.line
    if not own:
        return "the report is over"
    if line[0] == "last":
        return None if own[0][:1] == ("up",) else "this line answers nothing"
    if line[0] == "settle":
        is_over = own[-1][:1] in (("quiet",), ("spent",))
        return None if is_over else "a settling ends with quiet or spent"
    count = OWN_WORDS.get(line[0], len(line))
    if own[0] and own[0][:count] != tuple(line[:count]):
        return f"this is no answer to {' '.join(line[:count])}"
    if own[0][2:3] == ("ok",) and line[0] == "give" and own[0][3] != str(len(line[2]) // 2):
        return f"the PDU has {len(line[2]) // 2} bytes"
    return None


@answer_rule("give", None, DEFINED)
def closing(report, past, at, words):
    """A give is refused with closing exactly where that end was told to give no more."""
    if words[2] not in ("ok", "closed") and words[1] not in past.closed:
        if (words[2] == "closing") != (words[1] in past.closing):
            return f"{words[1]} answers closing where it was told to give no more"


@answer_rule("open move take end quiet spent", None, DEFINED)
def rounds(report, past, at, words):
    """A settling does at most its rounds, is spent where it did as many, and tells what it did."""
    part = report.own[at]
    if part.line[0] != "settle" or at >= part.closed:
        return None
    if words[0] in ("quiet", "spent"):
        most, many = int(part.line[1]), int(words[1])
        is_right = many <= most and (many == most) == (words[0] == "spent")
        return None if is_right else f"at most {most} rounds were asked for"
    is_again = words[2:] == ("ended",) and words[1] in past.ended
    does_nothing = words[-1] in ("no", "0", "empty") or is_again
    return "a round tells what did nothing" if does_nothing else None


@answer_rule("closed", None, DEFINED)
def in_turn(report, past, at, words):
    """The nodes that a line closed stand in their order."""
    before = report.answers[at - 1] if at else ()
    if before[:1] == ("closed",):
        if node_order(words[1]) <= node_order(before[1]):
            return f"{words[1]} stands behind {before[1]}"


def node_order(node):
    """The place of a node in the order in which nodes are told the moment."""
    return "csio".index(node[0]), int(node[1:] or 0)


@answer_rule("move", None, DEFINED)
def moved(report, past, at, words):
    """In a direct recording bytes move as they were given."""
    if report.is_direct and len(words) == 5:
        giver, stream = {"u": "c", "d": "s"}[words[2]], past.legs.stream("cs", words[2])
        fed = "".join(stream.frames) + stream.rest.hex()
        if not "".join(past.given[giver]).startswith(fed + words[4]):
            return f"these bytes are not the next that {giver} gave"


@answer_rule("take", None, DEFINED)
def found(report, past, at, words):
    """In a direct recording a take finds the next PDU that came whole, where there is one."""
    if report.is_direct:
        frames = past.legs.stream("cs", {"s": "u", "c": "d"}[words[1]]).frames
        count = len(past.taken[words[1]])
        if list(words[3:]) != frames[count : count + 1]:
            return "this is not the next PDU that came whole, or there is one"


@report_rule(None, DEFINED)
def direct_counts(report, past):
    """A direct recording's report ends with the counts of what was given and taken."""
    if report.is_direct and counting(report, past) != [len(report.texts) - 2]:
        yield report.end, "; ".join(report.count_lines(past))


# ---- all of them


class Walk(Past):
    """What a report says, and its faults: the rule that is broken, the line, and what is wrong."""

    def __init__(self, recording, text):
        self.told = Report(recording, text)
        super().__init__(self.told)
        self.report = self.told.texts
        self.faults = []

    def run(self):
        of_word = {word: [it for it in ALL.values() if word in it.of] for word in WORDS}
        for at, words in enumerate(self.told.answers):
            if not words:
                continue
            for rule in of_word[words[0]]:
                why = rule.find(self.told, self, at, words)
                if why:
                    self.faults.append((rule.name, at + 1, why))
            self.hear(at, words)
        for rule in ALL.values():
            if not rule.of:
                self.faults += [(rule.name, at + 1, why) for at, why in rule.find(self.told, self)]
        self.faults.sort(key=lambda fault: fault[1])
        return self


def walk(recording, report):
    """What the report says, and which rules it breaks."""
    return Walk(recording, report).run()
