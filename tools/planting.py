"""What kinds of wrong reports are made of, and the good reports in which they are planted.

A kind is a function that yields reports which are wrong in one thing, as lines, at each place of a
good report where that makes a difference. It names the rule of tools/walking.py that is to refuse
them. Where the PDUs of such a report are others, its last lines count what it tells.
"""
import collections
import re

from reports import OTHER, Past, Report

Kind = collections.namedtuple("Kind", "name sentence rule form plant")


class Kinds(list):
    """The kinds of a file, in order."""

    def refused_by(self, rule, form=None):
        """Adds a kind that the rule is to refuse, in recordings of one form or of both."""

        def add(plant):
            sentence = " ".join(plant.__doc__.split())
            self.append(Kind(plant.__name__, sentence, rule, form, plant))
            return plant

        return add


class Good:
    """A recording with its report, which is right."""

    def __init__(self, path):
        self.name = path.stem
        self.recording = path.read_text()
        self.report = path.with_suffix(".report").read_text()
        self.told = Report(self.recording, self.report)
        self.texts = self.told.texts
        self.words = self.told.answers
        # What was told before each answer.
        self.pasts = []
        past = Past(self.told)
        for at, words in enumerate(self.words):
            self.pasts.append(State(past))
            past.hear(at, words)

    def places(self, pattern):
        """Each answer that is of this form, with the match."""
        matches = ((at, re.fullmatch(pattern, text)) for at, text in enumerate(self.texts))
        return [(at, match) for at, match in matches if match]

    def with_lines(self, at, *texts, until=None):
        """The lines with others in place of one, or of those from one until another."""
        return [*self.texts[:at], *texts, *self.texts[(at + 1 if until is None else until) :]]

    def moved(self, at, to):
        """The lines with one of them before another."""
        rest = self.texts[:at] + self.texts[at + 1 :]
        to -= to > at
        return [*rest[:to], self.texts[at], *rest[to:]]

    def counted(self, texts):
        """The lines with last lines that count what they tell."""
        told = Report(self.recording, "\n".join(texts) + "\n")
        past = Past(told)
        for at, words in enumerate(told.answers):
            if words:
                past.hear(at, words)
        wanted = {line.split(" ")[0]: line for line in told.count_lines(past)}
        return [wanted.get(text.split(" ")[0], text) for text in texts]

    def legs_at(self, at):
        """What was told of legs before an answer."""
        past = Past(self.told)
        for it, words in enumerate(self.words[:at]):
            past.hear(it, words)
        return past.legs

    def is_settling(self, at):
        return self.told.own[at].line[0] == "settle"

    def silenced(self, at):
        """The lines without this answer to a take; a line's own take then finds nothing."""
        end = self.words[at][1]
        return self.with_lines(at, *([] if self.is_settling(at) else [f"take {end} empty"]))

    def takes(self, end="[cs]"):
        """Each PDU that was taken: the index, the end and the PDU."""
        found = self.places(rf"take ({end}) pdu (\w+)")
        return [(at, match[1], match[2]) for at, match in found]

    def finding_nothing(self):
        """Places where something can be taken by mistake: the index, the end, and the lines there
        before and behind what is taken."""
        for at, match in self.places(r"take ([cs]) empty"):
            yield at, match[1], lambda text, at=at: self.with_lines(at, text)
        for at, _ in self.places(r"(?:quiet|spent) \d+"):
            for end in OTHER:
                yield at, end, lambda text, at=at: self.with_lines(at, text, self.texts[at])


class State:
    """What was told before an answer."""

    def __init__(self, past):
        self.given = {end: list(pdus) for end, pdus in past.given.items()}
        self.taken = {end: list(pdus) for end, pdus in past.taken.items()}
        self.closing, self.ended = set(past.closing), set(past.ended)
        self.closed, self.causes = set(past.closed), dict(past.causes)

    def next(self, end):
        """What is to be taken at an end: the PDUs that the other end gave and it didn't take."""
        return self.given[OTHER[end]][len(self.taken[end]) :]

    def may_take(self, end):
        return end not in self.closed | self.ended
