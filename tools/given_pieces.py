"""Runs a word that tells each line of packets in a line over standard input, a piece at a time.

A piece is whole lines, so that inputs of any size are told, and lines of a slow writer as they come.
What is told and refused is as if the program had read all in one run, but that all lines in front of
the piece with a refused line have been told. Lines of `tools/pcap_packets.py --context` are taken:
what follows the context is what the program reads, and the context is written in front of what it
tells; heads and ends are written as they are.
"""
import os
import select
import signal
import subprocess
import sys
import time

import given_input
from given_input import BAD_INPUT, CONTEXT, MOST_INPUT, PIECE, SIGNALS, Given
from teaching import said_of

# The most bytes of a piece whose first line isn't longer.
MOST_PIECE = 16_777_216
# How long more lines are waited for, in seconds, where a piece has some.
PATIENCE = 0.1


class TooLong(Exception):
    """A line is longer than the program reads."""


class ReadFault(Exception):
    """Reading failed."""


class Input:
    """Standard input, as pieces of whole lines: of so many bytes at most, but for a longer line, and
    given on so many seconds behind their first line; at its end, where there is no such patience.
    """

    def __init__(self, most=MOST_PIECE, patience=PATIENCE):
        self.most, self.patience, self.rest = most, patience, b""

    def piece(self):
        """The next piece, of MOST_INPUT bytes at most. Only the last may lack its LF, and none
        comes behind it."""
        text = bytearray(self.rest)
        whole = text.rfind(b"\n") + 1
        until = self.moment() if whole else None
        while room := self.room(len(text), whole):
            if whole and not is_ready(until):
                break
            more = read(room)
            if not more:
                whole = len(text)
                break
            end = more.rfind(b"\n") + 1
            if end:
                until = until if whole else self.moment()
                whole = len(text) + end
            text += more
        if whole > MOST_INPUT:
            whole = text.rfind(b"\n", 0, MOST_INPUT) + 1
        if not whole and len(text) > MOST_INPUT:
            raise TooLong
        self.rest = bytes(text[whole:])
        return bytes(text[:whole])

    def room(self, size, whole):
        """How many bytes are read next, where there are so many, and so many in whole lines."""
        most = self.most if size < self.most or whole else MOST_INPUT + 1
        return min(PIECE, max(0, most - size))

    def moment(self):
        """Until when more is waited for behind the first line; none where that is the end."""
        return None if self.patience is None else time.monotonic() + self.patience


def read(most):
    """What comes next of standard input; nothing at its end."""
    try:
        return os.read(0, most)
    except OSError as error:
        raise ReadFault from error


def is_ready(until):
    """Whether more of standard input, or its end, comes until this moment, or at any time."""
    wait = None if until is None else max(0, until - time.monotonic())
    return bool(select.select([0], [], [], wait)[0])


class Pieces:
    """A program that runs over each piece of standard input."""

    def __init__(self, command, word, say, place):
        self.command, self.word, self.say, self.place = [*command, word], word, say, place
        self.given = self.child = self.stopped_by = None

    def stop(self, number, _):
        """A signal ends the program that runs, and this process then."""
        self.stopped_by = number
        if self.child is None:
            given_input.end_by(number)
        self.child.send_signal(number)

    def run(self, source):
        """Runs the program over all pieces. The status of the last run."""
        for number in SIGNALS:
            signal.signal(number, self.stop)
        try:
            text = source.piece()
            self.given = Given(self.word, text, bool(CONTEXT.match(text)))
            status = self.tell(text, is_front=True)
            while not status and (text := source.piece()):
                status = self.tell(text)
        except TooLong:
            status = self.tell_long()
        except ReadFault:
            status = given_input.fails(*given_input.READ_FAULT)
        if status == 0 and self.given.note():
            self.say(self.given.note())
        return status

    def tell(self, text, is_front=False):
        """Tells a piece. The status."""
        before = self.given.count
        given = self.given.take(text)
        output = b""
        if given or is_front:
            status, output, error = self.run_it(given)
            self.hear(error, given, before, is_front)
            if status:
                return status
        is_written = self.given.told is None or given_input.written(lambda: self.write(output))
        return 0 if is_written else given_input.fails(*given_input.WRITE_FAULT)

    def run_it(self, given):
        """What a run of the program comes to: its status, output and standard error."""
        output = None if self.given.told is None else subprocess.PIPE
        pipes = {"stdin": subprocess.PIPE, "stdout": output, "stderr": subprocess.PIPE}
        self.child = subprocess.Popen(self.command, cwd=self.place, **pipes)
        told, error = self.child.communicate(given)
        status, self.child = self.child.returncode, None
        if status < 0 or self.stopped_by:
            given_input.end_by(self.stopped_by or -status)
        return status, told, error

    def hear(self, error, given, before, is_front):
        """Passes standard error on, with lines counted over all pieces, and tells of the line that
        was refused."""
        for line in error.splitlines(True):
            found = BAD_INPUT.fullmatch(line)
            if found and self.given.note():
                self.say(self.given.note())
            number = before + int(found[1]) if found else 0
            sys.stderr.write(f"bad input {number}\n" if found else line.decode("utf-8", "replace"))
            sys.stderr.flush()
            if found:
                place = self.given.place(number)
                self.say(said_of(self.word, given, int(found[1]), place, is_front))

    def write(self, output):
        """Writes what the program told, each line behind its context, and lines as they are."""
        lines = iter(output.splitlines(True))
        while self.given.told:
            front, is_whole = self.given.told.popleft()
            sys.stdout.buffer.write(front + (b"\n" if is_whole else next(lines)))

    def tell_long(self):
        """Tells of a line that is longer than the program reads."""
        number = self.given.count + len(self.given.left_out) + 1 if self.given else 1
        status = given_input.fails(9, "input too long")
        self.say(f"line {number} is longer than the {MOST_INPUT:,} bytes that {self.word} reads")
        return status


def run(command, word, say, place=None, source=None):
    """Runs the program with this word. Its status; a signal that ended it ends this process."""
    return Pieces(command, word, say, place).run(source or Input())
