"""Runs a word of a program over standard input, which may have what its grammar doesn't.

Comments, `#` to the end of a line, and CRs in front of LFs are left out of what the program reads,
and that is noted. Behind `bad input` the refused line is told, and what may stand there. Words that
tell each line of packets in a line read their input in pieces (given_pieces.py), and others in one.
"""
import bisect
import contextlib
import os
import re
import shutil
import signal
import stat
import subprocess
import sys
import tempfile
import threading
from collections import deque

from teaching import CAPTURES, said_of

SIGNALS = signal.SIGINT, signal.SIGTERM, signal.SIGHUP
PIECE = 1 << 20
# As much as the program reads of one input (MOST_INPUT of rh_word), and of it is kept.
MOST_INPUT = 67_108_864
TOO_LONG = f"reads at most {MOST_INPUT:,} bytes"
# What may be done where that isn't enough.
OF_RECORDINGS = "a recording is one run from its first line on, so make more than one of it"
HINTS = {
    **dict.fromkeys(("replay", "story", "capture"), OF_RECORDINGS),
    "play": "cut the script in front of lines that begin a role, and play each part",
    "audit": "an audit is of all that was captured, so capture for a shorter time",
}
READ_FAULT, WRITE_FAULT = (3, "read fault"), (4, "write fault")
BAD_INPUT = re.compile(rb"bad input (\d+)\n")
# The words of a context, and what is told behind it.
CONTEXT = re.compile(rb"(\d{4}-\d\d-\d\dT[\d:.]+Z \d+ \d+ \S+ > \S+) (.*)")
NO_PACKET = re.compile(rb"(?:http .*|fin|rst|ncacn_http/1\.0)")
# A comment behind words, and lines of scripts in which no comment stands.
COMMENT = re.compile(rb"[ \t]*#.*")
WHOLE = b"#", b"case "


class Given:
    """What the program is given of the input, line by line."""

    def __init__(self, word, first, has_context=False):
        self.word = word
        self.comments = self.returns = 0
        # Whether nothing is left out: the input is a capture, and no text.
        self.is_raw = first.startswith(CAPTURES)
        # How many lines the program was given, and behind how many of them a line was left out.
        self.count, self.left_out = 0, []
        # What is written, where there are contexts: each in front of what is told of a line, and
        # lines as they are.
        self.told = deque() if has_context else None

    def take(self, text):
        """What the program is given of these lines; all but the last end with LF."""
        lines = text.splitlines(True) if self.is_plain(text) else self.taken(text)
        self.count += len(lines)
        return b"".join(lines)

    def is_plain(self, text):
        return self.is_raw or self.told is None and b"\r" not in text and b"#" not in text

    def taken(self, text):
        lines = []
        for line in text.split(b"\n")[: -1 if text.endswith(b"\n") else None]:
            given = self.line(line)
            if given is None:
                self.left_out.append(self.count + len(lines))
            else:
                lines.append(given + b"\n")
        if lines and not text.endswith(b"\n"):
            lines[-1] = lines[-1][:-1]
        return lines

    def line(self, line):
        """What the program is given of a line; none where that is left out."""
        if line.endswith(b"\r"):
            line, self.returns = line[:-1], self.returns + 1
        found = CONTEXT.fullmatch(line) if self.told is not None else None
        if found and NO_PACKET.fullmatch(found[2]):
            self.told.append((line, True))
            return None
        if found:
            self.told.append((found[1] + b" ", False))
            return found[2]
        line = self.without_comment(line)
        if line is not None and self.told is not None:
            self.told.append((b"", False))
        return line

    def without_comment(self, line):
        if b"#" not in line or self.word == "play" and line.startswith(WHOLE):
            return line
        self.comments += 1
        return COMMENT.sub(b"", line, count=1) or None

    def note(self):
        """What is noted of the input, if there is anything."""
        counts = [(self.comments, "comment"), (self.returns, "CR")]
        told = [f"{count} {it}{'s' * (count != 1)}" for count, it in counts if count]
        return f"left out of what {self.word} reads: {' and '.join(told)}" if told else None

    def place(self, number):
        """Which line of the input the line is that the program has as this one, from 1."""
        return number + bisect.bisect_left(self.left_out, number)


class Running:
    """A program whose words run over what it is given of all of standard input."""

    def __init__(self, command, words, say, place=None):
        self.word, self.say, self.rest = words[0], say, b""
        self.first = self.read()
        self.given, self.kept = Given(self.word, self.first), bytearray()
        how = {"stdin": subprocess.PIPE, "stderr": subprocess.PIPE, "cwd": place}
        # What rt starts would outlive it where a signal ends it: it ends with its session then.
        self.room, self.stopped_by = None, None
        if command[0] == "rt":
            self.room = tempfile.mkdtemp()
            how |= {"start_new_session": True, "env": os.environ | {"TMPDIR": self.room}}
        self.child = subprocess.Popen([*command, *words], **how)
        # The line that was refused; whether there was too much, and whether reading failed.
        self.bad, self.is_long, self.is_broken = None, False, False

    def read(self):
        """The next whole lines of the input, or what is behind the last; none at its end."""
        while True:
            more = os.read(0, PIECE)
            end = more.rfind(b"\n") + 1
            if not more:
                text, self.rest = self.rest, b""
                return text
            if end:
                text, self.rest = self.rest + more[:end], more[end:]
                return text
            self.rest += more

    def feed(self):
        """Gives the program all of the input."""
        try:
            text = self.first
            while text:
                given = self.given.take(text)
                self.kept += given[: MOST_INPUT - len(self.kept)]
                self.child.stdin.write(given)
                text = self.read()
        except BrokenPipeError:
            pass
        except OSError:
            self.is_broken = True
            self.child.kill()
        if self.given.note():
            self.say(self.given.note())
        try:
            self.child.stdin.close()
        except BrokenPipeError:
            pass

    def hear(self):
        """Passes standard error on, and keeps the number of the line that was refused."""
        for line in self.child.stderr:
            sys.stderr.buffer.write(line)
            sys.stderr.flush()
            found = BAD_INPUT.fullmatch(line)
            self.bad = int(found[1]) if found else self.bad
            self.is_long = self.is_long or line == b"input too long\n"

    def end(self):
        """Waits for the program's end. Its status, as a process has it."""
        for number in SIGNALS:
            signal.signal(number, self.stop)
        threads = [threading.Thread(target=it, daemon=True) for it in (self.feed, self.hear)]
        for thread in threads:
            thread.start()
        status = self.child.wait()
        self.clear()
        if status >= 0:
            threads[1].join()
        return -self.stopped_by if self.stopped_by else status

    def stop(self, number, _):
        """A signal came that ends a command."""
        if self.room:
            self.stopped_by = number
            os.killpg(self.child.pid, signal.SIGTERM)
        else:
            self.child.send_signal(number)

    def clear(self):
        """Leaves nothing behind of what rt started."""
        if self.room:
            with contextlib.suppress(ProcessLookupError):
                os.killpg(self.child.pid, signal.SIGKILL)
            shutil.rmtree(self.room, ignore_errors=True)

    def tell(self):
        """Tells of what the program refused."""
        if self.is_long:
            self.say(f"{self.word} {TOO_LONG}: {HINTS[self.word]}")
        if self.bad is not None:
            place = self.given.place(self.bad)
            self.say(said_of(self.word, bytes(self.kept), self.bad, place))


def is_readable():
    """Whether standard input is there, and no folder."""
    try:
        return not stat.S_ISDIR(os.fstat(0).st_mode)
    except OSError:
        return False


def fails(status, text):
    """Tells of a failure as the program does."""
    print(text, file=sys.stderr)
    return status


def written(write):
    """Whether standard output took what is written; where it doesn't, it gets nothing more."""
    try:
        write()
        sys.stdout.flush()
        return True
    except OSError:
        os.dup2(os.open(os.devnull, os.O_WRONLY), sys.stdout.fileno())
        return False


def end_by(number):
    """Ends this process by a signal."""
    signal.signal(number, signal.SIG_DFL)
    os.kill(os.getpid(), number)


def run(command, words, say, place=None):
    """Runs the program with these words. Its status; a signal that ended it ends this process."""
    running = Running(command, words, say, place)
    status = running.end()
    if running.is_broken:
        return fails(*READ_FAULT)
    running.tell()
    if status < 0:
        end_by(-status)
    return status
