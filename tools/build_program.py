#!/usr/bin/env python3
"""Proves and builds a program: tells how long that takes here, shows how far it is, and goes on
where an earlier call was stopped. Nothing that it makes lies outside the crates' folders out/.

    tools/build_program.py PROGRAM..            builds each, rh_cli or rh_roles, where it isn't up
                                                to date
    tools/build_program.py --sources            prints a checksum of what each is made from
    tools/build_program.py --built-from SUMS    notes that the programs that are there were proved
                                                and built from such sources, as the gate does
"""
import contextlib
import errno
import fcntl
import os
import pathlib
import re
import selectors
import shutil
import signal
import subprocess
import sys
import time

import program_crates
from prove_beside import EVENT

PROGRAMS = "rh_cli", "rh_roles"
BESIDE = pathlib.Path(__file__).with_name("prove_beside.py")
# Seconds between two lines where standard error is no terminal, and until the first.
BETWEEN, FIRST = 9, 2
# The MB of disk that a crate's library and what its proof keeps are likely to take.
A_CRATE = 200
TAIL = 20
NO_RT = "no command rt: the Rattle toolchain is not on the PATH"


class Failed(Exception):
    """Why the program was not built."""


class Stopped(Exception):
    """A signal that ends the build."""


def minutes(seconds):
    whole = max(1, round(seconds / 60))
    return f"{whole} minute{'s' * (whole != 1)}"


def width():
    """The columns of the terminal that standard error is."""
    try:
        return os.get_terminal_size(2).columns or 80
    except OSError:
        return 80


class Progress:
    """What is known of the build, and what was told of it on standard error."""

    def __init__(self, program, top):
        self.program, self.top = program, top
        self.folder = top / "crates" / program / "out/build"
        self.below = program_crates.libraries_below(program, top)
        seconds = program_crates.proof_seconds(self.below, top)
        self.order = program_crates.Order(self.below, seconds, program_crates.processors())
        self.done, self.running, self.failed, self.is_waiting = set(), {}, None, False
        self.begun = self.told = time.monotonic()
        self.is_announced, self.last = False, ""
        self.is_terminal = sys.stderr.isatty()

    def say(self, text):
        """A line of its own."""
        self.end_line()
        print(f"{self.program}: {text}", file=sys.stderr, flush=True)
        self.told = time.monotonic()

    def end_line(self):
        """Ends the line that moved."""
        if self.is_terminal and self.last:
            print(file=sys.stderr, flush=True)
            self.last = ""

    def announce(self):
        """Tells once what is to be done and what it takes here."""
        if self.is_announced:
            return
        self.is_announced = True
        many, known = len(self.below), len(self.done)
        proved = f", of which {known} are proved" if known else ""
        took = minutes(self.order.duration(self.done))
        processors = self.order.processors
        self.say(f"proving and building the program: {many} crates{proved}")
        self.say(
            f"this takes about {took} where {processors} processor{'s' * (processors != 1)} have"
            " nothing else to do; Ctrl-C stops it, and the next call goes on from there"
        )
        self.say("--unproved before the words runs the sources as they are, and proves nothing")

    def begin(self, name, log=None):
        self.running[name], self.is_waiting = log, False

    def finish(self, *names):
        for name in names:
            self.running.pop(name, None)
            self.done.add(name)

    def functions(self, name):
        """How many functions of a crate are checked, where its log tells that."""
        log = self.running[name]
        if isinstance(log, str) or log is None:
            return f" ({log})" if log else ""
        with contextlib.suppress(OSError), open(log, "rb") as file:
            file.seek(max(0, os.path.getsize(log) - 4096))
            counts = re.findall(rb"(?m)^so far: (\d+ of \d+) functions", file.read())
            return f" ({counts[-1].decode()} functions)" if counts else ""
        return ""

    def text(self):
        took, seconds = divmod(int(time.monotonic() - self.begun), 60)
        told = f"{len(self.done)} of {len(self.below)} crates done after {took}:{seconds:02}"
        running = ", ".join(name + self.functions(name) for name in self.running)
        if self.is_waiting:
            return f"{told}; waiting for another rt in this checkout"
        if len(self.done) == len(self.below):
            return f"{told}; linking"
        return f"{told}{': ' if running else ''}{running}"

    def show(self, is_new=False):
        """Tells how far it is: at once on a terminal, else where a crate is done, or time is up."""
        now = time.monotonic()
        if not self.is_announced and now - self.begun < FIRST:
            return
        self.announce()
        if self.is_terminal:
            text = f"{self.program}: {self.text()}"[: width() - 1]
            if text != self.last:
                print(f"\r{text}\033[K", end="", file=sys.stderr, flush=True)
                self.last = text
        elif is_new or now - self.told >= BETWEEN:
            self.say(self.text())


def read_lines(pipe):
    """Its lines as they come, and None for each second in which there is none."""
    rest = b""
    with selectors.DefaultSelector() as ready:
        ready.register(pipe, selectors.EVENT_READ)
        while True:
            if not ready.select(1):
                yield None
                continue
            piece = os.read(pipe.fileno(), 65536)
            if not piece:
                break
            *lines, rest = (rest + piece).split(b"\n")
            yield from (line.decode(errors="replace") for line in lines)
    if rest:
        yield rest.decode(errors="replace")


def note_event(progress, line):
    """Takes a line of tools/prove_beside.py, and returns whether something new is to be told."""
    word, *names = line.removeprefix(EVENT).split()
    if word == "built":
        progress.finish(*names)
        progress.announce()
    elif word == "begun":
        progress.begin(names[0], progress.folder / f"{names[0]}.log")
    elif word == "proved":
        progress.finish(*names)
    elif word == "failed":
        progress.failed = names[0]
    return word == "proved"


def note_line(progress, line):
    """Takes a line of rt, and returns whether something new is to be told."""
    if line.startswith(EVENT):
        return note_event(progress, line)
    elsewhere = re.match(r"rt: (\w+): another copy of the repository is building", line)
    if line.startswith("rt: waiting for another rt"):
        progress.is_waiting = True
    elif elsewhere and elsewhere[1] in progress.running:
        progress.running[elsewhere[1]] = "another checkout builds it"
    elif line.startswith("rt: chose --jobs "):
        # What stands below this crate is done, in this run or before it.
        name = line.rpartition(" for ")[2]
        if name in progress.below:
            progress.finish(*program_crates.libraries_below(name, progress.top))
            progress.done.discard(name)
            progress.begin(name)
    elif line.startswith("so far: ") and progress.running:
        counts = re.match(r"so far: (\d+ of \d+ functions)", line)
        progress.running[[*progress.running][-1]] = counts[1] if counts else None
    elif line.startswith("crate ") and ": " in line:
        progress.finish(*{line[6:].partition(":")[0]} & {*progress.below})
        return True
    return False


def follow(words, progress, log, **how):
    """Runs a command, keeps what it says in the log, shows how far it is, and returns its status.
    However this ends, the command ends with it, and leaves nothing behind."""
    room = progress.folder / "tmp"
    room.mkdir()
    how["env"] = os.environ | {"TMPDIR": str(room)}
    pipes = {"stdin": subprocess.DEVNULL, "stdout": subprocess.PIPE, "stderr": subprocess.STDOUT}
    with subprocess.Popen(words, **pipes, **how) as child:
        try:
            for line in read_lines(child.stdout):
                if line is not None:
                    log.write(f"{line}\n")
                    log.flush()
                progress.show(line is not None and note_line(progress, line))
            return child.wait()
        finally:
            child.terminate()
            child.wait()
            remove(room)
            sweep(progress, child.pid)


def remove(folder):
    """Removes a folder, into which provers that are just ending may still write."""
    for _ in range(20):
        shutil.rmtree(folder, ignore_errors=True)
        if not folder.exists():
            return
        time.sleep(0.1)


def sweep(progress, number):
    """Removes what rt leaves in a crate's folder where it is stopped as it takes others' work."""
    for name in progress.below:
        for it in (progress.top / "crates" / name / "out").glob(f"rt-work-{number}-*"):
            remove(it)


def prove_and_link(progress, log):
    """Builds what is below side by side, and then by rt itself what still isn't built."""
    words = [sys.executable, "-B", str(BESIDE), progress.program, str(progress.folder)]
    status = follow(words, progress, log)
    if progress.failed:
        why = f"{progress.failed} was not proved, so the program was not built"
        raise Failed(why, progress.folder / f"{progress.failed}.log")
    if status:
        # rt alone does it one after the other.
        progress.order.processors = 1
        progress.announce()
    place = progress.top / "crates" / progress.program
    if follow(["rt", "run", "--", "--version"], progress, log, cwd=place):
        raise Failed("the program was not built", progress.folder / "log")


@contextlib.contextmanager
def signals_stop():
    """Has the signals that end a command raise Stopped, so that all is left in order."""

    def stop(number, _):
        raise Stopped(number)

    numbers = signal.SIGINT, signal.SIGTERM, signal.SIGHUP
    before = {it: signal.signal(it, stop) for it in numbers}
    try:
        yield
    finally:
        for number, handler in before.items():
            signal.signal(number, handler)


@contextlib.contextmanager
def alone(progress):
    """Waits until no other call builds the program in this checkout."""
    out = progress.folder.parent
    out.mkdir(exist_ok=True)
    held = os.open(out, os.O_RDONLY)
    try:
        while True:
            try:
                fcntl.flock(held, fcntl.LOCK_EX | fcntl.LOCK_NB)
                break
            except BlockingIOError:
                if not progress.is_waiting or time.monotonic() - progress.told >= BETWEEN:
                    progress.is_waiting = True
                    progress.say("waiting for another call in this checkout to build it")
                time.sleep(1)
        progress.is_waiting = False
        yield
    finally:
        os.close(held)


def place_of(program, top):
    return top / "crates" / program / "out" / program


def is_up_to_date(program, top):
    """Whether the program is there, and was made from the sources as they stand."""
    built = place_of(program, top)
    mark = built.with_suffix(".sources")
    is_there = os.access(built, os.X_OK) and mark.is_file()
    return is_there and mark.read_text() == program_crates.checksum(program, top)


def note_built(program, top, total):
    """Notes that the program that stands there was made from sources of this checksum."""
    place_of(program, top).with_suffix(".sources").write_text(total)


def has_rt():
    return shutil.which("rt") is not None


def look_before(progress):
    """Fails where there is no rt, and says so where the disk may not last."""
    if not has_rt():
        raise Failed(NO_RT)
    free = shutil.disk_usage(progress.folder.parent).free // 1_000_000
    crates = progress.top / "crates"
    left = sum(not (crates / name / "out/rlib/stamp").is_file() for name in progress.below)
    if free < A_CRATE * left:
        progress.say(f"the disk has {free} MB left, and this is likely to take {A_CRATE * left}")


def build_here(progress):
    """Builds the program in its folder, where only what a failed proof said is left behind."""
    look_before(progress)
    total = program_crates.checksum(progress.program, progress.top)
    remove(progress.folder)
    progress.folder.mkdir()
    keeps_logs = False
    try:
        with open(progress.folder / "log", "w", encoding="utf-8") as log:
            prove_and_link(progress, log)
        note_built(progress.program, progress.top, total)
    except Failed:
        keeps_logs = True
        raise
    except OSError as error:
        raise Failed("the disk is full" if error.errno == errno.ENOSPC else str(error)) from error
    finally:
        if not keeps_logs:
            remove(progress.folder)


def tell_failure(progress, message, log=None):
    said = log.read_text(errors="replace") if log else ""
    progress.say(f"{len(progress.done)} of {len(progress.below)} crates are done")
    print("".join(said.splitlines(True)[-TAIL:]), end="", file=sys.stderr, flush=True)
    if os.strerror(errno.ENOSPC) in said:
        message += ": the disk is full"
    progress.say(f"{message}; the whole log is {log}" if log else message)


def build(program, top):
    """Builds the program where it isn't up to date, and returns whether it is there then. A signal
    ends the process, as it would have without this."""
    progress = Progress(program, top)
    try:
        with signals_stop(), alone(progress):
            if not is_up_to_date(program, top):
                build_here(progress)
            progress.end_line()
            return True
    except Failed as failed:
        tell_failure(progress, *failed.args)
        return False
    except Stopped as stopped:
        progress.say("stopped; the next call goes on from here")
        number = stopped.args[0]
        signal.signal(number, signal.SIG_DFL)
        os.kill(os.getpid(), number)
        raise


def main(words):
    top = program_crates.TOP
    if words == ["--sources"]:
        for program in PROGRAMS:
            print(f"{program}:{program_crates.checksum(program)}")
    elif words[:1] == ["--built-from"] and len(words) == 2:
        for program, _, total in (it.partition(":") for it in words[1].split()):
            note_built(program, top, total)
    elif not words or not {*words} <= {*PROGRAMS}:
        print(__doc__, end="", file=sys.stderr)
        return 1
    else:
        return 0 if all(is_up_to_date(it, top) or build(it, top) for it in words) else 1
    return 0


if __name__ == "__main__":
    sys.exit(main(sys.argv[1:]))
