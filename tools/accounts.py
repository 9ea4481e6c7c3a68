"""Processor time of rt's processes, by crate and kind, from the kernel's accounts of them.

A unit is one process of the prover with all below it. What a tree of processes has taken is the sum
over those that live of their own time and that of the children they waited for; so a sample that
comes shortly before a unit's end has nearly all of it, and rt's own account has the rest.
"""
import os
import pathlib
import re

TICKS = os.sysconf("SC_CLK_TCK")
PROOFS, TESTS, SEEDS, EDITS = "proofs of crates", "proofs of tests", "seeds of edits", "edits"
CHECKS, REST = "checks over kept work", "programs and the rest"
MISSED = "before the accounts began"
KINDS = (PROOFS, TESTS, SEEDS, EDITS, CHECKS, REST, MISSED)


class Process:
    """A process as /proc shows it now."""

    def __init__(self, number):
        self.folder = pathlib.Path(f"/proc/{number}")
        # The command's name stands in brackets, and may hold any character.
        fields = (self.folder / "stat").read_text().rpartition(")")[2].split()
        self.number = number
        self.parent, self.group = int(fields[1]), int(fields[2])
        self.seconds = sum(map(int, fields[11:15])) / TICKS
        self.begun = int(fields[19])

    @property
    def key(self):
        return self.number, self.begun

    def words(self):
        text = (self.folder / "cmdline").read_bytes().decode(errors="replace")
        return text.rstrip("\0").split("\0")

    def place(self):
        return os.readlink(self.folder / "cwd")

    def called_in(self):
        """The folder of the shell that called it: rt itself may work in a copy."""
        variables = (self.folder / "environ").read_bytes().decode(errors="replace").split("\0")
        return next((it[4:] for it in variables if it.startswith("PWD=")), self.place())


def processes():
    """All that live and can be read, by their numbers."""
    found = {}
    for name in os.listdir("/proc"):
        if name.isdigit():
            try:
                found[int(name)] = Process(int(name))
            except (OSError, IndexError):
                pass
    return found


def is_rt(words):
    return any(os.path.basename(word) == "rt" for word in words[:2])


def is_prover(words):
    return os.path.basename(words[0]) == "rattle" and "--crate-name" in words


def kind_of(words, folder):
    """What the prover does in this folder with these words, as rt calls it."""
    if "--crate-checked" in words:
        return REST
    if re.search(r"/rt-edit-\d+-", f"{folder}/"):
        over = words[words.index("--incremental") + 1] if "--incremental" in words else ""
        return SEEDS if os.path.basename(over) == "seed" else EDITS
    if "--empty-contracts" in words:
        return TESTS if "--test" in words else PROOFS
    return CHECKS


def clone_of(process):
    """The checkout that an rt works for."""
    place = process.place()
    if re.search(r"/rt-copy-\d+-", place):
        place = process.called_in()
    return place.split("/crates/")[0]


class Run:
    """One rt and what is known of its units."""

    def __init__(self, process, words):
        self.process, self.words, self.clone = process, words, clone_of(process)
        self.units, self.seconds, self.missed = {}, 0.0, None

    def note(self, seconds):
        """What the whole tree of rt has taken by now."""
        self.seconds = max(self.seconds, seconds)
        if self.missed is None:
            self.missed = seconds - self.told()

    def told(self):
        return sum(seconds for _, _, seconds in self.units.values())

    def rows(self):
        """What each crate took by kind: (crate, kind) -> [seconds, units]."""
        rows = {}
        for crate, kind, seconds in self.units.values():
            row = rows.setdefault((crate, kind), [0.0, 0])
            row[0] += seconds
            row[1] += 1
        missed = self.missed or 0.0
        rows["", MISSED] = [missed, 0]
        rows["", REST] = [max(self.seconds - self.told() - missed, 0.0), 0]
        return rows


class Accounts:
    """The runs of rt that `is_ours` takes, as samples saw them."""

    def __init__(self, is_ours=lambda process: True):
        self.is_ours, self.runs, self.units = is_ours, {}, {}

    def sample(self):
        """Looks once, and returns the runs that have ended since."""
        living = processes()
        below = {}
        for process in living.values():
            below.setdefault(process.parent, []).append(process)
        for process in living.values():
            run = self.run_of(process)
            if run:
                run.note(self.walk(process, below, run))
        alive = {process.key for process in living.values()}
        self.units = {key: unit for key, unit in self.units.items() if key in alive}
        return [self.runs.pop(key) for key in [*self.runs] if key not in alive]

    def run_of(self, process):
        """The run whose rt this is, if it is one of ours."""
        if process.key not in self.runs:
            try:
                words = process.words()
                if is_rt(words) and self.is_ours(process):
                    self.runs[process.key] = Run(process, words)
            except OSError:
                return None
        return self.runs.get(process.key)

    def walk(self, process, below, run, is_inside=False):
        """The seconds of this process and all below it. Each unit among them is noted."""
        unit = None if is_inside else self.unit_of(process)
        seconds = process.seconds
        for child in below.get(process.number, []):
            seconds += self.walk(child, below, run, is_inside or unit is not None)
        if unit:
            before = run.units.get(process.key, (*unit, 0.0))[2]
            run.units[process.key] = (*unit, max(before, seconds))
        return seconds

    def unit_of(self, process):
        """The crate and the kind where this is a process of the prover."""
        if process.key not in self.units:
            try:
                words = process.words()
                if not is_prover(words):
                    return None
                crate = words[words.index("--crate-name") + 1]
                self.units[process.key] = crate, kind_of(words, process.place())
            except (OSError, IndexError):
                return None
        return self.units[process.key]
