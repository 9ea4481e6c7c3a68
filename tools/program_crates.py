"""The crates that a program stands on: which they are, a checksum of what they are made from, and
how long their proofs take side by side.
"""
import hashlib
import os
import pathlib

TOP = pathlib.Path(__file__).resolve().parent.parent
# Seconds of one processor that a proof took, as tools/gate_cost --proofs lists them.
SECONDS = pathlib.Path(__file__).with_name("proof_seconds.txt")
# What a crate takes that isn't listed there: at least so much, and more for each line.
LEAST, A_LINE = 10, 0.03
# More jobs shorten this part of a large crate's proof; the rest is loading what stands below.
DIVIDED, MOST_JOBS, LARGE = 0.7, 4, 60
PARTS = ("src", "specs", "proofs")


def listed(top=TOP):
    """Each crate of crates.txt, with the words behind it."""
    found = {}
    for line in (top / "crates.txt").read_text().splitlines():
        name, colon, words = line.partition(":")
        if colon and not line.startswith("#"):
            found[name.split()[0]] = words.split()
    return found


def libraries_below(program, top=TOP):
    """The repository's libraries that a program stands on, in order, the lowest first, each with
    those that it names itself."""
    crates, found, begun = listed(top), {}, set()

    def add(name):
        if name in begun:
            return
        begun.add(name)
        own = [it for it in crates[name] if it in crates]
        for below in own:
            add(below)
        found[name] = own

    add(program)
    return found


def source_files(name, top=TOP):
    """The files that a crate is made from, in order."""
    for part in PARTS:
        yield from sorted(it for it in (top / "crates" / name / part).rglob("*") if it.is_file())


def checksum(program, top=TOP):
    """A sum of all that the program is made from: names and contents, and no times."""
    crates, total = listed(top), hashlib.sha256()
    for name in sorted(libraries_below(program, top)):
        total.update(repr((name, sorted(crates[name]))).encode())
        for file in source_files(name, top):
            one = hashlib.sha256(file.read_bytes()).digest()
            total.update(repr((str(file.relative_to(top)), one)).encode())
    return total.hexdigest()


def proof_seconds(names, top=TOP, file=SECONDS):
    """What each crate's proof is likely to take of one processor."""
    measured = {}
    if file.is_file():
        pairs = (line.split() for line in file.read_text().splitlines() if line[:1] != "#")
        measured = {name: float(seconds) for name, seconds in pairs}
    return {name: measured.get(name) or guessed(name, top) for name in names}


def guessed(name, top=TOP):
    return LEAST + A_LINE * sum(it.read_bytes().count(b"\n") for it in source_files(name, top))


def processors(quota=pathlib.Path("/sys/fs/cgroup/cpu.max")):
    """How many processors there are to use: a control group may give less time than there is."""
    found = len(os.sched_getaffinity(0))
    try:
        time, period = quota.read_text().split()
        return max(1, min(found, int(time) // int(period)))
    except (OSError, ValueError):
        return found


class Order:
    """Which crates to prove next: first those with the longest chain of others above them."""

    def __init__(self, below, seconds, processors):
        self.below, self.seconds, self.processors = below, seconds, processors
        self.chain = {}
        # Crates stand in order, so all above one come before it here.
        for name in reversed([*below]):
            above = [self.chain[it] for it in self.chain if name in below[it]]
            self.chain[name] = seconds[name] + max(above, default=0)

    def next(self, done, running):
        """The crates to begin now, each with its number of jobs, where `running` has those of the
        others that run."""
        ready = [it for it in self.below if it not in done and it not in running]
        ready = [it for it in ready if all(below in done for below in self.below[it])]
        ready.sort(key=lambda it: -self.chain[it])
        idle = self.processors - sum(running.values())
        for at, name in enumerate(ready):
            if idle <= 0:
                return
            is_large = self.seconds[name] >= LARGE
            jobs = max(1, min(MOST_JOBS, idle // (len(ready) - at))) if is_large else 1
            idle -= jobs
            yield name, jobs

    def time(self, name, jobs):
        """The seconds that a proof takes with so many jobs."""
        return self.seconds[name] * (1 - DIVIDED + DIVIDED / jobs)

    def duration(self, done=()):
        """The seconds until all are proved, where some are."""
        now, done, running, ends = 0.0, set(done), {}, {}
        while len(done) < len(self.below):
            for name, jobs in self.next(done, running):
                running[name], ends[name] = jobs, now + self.time(name, jobs)
            first = min(ends, key=ends.get)
            now = ends.pop(first)
            del running[first]
            done.add(first)
        return now
