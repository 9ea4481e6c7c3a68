#!/usr/bin/env python3
"""Runs the four roles over loopback for as long as is asked, with channels of the least lifetime, while
a forwarder between them cuts legs at random.

    bench/soak.py --make FOLDER               copies the sources there, with lifetimes of 131,072 bytes,
                                              and proves and builds rh_roles of it
    bench/soak.py --program FILE [--seconds 600] [--seed N] [--long 0]

Numbered PDUs go both ways. Each run ends, each end with a status of its table; what an end wrote is a
front of what the other was given, in order and each once, and all of it where nothing was cut. Told
are, each minute and at the end, runs, cuts, replacements, bytes, how roles ended, and the most memory
of each. With --long N there is first one connection of so many bytes each way, over 16 proxies of each
kind, whose memory, descriptors and threads are told as it goes.
"""
import argparse
import collections
import contextlib
import pathlib
import random
import re
import shutil
import subprocess
import sys
import threading
import time

TOP = pathlib.Path(__file__).resolve().parent.parent
sys.path.insert(0, str(TOP / "tools"))

from trouble import WAYS, Run, Trouble, amiss, pdus  # noqa: E402

LIFETIME = "131_072"
CHANNELS, PATIENCE = 64, 120
# Bytes of PDUs each way in a run, and the most bytes of one.
SIZE, LENGTH = 4_000_000, 1_000
AT_ONCE = 2


def make(folder):
    """A copy of the sources of rh_roles with other lifetimes, proved and built. The program."""
    folder.mkdir(parents=True, exist_ok=True)
    for name in ("crates", "tools"):
        ignored = shutil.ignore_patterns("out", "__pycache__", "must-fail")
        shutil.copytree(TOP / name, folder / name, ignore=ignored, dirs_exist_ok=True)
    for name in ("crates.txt", "HANDLES", "rh_roles"):
        shutil.copy(TOP / name, folder)
    count = 0
    for file in (folder / "crates/rh_role_words").rglob("*"):
        if file.is_file():
            text, found = re.subn(r"\b1_073_741_824\b|\b1073741824\b", LIFETIME, file.read_text())
            count += found
            file.write_text(text)
    print(f"{count} numbers changed", flush=True)
    subprocess.run([folder / "tools/build_program.py", "rh_roles"], check=True)
    return folder / "crates/rh_roles/out/rh_roles"


def memory(role):
    """The resident memory and its peak, in MB, and the descriptors and threads, of a process."""
    folder = pathlib.Path(f"/proc/{role.pid}")
    status = dict(it.split(":", 1) for it in (folder / "status").read_text().splitlines())
    size, peak = (int(status[it].split()[0]) / 1024 for it in ("VmRSS", "VmHWM"))
    return size, peak, len([*(folder / "fd").iterdir()]), int(status["Threads"])


class Soak:
    """Runs until a moment, and what they came to."""

    def __init__(self, options):
        self.options, self.until = options, time.monotonic() + options.seconds
        self.counts, self.ends = collections.Counter(), collections.Counter()
        self.peaks, self.wrong, self.lock = {}, [], threading.Lock()
        self.up, self.down = pdus(SIZE // LENGTH, 1, LENGTH), pdus(SIZE // LENGTH, 1_000_000, LENGTH)

    def plan(self, source):
        """Which leg is cut, and where; none in one run of four."""
        if source.randrange(4) == 0:
            return []
        forwarder = source.choice(["ins1", "outs1", "to_server"])
        number = source.randrange(1, 2 * SIZE // 131_072 if forwarder == "to_server" else SIZE // 131_072)
        place = source.randrange(source.choice([700, 131_072]))
        act = source.choice(["reset", "end", "close"])
        return [Trouble(forwarder, number, source.choice(WAYS), place, act)]

    def watch(self, run):
        """Follows the memory of a run until its roles end."""
        while any(it.poll() is None for it in run.roles.values()) and time.monotonic() < self.until + PATIENCE:
            for name, role in run.roles.items():
                with contextlib.suppress(OSError, KeyError, ValueError):
                    _, peak, *_ = memory(role)
                    with self.lock:
                        self.peaks[name] = max(peak, self.peaks.get(name, 0))
            time.sleep(0.2)

    def run(self, seed):
        source = random.Random(seed)
        while time.monotonic() < self.until:
            plan = self.plan(source)
            with Run(self.options.program, self.up, self.down, plan, CHANNELS) as it:
                watcher = threading.Thread(target=self.watch, args=(it,))
                watcher.start()
                ends = {name: it.roles[name] for name in ("client", "server")}
                for role in ends.values():
                    with contextlib.suppress(subprocess.TimeoutExpired):
                        role.wait(PATIENCE)
                # The proxies wait for more channels, where they had none lost.
                for name, role in it.roles.items():
                    if name not in ends and role.poll() is None:
                        self.let_end(role)
                watcher.join()
                self.note(plan, it, it.end(1))

    def let_end(self, role):
        """A proxy that waits for more channels is stopped; one that is to end, ends."""
        with contextlib.suppress(subprocess.TimeoutExpired):
            role.wait(1)
        role.terminate()

    def note(self, plan, run, ended):
        legs = [len(run.forwarders[it].pairs) for it in ("ins1", "outs1")]
        ends = {name: it for name, it in ended.items() if name in ("client", "server")}
        proxies = {name: it for name, it in ended.items() if name not in ends}
        with self.lock:
            wrong = list(amiss(ends, self.up, self.down))
            wrong += [f"{name} told {it.said!r}" for name, it in proxies.items() if it and it.status not in (0, 7, -15)]
            self.wrong += [f"{plan}: {it}" for it in wrong]
            self.counts["runs"] += 1
            self.counts["cut"] += any(it.status for it in ends.values() if it)
            self.counts["replacements"] += sum(max(0, it - 1) for it in legs)
            self.counts["bytes"] += sum(len(it.output) for it in ends.values() if it)
            for name, it in ended.items():
                said = re.sub(r"\d+", "n", it.said.strip().partition(" ")[2]) if it and it.said else ""
                self.ends[f"{name} {it.status if it else 'none'} {said}".strip()] += 1

    def tell(self):
        counts = " ".join(f"{name} {count:,}" for name, count in self.counts.items())
        peaks = ", ".join(f"{name} {peak:.1f}" for name, peak in sorted(self.peaks.items()))
        print(f"{counts}; wrong {len(self.wrong)}; peaks in MB: {peaks}", flush=True)

    def all(self):
        threads = [threading.Thread(target=self.run, args=(f"{self.options.seed} {it}",)) for it in range(AT_ONCE)]
        for it in threads:
            it.start()
        while any(it.is_alive() for it in threads):
            threads[0].join(60)
            self.tell()
        for it in threads:
            it.join()
        self.tell()
        for text, count in sorted(self.ends.items()):
            print(f"  {count:6} {text}")
        for text in self.wrong:
            print(text)
        return bool(self.wrong)


def long_run(options):
    """One connection of many replacements. Whether something is wrong."""
    up, down = pdus(options.long // 8_000, 1, 8_000), pdus(options.long // 8_000, 1_000_000, 8_000)
    with Run(options.program, up, down, (), CHANNELS, 16) as run:
        ends = [run.roles["client"], run.roles["server"]]
        while any(it.poll() is None for it in ends):
            time.sleep(5)
            told = []
            for name in "client", "server", "inproxy1", "outproxy1":
                with contextlib.suppress(OSError, KeyError, ValueError):
                    size, peak, descriptors, threads = memory(run.roles[name])
                    told.append(f"{name} {size:.1f} of {peak:.1f} MB, {descriptors} descriptors, {threads} threads")
            channels = sum(len(it.pairs) for name, it in run.forwarders.items() if name != "to_server")
            print(f"{channels} channels; {'; '.join(told)}", flush=True)
        found = run.end(1)
        ended = {name: found[name] for name in ("client", "server")}
        wrong = list(amiss(ended, up, down))
    print("long:", *(f"{name} ended with {it.status} {it.said.strip()}" for name, it in ended.items() if it), *wrong)
    return bool(wrong)


def main():
    parser = argparse.ArgumentParser(description=__doc__, formatter_class=argparse.RawDescriptionHelpFormatter)
    parser.add_argument("--make", type=pathlib.Path)
    parser.add_argument("--program", type=pathlib.Path)
    parser.add_argument("--seconds", type=int, default=600)
    parser.add_argument("--seed", type=int, default=random.randrange(1_000_000))
    parser.add_argument("--long", type=int, default=0)
    options = parser.parse_args()
    if options.make:
        print(make(options.make))
        return 0
    if not options.program:
        parser.error("name a program, which --make makes")
    is_wrong = long_run(options) if options.long else False
    print(f"seed {options.seed}", flush=True)
    return int(Soak(options).all() or is_wrong)


if __name__ == "__main__":
    sys.exit(main())
