#!/usr/bin/env python3
"""Proves and builds the libraries below a program side by side, each once those below it are built.

    tools/prove_beside.py PROGRAM FOLDER

rt itself builds them one after the other, and two rt in one checkout wait for each other. This
holds the locks that they would take, and calls what rt calls to build one library. Whatever it finds
otherwise in rt than it expects ends it with status DIFFERS: then rt does it, one after the other.

Each line that begins with EVENT is a word and names of crates: 'built', which were built before;
'begun' and 'proved', as they come; 'failed', at which this ends with status 1. What rt says of a
crate goes to FOLDER/NAME.log.
"""
import importlib.machinery
import importlib.util
import os
import pathlib
import shutil
import signal
import sys
import traceback
from concurrent.futures import FIRST_COMPLETED, ThreadPoolExecutor, wait

import program_crates

EVENT = "beside: "
DIFFERS = 3


def say(word, *names):
    print(EVENT + " ".join([word, *names]), flush=True)


def kit():
    """rt's own code as a module, where it has the form that this knows."""
    program = os.path.realpath(shutil.which("rt"))
    if not os.path.isfile(f"{os.path.dirname(program)}/rtlib.py"):
        raise ImportError("rt has no rtlib.py beside it")
    loader = importlib.machinery.SourceFileLoader("rt_of_the_kit", program)
    module = importlib.util.module_from_spec(importlib.util.spec_from_loader(loader.name, loader))
    loader.exec_module(module)
    # As its commands do: libraries that other checkouts of this machine built are taken from there.
    module.share_work(True)
    return module


class Work:
    """Libraries that are being built, each by a thread that waits for the prover."""

    def __init__(self, rt, program, folder):
        self.lib, self.folder = rt.rtlib, folder
        # It has a process started that ends the provers when this ends, before there are threads.
        self.lib.guarded()
        place = str(program_crates.TOP / "crates" / program)
        crate = self.lib.Crate(place, self.lib.root_above(place), {})
        self.crates = {it.name: it for it in crate.below()}
        self.program = crate
        below = {name: [it.name for it in one.deps] for name, one in self.crates.items()}
        seconds, many = program_crates.proof_seconds(below), program_crates.processors()
        self.order = program_crates.Order(below, seconds, many)
        self.running, self.held = {}, []

    def build(self, name, jobs):
        crate = self.crates[name]
        with open(f"{self.folder}/{name}.log", "w", encoding="utf-8") as crate.out:
            return crate.build_rlib(["--jobs", str(jobs)], anew=False)

    def fits(self, name):
        """Whether memory holds one more; alone, a crate is always begun."""
        return not self.running or self.lib.fits(self.crates[name].need() // 2)

    def begin(self, pool, done):
        jobs = {name: many for name, many in self.running.values()}
        for name, many in [*self.order.next(done, jobs)]:
            if not self.fits(name):
                return
            say("begun", name)
            self.running[pool.submit(self.build, name, many)] = name, many

    def all(self):
        """Builds all, and returns the name of one that failed, or None. It doesn't wait for the
        others then: they end with this process."""
        done = {name for name, it in self.crates.items() if it.is_built()}
        say("built", *done)
        self.held = self.lib.lock([*self.crates.values(), self.program])
        pool = ThreadPoolExecutor(self.order.processors)
        while len(done) < len(self.crates):
            self.begin(pool, done)
            for ended in wait(self.running, return_when=FIRST_COMPLETED).done:
                name, _ = self.running.pop(ended)
                if ended.result():
                    return name
                say("proved", name)
                done.add(name)
        return None


def main(program, folder):
    try:
        failed = Work(kit(), program, folder).all()
    except (Exception, SystemExit):  # whatever differs: rt does the same by itself
        traceback.print_exc()
        return DIFFERS
    if failed:
        say("failed", failed)
    return 1 if failed else 0


if __name__ == "__main__":
    # With Python's own handler, an interrupt would wait for the provers.
    signal.signal(signal.SIGINT, signal.SIG_DFL)
    status = main(sys.argv[1], pathlib.Path(sys.argv[2]))
    sys.stdout.flush()
    sys.stderr.flush()
    os._exit(status)
