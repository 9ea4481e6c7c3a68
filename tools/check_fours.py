#!/usr/bin/env python3
"""Replays the cases of four_cases.py, and compares what each report tells with what has to come.

The program is crates/rh_cli/out/rh_cli, which is built where it isn't there. Each report is walked
besides, by the rules of tools/walking.py.

    tools/check_fours.py              says how many cases there were
    tools/check_fours.py --quiet      says only what is wrong
    tools/check_fours.py --self-test  changes lines of a report, and sees each change told
    tools/check_fours.py --program P  runs another program

Ends with status 1 where something is wrong.
"""
import argparse
import pathlib
import re
import subprocess
import sys

import four_cases
from walking import walk

TOP = pathlib.Path(__file__).resolve().parent.parent
PROGRAM = TOP / "crates/rh_cli/out/rh_cli"


def text_of(recording):
    return "\n".join(recording.lines) + "\n"


def replayed(program, text):
    how = {"capture_output": True, "text": True, "check": False}
    run = subprocess.run([program, "replay"], input=text, **how)
    if run.returncode != 0:
        raise ValueError(f"status {run.returncode}: {run.stderr.strip()}")
    return run.stdout


def answers_of(recording, report):
    """The answers to each line, but for the nodes that it closed."""
    told = iter(report.split("\n"))
    for place, line in enumerate(recording.lines):
        answers = []
        if line.startswith(("rh ", "set ")):
            yield place, answers
            continue
        answers.append(next(told))
        while line.startswith("settle") and not answers[-1].startswith(("quiet", "spent")):
            answers.append(next(told))
        yield place, answers


def legs_that(answers, verb):
    """The legs of which answers say that they came up, or ended."""
    said = (one.split(" ") for one in answers)
    return {words[1] for words in said if words[0] == verb and words[-1] == "ok"}


def judged(recording, wanted, report):
    """What is wrong with a report, a text each."""
    text = text_of(recording)
    walked = walk(text, report)
    wrong = [f"line {line} breaks '{rule}': {what}" for rule, line, what in walked.faults]
    wrong += [f"{node} closed with {' '.join(why)}" for node, why in walked.causes.items()]
    if wrong:
        return wrong
    told = []
    for place, answers in answers_of(recording, report):
        told += answers
        known = recording.answers.get(place)
        if known is not None and answers != [known]:
            wrong.append(f"line {place + 1} is answered {answers[0][:80]}, not {known[:80]}")
    for end, other in four_cases.OTHER.items():
        given = [four_cases.pdu_of(call).hex() for call in recording.given[other]]
        if walked.given[other] != given:
            wrong.append(f"{other} gave {len(walked.given[other])} of {len(given)} PDUs")
        count = len(given) if wanted.taken is None else wanted.taken[end]
        if walked.taken[end] != given[:count]:
            wrong.append(f"{end} took {len(walked.taken[end])} PDUs, not {count}")
    for verb, legs in ("open", wanted.up), ("end", wanted.ended):
        if legs is not None and legs_that(told, verb) != legs:
            wrong.append(f"{verb} was answered ok for {sorted(legs_that(told, verb))}")
    for name, pattern in ("client", wanted.client), ("server", wanted.server):
        if not re.search(rf"^{name} {pattern}$", report, re.MULTILINE):
            wrong.append(f"the {name} is not {pattern}")
    return wrong


def states_of(report):
    """The states of both ends, by their letters."""
    last = [line.split(" ", 1) for line in report.strip().split("\n")[-2:]]
    return {name[0]: state for name, state in last}


def cases():
    for group in four_cases.GROUPS:
        yield from group()


def switches(program):
    """A clean end is tried before a channel is replaced, and behind that; what is wrong."""
    wrong = []
    for end, same in four_cases.AMID:
        seen = set()
        for rounds in range(four_cases.MOST_ROUNDS):
            recording = four_cases.amid(end, same, rounds)
            states = states_of(replayed(program, text_of(recording)))
            seen.add(four_cases.is_switched(end, states))
        if seen != {False, True}:
            wrong.append((f"{end} {same}", f"its channel was replaced: {seen}"))
    return wrong


def check(program, quiet):
    """Checks each case, and answers whether all is well."""
    wrong = switches(program)
    count = 0
    for name, recording, wanted in cases():
        count += 1
        report = replayed(program, text_of(recording))
        wrong += [(name, text) for text in judged(recording, wanted, report)]
    for name, text in wrong:
        print(f"{name}: {text}", file=sys.stderr)
    if not quiet:
        print(f"{count} cases of four roles: {'all well' if not wrong else 'not well'}")
    return bool(count) and not wrong


# ---- the must-fail of the check

# What stands in the report of a case, and what is to stand there instead.
CHANGES = [
    ("open is2 ok", "open is2 no"),
    ("end is1 u ok", "end is1 u no"),
    ("recycle in ok", "recycle in notopen"),
    ("client open in 2 out 1", "client open in 1 out 1"),
    ("server open in 2 out 1", "server opening in 2 out 1"),
    (f"take s pdu {four_cases.pdu_of(19).hex()}", "take s empty"),
    ("up given 20 taken 20", "up given 20 taken 20\nclosed i1 1 LegBroken is1"),
]


def self_test(program, quiet):
    """Sees a report of a case pass, and each change of it told."""
    name = "another in proxy, all taken"
    [(recording, wanted)] = [case[1:] for case in four_cases.replacements() if case[0] == name]
    report = replayed(program, text_of(recording))
    passes = [] if not judged(recording, wanted, report) else ["the report itself"]
    for old, new in CHANGES:
        changed = f"\n{report}".replace(f"\n{old}\n", f"\n{new}\n", 1)[1:]
        if changed == report or not judged(recording, wanted, changed):
            passes.append(f"{new} for {old[:80]}")
    for text in passes:
        print(f"{name}: not told or not there: {text}", file=sys.stderr)
    if not quiet:
        print(f"{len(CHANGES)} changes: {'all told' if not passes else 'not all told'}")
    return not passes


def main():
    parser = argparse.ArgumentParser(
        description=__doc__, formatter_class=argparse.RawDescriptionHelpFormatter
    )
    parser.add_argument("--quiet", action="store_true")
    parser.add_argument("--self-test", action="store_true")
    parser.add_argument("--program")
    options = parser.parse_args()
    program = options.program or PROGRAM
    if not options.program:
        # Builds the program where it isn't built.
        subprocess.run([TOP / "rh_cli", "--version"], check=True, capture_output=True)
    return (self_test if options.self_test else check)(program, options.quiet)


if __name__ == "__main__":
    sys.exit(0 if main() else 1)
