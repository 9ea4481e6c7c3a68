#!/usr/bin/env python3
"""Plants mistakes in the reports of recordings/ and examples/, and sees the rules refuse each.

The kinds of mistakes stand in tools/wrong_*.py, each with the rule of tools/walking.py that is to
refuse it. No program is run.

    tools/wrong_reports.py            says how many wrong reports were refused
    tools/wrong_reports.py --quiet    says only what is wrong
    tools/wrong_reports.py --list     says what the rules and the kinds are

Ends with status 1 where a good report is refused, a wrong one isn't refused by its rule, a kind
finds no place in any report, or a rule has no kind.
"""
import argparse
import itertools
import pathlib
import sys

import wrong_closes
import wrong_lines
import wrong_pdus
from planting import Good
from walking import ALL, OVER_WORLDS, walk

TOP = pathlib.Path(__file__).resolve().parent.parent
FOLDERS = ["recordings", "examples"]
KINDS = [*wrong_pdus.KINDS, *wrong_lines.KINDS, *wrong_closes.KINDS]
# How many places of a report are tried for a kind.
MOST_PLACES = 4
LEAST_KINDS = 46


def text_of(planted):
    """The text of a wrong report: of its lines, and of what ends the last one if that isn't LF."""
    lines, end = planted if isinstance(planted, tuple) else (planted, "\n")
    return "\n".join(lines) + end


def plant(kind, good):
    """The wrong reports of a kind, and the rules that refuse each."""
    if kind.form not in (None, "direct" if good.told.is_direct else "roles"):
        return
    for planted in itertools.islice(kind.plant(good), MOST_PLACES):
        text = text_of(planted)
        if text == good.report:
            raise ValueError(f"{kind.name} changes nothing in {good.name}")
        yield text, {fault[0] for fault in walk(good.recording, text).faults}


def check_kinds(reports):
    """What is wrong, a text each, and how many wrong reports were refused."""
    wrong, many = [], 0
    for kind in KINDS:
        count = 0
        for good in reports:
            for _, rules in plant(kind, good):
                count += 1
                if kind.rule not in rules:
                    told = ", ".join(sorted(rules)) or "none"
                    wrong.append(f"{good.name}: {kind.name} passes '{kind.rule}' (refused: {told})")
        if not count:
            wrong.append(f"{kind.name} finds no place in any recording")
        many += count
    return wrong, many


def check(quiet):
    """Plants all kinds, and answers whether all is well."""
    paths = [path for folder in FOLDERS for path in sorted((TOP / folder).glob("*.rh"))]
    reports = [Good(path) for path in paths]
    wrong, many = check_kinds(reports)
    for good in reports:
        for rule, line, why in walk(good.recording, good.report).faults:
            wrong.append(f"{good.name}: line {line} is right, and breaks '{rule}': {why}")
    wrong += [f"no kind is refused by '{rule}'" for rule in set(ALL) - {it.rule for it in KINDS}]
    if len(KINDS) < LEAST_KINDS or not reports:
        wrong.append(f"these are {len(KINDS)} kinds in {len(reports)} reports")
    for text in wrong:
        print(text, file=sys.stderr)
    if not quiet:
        seen = "all refused" if not wrong else "not all well"
        print(f"{many} wrong reports of {len(KINDS)} kinds: {seen}")
    return not wrong


def listing():
    """What each rule is, with the kinds that it refuses, and which clauses no rule is of."""
    for rule in ALL.values():
        clause = f"Claims.{rule.clause}" if rule.clause else f"no clause: {rule.reason}"
        yield f"{rule.name} ({clause})"
        yield f"    {rule.sentence}"
        yield from (f"  - {kind.sentence}" for kind in KINDS if kind.rule == rule.name)
    for field, what in OVER_WORLDS.items():
        yield f"Claims.{field} has no rule. It refuses, where a report alone doesn't show it:"
        yield f"    {what}"


if __name__ == "__main__":
    parser = argparse.ArgumentParser(
        description=__doc__, formatter_class=argparse.RawDescriptionHelpFormatter
    )
    parser.add_argument("--quiet", action="store_true")
    parser.add_argument("--list", action="store_true")
    options = parser.parse_args()
    if options.list:
        print("\n".join(listing()))
        sys.exit(0)
    sys.exit(0 if check(options.quiet) else 1)
