#!/usr/bin/env python3
"""Replays the recordings of recordings/ and examples/, and compares each report with its file.

The program is crates/rh_cli/out/rh_cli, which is built where it isn't there. The files are walked
besides, by the rules of tools/walking.py, which know nothing of the program, and stand for what is
proved of it. That they refuse what is wrong is seen by tools/wrong_reports.py.

    tools/check_recordings.py          says what was checked
    tools/check_recordings.py --quiet  says only what is wrong

Ends with status 1 where something is wrong.
"""
import argparse
import itertools
import os
import pathlib
import subprocess
import sys

from walking import walk

TOP = pathlib.Path(__file__).resolve().parent.parent
PROGRAM = TOP / "crates/rh_cli/out/rh_cli"
FOLDERS = ["recordings", "examples"]
SHOWN = 100


def files(ending):
    """The files of the folders with this ending, in order."""
    return [path for folder in FOLDERS for path in sorted((TOP / folder).glob(f"*{ending}"))]


def around(line, place):
    """What stands around a place of a line, which may be long."""
    if line is None:
        return "(no line)"
    begin = max(place - SHOWN // 2, 0)
    front, behind = ".." if begin else "", ".." if begin + SHOWN < len(line) else ""
    return f"{front}{line[begin : begin + SHOWN]}{behind}"


def difference(wanted, written):
    """Where two reports differ first, with what stands there in both; none where they don't."""
    lines = itertools.zip_longest(wanted.split("\n"), written.split("\n"))
    for number, (one, two) in enumerate(lines, start=1):
        if one != two:
            place = len(os.path.commonprefix([one or "", two or ""]))
            return (
                f"line {number} differs, from character {place + 1} on\n"
                f"  the report has     {around(one, place)}\n"
                f"  the program wrote  {around(two, place)}"
            )
    return None


def check_report(recording, beside):
    """What is wrong with the report beside a recording, a text each."""
    if not beside.is_file():
        return ["there is no report beside it"]
    wanted = beside.read_text()
    wrong = [
        f"line {line} of the report breaks '{rule}': {what}"
        for rule, line, what in walk(recording.read_text(), wanted).faults
    ]
    with recording.open("rb") as source:
        run = subprocess.run([PROGRAM, "replay"], stdin=source, capture_output=True, check=False)
    if run.returncode != 0:
        wrong.append(f"status {run.returncode}: {run.stderr.decode().strip()}")
    differs = difference(wanted, run.stdout.decode())
    return [*wrong, differs] if differs else wrong


def check(quiet):
    """Checks each recording, and answers whether all is well."""
    # Builds the program where it isn't built.
    subprocess.run([TOP / "rh_cli", "--version"], check=True, capture_output=True)
    recordings = files(".rh")
    wrong = []
    for path in recordings:
        wrong += [(path, text) for text in check_report(path, path.with_suffix(".report"))]
    alone = [path for path in files(".report") if not path.with_suffix(".rh").is_file()]
    wrong += [(path, "there is no recording beside it") for path in alone]
    for path, text in wrong:
        print(f"{path.relative_to(TOP)}: {text}", file=sys.stderr)
    if not quiet:
        print(f"{len(recordings)} recordings: {'all well' if not wrong else 'not well'}")
    return bool(recordings) and not wrong


if __name__ == "__main__":
    parser = argparse.ArgumentParser(
        description=__doc__, formatter_class=argparse.RawDescriptionHelpFormatter
    )
    parser.add_argument("--quiet", action="store_true")
    sys.exit(0 if check(parser.parse_args().quiet) else 1)
