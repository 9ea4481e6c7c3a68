#!/usr/bin/env python3
"""Runs a program, rh_cli or rh_roles, which is proved and built first where it isn't up to date.

    tools/run_program.py PROGRAM WORD..               runs it, as ./rh_cli and ./rh_roles do
    tools/run_program.py PROGRAM --unproved WORD..    runs its sources as they stand, with nothing
                                                      proved
"""
import os
import pathlib
import subprocess
import sys

import build_program
import given_input
import given_pieces
from program_crates import TOP
from teaching import OF_PACKETS

READS = "replay", "story", "show", "name", "play", "capture", "audit"
# What tools/story_chart.py draws of a story, by the word behind `story`.
CHARTS = {"--chart": [], "--svg": ["--svg"]}
# The words of a story with hex, as the program has them and as they may be typed too.
HEX_STORY = ["story", "hex"]
AS_OPTION = ["story", "--hex"]
# How many words each form has, by its first word.
ROLES = {"client": 4, "inproxy": 3, "outproxy": 3, "server": 2}
FORMS = {"rh_cli": dict.fromkeys(READS, 1), "rh_roles": ROLES}


def say(program, text):
    print(f"{program}: {text}", file=sys.stderr, flush=True)


def is_form(program, words):
    """Whether nothing is left to say behind a run, as far as the number of words tells."""
    lengths = FORMS[program] | {"--help": 1, "--version": 1}
    return words == HEX_STORY or bool(words) and len(words) == lengths.get(words[0])


def say_what_to_type(program, words):
    """Behind a usage error."""
    if program == "rh_roles":
        say(program, "type ./rh_roles --help for the words of the four roles")
    elif words[:1] and words[0] in READS:
        say(program, f"{words[0]} reads standard input: type ./rh_cli {words[0]} < FILE")
    else:
        reading = "replay, story, show, name, play, capture or audit"
        hint = f"type ./rh_cli WORD < FILE with {reading}, or ./rh_cli --help for more"
        say(program, hint)


def commit():
    """What git calls the sources as they stand, with -dirty where they were changed since; nothing
    where this isn't the top of what git knows."""
    git = ["git", "-C", TOP]
    how = {"capture_output": True, "text": True, "check": False}
    try:
        top = subprocess.run([*git, "rev-parse", "--show-toplevel"], **how).stdout.strip()
        describe = [*git, "describe", "--tags", "--always", "--dirty"]
        return subprocess.run(describe, **how).stdout.strip() if top == str(TOP) else ""
    except OSError:
        return ""


def tell_version(command, place):
    """Writes the program's name and version, and the commit of its sources."""
    done = subprocess.run([*command, "--version"], cwd=place, stdout=subprocess.PIPE, check=False)
    text, found = done.stdout.decode(), commit()
    text = text.replace("\n", f" ({found})\n", 1) if found else text
    is_written = given_input.written(lambda: print(text, end=""))
    return done.returncode if is_written else given_input.fails(*given_input.WRITE_FAULT)


def run_over_input(program, command, words, place):
    """Runs words over standard input. Packets are told in pieces, but for sources that take a
    minute to begin."""
    said = [lambda text: say(program, text), place]
    if words[0] not in OF_PACKETS:
        return given_input.run(command, words, *said)
    whole = given_pieces.Input(given_input.MOST_INPUT, None)
    return given_pieces.run(command, words[0], *said, whole if command[0] == "rt" else None)


def run_chart(command, options, place):
    """Runs `story`, and draws what it tells: its status, or else that of the chart."""
    chart = pathlib.Path(__file__).resolve().with_name("story_chart.py")
    drawing = subprocess.Popen([sys.executable, "-B", chart, *options], stdin=subprocess.PIPE)
    out = os.dup(1)
    os.dup2(drawing.stdin.fileno(), 1)
    drawing.stdin.close()
    status = given_input.run(command, ["story"], lambda text: say("rh_cli", text), place)
    os.dup2(out, 1)
    return status or drawing.wait()


def run(program, command, words, place=None):
    """Runs it, and says what to type behind a usage error."""
    is_chart = len(words) == 2 and words[0] == "story" and words[1] in CHARTS
    if is_chart and program == "rh_cli" and given_input.is_readable():
        return run_chart(command, CHARTS[words[1]], place)
    if words == ["--version"]:
        return tell_version(command, place)
    if program == "rh_cli":
        words = HEX_STORY if words == AS_OPTION else words
    is_reading = words == HEX_STORY or len(words) == 1 and words[0] in READS
    if is_reading and program == "rh_cli" and given_input.is_readable():
        return run_over_input(program, command, words, place)
    if is_form(program, words):
        # The program takes the place of this process, so that signals come to it.
        os.chdir(place or os.curdir)
        os.execvp(command[0], [*command, *words])
    status = subprocess.run([*command, *words], cwd=place, check=False).returncode
    if status == 1:
        say_what_to_type(program, words)
    return status if status >= 0 else 128 - status


def run_unproved(program, words):
    if not build_program.has_rt():
        say(program, build_program.NO_RT)
        return 1
    takes = "which takes a minute or two to begin"
    say(program, f"nothing of this is proved: it runs the sources as they are, {takes}")
    return run(program, ["rt", "try", "--"], words, TOP / "crates" / program)


def main(program, words):
    if words[:1] == ["--unproved"]:
        return run_unproved(program, words[1:])
    if not build_program.is_up_to_date(program, TOP) and not build_program.build(program, TOP):
        return 1
    return run(program, [str(build_program.place_of(program, TOP))], words)


if __name__ == "__main__":
    sys.exit(main(sys.argv[1], sys.argv[2:]))
