"""What is said of a line that a word refused: what stands there, and what may.

The program's own text and status stay as they are; this is a line behind it.
"""
import re

import line_forms

# What files of pcap and pcapng begin with.
MAGICS = "a1b2c3d4", "d4c3b2a1", "a1b23c4d", "4d3cb2a1", "0a0d0d0a"
CAPTURES = tuple(map(bytes.fromhex, MAGICS))
ONLY_HEX = re.compile(rb"[0-9A-Fa-f]+\s*")
SCRIPT_FIRST = re.compile(rb"(?:#.*|case .*|set .*|client|server|(?:in|out)proxy \d+)\s*")
# What a file of each kind is read by.
READ_BY = {
    "replay": "a recording, which replay reads: type ./replay FILE",
    "show": "hex, which show reads: type ./rh_cli show < FILE",
    "play": "a script of one role, which play reads: type ./rh_cli play < FILE",
    "audit": "a capture of legs, which audit reads: type ./rh_cli audit < FILE",
    "pcap": "a capture of a net: type tools/pcap_packets.py FILE | ./rh_cli show",
}
# The forms of lines of words that tell each packet in a line.
OF_PACKETS = {"show": line_forms.SHOW, "name": line_forms.NAME}
# What else a word reads of what begins like the texts of another one.
READS = {"name": "show", "capture": "replay", "story": "replay"}
# How much of a line is told.
MOST_TOLD = 60


def kind_of(text):
    """The word that reads texts which begin like this, or 'pcap'; none where it is unclear."""
    first = text[:65_536].partition(b"\n")[0]
    if text.startswith(CAPTURES):
        return "pcap"
    if first.startswith(b"rh "):
        return "replay"
    if first.startswith(b"cap "):
        return "audit"
    if ONLY_HEX.fullmatch(first):
        return "show"
    return "play" if SCRIPT_FIRST.fullmatch(first) else None


def shortened(line):
    return line if len(line) <= MOST_TOLD else f"{line[: MOST_TOLD - 2]}.."


def spacing(line):
    """What is wrong with the spaces of a line."""
    if not line.strip():
        return "the line is empty"
    if not line.isascii() or not line.isprintable():
        odd = next(it for it in line if not " " <= it <= "~")
        return f"{odd!r} stands in it, and lines are of printed ASCII"
    if line != line.strip(" "):
        return "there are spaces at its end" if line[0] != " " else "there are spaces before it"
    return "there are two spaces between words" if "  " in line else None


def of_forms(forms, line):
    """Why a line is in none of these forms; none where it is in one."""
    words = line.split(" ")
    likely = [form for form in forms if form[0] == words[0]]
    if not likely:
        begins = sorted({form[0] for form in forms})
        return f"no line begins with {words[0]!r}: they begin with {', '.join(begins)}"
    if any(line_forms.is_taken(form, words) for form in likely):
        return None
    if words[0] == "set" and len(words) > 1 and words[1] not in line_forms.KEYS:
        return f"{words[1]!r} is no setting: they are {', '.join(line_forms.KEYS)}"
    best = max(likely, key=lambda form: (line_forms.fitting(form, words), len(form)))
    return line_forms.amiss(best, words)


def of_settings(lines, number):
    """Why a setting may not stand in this line, from 1; none where it may."""
    key = lines[number - 1].split(" ")[1]
    for at, line in enumerate(lines[1 : number - 1], start=2):
        words = line.split(" ")
        if words[0] != "set":
            return f"settings stand before all other lines, and line {at} is none"
        if words[1] == key:
            return f"{key} was set in line {at}"
    return None


def of_recording(lines, number, headers):
    """Why this line, from 1, isn't one of a recording with one of these first lines."""
    line, header = lines[number - 1], lines[0]
    if number == 1 or header not in headers:
        return f"the first line is {' or '.join(map(repr, headers))}"
    why = spacing(line) or of_forms(line_forms.HEADERS[header], line)
    if why is None and line.startswith("set "):
        return of_settings(lines, number)
    if line in line_forms.HEADERS:
        return f"{line!r} is the first line alone"
    return why


def of_packets(forms, line):
    """Why this line isn't one of packets; none where it is."""
    words = line.split(" ")
    if any(line_forms.is_taken(form, words) for form in forms):
        return None
    form = next((form for form in forms if len(form) == len(words)), forms[-1])
    why = f"the line is no {form[0].told}" if len(form) == 1 else line_forms.amiss(form, words)
    return spacing(line) or why


def of_capture(lines, number):
    """Why this line, from 1, isn't one of a capture of legs."""
    if number == 1:
        return f"the first line is {line_forms.CAPTURE!r}"
    line = lines[number - 1]
    why = spacing(line) or of_forms(line_forms.AUDIT, line)
    return why or f"earlier lines of tag {line.split(' ')[1]} have pipes of another kind of leg"


def of_script(line):
    if line.startswith("case ") and len(line) > 5 and line.isascii():
        return None
    return spacing(line) or of_forms(line_forms.PLAY, line)


def other_word(word, text):
    """What a text is that another word reads, and how; none where it may be one for this word."""
    kind = kind_of(text)
    is_own = kind in (word, READS.get(word))
    return None if is_own or kind is None else f"this is {READ_BY[kind]}"


def why_refused(word, text, number, is_front=True):
    """Why line `number`, from 1, of a text is none that this word reads; none where that isn't
    clear. The text is the front of the input, or of packets a part behind it."""
    lines = [it.decode("utf-8", "replace") for it in text.split(b"\n", number)[:number]]
    if is_front and not text.strip():
        return "the input is empty"
    if word in ("replay", "story"):
        return of_recording(lines, number, list(line_forms.HEADERS))
    if word == "capture":
        return of_recording(lines, number, [line_forms.OF_ROLES])
    if word == "audit":
        return of_capture(lines, number)
    if word == "play":
        return of_script(lines[-1])
    return of_packets(OF_PACKETS[word], lines[-1]) if word in OF_PACKETS else None


def said_of(word, text, number, place, is_front=True):
    """What is said of the refused line, which is line `place` of the input."""
    other = other_word(word, text) if is_front and number == 1 else None
    if other:
        return f"line {place}: {other}"
    why = why_refused(word, text, number, is_front)
    if why is None:
        return f"line {place}: docs/RECORDINGS.md has the lines that {word} reads"
    line = text.split(b"\n", number)[number - 1 : number] or [b""]
    told = shortened(line[0].decode("utf-8", "replace"))
    return f"line {place}: {told!r}: {why}"
