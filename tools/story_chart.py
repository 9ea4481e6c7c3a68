#!/usr/bin/env python3
"""Draws a sequence chart of a story, as `rh_cli story` tells it.

    tools/story_chart.py < STORY          as text
    tools/story_chart.py --svg < STORY    as a picture, one file of SVG

Each node has a lane: the client, the in proxies, the out proxies and the server. What stands in the
chart is what the story tells, in its order: the program's text is read, and no recording.
"""
import collections
import html
import os
import re
import sys

ITEM = re.compile(r"(cs|(?:co|os|ci|is)\d+) (\S)>(\S) (.*)")
PACKET = re.compile(r"((?:CONN|IN_R\d|OUT_R\d|END)/\w+|FlowControlAck\w*|Keep-Alive|PingTraffic\w*"
                    r"|Ping)(?: (.*))?")
PDU = re.compile(r"(\S+(?: \d+)?) call (\d+) length (\d+)")
REQUEST = re.compile(r"(RPC_(?:IN|OUT)_DATA) (.*)")
RESPONSE = re.compile(r"HTTP/1\.1 (\d{3} .*)")
SIDES = {"c": "client", "s": "server"}
NO_ANSWER = "this is no story: rh_cli story writes one of a recording"

# A row of the chart: from one lane to another, or at one lane, or over all. `tone` says what it is.
Row = collections.namedtuple("Row", "kind start end label detail tone moment")
# What is replaced by what, from one row to another.
Bracket = collections.namedtuple("Bracket", "first last label broken")


class NoStory(Exception):
    """The text isn't what `story` writes."""


def item_label(text):
    """What is short of an item, what else is told of it, and what it is."""
    if found := PACKET.fullmatch(text):
        return found[1], found[2] or "", "packet"
    if found := PDU.fullmatch(text):
        return f"{found[1]} {found[2]}", f"length {found[3]}", "pdu"
    if found := REQUEST.fullmatch(text):
        return found[1], found[2], "head"
    if found := RESPONSE.fullmatch(text):
        return found[1], "", "head"
    label, _, rest = text.partition(" ")
    return label, rest, "head" if label.startswith("ncacn_http") else "bad"


class Chart:
    """The lanes, rows and brackets of a story."""

    def __init__(self, text):
        self.rows, self.brackets, self.last = [], [], []
        # The rounds of settlings: in front of which row each begins, and its number.
        self.rounds = []
        # The in proxy of a channel that has none of its own, and where each channel's leg came up.
        self.same, self.opened = {}, {}
        # Where the client or server was asked for a replacement that has no successor yet.
        self.asked = {}
        # Bytes that were sent on a stream since the last item came there.
        self.sent = {}
        self.moment = "0"
        for line in text.splitlines():
            self.take(line)
        self.lanes = self.all_lanes()
        self.add_brackets()

    # ---- lines

    def take(self, line):
        moment, blank, told = line.partition(" ")
        if not moment.isdigit() or not blank:
            raise NoStory(line)
        self.moment = moment
        if found := ITEM.fullmatch(told):
            return self.take_item(*found.groups())
        words = told.split(" ")
        take = getattr(self, f"take_{words[0]}", None)
        if take is None or len(words) < 2:
            raise NoStory(line)
        return take(words)

    def add(self, kind, start, end, label, detail="", tone="quiet"):
        self.rows.append(Row(kind, start, end, label, detail, tone, self.moment))

    def take_item(self, leg, start, end, text):
        label, detail, tone = item_label(text)
        ends = self.ends(leg)
        if (start, end) == (ends[1][0], ends[0][0]):
            ends = ends[::-1]
        self.sent.pop((leg, ends), None)
        detail = f"{leg} {detail}".rstrip()
        begins_round = self.rounds[-1:] and self.rounds[-1][0] == len(self.rows)
        before = self.rows[-1] if self.rows and not begins_round else None
        if before and before.tone == "head" and (before.start, before.end) == ends and (
                before.detail.split(" ")[0] == leg):
            self.rows.pop()
            label, detail = f"{before.label}, {label}", detail
        self.add("arrow", *ends, label, detail, tone)

    def take_open(self, words):
        leg, is_ok = words[1], words[-1] == "ok"
        if leg[:2] == "ci" and words[2] == "same" and is_ok:
            self.same[int(leg[2:])] = int(leg[2:]) - 1
        if is_ok:
            self.opened[leg] = len(self.rows)
        self.add("span", *self.ends(leg), f"{leg} up" if is_ok else f"{leg} not opened",
                 tone="quiet" if is_ok else "bad")

    def take_break(self, words):
        if words[-1] != "ok":
            return self.note(words)
        for (leg, ends), count in list(self.sent.items()):
            if leg == words[1]:
                self.add("lost", *ends, f"{count} bytes lost", leg, "bad")
                del self.sent[leg, ends]
        return self.add("break", *self.ends(words[1]), f"{words[1]} breaks", tone="bad")

    def take_end(self, words):
        if words[-1] != "ok":
            return self.note(words)
        ends = self.ends(words[1])
        ends = ends if words[2] == "u" else ends[::-1]
        return self.add("end", *ends, f"{words[1]} ends", tone="quiet")

    def take_send(self, words):
        if words[-1] in ("no", "0"):
            return
        leg = words[1]
        ends = self.ends(leg) if words[2] == "u" else self.ends(leg)[::-1]
        self.sent[leg, ends] = self.sent.get((leg, ends), 0) + int(words[3])

    def take_give(self, words):
        self.take_at_end("gives", words)

    def take_take(self, words):
        self.take_at_end("takes", words)

    def take_at_end(self, verb, words):
        text = " ".join(words[2:])
        label, _, tone = item_label(text)
        if tone != "pdu":
            label, tone = text, "quiet" if text in ("empty", "ended") else "bad"
            verb = "is refused:" if verb == "gives" else "takes nothing:"
        self.add("tag", words[1], words[1], f"{verb} {label}", tone=tone)

    def take_close(self, words):
        self.add("tag", words[1], words[1], "gives no more")

    def take_recycle(self, words):
        lane = "c" if words[1] == "in" else "s"
        if words[2] == "ok":
            self.asked[words[1]] = len(self.rows)
        told = "" if words[2] == "ok" else ": " + " ".join(words[2:])
        self.add("tag", lane, lane, f"replace {words[1].upper()}{told}", tone="mark")

    def take_round(self, words):
        self.rounds.append((len(self.rows), words[1]))

    def take_quiet(self, words):
        self.add("rule", None, None, f"settled in {words[1]} rounds")

    def take_spent(self, words):
        self.add("rule", None, None, f"{words[1]} rounds, and more to do")

    def take_tick(self, words):
        if words[-1] == "ok":
            self.add("rule", None, None, f"the moment is {words[1]} ms")

    def take_closed(self, words):
        lane, rest = self.lane(words[1]), " ".join(words[5:])
        label = f"closes: {words[3]} {words[4]}"
        if len(rest) <= 12:
            label, rest = f"{label} {rest}".rstrip(), ""
        self.add("tag", lane, lane, label, rest, "bad")

    def note(self, words):
        self.add("rule", None, None, " ".join(words))

    def take_up(self, words):
        self.last.append(" ".join(words))

    take_down = take_client = take_server = take_up

    def rounds_at(self, index):
        """What is told of the rounds that begin in front of a row, if one does."""
        numbers = [number for at, number in self.rounds if at == index]
        return f"round {', '.join(numbers)}" if numbers else ""

    # ---- lanes

    def lane(self, node):
        """The lane of a node; a channel that was opened at another one's in proxy has that lane."""
        if node[0] != "i":
            return node
        number = int(node[1:])
        while number in self.same:
            number = self.same[number]
        return f"i{number}"

    def ends(self, leg):
        """The nodes of a leg, first the one that is nearer to the client."""
        if leg == "cs":
            return "c", "s"
        proxy = self.lane(("o" if leg[0] == "o" or leg[1] == "o" else "i") + leg[2:])
        return ("c", proxy) if leg[0] == "c" else (proxy, "s")

    def all_lanes(self):
        named = {lane for row in self.rows for lane in (row.start, row.end) if lane}
        proxies = [lane for lane in named if lane not in SIDES]
        return ["c", *sorted(proxies, key=lambda it: (it[0], int(it[1:]))), "s"]

    # ---- replacements

    def add_brackets(self):
        opened = [(at, leg) for leg, at in self.opened.items() if leg[0] == "c" and leg != "cs"]
        for at, leg in sorted(opened):
            kind, number = leg[:2], int(leg[2:])
            if number > 1:
                self.add_bracket(at, kind, number)

    def add_bracket(self, at, kind, number):
        word = "in" if kind == "ci" else "out"
        first = at
        asked = self.asked.get(word)
        if asked is not None and asked < at and not any(
                row.label.endswith(f"{kind}{it} up") for row in self.rows[asked:at]
                for it in range(2, number)):
            first = asked
        later = self.opened.get(f"{kind}{number + 1}", len(self.rows))
        last, broken = at, False
        legs = {f"{kind}{number - 1}", f"{'is' if word == 'in' else 'os'}{number - 1}"}
        for index in range(at, later):
            row = self.rows[index]
            if row.kind == "arrow" and f"{word.upper()}_R" in row.label or (
                    row.kind == "end" and row.label.split(" ")[0] in legs):
                last = index
            if row.kind == "break":
                last, broken = index, True
                break
        label = f"{word.upper()} channel {number - 1} replaced by {number}"
        label += ": broken off" if broken else ""
        self.brackets.append(Bracket(first, last, label, broken))


def title_of(lane):
    proxies = {"i": "in proxy", "o": "out proxy"}
    return SIDES.get(lane) or f"{proxies[lane[0]]} {lane[1:]}"


def of_levels(brackets):
    """Each bracket with its place from the left, so that none stands on another."""
    ends, placed = [], []
    for bracket in sorted(brackets):
        level = next((it for it, end in enumerate(ends) if end < bracket.first), len(ends))
        ends[level:level + 1] = [bracket.last]
        placed.append((level, bracket))
    return placed


# ---- as text


class Canvas:
    """A line of text, in which words are put at places."""

    def __init__(self, width):
        self.places = [" "] * width

    def put(self, at, text):
        at = max(at, 0)
        self.places += [" "] * (at + len(text) - len(self.places))
        self.places[at:at + len(text)] = text

    def text(self):
        return "".join(self.places)


class TextChart:
    """A chart as text: lanes from left to right, a row a line."""

    LEAST, MOST = 13, 26

    def __init__(self, chart):
        self.chart = chart
        labels = [len(row.label) for row in chart.rows if row.kind not in ("rule", "tag")]
        gap = min(max([self.LEAST, *(it + 6 for it in labels)]), self.MOST)
        self.levels = of_levels(chart.brackets)
        self.left = 2 * len({level for level, _ in self.levels})
        clock = max([1, *(len(row.moment) for row in chart.rows)])
        front = clock + 2 + self.left + 8
        self.places = {lane: front + gap * at for at, lane in enumerate(chart.lanes)}
        self.clock, self.width = clock, front + gap * (len(chart.lanes) - 1) + 9
        # From which row to which each lane is there.
        self.alive = lives(chart)

    def lines(self):
        yield self.titles()
        moment = None
        for index, row in enumerate(self.chart.rows):
            if self.chart.rounds_at(index):
                yield self.round_line(index)
            for _, bracket in self.levels:
                if bracket.first == index:
                    yield self.bracket_line(index, bracket)
            yield self.row_line(index, row, row.moment if row.moment != moment else "")
            moment = row.moment
        yield self.titles()
        yield from self.chart.last

    def titles(self):
        line = Canvas(self.width)
        for lane, at in self.places.items():
            title = title_of(lane)
            line.put(at - len(title) // 2, title)
        return line.text().rstrip()

    def base(self, index, is_between=False):
        """A line with the lanes and brackets that stand there."""
        line = Canvas(self.width)
        for lane, at in self.places.items():
            first, last = self.alive[lane]
            if first + is_between <= index <= last:
                line.put(at, "|")
        for level, bracket in self.levels:
            if bracket.first + is_between <= index <= bracket.last:
                line.put(self.clock + 2 + 2 * level, "+" if index == bracket.last else "|")
        return line

    def bracket_line(self, index, bracket):
        line = self.base(index, True)
        level = next(level for level, it in self.levels if it is bracket)
        line.put(self.clock + 2 + 2 * level, f"+-- {bracket.label}")
        return line.text().rstrip()

    def round_line(self, index):
        line = self.base(index, True)
        line.put(self.places["c"] + 2, f". . {self.chart.rounds_at(index)} . .")
        return line.text().rstrip()

    def row_line(self, index, row, moment):
        line = self.base(index)
        line.put(0, moment.rjust(self.clock))
        behind = row.detail
        if row.kind == "rule":
            line.put(self.places["c"] + 2, f"- - {row.label} - -")
        elif row.kind == "tag":
            self.put_tag(line, row)
        else:
            behind = self.put_line(line, row)
        return f"{line.text()}  {behind}".rstrip()

    def put_tag(self, line, row):
        at, text = self.places[row.start], f"* {row.label}"
        if row.start == "s":
            text = f"{row.label} *"
            at -= len(text) - 1
        line.put(at, text)

    def put_line(self, line, row):
        """Puts what goes from lane to lane, and answers what has no place there."""
        start, end = self.places[row.start], self.places[row.end]
        low, high = min(start, end) + 1, max(start, end) - 1
        stroke = {"arrow": "-", "lost": "-", "break": "x"}.get(row.kind, ".")
        line.put(low, stroke * (high - low + 1))
        is_right = start < end
        if row.kind == "arrow":
            line.put(high if is_right else low, ">" if is_right else "<")
        elif row.kind == "lost":
            middle = (low + high) // 2
            line.put(middle if is_right else low, " " * (high - middle + 1))
            line.put(middle, "X")
        elif row.kind == "end":
            line.put(high if is_right else low, "|")
        room = (high - low + 1) // (2 if row.kind == "lost" else 1) - 4
        if len(row.label) > room:
            return f"{row.label} {row.detail}"
        line.put(low + 2 if is_right else high - 1 - len(row.label), row.label)
        return row.detail


def lives(chart):
    """From which row to which each node is there."""
    last = len(chart.rows) - 1
    alive = {lane: [0, last] for lane in chart.lanes}
    for lane in chart.lanes:
        if lane not in SIDES:
            rows = [at for at, row in enumerate(chart.rows) if lane in (row.start, row.end)]
            alive[lane] = [rows[0], last]
    for at, row in enumerate(chart.rows):
        if row.kind == "tag" and row.label.startswith("closes: ") and row.start not in SIDES:
            alive[row.start][1] = at
    return alive


# ---- as a picture


class Picture:
    """A chart as SVG, with all that it needs in one file."""

    # Heights and widths in pixels: of a row, above and beside all, and beside the outer lanes; the
    # least width of moments and rounds.
    ROW, TOP, SIDE, EDGE, CLOCK = 25, 56, 14, 44, 52
    # The least distance of two lanes, and how many letters a line of details has at most.
    LEAST, LETTERS = 132, 52
    STYLE = """
    text { font: 12px "DejaVu Sans", Verdana, "Liberation Sans", Arial, sans-serif; fill: #24292f }
    .halo { stroke: #ffffff; stroke-width: 5px; stroke-linejoin: round; paint-order: stroke }
    .title { font-weight: bold; font-size: 13px }
    .small { font-size: 10.5px; fill: #57606a }
    .round { font-size: 10px; fill: #8c959f } .border { stroke: #d0d7de; stroke-width: 1 }
    .lane { stroke: #afb8c1; stroke-width: 1.5 }
    .line { stroke-width: 1.6; fill: none }
    .packet { stroke: #0550ae; fill: #0550ae } .pdu { stroke: #116329; fill: #116329 }
    .head { stroke: #6e7781; fill: #6e7781 } .quiet { stroke: #8c959f; fill: #8c959f }
    .bad { stroke: #cf222e; fill: #cf222e } .mark { stroke: #9a6700; fill: #9a6700 }
    text.packet, text.pdu, text.head, text.quiet, text.bad, text.mark { stroke: #ffffff }
    text.quiet { fill: #57606a } text.head { fill: #57606a }
    .box { fill: #f6f8fa; stroke-width: 1.2 } .dash { stroke-dasharray: 2 4 }
    """

    def __init__(self, chart):
        self.chart, self.parts = chart, []
        self.levels = of_levels(chart.brackets)
        depth = len({level for level, _ in self.levels})
        clock = max([1, *(len(row.moment) for row in chart.rows)])
        self.clock = self.SIDE + max(7.5 * (clock + 3), self.CLOCK)
        self.front = self.clock + 22 * depth + 8
        labels = [self.wide(row.label) + 28 for row in chart.rows
                  if row.kind not in ("rule", "tag") and self.is_near(row)]
        self.gap = max([self.LEAST, *labels])
        self.places = {lane: self.front + self.EDGE + self.gap * at
                       for at, lane in enumerate(chart.lanes)}
        self.right = self.places["s"] + self.EDGE
        details = [0.87 * self.wide(line) for row in chart.rows for line in self.detail_lines(row)]
        self.width = self.right + 10 + max([40, *details]) + self.SIDE
        self.alive = lives(chart)
        self.bottom = self.TOP + self.ROW * len(chart.rows) + 8
        self.height = self.bottom + 34 + 18 * len(chart.last) + self.SIDE

    def is_near(self, row):
        lanes = self.chart.lanes
        return abs(lanes.index(row.start) - lanes.index(row.end)) == 1

    @staticmethod
    def wide(text):
        """How wide a text is at most, in pixels."""
        return sum(8.6 if letter.isupper() else 7.1 for letter in text)

    def detail_lines(self, row):
        """What else is told of a row, in two lines where it is long."""
        if row.kind == "rule" or not row.detail:
            return []
        if len(row.detail) <= self.LETTERS:
            return [row.detail]
        words = row.detail.split(" ")
        # A line is cut behind a value.
        cuts = [at for at in range(1, len(words)) if words[at - 1][-1].isdigit()
                and words[at][0].isalpha()] or range(1, len(words))
        cut = min(cuts, key=lambda at: max(len(" ".join(words[:at])), len(" ".join(words[at:]))))
        return [" ".join(words[:cut]), " ".join(words[cut:])]

    def add(self, name, text=None, **values):
        told = "".join(f' {key.replace("_", "-").strip("-")}="{self.value(it)}"'
                       for key, it in values.items())
        end = "/>" if text is None else f">{html.escape(text, quote=False)}</{name}>"
        self.parts.append(f"<{name}{told}{end}")

    @staticmethod
    def value(it):
        told = f"{it:.1f}".rstrip("0").rstrip(".") if isinstance(it, float) else str(it)
        return html.escape(told)

    def row_at(self, index):
        return self.TOP + self.ROW * (index + 0.5)

    def svg(self):
        self.put_rounds()
        self.put_lanes()
        for level, bracket in self.levels:
            self.put_bracket(level, bracket)
        moment = None
        for index, row in enumerate(self.chart.rows):
            y = self.row_at(index)
            if row.moment != moment:
                self.add("text", f"{row.moment} ms", x=self.SIDE, y=y + 4, _class="small")
            moment = row.moment
            self.put_row(row, y)
        for at, text in enumerate(self.chart.last):
            self.add("text", text, x=self.front, y=self.bottom + 44 + 18 * at, _class="small")
        size = f'width="{self.width:.0f}" height="{self.height:.0f}"'
        view = f'viewBox="0 0 {self.width:.0f} {self.height:.0f}"'
        head = f'<svg xmlns="http://www.w3.org/2000/svg" {size} {view} role="img">'
        what = "<title>A sequence chart of a virtual connection</title>"
        ground = '<rect width="100%" height="100%" fill="#ffffff"/>'
        style = f"<style>{self.STYLE}</style>"
        return "\n".join([head, what, style, ground, *self.parts, "</svg>\n"])

    def put_lanes(self):
        for lane, x in self.places.items():
            first, last = self.alive[lane]
            top = self.TOP - 10 if lane in SIDES else self.row_at(first) - 8
            is_whole = last == len(self.chart.rows) - 1
            end = self.bottom + 4 if is_whole else self.row_at(last) + 8
            self.add("line", x1=x, y1=top, x2=x, y2=end, _class="lane")
            self.put_title(lane, x, self.TOP - 24)
            self.put_title(lane, x, self.bottom + 18)

    def put_rounds(self):
        for index in dict(self.chart.rounds):
            y = self.row_at(index - 0.5)
            self.add("text", self.chart.rounds_at(index), x=self.SIDE, y=y + 3.5, _class="round")
            self.add("line", x1=self.clock, y1=y, x2=self.right, y2=y, _class="border")

    def put_title(self, lane, x, y):
        self.add("text", title_of(lane), x=x, y=y, text_anchor="middle", _class="title")

    def put_bracket(self, level, bracket):
        x = self.clock + 22 * level + 14
        top, end = self.row_at(bracket.first) - 8, self.row_at(bracket.last) + 8
        tone = "bad" if bracket.broken else "mark"
        path = f"M{x + 8:.1f} {top:.1f}H{x:.1f}V{end:.1f}H{x + 8:.1f}"
        self.add("path", d=path, _class=f"line {tone}", style="fill: none")
        middle = (top + end) / 2
        turned = f"rotate(-90 {x - 6:.1f} {middle:.1f})"
        self.add("text", bracket.label, x=x - 6, y=middle, text_anchor="middle",
                 _class=f"halo {tone}", transform=turned)

    def put_row(self, row, y):
        if row.kind == "rule":
            self.put_rule(row, y)
        elif row.kind == "tag":
            self.put_tag(row, y)
        else:
            self.put_line(row, y)
        lines = self.detail_lines(row)
        for at, text in enumerate(lines):
            down = 4 if len(lines) == 1 else -1 + 11 * at
            self.add("text", text, x=self.right + 10, y=y + down, _class="small")

    def put_rule(self, row, y):
        middle, half = (self.front + self.right) / 2, self.wide(row.label) / 2 + 8
        for x, end in ((self.front, middle - half), (middle + half, self.right)):
            self.add("line", x1=x, y1=y, x2=end, y2=y, _class="line quiet dash")
        self.add("text", row.label, x=middle, y=y + 4, text_anchor="middle", _class="halo quiet")

    def put_tag(self, row, y):
        wide = self.wide(row.label) + 10
        # At the outer lanes it stands towards the middle.
        x = self.places[row.start] - {"c": self.EDGE - 6, "s": wide - self.EDGE + 6}.get(
            row.start, wide / 2)
        self.add("rect", x=x, y=y - 9, width=wide, height=18, rx=4, _class=f"{row.tone} box",
                 style="fill: #f6f8fa")
        self.add("text", row.label, x=x + wide / 2, y=y + 4, text_anchor="middle", _class=row.tone,
                 style="stroke: none")

    def put_line(self, row, y):
        start, end = self.places[row.start], self.places[row.end]
        way = 1 if start < end else -1
        y += 5
        line = {"x1": start, "y1": y, "y2": y, "_class": f"line {row.tone}"}
        if row.kind == "arrow":
            self.add("line", x2=end - way * 7, **line)
            self.put_head(end, y, way, row.tone)
        elif row.kind == "lost":
            middle = start + way * self.gap * 0.72
            self.add("line", x2=middle, **line)
            self.put_cross(middle, y)
        else:
            line["_class"] += " dash"
            self.add("line", x2=end, **line)
            self.put_mark(row, start, end, y)
        self.put_label(row, start, way, y - 5)

    def put_label(self, row, start, way, y):
        x = start + way * 12
        anchor = "start" if way == 1 else "end"
        self.add("text", row.label, x=x, y=y, text_anchor=anchor, _class=f"halo {row.tone}")

    def put_head(self, x, y, way, tone):
        back = x - way * 9
        points = f"{x - way:.1f},{y:.1f} {back:.1f},{y - 4.5:.1f} {back:.1f},{y + 4.5:.1f}"
        self.add("polygon", points=points, _class=tone, style="stroke: none")

    def put_cross(self, x, y):
        path = f"M{x - 6:.1f} {y - 6:.1f}l12 12m0 -12l-12 12"
        self.add("path", d=path, _class="line bad", style="stroke-width: 2.6")

    def put_mark(self, row, start, end, y):
        if row.kind == "break":
            self.put_cross((start + end) / 2, y)
        elif row.kind == "end":
            self.add("path", d=f"M{end:.1f} {y - 6:.1f}v12", _class=f"line {row.tone}",
                     style="stroke-width: 3")
        else:
            for x in (start, end):
                self.add("circle", cx=x, cy=y, r=3, _class=row.tone)


# ---- words


def main(words):
    if words not in ([], ["--svg"]):
        print(__doc__.strip(), file=sys.stderr)
        return 1
    try:
        text = sys.stdin.read()
        if not text:
            # The program told nothing, and said why.
            return 0
        chart = Chart(text)
    except NoStory as line:
        print(f"story_chart: {NO_ANSWER}: '{str(line)[:60]}'", file=sys.stderr)
        return 2
    if words == ["--svg"]:
        return write(Picture(chart).svg())
    return write("".join(f"{line}\n" for line in TextChart(chart).lines()))


def write(text):
    try:
        print(text, end="", flush=True)
        return 0
    except OSError:
        os.dup2(os.open(os.devnull, os.O_WRONLY), 1)
        print("write fault", file=sys.stderr)
        return 4


if __name__ == "__main__":
    sys.exit(main(sys.argv[1:]))
