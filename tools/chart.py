"""Draws the run of a sim's script as a sequence chart.

Tabs, kernel and broker have a lifeline each, and time runs down. Each line of the script has a row, with what it prints. A message is an
arrow from the row in which it was sent to the row in which it came. Generations of the broker are bands, and held locks are thick
bars on the lifeline of their tab. docs/SCRIPTS.md has the language.

The chart is an SVG file. With `--html` it is a page by itself, which shows the whole text of a message under the pointer or finger.
`--all` writes the charts of the examples to docs/charts, and `--check` compares them with those of the program: it prints each chart
that differs, and the status is 1 if there is one.

Without a built program, the chart of one script is that of a program which `rt try` compiles, with nothing proved.
"""

import argparse
import collections
import dataclasses
import html
import pathlib
import sys
import textwrap

import argument_types
from demo import Program, Tried, expected_after

TOP = pathlib.Path(__file__).resolve().parent.parent
CHARTS = TOP / "docs" / "charts"
EXAMPLES = sorted((TOP / "examples").glob("*.sim"))
PROGRAM = TOP / "crates" / "wlb" / "out" / "wlb"

# ---- The run


@dataclasses.dataclass
class Step:
    """Line of a script, the comments before it, and what it prints."""

    comments: list
    line: str
    replies: list


@dataclasses.dataclass
class Arrival:
    """Delivery of a message: its row, the row of the sending, and what became of it."""

    sent: int
    row: int
    drop: str | None
    is_repeat: bool


@dataclasses.dataclass
class Message:
    """Message of the sim. An open row is one in which it was sent, from which it has not come yet."""

    name: str
    source: str
    target: str
    text: str
    sent: int
    open_rows: list
    arrivals: list = dataclasses.field(default_factory=list)


@dataclasses.dataclass
class Tab:
    """Lane of a tab. A row is None if its event never comes."""

    number: str
    origin: str
    opened: int
    killed: int | None = None
    corrupted: int | None = None


@dataclasses.dataclass
class Lock:
    """Request or probe of a tab, with the rows in which it was asked, granted and ended."""

    tab: str
    mode: str
    name: str
    asked: int
    held: int | None = None
    end: int | None = None


@dataclasses.dataclass
class Generation:
    number: str
    start: int
    stop: int | None = None


def outputs_of(program, script, fronts):
    """Yields the output of each front of a script. Ends the tool if a last line is refused."""
    inputs = ["\n".join(front).encode() for front in fronts]
    for front, ended in zip(fronts, program.runs("sim", inputs)):
        if ended.status == 1:
            sys.exit(f"chart: {script}, line {len(front)} is refused. {expected_after(front[-1])}")
        if ended.status:
            sys.exit(f"chart: {ended.stderr.strip() or f'the sim ends with status {ended.status}'}")
        yield ended.stdout.decode().splitlines()


def steps_of(program, script):
    """Plays each front of a script. Returns its title, which is the first block of comments, and its steps.

    The replies of a line are what its front prints beyond the front before it.
    """
    try:
        lines = script.read_text(encoding="utf-8").splitlines()
    except UnicodeDecodeError:
        sys.exit(f"chart: {script} is no script of the sim: it is not UTF-8")
    front = next((place for place, line in enumerate(lines) if not line.startswith("#")), len(lines))
    title, steps, comments, before = " ".join(map(comment, lines[:front])), [], [], 0
    played = [count for count, line in enumerate(lines[front:], front + 1) if line and not line.startswith("#")]
    outputs = outputs_of(program, script, [lines[:count] for count in played])
    for line in lines[front:]:
        if line.startswith("#"):
            comments.append(comment(line))
        elif line:
            out = next(outputs)
            steps.append(Step(comments, line, out[before:]))
            comments, before = [], len(out)
    return title, steps


def comment(line):
    return line[1:].strip()


def is_message(words):
    return len(words) > 2 and words[0][0] == "m" and words[0][1:].isdigit() and ">" in words[1]


class Run:
    """What the steps of a script say: tabs, generations, messages and locks."""

    def __init__(self, title, steps):
        self.title, self.steps = title, steps
        self.tabs, self.messages, self.locks, self.generations = {}, {}, {}, []
        for row, step in enumerate(steps):
            self.read(row, step)

    def read(self, row, step):
        words = step.line.split(" ")
        for reply in step.replies:
            self.note_message(row, reply.split(" "))
        if not step.replies:
            return
        first = step.replies[0].split(" ")
        if words[0] in ("open", "open2") and first[0] == "opened":
            self.tabs[words[1]] = Tab(words[1], " in ".join(dict.fromkeys(reversed(first[2:]))), row)
        elif first[0] == "up":
            self.generations.append(Generation(first[1], row))
        elif first[0] == "stopped":
            self.generations[-1].stop = row
        elif first[0] == "killed":
            self.kill(words[1], row)
        elif first[0] == "corrupted":
            self.tabs[words[1]].corrupted = row
        elif words[0] in ("ask", "probe") and "#" in first[0]:
            self.locks[first[0]] = Lock(words[1], words[2], words[3], row)
        elif words[0] in ("release", "abort") and "#" in first[0]:
            self.end(f"{words[1]}#{words[2]}", row)
        elif words[0] == "deliver" and words[1] in self.messages:
            self.deliver(self.messages[words[1]], row, step.replies)

    def note_message(self, row, words):
        if is_message(words):
            source, target = words[1].split(">")
            self.messages[words[0]] = Message(words[0], source, target, " ".join(words[2:]), row, [row])
        elif len(words) == 2 and words[0] == "again":
            self.messages[words[1]].open_rows.append(row)

    def deliver(self, message, row, replies):
        is_repeat = not message.open_rows
        sent = message.open_rows.pop() if message.open_rows else message.sent
        drop = replies[0].removeprefix("dropped ") if replies[0].startswith("dropped ") else None
        message.arrivals.append(Arrival(sent, row, drop, is_repeat))
        for reply in replies:
            self.follow(message.target, row, reply.split(" "))

    def follow(self, tab, row, words):
        """Notes what a delivery to a tab says of one of its numbers."""
        lock = self.locks.get(f"{tab}#{words[1]}") if len(words) == 2 else None
        if lock and words[0] == "granted":
            lock.held = row
        elif lock and words[0] == "null":
            lock.end = row

    def end(self, key, row):
        if key in self.locks:
            self.locks[key].end = row

    def kill(self, tab, row):
        self.tabs[tab].killed = row
        for lock in self.locks.values():
            if lock.tab == tab and lock.end is None:
                lock.end = row

    def is_late(self, message, arrival):
        """Returns whether a message to the same target that was sent later has come before."""
        others = [one for one in self.messages.values() if one.target == message.target and one is not message]
        return any(there.sent > arrival.sent and there.row < arrival.row for one in others for there in one.arrivals)


# ---- Texts


def word(text):
    """Returns the text of an escaped word."""
    made, place = b"", 0
    while place < len(text) and text != "%":
        is_escape = text[place] == "%"
        made += bytes.fromhex(text[place + 1 : place + 3]) if is_escape else text[place].encode()
        place += 3 if is_escape else 1
    return made.decode(errors="replace")


def report_text(words):
    """Returns the short text of a report's entries, which have four words each."""
    rows = [words[place : place + 4] for place in range(0, len(words), 4)]
    return "report: " + (", ".join(f"{row[0]} {HAS[row[1]]} {row[3]}" for row in rows) or "no locks")


HAS = {"held": "holds", "waiting": "waits for"}


def command_text(words):
    """Returns the short text of a command or an answer, which begins with its number."""
    if "upto" in words:
        words = words[: words.index("upto")]
    if words[1] == "part":
        return f"{words[0]} snapshot"
    if words[1] in ("release", "abort"):
        return f"{words[0]} {words[1]} #{words[2]}"
    return " ".join(words)


def short_text(text):
    """Returns the text of a message without what the chart shows elsewhere: its generation and the count of commands."""
    words = text.split(" ")
    if words[0] == "report":
        return report_text(words[4:])
    if words[0] == "report2":
        return report_text(words[8:])
    if words[0] == "gen":
        return command_text(words[2:])
    if words[0] == "post":
        return f"post {words[2]} “{word(words[3])}”"
    return text


def clipped(text, most):
    return text if len(text) <= most else text[: most - 1] + "…"


# ---- The drawing

SCRIPT, LANE, ROW, HEAD, RIGHT = 316, 176, 37, 58, 178
NOTE, EDGE, BAR, GAP = 15, 24, 10, 14
LEAST, TALL = 1040, 1200
# Pixels of a letter of the title, at most on average.
LETTER = 9
LOCKS = ["#2563eb", "#c2410c", "#7e22ce", "#0f766e", "#be123c", "#4d7c0f"]
SITES = ["#334155", "#9a3412", "#3f6212", "#6b21a8"]
STYLE = """
text { font: 12px system-ui, 'Segoe UI', 'DejaVu Sans', sans-serif; fill: #1f2937 }
.title { font-size: 15px; font-weight: 600 }
.line { font: 12px ui-monospace, 'DejaVu Sans Mono', Menlo, monospace }
.reply { font-size: 11px; fill: #6b7280 }
.note { font-size: 11.5px; font-style: italic; fill: #475569 }
.head { font-weight: 600 }
.site { font-size: 10.5px; fill: #475569 }
.band { font-size: 11px; font-weight: 600; fill: #475569 }
.label { font-size: 11px; paint-order: stroke; stroke: #fff; stroke-width: 3.5px; stroke-opacity: .95 }
.life { stroke: #94a3b8; stroke-width: 1.2 }
.taken-over { stroke: #dc2626; stroke-dasharray: 2 3 }
.cross { stroke: #b91c1c; stroke-width: 2.2; fill: none }
.arrow { stroke: #334155; stroke-width: 1.4; fill: none }
.late .arrow { stroke: #d97706 }
.late text { fill: #92400e }
.again .arrow { stroke: #64748b; stroke-dasharray: 9 3 2 3 }
.lost .arrow { stroke: #94a3b8; stroke-dasharray: 2 4 }
.again text, .lost text { fill: #64748b }
.drop .arrow { stroke: #dc2626; stroke-dasharray: 6 4 }
.drop text, text.drop { fill: #b91c1c }
.label .name { fill: #64748b }
.message:hover .arrow, .shown .arrow { stroke-width: 3 }
.shown text { font-weight: 600 }
"""
ENDS = {"k": "kernel", "b": "broker"}
LEGEND = {"": "message", "late": "overtaken by a later one", "again": "delivered again", "drop": "dropped", "lost": "not delivered"}
MARKERS = {"": "#334155", "late": "#d97706", "drop": "#dc2626", "again": "#64748b", "lost": "#94a3b8"}


def tag(name, text=None, **words):
    """Returns an element. An underscore in a word stands for a hyphen, and a word may end with one."""
    said = "".join(f' {key.rstrip("_").replace("_", "-")}="{value}"' for key, value in words.items() if value is not None)
    return f"<{name}{said}/>" if text is None else f"<{name}{said}>{text}</{name}>"


def text_at(x, y, text, **words):
    return tag("text", html.escape(text, quote=False), x=round(x, 1), y=round(y, 1), **words)


def line_at(x1, y1, x2, y2, **words):
    return tag("line", x1=round(x1, 1), y1=round(y1, 1), x2=round(x2, 1), y2=round(y2, 1), **words)


def hollow(x, y, height, color):
    """Returns the bar of a lock that is asked."""
    return tag("rect", x=round(x, 1), y=y, width=BAR - 4, height=round(height, 1), fill="#fff", stroke=color, stroke_dasharray="3 2")


def filled(x, y, height, color, is_shared):
    """Returns the bar of a lock that is held, which is lighter if the lock is shared."""
    place = {"x": round(x, 1), "y": y, "width": BAR, "height": round(height, 1), "rx": 2}
    return tag("rect", fill="#fff", **place) + tag("rect", fill=color, fill_opacity=0.45 if is_shared else 1, stroke=color, **place)


def labelled(message, text, x, y, side, angle=0, most=42):
    """Returns a label that begins at a point, to the right of it or to the left."""
    name = tag("tspan", message.name, class_="name")
    words = tag("tspan", html.escape(clipped(text, most), quote=False), dx=5)
    turn = f"rotate({angle:.2f} {x:.1f} {y:.1f})" if angle else None
    anchor = None if side > 0 else "end"
    return tag("text", name + words, x=round(x, 1), y=round(y, 1), class_="label", text_anchor=anchor, transform=turn)


class Chart:
    """Drawing of a run."""

    def __init__(self, run):
        self.run = run
        names = [*run.tabs, "k", "b"]
        self.lanes = {name: SCRIPT + 70 + LANE * place for place, name in enumerate(names)}
        self.width = max(self.lanes["b"] + RIGHT, LEAST)
        self.rows, self.notes = [], []
        self.place_rows()
        sites = list(dict.fromkeys(tab.origin for tab in run.tabs.values()))
        self.sites = {site: SITES[place % len(SITES)] for place, site in enumerate(sites)}
        locks = list(dict.fromkeys((run.tabs[lock.tab].origin, lock.name) for lock in run.locks.values()))
        self.colors = {lock: LOCKS[place % len(LOCKS)] for place, lock in enumerate(locks)}

    def place_rows(self):
        """Places the rows from above, each below the comments on it."""
        steps = self.run.steps
        self.headline = textwrap.wrap(self.run.title, (self.width - 2 * EDGE) // LETTER)
        self.top = EDGE + 18 * len(self.headline) + 6
        y = self.top + HEAD
        for place, step in enumerate(steps):
            comments = textwrap.wrap(" ".join(step.comments), 46)
            y += 9 if comments and place else 0
            for text in comments:
                self.notes.append((y, text))
                y += NOTE
            self.rows.append(y + 16)
            y += ROW
        self.bottom = y + 6
        # A tall chart has the names of the lanes at its foot, too.
        self.foot = self.bottom + 8 if self.bottom > TALL else None
        self.height = self.bottom + 2 * EDGE + 8 + (HEAD if self.foot else 0)

    def end(self, row):
        return self.bottom if row is None else self.rows[row]

    def svg(self):
        title = tag("title", html.escape(self.run.title))
        return self.drawing(0, self.height, [title, *self.body(), *self.title(), *self.heads(self.top), *self.heads(self.foot)])

    def page(self):
        """Returns the page: the title as text, the names of the lanes, which stay at the top, and the chart below them."""
        cut = self.top + HEAD - 16
        heads = self.drawing(self.top - 4, cut, [tag("style", STYLE), *self.heads(self.top)])
        body = self.drawing(cut, self.height, [*self.body(), *self.heads(self.foot)])
        return PAGE.format(title=html.escape(self.run.title), heads=heads, body=body)

    def drawing(self, top, bottom, parts):
        """Returns the part of the drawing between two heights."""
        size = {"width": self.width, "height": round(bottom - top), "viewBox": f"0 {round(top)} {self.width} {round(bottom - top)}"}
        return tag("svg", "\n" + "\n".join(parts) + "\n", xmlns="http://www.w3.org/2000/svg", **size) + "\n"

    def body(self):
        """Returns all parts but the title and the names of the lanes."""
        drawn = [*self.bands(), *self.lives(), *self.bars(), *self.crosses(), *self.acts()]
        lines, labels = self.messages()
        back = tag("rect", width="100%", height=round(self.height), fill="#fff", rx=8)
        markers = tag("defs", "".join(self.marker(name, color) for name, color in MARKERS.items()))
        return [tag("style", STYLE), markers, back, *drawn, *lines, *labels, *self.words(), *self.legend()]

    @staticmethod
    def marker(name, color):
        path = tag("path", d="M0 0 L8 4 L0 8 z", fill=color)
        size = {"viewBox": "0 0 8 8", "refX": 7, "refY": 4, "markerWidth": 8, "markerHeight": 8, "markerUnits": "userSpaceOnUse"}
        return tag("marker", path, id=f"to{name}", orient="auto", **size)

    # Generations and lanes

    def bands(self):
        left = SCRIPT + 4
        for place, generation in enumerate(self.run.generations):
            top, bottom = self.rows[generation.start] - 22, self.end(generation.stop) + (6 if generation.stop is not None else 0)
            color = ["#eff6ff", "#f0fdf4", "#fefce8"][place % 3]
            yield tag("rect", x=left, y=round(top, 1), width=self.width - left - EDGE / 2, height=round(bottom - top, 1), fill=color, rx=6)
            yield text_at(self.width - EDGE, top + 12, f"generation {generation.number}", class_="band", text_anchor="end")

    def lives(self):
        for tab in self.run.tabs.values():
            x, start, end = self.lanes[tab.number], self.rows[tab.opened], self.end(tab.killed)
            turn = self.rows[tab.corrupted] if tab.corrupted is not None else end
            yield line_at(x, self.top + 38, x, start, class_="life", stroke_opacity=0.35)
            yield line_at(x, start, x, turn, class_="life")
            yield line_at(x, turn, x, end, class_="life taken-over")
        yield line_at(self.lanes["k"], self.top + 38, self.lanes["k"], self.bottom, class_="life")
        for generation in self.run.generations:
            x = self.lanes["b"]
            yield line_at(x, self.rows[generation.start], x, self.end(generation.stop), class_="life", stroke_width=3)

    def crosses(self):
        """Draws the deaths of tabs and the stops of the broker."""
        ends = [(tab.number, tab.killed) for tab in self.run.tabs.values()]
        ends += [("b", generation.stop) for generation in self.run.generations]
        for name, row in ends:
            if row is not None:
                yield self.cross(self.lanes[name], self.rows[row])

    @staticmethod
    def cross(x, y):
        return tag("path", d=f"M{x - 6} {y - 6} L{x + 6} {y + 6} M{x - 6} {y + 6} L{x + 6} {y - 6}", class_="cross")

    def heads(self, y):
        """Draws the names of the lanes at a height, if there is one."""
        names = [(tab.number, f"tab {tab.number}", tab.origin, self.sites[tab.origin]) for tab in self.run.tabs.values()]
        for name, head, site, color in [*names, ("k", "kernel", "", "#334155"), ("b", "broker", "", "#334155")]:
            if y is None:
                return
            x = self.lanes[name]
            yield tag("rect", x=x - 62, y=y, width=124, height=38, rx=6, fill="#fff", stroke=color, stroke_width=1.5)
            yield text_at(x, y + (16 if site else 23), head, class_="head", text_anchor="middle")
            if site:
                yield text_at(x, y + 31, clipped(site.replace("https://", ""), 22), class_="site", text_anchor="middle")

    # Locks

    def tracks(self):
        """Returns each lock with its track: locks of one tab that overlap have different tracks."""
        free, found = collections.defaultdict(list), []
        for lock in self.run.locks.values():
            ends = free[lock.tab]
            track = next((place for place, end in enumerate(ends) if end <= self.rows[lock.asked]), len(ends))
            ends[track : track + 1] = [self.end(lock.end)]
            found.append((lock, track))
        return found

    def bars(self):
        """Draws each request as a bar on the lane of its tab: hollow while it is asked, filled while its lock is held."""
        tracks = self.tracks()
        for lock, track in tracks:
            last = max(other for one, other in tracks if one.tab == lock.tab)
            edge = self.lanes[lock.tab] - BAR / 2
            yield self.bar(lock, edge - GAP * track, edge - GAP * last - 5)

    def bar(self, lock, x, name_x):
        """Returns the bar of a lock, with the lock's name to the left of all bars of the tab."""
        color = self.colors[self.run.tabs[lock.tab].origin, lock.name]
        asked, end = self.rows[lock.asked], self.end(lock.end)
        held = end if lock.held is None else self.rows[lock.held]
        made = [tag("title", html.escape(f"{lock.mode} {word(lock.name)}")), hollow(x + 2, asked, held - asked, color)]
        if lock.held is not None:
            made.append(filled(x, held, end - held, color, lock.mode == "shared"))
            name = clipped(word(lock.name), 12)
            made.append(text_at(name_x, held + 12, name, text_anchor="end", class_="label", style=f"fill:{color}"))
        return tag("g", "".join(made))

    # Messages

    def acts(self):
        """Draws what the kernel does to the broker at once: a start, and the news of a death."""
        for row, step in enumerate(self.run.steps):
            text = ""
            if step.replies and step.replies[0].startswith("up "):
                text = step.line
            elif step.replies and step.replies[0].startswith("told "):
                text = f"tab {step.line.split(' ')[1]} is dead"
            if text:
                y = self.rows[row]
                yield line_at(self.lanes["k"] + 2, y, self.lanes["b"] - 5, y, class_="arrow", marker_end="url(#to)")
                yield text_at(self.lanes["k"] + 10, y - 4, clipped(text, 26), class_="label")

    def messages(self):
        """Returns the arrows, and their labels, which lie over all arrows."""
        lines, labels = [], []
        messages = self.run.messages.values()
        self.comings = {(message.target, arrival.row) for message in messages for arrival in message.arrivals}
        self.goings = {(message.source, arrival.sent) for message in messages for arrival in message.arrivals}
        self.taken = collections.Counter()
        for message in messages:
            for arrival in message.arrivals:
                kinds = [kind for kind, is_so in self.kinds(message, arrival) if is_so]
                self.arrow(message, arrival, kinds, lines, labels)
        for message in messages:
            for row in message.open_rows:
                self.lost(message, row, lines, labels)
        return lines, labels

    def kinds(self, message, arrival):
        is_late = not arrival.is_repeat and arrival.drop is None and self.run.is_late(message, arrival)
        return [("drop", arrival.drop), ("again", arrival.is_repeat), ("late", is_late)]

    def arrow(self, message, arrival, kinds, lines, labels):
        x1, y1, x2, y2 = self.lanes[message.source], self.rows[arrival.sent], self.lanes[message.target], self.rows[arrival.row]
        step = 7 if x2 > x1 else -7
        kind = kinds[0] if kinds else ""
        line = line_at(x1 + step / 2, y1, x2 - step, y2, class_="arrow", marker_end=f"url(#to{kind})")
        name = " ".join(["message", *kinds])
        lines.append(tag("g", self.hover(message, arrival) + line, class_=name))
        text = f"{short_text(message.text)} — {arrival.drop}" if arrival.drop else short_text(message.text)
        if arrival.is_repeat and message.target == "b":
            made = self.beside(message, f"again — {arrival.drop}" if arrival.drop else "again", arrival.row)
        else:
            made = self.label(message, text, arrival, (x1, y1, x2, y2))
        labels.append(tag("g", self.hover(message, arrival) + made, class_=name))

    @staticmethod
    def hover(message, arrival=None):
        """Returns the text that the pointer shows: the whole message, and what became of it."""
        end = "not delivered"
        if arrival:
            end = f"dropped: {arrival.drop}" if arrival.drop else "delivered again" if arrival.is_repeat else "delivered"
        ends = " to ".join(ENDS.get(name, f"tab {name}") for name in (message.source, message.target))
        return tag("title", html.escape(f"{message.name}, {ends}: {message.text}\n{end}"))

    def label(self, message, text, arrival, place):
        """Returns the label of an arrow, beside its end at a tab.

        It lies over an arrow that leaves the tab and under one that comes to it. If the tab has both in this row, both would be crossed:
        then each label goes along its arrow, on the other side.
        """
        x1, y1, x2, y2 = place
        is_up = message.source not in ("k", "b")
        key = (message.source, arrival.sent) if is_up else (message.target, arrival.row)
        slot = self.taken[key, is_up]
        self.taken[key, is_up] += 1
        (x, y), (there_x, there_y) = ((x1, y1), (x2, y2)) if is_up else ((x2, y2), (x1, y1))
        side = 1 if there_x > x else -1
        if slot or key not in (self.comings if is_up else self.goings):
            return labelled(message, text, x + 12 * side, y + ((-4, 12, 24, 36)[slot % 4] if is_up else 13), side)
        slope = (there_y - y) / abs(there_x - x)
        return labelled(message, text, x + 12 * side, y + 12 * slope + (12 if is_up else -4), side, 57.3 * slope * side)

    def beside(self, message, text, row):
        """Returns a label to the right of the broker."""
        slot = self.taken[("b", row), True]
        self.taken[("b", row), True] += 1
        return labelled(message, text, self.lanes["b"] + 10, self.rows[row] + 4 + 13 * slot, 1, most=25)

    def lost(self, message, row, lines, labels):
        """Draws the front of a message that does not come."""
        x1, y, x2 = self.lanes[message.source], self.rows[row], self.lanes[message.target]
        side = 1 if x2 > x1 else -1
        ball = tag("circle", cx=x1 + 44 * side, cy=round(y + 5, 1), r=3, fill="#fff", stroke="#94a3b8")
        lines.append(tag("g", self.hover(message) + line_at(x1, y, x1 + 41 * side, y + 5, class_="arrow") + ball, class_="message lost"))
        text = short_text(message.text)
        if message.source == "b":
            made = self.beside(message, f"to {message.target}: {text}", row)
        else:
            slot = self.taken[(message.source, row), True]
            self.taken[(message.source, row), True] += 1
            made = labelled(message, text, x1 + 12 * side, y + (-4, 17, 29, 41)[slot % 4], side, most=30)
        labels.append(tag("g", self.hover(message) + made, class_="lost"))

    # Words

    def title(self):
        for place, text in enumerate(self.headline):
            yield text_at(EDGE, EDGE + 8 + 18 * place, text, class_="title")

    def words(self):
        for y, text in self.notes:
            yield text_at(EDGE, y + 6, text, class_="note")
        for row, step in enumerate(self.run.steps):
            y = self.rows[row]
            yield tag("text", tag("title", html.escape(step.line)) + html.escape(clipped(step.line, 36)), x=EDGE, y=y, class_="line")
            replies = [reply for reply in step.replies if not is_message(reply.split(" ")) and not reply.startswith("{")]
            if replies:
                is_drop = replies[0].startswith("dropped")
                yield text_at(EDGE, y + 14, clipped(" · ".join(replies), 46), class_="reply drop" if is_drop else "reply")

    def legend(self):
        y, x = self.height - EDGE - 2, EDGE
        for kind, text in LEGEND.items():
            line = line_at(x, y, x + 34, y, class_="arrow", marker_end=f"url(#to{kind})")
            yield tag("g", line + text_at(x + 42, y + 4, text), class_=f"message {kind}".strip())
            x += 60 + 6.6 * len(text)
        yield hollow(x, y - 8, 16, LOCKS[0]) + text_at(x + 16, y + 4, "lock asked")
        x += 96
        for text, is_shared in [("lock held", False), ("shared", True)]:
            yield filled(x, y - 8, 16, LOCKS[0], is_shared) + text_at(x + 18, y + 4, text)
            x += 34 + 6.6 * len(text)


PAGE = """<!doctype html>
<html lang="en">
<meta charset="utf-8">
<meta name="viewport" content="width=device-width, initial-scale=1">
<title>{title}</title>
<style>
html, body {{ margin: 0; height: 100%; background: #fff; color: #1f2937; font: 16px/1.4 system-ui, sans-serif }}
body {{ display: flex; flex-direction: column }}
h1 {{ margin: 0; padding: .7rem 1.5rem; font-size: 1.05rem }}
main {{ flex: 1; overflow: auto; border-top: 1px solid #cbd5e1 }}
main svg {{ display: block; margin: 0 }}
.heads {{ position: sticky; top: 0; width: max-content; background: #fff }}
.message {{ cursor: pointer }}
output {{ min-height: 2.8em; padding: .5rem 1.5rem; border-top: 1px solid #cbd5e1; white-space: pre-wrap; overflow-wrap: anywhere }}
@media (max-width: 600px) {{ h1 {{ padding: .5rem .8rem; font-size: .95rem }} output {{ padding: .5rem .8rem; font-size: .9rem }} }}
</style>
<h1>{title}</h1>
<main tabindex="0" aria-label="sequence chart">
<div class="heads">
{heads}</div>
{body}</main>
<output>Point at a message, or tap it, to read all of it.</output>
<script>
const output = document.querySelector('output');
const textOf = part => part?.querySelector(':scope > title')?.textContent;
function show(event) {{
  const text = textOf(event.target.closest('g')) ?? textOf(event.target.closest('text'));
  if (!text) return;
  output.textContent = text;
  for (const part of document.querySelectorAll('.message')) part.classList.toggle('shown', textOf(part) === text);
}}
for (const name of ['pointerover', 'click']) document.addEventListener(name, show);
</script>
</html>
"""


def chart_of(program, script, is_page=False):
    chart = Chart(Run(*steps_of(program, script)))
    return chart.page() if is_page else chart.svg()


def write_all(program):
    CHARTS.mkdir(exist_ok=True)
    for script in EXAMPLES:
        (CHARTS / f"{script.stem}.svg").write_text(chart_of(program, script), encoding="utf-8")


def check_all(program):
    """Prints each chart in docs/charts that is another one than that of its example, or has none. Returns the status."""
    wanted = {f"{script.stem}.svg": chart_of(program, script) for script in EXAMPLES}
    found = {file.name: file.read_text(encoding="utf-8") for file in CHARTS.glob("*.svg")}
    wrong = [name for name in sorted({*wanted, *found}) if wanted.get(name) != found.get(name)]
    for name in wrong:
        print(f"docs/charts/{name} is not the chart of its example: `python3 tools/chart.py --all` writes it")
    return 1 if wrong else 0


def main():
    parser = argparse.ArgumentParser(description=__doc__, formatter_class=argparse.RawDescriptionHelpFormatter)
    parser.add_argument("script", metavar="SCRIPT", type=argument_types.file, nargs="?", help="a script of the sim")
    parser.add_argument("--html", action="store_true", help="make a page")
    parser.add_argument("--output", metavar="FILE", type=argument_types.new_file, help="the file that is written, instead of standard output")
    parser.add_argument("--program", metavar="PROGRAM", type=argument_types.program, help="the program `wlb`, instead of the built one")
    parser.add_argument("--all", action="store_true", help="write the charts of the examples to docs/charts")
    parser.add_argument("--check", action="store_true", help="compare docs/charts with the charts of the examples")
    given = parser.parse_args()
    if sum([given.script is not None, given.all, given.check]) != 1:
        parser.error("give a SCRIPT, --all or --check")
    if given.program is None and not PROGRAM.is_file() and not given.script:
        parser.error(f"there is no program {PROGRAM}: `make build` builds it")
    program = Program(given.program or PROGRAM) if given.program or PROGRAM.is_file() else Tried()
    if given.check:
        sys.exit(check_all(program))
    if given.all:
        return write_all(program)
    made = chart_of(program, given.script, given.html)
    if given.output:
        given.output.write_text(made, encoding="utf-8")
    else:
        print(made, end="")
    return None


if __name__ == "__main__":
    main()
