"""The picture of `timeline`: lays the items of closed logs out, and draws them as SVG."""
from bisect import bisect_left, bisect_right
from functools import partial
from xml.sax.saxutils import escape, quoteattr

from timeline_logs import Entry, Sessions, Start

LEFT, RIGHT, PAD = 104, 76, 14  # at least from the picture's edges to the first and last columns, and to everything
BAR, TRACK = 17, 21  # a bar's height, and that with the space to the next one
FLAG_ROW, MOST_FLAG_ROWS, WIDEST_FLAG = 15, 5, 800
GUTTER, NARROW_GUTTER = 36, 10  # between lanes, with arrows and without
LEAST_WIDTH = 720
WIDTHS = {**dict.fromkeys(" .,:;ijl'|-", 0.34), **dict.fromkeys("frt", 0.42), **dict.fromkeys("mwMW", 0.98)}  # by the font's size
STYLE = """
text { font-family: Helvetica, Arial, 'DejaVu Sans', sans-serif; font-size: 11px; fill: #1f2933; }
.title { font-size: 19px; font-weight: bold; } .subtitle, .record, .none, .caption, .axis { fill: #52606d; }
.subtitle { font-size: 12.5px; } .site { font-size: 13px; font-weight: bold; } .none { font-style: italic; }
.lane { fill: #f5f7f9; } .line { stroke: #9aa5b1; stroke-width: 1; fill: none; }
.bar { stroke-width: 1.2; } .reader { fill: #b9d6ef; stroke: #4a7fae; } .writer { fill: #f4b78f; stroke: #b5622e; }
.waiting { fill: url(#hatch); stroke: #b5622e; }
.note { paint-order: stroke; stroke: #f5f7f9; stroke-width: 3px; } .ground { fill: #ffffff; fill-opacity: 0.88; }
.delta { fill: none; stroke: #52606d; stroke-width: 1.4; } .head { fill: #52606d; stroke: none; }
.nothing.delta { stroke: #bcc5ce; } .nothing.head { fill: #bcc5ce; }
.refused.delta { stroke-dasharray: 4 3; }
.unsent.delta, .behind.delta { stroke: #c0262d; } .unsent.head, .behind.head { fill: #c0262d; } text.unsent { fill: #c0262d; }
.call { fill: #ffffff; stroke: #52606d; stroke-width: 1.3; } .moved { fill: #52606d; }
path.given { fill: #3b8266; stroke: #ffffff; stroke-width: 1; } text.given { fill: #2c664f; }
path.cross { stroke: #c0262d; stroke-width: 1.9; } text.cross { fill: #9b2226; }
circle.doubt { fill: #ffffff; stroke: #9b2226; stroke-width: 1.3; } text.doubt { fill: #9b2226; } .mark { fill: #9b2226; font-weight: bold; }
.pole { stroke: #9aa5b1; stroke-width: 0.8; } line.restart { stroke: #1f2933; stroke-width: 2.4; }
.cut { fill: none; stroke: #6b3fa0; stroke-width: 1.8; stroke-dasharray: 7 4; } text.cut { fill: #6b3fa0; stroke: none; font-weight: bold; }
"""
HATCH = """<defs><pattern id="hatch" width="6" height="6" patternUnits="userSpaceOnUse" patternTransform="rotate(45)">
<rect width="6" height="6" fill="#ffffff"/><rect width="2.4" height="6" fill="#f4b78f"/></pattern></defs>"""
CAPTION = (
    "Sites have no common clock. The calls stand in an order that agrees with the log of each site and puts each merge behind the"
    " sending of its delta (a topological order). Distances mean nothing; of two calls that no path along lines and arrows joins,"
    " either may have come first. An arrow begins where its delta was sent last before. A bar that reaches the right edge is a"
    " session at the end of the log. The picture shows what the logs say: whether they are consistent, judge says.")


def number(value):
    return f"{value:.1f}".rstrip("0").rstrip(".") if isinstance(value, float) else str(value)


def element(name, *content, **attributes):
    """An element of SVG; an underscore in an attribute's name stands for a hyphen, one at its end for nothing."""
    words = "".join(f" {key.rstrip('_').replace('_', '-')}={quoteattr(number(value))}" for key, value in attributes.items())
    return f"<{name}{words}>{''.join(content)}</{name}>" if content else f"<{name}{words}/>"


def label(x, y, words, kind, anchor="start"):
    return element("text", escape(words), x=x, y=y, class_=kind, text_anchor=anchor)


def hint(words):
    """What a browser shows under the pointer."""
    return element("title", escape(words if len(words) <= 160 else words[:157] + "..."))


def measure(words, size=11.0):
    """The width of a text, rather too much than too little."""
    return sum(WIDTHS.get(letter, 0.64) for letter in words) * size


def wrap(words, width, size=11.0):
    """Lines of words that are no wider."""
    lines = [""]
    for word in words.split(" "):
        longer = f"{lines[-1]} {word}".strip()
        if lines[-1] and measure(longer, size) > width:
            lines.append(word)
        else:
            lines[-1] = longer
    return lines


def count(n, noun):
    return f"{n:,} {noun}" if n == 1 else f"{n:,} {noun}s"


class Arrow:
    """A delta on its way from the entry that sent it to the one that took it."""

    def __init__(self, source, target, cut):
        self.source, self.target, self.kind = source, target, "merged"
        if target.reply == "merged 0":
            self.kind = "nothing"
        elif target.is_refused:
            self.kind = "refused"
        if cut and target.number < cut[target.site] and source.number >= cut[source.site]:
            self.kind = "behind"

    def is_up(self):
        return self.target.site < self.source.site

    def crosses(self, site):
        """The columns at which the arrow crosses a site's flags, and those at which it crosses its bars."""
        first, last = sorted((self.source.site, self.target.site))
        flags, bars = set(), set()
        if first == site == last:
            bars = {self.source.column, self.target.column}
        elif first < site < last:
            flags, bars = {self.target.column}, {self.target.column}
        elif site == self.source.site:
            (flags if self.is_up() else bars).add(self.source.column)
        elif site == self.target.site:
            (bars if self.is_up() else flags).add(self.target.column)
        return flags, bars


class Flag:
    """A note at an item: a pole from its mark, and words beside the pole, which may be the short ones."""

    def __init__(self, item, kind, words, short=None):
        self.item, self.kind, self.words, self.short = item, kind, words, short or words
        self.row = self.left = None  # its row, from below, and where its words begin


def flag_of(item):
    """The note at an item, where it has one."""
    if isinstance(item, Start):
        return Flag(item, "restart", f"restart, {count(item.sites, 'site')}" if item.sites else "restart", "restart")
    call, words = "take" if item.verb == "take" else item.call, item.call.split(" ")
    reply, *reasons = item.reply.split(" ")
    if item.is_in_doubt:
        return Flag(item, "doubt", f"{call}: in doubt", "in doubt")
    if item.is_refused and reasons[0] != "NoPlan":
        return Flag(item, "cross", f"{call}: {' '.join(reasons)}", reasons[0])
    if reply in ("given", "gave"):
        to, seats = words[2:4] if reply == "given" else reasons
        return Flag(item, "given", f"{count(int(seats), 'seat')} of {words[1]} to site {to}", f"{int(seats):,} to site {to}")
    return None if item.is_known else Flag(item, "unsent", "delta that no log has sent", "not sent")


class FlagRows:
    """Gives the notes of a lane their rows, so that no two words overlap; a note without room is left out."""

    def __init__(self, flags, x, crossings, edges):
        self.x, self.edges, self.height = x, edges, 0
        self.near = []  # of the notes that stand: row, where the words begin and end, and the pole
        for flag in sorted(flags, key=lambda flag: -flag.item.column):
            self.near = [it for it in self.near if min(it[1], it[3]) < x(flag.item.column) + WIDEST_FLAG]
            for words, avoided in ((flag.words, crossings), (flag.short, crossings), (flag.short, [])):
                if flag.row is None:
                    flag.words = words
                    self.put(flag, avoided)

    def put(self, flag, avoided):
        """Looks for the lowest row with room beside the pole, or else above it."""
        x, width = self.x(flag.item.column), measure(flag.words) + 4
        for row in range(MOST_FLAG_ROWS):
            for first in (x + 2, x - 2 - width, *(x - width * share / 8 for share in (4, 5, 3, 6, 2, 7, 1))):
                crossed = bisect_right(avoided, first - 3) < bisect_left(avoided, first + width + 3)
                if not crossed and self.is_free(row, first, first + width, x):
                    flag.row, flag.left = row, first
                    self.near.append((row, first, first + width, x))
                    self.height = max(self.height, row + 1)
                    return

    def is_free(self, row, first, last, x):
        """Whether words fit there, and no pole crosses words."""
        return self.edges[0] < first and last < self.edges[1] and not any(
            row == other and first < end and begin < last
            or other <= row and begin - 3 < x < end + 3
            or row <= other and first - 3 < pole < last + 3
            for other, begin, end, pole in self.near)


class Lane:
    """A site's part of the picture: its notes, the line of its calls, and the bars of each record."""

    def __init__(self, site, items):
        self.site, self.items = site, items
        self.sessions = Sessions(items).all
        self.flags = [flag for flag in map(flag_of, items[1:]) if flag]
        self.records = sorted({session.record for session in self.sessions})
        self.tracks = {}  # of each session: its track among all of the lane
        self.first_tracks = {}  # of each record
        self.height_in_tracks = 0
        for record in self.records:
            self.first_tracks[record] = self.height_in_tracks
            self.height_in_tracks += self.fill_tracks(record)

    def fill_tracks(self, record):
        """Puts each session of a record on the first track that is free; gives the number of tracks."""
        free_from = []
        here = [session for session in self.sessions if session.record == record]
        for session in sorted(here, key=lambda session: column_of(session.phases[0][1], -1)):
            first, last = column_of(session.ends()[0], -1), column_of(session.ends()[1], float("inf"))
            track = next((k for k, free in enumerate(free_from) if free <= first), len(free_from))
            free_from[track : track + 1] = [last]
            self.tracks[session] = self.first_tracks[record] + track
        return len(free_from)

    def place(self, top, flag_rows):
        """Sets the heights; gives the lane's lower edge."""
        self.top, self.calls = top, top + 14 + flag_rows * FLAG_ROW
        self.bars = self.calls + 13
        self.bottom = self.bars + self.height_in_tracks * TRACK + 4
        return self.bottom


def column_of(item, edge):
    return edge if item is None else item.column


class Picture:
    """Closed logs as SVG. `items` are those of all sites in one order, `cut` is None or a number for each site."""

    def __init__(self, logs, items, name, cut=None, cut_words="", width=None):
        self.items, self.name, self.cut, self.cut_words = items, name, cut, cut_words
        pitch = max(12.0, min(58.0, 2_400 / max(1, len(items))))
        self.lanes = [Lane(site, logs.items[site]) for site in range(logs.sites)]
        names = [measure(f"record {record}") for lane in self.lanes for record in lane.records]
        self.left = round(max([LEFT, *(name + PAD + 22 for name in names)]))
        self.width = width or max(LEAST_WIDTH, round(self.left + RIGHT + pitch * len(items)))
        self.pitch = min(90.0, (self.width - self.left - RIGHT) / max(1, len(items)))
        self.edges = self.left - 14, self.width - PAD - 4
        self.arrows = [Arrow(source, item, cut) for item in items if isinstance(item, Entry) for source in item.sources
                       if item.verb == "take"]
        self.cut_places = self.places_of_cut() if cut else []
        self.parts = []

    def x(self, column):
        return self.left + (column + 0.5) * self.pitch

    def crossings(self, lane):
        """Where arrows and the cut cross a lane's notes, and where its bars."""
        crossed = [arrow.crosses(lane.site) for arrow in self.arrows]
        return [sorted({self.x(column) for both in crossed for column in both[k]} | set(self.cut_places[lane.site : lane.site + 1])) for k in (0, 1)]

    def gutter_below(self, lane):
        """The space below a lane: more, if an arrow turns there."""
        turns = any(lane.site == arrow.source.site - arrow.is_up() for arrow in self.arrows)
        return GUTTER if turns or self.cut and len(set(self.cut_places[lane.site : lane.site + 2])) > 1 else NARROW_GUTTER

    def draw(self):
        """The text of the picture."""
        top = self.draw_head()
        for lane in self.lanes:
            rows = FlagRows(lane.flags, self.x, self.crossings(lane)[0], self.edges).height
            top = lane.place(top, rows) + self.gutter_below(lane)
        for lane in self.lanes:
            self.draw_lane(lane)
        for arrow in self.arrows:
            self.draw_arrow(arrow)
        for lane in self.lanes:
            self.draw_words(lane)
            self.draw_items(lane)
        if self.cut:
            self.draw_cut()
        height = self.draw_foot((self.lanes[-1].bottom if self.lanes else top) + 8)
        head = element("title", escape(f"Timeline of {self.name}")) + element("style", STYLE) + HATCH
        paper = element("rect", width=self.width, height=height, fill="#ffffff")
        return "\n".join([
            f'<svg xmlns="http://www.w3.org/2000/svg" width="{self.width}" height="{height}"'
            f' viewBox="0 0 {self.width} {height}">', head, paper, *self.parts, "</svg>", ""])

    def draw_head(self):
        """Title and legend; gives where the lanes begin."""
        calls = sum(isinstance(item, Entry) for item in self.items)
        self.parts.append(label(PAD, 30, "Who was inside, and when", "title"))
        words = f"{count(calls, 'call')} at {count(len(self.lanes), 'site')}, as logged in {self.name}"
        y = 36
        for line in wrap(words, self.width - 2 * PAD, 12.5):
            y += 15
            self.parts.append(label(PAD, y, line, "subtitle"))
        x, y = PAD, y + 24
        for words, sample in self.legend():
            width = 38 + measure(words)
            if x > PAD and x + width > self.width - PAD:
                x, y = PAD, y + 20
            self.parts += [sample(x, y - 4), label(x + 33, y, words, "legend")]
            x += width + 16
        return y + (34 if self.cut else 18)

    def legend(self):
        """The words for what the picture has, each with what draws a sample at a place."""
        had = {phase for lane in self.lanes for session in lane.sessions for phase, _, _ in session.phases}
        had |= {flag.kind for lane in self.lanes for flag in lane.flags} | {arrow.kind for arrow in self.arrows}
        had |= {"cross" for item in self.items if isinstance(item, Entry) and item.is_refused and not item.is_in_doubt}
        had |= {"cut"} if self.cut else set()
        return [(words, partial(sample, kind=kind)) for kind, words, sample in LEGEND if kind in had]

    def draw_lane(self, lane):
        """A lane's ground, its names and its bars."""
        self.parts.append(element("rect", x=PAD - 6, y=lane.top, width=self.width - 2 * PAD + 12, height=lane.bottom - lane.top, rx=5, class_="lane"))
        self.parts.append(label(PAD, lane.calls + 4, f"site {lane.site}", "site"))
        if not lane.items:
            self.parts.append(label(self.left, lane.calls + 4, "no log", "none"))
            return
        self.parts.append(element("line", x1=self.edges[0], y1=lane.calls, x2=self.edges[1], y2=lane.calls, class_="line"))
        for record, track in lane.first_tracks.items():
            self.parts.append(label(PAD, lane.bars + track * TRACK + 13, f"record {record}", "record"))
        for session in lane.sessions:
            for phase, first, last in session.phases:
                self.draw_bar(lane, session, phase, self.bar_ends(first, last))

    def bar_ends(self, first, last):
        left = self.edges[0] if first is None else self.x(first.column)
        return left, self.edges[1] if last is None else self.x(last.column)

    def draw_bar(self, lane, session, phase, ends):
        holder = f"{'reader' if phase == 'reader' else 'writer'} {session.holder}"
        state = "waits" if phase == "waiting" else "is inside"
        bar = element("rect", x=ends[0], y=lane.bars + lane.tracks[session] * TRACK, width=max(0.5, ends[1] - ends[0]), height=BAR, rx=2.5,
                      class_=f"bar {phase}", data_site=lane.site, data_record=session.record, data_holder=session.holder)
        self.parts.append(element("g", hint(f"site {lane.site}, record {session.record}: {holder} {state}"), bar))

    def draw_words(self, lane):
        """The holders' names in the bars, beside the arrows that cross them."""
        crossings = self.crossings(lane)[1]
        for session in lane.sessions:
            for phase, first, last in session.phases:
                verb = "reader" if phase == "reader" else "writer"
                choices = [f"{verb} {session.holder}", session.holder]
                if phase == "waiting":
                    choices.insert(0, f"{verb} {session.holder} waits")
                self.draw_holder(phase, choices, self.bar_ends(first, last), lane.bars + lane.tracks[session] * TRACK, crossings)

    def draw_holder(self, phase, choices, ends, y, crossings):
        """The first of the words for which there is room in a bar; beside its crossings, if there is."""
        edges = [ends[0] + 2, *(x for x in crossings if ends[0] < x < ends[1]), ends[1] - 2]
        gaps = list(zip(edges, edges[1:]))
        for words in choices:
            for first, last in gaps:
                if measure(words) + 8 <= last - first:
                    if phase == "waiting":
                        self.parts.append(element("rect", x=first + 2, y=y + 2.5, width=measure(words) + 3, height=BAR - 5, rx=2, class_="ground"))
                    self.parts.append(label(first + 4, y + 12.5, words, "holder"))
                    return

    def draw_arrow(self, arrow):
        """From a line of calls, through the space beside its lane, to the mark of the call that took the delta."""
        source, target = self.lanes[arrow.source.site], self.lanes[arrow.target.site]
        back = -1 if target.site > source.site else 1
        words = (f"delta from site {source.site}, entry {arrow.source.number}, to site {target.site}, entry {arrow.target.number}:"
                 f" {arrow.target.reply}")
        line = element("path", d=self.path_of(arrow, source, target, back), class_=f"delta {arrow.kind}",
                       data_from=f"{source.site}:{arrow.source.number}", data_to=f"{target.site}:{arrow.target.number}")
        head = arrow_head(self.x(arrow.target.column), target.calls + back * 4, back, arrow.kind)
        self.parts.append(element("g", hint(words), line, head))

    def path_of(self, arrow, source, target, back):
        """Upright through lanes, curved between the source's lane and the one next to it; ends below (1) or above (-1) the mark."""
        first, last = number(self.x(arrow.source.column)), number(self.x(arrow.target.column))
        leave, turn = (source.top, source.top - GUTTER) if arrow.is_up() else (source.bottom, source.bottom + GUTTER)
        bend = (leave + turn) / 2 if source is not target else turn - 6
        if source is target:
            turn = leave
        return (f"M{first} {source.calls} L{first} {leave} C{first} {number(bend)} {last} {number(bend)} {last} {turn}"
                f" L{last} {target.calls + back * 10}")

    def draw_items(self, lane):
        """The marks of a lane's calls and restarts, and their notes."""
        for flag in lane.flags:
            if flag.row is not None:
                self.draw_flag(lane, flag)
        for item in lane.items[1:]:
            x, y = self.x(item.column), lane.calls
            if isinstance(item, Start):
                mark, words = element("line", x1=x, y1=y - 9, x2=x, y2=lane.bottom - 2, class_="restart"), f"site {item.site} starts again"
            else:
                mark, words = mark_of(item, x, y), f"site {item.site}, entry {item.number}: {item.call} -> {item.reply}"
            self.parts.append(element("g", hint(words), mark))
        if lane.items and not lane.items[1:]:
            self.parts.append(label(self.left, lane.calls + 16, "no calls", "none"))

    def draw_flag(self, lane, flag):
        """A note's words, and the pole to them; the pole of an unknown delta is an arrow."""
        x, y = self.x(flag.item.column), lane.calls - 13 - flag.row * FLAG_ROW
        is_beside = flag.left > x or flag.left + measure(flag.words) + 4 < x
        top, tip = y - 8 if is_beside else y + 3, lane.calls - 4
        if flag.kind == "unsent":
            self.parts.append(element("line", x1=x, y1=top, x2=x, y2=tip - 6, class_="delta unsent"))
            self.parts.append(arrow_head(x, tip, -1, "unsent"))
        else:
            self.parts.append(element("line", x1=x, y1=top, x2=x, y2=tip, class_="pole"))
        self.parts.append(label(flag.left + 2, y, flag.words, f"note {flag.kind}"))

    def places_of_cut(self):
        """Where the cut passes through each lane, as straight as can be."""
        limits = [self.cut_limits(lane) for lane in self.lanes]
        place = (max(low for low, _ in limits) + min(high for _, high in limits)) / 2
        places = []
        for low, high in limits:
            space = min(self.pitch / 2, (high - low) / 2)
            place = min(max(place, low + space), high - space)
            places.append(place)
        return places

    def cut_limits(self, lane):
        """Between which places a line has the first entries of a lane on its left, and the others on its right."""
        within = self.cut[lane.site]
        entries = [item for item in lane.items if isinstance(item, Entry)]
        after = lane.items.index(entries[within - 1]) + 1 if within else 1
        low = self.x(entries[within - 1].column) if within else self.edges[0]
        return low, self.x(lane.items[after].column) if after < len(lane.items) else self.edges[1]

    def draw_cut(self):
        """A line through all lanes, with the cut's numbers above."""
        first = self.lanes[0].top - 6
        points = [f"{number(self.cut_places[0])},{first}"]
        points += [f"{number(x)},{y}" for x, lane in zip(self.cut_places, self.lanes) for y in (lane.top, lane.bottom)]
        words = f"cut {self.cut_words}"
        half = measure(words) / 2 + 4
        self.parts.append(element("polyline", points=" ".join(points), class_="cut"))
        x = min(max(self.cut_places[0], PAD + half), self.width - PAD - half)
        self.parts.append(label(x, first - 4, words, "cut", "middle"))

    def draw_foot(self, y):
        """The axis and the caption; gives the picture's height."""
        y += 12
        words = "order of the calls, not a measure of time"
        if measure(words) + 60 > self.edges[1] - self.edges[0]:
            words = "order of the calls"
        self.parts.append(label(self.edges[0], y, words, "axis"))
        x = self.edges[0] + 8 + measure(words)
        self.parts.append(element("path", d=f"M{number(x)} {y - 4} H{self.edges[1] - 8}", class_="line"))
        self.parts.append(element("path", d=f"M{self.edges[1] - 15} {y - 8} L{self.edges[1] - 8} {y - 4} L{self.edges[1] - 15} {y}", class_="line"))
        y += 10
        for line in wrap(CAPTION, min(self.width, 1_100) - 2 * PAD):
            y += 15
            self.parts.append(label(PAD, y, line, "caption"))
        return y + PAD


def arrow_head(x, y, back, kind):
    """A head with its point there; its back is above (-1) or below (1)."""
    return element("polygon", points=f"{number(x)},{y} {number(x - 4)},{y + back * 9} {number(x + 4)},{y + back * 9}", class_=f"head {kind}")


def cross(x, y, size=4.0):
    return element("path", d=f"M{number(x - size)} {number(y - size)} L{number(x + size)} {number(y + size)}"
                   f" M{number(x - size)} {number(y + size)} L{number(x + size)} {number(y - size)}", class_="cross")


def doubt(x, y):
    return element("circle", cx=x, cy=y, r=6, class_="doubt") + label(x, y + 4, "?", "mark", "middle")


def diamond(x, y):
    return element("path", d=f"M{number(x)} {y - 6} L{number(x + 6)} {y} L{number(x)} {y + 6} L{number(x - 6)} {y} Z", class_="given")


def mark_of(entry, x, y):
    """The mark of a call on its site's line."""
    if entry.is_in_doubt:
        return doubt(x, y)
    if entry.is_refused:
        return cross(x, y)
    if entry.verb in ("give", "help"):
        return diamond(x, y)
    return element("circle", cx=x, cy=y, r=3, class_="call moved" if entry.verb in ("send", "take") else "call")


def bar_sample(x, y, kind):
    return element("rect", x=x, y=y - 6, width=27, height=12, rx=2.5, class_=f"bar-sample bar {kind}")


def arrow_sample(x, y, kind):
    line = element("line", x1=x, y1=y, x2=x + 20, y2=y, class_=f"delta {kind}")
    return line + element("polygon", points=f"{x + 28},{y} {x + 19},{y - 4} {x + 19},{y + 4}", class_=f"head {kind}")


def mark_sample(x, y, kind):
    marks = {"cross": cross, "given": diamond, "doubt": doubt}
    if kind in marks:
        return marks[kind](x + 14.0, y)
    return element("line", x1=x + 14, y1=y - 8, x2=x + 14, y2=y + 8, class_=kind)


LEGEND = (
    ("reader", "reader inside", bar_sample), ("waiting", "writer waits", bar_sample), ("writer", "writer inside", bar_sample),
    ("merged", "delta, sent and merged", arrow_sample), ("nothing", "delta with nothing new", arrow_sample),
    ("refused", "delta refused or in doubt", arrow_sample), ("behind", "delta sent behind the cut", arrow_sample),
    ("unsent", "delta that no log has sent", arrow_sample),
    ("given", "free seats given", mark_sample), ("cross", "refused call", mark_sample), ("doubt", "call in doubt", mark_sample),
    ("restart", "restart of a site", mark_sample), ("cut", "the cut", mark_sample))
