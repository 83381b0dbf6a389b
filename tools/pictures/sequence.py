"""The sequence chart: a column a machine, or a lane of one, a row a line of the text.

The chart is cut into pieces of `ROWS` rows, so that a browser lays out what is looked at alone. What goes on from
one piece to the next is drawn in both.
"""
from bisect import bisect_right
from html import escape

import links as meanings
from custody import GONE, told_of
from forms import LOG, PLACE, REPORT, beside, lane_of, machine_of, matches
from links import place_order

ROWS, HIGH = 36, 18
COLOURS = 5

# what became of a message that was not heard
LOST = {meanings.CUT: "cut", meanings.VANISHED: "lost: its end closed", meanings.UNSENT: "gone: no connection",
        meanings.WAITING: "still on its way", meanings.ALONE: "", meanings.BACKWARD: "heard before it was sent"}


def short_ids(ids):
    """A short name for each id: `1#1e` of a made one, else the first digits that tell it from the others."""
    short, taken = {}, set()
    for id in ids:
        parts = id.split("-")
        if parts[1:4] == ["0000", "8000", "8000"] and parts[0] != "00000000":
            number, count = parts[0].lstrip("0"), parts[4].lstrip("0") or "0"
            name = f"{number}#{count}"
            if len(name) > 12 and f"{number}#\u2026{count[-5:]}" not in taken:
                name = f"{number}#\u2026{count[-5:]}"
        else:
            digits, count = id.replace("-", ""), 6
            while digits[:count] in taken and count < 32:
                count += 2
            name = digits[:count]
        taken.add(name)
        short[id] = name
    return short


def number_text(value):
    """A coordinate, as short as it can be written."""
    return f"{value:.1f}".rstrip("0").rstrip(".")


def places_of(read, messages):
    """The machines that a text names, each on each of its lanes that it names, lane by lane."""
    places = {line.place for line in read.lines if line.word and line.place}
    gaps = {line.gap for line in read.lines if line.word and line.gap}
    places |= gaps | ({beside(gap, 1) for gap in gaps} if read.kind == REPORT else set())
    places |= {line.rest[0] for line in read.lines if line.word == "shift"}
    # of a lane that isn't the first no line tells that a machine came: both ends of a link are there
    ends = {end for message in messages if message.link and lane_of(message.link) > 1 for end in (message.link, beside(message.link, 1))}
    return sorted(places | {end for end in ends if matches(PLACE, end)}, key=place_order) or ["1"]


class Columns:
    """Where each machine and each gap is."""

    def __init__(self, read, messages):
        self.places = places_of(read, messages)
        self.lanes = sorted({lane_of(place) for place in self.places})
        count = len(self.places)
        self.is_narrow = count > 12
        self.box = 48 if self.is_narrow else 116 if count < 4 else 100
        gaps = max(count - len(self.lanes), 1)
        self.gap = 60 if self.is_narrow else max(128, min(300, (900 - count * self.box) // gaps))
        self.reach = min(self.gap, 150)
        self.lay(read, {message.link for message in messages})
        self.lanes_of = {}       # by machine: its places, lane by lane
        for place in self.places:
            self.lanes_of.setdefault(machine_of(place), []).append(place)
        machines = sorted(self.lanes_of)
        step = len(machines) % COLOURS or 1      # neighbours differ, and so do the lanes of a machine
        self.colours = {place: (machines.index(machine_of(place)) + step * (lane_of(place) - 1)) % COLOURS for place in self.places}

    def lay(self, read, linked):
        """The left border of each machine, the walls between the lanes, and the whole width."""
        self.left, self.walls, at = {}, [], 0
        # room for arrows whose other end isn't here
        room = lambda link: self.reach + 10 if link in linked or read.kind == LOG else 16
        for lane in self.lanes:
            row = [place for place in self.places if lane_of(place) == lane]
            self.walls += [at] if at else []
            at += room(beside(row[0], -1))
            self.left.update({place: at + number * (self.box + self.gap) for number, place in enumerate(row)})
            at = self.right(row[-1]) + room(row[-1])
        self.width = at

    def right(self, place):
        return self.left[place] + self.box

    def ends(self, link, below=None):
        """The gap's borders: that of the machine above, and that of the machine below; None where one isn't here."""
        below = below or (beside(link, 1) if link else None)
        left = self.right(link) if link in self.left else None
        right = self.left[below] if below in self.left else None
        if left is not None and right is not None and right < left:
            right = None
        return left, right

    def gap_of(self, link, below=None):
        """As `ends`, but where one machine isn't here the gap ends in the open."""
        left, right = self.ends(link, below)
        if left is None and right is None:
            return None
        return (right - self.reach if left is None else left), (left + self.reach if right is None else right)

    def border(self, place, side):
        return self.left[place] if side == "in" else self.right(place)

    def colour(self, place):
        return self.colours.get(place, 0)


class Sequence:
    """Draws a text's lines; `pieces` has the parts of each piece, the lowest first."""

    def __init__(self, read, messages, bars, short, starts=None, names=None):
        self.read, self.messages, self.bars, self.short = read, messages, bars, short
        self.names = names or {}
        self.columns = Columns(read, messages)
        self.count = len(read.lines)
        self.starts = starts or list(range(0, self.count, ROWS))      # how many lines come before each piece
        self.tops = [start * HIGH for start in self.starts] + [self.count * HIGH]
        self.pieces = [{"under": [], "arrows": [], "over": []} for _ in self.starts]
        self.arrow_of = {}       # the number of a line: that of its arrow
        self.told = {}
        self.tracks = {}
        self.pillars = {}        # by piece and kind: what goes straight down there

    # where things stand

    def y(self, line):
        """The middle of a line's row, from the top of the whole chart."""
        return (line.number - 1) * HIGH + HIGH / 2

    def bottom(self):
        return self.count * HIGH

    def piece_at(self, y):
        """The piece in which a height is; the last one below the end."""
        return max(min(bisect_right(self.tops, y), len(self.starts)) - 1, 0)

    def piece_of(self, line):
        return bisect_right(self.starts, line.number - 1) - 1

    def high(self, number):
        return self.tops[number + 1] - self.tops[number]

    def put(self, layer, line, text):
        self.pieces[self.piece_of(line)][layer].append(text)

    def local(self, line):
        return self.y(line) - self.tops[self.piece_of(line)]

    def label(self, line, x, text, anchor="start", name="t", dy=4):
        anchor = "" if anchor == "start" else f' text-anchor="{anchor}"'
        self.put("over", line, f'<text class="{name}" x="{number_text(x)}" y="{number_text(self.local(line) + dy)}"{anchor}>{escape(text)}</text>')

    def inside(self, line, text, side=None, name="t", place=None):
        """A label in a machine's column, at a side of it or in its middle."""
        x, name = self.columns.left[place or line.place], name + " nb"
        if side == "in":
            self.label(line, x + 9, text, name=name)
        elif side == "out":
            self.label(line, x + self.columns.box - 9, text, "end", name)
        else:
            self.label(line, x + self.columns.box / 2, text, "middle", name)

    def spread(self, layer, x1, y1, x2, y2, make):
        """What goes from one point to another, in each piece that it touches; `make` draws it from points."""
        tops = self.tops
        first, last = self.piece_at(y1), self.piece_at(min(y2, self.bottom() - 0.01))
        if last - first > 3:     # a long way: straight down between its first and its last piece
            middle = (x1 + x2) / 2
            self.spread(layer, x1, y1, middle, tops[first + 1] - 0.01, make)
            self.long_ways.append((round(middle), first + 1, last))
            self.spread(layer, middle, tops[last], x2, y2, make)
            return
        if y1 == y2:
            self.pieces[first][layer].append(make(x1, y1 - tops[first], x2, y2 - tops[first]))
            return
        for number in range(first, last + 1):
            top, under = max(y1, tops[number]), min(y2, tops[number + 1])
            at = lambda y: x1 + (x2 - x1) * (y - y1) / (y2 - y1)
            self.pieces[number][layer].append(make(at(top), top - tops[number], at(under), under - tops[number]))

    # messages

    def draw_messages(self):
        self.long_ways = []
        for number, message in enumerate(self.messages):
            for line in (message.sent, message.heard):
                if line is not None:
                    self.arrow_of[line.number] = number
            self.draw_message(number, message)
        done = {}                # by place across: the piece up to which one is drawn
        for x, first, end in sorted(self.long_ways):
            for number in range(max(first, done.get(x, 0)), end):
                self.pillars.setdefault((number, "far"), []).append(f"M{x} 0V{self.high(number)}")
            done[x] = max(end, done.get(x, 0))

    def who(self, message, is_sender):
        """The machine at an end of a message, in words."""
        line = message.sent if is_sender else message.heard
        if line is not None:
            return f"machine {line.place}"
        return "a machine that isn't in this text"

    def story(self, message):
        """A message and what became of it, in words."""
        said = message.what if message.sent or message.fate != meanings.REFUSED else "a message"
        if message.sent is not None:
            said += f": sent by {self.who(message, True)}, line {message.sent.number}"
        if message.fate == meanings.REFUSED:
            said += f"; what came was refused by {self.who(message, False)}, line {message.heard.number}: {message.heard.rest[-1]}"
        elif message.heard is not None:
            said += f"; heard by {self.who(message, False)}, line {message.heard.number}"
        if message.is_spoiled:
            said += "; spoiled on its way"
        if message.fate in LOST and LOST[message.fate]:
            said += f"; {LOST[message.fate]}" + (f", line {message.at.number}" if message.at is not None else "")
        if message.sent is None:
            said += "; that it was sent isn't in this text"
        elif message.fate == meanings.ALONE:
            said += "; what became of it isn't in this text"
        return said

    def way_of(self, message, left, right):
        """Where a message's arrow begins and ends, between the borders of its gap."""
        start, end = (left, right) if message.to == "in" else (right, left)
        y1 = y2 = self.y(message.sent or message.heard)
        stub = min(46, right - left) * (1 if end > start else -1)
        if message.heard is not None:
            y2 = self.y(message.heard)
            if message.sent is None:
                start = end - stub
        elif message.fate in (meanings.CUT, meanings.VANISHED):
            end, y2 = start + (end - start) * 0.62, self.y(message.at)
        elif message.fate == meanings.WAITING:
            end, y2 = start + (end - start) * 0.62, self.bottom() - 3
        elif message.fate == meanings.UNSENT:
            end = start + stub
        return (end, y2, start, y1) if y2 < y1 else (start, y1, end, y2)

    def draw_message(self, number, message):
        gap = self.columns.gap_of(message.link, None if message.link else (message.sent or message.heard).place)
        if gap is None:
            return
        left, right = gap[0] + 7, gap[1] - 7
        start, y1, end, y2 = self.way_of(message, left, right)
        names = "a"
        if message.fate not in (meanings.ARRIVED, meanings.BACKWARD, meanings.ALONE):
            names += " lost"
        if message.sent is None or message.fate == meanings.ALONE:
            names += " stub"
        marks = f' data-s="{message.sent.number}"' if message.sent else ""
        marks += f' data-h="{message.heard.number}"' if message.heard else ""
        first = [f' id="a{number}"', f"<title>{escape(self.story(message))}</title>"]

        def made(x1, top, x2, under):
            path = f"M{number_text(x1)} {number_text(top)}L{number_text(x2)} {number_text(under)}"
            mark, told = first or ("", "")
            first.clear()        # the other pieces of an arrow have neither its id nor its title
            return f'<g class="{names} a{number}"{mark}{marks}>{told}<path class="hit" d="{path}"/><path d="{path}"/></g>'

        self.spread("arrows", start, y1, end, y2, made)
        self.draw_head(number, message, start, y1, end, y2)
        self.name_ends(message, left, right)

    def name_ends(self, message, left, right):
        """The message's name at its beginning, and where it was heard."""
        way = 1 if message.to == "in" else -1
        name, _, more = message.what.partition(" ")
        if self.columns.is_narrow:
            what = "".join(letter for letter in name if letter.isupper()) + more[:4]
        else:
            what = message.what if len(message.what) < 28 else message.what[:20] + ".."
            what += ": no connection" if message.fate == meanings.UNSENT else ""
        if message.sent is not None:
            by, dy = (56, 4) if message.fate == meanings.UNSENT else (3, -2)
            self.label(message.sent, (left if way > 0 else right) + way * by, what, "start" if way > 0 else "end", "tm", dy)
        is_near = message.sent and message.heard and message.heard.number - message.sent.number == 1
        if message.heard is not None and message.fate != meanings.REFUSED and not is_near:
            self.inside(message.heard, what, message.to, "tr")

    def draw_head(self, number, message, x1, y1, x2, y2):
        """The end of an arrow: a head where it was heard, a cross where it was lost, a ring where it is on its way."""
        piece = self.piece_at(min(y2, self.bottom() - 0.01))
        x, y = x2, y2 - self.tops[piece]
        if message.fate == meanings.BACKWARD:
            piece = self.piece_at(y1)
            x, y = x1, y1 - self.tops[piece]
            x1, y1, x2, y2 = x2, y2, x1, y1
        if message.fate in (meanings.ARRIVED, meanings.BACKWARD, meanings.ALONE):
            long = max(((x2 - x1) ** 2 + (y2 - y1) ** 2) ** 0.5, 1)
            dx, dy = (x2 - x1) / long, (y2 - y1) / long
            points = [(x, y), (x - 8 * dx + 3.4 * dy, y - 8 * dy - 3.4 * dx), (x - 8 * dx - 3.4 * dy, y - 8 * dy + 3.4 * dx)]
            d = "M" + "L".join(f"{number_text(a)} {number_text(b)}" for a, b in points) + "Z"
            self.pieces[piece]["arrows"].append(f'<path class="head a{number}" d="{d}"/>')
        elif message.fate == meanings.WAITING:
            self.pieces[piece]["arrows"].append(f'<circle class="ring a{number}" cx="{number_text(x)}" cy="{number_text(y - 1)}" r="3"/>')
        else:
            d = f"M{number_text(x - 4)} {number_text(y - 4)}l8 8m0 -8l-8 8"
            self.pieces[piece]["arrows"].append(f'<path class="cross a{number}" d="{d}"/>')
        if message.fate in (meanings.CUT, meanings.VANISHED) and not self.columns.is_narrow:
            way = 1 if message.to == "in" else -1
            said = f"{message.what} {'cut' if message.fate == meanings.CUT else 'lost'}"
            self.label(message.at, x2 + way * 7, said, "start" if way > 0 else "end", "tr", 9)

    # connections, boards in the gaps, levels

    def draw_bars(self):
        for bar in self.bars:
            if bar.place not in self.columns.left:
                continue
            x = self.columns.border(bar.place, bar.side) + (2.5 if bar.side == "out" else -2.5)
            y1 = self.y(bar.begins) if bar.begins is not None else 0
            y2 = self.y(bar.ends) if bar.ends is not None else self.bottom()
            self.pillar("conn", x, y1, y2)

    def pillar(self, name, x, y1, y2):
        """A bar straight down."""
        for number in range(self.piece_at(y1), self.piece_at(min(y2, self.bottom() - 0.01)) + 1):
            top, under = max(y1 - self.tops[number], 0), min(y2 - self.tops[number], self.high(number))
            self.pillars.setdefault((number, name), []).append(f"M{number_text(x)} {number_text(top)}V{number_text(under)}")

    def draw_pillars(self):
        """What goes straight down, in one path for each piece and kind."""
        for (number, name), parts in self.pillars.items():
            self.pieces[number]["under"].append(f'<path class="{name}" d="{"".join(parts)}"/>')

    def board(self, line, middle, is_back):
        """A board, and which way it goes."""
        turn = "h-7m3 -3l-3 3l3 3" if is_back else "h7m-3 -3l3 3l-3 3"
        self.put("over", line, f'<rect class="pcb" x="{number_text(middle - 9)}" y="{self.local(line) - 6}" width="18" height="12" rx="2"/>'
                 f'<path class="pcbway" d="M{number_text(middle + 3.5 if is_back else middle - 3.5)} {self.local(line)}{turn}"/>')

    def draw_boards(self):
        """Where the board in each gap lies, from its moves."""
        lying = {}
        for line in self.read.lines:
            if line.word != "move":
                continue
            gap = self.columns.gap_of(line.gap)
            if gap is None:
                continue
            left, right = gap
            at = {"begin": left + 20, "left": (left + right) / 2, "in": right - 20, "hand-in": right - 20,
                  "back": left + 20, "take": None}
            word, y = line.rest[0], self.y(line)
            x, since = lying.pop(line.gap, (left if word == "begin" else None, y))
            if x is not None and since < y:
                self.pillar("board", x, since, y)
            to = {"in": right, "hand-in": right, "back": left}.get(word, at[word])
            if x is not None and to is not None:
                self.put("under", line, f'<path class="board" d="M{number_text(x)} {self.local(line)}H{number_text(to)}"/>')
            middle = at[word] if at[word] is not None else x if x is not None else (left + right) / 2
            if word in ("begin", "left"):
                lying[line.gap] = (to, y)
            if word == "take":
                self.put("over", line, f'<path class="cross big" d="M{number_text(middle - 5)} {self.local(line) - 5}l10 10m0 -10l-10 10"/>')
            else:
                self.board(line, middle, word == "back")
            if word in ("in", "hand-in") and beside(line.gap, 1) in self.columns.left:
                self.label(line, right + 9, f"board: {word}", name="tb nb")
            else:
                self.label(line, middle + 13, f"board: {word}", name="tb")
        for x, since in lying.values():
            self.pillar("board", x, since, self.bottom())

    LEVELS = {"ready": ("in", 3), "entry-available": ("in", 6), "entry-failed": ("in", 9), "available": ("out", 3),
              "failed": ("out", 6), "exit-ready": ("out", 9), "drive in": ("in", 3), "drive out": ("out", 3)}

    def level(self, line, name, is_on):
        """A level of a segment or a drive: a thin bar in the machine's column while it is on."""
        side, by = self.LEVELS[name]
        x = self.columns.border(line.place, side) + (by if side == "in" else -by)
        began = self.tracks.pop((line.place, name), None)
        if began is not None:
            self.pillar("level", x, began, self.y(line))
        if is_on:
            self.tracks[line.place, name] = self.y(line)

    def end_levels(self):
        for (place, name), began in self.tracks.items():
            side, by = self.LEVELS[name]
            x = self.columns.border(place, side) + (by if side == "in" else -by)
            self.pillar("level", x, began, self.bottom())

    # one line after another

    def draw_lines(self):
        for line in self.read.lines:
            if line.word is None or line.word == "end":
                continue
            drawer = getattr(self, "on_" + line.word.rstrip(":").replace("-", "_"), None)
            if drawer is not None:
                drawer(line)
        self.end_levels()

    def name_of(self, line, number=0):
        return self.short[line.ids[number]]

    def dot(self, line, side, name="deed"):
        x = self.columns.border(line.place, side)
        self.put("over", line, f'<circle class="{name}" cx="{number_text(x)}" cy="{self.local(line)}" r="4"/>')

    def deed(self, line):
        self.dot(line, line.side)
        self.inside(line, f"{line.word} {self.name_of(line)}", line.side, "t deedt")

    on_opens = on_refuses = on_leaves = on_returns = on_loses = on_starts = on_settles = on_drops = deed

    def on_machine(self, line):
        for place in self.columns.lanes_of[machine_of(line.place)]:
            x = self.columns.left[place]
            self.put("over", line, f'<path class="edge" d="M{number_text(x)} {self.local(line) - 8}h{self.columns.box}"/>')
            if not self.columns.is_narrow:
                self.label(line, x + self.columns.box / 2, f"{line.word}, room for {line.rest[0]}"[:22], "middle", "tl")

    on_bridge = on_machine

    def on_insert(self, line):
        self.inside(line, f"insert {self.name_of(line)}", None, "t deedt")

    def on_remove(self, line):
        self.inside(line, f"remove {self.name_of(line)}", None, "t deedt")

    def on_replace(self, line):
        self.inside(line, f"{self.name_of(line)} by {self.name_of(line, 1)}", None, "t deedt")

    def on_mark(self, line):
        self.inside(line, f"mark {self.name_of(line)} {line.rest[-1]}")

    def on_sub(self, line):
        self.inside(line, f"sub {self.name_of(line)} {line.rest[-1]}")

    def on_shift(self, line):
        """The board goes from its lane's column to the other's, where it lies before the border."""
        place, to = line.place, line.rest[0]
        is_back = self.columns.left[to] < self.columns.left[place]
        begin, end = (self.columns.left[place], self.columns.right(to)) if is_back else (self.columns.right(place), self.columns.left[to])
        self.put("under", line, f'<path class="board" d="M{number_text(begin)} {self.local(line)}H{number_text(end)}"/>')
        self.board(line, end + 14 if is_back else end - 14, is_back)
        name, is_narrow = self.name_of(line), self.columns.is_narrow
        self.inside(line, f"shift {name}" if is_narrow else f"shift {name} to {to}", None, "t deedt")
        self.inside(line, name if is_narrow else f"{name} from {place}", None, "t", to)

    def on_hold(self, line):
        self.inside(line, f"{line.word} {line.side}", line.side)

    on_go = on_hold

    def on_level(self, line):
        self.inside(line, f"{line.rest[0]} {line.rest[1]}", self.LEVELS[line.rest[0]][0], "tl")
        self.level(line, line.rest[0], line.rest[1] == "on")

    def on_signals(self, line):
        self.inside(line, f"{line.rest[0]} {line.rest[1]}", self.LEVELS[line.rest[0]][0], "tl")
        self.level(line, line.rest[0], line.rest[1] == "on")

    def on_drive(self, line):
        self.inside(line, f"drive {line.rest[0]}", line.side, "tl")
        self.level(line, f"drive {line.side}", line.rest[0] == "on")

    def on_connects(self, line):
        link = beside(line.place, -1)
        gap = self.columns.gap_of(link, line.place)
        if gap is None:
            return
        left, right = gap
        is_here = link in self.columns.left
        is_second = is_here and self.read.kind == REPORT and not any(
            bar.place == link and bar.side == "out" and bar.begins is line for bar in self.bars_at.get(line.number, ()))
        y = self.local(line)
        self.put("over", line, f'<path class="plug" d="M{number_text(left)} {y - 1.5}H{number_text(right)}M{number_text(left)} {y + 1.5}H{number_text(right)}"/>')
        self.label(line, (left + right) / 2, "connects" if not is_second else "connects: a second one", "middle", "tc", 4)
        self.dot(line, "in", "plugend")
        if is_here and not is_second and self.read.kind == REPORT:
            x = self.columns.right(link)
            self.put("over", line, f'<circle class="plugend" cx="{number_text(x)}" cy="{y}" r="4"/>')

    def on_notices(self, line):
        x = self.columns.border(line.place, line.side)
        self.put("over", line, f'<path class="cap" d="M{number_text(x - 8)} {self.local(line)}h16"/>')
        self.inside(line, "notices close" if line.word == "notices" else "closes", line.side, "tr")

    on_closes = on_notices

    def on_cut(self, line):
        gap = self.columns.gap_of(line.gap)
        if gap is None:
            return
        left, right = gap
        y, step = self.local(line), (right - left) / 12
        zigzag = "".join(f"l{number_text(step)} {-8 if turn % 2 else 8}" for turn in range(12))
        self.put("over", line, f'<path class="zigzag" d="M{number_text(left)} {y - 4}{zigzag}"/>')
        self.label(line, (left + right) / 2, "cut", "middle", "tc strong", 4)

    def on_spoils(self, line):
        x = self.columns.border(line.place, line.side)
        y, way = self.local(line), -1 if line.side == "in" else 1
        self.put("over", line, f'<path class="star" d="M{number_text(x + way * 18 - 5)} {y}h10m-5 -5v10m-3.5 -8.5l7 7m0 -7l-7 7"/>')
        self.label(line, x + way * 27, "spoiled", "end" if way < 0 else "start", "tr")

    def on_reads(self, line):
        x = self.columns.border(line.place, line.side)
        self.put("over", line, f'<path class="sensor" d="M{number_text(x - 5)} {self.local(line)}l5 -5l5 5l-5 5z"/>')
        self.inside(line, f"sees {line.rest[0]}", line.side)

    def on_lie(self, line):
        x = self.columns.border(line.place, line.side)
        self.put("over", line, f'<path class="sensor lie" d="M{number_text(x - 6)} {self.local(line) + 5}h12l-6 -11z"/>')
        self.inside(line, f"lie: {line.rest[0]}", line.side, "t strong")

    def on_unseen(self, line):
        self.inside(line, f"unseen {line.side}", line.side, "t strong")

    def on_breach(self, line):
        self.inside(line, f"breach: {line.rest[0]}"[:60], line.side, "t strong")

    def on_hears(self, line):
        pass

    on_sends = on_unvouched = on_gone = on_hears

    def on_lanes(self, line):
        """The lanes on which something happens, each over its first machine."""
        lanes = self.columns.lanes
        for lane in lanes if len(lanes) > 1 else ():
            first = next(place for place in self.columns.places if lane_of(place) == lane)
            self.label(line, self.columns.left[first], f"lane {lane}", name="tc")

    def on_stop(self, line):
        for place in self.columns.lanes_of[machine_of(line.place)]:
            self.inside(line, "stop", None, "t strong", place)

    def on_no(self, line):
        self.put("under", line, f'<path class="no" d="M0 {self.local(line)}H{self.columns.width}"/>')
        if line.place in self.columns.left:
            self.inside(line, "no", None, "tr")

    on_refused = on_no

    def on_tells(self, line):
        self.inside(line, f"tells {line.rest[0]} {self.name_of(line)} {line.rest[1]}", None, "tl")

    def on_supervise(self, line):
        self.inside(line, f"supervised {line.rest[0]}", None, "tl")

    def on_asks(self, line):
        self.inside(line, f"asks {line.rest[0]}", None, "tl")

    def on_answered(self, line):
        self.inside(line, f"answered {line.rest[0]}", None, "tl")

    def on_show(self, line):
        if line.rest and line.place in self.columns.left:
            self.inside(line, f"keeps {self.name_of(line)}", None, "tr")
        elif line.gap is not None and self.columns.gap_of(line.gap):
            left, right = self.columns.gap_of(line.gap)
            self.label(line, (left + right) / 2, f"between: {self.name_of(line)}", "middle", "tr")
        elif line.side is not None:
            self.inside(line, f"{line.side}: {self.name_of(line)}", line.side, "tr")

    def chip(self, line, left, right, fill, text, name):
        width = min(right - left - 12, 150)
        x = (left + right) / 2 - width / 2
        self.put("over", line, f'<rect class="chip{"" if fill else " gone"}" x="{number_text(x)}" y="{self.local(line) - 7.5}" width="{number_text(width)}" height="15" rx="4" {fill}/>')
        if "url(" in fill:       # stripes: the text has a ground of its own
            plate = min(width - 4, 6 * len(text) + 8)
            self.put("over", line, f'<rect class="plate" x="{number_text((left + right - plate) / 2)}" y="{self.local(line) - 6}" width="{number_text(plate)}" height="12" rx="3"/>')
        self.label(line, (left + right) / 2, text, "middle", name)

    def on_with(self, line):
        left = self.columns.left[line.place]
        colour = self.columns.colour(line.place)
        self.told[line.ids[0]] = told_of(line)
        text = f"{self.name_of(line)} with {line.place}" if not self.columns.is_narrow else self.name_of(line)
        self.chip(line, left, left + self.columns.box, f'style="fill:var(--m{colour})"', text, f"t on{colour}")

    def on_between(self, line):
        gap = self.columns.gap_of(line.gap)
        if gap is None:
            return
        colour = self.columns.colour(line.gap)
        self.told[line.ids[0]] = told_of(line)
        text = f"{self.name_of(line)} between {line.gap} and {beside(line.gap, 1)}" if not self.columns.is_narrow else self.name_of(line)
        self.chip(line, gap[0], gap[1], f'fill="url(#p{colour})"', text, "t halo")

    def on_gone(self, line):
        last = self.told.pop(line.ids[0], (GONE,))
        text = f"{self.name_of(line)} is gone"
        if last[0] == "with" and last[1] in self.columns.left:
            left = self.columns.left[last[1]]
            self.chip(line, left, left + self.columns.box, '', text, "t")
        elif last[0] == "between" and self.columns.gap_of(last[1]):
            self.chip(line, *self.columns.gap_of(last[1]), '', text, "t")

    # the whole

    def begins(self):
        """The row from which on each machine is there."""
        begun = {}
        if self.read.kind == REPORT:
            for line in self.read.lines:
                if line.word in ("machine", "bridge"):
                    begun.setdefault(machine_of(line.place), self.y(line) - 8)
        return {place: begun.get(machine_of(place), 0) for place in self.columns.places}

    def draw_boxes(self):
        boxes, wide = {}, self.columns.box
        for place, begins in self.begins().items():
            x = self.columns.left[place]
            for number in range(self.piece_at(begins), len(self.pieces)):
                top, under = max(begins - self.tops[number], 0), self.high(number)
                boxes.setdefault(number, []).append((x, top, under))
        for number, parts in boxes.items():
            fill = "".join(f"M{number_text(x)} {number_text(top)}h{wide}V{number_text(under)}h-{wide}z" for x, top, under in parts)
            walls = "".join(f"M{number_text(x)} {number_text(top)}V{number_text(under)}m{wide} 0V{number_text(top)}" for x, top, under in parts)
            self.pieces[number]["under"].insert(0, f'<path class="box" d="{fill}"/><path class="wall" d="{walls}"/>')

    def draw_walls(self):
        """Between two lanes a line straight down."""
        for x in self.columns.walls:
            self.pillar("wall", x, 0, self.bottom())

    def draw_bands(self):
        """Every other group is shaded, in the chart as in the text."""
        bands, last, is_odd = {}, None, False
        self.odd = set()
        for line in self.read.lines:
            key = line.group or ("line", line.number)
            if key != last:
                is_odd, last = not is_odd, key
            if is_odd:
                self.odd.add(line.number)
                bands.setdefault(self.piece_of(line), []).append(f"M0 {int(self.local(line) - HIGH / 2)}h{number_text(self.columns.width)}v{HIGH}H0z")
        for number, parts in bands.items():
            self.pieces[number]["under"].insert(0, f'<path class="band" d="{"".join(parts)}"/>')

    def draw(self):
        self.bars_at = {}
        for bar in self.bars:
            if bar.begins is not None:
                self.bars_at.setdefault(bar.begins.number, []).append(bar)
        self.draw_bars()
        self.draw_boards()
        self.draw_messages()
        self.draw_lines()
        self.draw_walls()
        self.draw_pillars()
        self.draw_boxes()
        self.draw_bands()
        if self.read.unvouched is not None:
            line = self.read.lines[self.read.unvouched - 1]
            y = self.local(line)
            self.put("over", line, f'<path class="rule" d="M0 {y - 2}H{number_text(self.columns.width)}M0 {y + 2}H{number_text(self.columns.width)}"/>')
            self.label(line, self.columns.width / 2, "from here on nothing is guaranteed: a false sensor reading", "middle", "t strong halo2")
        return self.pieces

    def heads(self):
        """The titles of the columns, and the walls between lanes."""
        rooms = {}
        for line in self.read.lines:
            if line.word in ("machine", "bridge"):
                rooms.setdefault(machine_of(line.place), line.word)
        parts = [f'<path class="wall" d="M{number_text(x)} 0V40"/>' for x in self.columns.walls]
        for place in self.columns.places:
            name = rooms.get(machine_of(place), "machine")
            x, colour = self.columns.left[place], self.columns.colour(place)
            title = place if self.columns.is_narrow else f"{name} {place}"
            named = self.names.get(machine_of(place))
            if named and not self.columns.is_narrow:
                title = f"{place} {named}"
                title = title if len(title) <= self.columns.box // 7 else title[:self.columns.box // 7 - 1] + "\u2026"
            parts.append(f'<rect class="headbox" x="{number_text(x)}" y="4" width="{self.columns.box}" height="20" rx="3" style="fill:var(--m{colour})"/>'
                         f'<text class="headt on{colour}" x="{number_text(x + self.columns.box / 2)}" y="18.5" text-anchor="middle"><title>{escape(f"{name} {place}" + (f": {named}" if named else ""))}</title>{escape(title)}</text>')
            if not self.columns.is_narrow:
                parts.append(f'<text class="tr" x="{number_text(x + 2)}" y="34">entry</text>'
                             f'<text class="tr" x="{number_text(x + self.columns.box - 2)}" y="34" text-anchor="end">exit</text>')
        return "".join(parts)
