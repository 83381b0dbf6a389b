"""The way of each board in one row: at which line it came to each machine, what disturbed its handovers, and where it is.

A line is named by its number in the script, by its turn, or in a merged log by its number in the text.
"""
from html import escape

from custody import BETWEEN, BY_HAND, GONE, REMOVED, REPLACED, WITH, is_alarm, is_lost, line_of_loss
from forms import MERGED, beside, lane_of
from links import place_order

MOST_ROWS = 1000
ENDED = {REMOVED: "taken out", REPLACED: "replaced", BY_HAND: "taken out of the gap"}
SIGN = "\u26a0"


class Ways:
    """Draws the table of a `Custody`."""

    def __init__(self, read, custody, folds, short, columns, given):
        self.read, self.custody, self.short, self.columns, self.given = read, custody, short, columns, given
        self.places = sorted((place for place in columns.places), key=place_order)
        self.spans = {}
        for span in folds.spans:
            self.spans.setdefault((span.id, span.gap), []).append(span)

    def where(self, number):
        """How a line of the text is named."""
        line = self.read.lines[number - 1]
        return str(number if self.read.kind == MERGED or line.group is None else line.group[0])

    def go(self, number, text, title="", name=""):
        mark = f' class="{name}"' if name else ""
        return f'<a href="#L{number}"{mark} title="{escape(title)}">{escape(text)}</a>'

    def disturbed(self, row, gap):
        """What disturbed a board's handovers at a gap, in short, and the first line of it."""
        words = {}
        for span in self.spans.get((row.id, gap), ()):
            if not span.is_quiet():
                words.update((word, number) for word, number in span.why.items() if word not in words)
        return words

    def lost_at(self, row, gap):
        """The line at which a board's record was lost in a handover at a gap, or None."""
        for before, stay in zip(row.stays, row.stays[1:]):
            if is_lost(stay, self.read.kind) and before.standing == (BETWEEN, gap):
                return line_of_loss(row, stay)
        return None

    def in_short(self, words):
        """What disturbed first, and how it ended: of a cut nobody needs to hear that it closed connections and lost messages."""
        hands = [word for word in words if word.endswith(" by hand")]
        told = [word for word in words if word not in ("closed", "message lost") and (not hands or word not in ("dropped", "let go at the exit"))] or list(words)
        return f"{told[0]}, {told[-1]}" if len(told) > 1 else told[0]

    def cells(self, row):
        """What is in a row's cells, by the place or the gap."""
        made = {}
        for stay in row.stays:
            line = self.custody.groups[stay.begins].first
            if is_alarm(stay):
                for _, place in sorted(stay.marks) or [(None, row_place(row))]:
                    made.setdefault(("at", place), []).append(self.go(line, f"{SIGN} {self.where(line)}", "no standing, or two", "bad"))
            elif stay.standing[0] == WITH:
                made.setdefault(("at", stay.standing[1]), []).append(self.go(line, self.where(line), f"with {stay.standing[1]} from here on"))
            elif stay.standing[0] == BETWEEN and stay.standing[1]:
                made.setdefault(("gap", stay.standing[1]), [])
        for gap in [key[1] for key in made if key[0] == "gap"]:
            words, lost = self.disturbed(row, gap), self.lost_at(row, gap)
            if lost:
                made["gap", gap] = [self.go(lost, f"{SIGN} LOST at {self.where(lost)}", "no machine had its record any more, and no hand took the board", "bad")]
            elif words:
                number = min(words.values())
                made["gap", gap] = [self.go(number, f"{SIGN} {self.in_short(words)}", f"disturbed from {self.where(number)} on: {', '.join(words)}", "odd")]
            else:
                made["gap", gap] = ["\u2192"]
        return made

    def now(self, row):
        """Where a board is at the end, in a few words, and the cell's class."""
        stay = row.stays[-1]
        line = self.custody.groups[stay.begins].first
        if is_alarm(stay):
            return self.go(line, f"{SIGN} two or no standing"), "bad"
        if is_lost(stay, self.read.kind):
            deed = line_of_loss(row, stay)
            return self.go(deed, f"{SIGN} LOST at {self.where(deed)}", "no machine has its record, and no hand took the board"), "bad"
        if stay.standing == (GONE,):
            return self.go(line, f"{ENDED.get(stay.how, 'gone')} at {self.where(line)}"), "went"
        if stay.standing[0] == WITH:
            return f"with {stay.standing[1]}", ""
        gap = stay.standing[1]
        return self.go(line, f"between {gap} and {beside(gap, 1)}" if gap else "coming in"), "odd"

    def row(self, row):
        cells, parts = self.cells(row), []
        for place in self.places:
            own = cells.get(("at", place), [])
            colour = self.columns.colour(place)
            is_bad = any('class="bad"' in it for it in own)
            name = "bad" if is_bad else f"m m{colour}" if own else ""
            parts.append(f'<td class="{name}">{" ".join(own)}</td>' if name else "<td></td>")
            if beside(place, 1) in self.columns.left:
                gap = cells.get(("gap", place))
                name = "g" if gap and gap[0] == "\u2192" else "bad" if gap and 'class="bad"' in gap[0] else "odd"
                parts.append(f'<td class="{name}">{gap[0]}</td>' if gap else "<td></td>")
        now, name = self.now(row)
        barcode = self.given.boards.get(row.id)
        head = f"{escape(self.short[row.id])}" + (f" <b>{escape(barcode)}</b>" if barcode else "")
        return f'<tr data-i="{row.id}"><th scope="row" title="{row.id}">{head}</th>{"".join(parts)}<td class="now {name}">{now}</td></tr>'

    def head(self):
        parts = []
        for place in self.places:
            named = self.given.machines.get(int(place.partition(".")[0]))
            parts.append(f'<th scope="col">{place}{f" {escape(named)}" if named else ""}</th>')
            if beside(place, 1) in self.columns.left:
                parts.append("<th></th>")
        return f'<tr><th scope="col">board</th>{"".join(parts)}<th scope="col">at the end</th></tr>'

    def draw(self):
        """The table, or nothing where there is no record."""
        rows = [row for row in self.custody.rows.values() if row.stays]
        if not rows:
            return ""
        more = f'<p class="warn">The first {MOST_ROWS} of {len(rows)} boards have a row.</p>' if len(rows) > MOST_ROWS else ""
        lanes = " lanes" if any(lane_of(place) > 1 for place in self.places) else ""
        return (f'<div class="wide"><table class="ways{lanes}"><thead>{self.head()}</thead><tbody>'
                f'{"".join(self.row(row) for row in rows[:MOST_ROWS])}</tbody></table></div>{more}')


def row_place(row):
    """The place of a board's last mark before this; machine 1 where there was none."""
    marks = [place for stay in row.stays for _, place in stay.marks]
    return marks[-1] if marks else "1"
