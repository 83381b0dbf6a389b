"""The custody chart: a row a board, along it who has its record; cut into panels as music is into staves."""
from bisect import bisect_left, bisect_right
from collections import Counter
from html import escape

from custody import GONE, IN, KEEPS, NONE, OUT, WITH, columns_of, is_alarm, is_lost, words_of
from forms import LOG, MERGED, beside
from links import place_order

COLUMNS, WIDE, LABEL, LABEL_NAMED = 20, 44, 90, 140
# of several lanes, where `1.2+2.2` is in a column
LANE_COLUMNS, LANE_WIDE = 16, 56
MOST_UNCHANGED = 12
TOP = 22


def key_text(key):
    """A group's name over its column: its line of the script, its turn, or its machine and turn."""
    return str(key[0]) if len(key) == 1 else f"{key[0]}:{key[1]}"


class CustodyChart:
    """Draws the rows of a `Custody` in panels."""

    def __init__(self, read, custody, short, columns, given):
        self.read, self.custody, self.short, self.machines, self.given = read, custody, short, columns, given
        self.label = LABEL_NAMED if any(id in given.boards for id in custody.rows) else LABEL
        self.columns = columns_of(custody, read)
        self.most, self.wide = (COLUMNS, WIDE) if len(columns.lanes) == 1 else (LANE_COLUMNS, LANE_WIDE)
        self.is_every = len(self.columns) == len(custody.groups)
        self.numbers = [group.number for group in self.columns]
        self.order = {id: number for number, id in enumerate(custody.rows)}
        self.begins = {}         # by id: the groups at which its stays begin
        self.unvouched = next((group.number for group in custody.groups
                               if read.unvouched is not None and group.first <= read.unvouched <= group.last), None)

    def column(self, group):
        """The first column of this group or a later one."""
        return bisect_left(self.numbers, group)

    def look(self, stay):
        """How a stay's bar is filled, its text, and the text's class."""
        if is_alarm(stay):
            places = sorted({place for _, place in stay.marks}, key=place_order)
            return 'class="bar alarm"', f"{' & '.join(places)} ?" if stay.standing == (NONE,) else "told otherwise", "onalarm"
        place = stay.standing[1]
        if stay.standing[0] == WITH:
            colour = self.machines.colour(place)
            return f'class="bar" style="fill:var(--m{colour})"', f"with {place}", f"on{colour}"
        below = beside(place, 1) if place else None
        kinds = {kind for kind, _ in stay.marks}
        if self.read.kind == LOG:
            own = next(iter(stay.marks))[1]
            text = f"{own} out" if OUT in kinds else f"{own} in"
            return f'class="bar" fill="url(#p{self.machines.colour(own)})"', text, "halo"
        if IN in kinds and kinds & {KEEPS, OUT}:
            text = f"{place}+{below}"
        else:
            text = f"\u2192{below or next(iter(stay.marks))[1]}" if IN in kinds else f"{place}\u2192"
        colour = self.machines.colour(place) if place else 0
        return f'class="bar" fill="url(#p{colour})"', text, "halo"

    def panels(self):
        """Each panel's first column, what is done in it by id, the ids that don't change, or how many they are."""
        starts = range(0, len(self.columns), self.most)
        changing = [dict() for _ in starts]
        for row in self.custody.rows.values():
            panel = lambda group: changing[min(self.column(group), len(self.columns) - 1) // self.most].setdefault(row.id, [])
            for stay in row.stays:
                panel(stay.begins)
            for group, word, line in row.deeds:
                panel(group).append((group, word, line, None))
            for group, why, line in row.alarms:
                panel(group).append((group, "not legal", line, why))
            self.begins[row.id] = [stay.begins for stay in row.stays]
        standing, counts = {}, Counter()
        for number, start in enumerate(starts):
            for id in changing[number]:
                if id in standing:
                    counts[self.where(standing[id])] -= 1
            quiet = sum(counts.values())
            same = [id for id in standing if id not in changing[number]] if quiet <= MOST_UNCHANGED else []
            yield start, changing[number], same, self.unchanged(quiet, counts) if quiet > MOST_UNCHANGED else ""
            end = self.numbers[min(start + self.most, len(self.numbers)) - 1]
            for id in changing[number]:
                row, at = self.custody.rows[id], bisect_right(self.begins[id], end) - 1
                now = row.stays[at] if at >= 0 else None
                if now is not None and (now.standing != (GONE,) or now.told):
                    standing[row.id] = now
                    counts[self.where(now)] += 1
                else:
                    standing.pop(row.id, None)

    def where(self, stay):
        """A standing in a few words, by which records are counted."""
        if is_alarm(stay):
            return "two or no standing"
        return f"with {stay.standing[1]}" if stay.standing[0] == WITH else f"between {stay.standing[1]} and the next"

    def unchanged(self, quiet, counts):
        """The records to which nothing happens in a panel, in words."""
        return f"{quiet} more, unchanged here: " + ", ".join(f"{count} {said}" for said, count in counts.most_common(12) if count)

    def draw(self):
        """The panels, each as its svg."""
        return [self.panel(*panel) for panel in self.panels()] if self.columns and self.custody.rows else []

    def panel(self, start, changing, same, rest):
        count = min(self.most, len(self.columns) - start)
        rows = [self.custody.rows[id] for id in same] + [self.custody.rows[id] for id in changing]
        rows.sort(key=lambda row: self.order[row.id])
        parts, y = [], TOP
        for row in rows:
            drawn, high = self.row(row, start, count, y, changing.get(row.id, ()))
            parts.append(drawn)
            y += high
        if rest:
            parts.append(f'<text class="tr" x="4" y="{y + 11}">{escape(rest)}</text>')
            y += 16
        width, high = self.label + count * self.wide + 2, y + 4
        return self.frame(start, count, width, high, "".join(parts))

    def frame(self, start, count, width, high, rows):
        heads, grid = [], []
        for number in range(count):
            group = self.columns[start + number]
            x = self.label + number * self.wide
            said = self.given.said(group.key[0], group.key[0] - 1)
            told = f"<title>{escape(said[0])}</title>" if said else ""
            heads.append(f'<text class="colhead" data-l="{group.first}" x="{x + self.wide / 2:g}" y="14" text-anchor="middle">{told}{key_text(group.key)}</text>')
            grid.append(f"M{x} {TOP - 4}V{high - 4}")
        under = f'<path class="grid" d="{"".join(grid)}M{self.label + count * self.wide} {TOP - 4}V{high - 4}"/>'
        if self.unvouched is not None:
            column = self.column(self.unvouched) - start
            if column < count:
                x = self.label + max(column, 0) * self.wide
                under += f'<rect class="unsure" x="{x}" y="{TOP - 4}" width="{self.label + count * self.wide - x}" height="{high - TOP}"/>'
                if column >= 0:
                    under += f'<path class="rule" d="M{x - 2} {TOP - 6}V{high - 2}M{x + 2} {TOP - 6}V{high - 2}"/>'
        first, last = self.columns[start], self.columns[start + count - 1]
        title = f"Who has each record, {self.named(first)} to {self.named(last)}"
        return (f'<svg class="stave" role="img" aria-label="{escape(title)}" aria-describedby="ways" width="{width}" height="{high}" viewBox="0 0 {width} {high}" '
                f'data-x="{self.label}" data-w="{self.wide}" data-c="{" ".join(str(group.first) for group in self.columns[start:start + count])}">'
                f"<title>{escape(title)}</title>{under}{''.join(heads)}{rows}</svg>")

    def named(self, group):
        what = "turn" if self.read.kind == LOG else "line"
        if self.read.kind == MERGED:
            return f"machine {group.key[0]} turn {group.key[1]}"
        return f"{what} {group.key[0]}"

    def named_row(self, id):
        """A board's short name, and its barcode as far as there is room."""
        barcode = self.given.boards.get(id, "")
        return f"{self.short[id]} {barcode if len(barcode) < 13 else barcode[:12] + chr(0x2026)}".strip()

    def row(self, row, start, count, y, deeds):
        """A row of a panel, and how high it is."""
        first, last = self.numbers[start], self.numbers[start + count - 1]
        words = {}
        for group, word, line, why in deeds:
            text = line.rest[-1] if word == "mark" else f"sub {line.rest[-1]}" if word == "sub" else word
            words.setdefault(self.column(group) - start, []).append((text, line, why))
        stack = max([len(said) for said in words.values()] + [1])
        top = y + 4 + 10 * stack
        parts = [f'<g class="row" data-i="{row.id}"><text class="id" x="4" y="{top + 12}"><title>{row.id}</title>{escape(self.named_row(row.id))}</text>']
        for column, said in words.items():
            for number, (text, line, why) in enumerate(said):
                x, under = self.label + column * self.wide + 2, top - 3 - 10 * (len(said) - 1 - number)
                name, told = ("deedw bad", f"<title>{escape(why)}</title>") if why else ("deedw", "")
                plate = f'<rect class="badplate" x="{x - 1}" y="{under - 8.5}" width="{self.wide - 1}" height="10.5"/>' if why else ""
                parts.append(f'{plate}<text class="{name}" data-l="{line.number}" x="{x}" y="{under}">{told}{escape(text)}</text>')
        for stay in row.stays[max(bisect_right(self.begins[row.id], first) - 1, 0):bisect_right(self.begins[row.id], last)]:
            parts.append(self.bar(stay, start, count, top))
        parts.append("</g>")
        return "".join(parts), 10 * stack + 26

    def bar(self, stay, start, count, top):
        first = max(self.column(stay.begins) - start, 0)
        end = min(self.column(stay.ends) - start, count) if stay.ends is not None else count
        if end <= first:
            return ""
        x = self.label + first * self.wide
        if stay.standing == (GONE,) and stay.told is None:
            if self.column(stay.begins) < start:
                return ""
            if is_lost(stay, self.read.kind):
                return (f'<g class="lost1" data-l="{self.custody.groups[stay.begins].first}"><title>{escape(words_of(stay, self.read.kind))}</title>'
                        f'<rect class="bar alarm" x="{x + 0.5}" y="{top}" width="{self.wide + 4}" height="16"/><text class="bart onalarm" x="{x + 4}" y="{top + 11.5}">\u26a0 lost</text></g>')
            return f'<path class="end" d="M{x + 1} {top - 1}v18"/><text class="tr" x="{x + 5}" y="{top + 11}">{"not here" if self.read.kind == LOG else {"removed": "taken out", "by hand": "by hand", "replaced": "replaced"}.get(stay.how, "gone")}</text>'
        look, text, name = self.look(stay)
        wide = (end - first) * self.wide
        title = words_of(stay, self.read.kind, self.given.machines)
        line = self.custody.groups[stay.begins].first
        if wide > 2 * self.wide and is_alarm(stay):
            text = title
        spare = max(int((wide - 8) / 5.2), 4)
        text = text if len(text) <= spare else text[:spare - 1] + "\u2026"
        until = self.custody.groups[stay.ends - 1].last if stay.ends else 0
        return (f'<g class="stay" data-l="{line}" data-e="{until}"><title>{escape(title)}</title>'
                f'<rect {look} x="{x + 0.5}" y="{top}" width="{wide - 1}" height="16"/>'
                f'{self.plate(text, x, top) if name == "halo" else ""}<text class="bart {name}" x="{x + 4}" y="{top + 11.5}">{escape(text)}</text></g>')

    def plate(self, text, x, top):
        """What is under a text where the bar is striped."""
        return f'<rect class="plate" x="{x + 1.5}" y="{top + 2}" width="{min(6 * len(text) + 6, self.wide - 3)}" height="12" rx="2"/>'

    def in_words(self, names=None):
        """Each record's way, in words."""
        said = []
        for row in self.custody.rows.values():
            ways = [f"from {self.named(self.custody.groups[stay.begins])} {words_of(stay, self.read.kind, names)}" for stay in row.stays]
            said.append((row.id, "; ".join(ways) or "nothing but notes"))
        return said
