"""What became of each message, and which connection each end has: read off the lines of a text.

A report tells enough to say it by the rules of docs/PROFILE.md, 'The link'. In a merged log the ends of a
connection are found by what each heard and sent. One node's log has one end alone.
"""
from collections import deque
from dataclasses import dataclass

from forms import LOG, REPORT, beside

ARRIVED, REFUSED, CUT, VANISHED, UNSENT, WAITING, BACKWARD, ALONE = (
    "arrived", "refused", "cut", "vanished", "unsent", "waiting", "backward", "alone")


@dataclass
class Message:
    """A message on its link, which is named by the machine above it; `sent` and `heard` are lines."""
    link: str
    to: str                      # the side that it flows to: `in` of the machine below, `out` of the one above
    what: str
    sent: object = None
    heard: object = None
    fate: str = WAITING
    at: object = None            # the line at which it was lost
    is_spoiled: bool = False


@dataclass
class Bar:
    """A connection as one end has it: from a line on, to a line or to the end."""
    place: str
    side: str
    begins: object
    ends: object = None


def link_of(place, side):
    """A side's link, by the machine above it; none above the first machine."""
    return place if side == "out" else beside(place, -1)


def other(side):
    return "in" if side == "out" else "out"


class ReportLinks:
    """The links of a report, line by line."""

    def __init__(self):
        self.messages, self.bars, self.bar_at = [], [], {}
        self.flowing, self.stands, self.second = {}, set(), {}
        self.spoiled = {}        # a side to which a NUL byte flows with no message before it

    def queue(self, link, to):
        return self.flowing.setdefault((link, to), deque())

    def begin(self, place, side, line):
        if (place, side) in self.bar_at:
            self.end(place, side, line)
        self.bar_at[place, side] = bar = Bar(place, side, line)
        self.bars.append(bar)

    def end(self, place, side, line):
        bar = self.bar_at.pop((place, side), None)
        if bar is None:          # the text doesn't tell when it began
            bar = Bar(place, side, None)
            self.bars.append(bar)
        bar.ends = line

    def lose(self, link, to, fate, line):
        for message in self.queue(link, to):
            message.fate, message.at = fate, line
        self.queue(link, to).clear()
        self.spoiled.pop((link, to), None)

    def connects(self, line):
        above = beside(line.place, -1)
        self.begin(line.place, "in", line)
        if above is None:
            return
        if (above, "out") in self.bar_at:
            self.stands.discard(above)
            self.second[above] = line.group
        else:
            self.begin(above, "out", line)
            self.stands.add(above)

    def sends(self, line):
        link, to = link_of(line.place, line.side), other(line.side)
        message = Message(link, to, line.rest[-1], sent=line)
        self.messages.append(message)
        is_answer = line.rest[-1] == "Notification 2" and line.side == "out" and self.second.get(link) == line.group
        if link in self.stands or is_answer:
            message.is_spoiled = self.spoiled.pop((link, to), False)
            self.queue(link, to).append(message)
        else:
            message.fate, message.at = UNSENT, line

    def hears(self, line):
        link = link_of(line.place, line.side)
        queue = self.queue(link, line.side)
        is_breach = line.word == "breach"
        if queue and (is_breach or queue[0].what == line.rest[-1]):
            message = queue.popleft()
        else:
            message = Message(link, line.side, line.rest[-1])
            self.messages.append(message)
        message.heard, message.fate = line, REFUSED if is_breach else ARRIVED

    breach = hears

    def closes(self, line):
        link = link_of(line.place, line.side)
        self.stands.discard(link)
        self.lose(link, line.side, VANISHED, line)
        self.end(line.place, line.side, line)

    notices = closes

    def cut(self, line):
        self.stands.discard(line.gap)
        self.lose(line.gap, "in", CUT, line)
        self.lose(line.gap, "out", CUT, line)

    def spoils(self, line):
        link = link_of(line.place, line.side)
        queue = self.queue(link, line.side)
        if queue:
            queue[0].is_spoiled = True
        else:
            self.spoiled[link, line.side] = True

    def run(self, lines):
        for line in lines:
            doer = {"connects": self.connects, "sends": self.sends, "hears": self.hears, "breach": self.breach,
                    "closes": self.closes, "notices": self.notices, "cut": self.cut, "spoils": self.spoils}.get(line.word)
            if doer is not None:
                doer(line)
        return self.messages, self.bars


@dataclass
class Connection:
    """A connection as one end's log has it: what this end sent and heard on it, in order."""
    place: str
    side: str
    begins: object
    sent: list
    heard: list
    ends: object = None
    is_second: bool = False


def connections_of(lines, place, side):
    """The connections of one side of a machine, in the order of its log."""
    made, now = [], None
    for line in lines:
        if line.place != place or line.side != side and line.word != "connects":
            continue
        if line.word == "connects":
            if side == "in":
                if now is not None:      # a log that doesn't tell how that one ended
                    now.ends = line
                now = Connection(place, side, line, [], [])
                made.append(now)
        elif line.word == "sends" and side == "out" and line.rest[-1] == "Notification 2":
            if now is None:      # who refuses a second connection has a first one, of which nothing came yet
                now = Connection(place, side, line, [], [])
                made.append(now)
            made.append(Connection(place, side, line, [line], [], line, True))
        elif line.word in ("sends", "hears", "breach", "closes", "notices"):
            if now is None:      # the upstream end's log doesn't tell when a connection begins
                now = Connection(place, side, line, [], [])
                made.append(now)
            if line.word == "sends":
                now.sent.append(line)
            elif line.word in ("hears", "breach"):
                now.heard.append(line)
            else:
                now.ends, now = line, None
    return made


def is_front(heard, sent):
    """Whether what was heard is a front of what was sent; a breach is of whatever was sent."""
    return len(heard) <= len(sent) and all(
        one.word == "breach" or one.rest[-1] == other_one.rest[-1] for one, other_one in zip(heard, sent))


def fits(above, below):
    """Whether both may be ends of one connection."""
    return is_front(above.heard, below.sent) and is_front(below.heard, above.sent)


def pairs_of(above, below, most=300_000):
    """The ends of connections that belong together, in order, as many as can; and those that fit nowhere."""
    if len(above) * len(below) > most:
        return pairs_in_turn(above, below)
    wide = len(below) + 1
    # the best count of connections in which something was heard, and of all, from (i, j) on
    best = [(0, 0)] * ((len(above) + 1) * wide)
    weight = lambda one, two: (bool(one.heard) + bool(two.heard), 1)
    for i in range(len(above) - 1, -1, -1):
        for j in range(len(below) - 1, -1, -1):
            found = max(best[(i + 1) * wide + j], best[i * wide + j + 1])
            if fits(above[i], below[j]):
                by, after = weight(above[i], below[j]), best[(i + 1) * wide + j + 1]
                found = max(found, (by[0] + after[0], by[1] + after[1]))
            best[i * wide + j] = found
    pairs, i, j = [], 0, 0
    while i < len(above) and j < len(below):
        by, after = weight(above[i], below[j]), best[(i + 1) * wide + j + 1]
        if fits(above[i], below[j]) and (by[0] + after[0], by[1] + after[1]) == best[i * wide + j]:
            pairs.append((above[i], below[j]))
            i, j = i + 1, j + 1
        elif best[(i + 1) * wide + j] == best[i * wide + j]:
            i += 1
        else:
            j += 1
    return pairs


def pairs_in_turn(above, below):
    """As `pairs_of`, each with the first that fits: for very many connections."""
    pairs, start = [], 0
    for one in above:
        for j in range(start, len(below)):
            if fits(one, below[j]):
                pairs.append((one, below[j]))
                start = j + 1
                break
    return pairs


def place_order(place):
    number, _, lane = place.partition(".")
    return int(lane or 1), int(number)


def messages_between(link, sender, receiver, to):
    """The messages of one direction of a connection; an end that isn't there is None."""
    sent = sender.sent if sender else []
    heard = receiver.heard if receiver else []
    for number in range(max(len(sent), len(heard))):
        one = sent[number] if number < len(sent) else None
        two = heard[number] if number < len(heard) else None
        message = Message(link, to, (one or two).rest[-1], sent=one, heard=two)
        if one and two:
            is_backward = two.number < one.number
            message.fate = BACKWARD if is_backward else REFUSED if two.word == "breach" else ARRIVED
        elif two:
            message.fate = REFUSED if two.word == "breach" else ARRIVED
        elif receiver is None:
            message.fate = ALONE
        elif receiver.ends:
            is_late = receiver.ends.number < one.number
            message.fate, message.at = UNSENT if is_late else VANISHED, receiver.ends
        yield message


def merged_links(lines):
    """Messages and bars of a merged log."""
    known = [line for line in lines if line.word is not None and line.place is not None]
    by_place = {}
    for line in known:
        by_place.setdefault(line.place, []).append(line)
    places = sorted(by_place, key=place_order)
    messages, bars = [], []
    for place in places:
        below = beside(place, 1)
        upper = connections_of(by_place[place], place, "out")
        lower = connections_of(by_place[below], below, "in") if below in by_place else []
        if place_order(place)[1] == 1 or beside(place, -1) not in by_place:
            lonely = connections_of(by_place[place], place, "in")
            bars += [Bar(place, "in", one.begins, one.ends) for one in lonely]
            for one in lonely:
                messages += messages_between(beside(place, -1), None, one, "in")
                messages += messages_between(beside(place, -1), one, None, "out")
        pairs = pairs_of(upper, lower)
        partner = {id(one): two for one, two in pairs}
        taken = {id(two) for _, two in pairs}
        for one in upper:
            two = partner.get(id(one))
            messages += messages_between(place, one, two, "in")
            messages += messages_between(place, two, one, "out")
            if not one.is_second:
                bars.append(Bar(place, "out", one.begins, one.ends))
        for two in lower:
            bars.append(Bar(below, "in", two.begins, two.ends))
            if id(two) not in taken:
                messages += messages_between(place, None, two, "in")
                messages += messages_between(place, two, None, "out")
    return messages, bars


def links_of(read):
    """The messages and the connections of a text that was read."""
    if read.kind == REPORT:
        messages, bars = ReportLinks().run(read.lines)
    elif read.kind == LOG:
        messages, bars = [], []
        place = next((line.place for line in read.lines if line.place), None)
        for side in ("in", "out"):
            link = link_of(place, side) if place else None
            for one in connections_of(read.lines, place, side):
                messages += messages_between(link, None, one, side)
                messages += messages_between(link, one, None, other(side))
                if not one.is_second:
                    bars.append(Bar(place, side, one.begins, one.ends))
    else:
        messages, bars = merged_links(read.lines)
    first = lambda message: min(line.number for line in (message.sent, message.heard) if line)
    return sorted(messages, key=first), bars
