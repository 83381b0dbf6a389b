"""An order of the lines of several nodes' logs in which no message is heard before it was sent.

The logs have turns and no common clock. Each log keeps its own order; the n-th message that an end of a
connection heard is the n-th that the other end sent. Turns stay whole where they can: in a turn a node hears
before it sends.
"""
import re
from bisect import bisect_left
from dataclasses import dataclass, field
from heapq import heappop, heappush

from forms import LOG, Line, Reader, Refused, clean, matches
from links import connections_of, fits, pairs_of

MOST_LOGS = 64
TURN = re.compile(r"[0-9]{1,15}")


@dataclass
class Log:
    """A node's log: its name, its machine's place in the line, its lines, and their bytes."""
    name: str
    machine: int
    lines: list = field(default_factory=list)
    raw: list = field(default_factory=list)
    turns: list = field(default_factory=list)
    is_open: bool = False        # whether its last line has no end

    def where(self, line):
        return f"{self.name} line {line.number} ({line.text[:80]})"


@dataclass
class Before:
    """That a line of one log comes before a line of another, and why."""
    first: Line
    first_log: Log
    then: Line
    then_log: Log
    why: str


def read_log(name, machine, data):
    """The lines of a log; `Refused` where one has no turn in front, or a lesser one than the line before."""
    log, reader, before = Log(name, machine), Reader(LOG), 0
    log.is_open = bool(data) and not data.endswith(b"\n")
    pieces = data.split(b"\n")
    if pieces[-1] == b"":
        pieces.pop()
    for number, piece in enumerate(pieces, 1):
        piece = piece.removesuffix(b"\r")
        text = piece.decode("utf-8", "backslashreplace")
        turn, space, rest = text.partition(" ")
        shown = clean(text[:200])[0]
        if not space or not matches(TURN, turn):
            raise Refused(number, f"has no turn's number in front: {shown[:60]}", name)
        if int(turn) < before:
            raise Refused(number, f"is of turn {int(turn)}, after one of turn {before}: a log has the lines of one run", name)
        before = int(turn)
        line = Line(number, shown, (int(turn),))
        line.why = reader.words(line, rest)
        if line.why is not None:
            if line.why.startswith("another machine"):
                raise Refused(number, f"is of {line.why}: {shown[:60]}", name)
            line.word, line.side, line.rest = None, None, ()
        line.place = str(machine)
        log.lines.append(line)
        log.raw.append(piece)
        log.turns.append(before)
    return log


def mismatch(one, one_log, two, two_log):
    """Between which lines two ends can't be those of one connection."""
    for heard, hears, sent, sends in ((one.heard, one_log, two.sent, two_log), (two.heard, two_log, one.sent, one_log)):
        for number, line in enumerate(heard):
            if number >= len(sent):
                after = f", after {sends.where(sent[-1])}" if sent else ""
                return f"{hears.where(line)}: a message that {sends.name} doesn't send on that connection{after}"
            if line.word != "breach" and line.rest[-1] != sent[number].rest[-1]:
                return f"{hears.where(line)}: another message than the one that was sent then, {sends.where(sent[number])}"
    return None


def lonely(ends, ends_log, others, others_log, pairs, side):
    """Refuses an end on which something was heard and that no end of the other log fits."""
    paired = {id(pair[side]) for pair in pairs}
    for number, end in enumerate(ends):
        if id(end) in paired or not end.heard:
            continue
        if number < len(others) and not fits(*((end, others[number]) if side == 0 else (others[number], end))):
            found = mismatch(end, ends_log, others[number], others_log)
            if found is not None:
                raise Refused(None, found)
        raise Refused(None, f"{ends_log.where(end.heard[0])}: a message that {others_log.name} sends on no connection that fits")


def befores_of(above, below):
    """What the connections between two neighbours say of the order of their lines."""
    upper = connections_of(above.lines, str(above.machine), "out")
    lower = connections_of(below.lines, str(below.machine), "in")
    pairs = pairs_of(upper, lower)
    lonely(upper, above, lower, below, pairs, 0)
    lonely(lower, below, upper, above, pairs, 1)
    found = []
    for one, two in pairs:
        if two.begins is not None and two.begins.word == "connects":
            found.append(Before(two.begins, below, one.begins, above, "connects"))
        found += [Before(sent, below, heard, above, "sends") for sent, heard in zip(two.sent, one.heard)]
        found += [Before(sent, above, heard, below, "sends") for sent, heard in zip(one.sent, two.heard)]
    return found


def units_of(log, by_turn):
    """The first line of each part of a log that stays whole, counted from 0."""
    if not by_turn:
        return list(range(len(log.lines)))
    return [number for number in range(len(log.lines)) if number == 0 or log.turns[number] != log.turns[number - 1]]


class Ordering:
    """Puts the parts of the logs in order, or says where they can't be."""

    def __init__(self, logs, befores, by_turn):
        self.logs = logs
        self.starts = [units_of(log, by_turn) for log in logs]
        self.at = [0] * len(logs)
        self.place_of = {id(log): number for number, log in enumerate(logs)}
        self.waits = [dict() for _ in logs]      # by part: what has to come before it
        self.wakes = [dict() for _ in logs]      # by part: whose parts wait for it
        for before in befores:
            first, then = self.place_of[id(before.first_log)], self.place_of[id(before.then_log)]
            part, after = self.part(first, before.first), self.part(then, before.then)
            self.waits[then].setdefault(after, []).append((first, part, before))
            self.wakes[first].setdefault(part, set()).add(then)

    def part(self, log, line):
        starts = self.starts[log]
        number = bisect_left(starts, line.number)
        return number - 1

    def missing(self, log):
        """What the next part of a log still waits for."""
        for first, part, before in self.waits[log].get(self.at[log], ()):
            if self.at[first] <= part:
                return before
        return None

    def run(self):
        """The parts in order, as pairs of log and part; or None where there is no order."""
        order, heap, is_in = [], [], [False] * len(self.logs)

        def offer(log):
            if not is_in[log] and self.at[log] < len(self.starts[log]) and self.missing(log) is None:
                is_in[log] = True
                heappush(heap, (self.logs[log].turns[self.starts[log][self.at[log]]], log))

        for log in range(len(self.logs)):
            offer(log)
        while heap:
            _, log = heappop(heap)
            is_in[log] = False
            done = self.at[log]
            order.append((log, done))
            self.at[log] += 1
            offer(log)
            for other in self.wakes[log].get(done, ()):
                offer(other)
        whole = all(at == len(starts) for at, starts in zip(self.at, self.starts))
        return order if whole else None

    def circle(self):
        """Of logs that wait for one another: what each waits for, around."""
        log = next(number for number, at in enumerate(self.at) if at < len(self.starts[number]))
        seen, way = {}, []
        while log not in seen:
            seen[log] = len(way)
            before = self.missing(log)
            way.append(before)
            log = self.place_of[id(before.first_log)]
        return way[seen[log]:]


def merged(logs):
    """The lines of one merged log, as bytes; `Refused` where no order keeps what was sent before what was heard."""
    befores = []
    for above, below in zip(logs, logs[1:]):
        befores += befores_of(above, below)
    for by_turn in (True, False):
        ordering = Ordering(logs, befores, by_turn)
        order = ordering.run()
        if order is not None:
            break
    else:
        around = ordering.circle()
        said = "; ".join(f"{before.then_log.where(before.then)} comes after {before.first_log.where(before.first)}" for before in around)
        raise Refused(None, f"there is no order: {said}")
    made = []
    for log, part in order:
        starts = ordering.starts[log]
        end = starts[part + 1] if part + 1 < len(starts) else len(logs[log].raw)
        made += [b"%d %s\n" % (logs[log].machine, raw) for raw in logs[log].raw[starts[part]:end]]
    return made
