"""What of a text can be folded: runs of lines in which boards are handed over and nothing disturbs them.

A span is a handover: from the first deed of it at a gap to the last. It is disturbed where a connection ends, a message is lost
or refused, a hand moves the board, or the handover has another end than the usual one.
"""
from dataclasses import dataclass, field

import links as meanings
from custody import gap_of
from forms import EXIT_DEEDS, beside
from links import link_of

LEAST_LINES, LEAST_RUN, ROWS = 120, 8, 36
QUIET = {"machine", "bridge", "lanes", "insert", "hears", "sends", "reads", "opens", "leaves", "starts", "settles", "with", "between", "connects",
         "tells", "level", "signals", "drive", "move", "go", "mark", "sub", "supervise", "asks", "answered", "shift", "show"}
DEEDS = ("starts", "opens", "leaves", "settles", "returns", "loses", "drops", "refuses")
# what a line that disturbs is called in a few words
CALLED = {"cut": "cut", "notices": "closed", "closes": "closed", "breach": "breach", "spoils": "spoiled", "returns": "back", "loses": "let go at the exit",
          "drops": "dropped", "refuses": "refused", "lie": "false sensor", "unseen": "unseen", "stop": "power lost"}
MOVED = {"hand-in": "pushed in by hand", "take": "taken out by hand", "back": "moved back"}


@dataclass
class Span:
    """A handover at a gap: the lines from its first deed to its last, and what disturbed it."""
    gap: str
    id: str
    first: int
    last: int
    why: dict = field(default_factory=dict)      # by word: the first line
    ends: set = field(default_factory=set)

    def is_quiet(self):
        return not self.why and {"leaves", "settles"} <= self.ends


@dataclass
class Run:
    """Lines that can be folded, from one to another, and how many handovers and new boards are among them."""
    first: int
    last: int
    handed: int = 0
    ids: dict = field(default_factory=dict)


def is_usual(what):
    """Whether a message is one of an undisturbed handover."""
    name, _, state = what.partition(" ")
    if name in ("StopTransport", "TransportFinished"):
        return state == "3"
    return name not in ("Notification", "RevokeBoardAvailable")


def disturbs(line, lost):
    """What of a line disturbs, in a few words; or None."""
    if line.word == "move":
        return MOVED.get(line.rest[0])
    if line.word in CALLED:
        return CALLED[line.word]
    if line.number in lost:
        return "message lost"
    if line.word == "sends" and not is_usual(line.rest[-1]):
        return line.rest[-1].partition(" ")[0]
    return None


def link_of_line(line):
    """The gap or the link that a line is about, by the machine above it; or None."""
    if line.gap:
        return line.gap
    return link_of(line.place, line.side) if line.side and line.place else None


class Folds:
    """The handovers of a text, and the runs of lines that can be folded."""

    def __init__(self, read, messages):
        self.read, self.spans, self.open = read, [], {}
        self.lost = {message.sent.number for message in messages if message.sent is not None
                     and message.fate in (meanings.CUT, meanings.VANISHED, meanings.UNSENT, meanings.REFUSED)}
        for line in read.lines:
            if line.word is not None:
                self.take(line)
        self.runs = self.read_runs() if len(read.lines) > LEAST_LINES else []

    def take(self, line):
        link, why = link_of_line(line), disturbs(line, self.lost)
        for span in self.open.values() if line.word == "stop" else filter(None, [self.open.get(link)]):
            if why is not None:
                span.why.setdefault(why, line.number)
        if line.word in DEEDS and line.ids:
            self.deed(line, gap_of(line))
        elif link in self.open and line.word == "move":
            self.open[link].last = line.number

    def deed(self, line, gap):
        span = self.open.get(gap)
        if span is None or span.id != line.ids[0]:
            span = self.open[gap] = Span(gap, line.ids[0], line.number, line.number)
            self.spans.append(span)
            if line.word in CALLED:
                span.why.setdefault(CALLED[line.word], line.number)
        span.last = line.number
        span.ends.add(line.word)
        is_out, is_in = span.ends & {"leaves", "returns", "loses", "refuses"}, span.ends & {"settles", "drops"}
        if is_out and is_in or line.word in EXIT_DEEDS and beside(gap, 1) is None:
            del self.open[gap]

    def read_runs(self):
        loud = set(self.lost)
        for span in self.spans:
            if not span.is_quiet():
                loud.update(range(span.first, span.last + 1))
        handed = {span.last: span for span in self.spans if span.is_quiet()}
        runs, now = [], None
        for line in self.read.lines:
            is_quiet = line.word in QUIET and line.number not in loud and disturbs(line, self.lost) is None and line.number != self.read.unvouched
            if not is_quiet:
                now = None
                continue
            if now is None:
                now = Run(line.number, line.number)
                runs.append(now)
            now.last = line.number
            if line.number in handed:
                now.handed += 1
            now.ids.update(dict.fromkeys(line.ids))
        return [run for run in runs if run.last - run.first + 1 >= LEAST_RUN]

    def pieces(self):
        """The text in pieces: how many lines come before each, and the run to which it belongs, or None."""
        made, at = [], 0
        for run in self.runs + [None]:
            begins = run.first - 1 if run else len(self.read.lines)
            made += [(start, None) for start in range(at, begins, ROWS)]
            if run is not None:
                made += [(start, run) for start in range(begins, run.last, ROWS)]
                at = run.last
        return made or [(0, None)]
