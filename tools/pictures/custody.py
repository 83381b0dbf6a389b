"""Who has each board's record, line by line: the marks that the deeds of a text leave, and what it tells of standings.

docs/PROFILE.md, 'Standings and the ledger', has the rules. A group is what is done at once: the lines of one line of
the script, or of one turn. What is drawn of a record is what holds after a group.
"""
from dataclasses import dataclass, field

from forms import LOG, MERGED, REPORT, beside, machine_of

KEEPS, OUT, IN = "keeps", "outlet", "intake"
REMOVED, REPLACED, BY_HAND, LOST = "removed", "replaced", "by hand", "lost"
WITH, BETWEEN, NONE, GONE = "with", "between", "no standing", "gone"
DEEDS = ("insert", "remove", "replace", "shift", "opens", "returns", "leaves", "loses", "starts", "settles", "drops")
NOTES = ("mark", "sub", "refuses")


@dataclass
class Group:
    """The lines of one line of the script or of one turn, and its place among the groups."""
    number: int
    key: tuple
    first: int
    last: int
    is_touched: bool = False     # whether it does something to a record


@dataclass
class Stay:
    """From a group on: the marks of an id, and the standing that is drawn."""
    begins: int
    marks: frozenset
    standing: tuple
    told: tuple = None           # what the report tells, where it isn't what the deeds give
    how: str = None              # how the last mark went, where none is left
    ends: int = None             # the first group where it is so no more


@dataclass
class Row:
    """A board's record over the text."""
    id: str
    stays: list = field(default_factory=list)
    deeds: list = field(default_factory=list)    # (group, word, line)
    alarms: list = field(default_factory=list)   # (group, why, line)


def standing_of(marks):
    """The standing that marks give."""
    if not marks:
        return (GONE,)
    keepers = {place for kind, place in marks if kind == KEEPS}
    if len(keepers) == 1 and len(marks) == 1:
        return (WITH, next(iter(keepers)))
    gaps = {place if kind == OUT else beside(place, -1) for kind, place in marks if kind != KEEPS}
    if len(gaps) == 1:
        gap = next(iter(gaps))
        if keepers <= {gap}:
            return (BETWEEN, gap)
    return (NONE,)


def told_of(line):
    """The standing that a line of a report tells."""
    if line.word == "with":
        return (WITH, line.place)
    return (BETWEEN, line.gap) if line.word == "between" else (GONE,)


def groups_of(read):
    """The longest runs of lines of one script line or turn."""
    groups, now = [], None
    for line in read.lines:
        if line.group is None:
            now = None
        elif now is not None and now.key == line.group:
            now.last = line.number
        else:
            now = Group(len(groups), line.group, line.number, line.number)
            groups.append(now)
    return groups


class Ledger:
    """The marks of each id, deed by deed."""

    def __init__(self, kind):
        self.kind, self.marks, self.seen = kind, {}, set()

    def take(self, id, mark):
        marks = self.marks.setdefault(id, set())
        if mark in marks:
            marks.discard(mark)
            return None
        return f"finds no mark of it: {mark[0]} {mark[1]}"

    def add(self, id, mark, is_new=False):
        marks = self.marks.setdefault(id, set())
        why = "names an id that was seen before" if is_new and id in self.seen else None
        why = why or (f"finds its mark already: {mark[0]} {mark[1]}" if mark in marks else None)
        marks.add(mark)
        return why

    def do(self, line):
        """Does the deed of a line; answers for each id that it touches why it isn't legal, or None."""
        word, at, ids = line.word, line.place, line.ids
        changes = {
            "insert": lambda id: [self.add(id, (KEEPS, at), True)],
            "remove": lambda id: [self.take(id, (KEEPS, at))],
            "shift": lambda id: [self.take(id, (KEEPS, at)), self.add(id, (KEEPS, line.rest[0]))],
            "opens": lambda id: [self.take(id, (KEEPS, at)), self.add(id, (OUT, at))],
            "returns": lambda id: [self.take(id, (OUT, at)), self.add(id, (KEEPS, at))],
            "leaves": lambda id: [self.take(id, (OUT, at))],
            "loses": lambda id: [self.take(id, (OUT, at))],
            "starts": lambda id: [self.add(id, (IN, at))],
            "settles": lambda id: [self.take(id, (IN, at)), self.add(id, (KEEPS, at))],
            "drops": lambda id: [self.take(id, (IN, at))],
        }
        if word == "replace":
            old, new = ids
            done = [(old, self.take(old, (KEEPS, at))), (new, self.add(new, (KEEPS, at), True))]
        else:
            done = [(ids[0], next((why for why in changes[word](ids[0]) if why), None))]
        self.seen.update(ids)
        if self.kind == LOG:     # what happened before the log began, or at a neighbour, it doesn't tell
            done = [(id, why if why and why.startswith("names") else None) for id, why in done]
        return done


def gap_of(line):
    """The gap of a deed or of a sensor's event, by the machine above it."""
    return line.gap or (line.place if line.side == "out" else beside(line.place, -1))


class Hands:
    """Whether the board in a gap was taken out by hand since its handover began: by a move, or as a sensor saw."""

    def __init__(self):
        self.taken = set()

    def do(self, line):
        if line.word in ("starts", "opens") or line.word == "move" and line.rest[0] == "begin":
            self.taken.discard(gap_of(line))
        elif line.word == "move" and line.rest[0] == "take" or line.word == "reads" and line.rest[0] == "Taken":
            self.taken.add(gap_of(line))

    def how(self, line):
        """How a record went, by the deed that took its last mark."""
        if line.word in ("drops", "loses"):
            return BY_HAND if gap_of(line) in self.taken else LOST
        return REPLACED if line.word == "replace" else REMOVED


class Custody:
    """The rows of a text, in the order in which its ids come up."""

    def __init__(self, read):
        self.groups, self.rows, self.hands = groups_of(read), {}, Hands()
        self.ledger, self.told = Ledger(read.kind), {}
        self.differing = []      # groups at which what is told isn't what the deeds give
        is_whole = read.kind != REPORT or read.last is not None
        for group in self.groups:
            is_end = group is self.groups[-1] and not is_whole
            self.do_group(read, group, is_end)
        for row in self.rows.values():
            for stay, after in zip(row.stays, row.stays[1:]):
                stay.ends = after.begins
            if row.stays:
                row.stays[-1].ends = len(self.groups)

    def row(self, id):
        return self.rows.setdefault(id, Row(id))

    def do_group(self, read, group, is_end):
        touched = {}
        for number in range(group.first, group.last + 1):
            line = read.lines[number - 1]
            self.hands.do(line)
            if line.word in DEEDS:
                for id, why in self.ledger.do(line):
                    touched[id] = True
                    self.row(id).deeds.append((group.number, line.word, line))
                    if why is not None:
                        self.row(id).alarms.append((group.number, f"{line.word}: {why}", line))
            elif line.word in NOTES:
                self.row(line.ids[0]).deeds.append((group.number, line.word, line))
                group.is_touched = True
            elif line.word in ("with", "between", "gone") and read.kind == REPORT:
                self.told[line.ids[0]] = told_of(line)
                touched[line.ids[0]] = True
        for id in touched:
            group.is_touched = True
            self.stay(id, group, read.kind == REPORT and not is_end)

    def stay(self, id, group, is_told):
        """The stay of an id from this group on, where it is another than before."""
        row, marks = self.row(id), frozenset(self.ledger.marks.get(id, ()))
        standing, told = standing_of(marks), None
        if is_told and standing != (NONE,) and self.told.get(id, (GONE,)) != standing:
            told = self.told.get(id, (GONE,))
            self.differing.append(group.number)
        if row.stays and (row.stays[-1].marks, row.stays[-1].standing, row.stays[-1].told) == (marks, standing, told):
            return
        last = next((line for number, word, line in reversed(row.deeds) if number == group.number and word in DEEDS), None)
        how = self.hands.how(last) if standing == (GONE,) and last is not None else None
        row.stays.append(Stay(group.number, marks, standing, told, how=how))


def is_alarm(stay):
    """Whether a stay has no standing, or two: none by its marks, or another than the report tells."""
    return stay.standing == (NONE,) or stay.told is not None


def is_lost(stay, kind=REPORT):
    """Whether a record went by `drops` or `loses` and no hand took its board. One node's log doesn't tell."""
    return stay.how == LOST and stay.told is None and kind != LOG


def line_of_loss(row, stay):
    """The line at which a record was dropped or let go, and so lost."""
    return next(line.number for group, word, line in reversed(row.deeds) if group == stay.begins and word in ("drops", "loses"))


def line_of_alarm(group, kind):
    """The line that names a bad standing: in a merged log that which `line check` names, the last of its turn."""
    return group.last if kind == MERGED else group.first


def columns_of(custody, read, most=72):
    """The groups that the chart has a column for: each, or where they are many those that do something to a record."""
    if len(custody.groups) <= most:
        return custody.groups
    lies = {group.number for group in custody.groups
            if read.unvouched is not None and group.first <= read.unvouched <= group.last}
    chosen = [group for group in custody.groups if group.is_touched or group.number in lies]
    return chosen or custody.groups[:1]


WENT = {REMOVED: "taken out", REPLACED: "replaced by another", BY_HAND: "taken out of the gap by hand",
        LOST: "LOST: no machine has its record any more, and no hand took the board"}


def words_of(stay, kind=REPORT, names=None):
    """A stay in words; `names` are those of machines, by number."""
    named = lambda place: place + (f" ({names[machine_of(place)]})" if names and machine_of(place) in names else "")
    who = {KEEPS: "machine {} keeps it", OUT: "the outlet of {} holds it", IN: "the intake of {} holds it"}
    marks = ", ".join(who[mark].format(place) for mark, place in sorted(stay.marks, key=lambda it: (it[1], it[0])))
    if stay.standing[0] == WITH:
        said = f"with {named(stay.standing[1])}"
    elif stay.standing[0] == BETWEEN and kind == LOG:
        said = f"in a handover ({marks})"
    elif stay.standing[0] == BETWEEN:
        gap = stay.standing[1]
        said = f"between {named(gap)} and {named(beside(gap, 1))} ({marks})" if gap else f"coming in ({marks})"
    elif stay.standing[0] == GONE:
        said = "not here" if kind == LOG else "gone: " + WENT[stay.how] if stay.how else "gone"
    else:
        said = f"NO STANDING: {marks}"
    if stay.told is not None:
        said += f"; but the report tells: {' '.join(str(word) for word in stay.told)}"
    return said
