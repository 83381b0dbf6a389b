"""The lines of a report, of a merged log and of one node's log, as docs/PROFILE.md says them.

`read_text` takes the bytes of such a text and answers a `Text`: its kind and its lines, each with what it
says, or with the reason why it is no line of that kind. Nothing here is proved.
"""
import re
from dataclasses import dataclass, field

MOST_LINES = 100_000
MOST_SHOWN = 4_096
REPORT, MERGED, LOG = "report", "merged log", "log of one node"

PLACE = re.compile(r"(?:[1-9]|[1-5][0-9]|6[0-4])(?:\.[2-4])?")
NUMBER = re.compile(r"[0-9]{1,20}")
NODE_NUMBER = re.compile(r"[0-9]{1,10}")
NAME = re.compile(r"[A-Za-z_][A-Za-z0-9_.:-]*")
HEX = "[0-9a-fA-F]"
HYPHENATED = f"{HEX}{{8}}-{HEX}{{4}}-{HEX}{{4}}-{HEX}{{4}}-{HEX}{{12}}"
ID = re.compile(rf"(?i:urn:uuid:){HYPHENATED}|\{{{HYPHENATED}\}}|{HYPHENATED}|{HEX}{{32}}")
SIDES = ("in", "out")
EVENTS = {"in": ("Begun", "Full", "Back", "Taken"), "out": ("Begun", "Left", "Back", "Taken")}
QUALITIES = ("unknown", "good", "failed")
MOVES = ("begin", "left", "in", "back", "hand-in", "take")
EXIT_DEEDS = ("opens", "refuses", "leaves", "returns", "loses")
ENTRY_DEEDS = ("starts", "settles", "drops")
LEVELS = ("ready", "available", "failed")
SIGNALS = ("entry-available", "entry-failed", "exit-ready")
LANES = ("1", "2", "3", "4")

# what comes after the first word, in turn: m a machine, p a machine's place on a lane, l another lane of that machine,
# k a gap on a lane, s a side, e an event at that side, i an id, q a quality, n a number, o on or off, w a message,
# t the rest; another word is itself or its choices
FORMS = {
    "insert": "p i", "remove": "p i", "replace": "p i i", "mark": "p i q", "hold": "p s", "go": "p s",
    "level": ("p", LEVELS, "o"), "signals": ("p", SIGNALS, "o"), "connects": "p", "notices": "p s", "closes": "p s",
    "reads": "p s e", "hears": "p s w", "sends": "p s w", "breach": "p s t", "tells": ("m", ("arrived", "departed"), "i", "n"),
    "supervise": "m o", "asks": "m n", "answered": "m n t", "sub": "p i n", "drive": "p s o",
    **dict.fromkeys(EXIT_DEEDS + ENTRY_DEEDS, "k i"),
}
OF_REPORTS = {
    "machine": "m n", "bridge": "m n", "lanes": (LANES,), "shift": "p l i", "cut": "k", "spoils": "p s", "move": ("k", MOVES),
    "lie": "p s e", "unseen": "s p", "unvouched": "", "stop": "m", "with": "p i", "between": "k i", "gone": "i",
}


class Refused(Exception):
    """Why nothing is written, with the number of the line, and the file where there are several."""

    def __init__(self, line, why, file=None):
        super().__init__(f"{file} line {line}: {why}" if file else f"line {line}: {why}" if line else why)


@dataclass
class Line:
    """A line: its number in the text, what stood there, what it is of, and what it says."""
    number: int
    text: str
    group: tuple = None          # (script line,), (turn,) or (machine, turn)
    word: str = None             # the first word, or None where the line isn't known
    place: str = None            # the machine, as `2`, or `2.3` on its third lane
    gap: str = None              # the gap, by the machine above it
    side: str = None
    ids: tuple = ()
    rest: tuple = ()             # the words that are none of these
    why: str = None              # why it isn't known


@dataclass
class Text:
    kind: str
    lines: list
    count: int                   # how many lines the text has, drawn or not
    last: Line = None            # `end ..` or `refused ..` of a report
    cut_short: int = 0           # lines of which the end isn't shown
    strange: int = 0             # characters that no page can have, shown as others
    unvouched: int = None        # the number of the line from which on nobody vouches
    unknown: list = field(default_factory=list)


def id_of(word):
    """An id in any spelling, hyphenated and in lower case."""
    digits = re.sub("urn:uuid:|[^0-9a-f]", "", word.lower())
    return "-".join((digits[:8], digits[8:12], digits[12:16], digits[16:20], digits[20:]))


def machine_of(place):
    return int(place.partition(".")[0])


def lane_of(place):
    return int(place.partition(".")[2] or 1)


def beside(place, by):
    """The place so many machines further down, on the same lane; above the first one none."""
    number = machine_of(place) + by
    return None if number < 1 else re.sub("^[0-9]+", str(number), place)


def matches(pattern, word):
    return pattern.fullmatch(word) is not None


def is_message(words):
    """A message's name, and after it maybe its number, its id or `none`."""
    if not words or not matches(NAME, words[0]):
        return False
    if len(words) == 1:
        return True
    return len(words) == 2 and (matches(NUMBER, words[1]) or matches(ID, words[1]) or words[1] == "none")


class Reader:
    """Reads the words of lines of one kind."""

    def __init__(self, kind):
        self.kind = kind
        self.forms = FORMS if kind != REPORT else {**FORMS, **OF_REPORTS}
        if kind == REPORT:
            self.forms = {word: form for word, form in self.forms.items() if word != "drive"}
        self.own = None          # the number of the node whose log it is

    def machine(self, line, word, has_lane=True):
        if self.kind == REPORT:
            if not matches(PLACE, word) or "." in word and not has_lane:
                return "no machine"
            line.place = word
            return None
        if not matches(NODE_NUMBER, word):
            return "no machine"
        if self.kind == LOG:
            if self.own not in (None, word):
                return f"another machine than {self.own}"
            self.own = line.place = word
        return None

    def other_lane(self, line, word):
        if not matches(PLACE, word) or machine_of(word) != machine_of(line.place) or word == line.place:
            return f"no other lane of {machine_of(line.place)}"
        line.rest += (word,)
        return None

    def gap(self, line, word):
        if self.kind == REPORT:
            if not matches(PLACE, word) or machine_of(word) > 63:
                return "no gap"
            line.gap = word
            return None
        if word != ("out" if line.word in EXIT_DEEDS else "in"):
            return "the wrong side"
        line.side = word
        return None

    def one(self, line, kind, word):
        """Why the word isn't of this kind, or None; what it says goes to the line."""
        if kind in ("m", "p"):
            return self.machine(line, word, kind == "p")
        if kind == "l":
            return self.other_lane(line, word)
        if kind == "k":
            return self.gap(line, word)
        if kind == "i":
            line.ids += (id_of(word),) if matches(ID, word) else ()
            return None if matches(ID, word) else "no id"
        if kind == "s":
            line.side = word
            return None if word in SIDES else "no side"
        line.rest += (word,)
        good = {"n": lambda: matches(NUMBER, word), "q": lambda: word in QUALITIES, "o": lambda: word in ("on", "off"),
                "e": lambda: word in EVENTS.get(line.side, ())}
        is_good = good[kind]() if isinstance(kind, str) else word in kind
        return None if is_good else f"a word that isn't known here: {word[:40]}"

    def words(self, line, text):
        """What the words after the first say; answers why they don't, or None."""
        words = text.split(" ")
        if words[0] == "no:" or (words[0] == "refused:" and self.kind != REPORT):
            line.word, line.rest = words[0], (text[len(words[0]) + 1:],)
            return None if len(words) > 1 else "no reason"
        if words[0] == "show":
            return self.shown(line, words[1:])
        form = self.forms.get(words[0])
        if form is None:
            return f"an unknown word: {words[0][:40]}"
        line.word = words[0]
        kinds = form.split() if isinstance(form, str) else form
        rest = words[1:]
        for kind in kinds:
            if kind in ("t", "w"):
                line.rest += (" ".join(rest),)
                return None if kind == "t" or is_message(rest) else "no message"
            if not rest:
                return "too few words"
            why = self.one(line, kind, rest.pop(0))
            if why is not None:
                return why
        return "too many words" if rest else None

    def shown(self, line, words):
        """What `show` writes: a kept board, or one between two machines."""
        line.word = "show"
        if len(words) == 3:
            why = self.machine(line, words[0]) or self.one(line, "i", words[1])
            return why or self.one(line, "q", words[2])
        if len(words) != 2:
            return "no form of show"
        if self.kind != REPORT:
            return self.one(line, "s", words[0]) or self.one(line, "i", words[1])
        above, _, below = words[0].partition("-")
        if not matches(PLACE, above) or beside(above, 1) != below:
            return "no gap"
        line.gap = above
        return self.one(line, "i", words[1])


def clean(text):
    """A line that a page can have: what XML has no character for is shown by another; how many were."""
    if text.isprintable():
        return text, 0
    shown, strange = [], 0
    for character in text:
        code = ord(character)
        if code < 0x20 or code == 0x7F:
            shown.append(chr(0x2400 + code) if code < 0x20 else "\u2421")
        elif 0x80 <= code < 0xA0 or 0xD800 <= code < 0xE000 or code & 0xFFFE == 0xFFFE \
                or 0x202A <= code <= 0x202E or 0x2066 <= code <= 0x2069:
            shown.append(f"\\u{code:04x}")
        else:
            shown.append(character)
            continue
        strange += 1
    return "".join(shown), strange


def kind_of(lines):
    """What kind of text it is: by the first line that has a number in front."""
    for text in lines:
        words = text.split(" ")
        if not matches(NUMBER, words[0]) or len(words) < 2:
            continue
        if matches(NUMBER, words[1]):
            return MERGED
        break
    reader = Reader(LOG)
    for text in lines:
        first, _, rest = text.partition(" ")
        if first == "end" and rest.startswith("lines=") or first == "refused":
            return REPORT
        word = rest.partition(" ")[0]
        if word in OF_REPORTS:
            return REPORT
        if word in EXIT_DEEDS + ENTRY_DEEDS or word.startswith("refused:") or word == "drive":
            line = Line(0, text)
            return LOG if reader.words(line, rest) is None else REPORT
    return LOG


def read_line(reader, line, text, before):
    """Reads one line; answers what it is of, or that of the line before."""
    if reader.kind == MERGED:
        parts = text.split(" ", 2)
        if len(parts) < 3 or not matches(PLACE, parts[0]) or "." in parts[0] or not re.fullmatch("[0-9]{1,15}", parts[1]):
            line.why = "isn't `m t text`"
            return before
        line.group, line.place = (int(parts[0]), int(parts[1])), parts[0]
        rest = parts[2]
    else:
        number, space, rest = text.partition(" ")
        if not space or not matches(NUMBER, number):
            line.why = "has no number in front"
            return before
        if before is not None and int(number) < before[0]:
            line.why = "has a number that is less than one before"
            return before
        line.group = (int(number),)
    place = line.place
    line.why = reader.words(line, rest)
    if line.why is not None:
        line.word, line.gap, line.side, line.ids, line.rest = None, None, None, (), ()
        line.place = place
    elif line.word in EXIT_DEEDS + ENTRY_DEEDS and reader.kind == REPORT:
        line.side = "out" if line.word in EXIT_DEEDS else "in"
        line.place = line.gap if line.side == "out" else beside(line.gap, 1)
    return line.group


def end_of(text):
    """Whether this is the last line of a report."""
    ended = r"end lines=[0-9]+ boards=[0-9]+ opened=[0-9]+ settled=[0-9]+( unvouched=[0-9]+)?"
    return re.fullmatch(ended, text) or re.fullmatch(r"refused [0-9]+: .+", text)


def split(data):
    """The lines of the bytes, the first `MOST_LINES` as text, and how many there are."""
    if data[-1:] != b"\n":
        data += b"\n"
    count = data.count(b"\n")
    pieces = data.split(b"\n", MOST_LINES)
    lines = [piece.removesuffix(b"\r").decode("utf-8", "backslashreplace") for piece in pieces[:min(count, MOST_LINES)]]
    return lines, count


def read_text(data, kind=None):
    """Reads the bytes of a report, a merged log or a log; `Refused` where no line of it is one of these."""
    if not data.strip():
        raise Refused(1, "there is nothing to draw")
    texts, count = split(data)
    kind = kind or kind_of(texts)
    reader, read, before = Reader(kind), Text(kind, [], count), None
    for number, text in enumerate(texts, 1):
        shown, strange = clean(text[:MOST_SHOWN])
        read.strange += strange
        if len(text) > MOST_SHOWN:
            read.cut_short += 1
            shown += f" .. and {len(text) - MOST_SHOWN} characters more"
        line = Line(number, shown)
        read.lines.append(line)
        if kind == REPORT and read.last is None and end_of(shown):
            line.word, read.last = "end", line
        elif read.last is not None:
            line.why = "comes after the last line of the report"
        elif len(text) > MOST_SHOWN:
            line.why = f"has more than {MOST_SHOWN} characters"
        else:
            before = read_line(reader, line, shown, before)
        if line.why is not None:
            read.unknown.append(line)
        if line.word == "unvouched" and read.unvouched is None:
            read.unvouched = number
    if all(line.word is None for line in read.lines):
        why = read.lines[0].why
        raise Refused(1, f"no line is one of a report, of a merged log or of a log; this one {why if why.startswith(('has', 'is')) else 'has ' + why}")
    if kind == LOG:
        for line in read.lines:
            line.place = (reader.own or "1") if line.word is not None else None
    return read
