"""What to do about a `no:` and a `refused` of a report: the rows of the table in docs/guide/refusals.md.

The rows are in rows.txt, and `bin/test-told` compares them with the page. A `Watch` takes a report as it comes and
keeps what there is to say of it.
"""
import os
import re

from forms import read_forms, why_said

ROWS = os.path.join(os.path.dirname(os.path.abspath(__file__)), "rows.txt")
NO_LINE = re.compile(rb"^([0-9]+) no: (.*)$", re.M)
REFUSED = re.compile(rb"refused ([0-9]+): (.+)")
MOST_QUOTED = 60
MOST_REASONS = 6


def read_rows(path=ROWS):
    """By kind, `refused` or `no`, and by text: what it means, and what to do."""
    made = {"refused": {}, "no": {}}
    with open(path, encoding="utf-8") as file:
        for row in file.read().splitlines():
            cells = [cell.strip() for cell in row.strip("|").split("|")]
            kind = "refused" if len(cells) == 3 else "no"
            for text in re.findall("`([^`]+)`", cells[0]):
                made[kind][text] = " ".join(cell for cell in cells[-2:] if cell)
    return made


class Watch:
    """Takes a report piece by piece."""

    def __init__(self):
        self.count, self.first, self.reasons, self.tail, self.last, self.end = 0, None, {}, b"", 0, b""

    def take(self, piece):
        text = self.tail + piece
        cut = text.rfind(b"\n") + 1
        whole, self.tail = text[:cut], text[cut:]
        if b" no: " in whole:
            for number, why in NO_LINE.findall(whole):
                self.no(int(number), why.decode("latin-1").removesuffix("\r"))
        if whole:
            self.end = whole[whole.rfind(b"\n", 0, -1) + 1:-1]

    def no(self, number, why):
        """A line of the script is answered `no:`; a `stop`, which does several, counts once."""
        self.count += number != self.last
        self.last = number
        self.first = self.first or (number, why)
        key = "answered w" if why.startswith("answered ") else why
        self.reasons[key] = self.reasons.get(key, 0) + 1

    def refused(self):
        """The number of the line that is refused, and the text; or None."""
        found = REFUSED.fullmatch(self.end or self.tail)
        return (int(found.group(1)), found.group(2).decode("latin-1")) if found else None


def quoted(line):
    """A line of a script, as it can be shown."""
    text = line.removesuffix(b"\n").removesuffix(b"\r").decode("utf-8", "backslashreplace").strip()
    shown = "".join(it if it.isprintable() else "\ufffd" for it in text[:MOST_QUOTED])
    return f"`{shown}{'..' if len(text) > MOST_QUOTED else ''}`"


def where(name, number):
    return f"{name}:{number}" if name else f"line {number} of the script"


def said_of(watch, line_of, name=None, rows=None):
    """What is said of a report, line by line; `line_of` answers a line of its script, by its number, or None."""
    rows, said = rows or read_rows(), []
    if watch.first is not None:
        number, why = watch.first
        said.append(f"{many(watch.count, 'line')} of the script answered `no:`{', the first is' if watch.count > 1 else ':'} "
                    f"{where(name, number)}{shown(line_of(number))}: {why}")
        row = rows["no"].get("answered w" if why.startswith("answered ") else why)
        said += [f"    {row}"] if row else []
        others = [(key, count) for key, count in watch.reasons.items() if key != why]
        if others:
            told = ", ".join(f"{key} {count}" for key, count in others[:MOST_REASONS])
            said.append(f"    Others, maybe for want of what the first one didn't do: {told}{', ..' if len(others) > MOST_REASONS else ''}.")
    found = watch.refused()
    if found is not None and found[0] > 0:
        said += said_of_refused(*found, line_of, name, rows)
    return said


def said_of_refused(number, why, line_of, name, rows):
    line = line_of(number)
    said = [f"{where(name, number)} is refused{shown(line)}: {why}; the script ends here"]
    more = why_said(read_forms(), why, line.removesuffix(b"\n").removesuffix(b"\r")) if line is not None else ""
    return said + [f"    {text}" for text in (more, rows["refused"].get(why)) if text]


def shown(line):
    return f", {quoted(line)}" if line is not None else ""


def many(count, what):
    return f"{count} {what}" + ("" if count == 1 else "s")
