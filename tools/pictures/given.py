"""What is given beside a text: the script that a report is of, and names of machines and boards.

A file of names has lines `<machine> <name>` and `<id> <barcode>`; a line without words, or that begins with `#`, says
nothing. The barcodes of `insert` lines are read off the script.
"""
from dataclasses import dataclass, field

from forms import ID, Refused, clean, id_of, matches

MOST_SHOWN = 200


@dataclass
class Given:
    """The lines of a script, or None; names by a machine's number, and barcodes by a board's id."""
    script: list = None
    machines: dict = field(default_factory=dict)
    boards: dict = field(default_factory=dict)

    def said(self, number, before):
        """A line of the script, and the comments and other lines between the one before and it."""
        if self.script is None or not 1 <= number <= len(self.script):
            return None
        notes = [line.strip().lstrip("#").strip() for line in self.script[before:number - 1] if line.strip()]
        own = self.script[number - 1].strip()
        return (own, " ".join(notes)) if not own.startswith("#") else ("", own.lstrip("#").strip())


def texts_of(data):
    return [clean(line.removesuffix(b"\r").decode("utf-8", "backslashreplace")[:MOST_SHOWN])[0].replace("\u2409", " ")
            for line in data.removesuffix(b"\n").split(b"\n")] if data else []


def read_names(data, name, given):
    """Takes the lines of a file of names."""
    for number, line in enumerate(texts_of(data), 1):
        word, _, named = line.strip().partition(" ")
        named = named.strip()
        if not word or word.startswith("#"):
            continue
        if matches(ID, word) and named:
            given.boards[id_of(word)] = named
        elif word.isascii() and word.isdecimal() and 1 <= int(word) <= 64 and named:
            given.machines[int(word)] = named
        else:
            raise Refused(number, "isn't `<machine> <name>` or `<id> <barcode>`", name)


def take_barcodes(read, given):
    """The barcode of each board that an `insert` line of the script has."""
    for line in read.lines:
        if line.word == "insert" and given.script is not None and line.group[0] <= len(given.script):
            words = given.script[line.group[0] - 1].split()
            if len(words) == 3 and words[0] == "insert":
                given.boards.setdefault(line.ids[0], words[2])
