"""The forms of a script's lines, off the page that has them, and what is wrong with a line that is refused.

docs/standard/script-and-report.md, 'Script lines', has a row for each form. Nothing here is proved: what a line is
refused for says `line`, and here is only looked for the word that it means.
"""
import difflib
import os
import re

TOP = os.path.normpath(os.path.join(os.path.dirname(os.path.abspath(__file__)), "..", ".."))
PAGE = os.path.join(TOP, "docs", "standard", "script-and-report.md")
MOST_TEXT = 64

# what a form's letter is, and between which numbers it is
NUMBERS = {"m": ("machine", 1, 64), "k": ("gap", 1, 63), "c": ("room for boards", 1, 1024), "u": ("count of ids made before", 0, 281474976710655),
           "t": ("lane", 1, 4), "pos": ("place of the circuit", 0, 999999999), "s": ("slot", 0, 999999999), "q": ("question", 0, 999999999999999),
           "flow n": ("count of bytes", 1, 65536), "lanes n": ("count of lanes", 1, 4)}
# words that others use for a form
MEANT = {"wait": "tick", "sleep": "tick", "restart": "stop", "reboot": "stop", "enter": "in", "push": "hand-in", "disconnect": "cut", "handin": "hand-in"}
NO_PLACE = ("stop", "supervise", "ask", "answer")
EVENTS = {"in": ("Begun", "Full", "Back", "Taken"), "out": ("Begun", "Left", "Back", "Taken")}
HEX = "[0-9a-fA-F]"
HYPHENATED = f"{HEX}{{8}}-{HEX}{{4}}-{HEX}{{4}}-{HEX}{{4}}-{HEX}{{12}}"
ID = re.compile(rf"(?i:urn:uuid:)?(?:{HYPHENATED}|\{{{HYPHENATED}\}}|{HEX}{{32}})")


class Form:
    """A form as its row spells it: `flow m side [n]`."""

    def __init__(self, text):
        self.text = text
        words = text.replace("[", " [ ").replace("]", " ] ").split()
        self.word, self.parts, self.least, is_given = words[0], [], 0, True
        for word in words[1:]:
            if word in "[]":
                is_given = word == "]"
            else:
                self.parts.append(word)
                self.least += is_given
        self.counts = sorted({self.least, len(self.parts)})

    def number(self, part):
        return NUMBERS.get(f"{self.word} {part}") or NUMBERS.get(part)


def read_forms(path=PAGE):
    """The forms, by their first words."""
    with open(path, encoding="utf-8") as file:
        page = file.read()
    made = {}
    for row in re.findall(r"^\| (`.*?`) \| ", page.partition("\n## Script lines\n")[2].partition("\n## ")[0], re.M):
        for text in re.findall(r"`([^`]+)`", row):
            form = Form(text.replace("\\|", "|"))
            made.setdefault(form.word, []).append(form)
    return made


def words_of(line):
    return line.replace(b"\t", b" ").decode("latin-1").split()


def spelled(form):
    return f"`{form.text}`"


def or_list(texts):
    texts = list(texts)
    return texts[0] if len(texts) == 1 else f"{', '.join(texts[:-1])} or {texts[-1]}"


def count_said(forms, words):
    """How many words a form has, and how many are here."""
    counts = sorted({count for form in forms for count in form.counts})
    noun = "word" if counts == [1] else "words"
    wanted = "nothing comes" if counts == [0] else f"{or_list(map(str, counts))} {noun} come{'s' if counts == [1] else ''}"
    here = len(words) - 1
    return (f"The form is {or_list(map(spelled, forms))}: after `{words[0]}` {wanted}, "
            f"and here {'are' if here != 1 else 'is'} {here or 'none'}.")


def number_said(forms, words):
    """The first number that isn't in its range."""
    for form in forms:
        for part, word in zip(form.parts, words[1:]):
            number = form.number(part)
            if number is None:
                continue
            name, least, most = number
            plain, _, lane = word.partition(".")
            has_lane = part in ("m", "k") and form.word not in NO_PLACE and "." in word
            if has_lane and not (re.fullmatch("[0-9]{1,15}", lane) and 1 <= int(lane) <= 4):
                return f"`{word}`: a lane is 1 to 4, as in `{plain}.2`. The form is {spelled(form)}."
            if not re.fullmatch("[0-9]{1,15}", plain if has_lane else word) or not least <= int(plain if has_lane else word) <= most:
                return f"`{word}` should be {part}, a {name}: {least} to {most}. The form is {spelled(form)}."
    return f"The form is {or_list(map(spelled, forms))}."


def side_said(forms, words):
    for part, word in zip(forms[0].parts, words[1:]):
        if part in ("side", "in", "out") and word not in ("in", "out"):
            return f"`{word}` should be `in` or `out`. The form is {or_list(map(spelled, forms))}."
    return f"The form is {or_list(map(spelled, forms))}."


def id_said(forms, words):
    for part, word in zip(forms[0].parts, words[1:]):
        if part == "id" and not ID.fullmatch(word):
            return f"`{word}` should be the id of a board. The form is {spelled(forms[0])}."
    return f"The form is {spelled(forms[0])}."


def word_said(forms, words):
    """The first word that is none of those which may be there, or a text that is too long."""
    named = or_list(map(spelled, forms))
    for place, word in enumerate(words[1:]):
        if len(word) > MOST_TEXT:
            return f"`{word[:20]}..` has {len(word)} bytes; a text has at most {MOST_TEXT}. The form is {named}."
        parts = {form.parts[place] for form in forms if place < len(form.parts)}
        choices = sorted({choice for part in parts for choice in part.split("|")})
        is_fixed = all("|" in part or part in ("used", "barcode", "order", "place") for part in parts) and words[0] not in ("insert", "query", "sub")
        if is_fixed and word not in choices:
            return f"`{word}` should be {or_list(f'`{it}`' for it in choices)}. The form is {named}."
        if "event" in parts and words[place] in EVENTS and word not in EVENTS[words[place]]:
            return f"`{word}` should be {or_list(f'`{it}`' for it in EVENTS[words[place]])}, at `{words[place]}`. The form is {named}."
    return f"The form is {named}."


def unknown_said(forms, words):
    """The form that may be meant."""
    first = words[0].lower()
    like = [MEANT[first]] if first in MEANT else difflib.get_close_matches(first, list(forms), 1, 0.6)
    meant = [form for word in like for form in forms.get(word, ())]
    return f"Do you mean {or_list(map(spelled, meant))}?" if meant else f"No form begins with `{words[0][:40]}`."


def text_said(line):
    """Which byte of a line is no text, and what it may be."""
    at = next((at for at, byte in enumerate(line) if not 0x20 <= byte <= 0x7E and byte != 9), None)
    if at is None:
        return ""
    if line.startswith(b"\xef\xbb\xbf"):
        return "The line begins with a byte order mark: save the file without it."
    if line[:2] in (b"\xff\xfe", b"\xfe\xff") or line[1::2].count(0) > len(line) // 4:
        return "The file is in UTF-16: save it as ASCII."
    if line[at] < 0x20 or line[at] == 0x7F:
        return f"Byte {at + 1} of the line is a control character (0x{line[at]:02X})."
    try:
        character = line[at:].decode("utf-8", "ignore")[:1]
        told = f"`{character}` ({' '.join(f'0x{byte:02X}' for byte in character.encode())})" if line.decode("utf-8") else ""
    except UnicodeDecodeError:
        told = f"0x{line[at]:02X}, in ISO 8859-1 `{bytes(line[at:at + 1]).decode('latin-1')}`" if line[at] >= 0xA0 else f"0x{line[at]:02X}"
    comment = ", in a comment" if line.lstrip().startswith(b"#") else ""
    return f"Byte {at + 1} of the line is {told}{comment}."


def why_said(forms, why, line):
    """What of a line is refused, in a sentence, where it can be found."""
    words = words_of(line)
    if why == "not text":
        return text_said(line)
    if why == "long line":
        return f"It has {len(line)} bytes."
    if not words or why == "too many lines":
        return ""
    if why == "unknown word":
        return unknown_said(forms, words)
    mine = forms.get(words[0])
    if mine is None:
        return ""
    fits = [form for form in mine if len(words) - 1 in form.counts] or mine
    sayers = {"wrong count": lambda: count_said(mine, words), "bad number": lambda: number_said(fits, words),
              "bad side": lambda: side_said(fits, words), "bad id": lambda: id_said(fits, words), "bad word": lambda: word_said(fits, words)}
    return sayers[why]() if why in sayers else ""
