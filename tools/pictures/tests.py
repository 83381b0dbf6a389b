"""Tests of the pictures and of the merging of logs; `bin/test-pictures` runs them.

The reports and logs are those of the programs of cases in crates/, of examples/ where `line` is built, and of the
folders that are named. What is said of each page is checked against its text again, with a reader of XML.
"""
import glob
import html
import os
import random
import re
import shutil
import subprocess
import sys
import tempfile
import time
import xml.etree.ElementTree as xml

import forms
import links
from custody import Custody, is_alarm
from forms import MERGED, REPORT, Refused, read_text
from given import Given, read_names, texts_of
from merge import merged, read_log
from page import page_of
from sequence import Columns

TOP = os.path.normpath(os.path.join(os.path.dirname(os.path.abspath(__file__)), "..", ".."))
SVG = "{http://www.w3.org/2000/svg}"
XHTML = "{http://www.w3.org/1999/xhtml}"


class Failed(Exception):
    pass


def must(holds, why):
    if not holds:
        raise Failed(why)


# the texts

def unescaped(text):
    """The bytes that a file of cases means: `\\0A`, `\\(12)78` for twelve times, and a line end that isn't there."""
    text = text.removesuffix("\\\n") if text.endswith("\\\n") else text
    parts = re.split(r"\\(?:\(([0-9]+)\))?([0-9A-F]{2})", text)
    made = parts[0].encode()
    for count, code, after in zip(parts[1::3], parts[2::3], parts[3::3]):
        made += bytes([int(code, 16)]) * int(count or 1) + after.encode()
    return made


def sections(name):
    """The sections of a file of cases: the title of each, and its text."""
    with open(os.path.join(TOP, "crates", name), encoding="utf-8") as file:
        for part in file.read().split("=== ")[1:]:
            title, _, text = part.partition("\n")
            yield title, text


def case_reports():
    for number, (title, text) in enumerate(sections("line_cli_cases/stdout")):
        body = text.split("\n--- ")[0] + "\n"
        if title == "line run" and re.search(r"^(end lines=|refused \d)", body, re.M):
            yield f"line_cli_cases {number}", body.encode()
    for (title, script), (_, text) in zip(sections("line_engine_cases/stdin"), sections("line_engine_cases/stdout")):
        # what is done by `@` isn't told, and a report ends at a line that is refused
        if not re.search(r"^@", script, re.M) and not re.search(r"^\d+ refused: ", text, re.M):
            yield f"line_engine_cases {title}", re.sub(r"^\? .*\n", "", text, flags=re.M).encode()


def case_logs():
    for number, (title, text) in enumerate(sections("node_cli_cases/stdout")):
        lines = [line for line in text.split("\n") if re.match(r"[0-9]+ ", line)]
        if lines and not title.startswith("at a limit: "):
            yield f"node_cli_cases {number}", ("\n".join(lines) + "\n").encode()


def folder_reports(folder):
    for name in sorted(glob.glob(os.path.join(folder, "*.out"))):
        word = name.removesuffix(".out") + ".word"
        with open(name, "rb") as file:
            data = file.read()
        if not os.path.exists(word) or open(word, encoding="utf-8").read().strip() == "run":
            yield os.path.basename(name), data


def examples():
    program = os.path.join(TOP, "crates", "line", "out", "line")
    for name in sorted(glob.glob(os.path.join(TOP, "examples", "*.script"))) if os.path.exists(program) else ():
        with open(name, "rb") as file:
            yield os.path.basename(name), subprocess.run([program, "run"], stdin=file, capture_output=True).stdout
    for name in sorted(glob.glob(os.path.join(TOP, "examples", "*.log"))):
        with open(name, "rb") as file:
            yield os.path.basename(name), file.read()
    for name in sorted(glob.glob(os.path.join(TOP, "docs", "pictures", "*.report"))):
        with open(name, "rb") as file:
            yield os.path.basename(name), file.read()


# a page against its text

def shown_text(text):
    """A line as the page has it."""
    shown = forms.clean(text[:forms.MOST_SHOWN])[0]
    return shown if len(text) <= forms.MOST_SHOWN else shown + f" .. and {len(text) - forms.MOST_SHOWN} characters more"


def check_page(data, page):
    """Each line once and in order, each arrow between lines of the text, nothing that loads, no two things of one id."""
    root = xml.fromstring(page)
    items = [item for item in root.iter(f"{XHTML}li") if item.get("id")]
    lines = forms.split(data)[0]
    must([item.get("id") for item in items] == [f"L{number}" for number in range(1, len(lines) + 1)], "the lines aren't there once and in order")
    must([item.text or "" for item in items] == [shown_text(line) for line in lines], "a line isn't what the text has")
    ids = [it.get("id") for it in root.iter() if it.get("id")]
    must(len(ids) == len(set(ids)), "an id stands twice")
    check_arrows(root, lines, items)
    check_stays(root, len(lines))
    for it in root.iter():
        for name, value in it.attrib.items():
            must(name not in ("src", "href") or value.startswith("#"), f"the page loads {value}")
            must(not name.startswith("on"), f"an attribute runs a script: {name}")
    must(len(list(root.iter(f"{XHTML}script"))) == 1, "there is a script that isn't the page's")
    said = [it.text or "" for it in root.iter(f"{XHTML}style")] + [value for it in root.iter() for value in it.attrib.values()
                                                              if not it.get("id") or it.tag != f"{XHTML}li"]
    must(not any(re.search(r"url\((?!#)", it) for it in said), "a style loads something")
    return root


def check_arrows(root, lines, items):
    ends = {}
    for arrow in root.iter(f"{SVG}g"):
        if "a" not in (arrow.get("class") or "").split():
            continue
        number = arrow.get("class").split()[-1]
        for key, words in (("data-s", ("sends",)), ("data-h", ("hears", "breach"))):
            if arrow.get(key) is not None:
                line = int(arrow.get(key))
                must(1 <= line <= len(lines), "an arrow ends at no line")
                must(any(f" {word} " in lines[line - 1] for word in words), f"an arrow ends at a line that neither sends nor hears: {lines[line - 1]}")
                ends.setdefault((key, line), number)
                must(ends[key, line] == number, f"two arrows end at line {line}")
                must(items[line - 1].get("data-a") == number[1:], f"line {line} doesn't know its arrow")


def check_stays(root, count):
    for stay in root.iter(f"{SVG}g"):
        if stay.get("class") == "stay":
            must(1 <= int(stay.get("data-l")) <= count and int(stay.get("data-e")) <= count, "a bar is of no line")


def check_text(name, data, kind=None, is_true=False):
    """A text's page, and of one that a program wrote also that all of it is known and agrees."""
    page = page_of(data, name)
    root = check_page(data, page)
    read = read_text(data)
    if kind is not None:
        must(read.kind == kind, f"taken for a {read.kind}")
    if is_true:
        must(not read.unknown, f"not known: {read.unknown[:1]}")
        messages, _ = links.links_of(read)
        custody = Custody(read)
        must(not custody.differing, f"what is told differs from the deeds in group {custody.differing[:1]}")
        check_whole(read, messages)
        if read.unvouched is None and read.kind == REPORT:
            must(not any(is_alarm(stay) for row in custody.rows.values() for stay in row.stays), "a record without a standing")
            must(not any(row.alarms for row in custody.rows.values()), "a deed that isn't legal")
    return root


def check_whole(read, messages):
    """Each line that sends or hears is the end of one arrow, and of a report each that hears has one that sends."""
    ends = [line.number for message in messages for line in (message.sent, message.heard) if line is not None]
    wanted = [line.number for line in read.lines if line.word in ("sends", "hears", "breach")]
    must(sorted(ends) == wanted, "a message has no arrow, or two")
    if read.kind == REPORT:
        must(all(message.sent is not None for message in messages), "a message was heard and not sent")


def test_true_texts(folders):
    count = 0
    for name, data in list(case_reports()) + [it for folder in folders for it in folder_reports(folder)]:
        count += 1
        try:
            check_text(name, data, REPORT, True)
        except (Failed, Refused, xml.ParseError) as why:
            raise Failed(f"{name}: {why}") from why
    for name, data in case_logs():
        count += 1
        try:
            check_text(name, data, None, True)
        except (Failed, xml.ParseError) as why:
            raise Failed(f"{name}: {why}") from why
    for name, data in examples():
        count += 1
        try:
            check_text(name, data, None, True)
        except (Failed, xml.ParseError) as why:
            raise Failed(f"{name}: {why}") from why
    return f"{count} texts"


# a board that is shifted to lane 2, handed over there and shifted back; a line of the text between two strokes
ON_LANES = """1 lanes 2/2 machine 1 4/3 machine 2 4/4 insert 1 ID/4 with 1 ID/5 shift 1 1.2 ID/5 with 1.2 ID/6 connects 2.2/6 sends 2.2 in MachineReady/
7 hears 1.2 out MachineReady/7 sends 1.2 out BoardAvailable/8 hears 2.2 in BoardAvailable/8 starts 1.2 ID/8 sends 2.2 in StartTransport/
8 between 1.2 ID/9 hears 1.2 out StartTransport/9 opens 1.2 ID/10 move 1.2 begin/11 reads 1.2 out Begun/12 move 1.2 left/13 leaves 1.2 ID/14 show 1.2-2.2 ID/
15 move 1.2 in/16 settles 1.2 ID/16 with 2.2 ID/17 shift 2.2 2 ID/17 with 2 ID/18 show 2 ID unknown/end lines=18 boards=1 opened=1 settled=1"""
# lines that are none of a report's, whose lanes don't stand where they may
NO_LANES = ("lanes 0", "lanes 5", "machine 1.2 4", "bridge 1.2 4", "stop 1.2", "supervise 1.2 on", "tells 1.2 arrived ID 1", "asks 1.2 1", "answered 1.2 1 X",
            "shift 1 2.2 ID", "shift 1.2 1.2 ID", "shift 1 1.5 ID", "with 1.1 ID", "with 1.5 ID", "with 1.02 ID", "between 64.2 ID", "show 1.2-2 ID", "show 1-2.2 ID")


def test_lanes(_):
    """Each machine's lane has a place of its own, and a shift goes from the one to the other."""
    board = "00000001-0000-8000-8000-000000000001"
    text = ON_LANES.replace("\n", "").replace("/", "\n").replace("ID", board)
    page = page_of(text.encode())
    check_text("lanes", text.encode(), REPORT, True)
    read = read_text(text.encode())
    messages, _ = links.links_of(read)
    columns = Columns(read, messages)
    must(columns.places == ["1", "2", "1.2", "2.2"] and len(columns.walls) == 1, f"the places are {columns.places}")
    must(len(set(columns.colours.values())) == 4, "two places have one colour")
    must({message.link for message in messages} == {"1.2"}, "a message is of another lane's link")
    ways = [stay.standing for stay in Custody(read).rows[board].stays]
    wanted = [("with", "1"), ("with", "1.2"), ("between", "1.2"), ("with", "2.2"), ("with", "2")]
    must([way for way, before in zip(ways, [None] + ways) if way != before] == wanted, f"the board's way is {ways}")
    for begin, end in ((columns.right("1"), columns.left["1.2"]), (columns.left["2.2"], columns.right("2"))):
        must(re.search(rf'<path class="board" d="M{begin} [0-9.]+H{end}"/>', page) is not None, f"no board goes from {begin} to {end}")
    must("2 machines with 2 lanes, 1 board record" in page, "the lanes aren't told")
    must("1 machine with 3 lanes, " in page_of(b"1 lanes 4\n2 lanes 3\n3 machine 1 4\n"), "the lanes on which nothing happens aren't told")
    for form in NO_LANES:
        spoiled = read_text(f"1 machine 1 4\n2 {form.replace('ID', board)}\n".encode())
        must([line.number for line in spoiled.unknown] == [2], f"taken for a line of a report: {form}")
    alone = read_text(b"1 lanes 4\n2 lanes 1\n3 machine 1 4\n4 machine 2 4\nend lines=4 boards=0 opened=0 settled=0\n")
    must(not alone.unknown and Columns(alone, []).lanes == [1] and not Columns(alone, []).walls, "one lane isn't drawn as one")
    return f"{len(wanted)} standings, {len(NO_LANES)} lines of no form"


def first_alarm(read):
    """The first line at which the drawing says that a deed isn't legal, or that a record has no standing."""
    custody = Custody(read)
    lines = [line.number for row in custody.rows.values() for _, _, line in row.alarms]
    lines += [custody.groups[stay.begins].last for row in custody.rows.values() for stay in row.stays if is_alarm(stay)]
    return min(lines, default=None)


def test_verdicts(_):
    """The drawing of a merged log sees a bad record where `line check` does."""
    count = 0
    pairs = [pair for name in ("log_verdict_cases", "line_cli_cases") for pair in zip(sections(f"{name}/stdin"), sections(f"{name}/stdout"))]
    for (title, text), (_, answer) in pairs:
        if title.startswith("line ") and title != "line check":
            continue
        said = re.search(r"^(yes lines=[0-9]+|no ([0-9]+) (not legal|no standing))", answer, re.M)
        if said is None or len(text) > 1_000_000:
            continue
        try:
            read = read_text(unescaped(text), MERGED)
        except Refused:
            continue
        count += 1
        alarm, wanted = first_alarm(read), int(said.group(2)) if said.group(2) else None
        must(alarm == wanted, f"{title}: the drawing's first bad line is {alarm}, the verdict's {wanted}")
        named = re.search(r'answers <code>no</code> for line <a href="#L([0-9]+)"', page_of(unescaped(text), None, MERGED))
        must((int(named.group(1)) if named else None) == wanted, f"{title}: the page says that line check names {named and named.group(1)}")
    return f"{count} logs"


# what an undisturbed handover from 1 to 2 tells, a line of the text between two strokes; the last line asks for the next board
HANDED = """0 insert 1 ID/0 sends 1 out BoardAvailable/0 with 1 ID/1 hears 1 out MachineReady/2 hears 2 in BoardAvailable/2 starts 1 ID/2 sends 2 in StartTransport/
2 between 1 ID/3 hears 1 out StartTransport/3 opens 1 ID/4 move 1 begin/5 reads 1 out Begun/6 reads 2 in Begun/7 move 1 left/8 reads 1 out Left/8 leaves 1 ID/
8 sends 1 out TransportFinished 3/9 move 1 in/10 reads 2 in Full/10 sends 2 in StopTransport 3/11 hears 2 in TransportFinished 3/11 settles 1 ID/
11 sends 2 in MachineReady/11 with 2 ID/12 hears 1 out StopTransport 3"""
BEGUN = """1 machine 1 99/2 machine 2 99/3 connects 2/3 sends 2 in ServiceDescription/4 hears 1 out ServiceDescription/4 sends 1 out ServiceDescription/
5 hears 2 in ServiceDescription/5 sends 2 in MachineReady"""
# the same up to the cut, after which nobody takes the board, or somebody does
DROPPED = """9 cut 1/10 notices 1 out/11 notices 2 in/TAKEN12 drops 1 ID/12 gone ID/13 connects 2/13 sends 2 in ServiceDescription/
14 hears 1 out ServiceDescription/14 sends 1 out ServiceDescription/15 hears 2 in ServiceDescription/15 sends 2 in MachineReady"""
TAKEN = "11 move 1 take/12 reads 2 in Taken/"


def lines_of(text, first=0, id=""):
    """The lines of a text whose numbers begin at 0, from a line of a script on."""
    said = [line.partition(" ") for line in text.replace("\n", "").replace("ID", id).split("/")]
    return [f"{int(number) + first} {rest}" for number, _, rest in said]


def boards_report(count, lost=(), taken=()):
    """A report of so many boards through two machines, and its script's barcodes."""
    lines, script, number = lines_of(BEGUN), ["machine 99", "machine 99"] + ["connect 2", "flow 1 out", "flow 2 in"], 6
    for board in range(1, count + 1):
        id = f"00000001-0000-8000-8000-{board:012x}"
        text = HANDED
        if board in lost or board in taken:
            text = HANDED.replace("\n", "").partition("/9 move 1 in")[0] + "/" + DROPPED.replace("TAKEN", TAKEN if board in taken else "")
        made = lines_of(text, number, id)
        lines += made
        last = int(made[-1].partition(" ")[0])
        script += [f"insert 1 PCB-{board}"] + ["tick 1"] * (last - number)
        number = last + 1
    left = count - len(lost) - len(taken)
    lines.append(f"end lines={number - 1} boards={left} opened={count} settled={left}")
    return ("\n".join(lines) + "\n").encode(), ("\n".join(script) + "\n").encode()


def test_lost(_):
    """A record that no hand took is lost, red and with a sign; one that a hand took isn't."""
    data, _ = boards_report(3, lost=(2,), taken=(3,))
    root = check_text("lost", data, REPORT, True)
    page = page_of(data)
    must(page.count('class="lost1"') == 1 and "1 record lost: no machine had it any more" in page, "one record is lost")
    rows = {row.get("data-i")[-1]: "".join(row.itertext()) for row in root.iter(f"{XHTML}tr") if row.get("data-i")}
    must("LOST at " in rows["2"] and "LOST" not in rows["3"] and "taken out of the gap" in rows["3"] and "with 2" in rows["1"], f"the rows: {rows}")
    with open(os.path.join(TOP, "examples", "lost.log"), "rb") as file:
        log = file.readlines()
    must("1 record lost" in page_of(b"".join(log[:11])), "that of examples/lost.log isn't lost")
    taken = log[:10] + [b"2 5 reads 9 in Taken\n"] + log[10:11]
    must("record lost" not in page_of(b"".join(taken)) and "by hand" in page_of(b"".join(taken)), "one that was taken out is lost")
    must("record lost" not in page_of(b"3 starts in 00000007-0000-8000-8000-000000000001\n4 drops in 00000007-0000-8000-8000-000000000001\n"), "one node's log tells of a loss")
    return "a lost record and two that were taken out"


def folds_of(root):
    """The lines that are folded, of each fold."""
    folds = [it for it in root.iter(f"{XHTML}details") if it.get("class") == "fold"]
    return [[int(item.get("id")[1:]) for item in fold.iter(f"{XHTML}li") if item.get("id")] for fold in folds]


def test_folds(_):
    """Undisturbed handovers are folded, and what disturbs one isn't; each line is there once."""
    data, _ = boards_report(40, lost=(17,))
    root = check_text("folds", data, REPORT, True)
    folds, lines = folds_of(root), data.split(b"\n")
    must(len(folds) == 2 and all(fold == list(range(fold[0], fold[-1] + 1)) for fold in folds), f"the folds: {[(it[0], it[-1]) for it in folds]}")
    hidden = {number for fold in folds for number in fold}
    seen = [lines[number - 1] for number in range(1, len(lines)) if number not in hidden]
    must(len(seen) < 40 and any(b" cut " in it for it in seen) and any(b" drops " in it for it in seen), f"{len(seen)} lines are seen")
    must(not any(b" cut " in lines[number - 1] for number in hidden), "a cut is folded")
    rows = [row for row in root.iter(f"{XHTML}tr") if row.get("data-i")]
    must(len(rows) == 40 and all("".join(row.itertext()).count("\u2192") == (row.get("data-i")[-2:] != "11") for row in rows), "a row of the boards")
    must(not folds_of(check_text("short", boards_report(2)[0], REPORT, True)), "a short text is folded")
    merged_log = b"".join(merged([read_log(f"log {at}", at, log) for at, log in enumerate(logs_of(read_text(data)), 1)]))
    must(len(folds_of(check_page(merged_log, page_of(merged_log)))) >= 2, "a merged log isn't folded")
    return f"{len(hidden)} of {len(lines) - 1} lines in {len(folds)} folds"


def test_given(_):
    """The script's lines and comments beside the report, barcodes, and names."""
    data, script = boards_report(3)
    given = Given(texts_of(script))
    read_names(b"# the line\n1 Loader\n2 Printer <b>\n{00000001-0000-8000-8000-000000000003} X-9\n", "names", given)
    page = page_of(data, "given", REPORT, given)
    root = check_page(data, page)
    beside = [item for part in root.iter(f"{XHTML}ol") if part.get("class") == "src" for item in part]
    must(len(beside) == data.count(b"\n"), "not a row of the script for each row of the text")
    must("".join(beside[8].itertext()) == "insert 1 PCB-1" and beside[8].get("data-l") == "9", "the script's line isn't beside its report line")
    must(all(text in page for text in ("1#1 PCB-1", "1#3 X-9", "1 Loader", "1 (Loader)", "2 (Printer &lt;b&gt;)")), "a barcode or a name isn't there")
    must("it may be another one" not in page and "it may be another one" in page_of(data, None, REPORT, Given(texts_of(script + b"show\n"))), "another script isn't told")
    noted = Given(texts_of(b"# a note\nmachine 4\n# one more,\n# in two lines\nmachine 4\n"))
    page = page_of(b"2 machine 1 4\n5 machine 2 4\nend lines=5 boards=0 opened=0 settled=0\n", None, REPORT, noted)
    must("<b>machine 4</b> <i>a note</i>" in page and "<b>machine 4</b> <i>one more, in two lines</i>" in page, "the comments aren't beside the report")
    with tempfile.TemporaryDirectory() as folder:
        names = os.path.join(folder, "names")
        with open(names, "wb") as file:
            file.write(b"1 Loader\nPrinter\n")
        says(["picture", "--names", names], 3, "names line 2: isn't `<machine> <name>` or `<id> <barcode>`", data)
        says(["picture", "--script", "/nothing/there"], 4, "/nothing/there: No such file", data)
        says(["picture", "--script"], 2, "--script wants a file after it")
        says(["picture", "--title"], 2, "--title wants a text after it")
        says(["picture", "--as", "log", "--script", names], 2, "--script is for a report", data)
    return f"{len(beside)} rows"


def light_of(colour):
    """The relative luminance of a colour, as WCAG has it."""
    digits = colour[1:] if len(colour) == 7 else "".join(digit * 2 for digit in colour[1:])
    parts = [int(digits[at:at + 2], 16) / 255 for at in (0, 2, 4)]
    parts = [part / 12.92 if part <= 0.04045 else ((part + 0.055) / 1.055) ** 2.4 for part in parts]
    return 0.2126 * parts[0] + 0.7152 * parts[1] + 0.0722 * parts[2]


def test_contrast(_):
    """Each text has a contrast of 4.5 or more with what is under it, by day, in the dark and in print; and the dark has no white ground."""
    with open(os.path.join(TOP, "tools", "pictures", "page.css"), encoding="utf-8") as file:
        schemes = [dict(re.findall(r"--([a-z0-9]+):(#[0-9a-f]{3,6})\b", scheme)) for scheme in re.findall(r":root\{([^}]*)\}", file.read())]
    must(len(schemes) == 3, f"{len(schemes)} schemes of colours")
    least = 21.0
    for scheme in schemes:
        pairs = [(f"on{number}", f"m{number}") for number in range(5)] + [("onalarm", "alarm"), ("pcbline", "back")]
        pairs += [(text, ground) for text in ("text", "soft") for ground in ("back", "band", "box")] + [("text", "sel"), ("text", "other")]
        for text, ground in pairs:
            light, dark = sorted((light_of(scheme[text]), light_of(scheme[ground])), reverse=True)
            contrast = (light + 0.05) / (dark + 0.05)
            must(contrast >= 4.5, f"{text} {scheme[text]} on {ground} {scheme[ground]}: {contrast:.2f}")
            least = min(least, contrast)
    must(light_of(schemes[1]["back"]) < 0.05, "a white ground in the dark")
    for name in glob.glob(os.path.join(TOP, "docs", "pictures", "*.svg")):
        with open(name, encoding="utf-8") as file:
            must("prefers-color-scheme: dark" in file.read(), f"{name} has a white ground in the dark")
    return f"{least:.1f} at least"


# hostile texts

HOSTILE = """</li></ol><script>alert(1)</script>'"&<>]]>&#10;--> {{}} \\ url(http://x/) javascript:alert(1)"""


def test_hostile(_):
    report = f"1 machine 1 4\n2 supervise 1 on\n3 asks 1 1\n4 answered 1 1 {HOSTILE}\n5 no: answered {HOSTILE}\n" \
             f"6 breach 1 in {HOSTILE}\n{HOSTILE}\n7 {HOSTILE}\nend lines=7 boards=0 opened=0 settled=0\n"
    root = check_page(report.encode(), page_of(report.encode(), HOSTILE))
    must(root.find(f".//{XHTML}h1").text == HOSTILE, "the title isn't what was given")
    must(sum(HOSTILE in (item.text or "") for item in root.iter(f"{XHTML}li")) >= 5, "what was given isn't text")
    odd = [b"\x00\x01\x1b[31m\xff\xfe 1 machine 1 4", b"1 machine 1 4\n\x00", b"1 machine 1 4\r\n2 machine 2 4\r\r\n", b"1 machine 1 4\n" + b"x" * 300_000,
           "1 machine 1 4\n2 answered 1 1 \u202e\u2066\ufffe\ud7ff\U0001F600\u0085\u2028x\n".encode(), b"1 machine 64 4\n2 machine 1 4\n" + b"3 insert 64 " + b"f" * 32,
           b"5 machine 1 4\n3 machine 2 4\n", b"1 hears 1 in X\n2 hears 99999999 in X\n", b"1 1 insert 1\n1 2 x\n1 1 insert 5 {00000007-0000-8000-8000-000000000001}\n",
           b"64 1 leaves out 00000007-0000-8000-8000-000000000001\n1 1 settles in 00000007-0000-8000-8000-000000000001\n", b"1 move 63 begin\n1 move 1.4 left\nend lines=1 boards=0 opened=0 settled=0\nx\n"]
    refused = 0
    for data in odd:
        try:
            check_text("odd", data)
        except Refused:
            refused += 1
    must(refused == 1, f"{refused} are refused, not the one that has no line of any kind")
    return f"{len(odd) + 1} texts"


def spoiled_texts(count, seed=52):
    """Texts with a line lost, doubled, moved, cut off, or with a word of another line in it."""
    dice = random.Random(seed)
    whole = [data.split(b"\n") for _, data in list(case_reports()) + list(case_logs()) if 200 < len(data) < 20_000]
    words = [word for lines in whole for line in lines for word in line.split(b" ")]
    for _ in range(count):
        lines = list(dice.choice(whole))
        for _ in range(dice.randrange(1, 8)):
            at = dice.randrange(len(lines))
            how = dice.randrange(6)
            if how == 0 and len(lines) > 1:
                del lines[at]
            elif how == 1:
                lines.insert(at, lines[dice.randrange(len(lines))])
            elif how == 2:
                lines[at] = lines[at][:dice.randrange(len(lines[at]) + 1)]
            elif how == 3:
                parts = lines[at].split(b" ")
                parts[dice.randrange(len(parts))] = dice.choice(words)
                lines[at] = b" ".join(parts)
            elif how == 4:
                lines[at] += bytes([dice.randrange(256)])
            else:
                lines[at], lines[0] = lines[0], lines[at]
        yield b"\n".join(lines)


def test_spoiled(_):
    drawn = refused = 0
    for data in spoiled_texts(400):
        try:
            check_text("spoiled", data)
            drawn += 1
        except Refused:
            refused += 1
        except Failed as why:
            raise Failed(f"{why}: {data[:3000]!r}") from why
    return f"{drawn} drawn, {refused} refused by name"


# the command lines

def run(command, data=b"", **more):
    return subprocess.run([sys.executable, os.path.join(TOP, "bin", command[0])] + command[1:], input=data, capture_output=True, **more)


def says(command, status, text, data=b""):
    done = run(command, data)
    said = done.stderr.decode()
    must(done.returncode == status and text in said and "Traceback" not in said, f"{command}: status {done.returncode}, {said!r}, not {status}, {text!r}")
    must(status == 0 or not done.stdout, f"{command}: something was written beside the refusal")


def test_words(_):
    says(["picture"], 3, "line 1: there is nothing to draw")
    says(["picture"], 3, "line 1: no line is one of a report", b"\x89PNG\r\n\x1a\n\x00")
    says(["picture"], 3, "line 1: no line is one of a report", b"hello\n" * 9)
    says(["picture", "/nothing/there"], 4, "/nothing/there: No such file")
    says(["picture", TOP], 4, "Is a directory")
    says(["picture", "--what"], 2, "what is --what?")
    says(["picture", "a", "b"], 2, "more than one file")
    must(run(["picture", "--help"]).stdout.startswith(b"Draws a report"), "--help says nothing")
    must(run(["merge-logs", "--help"]).stdout.startswith(b"Makes one merged log"), "--help says nothing")
    says(["merge-logs"], 2, "usage")
    says(["merge-logs", "/nothing/there"], 4, "No such file")
    return "as it should be"


def test_long(_):
    """A long text: what is beyond the first lines is told, and the time that it takes."""
    lines = [b"1 machine 1 1024", b"2 machine 2 4"]
    number = 2
    while len(lines) < forms.MOST_LINES + 5:
        number += 1
        lines.append(b"%d insert 1 00000001-0000-8000-8000-%012x" % (number, number))
        lines.append(b"%d with 1 00000001-0000-8000-8000-%012x" % (number, number))
    begun = time.process_time()
    page = page_of(b"\n".join(lines) + b"\n")
    taken = time.process_time() - begun
    must(f"The text has {len(lines)} lines. The first {forms.MOST_LINES} are drawn" in page, "it isn't told that a part is drawn")
    must(len(list(xml.fromstring(page).iter(f"{XHTML}li"))) >= forms.MOST_LINES, "the first part isn't drawn")
    return f"{len(page) / 1e6:.0f} MB of page in {taken:.1f} s of processor time"


def hostile_long():
    """Long texts in which something goes on and on."""
    board, many = "00000001-0000-8000-8000-000000000001", 20_000
    head = ["1 machine 1 4", "1 machine 2 4", "2 connects 2"]
    yield "messages that nobody hears", head + [f"{number} sends 1 out MachineReady" for number in range(3, many)]
    yield "connections without an end", head + [f"{number} connects 2" for number in range(3, many)]
    yield "a board that is opened and returned", head + [f"3 insert 1 {board}"] + [
        f"{number} {'opens' if number % 2 else 'returns'} 1 {board}" for number in range(5, many)]
    yield "lines of sixty-four machines", [f"{number} machine {number} 4" for number in range(1, 65)] + [
        f"{number} connects {number % 63 + 2}" for number in range(65, many)]
    yield "a merged log of many connections", ["1 1 connects 7"] + [
        f"{1 + number % 2} {number} {('hears 7 out', 'notices 7 out', 'connects 9', 'sends 9 in')[number // 2 % 4]}"
        f"{(' MachineReady', '', '', ' MachineReady')[number // 2 % 4]}" for number in range(1, many)]
    yield "words that nobody knows", ["1 machine 1 4"] + [f"{number} frobnicates {number}" for number in range(2, many)]


def test_hostile_long(_):
    """What goes on and on in a long text takes no more than any long text takes."""
    most = 0
    for name, lines in hostile_long():
        begun = time.process_time()
        page = page_of(("\n".join(lines) + "\n").encode())
        taken = time.process_time() - begun
        most = max(most, taken)
        must(taken < 12 and len(page) < 30e6, f"{name}: {taken:.0f} s, {len(page) / 1e6:.0f} MB")
    return f"at most {most:.1f} s of processor time"


# merging

def logs_of(read):
    """The logs that the machines of a report would have written, with the script's lines as turns."""
    logs = {}
    for line in read.lines:
        if line.word is None or line.place is None or line.word in ("machine", "bridge", "with", "between", "gone", "no:", "end", "spoils", "lie", "unseen", "show", "stop"):
            continue
        number, word, rest = line.text.split(" ", 2)
        text = f"{number} {word} {rest}"
        if word in forms.EXIT_DEEDS + forms.ENTRY_DEEDS:
            text = f"{number} {word} {line.side} {line.ids[0]}"
        logs.setdefault(int(line.place), []).append(text)
    return [("\n".join(logs.get(machine, [])) + "\n").encode() if logs.get(machine) else b"" for machine in range(1, max(logs, default=0) + 1)]


def check_merge(logs):
    """The merged log keeps each log's order, hears nothing before it was sent, and has each line once."""
    made = merged([read_log(f"log {number}", number, data) for number, data in enumerate(logs, 1)])
    for machine, data in enumerate(logs, 1):
        front = b"%d " % machine
        own = b"".join(line[len(front):] for line in made if line.startswith(front))
        must(own == data, f"the log of machine {machine} isn't what it was")
    data = b"".join(made)
    if not data:
        return None
    read = read_text(data)
    must(read.kind == MERGED, "not taken for a merged log")
    messages, _ = links.links_of(read)
    must(not any(message.fate == links.BACKWARD for message in messages), "a message is heard before it was sent")
    must(all(message.sent is not None or message.link is None for message in messages), "a message was heard and not sent")
    return read


def test_merge(folders):
    """The logs of each report without a lie, parted and merged again: each has an order, and it is one that `line check` takes."""
    count = 0
    for name, data in list(case_reports()) + [it for folder in folders for it in folder_reports(folder)]:
        read = read_text(data)
        if read.unvouched is not None or re.search(rb"^\d+ (lanes|shift) ", data, re.M):
            continue
        try:
            again = check_merge(logs_of(read))
            must(again is None or first_alarm(again) is None, f"line {again and first_alarm(again)} of the merged log isn't legal")
        except (Failed, Refused) as why:
            raise Failed(f"{name}: {why}") from why
        count += 1
    return f"{count} lines of machines"


def refused_merge(text, *logs):
    try:
        made = merged([read_log(f"log {number}", number, data.encode()) for number, data in enumerate(logs, 1)])
    except Refused as why:
        must(text in str(why), f"refused by: {why}")
        return
    raise Failed(f"merged, and not refused by {text!r}: {made}")


def test_no_order(_):
    board = "00000001-0000-8000-8000-000000000001"
    first = ["1 hears 7 out ServiceDescription", "1 sends 7 out ServiceDescription", f"2 insert 7 {board}"]
    then = ["1 connects 8", "1 sends 8 in ServiceDescription", "2 hears 8 in ServiceDescription", "2 sends 8 in MachineReady"]
    whole = lambda lines: "\n".join(lines) + "\n"
    must(check_merge([whole(first).encode(), whole(then).encode()]) is not None, "not merged")
    refused_merge("log 1 line 1 (1 hears 7 out ServiceDescription): a message that log 2 doesn't send", whole(first), whole(then[:1]))
    refused_merge("another message than the one that was sent then", whole(first), whole(["1 connects 8", "1 sends 8 in CheckAlive 1"]))
    # each end says that it heard the other before it spoke
    refused_merge("there is no order: log 1 line 1", whole(["1 hears 7 out ServiceDescription", "2 sends 7 out ServiceDescription"]),
                  whole(["1 connects 8", "2 hears 8 in ServiceDescription", "3 sends 8 in ServiceDescription"]))
    refused_merge("log 1 line 2: is of turn 1, after one of turn 2", "2 hold 7 in\n1 go 7 in\n")
    refused_merge("log 1 line 1: has no turn's number in front", "hold 7 in\n")
    refused_merge("log 1 line 2: is of another machine than 7", "1 hold 7 in\n2 hold 8 out\n")
    # a turn in which a message is heard and its answer's answer too has to be parted
    parted = check_merge([b"1 hears 7 out ServiceDescription\n1 sends 7 out ServiceDescription\n1 hears 7 out MachineReady\n",
                          b"1 connects 8\n1 sends 8 in ServiceDescription\n2 hears 8 in ServiceDescription\n2 sends 8 in MachineReady\n"])
    must(parted is not None, "not merged line by line")
    # a second connection, which is refused, and a third that is not
    check_merge([b"1 hears 7 out ServiceDescription\n1 sends 7 out ServiceDescription\n4 sends 7 out Notification 2\n5 notices 7 out\n6 hears 7 out ServiceDescription\n6 sends 7 out ServiceDescription\n",
                 b"1 connects 8\n1 sends 8 in ServiceDescription\n2 hears 8 in ServiceDescription\n3 notices 8 in\n4 connects 8\n4 sends 8 in ServiceDescription\n5 hears 8 in Notification 2\n"
                 b"6 notices 8 in\n7 connects 8\n7 sends 8 in ServiceDescription\n8 hears 8 in ServiceDescription\n"])
    return "as it should be"


# a browser

PLAY = """<script>/*<![CDATA[*/
var told = [], row = function (n) { return document.getElementById("L" + n); };
var state = function () { return Array.prototype.map.call(document.querySelectorAll("li.sel"), function (it) { return it.id; }).join() + "/" +
  Array.prototype.map.call(document.querySelectorAll("li.oth"), function (it) { return it.id; }).join() + "/" +
  Array.prototype.map.call(document.querySelectorAll("g.a.sel"), function (it) { return it.id; }).join(); };
var key = function (name) { document.dispatchEvent(new KeyboardEvent("keydown", { key: name, bubbles: true, cancelable: true })); told.push(name + " " + state()); };
row(SENT).click(); told.push("click " + state());
key("Enter"); key("ArrowDown"); key("Home"); key("End"); key("Escape");
document.getElementById("aNUMBER").dispatchEvent(new MouseEvent("click", { bubbles: true })); told.push("arrow " + state());
row(LAST).click(); told.push("says " + document.getElementById("says").textContent);
var pre = document.createElement("pre"); pre.id = "told"; pre.textContent = told.join("\\n"); document.body.appendChild(pre);
/*]]>*/</script></body>"""


def browser():
    return next((it for it in map(shutil.which, ("chromium", "chromium-browser", "google-chrome")) if it), None)


def dumped(page):
    """The page as a browser has it once its scripts have run."""
    with tempfile.TemporaryDirectory() as folder:
        path = os.path.join(folder, "page.html")
        with open(path, "w", encoding="utf-8") as file:
            file.write(page)
        command = [browser(), "--headless", "--no-sandbox", "--disable-gpu", f"--user-data-dir={folder}/data", "--dump-dom", f"file://{path}"]
        return subprocess.run(command, capture_output=True, timeout=300).stdout.decode()


FIND = """<script>/*<![CDATA[*/
var told = [], it = function (id) { return document.getElementById(id); };
var count = function (query) { return document.querySelectorAll(query).length; };
var look = function (name) { told.push(name + " lines " + count("li[id]:not(.dim)") + " rows " + count(".ways tr[data-i]:not(.none)") + " open " + count("details.fold[open]") + " pieces " + count(".piece:not(.none)")); };
var ask = function (q, from, to) { it("q").value = q; it("from").value = from; it("to").value = to; it("find").dispatchEvent(new Event("submit", { cancelable: true })); };
look("first"); told.push("shown " + !it("find").hidden + " " + it("L1").checkVisibility());
ask("1#3", "", ""); look("board"); told.push("says " + it("says").firstChild.textContent);
ask("pcb-5", "", ""); look("barcode");
ask("", "6", "18"); look("range");
ask("sends 1 out", "", ""); look("text"); told.push(it("hits").textContent);
it("none").click(); look("all"); it("folds").click(); look("unfolded");
var pre = document.createElement("pre"); pre.id = "told"; pre.textContent = told.join("\\n"); document.body.appendChild(pre);
/*]]>*/</script></body>"""


def test_find(_):
    """What the search shows and hides, in a browser."""
    if browser() is None:
        return "skipped: there is no chromium"
    data, script = boards_report(8)
    page = page_of(data, "find", REPORT, Given(texts_of(script))).replace("</body>", FIND)
    told = re.search(r'<pre id="told">(.*?)</pre>', dumped(page), re.S)
    must(told is not None, "the script of the page didn't run")
    said = html.unescape(told.group(1)).split("\n")
    lines, of_board = data.count(b"\n"), sum(b"000003" in line for line in data.split(b"\n"))
    must(re.match(rf"first lines {lines} rows 8 open 0 pieces ", said[0]) is not None, f"at first: {said[0]}")
    must(said[1] == "shown true false", f"a line that is folded: {said[1]}")
    must(said[2].startswith(f"board lines {of_board} rows 1 open 1 ") and "insert 1 00000001-0000-8000-8000-000000000003" in said[3], f"a board: {said[2:4]}")
    must(said[4].startswith(f"barcode lines {of_board} rows 1 open 1 "), f"a barcode: {said[4]}")
    must(re.match(r"range lines 25 rows 8 open 1 ", said[5]) is not None, f"from and to: {said[5]}")
    must(re.match(r"text lines 17 ", said[6]) is not None and said[7] == "17 lines", f"a text: {said[6:8]}")
    must(said[8] == said[0].replace("first", "all") and " open 1 " in said[9], f"all: {said[8:]}")
    return "a board, a barcode, a range, a text"


def test_browser(_):
    if browser() is None:
        return "skipped: there is no chromium"
    name, data = next(it for it in case_reports() if b" settles 1 " in it[1] and b"unvouched" not in it[1])
    read = read_text(data)
    messages, _ = links.links_of(read)
    number, message = next(it for it in enumerate(messages) if it[1].sent and it[1].heard and it[1].heard.number > it[1].sent.number + 2)
    sent, heard, last = message.sent.number, message.heard.number, max(line.number for line in read.lines if line.word == "settles")
    play = PLAY.replace("SENT", str(sent)).replace("NUMBER", str(number)).replace("LAST", str(last))
    told = re.search(r'<pre id="told">(.*?)</pre>', dumped(page_of(data, name).replace("</body>", play)), re.S)
    must(told is not None, "the script of the page didn't run")
    said = html.unescape(told.group(1)).split("\n")
    both = lambda one, two: f"L{one}/L{two}/a{number}"
    must(said[0] == "click " + both(sent, heard), f"a click on a line: {said[0]}")
    must(said[1] == "Enter " + both(heard, sent), f"Enter: {said[1]}")
    must(said[2].startswith(f"ArrowDown L{heard + 1}/"), f"a key: {said[2]}")
    must(said[3].startswith("Home L1/") and said[4].startswith(f"End L{len(read.lines)}/") and said[5] == "Escape //", f"keys: {said[3:6]}")
    must(said[6] == "arrow " + both(sent, heard), f"a click on an arrow: {said[6]}")
    must(re.match(rf"says Line {last} of the text: .* settles .*with \d", said[7]) is not None, f"what is said of a line: {said[7]}")
    return f"clicks and keys on the page of {name}"


TESTS = (test_true_texts, test_lanes, test_verdicts, test_lost, test_folds, test_given, test_contrast, test_hostile, test_spoiled, test_words, test_long, test_hostile_long, test_merge, test_no_order, test_find, test_browser)


def main(folders):
    failed = 0
    for test in TESTS:
        begun = time.time()
        try:
            said = test(folders)
            print(f"{test.__name__[5:]}: passed, {said} ({time.time() - begun:.1f} s)", flush=True)
        except Failed as why:
            failed += 1
            print(f"{test.__name__[5:]}: FAILED, {why}", flush=True)
    return 1 if failed else 0
