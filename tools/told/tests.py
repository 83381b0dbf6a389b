"""Tests of what bin/line says on standard error; `bin/test-told` runs them. No program of the repository is run.

The refusals are those of the program of cases `reading_cases`, and what a program would write comes from a small one
that is made here.
"""
import glob
import os
import re
import subprocess
import sys
import tempfile

from forms import Form, TOP, read_forms, why_said
from hints import ROWS, Watch, read_rows, said_of

LINE = os.path.join(TOP, "tools", "told", "line.py")
PAGE = os.path.join(TOP, "docs", "guide", "refusals.md")


class Failed(Exception):
    pass


def must(holds, why):
    if not holds:
        raise Failed(why)


def text_of(*path):
    with open(os.path.join(TOP, *path), encoding="utf-8") as file:
        return file.read()


def unescaped(text):
    """The bytes that a file of cases means: `\\0A`, and `\\(12)78` for twelve times."""
    parts = re.split(r"\\(?:\(([0-9]+)\))?([0-9A-F]{2})", text)
    made = parts[0].encode()
    for count, code, after in zip(parts[1::3], parts[2::3], parts[3::3]):
        made += bytes([int(code, 16)]) * int(count or 1) + after.encode()
    return made


def texts_in_specs(crate, file, *functions):
    """The texts that functions of a specification give."""
    name = "|".join(functions)
    return {text.strip() for text in re.findall(rf'^(?:{name}) .*= codes "([^"]+)"', text_of("crates", crate, "specs", file), re.M)}


def rows_of_page():
    """The rows of the page's two tables for scripts."""
    tables = text_of("docs", "guide", "refusals.md").partition("\n## `refused")[2].partition("\n## `line read`")[0]
    return re.findall(r"^\| `.*$", tables, re.M)


def take_rows():
    """Writes the rows of the page to tools/told/rows.txt."""
    with open(ROWS, "w", encoding="utf-8") as file:
        file.write("\n".join(rows_of_page()) + "\n")


def test_rows():
    """The table has a row for each text that a report can give, and it is that of the page."""
    rows = read_rows()
    whys = texts_in_specs("line_script", "Words.antt", "why_text")
    must(whys | {"too many lines"} == set(rows["refused"]), f"refusals without a row, or rows of none: {(whys | {'too many lines'}) ^ set(rows['refused'])}")
    noes = texts_in_specs("line_report", "Texts.antt", "no_text", "reason_text") | texts_in_specs("line_world", "Moves.antt", "no_text")
    noes = {"answered w" if it == "answered" else it for it in noes}
    must(noes == set(rows["no"]), f"reasons without a row, or rows of none: {noes ^ set(rows['no'])}")
    if not os.path.exists(PAGE):
        return f"{len(whys) + len(noes)} texts; there is no docs/guide/refusals.md to compare with"
    with open(ROWS, encoding="utf-8") as file:
        mine = file.read().splitlines()
    other = sorted(set(mine) ^ set(rows_of_page()))
    must(mine == rows_of_page(), f"tools/told/rows.txt isn't the tables of docs/guide/refusals.md; bin/test-told --take takes them: {other[:2]}")
    return f"{len(mine)} rows, {len(whys) + len(noes)} texts"


def test_forms():
    """The forms of the page are those of the grammar, with the same counts of words."""
    grammar, forms = text_of("crates", "line_script", "specs", "Grammar.antt"), read_forms()
    wanted = {}
    for word, counts in re.findall(r'word = codes "([a-z-]+)"\s*;\s*counts = ([0-9∷ ]+\[\])', grammar):
        wanted[word] = {int(count) for count in re.findall("[0-9]+", counts)}
    mine = {word: {count for form in found for count in form.counts} for word, found in forms.items()}
    must(len(wanted) > 30 and mine == wanted, f"other forms: {sorted(set(mine) ^ set(wanted)) or [it for it in mine if mine[it] != wanted[it]]}")
    must(Form("flow m side [n]").counts == [2, 3] and Form("show").counts == [0], "the counts of a form")
    return f"{len(mine)} forms"


def test_refusals():
    """Of each line that `reading_cases` has refused, it is found what is wrong with it."""
    forms, count = read_forms(), 0
    for line, why in re.findall(r"^script (.*) = refused: (.+)$", text_of("crates", "reading_cases", "stdout"), re.M):
        data = unescaped(line)
        said = why_said(forms, why, data)
        finds = {"wrong count": "and here ", "bad number": " should be |a lane is 1 to 4", "bad side": " should be `in` or `out`", "bad id": " should be the id",
                 "bad word": " should be | has [0-9]+ bytes", "not text": "Byte |byte order mark|UTF-16", "long line": "It has [0-9]+ bytes", "unknown word": "No form begins|Do you mean"}
        must(re.search(finds[why], said) is not None, f"{line[:60]!r} is refused for {why}, and it is said: {said!r}")
        count += 1
    must(count > 300, f"only {count} lines are refused in reading_cases")
    return f"{count} lines"


# a script, its report, and what is said of it
SAID = (
    ("machine 4\n# \u00d6fen\n", "1 machine 1 4\nrefused 2: not text\n", "line 2 of the script is refused, `# \u00d6fen`: not text", "`\u00d6` (0xC3 0x96), in a comment"),
    ("machine 4 # the loader\n", "refused 1: wrong count\n", "`machine c [used u]`: after `machine` 1 or 3 words come, and here are 4", "ive a comment its own line"),
    ("wait 5\n", "refused 1: unknown word\n", "Do you mean `tick m`?", "no form's"),
    ("MACHINE 4\n", "refused 1: unknown word\n", "Do you mean `machine c [used u]`?"),
    ("machine 1025\n", "refused 1: bad number\n", "`1025` should be c", "1 to 1024"),
    ("flow 1.5 in\n", "refused 1: bad number\n", "a lane is 1 to 4"),
    ("remove 1 PCB-1\n", "refused 1: bad id\n", "`PCB-1` should be the id of a board"),
    ("lie 1 in Left\n", "refused 1: bad word\n", "`Begun`, `Full`, `Back` or `Taken`, at `in`"),
    ("machine 4\nbegin 1\nleft 1\n", "1 machine 1 4\n2 no: no gap\n3 no: no gap\nend lines=3 boards=0 opened=0 settled=0\n",
     "2 lines of the script answered `no:`, the first is line 2 of the script, `begin 1`: no gap", "There is no gap k"),
    ("machine 4\nsense 1\nbegin 1\n", "1 machine 1 4\n2 no: nothing to read\n3 no: no gap\nend lines=3 boards=0 opened=0 settled=0\n", "Others", "no gap 1"),
    ("answer 1 1 X\n", "1 no: answered no: Y\nend lines=1 boards=0 opened=0 settled=0\n", "The first answer stays"),
    ("machine 4\n", "1 machine 1 4\nend lines=1 boards=0 opened=0 settled=0\n"),
    ("machine 4\n", "1 breach 1 in x no: y\nend lines=1 boards=0 opened=0 settled=0\n"),
)


def said(script, report, name=None, piece=7):
    watch, lines = Watch(), script.encode().splitlines(keepends=True)
    data = report.encode()
    for at in range(0, len(data), piece):
        watch.take(data[at:at + piece])
    return "\n".join(said_of(watch, lambda number: lines[number - 1] if number <= len(lines) else None, name))


def test_said():
    for script, report, *texts in SAID:
        for piece in (1, 7, 1000):
            told = said(script, report, piece=piece)
            for text in texts:
                must(text in told, f"{script!r}: {text!r} is not in {told!r}")
            must(bool(texts) == bool(told), f"{script!r}: something is said, and nothing is wrong: {told!r}")
    must(said(*SAID[1][:2], name="x.script").startswith("x.script:1 is refused"), "the file isn't named")
    return f"{len(SAID)} scripts"


PROGRAM = """import sys
data = sys.stdin.buffer.read()
out = {"run": b"1 machine 1 4\\n2 no: no gap\\nend lines=2 boards=0 opened=0 settled=0\\n" if b"begin" in data else b"refused 1: unknown word\\n",
       "check": b"no 2 form\\n" if b"\\n4 " in data else b"yes lines=%d boards=0\\n" % data.count(b"\\n"), "read": b"end messages=%d rest=%d\\n" % (data.count(b"</Hermes>"), len(data.rpartition(b"</Hermes>")[2].strip()))}
sys.stdout.buffer.write(out[sys.argv[1]])
sys.stdout.flush()
sys.exit(8 if out["check"][:2] == b"no" else 3 if b"refused" in out[sys.argv[1]] and sys.argv[1] == "run" else 0)
"""


def test_runs():
    """What the program writes and its status go through, and standard error has what there is to say."""
    with tempfile.TemporaryDirectory() as folder:
        def named(name, text):
            with open(os.path.join(folder, name), "wb") as file:
                file.write(text)
            return os.path.join(folder, name)
        program = ["--", sys.executable, named("program", PROGRAM.encode())]
        good, bad = named("good.script", b"machine 4\nbegin 1\n"), named("bad.script", b"mahcine 4\n")

        def runs(words, status, out, text, data=b""):
            done = subprocess.run([sys.executable, LINE] + words + program, input=data, capture_output=True, check=False)
            told = done.stderr.decode()
            must(done.returncode == status and done.stdout == out, f"{words}: status {done.returncode}, {done.stdout!r}, {told}")
            must(text in told if text else not told, f"{words}: {text!r} is not what is said: {told!r}")
        report, refused = b"1 machine 1 4\n2 no: no gap\nend lines=2 boards=0 opened=0 settled=0\n", b"refused 1: unknown word\n"
        runs(["run"], 0, report, "line 2 of the script, `begin 1`: no gap", b"machine 4\nbegin 1\n")
        runs(["run", good], 0, report, "good.script:2, `begin 1`: no gap")
        runs(["run", bad], 3, refused, "Do you mean `machine c [used u]`?")
        runs(["run", good, bad], 3, b"== %s\n%s== %s\n%s" % (good.encode(), report, bad.encode(), refused), "bad.script:1 is refused")
        runs(["run", "/nothing/there"], 4, b"", "/nothing/there: No such file")
        runs(["run", folder], 4, b"", "bin/try runs")
        runs(["check"], 0, b"yes lines=0 boards=0\n", "nothing was checked")
        runs(["check"], 0, b"yes lines=1 boards=0\n", "none of its 1 line tells", b"1 4 lEAvEs out 7\n")
        runs(["check"], 0, b"yes lines=1 boards=0\n", "", b"1 4 leaves out 7\n")
        runs(["check"], 8, b"no 2 form\n", "line 2 of the log is `4 leaves out 7`: form\n    A line of a merged log is", b"1 4 opens out 7\n4 leaves out 7\n")
        runs(["read"], 0, b"end messages=0 rest=0\n", "nothing was read")
        runs(["read"], 0, b"end messages=0 rest=14\n", "begins with `GET / HTTP/1.1`", b"GET / HTTP/1.1")
        runs(["read"], 0, b"end messages=1 rest=3\n", "the last 3 bytes", b"<Hermes></Hermes><He")
        runs(["read"], 0, b"end messages=1 rest=0\n", "", b"<Hermes></Hermes>\n")
        shown = subprocess.run([sys.executable, LINE, "run", good] + program, stdout=open("/dev/full", "wb"), stderr=subprocess.PIPE, check=False)
        must(shown.returncode == 5, f"a full disk: status {shown.returncode}")
    return "as it should be"


def test_folder():
    """bin/try: reports are written beside the scripts, and one that says something else is told."""
    sys.path.insert(0, os.path.dirname(LINE))
    call = "import sys; sys.path.insert(0, sys.argv[1]); import line; sys.exit(line.folder_of_reports(sorted(sys.argv[4:]), sys.argv[2:4]))"
    with tempfile.TemporaryDirectory() as folder:
        for name, text in (("program", PROGRAM), ("a.script", "machine 4\nbegin 1\n"), ("b.script", "x\n")):
            with open(os.path.join(folder, name), "w", encoding="utf-8") as file:
                file.write(text)

        def runs():
            words = [sys.executable, "-B", "-c", call, os.path.dirname(LINE), sys.executable, os.path.join(folder, "program")]
            done = subprocess.run(words + glob.glob(f"{folder}/*.script"), capture_output=True, check=False)
            return done.returncode, done.stdout.decode()
        must(runs()[0] == 0 and sorted(os.listdir(folder)) == ["a.report", "a.script", "b.report", "b.script", "program"], "the reports aren't there")
        status, told = runs()
        must(status == 0 and told.count("as before") == 2 and "1 line answered `no:`" in told, f"the second time: {status}, {told}")
        with open(os.path.join(folder, "b.report"), "w", encoding="utf-8") as file:
            file.write("refused 1: wrong count\n")
        status, told = runs()
        must(status == 1 and "OTHER than before, from line 1" in told and told.endswith("2 scripts, 1 other than before\n"), f"another report: {status}, {told}")
    return "as it should be"


def test_words():
    """What bin/line, bin/try and examples/two-nodes answer to words that aren't their own, before they build anything."""
    def says(words, status, text):
        done = subprocess.run([os.path.join(TOP, *words[0].split("/"))] + words[1:], capture_output=True, stdin=subprocess.DEVNULL, timeout=20, check=False)
        told = (done.stdout + done.stderr).decode()
        must(done.returncode == status and text in told, f"{words}: status {done.returncode}, {told!r}")
    says(["bin/line", "foo"], 2, "usage: line run | line read | line check | line make <number>\n")
    says(["bin/line", "run", "--foo"], 2, "usage: line run")
    says(["bin/line", "run", "--help"], 0, "usage: bin/line run [FILE..]")
    says(["bin/line", "check", "a", "b"], 2, "check takes a file")
    says(["bin/line", "make", "0"], 2, "make takes one number")
    says(["bin/line", "run", "/nothing/there"], 4, "No such file")
    says(["bin/try"], 2, "usage: bin/try FOLDER")
    says(["bin/try", "/nothing/there"], 2, "is no folder")
    says(["examples/two-nodes", "--foo"], 2, "unrecognized arguments: --foo")
    says(["examples/two-nodes", "--boards", "many"], 2, "invalid int value")
    says(["examples/two-nodes", "--help"], 0, "usage: examples/two-nodes")
    return "as it should be"


TESTS = (test_rows, test_forms, test_refusals, test_said, test_runs, test_folder, test_words)


def main():
    failed = 0
    for test in TESTS:
        try:
            print(f"{test.__name__[5:]}: passed, {test()}", flush=True)
        except Failed as why:
            failed += 1
            print(f"{test.__name__[5:]}: FAILED, {why}", flush=True)
    return 1 if failed else 0
