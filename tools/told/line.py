#!/usr/bin/env python3
"""Runs `line` for bin/line: hands its output on as it comes, and says on standard error what to do about it.

usage: line.py run|read|check [FILE..] -- PROGRAM [WORD..]

PROGRAM with its words is what runs; the word run, read or check comes after them. Standard input, output and status are
the program's. Of several files each output comes after a line `== FILE`, and the status is the first that isn't 0.
"""
import errno
import os
import signal
import stat
import subprocess
import sys
import tempfile
import threading

sys.dont_write_bytecode = True
sys.path.insert(0, os.path.dirname(os.path.abspath(__file__)))

from forms import TOP  # noqa: E402
from hints import Watch, many, quoted, read_rows, said_of  # noqa: E402

PIECE = 1 << 16
MOST_LINE = 4_100
READING_FAILED, WRITING_FAILED = 4, 5
DEEDS = (b"insert", b"remove", b"replace", b"starts", b"settles", b"drops", b"opens", b"leaves", b"returns", b"loses")


def say(text):
    print(f"line: {text}" if not text.startswith(" ") else text, file=sys.stderr)


class Input:
    """What the program reads, which can be looked at again: a file is read from its place, anything else is copied."""

    def __init__(self, file):
        self.file, self.copy, self.start, self.is_unread = file, None, 0, False
        mode = os.fstat(file.fileno()).st_mode
        if stat.S_ISREG(mode):
            self.start = os.lseek(file.fileno(), 0, os.SEEK_CUR)
        elif not stat.S_ISDIR(mode):
            self.copy = tempfile.TemporaryFile()

    def feed(self, sink):
        """Copies to the program what comes, until it or the program ends."""
        while piece := self.read():
            try:
                self.copy.write(piece)
                self.copy.flush()
                sink.write(piece)
            except (OSError, ValueError):    # the program reads no more
                return
        sink.close()

    def read(self):
        try:
            return os.read(self.file.fileno(), PIECE)
        except OSError:
            self.is_unread = True
            return b""

    def again(self):
        """The input from its beginning, as a file."""
        if self.copy is not None:
            return os.fdopen(os.dup(self.copy.fileno()), "rb"), 0
        return open(f"/proc/self/fd/{self.file.fileno()}", "rb"), self.start

    def lines(self):
        again, start = self.again()
        with again:
            again.seek(start)
            yield from again

    def line(self, number):
        """A line by its number, from 1, or None."""
        try:
            return next((line for place, line in enumerate(self.lines(), 1) if place == number), None)
        except OSError:
            return None

    def front(self, count=4096):
        again, start = self.again()
        with again:
            again.seek(start)
            return again.read(count)


def played(command, source, take):
    """Runs the program over an input; `take` gets each piece of its output. Answers its status."""
    is_direct = source.copy is None
    child = subprocess.Popen(command, stdin=source.file if is_direct else subprocess.PIPE, stdout=subprocess.PIPE, bufsize=0)
    signal.signal(signal.SIGTERM, lambda *_: child.terminate())
    if not is_direct:
        threading.Thread(target=source.feed, args=(child.stdin,), daemon=True).start()
    is_written = True
    try:
        while piece := os.read(child.stdout.fileno(), PIECE):
            try:
                take(piece)
            except OSError:
                is_written = False
                break
        child.stdout.close()
        status = child.wait()
    except KeyboardInterrupt:
        child.wait()
        return 130
    if status == 0 and (source.is_unread or not is_written):
        return READING_FAILED if source.is_unread else WRITING_FAILED
    return status if status >= 0 else 128 - status


def write_all(piece):
    view = memoryview(piece)
    while view:
        view = view[os.write(1, view):]


def said_of_no(source, number, why):
    """Which line of a log `line check` names, and what it may be instead."""
    line = source.line(number)
    if line is None:
        return []
    words, said = line.split(), [f"line {number} of the log is {quoted(line)}: {why}"]
    if why == "form" and len(words) > 1 and words[0].isdigit() and not words[1].isdigit():
        said.append("    A line of a merged log is `machine turn text`. This may be the log of one node: bin/merge-logs makes one of several.")
    elif why == "form" and (not words or words[0].startswith(b"#")):
        said.append("    A log has no empty lines and no comments.")
    return said


def said_of_check(source, out):
    """What there is to say of a log, by what `line check` answers."""
    words = out.decode("latin-1").rstrip("\n").split(" ", 2)
    if words[0] == "no" and len(words) == 3 and words[1].isdigit():
        return said_of_no(source, int(words[1]), words[2])
    if words[0] != "yes":
        return []
    if out.startswith(b"yes lines=0 "):
        return ["the log has no line, so nothing was checked"]
    lines = 0
    for line in source.lines():
        words = line.split(b" ", 3)
        if len(words) > 2 and words[2].strip() in DEEDS:
            return []
        lines += 1
    return [f"none of its {many(lines, 'line')} tells what was done to a board, so nothing was checked"]


def said_of_read(source, out):
    """What there is to say of a stream in which `line read` found no message, or whose end is none."""
    last = out.rstrip(b"\n").rpartition(b"\n")[2]
    words = dict(word.split(b"=", 1) for word in last.split(b" ")[1:] if b"=" in word) if last.startswith(b"end ") else {}
    if b"rest" not in words:     # the last line says itself what is wrong
        return []
    messages, rest = int(words[b"messages"]), int(words[b"rest"])
    said = []
    front = source.front()
    if front[:2] in (b"\xff\xfe", b"\xfe\xff"):
        said.append("the stream begins as UTF-16 does; messages are read as UTF-8")
    if messages == 0:
        begins = front[:40].decode("utf-8", "backslashreplace")
        shown = "".join(it if it.isprintable() else "." for it in begins)
        said.append(f"no message: none of its {many(rest, 'byte')} ends one by `</Hermes>`; the stream begins with `{shown}`" if rest or front.strip()
                    else "the stream is empty, so nothing was read")
    elif rest:
        said.append(f"the last {many(rest, 'byte')} are no whole message: no `</Hermes>` comes after them")
    return said


def run_one(word, command, file, name):
    """Runs the program over one input, and says what there is to say. Answers its status."""
    source, watch, kept = Input(file), Watch(), bytearray()

    def take(piece):
        write_all(piece)
        if word == "run":
            watch.take(piece)
        else:
            kept.extend(piece)
            del kept[:-MOST_LINE]

    status = played(command + [word], source, take)
    if status not in (1, 130, 143):
        says = {"run": lambda: said_of(watch, source.line, name), "check": lambda: said_of_check(source, bytes(kept)),
                "read": lambda: said_of_read(source, bytes(kept))}
        for text in says[word]():
            say(text)
    return status


def run_unproved(command, names):
    """Runs several scripts in one build. Answers for each name its report and its status; nothing where they didn't run."""
    with tempfile.TemporaryDirectory() as folder:
        ins, outs = os.path.join(folder, "in"), os.path.join(folder, "out")
        os.mkdir(ins)
        os.mkdir(outs)
        for place, name in enumerate(names):
            with open(name, "rb") as source, open(os.path.join(ins, f"{place:05}.script"), "wb") as copy:
                while piece := source.read(PIECE):
                    copy.write(piece)
        status = subprocess.run([command[0], "--cases", ins, outs, *command[1:], "run"], check=False).returncode
        for place, name in enumerate(names) if status == 0 else ():
            made = os.path.join(outs, f"{place:05}.script")
            if not os.path.exists(f"{made}.status"):
                say(f"{name}: did not run to an end. An unproved run gives less than 1 MiB of output, within a minute")
                yield name, b"", 1
                continue
            with open(f"{made}.status", encoding="ascii") as file:
                ended = int(file.read())
            with open(f"{made}.out", "rb") as file:
                yield name, file.read(), ended


def reports_of(command, names):
    """The report of each script, and its status, as they come."""
    if os.path.basename(command[0]) == "unproved" and len(names) > 1:
        yield from run_unproved(command, names)
        return
    for name in names:
        with open(name, "rb") as file:
            done = subprocess.run(command + ["run"], stdin=file, stdout=subprocess.PIPE, check=False)
        yield name, done.stdout, done.returncode


def line_in(name):
    """Answers a line of a file by its number."""
    def line_of(number):
        with open(name, "rb") as file:
            return next((line for place, line in enumerate(file, 1) if place == number), None)
    return line_of


def watched(report):
    watch = Watch()
    watch.take(report)
    return watch


def run_many(command, names):
    """Several scripts, each report after its name."""
    status, count = 0, 0
    for name, report, ended in reports_of(command, names):
        count += 1
        write_all(f"== {name}\n".encode() + report)
        status = status or ended
        for text in said_of(watched(report), line_in(name), name):
            say(text)
    return status if count == len(names) else status or 1


def differs(old, new):
    """The first line, from 1, at which two reports differ."""
    pairs = zip(old.split(b"\n"), new.split(b"\n"))
    return next((place for place, (one, two) in enumerate(pairs, 1) if one != two), min(old.count(b"\n"), new.count(b"\n")) + 1)


def kept_report(name, report):
    """Writes a script's report beside it; what to say of the one that was there, and whether it said something else."""
    path = name.removesuffix(".script") + ".report"
    old = None
    if os.path.exists(path):
        with open(path, "rb") as file:
            old = file.read()
    if old != report:
        with open(path, "wb") as file:
            file.write(report)
    if old is None or old == report:
        return "new report" if old is None else "as before", False
    return f"OTHER than before, from line {differs(old, report)} of the report on", True


def program_here():
    """The proved program with its words, or what runs the sources."""
    built = subprocess.run([os.path.join(TOP, "bin", "build"), "--is-built", "line"], check=False).returncode == 0
    return [os.path.join(TOP, "crates", "line", "out", "line")] if built else [os.path.join(TOP, "bin", "unproved"), "line"]


def folder_of_reports(names, command=None):
    """What bin/try does with the scripts of a folder."""
    why = unreadable(names)
    if why is not None:
        say(why)
        return READING_FAILED
    count, others, unended, rows = 0, 0, 0, read_rows()
    try:
        for name, report, ended in reports_of(command or program_here(), names):
            count += 1
            if ended == 1 or not report:
                unended += 1
                print(f"{name}: no report", flush=True)
                continue
            watch = watched(report)
            said, is_other = kept_report(name, report)
            others += is_other
            no = f", {many(watch.count, 'line')} answered `no:`" if watch.count else ""
            print(f"{name}: {watch.end.decode('ascii', 'replace')}{no}; status {ended}; {said}", flush=True)
            for text in said_of(watch, line_in(name), name, rows):
                say(text)
    except OSError as error:
        say(f"{error.filename or 'the report'}: {error.strerror}")
        return WRITING_FAILED
    print(f"{many(count, 'script')}{f', {others} other than before' if others else ''}{f', {unended} without a report' if unended else ''}")
    return 1 if others or unended or count < len(names) else 0


def unreadable(names):
    """The first file that can't be read, and why."""
    for name in names:
        if os.path.isdir(name):
            return f"{name}: is a folder; bin/try runs the scripts of one"
        try:
            with open(name, "rb"):
                pass
        except OSError as error:
            return f"{name}: {error.strerror}"
    return None


def main(words):
    cut = words.index("--")
    word, names, command = words[0], words[1:cut], words[cut + 1:]
    why = unreadable(names)
    if why is not None:
        say(why)
        return READING_FAILED
    try:
        if len(names) > 1:
            return run_many(command, names)
        if names:
            with open(names[0], "rb") as file:
                return run_one(word, command, file, names[0])
        with os.fdopen(0, "rb", closefd=False) as file:
            return run_one(word, command, file, None)
    except OSError as error:
        if error.errno != errno.EPIPE:
            say(str(error.strerror or error))
        return {errno.EBADF: READING_FAILED, errno.EPIPE: WRITING_FAILED, errno.ENOSPC: WRITING_FAILED}.get(error.errno, 1)


if __name__ == "__main__":
    status = main(sys.argv[1:])
    sys.stderr.flush()
    os._exit(status)
