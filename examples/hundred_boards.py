#!/usr/bin/env python3
"""Plays two nodes with their controls: boards are handed over while a relay between the nodes breaks the connection.

usage: examples/two-nodes --boards N [options], which builds the programs first and then calls this

  --boards N      how many boards go through (100)
  --breaks P      the part of messages and panel lines after which the connection between the nodes breaks (0.08)
  --panels P      and the part after which the connection of a panel breaks (0.01)
  --faults P      the part of handovers in which a drive fails (0.05)
  --seed N        of the random numbers (1)
  --crosses S     seconds that a board takes between the conveyors (0.2)
  --late S        how slow the gateways are (0)
  --reconnect S   seconds between two calls to the upstream neighbour (0.1)
  --no-rule       controls that let boards go before they are read
  --story         one board, a gateway that stalls and one break, told by the logs: with --no-rule the record is doubled
  --watch         each thing that happens on the belts
  --keep DIR      the logs are kept there: loader.log, printer.log, merged.log
  --node FILE, --line FILE   the programs

The play is one process: it reads what the nodes logged before it passes on what they said. So the order in which it
reads log lines keeps each cause before its effect, and is the merged log that `line check` judges.

It ends with 0 where each board and each record is there once, in order, and `line check` says yes, and with 1 else.
"""
import argparse
import collections
import os
import random
import socket
import subprocess
import sys
import tempfile
import time

from control import Control, Gap, Loop, Panel

TOP = os.path.dirname(os.path.dirname(os.path.abspath(__file__)))


def free_ports(count):
    held = [socket.create_server(("127.0.0.1", 0)) for _ in range(count)]
    ports = [one.getsockname()[1] for one in held]
    for one in held:
        one.close()
    return ports


class Node:
    """A node that runs, and its log."""

    def __init__(self, play, number, name, **settings):
        self.number, self.name, self.text, self.logged = number, name, b"", []
        self.heard = lambda line: None
        path = os.path.join(play.folder, f"{name}.toml")
        with open(path, "w", encoding="utf-8") as file:
            file.write(f'number = {number}\nmachine_id = "{name}"\nlane = 1\nturns = 1000000000000\n')
            file.writelines(f"{key} = {value}\n" for key, value in settings.items())
            file.write("drives = true\n")
        self.process = subprocess.Popen([play.words.node, path], stdout=subprocess.PIPE, stdin=subprocess.DEVNULL)
        os.set_blocking(self.process.stdout.fileno(), False)
        self.is_open = True
        play.loop.reads(self.process.stdout, lambda: None)

    def drain(self, play):
        """Takes all that is in the log's pipe."""
        while self.is_open:
            try:
                piece = os.read(self.process.stdout.fileno(), 1 << 20)
            except BlockingIOError:
                return
            if not piece:
                self.is_open = False
                play.loop.leaves(self.process.stdout)
            *lines, self.text = (self.text + piece).split(b"\n")
            for line in lines:
                self.logged.append(line)
                play.merged.append(b"%d %s\n" % (self.number, line))
                self.heard(line.decode())
                play.tells(self.name, line.decode())


class Relay:
    """Between the nodes: passes bytes on a little later, and can break."""

    def __init__(self, play, port, to):
        self.play, self.to, self.pairs, self.breaks = play, to, [], 0
        self.waiting = {}   # the pieces from an end that aren't passed on yet, the oldest first
        self.server = socket.create_server(("127.0.0.1", port))
        play.loop.reads(self.server, self.accepts)

    def accepts(self):
        below, _ = self.server.accept()
        self.joins(below)

    def joins(self, below):
        try:
            above = socket.create_connection(("127.0.0.1", self.to), 1)
        except OSError:
            below.close()
            return
        pair = {below: above, above: below}
        self.pairs.append(pair)
        for end in pair:
            self.waiting[end] = collections.deque()
            self.play.loop.reads(end, lambda end=end: self.read(pair, end))

    def read(self, pair, end):
        try:
            piece = end.recv(65536)
        except OSError:
            piece = b""
        if not piece:
            return lambda: self.ends(pair)
        return lambda: self.passes_later(pair, end, piece)

    def passes_later(self, pair, end, piece):
        if pair in self.pairs:
            self.waiting[end].append(piece)
            self.play.loop.after(self.play.chance.uniform(0.0, 0.02), lambda: self.passes(pair, end))

    def passes(self, pair, end):
        if pair in self.pairs:
            try:
                pair[end].sendall(self.waiting[end].popleft())
                self.play.moment()
            except OSError:
                self.ends(pair)

    def ends(self, pair, apart=0.0):
        """Closes both ends; what is on its way goes. One end may see it later than the other."""
        if pair not in self.pairs:
            return
        self.pairs.remove(pair)
        ends = list(pair)
        self.play.chance.shuffle(ends)
        for end in ends:
            del self.waiting[end]
            self.play.loop.leaves(end)
        ends[0].close()
        self.play.loop.after(apart, ends[1].close)

    def break_now(self):
        if self.play.is_over:
            return
        for pair in list(self.pairs):
            self.breaks += 1
            self.play.say("--- the connection breaks")
            self.ends(pair, self.play.chance.choice((0.0, 0.05, 0.15)))


class Play:
    def __init__(self, words, folder):
        self.words, self.folder = words, folder
        self.chance, self.loop, self.merged = random.Random(words.seed), Loop(), []
        self.began, self.panel_breaks, self.is_random, self.is_over = time.monotonic(), 0, False, False
        down, way, lower_down, upper_panel, lower_panel = free_ports(5)
        self.told = collections.Counter()       # first words of the logs' lines
        self.relay = Relay(self, way, down)
        self.upper = Node(self, 1, "loader", capacity=4, downstream_port=down, panel_port=upper_panel)
        self.lower = Node(self, 2, "printer", capacity=1024, upstream=f'"127.0.0.1:{way}"',
                          downstream_port=lower_down, panel_port=lower_panel)
        self.loop.before_acting = self.drain
        self.above = Control(Panel(self.loop, upper_panel, words.late), self.loop)
        self.below = Control(Panel(self.loop, lower_panel, words.late), self.loop, words.reconnect, calls=True)
        self.upper.heard, self.lower.heard = self.above.logged, self.below.logged
        for control in (self.above, self.below):
            control.panel.told = lambda line, control=control: (control.told(line), self.moment())
        self.gap = Gap(self.loop, self.above, self.below, words.crosses, words.crosses / 2, not words.no_rule, self.say)

    def say(self, text):
        if self.words.watch:
            print(f"{time.monotonic() - self.began:8.3f}  {text}", flush=True)

    def tells(self, name, line):
        """The lines of a log that tell the story."""
        text = line.partition(" ")[2]
        self.told[text.partition(" ")[0]] += 1
        if self.words.story and not text.startswith(("sends", "hears", "no:", "show")):
            self.say(f"  {name:8}  {text}")

    def drain(self):
        for node in (self.upper, self.lower):
            node.drain(self)

    def ended(self):
        return any(node.process.poll() is not None for node in (self.upper, self.lower))

    # what happens
    def feeds(self):
        """Boards come on the loader's belt, and are told: two lie there at most."""
        if len(self.above.wanted) == self.words.boards:
            return
        if len(self.above.inserted) == len(self.above.wanted) and len(self.gap.above) < 2 and not self.above.greets:
            number = len(self.above.wanted) + 1
            self.gap.above.append(number)
            if self.chance.random() < self.words.faults:
                self.gap.fault_at = self.chance.choice(("in", "out")), self.chance.uniform(0.0, 1.0)
            self.above.insert(f"PCB{number}")
        self.loop.after(0.02, self.feeds)

    def moment(self):
        """A message was passed on, or a panel said something: after it something may break."""
        if not self.is_random:
            return
        later = self.chance.uniform(0.0, self.words.crosses)
        if self.chance.random() < self.words.breaks:
            self.loop.after(later, self.relay.break_now)
        if self.chance.random() < self.words.panels:
            control = self.chance.choice((self.above, self.below))
            self.loop.after(later, lambda: self.panel_breaks_now(control))

    def panel_breaks_now(self, control):
        if self.is_over:
            return
        self.panel_breaks += 1
        self.say(f"--- the {'loader' if control is self.above else 'printer'}'s panel breaks")
        control.panel.breaks()

    def is_done(self):
        return self.ended() or (len(self.gap.below) == self.words.boards and not self.above.unread and not self.below.unread)

    def random_play(self):
        self.is_random = True
        self.feeds()
        return self.loop.run(self.is_done, 60 + 30 * self.words.boards)

    def story(self):
        """The loader's gateway stalls after the insertion; the connection breaks when the board has left, or later."""
        above = self.above
        self.feeds()
        self.loop.run(lambda: above.inserted or self.ended(), 120)
        self.say("--- the loader's gateway stalls")
        above.panel.stalled = []
        self.loop.run(lambda: above.drive["out"] or self.ended(), 120)
        self.loop.run(lambda: self.gap.is_left, 120 if self.words.no_rule else 3 * self.words.crosses)
        self.relay.break_now()
        self.loop.run(lambda: self.told["settles"] or self.told["opens"] > 1 or self.ended(), 120)
        self.say("--- the loader's gateway goes on")
        above.panel.goes_on()
        return self.loop.run(self.is_done, 120)

    # the end
    def rest(self):
        """No more breaks: the last handover is settled, both nodes show what they keep, and end."""
        self.is_random, self.is_over = False, True
        self.loop.run(lambda: self.ended() or not (self.above.greets or self.below.greets), 30)
        for _ in range(6 if self.words.no_rule else 30):
            self.above.show()
            self.below.show()
            self.loop.run(self.ended, 1.0)
            kept, other = self.shown()
            if self.ended() or (len(kept) == self.words.boards and not other):
                break
        for control in (self.above, self.below):
            control.say("end")
        self.loop.run(lambda: not (self.upper.is_open or self.lower.is_open), 30)

    def shown(self):
        """The records that the printer keeps, and all others."""
        kept = [what[1] for what in self.below.shown if what[0] == "2"]
        return kept, self.above.shown + [what for what in self.below.shown if what[0] != "2"]

    def judged(self):
        """What line check says of the merged log, and what is wrong with the boards and the records."""
        wrong = []
        names = self.above.inserted
        kept, other = self.shown()
        if self.gap.below != list(range(1, self.words.boards + 1)):
            wrong.append(f"boards in the printer: {self.gap.below}, between: {self.gap.board}, in the loader: {self.gap.above}")
        if kept != names or len(set(names)) != self.words.boards:
            wrong.append(f"{len(kept)} records in the printer, of {len(names)} that the loader made")
        wrong += [f"besides them: show {' '.join(what)}" for what in other]
        for node in (self.upper, self.lower):
            if node.process.wait() != 0:
                wrong.append(f"{node.name} ended with {node.process.returncode}")
        verdict = subprocess.run([self.words.line, "check"], input=b"".join(self.merged), stdout=subprocess.PIPE, check=False)
        said = verdict.stdout.decode().strip()
        if verdict.returncode != 0:
            wrong.append(f"line check says {said or verdict.returncode}")
            at = said.split()
            if len(at) > 1 and at[0] == "no":
                wrong.append(f"line {at[1]} is: {self.merged[int(at[1]) - 1].decode().strip()}")
        return said, wrong

    def keep(self, folder):
        os.makedirs(folder, exist_ok=True)
        for name, lines in (("loader.log", self.upper.logged), ("printer.log", self.lower.logged)):
            with open(os.path.join(folder, name), "wb") as file:
                file.writelines(line + b"\n" for line in lines)
        with open(os.path.join(folder, "merged.log"), "wb") as file:
            file.writelines(self.merged)


def read_words():
    read = argparse.ArgumentParser(prog="two-nodes", usage=__doc__.partition("usage: ")[2])
    for name, kind, value in (("boards", int, 100), ("breaks", float, 0.08), ("panels", float, 0.01), ("faults", float, 0.05),
                              ("seed", int, 1), ("crosses", float, 0.2), ("late", float, 0.0), ("reconnect", float, 0.1), ("keep", str, None),
                              ("node", str, os.path.join(TOP, "crates", "node", "out", "node")),
                              ("line", str, os.path.join(TOP, "bin", "line"))):
        read.add_argument(f"--{name}", type=kind, default=value)
    for name in ("no-rule", "story", "watch"):
        read.add_argument(f"--{name}", action="store_true")
    words = read.parse_args()
    if words.story:
        words.boards, words.faults, words.watch = 1, 0.0, True
    return words


def main():
    words = read_words()
    with tempfile.TemporaryDirectory() as folder:
        play = Play(words, folder)
        try:
            in_time = play.story() if words.story else play.random_play()
            seconds = time.monotonic() - play.began
            play.rest()
            said, wrong = play.judged()
        finally:
            for node in (play.upper, play.lower):
                node.process.kill()
            if words.keep:
                play.keep(words.keep)
    if not in_time:
        wrong.insert(0, "the boards weren't through in time")
    counts = play.gap.counts
    print(f"{counts['handed']} of {words.boards} boards handed over in {seconds:.0f} s, seed {words.seed}: the connection broke "
          f"{play.relay.breaks} times, panels {play.panel_breaks}, drives {counts['faults']}; {counts['held']} times a board was "
          f"held, {counts['back']} run back, {counts['pushed']} pushed in")
    print(f"line check: {said}")
    for why in wrong:
        print(f"WRONG: {why}")
    if not wrong:
        print(f"each of {words.boards} boards lies in the printer, in order, and its record is kept there, once")
    return 1 if wrong else 0


if __name__ == "__main__":
    sys.exit(main())
