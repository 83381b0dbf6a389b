"""A model of two neighbouring conveyors with their controls, which speak to their nodes' panels as the gateway of a PLC would.

`Control` is what to look at: it obeys the rule for a control (docs/guide/machine-builder.md, 'The rule for a control'). It tells each
event that its sensors see once and in order; a board is let go, or taken across, only after the reading. `Gap` is
the place between two conveyors with the sensors of both, `Panel` a connection to a panel, and `Loop` the clock.
`examples/two-nodes --boards 100` plays them.

A line from a panel has its turn in front, as in the log: `12 drive 1 out on`, `15 reads 1 out Begun`.
"""
import heapq
import selectors
import socket
import time


class Loop:
    """Calls what is due and what can be read, one after the other."""

    def __init__(self):
        self.timers, self.number = [], 0
        self.ready = selectors.DefaultSelector()
        self.before_acting = lambda: None   # called after all reading, before what was read is acted on

    def after(self, seconds, call):
        self.number += 1
        heapq.heappush(self.timers, (time.monotonic() + seconds, self.number, call))

    def reads(self, source, read):
        """`read` is called where there is something to read, and answers what is then to be done, a call or None."""
        self.ready.register(source, selectors.EVENT_READ, read)

    def leaves(self, source):
        self.ready.unregister(source)

    def turn(self):
        wait = max(0.0, self.timers[0][0] - time.monotonic()) if self.timers else 1.0
        found = [key.data() for key, _ in self.ready.select(wait)]
        self.before_acting()
        for act in found:
            if act is not None:
                act()
        while self.timers and self.timers[0][0] <= time.monotonic():
            heapq.heappop(self.timers)[2]()

    def run(self, done, seconds):
        """Whether `done` came true within that time."""
        end = time.monotonic() + seconds
        while not done():
            if time.monotonic() > end:
                return False
            self.turn()
        return True


class Panel:
    """The connection to a node's panel: whole lines out and in, and a new connection where it broke."""

    def __init__(self, loop, port, late=0.0):
        self.loop, self.port, self.late = loop, port, late   # late: how slow the gateway is, in seconds
        self.stalled = None                                  # lines that wait while it says nothing at all
        self.socket, self.text = None, b""
        self.told = lambda line: None
        self.came = lambda: None
        loop.after(0.0, self.connect)

    def connect(self):
        try:
            self.socket = socket.create_connection(("127.0.0.1", self.port), 1)
        except OSError:
            self.loop.after(0.1, self.connect)
            return
        self.socket.setblocking(False)
        self.text = b""
        self.loop.reads(self.socket, self.read)
        self.came()

    def say(self, line):
        """A line goes with its connection: the control says it again where it has to."""
        way = self.socket
        if self.stalled is not None:
            self.stalled.append(line)
        elif self.late:
            self.loop.after(self.late, lambda: self.send(way, line))
        else:
            self.send(way, line)

    def goes_on(self):
        lines, self.stalled = self.stalled, None
        for line in lines:
            self.say(line)

    def send(self, way, line):
        if way is None or way is not self.socket:
            return
        try:
            way.sendall(line.encode() + b"\n")
        except OSError:
            self.breaks()

    def read(self):
        try:
            piece = self.socket.recv(65536)
        except OSError:
            piece = b""
        return (lambda: self.takes(piece)) if piece else self.breaks

    def takes(self, piece):
        *lines, self.text = (self.text + piece).split(b"\n")
        for line in lines:
            self.told(line.decode())

    def breaks(self):
        if self.socket is not None:
            self.loop.leaves(self.socket)
            self.socket.close()
            self.socket = None
            self.loop.after(0.1, self.connect)


class Control:
    """The control of one machine: the last word on its drives, and what its sensors saw that wasn't read yet."""

    def __init__(self, panel, loop, reconnect=1.0, calls=False):
        self.panel, self.loop, self.reconnect = panel, loop, reconnect
        self.drive = {"in": False, "out": False}
        self.unread = []               # side, event, and what is to be done after the reading
        self.greets = 2                # a new connection is told both drives first, and is used after them
        self.changes = lambda: None    # called where a drive changed
        self.wanted, self.inserted, self.shown, self.failed = [], [], [], set()
        self.shown_in = None           # the turn of what was shown last
        self.reads_in_log, self.reads_heard = [], 0
        self.log_drive, self.inserted_in_log = {"in": False, "out": False}, []
        self.is_linked = False         # to the upstream neighbour, as far as this connection of the panel told
        panel.told, panel.came = self.told, self.came
        if calls:
            self.connects()

    def connects(self):
        """At an even pace until the panel tells of a connection, since a call may fail and nothing says so."""
        if not self.is_linked:
            self.say("connect")
        self.loop.after(self.reconnect, self.connects)

    def say(self, line):
        if not self.greets:
            self.panel.say(line)

    # telling
    def sees(self, side, event, then=None):
        """A sensor saw something. `then` is called after its reading, with whether the drive was on."""
        self.unread.append((side, event, then))
        self.say(f"sense {side} {event}")

    def insert(self, barcode):
        self.wanted.append(barcode)
        self.say(f"insert {barcode}")

    def fails(self, side):
        self.failed.add(side)
        self.say(f"fault {side}")

    def show(self):
        self.shown = []
        self.say("show")

    # hearing
    def told(self, line):
        turn, _, text = line.partition(" ")
        match text.split():
            case ["drive", _, side, word]:
                self.drive[side] = word == "on"
                if self.greets == 1:
                    self.says_again()
                elif self.greets:
                    self.greets -= 1
                self.changes()
            case ["reads", _, side, event]:
                self.is_read(side, event, self.drive[side])
            case ["insert", _, name]:
                self.inserted.append(name)
            case ["connects", _]:
                self.is_linked = True
            case ["notices" | "closes", _, "in"]:
                self.is_linked = False
            case ["show", *what]:
                if turn != self.shown_in:
                    self.shown, self.shown_in = [], turn
                self.shown.append(what)

    def is_read(self, side, event, is_on):
        self.reads_heard += 1
        told_side, told_event, then = self.unread.pop(0)
        if (told_side, told_event) != (side, event):
            raise RuntimeError(f"reads {side} {event} where {told_side} {told_event} comes first")
        if then is not None:
            then(is_on)

    # a broken panel: what was read, though its `reads` was lost on the way, is in the log
    def came(self):
        self.greets, self.is_linked = 2, False

    def logged(self, line):
        """A line of the node's log, which whoever keeps the log hands on."""
        _, _, text = line.partition(" ")
        match text.split():
            case ["drive", _, side, word]:
                self.log_drive[side] = word == "on"
            case ["reads", _, side, event]:
                self.reads_in_log.append((side, event, self.log_drive[side]))
            case ["insert", _, name]:
                self.inserted_in_log.append(name)

    def says_again(self):
        for reading in self.reads_in_log[self.reads_heard:]:
            self.is_read(*reading)
        self.inserted += self.inserted_in_log[len(self.inserted):]
        self.greets = 0
        for barcode in self.wanted[len(self.inserted):]:
            self.say(f"insert {barcode}")
        for side in self.failed:
            self.say(f"fault {side}")
        for side, event, _ in self.unread:
            self.say(f"sense {side} {event}")


class Gap:
    """Between two conveyors. A board's `place` goes from 0, held at the exit, to 1, wholly inside.

    The exit's belt alone moves it up to `MEETS`, both belts up to `LEFT`, and then the entry's belt alone.
    """
    SEEN, MEETS, LEFT = 0.2, 0.3, 0.7
    STEP = 0.01

    def __init__(self, loop, upper, lower, crosses=2.0, by_hand=1.0, rule=True, say=lambda text: None):
        self.loop, self.upper, self.lower, self.rule, self.say = loop, upper, lower, rule, say
        self.crosses = crosses              # seconds that a board takes
        self.by_hand = by_hand              # seconds that a board lies still before it is run back or pushed in
        self.above, self.below = [], []     # the boards of both conveyors, the first to go in front
        self.board, self.place, self.still = None, 0.0, 0.0
        self.asked = False                  # the exit's Begun was told, and isn't done with
        self.is_seen = self.is_left = self.may_take = False
        self.visit = 0
        self.fault_at = None                # side and place: where a drive fails next
        self.counts = dict.fromkeys(("handed", "held", "back", "pushed", "faults"), 0)
        upper.changes = self.asks
        self.moves()

    # the exit: a board is let go after the reading
    def asks(self):
        if not self.upper.drive["out"] or not self.above or self.board is not None or self.asked:
            return
        self.asked = True
        if self.rule:
            self.upper.sees("out", "Begun", self.begins)
        else:
            self.upper.sees("out", "Begun")
            self.begins(True)

    def begins(self, is_on):
        if is_on:
            self.board, self.place, self.still = self.above.pop(0), 0.0, 0.0
            self.say(f"board {self.board} begins")
        else:
            self.counts["held"] += 1
            self.say(f"board {self.above[0]} is held: its drive is off")
            self.upper.sees("out", "Back", self.rests)

    def rests(self, _is_on):
        self.asked = False
        self.asks()

    # the entry: a board is taken across after the reading
    def takes(self, visit, is_on):
        if self.is_seen and visit == self.visit:
            self.may_take = is_on

    # the belts
    def runs(self, side):
        if side == "out":
            return self.upper.drive["out"] and "out" not in self.upper.failed
        return self.lower.drive["in"] and "in" not in self.lower.failed and (self.may_take or not self.rule)

    def moves(self):
        self.loop.after(self.STEP, self.moves)
        if self.board is None:
            return
        self.drive_fails()
        share = self.STEP / self.crosses
        exits, entries = self.runs("out"), self.runs("in")
        if self.is_left:
            goes = entries
        else:
            goes = exits and (entries or self.place < self.MEETS)
        if goes:
            self.place, self.still = self.place + share, 0.0
        else:
            self.still += self.STEP
            self.lies_still(3 * share)
        self.sensors()

    def lies_still(self, share):
        """A board that is still at the exit is run back, one that has left is pushed in."""
        if self.still < self.by_hand:
            return
        if self.is_left and not self.runs("in"):
            self.counts["pushed"] += 1
            self.say(f"board {self.board} is pushed in")
            self.place = 1.0
        elif not self.is_left and not self.runs("out"):
            self.place -= share

    def sensors(self):
        if not self.is_seen and self.place >= self.SEEN:
            self.is_seen, self.visit = True, self.visit + 1
            visit = self.visit
            self.lower.sees("in", "Begun", lambda is_on: self.takes(visit, is_on))
        if self.is_seen and self.place < self.SEEN:
            self.is_seen = self.may_take = False
            self.lower.sees("in", "Back")
        if not self.is_left and self.place >= self.LEFT:
            self.is_left = True
            self.upper.sees("out", "Left", self.rests)
        if self.place >= 1.0:
            self.counts["handed"] += 1
            self.say(f"board {self.board} is in")
            self.below.append(self.gone())
            self.lower.sees("in", "Full")
            self.asks()
        elif self.place <= 0.0 and self.still:
            self.counts["back"] += 1
            self.say(f"board {self.board} is run back")
            self.above.insert(0, self.gone())
            self.upper.sees("out", "Back", self.rests)

    def gone(self):
        """The gap is free again, and what had failed is mended."""
        board, self.board = self.board, None
        self.is_seen = self.is_left = self.may_take = False
        self.upper.failed.discard("out")
        self.lower.failed.discard("in")
        return board

    def drive_fails(self):
        if self.fault_at is None or self.place < self.fault_at[1]:
            return
        side, self.fault_at = self.fault_at[0], None
        if self.runs(side):
            self.counts["faults"] += 1
            self.say(f"the {side} drive fails under board {self.board}")
            (self.upper if side == "out" else self.lower).fails(side)
