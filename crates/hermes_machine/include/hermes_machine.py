"""The calls of hermes_machine.h by ctypes: a class that owns one machine.

The library is a shared object of the archive, as bin/build-c makes it. Names, numbers and answers are those of the header; what it
asks under 'WHAT YOU OWE' holds here too, but for pointers and sizes, which the class sets. One thread at a time for a machine.
"""
import ctypes

ABI = 6
DONE, EMPTY, MEMORY, BAD_INPUT, BAD_TEXT, NOT_EMPTY, NONE = 0, -1, -2, -3, -4, -5, -6
(REFUSED_LONG_LINE, REFUSED_NOT_TEXT, REFUSED_UNKNOWN_WORD, REFUSED_WRONG_COUNT, REFUSED_BAD_NUMBER, REFUSED_BAD_SIDE, REFUSED_BAD_ID,
 REFUSED_BAD_WORD) = -7, -9, -10, -11, -12, -13, -14, -15
ENTRY, EXIT, SUPERVISOR, REFUSAL = range(4)
(NOTHING, CONNECTED, SECOND, BYTES, CLOSED, TICK, SENSED, FAULT, WILL, LEVEL, INSERT, REMOVE, REPLACE, MARK, SHUTDOWN, FORECAST,
 QUERY, ASK, SUPERVISE, ANSWER) = range(20)
SAW_BEGUN, SAW_LEFT, SAW_FULL, SAW_BACK, SAW_TAKEN = range(5)
KEPT, OUTLET, INTAKE = range(3)
FIELDS = ("created_by", "product", "top_barcode", "bottom_barcode", "length", "width", "thickness", "speed", "top_clearance",
          "bottom_clearance", "weight", "order", "batch")
MOST_BYTES = 4096


def _words(*names):
    return [(name, ctypes.c_uint32) for name in names]


class _Handle(ctypes.Structure):
    _fields_ = [("full", ctypes.c_uint64), ("at", ctypes.c_void_p)]


class Profile(ctypes.Structure):
    _fields_ = _words("size", "number", "lane", "capacity", "bridge", "zero") + [("used", ctypes.c_uint64)]


class Input(ctypes.Structure):
    _fields_ = _words("size", "kind", "side", "what", "slot", "zero") + [("id", ctypes.c_uint8 * 16), ("query", ctypes.c_uint64)]


class View(ctypes.Structure):
    _fields_ = (_words("size", "spent", "bridge", "supervised")
                + [(name, ctypes.c_uint32 * many) for name, many in (("state", 2), ("held", 2), ("drive", 2), ("signal", 4), ("close", 4))]
                + [("kept", ctypes.c_uint64), ("acts", ctypes.c_uint64), ("unsent", ctypes.c_uint64 * 4), ("ids_made", ctypes.c_uint64),
                   ("steps", ctypes.c_uint64)])


class Act(ctypes.Structure):
    _fields_ = _words("size", "kind", "side", "what") + [("query", ctypes.c_uint64), ("id", ctypes.c_uint8 * 16), ("other", ctypes.c_uint8 * 16)]


class Board(ctypes.Structure):
    _fields_ = _words("size", "quality", "flip") + [("has", ctypes.c_uint32 * len(FIELDS)), ("id", ctypes.c_uint8 * 16)]


class Refused(Exception):
    """A call answered with an error: `answer` is its number."""

    def __init__(self, call, answer):
        super().__init__(f"{call}: {answer}")
        self.answer = answer


def load(path):
    """The library at a path, with the types of its calls."""
    library = ctypes.CDLL(path)
    handle, u32, u64, size, i32, i64 = ctypes.POINTER(_Handle), ctypes.c_uint32, ctypes.c_uint64, ctypes.c_size_t, ctypes.c_int32, ctypes.c_int64
    taken = ctypes.c_char_p
    for name, answer, *words in (
            ("abi", u32), ("new", i32, handle, ctypes.POINTER(Profile), taken, size), ("free", i32, handle),
            ("step", i32, handle, ctypes.POINTER(Input), taken, size, i64), ("line", i32, handle, taken, size, i64),
            ("supervisor_bytes", i32, handle, taken, size), ("supervisor_message", i32, handle, i64),
            ("supervisor_closed", i32, handle, i64), ("supervisor_second", i32, handle, i64),
            ("view", i32, handle, ctypes.POINTER(View)),
            ("unsent", i64, handle, u32, taken, size), ("sent", i32, handle, u32, size),
            ("act", i32, handle, u32, ctypes.POINTER(Act)), ("act_text", i64, handle, u32, size, taken, size),
            ("log", i64, handle, size, taken, size),
            ("board", i32, handle, u32, u32, ctypes.POINTER(Board)), ("field", i64, handle, u32, u32, u32, taken, size),
            ("order", i64, handle, u64, taken, size)):
        call = getattr(library, f"hermes_machine_{name}")
        call.restype, call.argtypes = answer, words
    if library.hermes_machine_abi() != ABI:
        raise Refused("abi", library.hermes_machine_abi())
    return library


class Machine:
    """One machine. Free it by `close`, or use it in a `with`."""

    def __init__(self, library, number, name, lane=1, capacity=4, bridge=False, used=0):
        self.library, self.handle = library, _Handle()
        profile = Profile(ctypes.sizeof(Profile), number, lane, capacity, int(bridge), 0, used)
        self._call("new", ctypes.byref(profile), name.encode(), len(name.encode()))

    def _call(self, name, *words):
        answer = getattr(self.library, f"hermes_machine_{name}")(ctypes.byref(self.handle), *words)
        if answer < 0:
            raise Refused(name, answer)
        return answer

    def _text(self, name, *words, room=1024):
        to = ctypes.create_string_buffer(room)
        try:
            count = self._call(name, *words, to, room)
            return to.raw[:count]
        except Refused as why:
            if why.answer == NONE:
                return None
            raise

    def _seen(self, name, to, *words):
        to.size = ctypes.sizeof(to)
        try:
            self._call(name, *words, ctypes.byref(to))
            return to
        except Refused as why:
            if why.answer == NONE:
                return None
            raise

    def step(self, kind, now_ms, side=0, what=0, data=b"", slot=0, id=bytes(16), query=0):
        """One step. It answers 0, or the reason why the machine can't take that now; an error is raised."""
        told = Input(ctypes.sizeof(Input), kind, side, what, slot, 0, (ctypes.c_uint8 * 16)(*id), query)
        return self._call("step", ctypes.byref(told), data, len(data), now_ms)

    def line(self, text, now_ms):
        """The step that a line of a panel asks for. It answers 0, or the reason why the machine can't take it now; an error is raised."""
        data = text.encode()
        return self._call("line", data, len(data), now_ms)

    def supervisor_bytes(self, data):
        """These bytes came on the supervisor's connection. An error is raised."""
        self._call("supervisor_bytes", data, len(data))

    def supervisor_message(self, now_ms):
        """Does the next message of those bytes: False where all are done. An error is raised."""
        try:
            self._call("supervisor_message", now_ms)
            return True
        except Refused as why:
            if why.answer == NONE:
                return False
            raise

    def supervisor_closed(self, now_ms):
        """That connection is closed."""
        self._call("supervisor_closed", now_ms)

    def supervisor_second(self, now_ms):
        """A second one was accepted: what waits on REFUSAL is for it."""
        self._call("supervisor_second", now_ms)

    def view(self):
        """How it stands."""
        return self._seen("view", View())

    def unsent(self, way, room=65536):
        """The front of what waits on a way."""
        return self._text("unsent", way, room=room)

    def sent(self, way, count):
        """So many bytes of it were sent."""
        self._call("sent", way, count)

    def acts(self):
        """The acts of the last step, each with its text."""
        found, index = [], 0
        while (act := self._seen("act", Act(), index)) is not None:
            found.append((act, self._whole("act_text", index)))
            index += 1
        return found

    def log(self):
        """The lines of the last step's acts."""
        return self._whole("log")

    def _whole(self, name, *words):
        text = b""
        while more := self._text(name, *words, len(text)):
            text += more
        return text.decode()

    def boards(self, place=KEPT):
        """The records at a place, each as its board and its fields."""
        found, index = [], 0
        while (board := self._seen("board", Board(), place, index)) is not None:
            fields = {name: self._text("field", place, index, f).decode() for f, name in enumerate(FIELDS) if board.has[f]}
            found.append((board, fields))
            index += 1
        return found

    def order(self, query):
        """The work order that a question was answered with, or None."""
        text = self._text("order", query)
        return None if text is None else text.decode()

    def close(self):
        """Frees the machine; it may be called again."""
        self.library.hermes_machine_free(ctypes.byref(self.handle))

    def __enter__(self):
        return self

    def __exit__(self, *why):
        self.close()
