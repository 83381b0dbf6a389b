"""The ctypes module, each of its calls; what it prints is bindings.out, as what bindings.cpp prints.

usage: bindings.py FOLDER LIBRARY, the folder of hermes_machine.py and the shared object
"""
import sys

sys.dont_write_bytecode = True
sys.path.insert(0, sys.argv[1])
import hermes_machine as hermes  # noqa: E402

NOON = 1790000000000


def answer_to(call):
    try:
        call()
        return 0
    except hermes.Refused as why:
        return why.answer


def show_acts(what, m):
    for act, text in m.acts():
        print(f"{what}: {act.kind} {text}")


library = hermes.load(sys.argv[2])
m = hermes.Machine(library, 7, "Loader")
print("new", answer_to(lambda: hermes.Machine(library, 7, "Loader", lane=0)), answer_to(lambda: hermes.Machine(library, 7, "")), 0)
print("insert", m.step(hermes.INSERT, NOON, what=1, data=b"4711"))
show_acts("insert", m)
print("line", m.line("hold in", NOON), answer_to(lambda: m.line("hold up", NOON)))
print("log 0", m.log(), end="")
board, fields = m.boards()[0]
print("board 0 quality", board.quality, fields["created_by"], fields["top_barcode"], fields.get("width", "none"))
print("mark", m.step(hermes.MARK, NOON, what=1, id=bytes(board.id)))
show_acts("mark", m)
print("remove", m.step(hermes.REMOVE, NOON, id=bytes(board.id)[:15] + b"\x09"))
m.step(hermes.SUPERVISE, NOON, what=1)
m.step(hermes.ASK, NOON, what=1, data=b"W")
print("order", hermes.NONE if m.order(1) is None else 0, end=" ")
m.step(hermes.ANSWER, NOON, query=1, data=b"WO-7")
print(0, m.order(1))
print("connected", m.step(hermes.CONNECTED, NOON, side=hermes.ENTRY), "waits", int(len(m.unsent(hermes.ENTRY)) > 0), end=" ")
m.sent(hermes.ENTRY, len(m.unsent(hermes.ENTRY)))
print(len(m.unsent(hermes.ENTRY)))
m.supervisor_bytes(b'<Hermes><SupervisoryServiceDescription SystemId="S" Version="1.0"/></Hermes>')
print("supervisor 0", int(m.supervisor_message(NOON)), int(m.supervisor_message(NOON)), int(m.supervisor_message(NOON)), end=" ")
print(int(b'"Loader"' in m.unsent(hermes.SUPERVISOR)), end=" ")
m.supervisor_second(NOON)
print(int(b"already connected" in m.unsent(hermes.REFUSAL)), end=" ")
m.supervisor_closed(NOON)
print(len(m.unsent(hermes.SUPERVISOR)), m.view().supervised)
view = m.view()
print("view 0 kept", view.kept, "ids", view.ids_made, "state", view.state[0])
m.close()
print("freed", answer_to(m.view))
